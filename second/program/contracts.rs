//! The contract list (section 2), and what report lines owe to it (section 3).

use crate::forms::{fields, id, names};
use crate::refusals::{ensure, Refusal};
use crate::reports::Report;

/// The most contracts that are listed: contract numbers are 0 to this.
pub const MAX_CONTRACTS: usize = 63;
const MAX_LISTED_NAMES: usize = 255;
const MAX_CONTRACT_ID: usize = 32;

/// The venue at which contracts and index names are not looked at.
const BILATERAL: &[u8; 4] = b"XBIL";

/// Whether a type asks for an option style; none if it is no type.
fn asks_style(text: &[u8]) -> Option<bool> {
    match text {
        b"OP" | b"OP_FU" | b"OP_FW" | b"OP_SW" => Some(true),
        b"AU" | b"CO" | b"FU" | b"FW" | b"OP_SP" | b"OT" | b"SP" | b"SW" | b"SWG" => Some(false),
        _ => None,
    }
}

struct Contract {
    id: Vec<u8>,
    names: Vec<Vec<u8>>,
}

impl Contract {
    /// The contract in a text, and whether it lacks an option style that its type asks for.
    fn parse(text: &[u8]) -> Result<(Contract, bool), Refusal> {
        let lacks = |field| Refusal::plain(51, field);
        let [id_text, type_text, style, name_text] = fields(text).ok_or(lacks(0))?;
        let id = id(id_text, 1, MAX_CONTRACT_ID).ok_or(lacks(1))?.to_vec();
        let asks_style = asks_style(type_text).ok_or(lacks(2))?;
        ensure(matches!(style, [] | [b'A'..=b'Z']), lacks(3))?;
        let names = names(name_text).ok_or(lacks(4))?.iter().map(|name| name.to_vec()).collect();
        Ok((Contract { id, names }, asks_style && style.is_empty()))
    }

    fn repeats_a_name(&self) -> bool {
        self.names.iter().enumerate().any(|(at, name)| self.names[..at].contains(name))
    }
}

/// The contracts listed, in the order in which they were added.
#[derive(Default)]
pub struct Contracts {
    list: Vec<Contract>,
}

impl Contracts {
    /// Adds the contract of a text: its number.
    pub fn add(&mut self, text: &[u8]) -> Result<u8, Refusal> {
        let new = self.addable(text).map_err(|refusal| refusal.within(text))?;
        self.list.push(new);
        Ok(self.list.len() as u8)
    }

    fn addable(&self, text: &[u8]) -> Result<Contract, Refusal> {
        let (new, lacks_style) = Contract::parse(text)?;
        ensure(self.find(&new.id).is_none(), Refusal::plain(52, 1))?;
        ensure(!lacks_style, Refusal::coded(53, 3, "R10D0S0PTM"))?;
        ensure(!new.repeats_a_name(), Refusal::coded(54, 4, "AT1F25E1"))?;
        let listed: usize = self.list.iter().map(|contract| contract.names.len()).sum();
        let fits = self.list.len() < MAX_CONTRACTS && listed + new.names.len() <= MAX_LISTED_NAMES;
        ensure(fits, Refusal::plain(55, 0))?;
        Ok(new)
    }

    /// The contract with this id and its number; numbers start at 1.
    fn find(&self, id: &[u8]) -> Option<(u8, &Contract)> {
        let at = self.list.iter().position(|contract| contract.id == id)?;
        Some((at as u8 + 1, &self.list[at]))
    }

    /// The contract number of a report line, or why the line does not fit the list (section 3).
    pub fn number_for(&self, line: &Report) -> Result<u8, Refusal> {
        if &line.venue == BILATERAL {
            return Ok(0);
        }
        let found = self.find(line.contract);
        let (number, contract) = found.ok_or(Refusal::coded(31, 3, "R1CTCITRAIDE"))?;
        let known = |name: &&[u8]| contract.names.iter().any(|listed| listed == name);
        ensure(line.names.iter().all(known), Refusal::coded(32, 11, "AT1F25E2"))?;
        let clear = !line.names.is_empty() || contract.names.len() < 2;
        ensure(clear, Refusal::coded(33, 11, "AT1F25E3"))?;
        Ok(number)
    }
}
