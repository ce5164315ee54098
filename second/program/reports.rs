//! Report lines (section 3).

use crate::forms::{acer, fields, id, names, one_of, price, quantity, time, venue, Acer};
use crate::refusals::{ensure, Refusal};

const MAX_REPORT_LINE: usize = 512;
const MAX_REPORT_ID: usize = 52;
const MAX_CONTRACT_ID: usize = 32;

/// What a line reports.
#[derive(Clone, Copy, Debug, PartialEq, Eq, Hash)]
pub enum Kind {
    Order,
    Trade,
}

/// Whether the participant buys or sells.
#[derive(Clone, Copy, Debug, PartialEq, Eq, Hash)]
pub enum Side {
    Buy,
    Sell,
}

/// What a line does with a life.
#[derive(Clone, Copy, Debug, PartialEq, Eq)]
pub enum Action {
    New,
    Modify,
    Error,
    Cancel,
}

/// The words of kinds.
pub const KINDS: [(&str, Kind); 2] = [("ORD", Kind::Order), ("TRD", Kind::Trade)];
/// The words of sides.
pub const SIDES: [(&str, Side); 2] = [("B", Side::Buy), ("S", Side::Sell)];
const ACTIONS: [(&str, Action); 4] =
    [("N", Action::New), ("M", Action::Modify), ("E", Action::Error), ("C", Action::Cancel)];

/// The eleven fields of a report line.
pub struct Report<'a> {
    pub kind: Kind,
    pub id: &'a [u8],
    pub contract: &'a [u8],
    pub venue: [u8; 4],
    pub participant: Acer,
    pub side: Side,
    pub action: Action,
    pub time: u32,
    pub quantity: u64,
    pub price: Option<i64>,
    pub names: Vec<&'a [u8]>,
}

impl<'a> Report<'a> {
    /// What a line says, or the first rule that looks at the line alone and refuses it.
    pub fn parse(text: &'a [u8]) -> Result<Self, Refusal> {
        Report::parse_fields(text).map_err(|refusal| refusal.within(text))
    }

    fn parse_fields(text: &'a [u8]) -> Result<Self, Refusal> {
        let length_fits = (1..=MAX_REPORT_LINE).contains(&text.len());
        ensure(length_fits, Refusal::plain(1, 0))?;
        let field: [&[u8]; 11] = fields(text).ok_or(Refusal::plain(2, 0))?;
        // The members are worked out in the order they stand here, so the first field that lacks
        // its form decides.
        Ok(Report {
            kind: well_formed(1, one_of(field[0], &KINDS))?,
            id: well_formed(2, id(field[1], 1, MAX_REPORT_ID))?,
            contract: well_formed(3, id(field[2], 0, MAX_CONTRACT_ID))?,
            venue: well_formed(4, venue(field[3]))?,
            participant: well_formed(5, acer(field[4]))?,
            side: well_formed(6, one_of(field[5], &SIDES))?,
            action: well_formed(7, one_of(field[6], &ACTIONS))?,
            time: well_formed(8, time(field[7]))?,
            quantity: well_formed(9, quantity(field[8]))?,
            price: well_formed(10, price(field[9]))?,
            names: well_formed(11, names(field[10]))?,
        })
    }
}

fn well_formed<T>(field: u8, value: Option<T>) -> Result<T, Refusal> {
    value.ok_or(Refusal::plain(10 + field, field))
}
