//! Keys and lives (section 4), what an accepted line does to them (section 5), totals (section 8).

use crate::contracts::MAX_CONTRACTS;
use crate::forms::Acer;
use crate::refusals::{ensure, Refusal};
use crate::reports::{Action, Kind, Report, Side};
use std::collections::HashMap;

/// What names a life.
#[derive(Clone, Debug, PartialEq, Eq, Hash)]
pub struct Key {
    pub kind: Kind,
    pub id: Vec<u8>,
    pub contract: u8,
    pub venue: [u8; 4],
    pub participant: Acer,
    pub side: Side,
}

impl Key {
    /// The key of a line with this contract number.
    pub fn of(line: &Report, contract: u8) -> Key {
        Key {
            kind: line.kind,
            id: line.id.to_vec(),
            contract,
            venue: line.venue,
            participant: line.participant,
            side: line.side,
        }
    }
}

/// A life is open until an accepted Cancel.
#[derive(Clone, Copy, Debug, PartialEq, Eq)]
pub enum State {
    Open,
    Cancelled,
}

/// What is held under a key; quantity and price in hundred-thousandths.
#[derive(Clone, Copy)]
pub struct Life {
    pub state: State,
    pub time: u32,
    pub quantity: u64,
    pub price: Option<i64>,
}

impl Life {
    /// What an open life under this key adds to the sum of its contract number.
    fn position(&self, key: &Key) -> i64 {
        match (key.kind, key.side) {
            (Kind::Order, _) => 0,
            (Kind::Trade, Side::Buy) => self.quantity as i64,
            (Kind::Trade, Side::Sell) => -(self.quantity as i64),
        }
    }

    fn check_word(&self, key: &Key) -> u64 {
        let kind = if key.kind == Kind::Order { b'O' } else { b'T' };
        let side = if key.side == Side::Buy { b'B' } else { b'S' };
        let mut hash = Fnv::new();
        hash.feed(&key.id);
        hash.feed(b";");
        hash.feed(&key.participant);
        hash.feed(&key.venue);
        hash.feed(&[kind, side, key.contract]);
        hash.feed(&self.quantity.to_le_bytes());
        hash.feed(&self.price.unwrap_or(0).to_le_bytes());
        hash.0
    }
}

/// FNV-1a of 64 bits.
struct Fnv(u64);

impl Fnv {
    fn new() -> Fnv {
        Fnv(14_695_981_039_346_656_037)
    }

    fn feed(&mut self, bytes: &[u8]) {
        for &byte in bytes {
            self.0 = (self.0 ^ u64::from(byte)).wrapping_mul(1_099_511_628_211);
        }
    }
}

/// The sum for each contract number, 0 to 63, in hundred-thousandths.
pub type Positions = [i64; MAX_CONTRACTS + 1];

/// The lives held, at most as many as the capacity.
pub struct Lives {
    capacity: usize,
    held: HashMap<Key, Life>,
}

impl Lives {
    /// Holds nothing yet.
    pub fn new(capacity: usize) -> Lives {
        Lives { capacity, held: HashMap::new() }
    }

    /// The life under a key.
    pub fn find(&self, key: &Key) -> Option<Life> {
        self.held.get(key).copied()
    }

    /// The rows 41 to 47, tried from the top; then what an accepted line does.
    pub fn enter(&mut self, key: Key, line: &Report) -> Result<(), Refusal> {
        let life = self.held.get(&key);
        check_action(key.kind, line.action, life.map(|life| life.state))?;
        // A New finds no life here, so 46 never meets one.
        let in_time = life.is_none_or(|life| line.time >= life.time);
        ensure(in_time, Refusal::plain(46, 8))?;
        let room = line.action != Action::New || self.held.len() < self.capacity;
        ensure(room, Refusal::plain(47, 0))?;
        match line.action {
            Action::New | Action::Modify => {
                let Report { time, quantity, price, .. } = *line;
                self.held.insert(key, Life { state: State::Open, time, quantity, price });
            }
            Action::Cancel => {
                if let Some(life) = self.held.get_mut(&key) {
                    life.state = State::Cancelled;
                    life.time = line.time;
                }
            }
            Action::Error => {
                self.held.remove(&key);
            }
        }
        Ok(())
    }

    fn open(&self) -> impl Iterator<Item = (&Key, &Life)> {
        self.held.iter().filter(|(_, life)| life.state == State::Open)
    }

    /// The position sheet over the open lives.
    pub fn positions(&self) -> Positions {
        let mut sums = [0i64; MAX_CONTRACTS + 1];
        for (key, life) in self.open() {
            let sum = &mut sums[usize::from(key.contract)];
            *sum = sum.wrapping_add(life.position(key));
        }
        sums
    }

    /// The check word over the open lives.
    pub fn check_word(&self) -> u64 {
        self.open().fold(0, |word, (key, life)| word ^ life.check_word(key))
    }
}

/// The rows 41 to 45: whether the action fits the state of the key's life, if there is one.
fn check_action(kind: Kind, action: Action, state: Option<State>) -> Result<(), Refusal> {
    let code = |order, trade| match kind {
        Kind::Order => order,
        Kind::Trade => trade,
    };
    match (action, state) {
        (Action::New, Some(_)) => Err(Refusal::plain(41, 7)),
        (Action::Modify, None | Some(State::Cancelled)) => Err(Refusal::plain(42, 7)),
        (Action::Cancel, None) => Err(Refusal::plain(43, 7)),
        (Action::Cancel, Some(State::Cancelled)) => {
            Err(Refusal::coded(44, 7, code("R2ODOICIMPIUQC", "R1CDUTIDRCIMPDTUQC")))
        }
        (Action::Error, None) => Err(Refusal::coded(45, 7, code("R1LIATORERR", "R1LIATTRERR"))),
        _ => Ok(()),
    }
}
