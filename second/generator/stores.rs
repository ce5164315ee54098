//! Inputs of `cases_stores`: steps for both stores, over tables of many lengths.

use crate::forms::{KINDS, SIDES, VENUES};
use crate::rng::{joined, Rng, Text};

const PARTICIPANTS: [&str; 3] = ["A0000000A.EU", "C0643778W.EU", "C0643778W.DE"];

/// Table lengths at the edges of what the stores allow.
const LENGTHS: [usize; 10] =
    [0, 1, 2, 65_534, 65_535, 65_536, 65_537, 131_072, 4_294_967_294, 4_294_967_295];

/// Lines that are no steps, or whose key lacks a part or has one out of bounds.
const NO_STEPS: [&str; 14] = [
    "", "find", "put", "empty ", "take TRD a 1 B", "put TRD a 64 B", "put TRD a 1 X",
    "put OTH a 1 B", "put TRD a 1 B XBI", "put TRD a 1 B XBIL A0000000A.E", "find TRD a 1",
    "PUT TRD a 1 B", "remove TRD a -1 B", "find TRD a 4294967296 B",
];

/// The parts of a key, in the order in which they are written.
#[derive(Clone)]
struct Key([Text; 6]);

impl Key {
    fn new(rng: &mut Rng) -> Key {
        let short = rng.range(1, 4);
        let id = match rng.below(8) {
            0 => Vec::new(),
            1 => rng.id(52, 52),
            2 => rng.id(1, 52),
            _ => rng.bytes(short, b"ab"),
        };
        let contract = rng.below(64).to_string().into_bytes();
        let participant = rng.pick(&PARTICIPANTS).as_bytes().to_vec();
        Key([rng.text(&KINDS), id, contract, rng.text(&SIDES), rng.text(&VENUES), participant])
    }

    /// A key that differs from this one in one part, if at all. Ids that begin one another are near
    /// in the order.
    fn sibling(&self, rng: &mut Rng) -> Key {
        let mut sibling = self.clone();
        let part = rng.below(7);
        let id = &mut sibling.0[1];
        match part {
            1 if id.len() < 52 => id.push(*rng.pick(b"!aZ~")),
            6 => drop(id.pop()),
            _ => sibling.0[part] = Key::new(rng).0[part].clone(),
        }
        sibling
    }

    /// The key as a step has it; the last two parts are left out where they are the usual ones.
    fn text(&self) -> Text {
        let usual = self.0[4] == b"XBIL" && self.0[5] == PARTICIPANTS[0].as_bytes();
        let parts = if usual { &self.0[..4] } else { &self.0[..] };
        parts.join(&b' ')
    }
}

/// So many lines.
pub fn stores(seed: u64, target: usize) -> Text {
    let mut rng = Rng::new(seed);
    let mut lines: Vec<Text> =
        LENGTHS.iter().map(|length| format!("length {length}").into_bytes()).collect();
    while lines.len() < target {
        let (slots, entries, steps) = match rng.below(12) {
            // Tables that are not allowed, and the largest ones.
            0 => (*rng.pick(&[0, 65_537]), *rng.pick(&[0, 65_536]), 20),
            1 => (65_536, 65_535, 60),
            2 => (rng.range(20, 200), rng.range(20, 200), 600),
            3 => (rng.range(1, 12), rng.range(0, 12), 150),
            _ => {
                let room = rng.range(0, 14);
                (room + 1, room, 150)
            }
        };
        lines.push(format!("tables {slots} {entries}").into_bytes());
        drive(&mut rng, &mut lines, slots.min(200) + 3, steps);
    }
    joined(lines, target)
}

/// Steps over so many keys, in turns that fill the stores and turns that clear them.
fn drive(rng: &mut Rng, lines: &mut Vec<Text>, count: usize, steps: usize) {
    let mut keys = vec![Key::new(rng)];
    while keys.len() < count {
        let key =
            if rng.percent(60) { rng.pick(&keys).clone().sibling(rng) } else { Key::new(rng) };
        keys.push(key);
    }
    let mut puts = 60;
    for _ in 0..steps {
        if rng.percent(4) {
            puts = 80 - puts;
        }
        let key = rng.pick(&keys).text();
        let line = match rng.below(100) {
            0 if rng.percent(40) => b"empty".to_vec(),
            1 => rng.pick(&NO_STEPS).as_bytes().to_vec(),
            least if least < puts => [b"put ".to_vec(), key].concat(),
            least if least < 80 => [b"remove ".to_vec(), key].concat(),
            _ => [b"find ".to_vec(), key].concat(),
        };
        lines.push(line);
    }
    // What is left, key by key.
    lines.extend(keys.iter().map(|key| [b"find ".to_vec(), key.text()].concat()));
}
