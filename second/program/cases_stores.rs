//! The program `cases_stores`: the two stores step by step (section 9). Here both are a map of
//! times by keys, with the capacity that a table of so many places gives.

use crate::forms::{one_of, time, Acer};
use crate::lives::Key;
use crate::reports::{KINDS, SIDES};
use crate::session::read_line;
use std::collections::HashMap;
use std::convert::TryInto;
use std::io::{self, BufRead, Write};

const MAX_SLOTS: usize = 65_536;
const MAX_ENTRIES: usize = 65_535;

/// 72 where a table may not have so many places, and else 0.
fn length_refusal(length: usize, most: usize) -> u8 {
    if (1..=most).contains(&length) {
        0
    } else {
        72
    }
}

struct Store {
    capacity: usize,
    times: HashMap<Key, u32>,
}

impl Store {
    fn new(capacity: usize) -> Store {
        Store { capacity, times: HashMap::new() }
    }

    fn chained(slots: usize) -> Store {
        Store::new(if length_refusal(slots, MAX_SLOTS) == 0 { slots - 1 } else { 0 })
    }

    fn ordered(entries: usize) -> Store {
        Store::new(if length_refusal(entries, MAX_ENTRIES) == 0 { entries } else { 0 })
    }

    fn answer(&mut self, step: &Step, time: u32) -> String {
        match step {
            Step::Put(key) => {
                if !self.times.contains_key(key) && self.times.len() >= self.capacity {
                    return "full".to_string();
                }
                self.times.insert(key.clone(), time);
                "put".to_string()
            }
            Step::Find(key) => {
                self.times.get(key).map_or("none".to_string(), |time| format!("life of {time}"))
            }
            Step::Remove(key) => {
                self.times.remove(key);
                "done".to_string()
            }
            Step::Empty => {
                self.times.clear();
                "done".to_string()
            }
        }
    }
}

enum Step {
    Put(Key),
    Find(Key),
    Remove(Key),
    Empty,
}

impl Step {
    fn of(words: &[&[u8]]) -> Option<Step> {
        let (act, key) = words.split_first()?;
        match *act {
            b"put" => key_of(key).map(Step::Put),
            b"find" => key_of(key).map(Step::Find),
            b"remove" => key_of(key).map(Step::Remove),
            b"empty" => Some(Step::Empty),
            _ => None,
        }
    }
}

fn key_of(words: &[&[u8]]) -> Option<Key> {
    let [kind, id, contract, side, rest @ ..] = words else {
        return None;
    };
    let venue: &[u8] = rest.first().unwrap_or(&&b"XBIL"[..]);
    let participant: &[u8] = rest.get(1).unwrap_or(&&b"A0000000A.EU"[..]);
    let participant: Acer = participant.try_into().ok()?;
    let contract = time(contract).filter(|number| *number < 64)? as u8;
    (id.len() <= 52).then_some(())?;
    Some(Key {
        kind: one_of(kind, &KINDS)?,
        id: id.to_vec(),
        contract,
        venue: venue.try_into().ok()?,
        participant,
        side: one_of(side, &SIDES)?,
    })
}

/// The numbers that words stand for, if there are so many.
fn numbers<const N: usize>(words: &[&[u8]]) -> Option<[usize; N]> {
    let numbers: Option<Vec<usize>> =
        words.iter().map(|word| time(word).map(|n| n as usize)).collect();
    numbers?.try_into().ok()
}

/// Answers each line of the input.
pub fn stores(input: &mut impl BufRead, out: &mut impl Write) -> io::Result<()> {
    let mut stores: Option<(Store, Store)> = None;
    let mut number = 0;
    let mut line = Vec::new();
    while read_line(input, &mut line)? {
        let words: Vec<&[u8]> = line.split(|&byte| byte == b' ').collect();
        match (words[0], &mut stores) {
            (b"length", _) => {
                stores = None;
                if let Some([n]) = numbers(&words[1..]) {
                    let (c, o) = (length_refusal(n, MAX_SLOTS), length_refusal(n, MAX_ENTRIES));
                    writeln!(out, "length {n}: {c}, {o}")?;
                }
            }
            (b"tables", _) => {
                stores = numbers(&words[1..])
                    .map(|[slots, entries]| (Store::chained(slots), Store::ordered(entries)));
                number = 0;
                if let Some((chained, ordered)) = &stores {
                    writeln!(out, "capacity: {}, {}", chained.capacity, ordered.capacity)?;
                }
            }
            (_, Some((chained, ordered))) => {
                number += 1;
                if let Some(step) = Step::of(&words) {
                    let (c, o) = (chained.answer(&step, number), ordered.answer(&step, number));
                    write!(out, "{number} ")?;
                    out.write_all(&line)?;
                    writeln!(out, ": {c}, {o}")?;
                }
            }
            _ => (),
        }
    }
    Ok(())
}
