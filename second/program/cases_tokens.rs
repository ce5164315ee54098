//! The program `cases_tokens`: a checker with two files at a time, look-ups, and answer lines in a
//! buffer (sections 5 to 8 and 10).

use crate::forms::time;
use crate::lives::{Life, State};
use crate::refusals::Refusal;
use crate::register::{name_file, File, Register, Stage};
use crate::session::{print, read_line, Answer};
use std::io::{self, BufRead, Write};

const MAX_ROOM: usize = 1024;

/// A register, and the files whose tokens are in the two hands, with their numbers.
struct Checker {
    register: Register,
    hands: [Option<(usize, File)>; 2],
    named: usize,
}

impl Checker {
    fn new(slots: usize) -> Checker {
        // No store has more than 65536 slots, or none.
        let capacity = if (1..=65_536).contains(&slots) { slots - 1 } else { 0 };
        Checker { register: Register::new(capacity), hands: [None, None], named: 0 }
    }

    /// What is printed of a line, or none where nothing is.
    fn run(&mut self, line: &[u8]) -> Option<String> {
        let said = match line {
            [b'R', b';', code @ ..] => {
                let added = self.register.entities.add(code).map(|()| "entity added".to_string());
                added.unwrap_or_else(|refusal| format!("not added: refused {}", refusal.number))
            }
            [b'K', b';', text @ ..] => {
                let added = self
                    .register
                    .contracts
                    .add(text)
                    .map(|number| format!("contract {number} added"));
                added.unwrap_or_else(|refusal| format!("not added: refused {}", refusal.number))
            }
            [b'L', b';', report @ ..] => match self.register.look_up(report) {
                Ok(life) => life.map_or("no life".to_string(), life_text),
                Err(refusal) => format!("not looked up: {}", refusal_text(&refusal)),
            },
            [b'T', b';', number @ ..] => {
                let number = time(number).filter(|number| *number < 256)?;
                let sums = self.register.lives.positions();
                let sum = sums.get(number as usize).copied().unwrap_or(0);
                format!("position of contract {number}: {sum}")
            }
            [b'B', b';', room @ ..] => self.report(time(room)? as usize)?,
            [letter, hand @ (b'1' | b'2'), rest @ ..] => {
                self.of_file(*letter, usize::from(hand - b'1'), rest)?
            }
            _ => return None,
        };
        Some(said)
    }

    /// A buffer of so many dots, after the positions were written to its front.
    fn report(&self, room: usize) -> Option<String> {
        let mut lines = Vec::new();
        print(&mut lines, &Answer::Positions(self.register.lives.positions())).ok()?;
        let dots = ".".repeat(Some(room).filter(|room| *room <= MAX_ROOM)?);
        match dots.get(lines.len()..) {
            Some(left) => {
                let text = String::from_utf8_lossy(&lines);
                Some(format!("{} bytes written:\n{text}{left}", lines.len()))
            }
            None => Some(format!("nothing written: refused 71:\n{dots}")),
        }
    }

    fn of_file(&mut self, letter: u8, hand: usize, rest: &[u8]) -> Option<String> {
        let text = match (letter, rest) {
            (b'X', []) => return Some(self.end(hand).unwrap_or("no call".to_string())),
            (b'F' | b'I' | b'P', [b';', text @ ..]) => text,
            _ => return None,
        };
        let said = match (letter, &mut self.hands[hand]) {
            (b'F', held @ None) => match name_file(text) {
                Ok(file) => {
                    let number = self.named;
                    self.named += 1;
                    *held = Some((number, file));
                    format!("file {number} named")
                }
                Err(refusal) => format!("no file named: refused {}", refusal.number),
            },
            (b'I', Some((number, file))) if file.stage == Stage::Named => {
                match self.register.identify(file, text) {
                    Ok(()) => format!("file {number} identified"),
                    Err(refusal) => {
                        format!("file {number} still only named: refused {}", refusal.number)
                    }
                }
            }
            (b'P', Some((_, file))) if file.stage == Stage::Identified => {
                match self.register.judge(file, text) {
                    Ok(()) => "line accepted".to_string(),
                    Err(refusal) => format!("line {}", refusal_text(&refusal)),
                }
            }
            _ => "no call".to_string(),
        };
        Some(said)
    }

    fn end(&mut self, hand: usize) -> Option<String> {
        let (_, file) = self.hands[hand].take()?;
        let ended = match file.stage {
            Stage::Named => "withdrawn",
            Stage::Identified => "closed",
        };
        let counts = file.counts;
        Some(format!(
            "{ended}: {} judged, {} accepted, {} refused",
            counts.judged, counts.accepted, counts.refused
        ))
    }

    fn end_all(&mut self, out: &mut impl Write) -> io::Result<()> {
        for hand in [0, 1] {
            if let Some(ended) = self.end(hand) {
                writeln!(out, "{ended}")?;
            }
        }
        Ok(())
    }
}

fn refusal_text(refusal: &Refusal) -> String {
    format!("refused {} field {} offset {}", refusal.number, refusal.field, refusal.offset)
}

fn life_text(life: Life) -> String {
    let state = match life.state {
        State::Open => "open",
        State::Cancelled => "cancelled",
    };
    let price = life.price.map_or("no price".to_string(), |price| format!("price {price}"));
    format!("{state} life: time {}, quantity {}, {price}", life.time, life.quantity)
}

/// The slots that a line asks for which begins with a new checker.
fn slots_asked(line: &[u8]) -> Option<usize> {
    line.strip_prefix(b"N;").and_then(time).map(|slots| slots as usize)
}

/// Answers each line of the input.
pub fn tokens(input: &mut impl BufRead, out: &mut impl Write) -> io::Result<()> {
    let mut checker: Option<Checker> = None;
    let mut line = Vec::new();
    while read_line(input, &mut line)? {
        if let Some(slots) = slots_asked(&line) {
            if let Some(mut last) = checker.replace(Checker::new(slots)) {
                last.end_all(out)?;
            }
        } else if let Some(said) = checker.as_mut().and_then(|checker| checker.run(&line)) {
            writeln!(out, "{said}")?;
        }
    }
    checker.map_or(Ok(()), |mut last| last.end_all(out))
}
