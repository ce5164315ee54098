//! The commands of `checker`, and what is printed (section 11).

use crate::lives::Positions;
use crate::refusals::Refusal;
use crate::register::{name_file, File, Receipt, Register};
use std::io::{self, BufRead, Write};

const MAX_INPUT_LINE: usize = 514;

/// What a command is answered.
pub enum Answer {
    Accepted,
    Refused(Refusal),
    Positions(Positions),
    CheckWord(u64),
    Receipt(Receipt),
}

impl<T> From<Result<T, Refusal>> for Answer {
    fn from(result: Result<T, Refusal>) -> Answer {
        result.map_or_else(Answer::Refused, |_| Answer::Accepted)
    }
}

/// A register, and the file in hand.
pub struct Session {
    pub register: Register,
    in_hand: Option<File>,
}

impl Session {
    /// Begins with a new register for so many lives.
    pub fn new(capacity: usize) -> Session {
        Session { register: Register::new(capacity), in_hand: None }
    }

    /// Answers one input line, which stands without its line feed.
    pub fn run(&mut self, line: &[u8]) -> Answer {
        if line.len() > MAX_INPUT_LINE {
            return Answer::Refused(Refusal::plain(1, 0));
        }
        let register = &mut self.register;
        match (line, &mut self.in_hand) {
            ([b'R', b';', code @ ..], _) => register.entities.add(code).into(),
            ([b'K', b';', contract @ ..], _) => register.contracts.add(contract).into(),
            ([b'F', b';', name @ ..], None) => {
                name_file(name).map(|file| self.in_hand = Some(file)).into()
            }
            ([b'I', b';', code @ ..], Some(file)) => register.identify(file, code).into(),
            ([b'P', b';', report @ ..], Some(file)) => register.judge(file, report).into(),
            (b"T", _) => Answer::Positions(register.lives.positions()),
            (b"W", _) => Answer::CheckWord(register.lives.check_word()),
            (b"X", _) => self.end().map_or_else(Answer::Refused, Answer::Receipt),
            _ => Answer::Refused(Refusal::OUT_OF_PLACE),
        }
    }

    /// The receipt of the file in hand.
    fn end(&mut self) -> Result<Receipt, Refusal> {
        self.in_hand.take().map(|file| file.counts).ok_or(Refusal::OUT_OF_PLACE)
    }
}

/// Prints an answer.
pub fn print(out: &mut impl Write, answer: &Answer) -> io::Result<()> {
    match answer {
        Answer::Accepted => writeln!(out, "A"),
        Answer::Refused(Refusal { number, field, code, .. }) => {
            writeln!(out, "R {number} {field} {code}")
        }
        Answer::CheckWord(word) => writeln!(out, "W {word:016x}"),
        Answer::Receipt(Receipt { judged, accepted, refused }) => {
            writeln!(out, "Z {judged} {accepted} {refused}")
        }
        Answer::Positions(sums) => {
            for (contract, sum) in sums.iter().enumerate().filter(|(_, sum)| **sum != 0) {
                writeln!(out, "T {contract} {sum}")?;
            }
            Ok(())
        }
    }
}

/// Reads the next line, without its line feed; false at the end of input.
pub fn read_line(input: &mut impl BufRead, line: &mut Vec<u8>) -> io::Result<bool> {
    line.clear();
    let read = input.read_until(b'\n', line)?;
    if line.last() == Some(&b'\n') {
        line.pop();
    }
    Ok(read > 0)
}

/// The whole program `checker`.
pub fn check(capacity: usize, input: &mut impl BufRead, out: &mut impl Write) -> io::Result<()> {
    let mut session = Session::new(capacity);
    let mut line = Vec::with_capacity(MAX_INPUT_LINE + 1);
    while read_line(input, &mut line)? {
        print(out, &session.run(&line))?;
    }
    if let Ok(receipt) = session.end() {
        print(out, &Answer::Receipt(receipt))?;
    }
    Ok(())
}
