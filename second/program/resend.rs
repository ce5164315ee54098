//! The program `resend` (section 12).

use crate::lives::{Key, Lives};
use crate::register::read_report;
use crate::reports::Action;
use crate::session::{print, read_line, Answer, Session};
use std::collections::HashMap;
use std::io::{self, BufRead, Write};

/// What every report line begins with.
const REPORT: &[u8] = b"P;";

/// All input lines but the report lines that were refused, with the accepted ones of each key.
/// (Lines that are no commands or out of place stay: they are so again in the second run.)
#[derive(Default)]
struct Journal {
    lines: Vec<Vec<u8>>,
    /// The accepted lines of each key in the order of input: where each stands in `lines`, and its
    /// action.
    accepted: HashMap<Key, Vec<(usize, Action)>>,
}

/// Runs all lines. An accepted report line changes no contracts, so its key can still be read by
/// them afterwards.
fn keep_journal(session: &mut Session, input: &mut impl BufRead) -> io::Result<Journal> {
    let mut journal = Journal::default();
    let mut line = Vec::new();
    while read_line(input, &mut line)? {
        let answer = session.run(&line);
        if let Some(text) = line.strip_prefix(REPORT) {
            match (answer, read_report(&session.register.contracts, text)) {
                (Answer::Accepted, Ok((key, report))) => {
                    journal
                        .accepted
                        .entry(key)
                        .or_default()
                        .push((journal.lines.len(), report.action));
                }
                _ => continue,
            }
        }
        journal.lines.push(line.clone());
    }
    Ok(journal)
}

impl Journal {
    /// Tells for each line whether it is left: an accepted Error drops all lines of its key from
    /// the last New to itself.
    fn left(&self) -> Vec<bool> {
        let mut left = vec![true; self.lines.len()];
        for history in self.accepted.values() {
            let mut life = Vec::new();
            for &(at, action) in history {
                life.push(at);
                if action == Action::Error {
                    life.drain(..).for_each(|dropped| left[dropped] = false);
                }
            }
        }
        left
    }
}

fn print_totals(out: &mut impl Write, lives: &Lives) -> io::Result<()> {
    print(out, &Answer::Positions(lives.positions()))?;
    print(out, &Answer::CheckWord(lives.check_word()))
}

/// The whole program `resend`.
pub fn resend(capacity: usize, input: &mut impl BufRead, out: &mut impl Write) -> io::Result<()> {
    let mut all = Session::new(capacity);
    let journal = keep_journal(&mut all, input)?;
    let mut anew = Session::new(capacity);
    for (line, left) in journal.lines.iter().zip(journal.left()) {
        if !left {
            continue;
        }
        let answer = anew.run(line);
        if let Some(report) = line.strip_prefix(REPORT) {
            out.write_all(report)?;
            out.write_all(b"\n")?;
            if let Answer::Refused(refusal) = answer {
                let text = String::from_utf8_lossy(report);
                eprintln!(
                    "a line left is refused by {}, against section 14: {text}",
                    refusal.number
                );
            }
        }
    }
    print_totals(out, &all.register.lives)?;
    print_totals(out, &anew.register.lives)
}
