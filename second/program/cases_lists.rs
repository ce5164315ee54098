//! The program `cases_lists`: the contract list, the entity list and file names.

use crate::contracts::Contracts;
use crate::forms::entity_in_name;
use crate::refusals::Refusal;
use crate::register::Entities;
use crate::reports::Report;
use crate::session::read_line;
use std::io::{self, BufRead, Write};

#[derive(Default)]
struct Lists {
    contracts: Contracts,
    entities: Entities,
}

impl Lists {
    fn name(&self, name: &[u8]) -> Result<String, Refusal> {
        let (code, offset) = entity_in_name(name).ok_or(Refusal::plain(64, 0))?;
        let known = if self.entities.know(&code) { "known" } else { "not known" };
        Ok(format!("entity {} at {offset}, {known}", String::from_utf8_lossy(&code)))
    }

    /// The contract number of a report line.
    fn number_of(&self, line: &[u8]) -> Result<String, Refusal> {
        let report = Report::parse(line)?;
        let number = self.contracts.number_for(&report).map_err(|refusal| refusal.within(line))?;
        Ok(format!("contract number {number}"))
    }
}

/// Answers each line of the input.
pub fn lists(input: &mut impl BufRead, out: &mut impl Write) -> io::Result<()> {
    let mut lists = Lists::default();
    let mut line = Vec::new();
    while read_line(input, &mut line)? {
        let answer = match &line[..] {
            b"N" => {
                lists = Lists::default();
                continue;
            }
            [b'K', b';', text @ ..] => {
                lists.contracts.add(text).map(|number| format!("contract {number}"))
            }
            [b'R', b';', code @ ..] => {
                lists.entities.add(code).map(|()| "entity added".to_string())
            }
            [b'F', b';', name @ ..] => lists.name(name),
            [b'P', b';', report @ ..] => lists.number_of(report),
            heading => {
                out.write_all(heading)?;
                writeln!(out)?;
                continue;
            }
        };
        match answer {
            Ok(text) => writeln!(out, "{text}")?,
            Err(refusal) => print_refusal(out, &refusal)?,
        }
    }
    Ok(())
}

fn print_refusal(out: &mut impl Write, refusal: &Refusal) -> io::Result<()> {
    let Refusal { number, field, offset, code } = refusal;
    write!(out, "refused {number} field {field} offset {offset}")?;
    match *code {
        "-" => writeln!(out),
        code => writeln!(out, " code {code}"),
    }
}
