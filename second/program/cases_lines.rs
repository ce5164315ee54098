//! The program `cases_lines`: what each line of the input says as a report line.

use crate::reports::{Action, Kind, Report, Side};
use crate::session::read_line;
use std::io::{self, BufRead, Write};

/// Answers each line of the input.
pub fn lines(input: &mut impl BufRead, out: &mut impl Write) -> io::Result<()> {
    let mut line = Vec::new();
    while read_line(input, &mut line)? {
        match Report::parse(&line) {
            Ok(report) => print_report(out, &report)?,
            Err(refusal) => {
                let (number, field, offset) = (refusal.number, refusal.field, refusal.offset);
                writeln!(out, "refused {number}, field {field}, offset {offset}")?;
            }
        }
    }
    Ok(())
}

fn print_report(out: &mut impl Write, report: &Report) -> io::Result<()> {
    let kind = match report.kind {
        Kind::Order => "order",
        Kind::Trade => "trade",
    };
    let side = match report.side {
        Side::Buy => "buys",
        Side::Sell => "sells",
    };
    let action = match report.action {
        Action::New => "new",
        Action::Modify => "modify",
        Action::Error => "error",
        Action::Cancel => "cancel",
    };
    // Every text in a report that was read is of visible characters.
    let shown = String::from_utf8_lossy;
    let (id, contract) = (shown(report.id), shown(report.contract));
    let (venue, participant) = (shown(&report.venue), shown(&report.participant));
    write!(out, "{kind} {id} of {contract} at {venue}, {participant} {side} {action}")?;
    let price = report.price.map_or("none".to_string(), |price| price.to_string());
    write!(out, " {} {} {price}", report.time, report.quantity)?;
    for name in &report.names {
        write!(out, " [{}]", shown(name))?;
    }
    writeln!(out)
}
