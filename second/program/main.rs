//! The second program: `checker`, `resend` and the `cases` programs once more, in plain Rust.
//!
//! Written from docs/RULES.md alone ("section n" is a section of that page), and for the `cases`
//! programs from the heads of their main.rt, which say what they read. Build: `rustc -O main.rs`.
//! Use: `second [--slots=N] [--resend] < input > output`, and `second --lines`, `--lists`,
//! `--stores` or `--tokens` for `cases_lines`, `cases_lists`, `cases_stores` and `cases_tokens`.
//!
//! The lives stand in one hash map by key; the store of section 9 is here only the capacity, which
//! is slots - 1. Totals are told by going through all lives anew, as section 8 defines them.

mod cases_lines;
mod cases_lists;
mod cases_stores;
mod cases_tokens;
mod contracts;
mod forms;
mod lives;
mod refusals;
mod register;
mod reports;
mod resend;
mod session;

use std::io::{self, BufWriter, Write};
use std::process::ExitCode;

const MAX_SLOTS: u32 = 65_536;
const DEFAULT_SLOTS: u32 = 256;

#[derive(Clone, Copy)]
enum Program {
    Checker,
    Resend,
    Lines,
    Lists,
    Stores,
    Tokens,
}

struct Options {
    slots: u32,
    program: Program,
}

/// Reads the options; of several numbers of slots, and of several programs, the last counts.
fn options() -> Result<Options, String> {
    let mut options = Options { slots: DEFAULT_SLOTS, program: Program::Checker };
    for argument in std::env::args_os().skip(1) {
        let bytes = argument.as_encoded_bytes();
        options.program = match bytes {
            b"--resend" => Program::Resend,
            b"--lines" => Program::Lines,
            b"--lists" => Program::Lists,
            b"--stores" => Program::Stores,
            b"--tokens" => Program::Tokens,
            _ => {
                let slots = bytes.strip_prefix(b"--slots=").and_then(forms::time);
                options.slots = slots
                    .ok_or_else(|| format!("not an option: {}", argument.to_string_lossy()))?;
                options.program
            }
        };
        if !(1..=MAX_SLOTS).contains(&options.slots) {
            return Err(format!(
                "72: the number of slots is 1 to {MAX_SLOTS}, not {}",
                options.slots
            ));
        }
    }
    Ok(options)
}

fn run(options: &Options) -> io::Result<()> {
    let capacity = options.slots as usize - 1;
    let mut input = io::stdin().lock();
    let mut out = BufWriter::with_capacity(1 << 16, io::stdout().lock());
    match options.program {
        Program::Checker => session::check(capacity, &mut input, &mut out)?,
        Program::Resend => resend::resend(capacity, &mut input, &mut out)?,
        Program::Lines => cases_lines::lines(&mut input, &mut out)?,
        Program::Lists => cases_lists::lists(&mut input, &mut out)?,
        Program::Stores => cases_stores::stores(&mut input, &mut out)?,
        Program::Tokens => cases_tokens::tokens(&mut input, &mut out)?,
    }
    out.flush()
}

fn main() -> ExitCode {
    let options = match options() {
        Ok(options) => options,
        Err(sentence) => {
            eprintln!("{sentence}");
            return ExitCode::from(2);
        }
    };
    match run(&options) {
        Ok(()) => ExitCode::SUCCESS,
        Err(error) => {
            eprintln!("input or output fails: {error}");
            ExitCode::FAILURE
        }
    }
}
