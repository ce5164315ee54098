//! Makes test input: `generate WHAT SEEDS LINES` prints so many input lines for each seed, the same
//! for the same seed. Several seeds have commas between them.
//!
//! WHAT is `checker`, for that program and `resend`; `lines`, `lists`, `stores` or `tokens`, for
//! `cases_lines` and so on; or `million`, for a file with more lines than it may judge. Build:
//! `rustc -O main.rs`. Written from RULES.md alone, and from the heads of the `cases` programs.

mod checker;
mod forms;
mod lists;
mod million;
mod rng;
mod stores;
mod tokens;

use std::io::Write;
use std::process::ExitCode;

fn main() -> ExitCode {
    let arguments: Vec<String> = std::env::args().skip(1).collect();
    let [what, seeds, lines] = &arguments[..] else {
        eprintln!("generate WHAT SEEDS LINES");
        return ExitCode::from(2);
    };
    let make = match what.as_str() {
        "checker" => checker::checker,
        "lines" => lists::lines,
        "lists" => lists::lists,
        "stores" => stores::stores,
        "tokens" => tokens::tokens,
        "million" => million::million,
        _ => {
            eprintln!("nothing to make: {what}");
            return ExitCode::from(2);
        }
    };
    let seeds: Result<Vec<u64>, _> = seeds.split(',').map(str::parse).collect();
    let (Ok(seeds), Ok(lines)) = (seeds, lines.parse()) else {
        eprintln!("SEEDS and LINES are numbers, and not {} and {}", arguments[1], arguments[2]);
        return ExitCode::from(2);
    };
    let inputs: Vec<Vec<u8>> = seeds.iter().map(|seed| make(*seed, lines)).collect();
    match std::io::stdout().write_all(&inputs.concat()) {
        Ok(()) => ExitCode::SUCCESS,
        Err(_) => ExitCode::FAILURE,
    }
}
