//! Inputs of `cases_lines` and `cases_lists`: lines that inputs of `checker` have.

use crate::checker::mixed;
use crate::rng::{joined, Rng, Text};

/// The mixes of damaged fields, of bytes damaged at random, and of a bit of all.
const LINE_MIXES: [usize; 3] = [3, 7, 6];

/// The mix of long lists, which become full, and those of many files and of damaged fields.
const LIST_MIXES: [usize; 4] = [5, 4, 5, 3];

/// How many input lines of `checker` are made at a time.
const ROUND: usize = 1200;

/// Lines longer than this are left out.
const LONGEST: usize = 1100;

/// So many report lines.
pub fn lines(seed: u64, target: usize) -> Text {
    gather(seed, &LINE_MIXES, target, &[], |line| line.strip_prefix(b"P;"))
}

/// So many lines about contracts, entities, file names and report lines, each round for new lists.
pub fn lists(seed: u64, target: usize) -> Text {
    let letters: [&[u8]; 4] = [b"K;", b"R;", b"F;", b"P;"];
    gather(seed, &LIST_MIXES, target, &[b"N", b"# the next lists"], |line| {
        letters.iter().any(|letter| line.starts_with(letter)).then_some(line)
    })
}

/// So many lines: in each round some that come first, and then what is taken of input lines.
fn gather(
    seed: u64,
    mixes: &[usize],
    target: usize,
    first: &[&[u8]],
    taken: impl Fn(&[u8]) -> Option<&[u8]>,
) -> Text {
    let mut rng = Rng::new(seed);
    let mut lines: Vec<Text> = Vec::new();
    for mix in mixes.iter().cycle() {
        if lines.len() >= target {
            break;
        }
        lines.extend(first.iter().map(|line| line.to_vec()));
        let input = mixed(rng.seed(), *mix, ROUND, 255);
        let short = input.split(|byte| *byte == b'\n').filter(|line| line.len() <= LONGEST);
        lines.extend(short.filter_map(&taken).map(<[u8]>::to_vec));
    }
    joined(lines, target)
}
