//! Inputs of `cases_tokens`: two inputs of `checker`, one for each hand, whose lines take turns.

use crate::checker::mixed;
use crate::rng::{joined, Rng, Text};

/// How many slots the checkers have, and the mixes of their lines: good lines over few keys, many
/// files, a bit of all, and long lists.
const ROUNDS: [(usize, usize); 5] = [(9, 0), (5, 4), (13, 6), (20, 5), (3, 0)];

/// Lines of a round and a hand. Lines longer than `LONGEST` are left out.
const ROUND: usize = 400;
const LONGEST: usize = 1100;

/// So many lines.
pub fn tokens(seed: u64, target: usize) -> Text {
    let mut rng = Rng::new(seed);
    let mut lines: Vec<Text> = Vec::new();
    for (slots, mix) in ROUNDS.iter().cycle() {
        if lines.len() >= target {
            break;
        }
        lines.push(format!("N;{slots}").into_bytes());
        // Each hand fills half of the store.
        let inputs = [(), ()].map(|()| mixed(rng.seed(), *mix, ROUND, slots / 2));
        let mut hands = inputs.each_ref().map(|input| input.split(|byte| *byte == b'\n'));
        for _ in 0..2 * ROUND {
            let hand = rng.below(2);
            if let Some(line) = hands[hand].next().filter(|line| line.len() <= LONGEST) {
                step(&mut rng, &mut lines, hand, line);
            }
        }
    }
    joined(lines, target)
}

/// The steps of a hand that come of an input line.
fn step(rng: &mut Rng, lines: &mut Vec<Text>, hand: usize, line: &[u8]) {
    let digit = b"12"[hand];
    match line {
        b"T" => {
            let contract = *rng.pick(&[0, 1, 1, 2, 2, 3, 4, 5, 63, 64, 255, 256]);
            lines.push(format!("T;{contract}").into_bytes());
        }
        b"W" => {
            let near = rng.below(90);
            let room = *rng.pick(&[near, near, near, 0, 1, 1023, 1024, 1025]);
            lines.push(format!("B;{room}").into_bytes());
        }
        [b'P', b';', report @ ..] => {
            let looks_up = rng.percent(30);
            if looks_up && rng.percent(50) {
                lines.push([b"L;", report].concat());
            }
            lines.push([&[b'P', digit, b';'], report].concat());
            if looks_up {
                lines.push([b"L;", report].concat());
            }
        }
        [letter @ (b'F' | b'I'), b';', text @ ..] => {
            lines.push([&[*letter, digit, b';'], text].concat())
        }
        b"X" => lines.push(vec![b'X', digit]),
        _ => lines.push(line.to_vec()),
    }
}
