//! An input of `checker` in which a file is given more lines than it may judge. They are short.

use crate::rng::{Rng, Text};

const BEGIN: &str =
    "R;A0000116N.DE\nF;20150715_REMITTable1_V1_A0000116N.DE_1.xml\nI;A0000116N.DE\n";

/// Lines that lack their form.
const SHORT: [&str; 6] = ["", "", "", ";", "x", ";;;;;;;;;;"];

/// So many report lines for one file, and the same again, but a tenth as many, for another one.
pub fn million(seed: u64, target: usize) -> Text {
    let mut rng = Rng::new(seed);
    let mut out = Vec::new();
    for count in [target, target / 10] {
        out.extend(BEGIN.as_bytes());
        for time in 0..count {
            let line =
                if rng.percent(5) { report(&mut rng, time) } else { rng.pick(&SHORT).to_string() };
            out.extend(format!("P;{line}\n").as_bytes());
        }
        out.extend(b"T\nW\nX\n");
    }
    out
}

/// A line that has its form, of one of a few orders and trades.
fn report(rng: &mut Rng, time: usize) -> String {
    let kind = *rng.pick(&["ORD", "TRD"]);
    let (id, action) = (rng.below(9), char::from(*rng.pick(b"NMMCE")));
    let quantity = rng.below(1000);
    format!("{kind};{id};;XBIL;C0643778W.EU;B;{action};{time};{quantity};;")
}
