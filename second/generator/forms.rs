//! Forms of fields, file names and lines, just within and just past their limits.

use crate::rng::{Rng, Text};

/// Bytes at the edges of the forms, and some that are often handled wrongly.
const ODD_BYTES: &[u8] =
    b"\x00\x09\x0B\x0C\x0D\x1F\x20\x21\x22\x2B\x2C\x2D\x2E\x2F\x30\x39\x3A\x3B\x40\x41\x5A\x5B\x5F\
    \x60\x61\x7A\x7B\x7E\x7F\x80\x8A\xA0\xBB\xC3\xFE\xFF";

/// The words of kinds.
pub const KINDS: [&[u8]; 2] = [b"ORD", b"TRD"];
/// The words of sides.
pub const SIDES: [&[u8]; 2] = [b"B", b"S"];
/// Some venues: one at which contracts are not looked at, and one that is near it.
pub const VENUES: [&[u8]; 5] = [b"XEER", b"XBIL", b"0000", b"ZZ9Z", b"XBIM"];
/// The letters of actions.
pub const ACTIONS: &[u8] = b"NMCE";
/// The types of contracts.
pub const TYPES: [&[u8]; 13] = [
    b"AU", b"CO", b"FU", b"FW", b"OP", b"OP_FU", b"OP_FW", b"OP_SP", b"OP_SW", b"OT", b"SP", b"SW",
    b"SWG",
];

const KIND_CASES: &[&[u8]] = &[
    b"", b"ORDER", b"ord", b"OR", b"TRD ", b" TRD", b"TRd", b"ORD\0", b"TRD\r", b"T", b"O",
    b"ORDTRD", b"\xFF",
];
const VENUE_CASES: &[&[u8]] = &[
    b"", b"XEE", b"XEERR", b"xeer", b"XEEr", b"XE-R", b"XBIL", b"XBIl", b" XBIL", b"XBIL ",
    b"AZ09", b"@EER", b"XEE[", b"XEE/", b"XEE:", b"XE\x80R", b"XEE\0", b"XEE.", b"XEE\r",
];
const SIDE_CASES: &[&[u8]] =
    &[b"", b"b", b"s", b"BS", b"X", b"S ", b"B\r", b"A", b"T", b"\0", b"\xC2", b"B,S"];
const ACTION_CASES: &[&[u8]] =
    &[b"", b"n", b"e", b"NN", b"X", b" N", b"M ", b"D", b"C\r", b"\xFF", b"NMCE", b"0"];
const TIME_CASES: &[&[u8]] = &[
    b"", b"0", b"4294967295", b"4294967296", b"4294967294", b"9999999999", b"04294967295",
    b"0000000000", b"00000000000", b"0000000001", b"-1", b"+1", b"1.0", b" 1", b"1 ", b"1e3",
    b"18446744073709551617", b"4294967297", b"10\x00", b"1/2", b"1:2", b"\xFF", b"5000000000",
    b"100\r", b"0x10",
];
const QUANTITY_CASES: &[&[u8]] = &[
    b"", b"0", b"10000000", b"10000000.0", b"10000000.00000", b"10000000.00001",
    b"10000000.000000", b"9999999.99999", b"99999999", b"09999999", b"010000000", b"000000001",
    b"00000001", b"1.", b".5", b".", b"1.000001", b"1.00001", b"0.00001", b"0.00000", b"-1", b"-0",
    b"+1", b"1,5", b"1.2.3", b"1 ", b" 1", b"10000001", b"1e5", b"1\0", b"1.5\r",
    b"99999999.99999", b"184467440737095", b"1.0000\x80", b"1..5", b"00000000.00000",
    b"10000000.1",
];
const PRICE_CASES: &[&[u8]] = &[
    b"", b"-", b"-0", b"0", b"-0.00000", b"-0.00001", b"0.00001", b"1000000", b"-1000000",
    b"1000000.00000", b"-1000000.00000", b"1000000.00001", b"-1000000.00001", b"999999.99999",
    b"-999999.99999", b"9999999", b"-9999999", b"00000001", b"0000001", b"-0000001", b"-00000001",
    b"--1", b"+1", b"-.5", b"-1.", b"1.123456", b".", b"-.", b" 1", b"1-", b"1,5", b"1000001",
    b"- 1", b"1e2", b"\xFF", b"-1\r", b"5.5.5", b"0-1", b"1000000.000000",
];
const NAME_CASES: &[&[u8]] = &[
    b"", b",", b"a,", b",a", b"a,,b", b",,", b"a;b", b"a b", b" a", b"a ", b"a,a", b"NONE", b"a\r",
    b"1,2,3,4,5,6,7,8,9",
];
/// Types, and texts that are nearly types.
pub const TYPE_CASES: &[&[u8]] = &[
    b"", b"fw", b"XX", b"OP_", b"OP_SWG", b"SWGG", b"OP_SP", b"OP", b"OP_FU", b"OP_FW", b"OP_SW",
    b"OP-SP", b"F", b"FW ", b" FW", b"OP_OT", b"SP\0", b"OP_AU", b"S", b"\x80",
];
/// Option styles, and texts that are nearly styles.
pub const STYLE_CASES: &[&[u8]] =
    &[b"", b"A", b"Z", b"a", b"z", b"AB", b"1", b" ", b"@", b"[", b"\0", b"\xC4", b"\r", b"A "];

/// Input lines that are no commands, or would be but for a byte.
pub const NOISE: &[&[u8]] = &[
    b"",
    b"",
    b"T;",
    b"t",
    b"w",
    b"x",
    b"TT",
    b"X;",
    b"W;",
    b" T",
    b"T ",
    b"T\r",
    b"W\r",
    b"X\r",
    b"P",
    b"R",
    b"K",
    b"F",
    b"I",
    b"p;",
    b"r;A0000116N.DE",
    b"Z",
    b"A",
    b"R 66 0 -",
    b"#",
    b"\0",
    b"Q;abc",
    b"PP;",
    b"P ;",
    b";",
    b";P",
    b"R,A0000116N.DE",
    b"P:",
    b"\xEF\xBB\xBFT",
    b"TRD;T-1;DE-1;XEER;C0643778W.EU;B;N;100;24;53.5;",
    b"L;",
    b"\r",
    b" ",
    b"\xFF",
    b"X ",
    b"W W",
    b"T\0",
    b"P;",
    b"K;",
    b"F;",
    b"I;",
    b"R;",
    b"P;;;;;;;;;;;",
    b"P;;;;;;;;;;",
    b"P;;;;;;;;;;;;",
    b"K;;;;",
    b"K;;;",
    b"K;;;;;",
    b"R;;",
    b"F;____",
    b"F;_",
    b"I; ",
    b"P; ",
    b"P;\0",
    b"P;\r",
    b"X\x80",
    b"--explain",
];

/// One byte of the text becomes an odd one: the first, the last or any.
fn spoil(rng: &mut Rng, text: &mut Text) {
    let last = text.len() - 1;
    let any = rng.range(0, last);
    let at = *rng.pick(&[0, last, any]);
    text[at] = *rng.pick(ODD_BYTES);
}

/// A case for an id of at most so many bytes.
pub fn id_case(rng: &mut Rng, most: usize) -> Text {
    match rng.below(7) {
        0 => Vec::new(),
        1 => rng.id(most, most),
        2 => rng.id(most + 1, most + 1),
        3 => rng.id(1, 3),
        _ => {
            let mut id = rng.id(1, 12);
            spoil(rng, &mut id);
            id
        }
    }
}

/// A case for a list of names.
pub fn names_case(rng: &mut Rng) -> Text {
    let sizes = match rng.below(8) {
        0 => vec![1; 8],
        1 => vec![1; 9],
        2 => vec![32],
        3 => vec![33],
        4 => vec![2, 33, 1],
        5 => vec![32; 8],
        6 => return id_case(rng, 32),
        _ => return rng.text(NAME_CASES),
    };
    let names: Vec<Text> = sizes.into_iter().map(|size| rng.id(size, size)).collect();
    names.join(&b',')
}

/// The code with something wrong.
pub fn acer_case(rng: &mut Rng, code: &[u8]) -> Text {
    let mut code = code.to_vec();
    match rng.below(12) {
        0 => code.clear(),
        1 => drop(code.pop()),
        2 => code.push(*rng.pick(b"A .;\r")),
        3 => code[9] = *rng.pick(b",-_: 0A/"),
        4 => code[0] = b'a',
        5 => code[10] = *rng.pick(b"0de@["),
        6 => code[11] = *rng.pick(b"9e@["),
        7 => code.swap(8, 9),
        8 => code.insert(0, b' '),
        9 => code.extend_from_within(..),
        10 => drop(code.remove(0)),
        _ => spoil(rng, &mut code),
    }
    code
}

/// A case for a field of a report line; fields are numbered from 1.
pub fn report_case(rng: &mut Rng, field: usize) -> Text {
    match field {
        1 => rng.text(KIND_CASES),
        2 => id_case(rng, 52),
        3 => id_case(rng, 32),
        4 => rng.text(VENUE_CASES),
        5 => {
            let code = rng.acer();
            acer_case(rng, &code)
        }
        6 => rng.text(SIDE_CASES),
        7 => rng.text(ACTION_CASES),
        8 => rng.text(TIME_CASES),
        9 => rng.text(QUANTITY_CASES),
        10 => rng.text(PRICE_CASES),
        _ => names_case(rng),
    }
}

/// The five parts of a file name for an entity.
pub fn name_parts(rng: &mut Rng, entity: &[u8]) -> Vec<Text> {
    let date = rng.bytes(8, b"0123456789");
    let length = *rng.pick(&[1, 5, 5, 12, 12, 32]);
    let table = rng.bytes(length, b"AZaz09REMITtable");
    let version = vec![b'V', *rng.pick(b"0129")];
    let length = *rng.pick(&[1, 1, 2, 3, 9]);
    let mut number = rng.bytes(length, b"0123456789");
    number.extend(b".xml");
    vec![date, table, version, entity.to_vec(), number]
}

/// The parts of a file name with one damaged, or a part too much or too few.
pub fn name_case(rng: &mut Rng, entity: &[u8]) -> Text {
    let mut parts = name_parts(rng, entity);
    let letters = *rng.pick(&[32, 33]);
    match rng.below(9) {
        0 => {
            parts[0] = rng.text(&[
                b"2015071", b"201507150", b"2015O715", b"", b"2015-715", b" 0150715", b"0000000:",
            ])
        }
        1 => {
            parts[1] = rng.text(&[
                b"", b"A-1", b"A_1", b"A 1", b"\xC3\xA4", b"@", b"[", b"`", b"{", b"a.", b"A\0",
            ])
        }
        2 => {
            parts[2] = rng
                .text(&[b"V", b"V12", b"v1", b"1", b"VA", b"", b"V:", b"V/", b"1V", b"V 1", b"U9"])
        }
        3 => parts[3] = acer_case(rng, entity),
        4 => {
            parts[4] = rng.text(&[
                b".xml", b"1234567890.xml", b"1.XML", b"1.xm", b"1.xml ", b"1xml", b"1..xml",
                b"a.xml", b"1", b"", b"1.xml.xml", b"-1.xml", b"1.xml\r", b"1.xml_", b"1 .xml",
                b"0000000000.xml", b"1.xlm", b"1_xml",
            ])
        }
        5 => parts[1] = rng.bytes(letters, b"AZaz09"),
        6 => drop(parts.remove(rng.below(5))),
        7 => parts.insert(rng.below(6), rng.text(&[b"", b"x", b"V1", b"20150715"])),
        _ => {
            let mut name = parts.join(&b'_');
            spoil(rng, &mut name);
            return name;
        }
    }
    parts.join(&b'_')
}

/// Damages a line at random places.
pub fn mutate(rng: &mut Rng, line: &mut Text) {
    for _ in 0..rng.range(1, 3) {
        let at = rng.below(line.len().max(1)).min(line.len());
        let byte = if rng.percent(80) { *rng.pick(ODD_BYTES) } else { rng.below(256) as u8 };
        match rng.below(8) {
            _ if line.is_empty() => line.push(byte),
            0 | 1 => line[at] = byte,
            2 => line.insert(at, byte),
            3 => drop(line.remove(at)),
            4 if rng.percent(30) => line.truncate(at),
            4 => line[at] ^= 1 << rng.below(8),
            5 => line[at] ^= 0x20,
            6 => line.extend_from_within(at..),
            _ => line.push(byte),
        }
    }
}
