//! Forms of fields (section 1, and the tables of sections 3 and 7).

use std::convert::{TryFrom, TryInto};

const MAX_NAMES: usize = 8;

/// Hundred-thousandths in one: quantities and prices are whole numbers of them.
const UNIT: u64 = 100_000;
const MAX_QUANTITY: u64 = 10_000_000 * UNIT;
const MAX_PRICE: u64 = 1_000_000 * UNIT;

/// An ACER code.
pub type Acer = [u8; 12];

fn is_id_byte(byte: u8) -> bool {
    (0x21..=0x7E).contains(&byte) && byte != b';' && byte != b','
}

fn is_code_byte(byte: u8) -> bool {
    byte.is_ascii_uppercase() || byte.is_ascii_digit()
}

/// The `N` fields of a text, or none if it has more or less.
pub fn fields<const N: usize>(text: &[u8]) -> Option<[&[u8]; N]> {
    let mut found = [&text[..0]; N];
    let mut count = 0;
    for field in text.split(|&byte| byte == b';') {
        *found.get_mut(count)? = field;
        count += 1;
    }
    (count == N).then_some(found)
}

/// What a text stands for, if it is one of those in the list.
pub fn one_of<T: Copy>(text: &[u8], list: &[(&str, T)]) -> Option<T> {
    list.iter().find(|(form, _)| form.as_bytes() == text).map(|&(_, meaning)| meaning)
}

/// The text, if it is `least` to `most` id bytes.
pub fn id(text: &[u8], least: usize, most: usize) -> Option<&[u8]> {
    let fits = (least..=most).contains(&text.len()) && text.iter().all(|&byte| is_id_byte(byte));
    fits.then_some(text)
}

/// The ACER code that a text is.
pub fn acer(text: &[u8]) -> Option<Acer> {
    let code: Acer = text.try_into().ok()?;
    let fits = code[..9].iter().all(|&byte| is_code_byte(byte))
        && code[9] == b'.'
        && code[10..].iter().all(u8::is_ascii_uppercase);
    fits.then_some(code)
}

/// The venue that a text is.
pub fn venue(text: &[u8]) -> Option<[u8; 4]> {
    let venue: [u8; 4] = text.try_into().ok()?;
    venue.iter().all(|&byte| is_code_byte(byte)).then_some(venue)
}

/// A list of names.
pub fn names(text: &[u8]) -> Option<Vec<&[u8]>> {
    if text.is_empty() {
        return Some(Vec::new());
    }
    let names: Vec<&[u8]> = text.split(|&byte| byte == b',').collect();
    let fits = names.len() <= MAX_NAMES && names.iter().all(|name| id(name, 1, 32).is_some());
    fits.then_some(names)
}

/// The value of 1 to `most` digits; `most` is at most 19, so that the value fits.
pub fn digits(text: &[u8], most: usize) -> Option<u64> {
    let fits = (1..=most).contains(&text.len()) && text.iter().all(u8::is_ascii_digit);
    fits.then(|| text.iter().fold(0, |value, &digit| value * 10 + u64::from(digit - b'0')))
}

/// A time, in seconds.
pub fn time(text: &[u8]) -> Option<u32> {
    u32::try_from(digits(text, 10)?).ok()
}

/// A decimal in hundred-thousandths: 1 to `most` digits, then perhaps a dot and 1 to 5 digits.
fn decimal(text: &[u8], most: usize, limit: u64) -> Option<u64> {
    let mut parts = text.splitn(2, |&byte| byte == b'.');
    let whole = digits(parts.next()?, most)? * UNIT;
    let part = match parts.next() {
        // Digits left out at the right are zeros: `0.5` is 50000.
        Some(part) => digits(part, 5)? * 10u64.pow(5 - part.len() as u32),
        None => 0,
    };
    let value = whole + part;
    (value <= limit).then_some(value)
}

/// A quantity, in hundred-thousandths.
pub fn quantity(text: &[u8]) -> Option<u64> {
    decimal(text, 8, MAX_QUANTITY)
}

/// A price, in hundred-thousandths. The outer option tells whether the field has its form, the
/// inner one whether there is a price.
pub fn price(text: &[u8]) -> Option<Option<i64>> {
    if text.is_empty() {
        return Some(None);
    }
    let (sign, amount) = match text.strip_prefix(b"-") {
        Some(rest) => (-1, rest),
        None => (1, text),
    };
    Some(Some(sign * decimal(amount, 7, MAX_PRICE)? as i64))
}

/// The entity in the name of a file, with its offset in the name, or none if the name lacks its
/// form. No part may have a `_` of its own.
pub fn entity_in_name(name: &[u8]) -> Option<(Acer, usize)> {
    let parts: Vec<&[u8]> = name.split(|&byte| byte == b'_').collect();
    let [date, table, version, entity, number] = parts[..] else {
        return None;
    };
    let table_fits = (1..=32).contains(&table.len()) && table.iter().all(u8::is_ascii_alphanumeric);
    let version_fits = matches!(version, [b'V', digit] if digit.is_ascii_digit());
    let number_fits = digits(number.strip_suffix(b".xml")?, 9).is_some();
    let fits =
        date.len() == 8 && digits(date, 8).is_some() && table_fits && version_fits && number_fits;
    let offset = [date, table, version].iter().map(|part| part.len() + 1).sum();
    acer(entity).filter(|_| fits).map(|code| (code, offset))
}
