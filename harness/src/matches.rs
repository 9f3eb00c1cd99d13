//! Matches that are hexadecimal numerals or nearly so, by their form and by how they fare.

use crate::table::Table;
use crate::value::{Field, Pack, Pgn, after_0x, parse_hex};
use crate::walk::End;

/// Numerals: small letters, capital ones, both, none; zeros before; as many digits as there may be.
const NUMERALS: [&str; 8] = ["0x1f", "0X1f", "0x1F", "0X1F", "0xfF", "0x10", "0x01", "16"];
/// A numeral of any form, where its lookup has an entry of that name whose value would fare otherwise.
const NAMED_NUMERAL: &str = "named 0x1F";
/// No numerals: no digit, some other byte, more digits, zeros before more digits, a sign before the 0, no 0x.
const NAMES: [&str; 6] = ["0x", "0xG1", "17", "0..17", "+0x1F", "00x1"];

/// The number, or the value of the entry, fits the field's bits or is too large; or there is neither.
const FARES: [&str; 3] = ["fits", "large", "none"];

/// A form, and how it fares.
pub type Row = (&'static str, &'static str);

/// All that can be.
pub fn rows() -> impl Iterator<Item = Row> {
    let of = |form: &'static str, fares: &'static [&'static str]| fares.iter().map(move |fares| (form, *fares));
    let numerals = NUMERALS.into_iter().chain([NAMED_NUMERAL]).flat_map(move |form| of(form, &FARES[..2]));
    numerals.chain(NAMES.into_iter().flat_map(move |form| of(form, &FARES)))
}

/// None where the field has no match, or one that has nothing of a numeral.
pub fn row(pack: &Pack, field: &Field) -> Option<Row> {
    let text = field.match_.as_ref()?;
    let form = form(text)?;
    let number = parse_hex(text).map(|number| takes(field, number));
    let entry = pack.named_match(field).map(|value| takes(field, value));
    let form = if number.is_some() && entry.is_some() && entry != number { NAMED_NUMERAL } else { form };
    let fares = match number.or(entry) {
        Some(true) => "fits",
        Some(false) => "large",
        None => "none",
    };
    Some((form, fares))
}

/// Whether the field's bits take the number.
fn takes(field: &Field, number: u64) -> bool {
    field.res_bits >= 64 || number >> field.res_bits == 0
}

/// None for a text that has nothing of a numeral.
fn form(text: &[u8]) -> Option<&'static str> {
    let Some(digits) = after_0x(text) else {
        let unsigned = text.strip_prefix(b"+").or_else(|| text.strip_prefix(b"-")).unwrap_or(text);
        return match after_0x(unsigned) {
            Some(_) => Some("+0x1F"),
            None => text.iter().any(|byte| matches!(byte, b'x' | b'X')).then_some("00x1"),
        };
    };
    let has = |of: fn(&u8) -> bool| digits.iter().any(of);
    Some(match digits {
        [] => "0x",
        _ if !digits.iter().all(u8::is_ascii_hexdigit) => "0xG1",
        [b'0', ..] if digits.len() > 16 => "0..17",
        _ if digits.len() > 16 => "17",
        _ if digits.len() == 16 => "16",
        [b'0', _, ..] => "0x01",
        _ => match (text[1], has(u8::is_ascii_lowercase), has(u8::is_ascii_uppercase)) {
            (_, true, true) => "0xfF",
            (_, false, false) => "0x10",
            (b'x', true, _) => "0x1f",
            (_, true, _) => "0X1f",
            (b'x', ..) => "0x1F",
            _ => "0X1F",
        },
    })
}

/// The rows as a table.
pub struct Matches {
    pub table: Table,
    rows: Vec<Row>,
}

impl Matches {
    pub fn new() -> Self {
        let names = rows().map(|(form, fares)| format!("{form} {fares}"));
        Matches { table: Table::new("hexadecimal matches", names), rows: rows().collect() }
    }

    /// One more field whose match was judged.
    pub fn judged(&mut self, pack: &Pack, field: &Field) {
        if let Some(row) = row(pack, field) {
            let place = self.rows.iter().position(|other| *other == row);
            self.table.hit(place.expect("all that can be has a row"));
        }
    }
}

impl Default for Matches {
    fn default() -> Self {
        Self::new()
    }
}

/// Fields with a match that the walk judged for stop 4: those that it visited, and where it ended so the first bad one
/// behind the last visit, unless a set that holds it may have been skipped.
pub fn judged_in_walk<'a>(pack: &Pack, pgn: &'a Pgn, end: End, visits: &[u32]) -> Vec<&'a Field> {
    let matching = pgn.fields.iter().enumerate().filter(|(_, field)| field.match_.is_some());
    let mut judged: Vec<&Field> =
        matching.clone().filter(|(index, _)| visits.contains(&(*index as u32))).map(|(_, field)| field).collect();
    if end == End::Stop(4) {
        let behind = visits.last().map_or(0, |visit| *visit as usize + 1);
        let bad = |field: &Field| !pack.resolve_match(field).is_some_and(|value| takes(field, value));
        let mut bad = matching.filter(|(index, field)| *index >= behind && bad(field));
        let first = bad.next();
        let in_a_set = |index: usize| pgn.sets.iter().flatten().any(|set| set.holds(index as u32 + 1));
        judged.extend(first.filter(|(index, _)| !in_a_set(*index) || bad.next().is_none()).map(|(_, field)| field));
    }
    judged
}
