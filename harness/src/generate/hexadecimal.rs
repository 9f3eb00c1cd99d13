//! Matches that are hexadecimal numerals, texts that are nearly some, and entries with such names. A pack has them or it has
//! none, so that most packs can go to the oracle, which knows no hexadecimals.

use super::{Generator, text};
use crate::value::*;

/// One pack of so many has such texts.
pub(super) const ONE_OF: usize = 6;

/// No numerals, so they can only be names: no digit, some other byte, 17 digits and more, leading zeros among them or not,
/// something before the 0, or no 0x at all.
const NEARLY: [&[&str]; 6] = [
    &["0x", "0X"],
    &[
        "0xG1", "0X1G", "0x1g", "0Xg", "0x/", "0x1:", "0X@", "0x1`", "0x 1", "0x_1", "0X1_F", "0x1F ", "0x+1F", "0X-1",
        "0x0x1", "0xx1", "0xé",
    ],
    &["0x10000000000000000", "0XfFFFFFFFFFFFFFFFF", "0x1F000000000000000"],
    &[
        "0x00000000000000000",
        "0X00000000000000001",
        "0x0000000000000001F",
        "0X000000000000000fF",
        "0x000000000000000000000000000000001",
    ],
    &["+0x1F", "+0X1f", "+0x", "-0x1", "-0X0"],
    &["x1F", "X1f", "1x0", "00x1", "0 x1", " 0x1", "++0x1", "1F", "0y1", "0W1", "001F"],
];

impl Generator {
    /// A number of at most so many bits: the largest, the one with the highest bit alone, a small or any one.
    fn number_within(&mut self, bits: u32) -> u64 {
        let largest = largest(bits);
        match self.rng.below(4) {
            0 => largest,
            1 => largest - largest / 2,
            2 => largest & self.rng.between(10, 31) as u64,
            _ => largest & self.rng.u64(),
        }
    }

    /// The number as a numeral: with either x, in small, capital or mixed letters, now and then with zeros before it.
    pub(super) fn numeral(&mut self, number: u64) -> Text {
        let least = format!("{number:x}").len();
        let digits = if self.rng.chance(1, 4) { self.rng.between(least, 16) } else { least };
        let mut numeral = text(format!("{}{number:0digits$x}", self.rng.pick(&["0x", "0X"])));
        let letters = self.rng.below(3);
        for digit in &mut numeral[2..] {
            if letters == 1 || letters == 2 && self.coin() {
                digit.make_ascii_uppercase();
            }
        }
        numeral
    }

    /// A numeral of a number of at most so many bits, often of fewer.
    pub(super) fn numeral_within(&mut self, bits: u32) -> Text {
        let bits = bits.min(u64::BITS);
        let bits = if self.coin() { bits } else { self.rng.below(bits as usize + 1) as u32 };
        let number = self.number_within(bits);
        self.numeral(number)
    }

    /// A text of `NEARLY`.
    pub(super) fn nearly_a_numeral(&mut self) -> Text {
        let form = *self.rng.pick(&NEARLY);
        let mut nearly = text(self.rng.pick(form));
        if self.bytes && self.rng.chance(1, 8) {
            nearly.push(0xff);
        }
        nearly
    }

    /// Another name for a lookup's next entry: nearly a numeral, or one, most often of a number that the lookup's width
    /// takes. None where the lookup has that name, which R24 would report.
    pub(super) fn name_like_a_numeral(&mut self, lookup: &Lookup) -> Option<Text> {
        let name = match self.rng.below(8) {
            0..4 => self.nearly_a_numeral(),
            4..7 => self.numeral_within(lookup.bits),
            _ => self.numeral_within(u64::BITS),
        };
        (!lookup.entries.iter().any(|entry| entry.name == name)).then_some(name)
    }

    /// The PGN with the number of one match spelt in some way again: for R20 that is another text, or the same.
    pub(super) fn spelt_again(&mut self, pgn: &Pgn) -> Option<Pgn> {
        let number = |field: &Field| field.match_.as_ref().and_then(|text| parse_hex(text));
        let numbers: Vec<(usize, u64)> =
            pgn.fields.iter().enumerate().filter_map(|(i, field)| Some((i, number(field)?))).collect();
        if numbers.is_empty() {
            return None;
        }
        let (i, number) = *self.rng.pick(&numbers);
        let mut again = pgn.clone();
        again.fields[i].match_ = Some(if self.coin() { self.numeral(number) } else { text(number.to_string()) });
        Some(again)
    }

    /// A slip: some numeral, a text that is nearly one, or the name of an entry; often at a width that just takes the number
    /// or is one bit short of it. Where an entry is named by a numeral, only one of its two numbers may fit.
    pub(super) fn match_at_a_width(&mut self, field: &mut Field) {
        let entry = if self.coin() { self.refer_to_names(field) } else { None };
        let (spelt, value) = match entry {
            Some(entry) => (entry.name, Some(entry.value)),
            None if self.rng.chance(1, 3) => (self.nearly_a_numeral(), None),
            None => (self.numeral_within(u64::BITS), None),
        };
        let numbers = [parse_hex(&spelt), value].into_iter().flatten();
        let widths: Vec<u32> = numbers.map(|number| u64::BITS - number.leading_zeros()).collect();
        if let (Some(least), Some(most)) = (widths.iter().min(), widths.iter().max()) {
            let short = most.saturating_sub(1);
            field.res_bits = *self.rng.pick(&[*least, *most, short, short, field.res_bits]);
        }
        field.match_ = Some(spelt);
    }

    /// The field refers to some lookup in which names are searched; an entry of it.
    fn refer_to_names(&mut self, field: &mut Field) -> Option<Entry> {
        let searched = |lookup: &&Lookup| lookup.kind != Kind::Triplet && !lookup.entries.is_empty();
        let lookups: Vec<&Lookup> = self.lookups.iter().filter(searched).collect();
        if lookups.is_empty() {
            return None;
        }
        let lookup = self.rng.pick(&lookups);
        field.reference = Some((lookup.kind, lookup.name.clone()));
        Some(self.rng.pick(&lookup.entries).clone())
    }
}
