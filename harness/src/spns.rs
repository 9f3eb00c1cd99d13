//! What a silent R42 says (document 02), straight from the sentence: every two different J1939 fields that R42
//! does not skip, with one SPN of at most 524,287, have equal width, resolution, offset and unit. `rules` compares a field
//! with the first of its SPN, as the oracle does; here none is the first.

use crate::value::{Field, Pack};

/// The largest SPN that R42 compares.
const LARGEST: u32 = 524_287;

/// A J1939 field that R42 does not skip, with an SPN of at most that.
#[derive(Clone, Copy)]
pub struct Carrier<'a> {
    /// the index of the PGN, and of the field in it
    pub place: (usize, usize),
    pub spn: u32,
    pub field: &'a Field,
}

pub fn carriers(pack: &Pack) -> Vec<Carrier<'_>> {
    let mut list = Vec::new();
    for (item, pgn) in pack.trees[1].iter().enumerate() {
        for (i, field) in pgn.fields.iter().enumerate() {
            if let Some(spn) = field.spn.filter(|spn| *spn <= LARGEST) {
                list.push(Carrier { place: (item, i), spn, field });
            }
        }
    }
    list
}

/// Every two different ones with one SPN, in both orders.
pub fn pairs<'a>(carriers: &[Carrier<'a>]) -> impl Iterator<Item = (Carrier<'a>, Carrier<'a>)> {
    let every_two = carriers.iter().flat_map(|a| carriers.iter().map(|b| (*a, *b)));
    every_two.filter(|(a, b)| a.place != b.place && a.spn == b.spn)
}

/// Whether two fields have another width, resolution, offset, unit; floats are compared as floats.
pub fn unlike(a: &Field, b: &Field) -> [bool; 4] {
    [
        a.res_bits != b.res_bits,
        a.res_resolution.get() != b.res_resolution.get(),
        a.res_offset.get() != b.res_offset.get(),
        a.res_unit != b.res_unit,
    ]
}

pub fn alike(a: &Field, b: &Field) -> bool {
    unlike(a, b) == [false; 4]
}

/// Whether R42 is due no cause 3.
pub fn every_two_alike(pack: &Pack) -> bool {
    pairs(&carriers(pack)).all(|(a, b)| alike(a.field, b.field))
}
