//! The packs of the times by size: real, clean and faulty ones of 1 KiB to 1 MiB.

use super::call::Case;
use crate::encode::encode;
use crate::generate::{Generator, sample_of_size};
use crate::quick_walk::quick_walk;
use crate::value::Pack;

pub const SEED: u64 = 1;
pub const SIZES: [usize; 6] = [1, 4, 16, 64, 256, 1024];

/// A pack of at most that size.
type Make = fn(usize) -> Result<Pack, String>;

/// By name: the sample's messages repeated, random ones without error, random ones with many findings.
pub const KINDS: [(&str, Make); 3] = [
    ("real", |size| Ok(sample_of_size(size))),
    ("clean", |size| exactly(size, 0)),
    ("faulty", |size| exactly(size, 200)),
];

/// A random pack of that size.
fn exactly(size: usize, slip: usize) -> Result<Pack, String> {
    let pack = Generator::new(SEED).pack_of_size(size, slip);
    let length = encode(&pack).bytes.len();
    if length != size {
        return Err(format!("the pack of {size} bytes has {length}"));
    }
    if pack.has_hexadecimal_match() {
        return Err(format!("{size} bytes: a hexadecimal match, which the oracle takes otherwise"));
    }
    Ok(pack)
}

/// Which PGN of a pack.
pub type Choose = fn(&Pack) -> Option<(usize, usize)>;

/// The places of a pack's PGNs, the last first.
fn places(pack: &Pack) -> impl Iterator<Item = (usize, usize)> {
    (0..3).rev().flat_map(|tree| (0..pack.trees[tree].len()).rev().map(move |item| (tree, item)))
}

pub fn last(pack: &Pack) -> Option<(usize, usize)> {
    places(pack).next()
}

/// The last with a nonempty set, or else the last.
pub fn last_with_sets(pack: &Pack) -> Option<(usize, usize)> {
    let has_sets =
        |(tree, item): &(usize, usize)| pack.trees[*tree][*item].sets.iter().flatten().any(|set| set.count > 0);
    places(pack).find(has_sets).or_else(|| last(pack))
}

pub const READINGS: usize = 1_000;
/// A count that lasts.
pub const READING: u64 = u64::MAX;

/// The one that takes the most readings, the last of these.
pub fn longest_walk(pack: &Pack) -> Option<(usize, usize)> {
    let mut visits = [0; READINGS];
    let mut best = None;
    for (tree, item) in places(pack) {
        let taken = quick_walk(pack, &pack.trees[tree][item], &[READING; READINGS], &mut visits).1;
        if best.is_none_or(|(most, _)| taken > most) {
            best = Some((taken, (tree, item)));
        }
        if taken == READINGS {
            break;
        }
    }
    best.map(|(_, place)| place)
}

/// A pack of that kind with one of its PGNs, and so many readings for a walk over it.
pub fn case(make: Make, choose: Choose, size: usize, readings: usize) -> Result<Case, String> {
    let pack = make(size)?;
    let pgn = choose(&pack);
    Ok(Case::new(pack, pgn, vec![READING; readings]))
}
