//! One call on a pack, as each side makes it.

use crate::encode::encode;
use crate::finding::{FIELDTYPES, LOOKUP, PGN};
use crate::quick_walk::quick_walk;
use crate::reader::{LIMIT, Loaded, read};
use crate::value::Pack;
use crate::{calls, library, oracle, rules, walk};
use std::hint::black_box;

#[derive(Clone, Copy, PartialEq, Debug)]
pub enum Call {
    Load,
    Check,
    Held,
    Place,
    Walk,
}

impl Call {
    pub const ALL: [Call; 5] = [Call::Load, Call::Check, Call::Held, Call::Place, Call::Walk];

    pub fn name(self) -> &'static str {
        ["load", "check", "held", "place", "walk"][self as usize]
    }
}

#[derive(Clone, Copy, PartialEq, Debug)]
pub enum Side {
    Library,
    /// reads the pack into values with the harness's reader; then keel's check on a `Database` made from such values
    /// outside the clock, the walk without history, held, or the place text
    Rust,
    /// as Rust, with the `Database` made in the clock
    Whole,
    /// the harness's own rules, or its walk with the whole history
    Harness,
}

impl Side {
    pub const ALL: [Side; 4] = [Side::Library, Side::Rust, Side::Whole, Side::Harness];

    pub fn name(self) -> &'static str {
        ["library", "Rust", "whole", "harness"][self as usize]
    }
}

/// A pack, and what its calls are given.
pub struct Case {
    pub pack: Pack,
    pub bytes: Vec<u8>,
    pub records: usize,
    /// the tree and the item of the PGN that held and walk are asked for
    pub pgn: Option<(usize, usize)>,
    pub readings: Vec<u64>,
}

/// No pack has as many findings as bytes: the least entry has one to two bytes, a PGN some six to nine.
const FINDINGS: usize = LIMIT;

/// Makes one call; answers its number of records, findings or visits, the text's length, or whether the PGN is held.
pub type Run<'a> = Box<dyn FnMut() -> u64 + 'a>;

impl Case {
    pub fn new(pack: Pack, pgn: Option<(usize, usize)>, readings: Vec<u64>) -> Case {
        let encoded = encode(&pack);
        Case { pack, bytes: encoded.bytes, records: encoded.records.len(), pgn, readings }
    }

    /// The last PGN or the last lookup, whichever are more, as the place text call names it.
    fn last_place(&self) -> (u32, u32, u32) {
        let lookups = self.pack.lookups.len();
        let most = (0..3).max_by_key(|tree| self.pack.trees[*tree].len()).expect("three trees");
        let pgns = self.pack.trees[most].len();
        if pgns.max(lookups) == 0 {
            (FIELDTYPES, 0, 0)
        } else if lookups > pgns {
            (LOOKUP, 0, lookups as u32 - 1)
        } else {
            (PGN, most as u32, pgns as u32 - 1)
        }
    }

    /// The call with buffers that are long enough; none where the side is not there or does not make it, or there is no PGN.
    pub fn run(&self, side: Side, call: Call) -> Option<Run<'_>> {
        if matches!(call, Call::Held | Call::Walk) && self.pgn.is_none() {
            return None;
        }
        match side {
            Side::Library => library::PRESENT.then(|| self.of_library(call)),
            Side::Rust => self.of_rust(call),
            Side::Whole => (call == Call::Check && oracle::PRESENT).then(|| self.of_whole()),
            Side::Harness => self.of_harness(call),
        }
    }

    fn of_library(&self, call: Call) -> Run<'_> {
        let bytes = &self.bytes;
        let mut work = vec![0; self.records];
        let (tree, item) = self.numbers();
        match call {
            Call::Load => Box::new(move || good(library::load(black_box(bytes), &mut work))[0]),
            Call::Check => {
                let mut findings = vec![0; 8 * FINDINGS];
                Box::new(move || good(library::check(black_box(bytes), &mut work, &mut findings))[0])
            }
            Call::Held => Box::new(move || good(library::held(black_box(bytes), &mut work, tree, item))[0]),
            Call::Place => {
                let mut text = vec![0; 2 * LIMIT];
                let (place, tree, item) = self.last_place();
                Box::new(move || {
                    good(library::place_text(black_box(bytes), &mut work, place, tree, item, &mut text))[0]
                })
            }
            Call::Walk => {
                let mut visits = vec![0; self.readings.len()];
                Box::new(move || {
                    good(library::walk(black_box(bytes), &mut work, tree, item, &self.readings, &mut visits))[1]
                })
            }
        }
    }

    fn of_rust(&self, call: Call) -> Option<Run<'_>> {
        let bytes = &self.bytes;
        let mut work = vec![0; self.records];
        let (tree, item) = self.numbers();
        Some(match call {
            Call::Load => Box::new(move || calls::load(black_box(bytes), &mut work).expect(GOOD)[0]),
            Call::Check => {
                let database = oracle::database(&self.pack)?;
                Box::new(move || {
                    black_box(self.loaded());
                    oracle::check(black_box(&database)) as u64
                })
            }
            Call::Held => Box::new(move || calls::held_pgn(black_box(bytes), &mut work, tree, item).expect(GOOD)[0]),
            Call::Place => {
                let mut text = vec![0; 2 * LIMIT];
                let (place, tree, item) = self.last_place();
                Box::new(move || {
                    calls::place_text(black_box(bytes), &mut work, place, tree, item, &mut text).expect(GOOD)[0]
                })
            }
            Call::Walk => {
                let mut visits = vec![0; self.readings.len()];
                Box::new(move || {
                    let pack = self.loaded().pack;
                    let pgn = &pack.trees[tree as usize][item as usize];
                    quick_walk(&pack, pgn, &self.readings, &mut visits).1 as u64
                })
            }
        })
    }

    fn of_whole(&self) -> Run<'_> {
        Box::new(|| oracle::check(&oracle::database(&self.loaded().pack).expect("UTF-8")) as u64)
    }

    fn of_harness(&self, call: Call) -> Option<Run<'_>> {
        let (tree, item) = self.numbers();
        match call {
            Call::Check => Some(Box::new(|| rules::check(&self.loaded().pack).len() as u64)),
            Call::Walk => Some(Box::new(move || {
                let pack = self.loaded().pack;
                walk::walk(&pack, &pack.trees[tree as usize][item as usize], &self.readings).visits.len() as u64
            })),
            _ => None,
        }
    }

    fn loaded(&self) -> Loaded {
        read(black_box(&self.bytes)).expect(GOOD)
    }

    /// The PGN as the calls name it, where there is one.
    fn numbers(&self) -> (u32, u32) {
        let (tree, item) = self.pgn.unwrap_or_default();
        (tree as u32, item as u32)
    }
}

const GOOD: &str = "a good pack and buffers that are long enough";

fn good<const N: usize>(answer: Option<(u32, [u64; N])>) -> [u64; N] {
    let (number, numbers) = answer.expect("the library is linked");
    assert_eq!(number, 0, "{GOOD}: {numbers:?}");
    numbers
}
