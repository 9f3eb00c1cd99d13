//! What the runs over calls share: an input with what the model makes of it, the answers of a call, the lengths of buffers.

use super::Lent;
use crate::calls;
use crate::finding::Finding;
use crate::reader::{Loaded, Refusal, read};
use crate::rng::Rng;
use crate::table::Table;

/// An input with what the model makes of it.
pub struct Case<'a> {
    pub bytes: &'a [u8],
    pub read: Result<Loaded, Refusal>,
    pub list: Vec<Finding>,
}

impl<'a> Case<'a> {
    pub fn new(bytes: &'a [u8]) -> Self {
        let read = read(bytes);
        let list = calls::found(&read);
        Case { bytes, read, list }
    }

    pub fn records(&self) -> &[u32] {
        self.read.as_ref().map_or(&[], |loaded| &loaded.records)
    }

    /// The work buffer after a call: unchanged with 1 to 9 and 21, else the records and its rest unchanged.
    pub fn work_after(&self, lent: usize, number: u32) -> Lent<u32> {
        let before = Lent::numbers(lent);
        if matches!(number, 1..=9 | 21) { before } else { before.with(self.records()) }
    }
}

/// The answers of a call: without refusal, 1 to 9, then the refusals for the state that it can give.
pub struct Answers {
    pub table: Table,
    refusals: &'static [u32],
}

impl Answers {
    pub fn new(title: &'static str, good: &str, refusals: &'static [u32]) -> Self {
        let numbers = (1..=9).chain(refusals.iter().copied()).map(|number| number.to_string());
        Answers { table: Table::new(title, [good.to_string()].into_iter().chain(numbers)), refusals }
    }

    /// One more answer of this number, 0 where there is no refusal.
    pub fn hit(&mut self, number: u32) {
        self.table.hit(match self.refusals.iter().position(|refusal| *refusal == number) {
            Some(place) => 10 + place,
            None => number as usize,
        });
    }
}

/// The lengths that are tried of each buffer, beside the one needed.
const LENGTHS: [&str; 5] = ["exact", "1 less", "shorter", "longer", "none"];

pub struct Lengths {
    pub table: Table,
}

impl Lengths {
    pub fn new(buffers: &[&str]) -> Self {
        let rows = buffers.iter().flat_map(|buffer| LENGTHS.map(|length| format!("{buffer} {length}")));
        Lengths { table: Table::new("lengths of buffers", rows) }
    }

    /// The length that is needed or some other, for a buffer by its place in the list.
    pub fn pick(&mut self, rng: &mut Rng, buffer: usize, needed: usize) -> usize {
        let (kind, length) = match rng.below(16) {
            0 if needed > 0 => (1, needed - 1),
            1 if needed > 0 => (2, rng.below(needed)),
            2..=4 => (3, needed + rng.between(1, 20)),
            5 => (4, 0),
            _ => (0, needed),
        };
        self.table.hit(LENGTHS.len() * buffer + kind);
        length
    }

    /// The length that is needed.
    pub fn exact(&mut self, buffer: usize, needed: usize) -> usize {
        self.table.hit(LENGTHS.len() * buffer);
        needed
    }
}
