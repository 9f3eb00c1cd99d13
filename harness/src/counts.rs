//! The counts that a walk takes on arriving at sets: those of all ones, which are not available in 2 to 64 bits, and those
//! next to them. Rows of the tables, and a second opinion on the walk by the walk that reads every count plainly.

use crate::value::{Field, Pack, Pgn, largest};
use crate::walk::{Arrival, End, Walked, nonempty, passes, plain_passes, walk_by};
use std::ops::RangeInclusive;

/// The indexes of the fields that count a nonempty set.
pub fn counters(pgn: &Pgn) -> Vec<usize> {
    let orders = (0..2).filter_map(|set| nonempty(pgn, set)?.count_field);
    let indexes = orders.filter_map(|order| Some(order.checked_sub(1)? as usize));
    let mut counters: Vec<usize> = indexes.filter(|index| *index < pgn.fields.len()).collect();
    counters.dedup();
    counters
}

/// Some bits from the lowest on are set, no others: how many.
fn ones(reading: u64) -> Option<u32> {
    (reading.count_ones() == reading.trailing_ones()).then_some(reading.count_ones())
}

fn is_not_available(count_field: &Field, reading: u64) -> bool {
    (2..=64).contains(&count_field.res_bits) && ones(reading) == Some(count_field.res_bits)
}

/// A count that was taken on arriving at a set.
struct Taken<'a> {
    set: usize,
    field: &'a Field,
    /// the visit that took it, and what it took
    visit: usize,
    reading: u64,
}

impl Taken<'_> {
    fn not_available(&self) -> bool {
        is_not_available(self.field, self.reading)
    }

    fn has_passes(&self) -> bool {
        self.reading > 0 && !self.not_available()
    }

    /// The largest number of its field's bits, or of 64 where these are more or none, for a field of so many bits.
    fn is_largest_of(&self, bits: RangeInclusive<u32>) -> bool {
        let own = self.field.res_bits;
        bits.contains(&own) && self.reading == if own == 0 { u64::MAX } else { largest(own) }
    }

    /// What is all ones of so many bits, in a field of others.
    fn is_ones_of(&self, bits: impl Fn(u32, u32) -> bool) -> bool {
        let own = self.field.res_bits;
        (2..=64).contains(&own) && ones(self.reading).is_some_and(|of| of > 1 && bits(of, own))
    }

    /// What is so far above all ones of its bits.
    fn is_off_by(&self, distance: i64) -> bool {
        let own = self.field.res_bits;
        (2..=64).contains(&own) && largest(own).checked_add_signed(distance) == Some(self.reading)
    }

    fn has_more_above(&self) -> bool {
        let all_ones = largest(self.field.res_bits);
        self.field.res_bits > 1 && self.reading & all_ones == all_ones && ones(self.reading).is_none()
    }
}

/// A walk with the counts that it took.
pub struct Counts<'a> {
    pack: &'a Pack,
    pgn: &'a Pgn,
    readings: &'a [u64],
    walked: Walked,
    taken: Vec<Taken<'a>>,
    /// of the set whose countField was not current
    stopped_at: Option<usize>,
}

/// A row's name, and whether a walk counts there.
type Row = (&'static str, fn(&Counts) -> bool);

const ROWS: [Row; 29] = [
    ("0 bits, plain", |counts| counts.any(|taken| taken.is_largest_of(0..=0))),
    ("1 bit, plain", |counts| counts.any(|taken| taken.is_largest_of(1..=1))),
    ("2 bits", |counts| counts.any(|taken| taken.is_largest_of(2..=2))),
    ("3 to 7 bits", |counts| counts.any(|taken| taken.is_largest_of(3..=7))),
    ("8 bits", |counts| counts.any(|taken| taken.is_largest_of(8..=8))),
    ("9 to 62 bits", |counts| counts.any(|taken| taken.is_largest_of(9..=62))),
    ("63 bits", |counts| counts.any(|taken| taken.is_largest_of(63..=63))),
    ("64 bits", |counts| counts.any(|taken| taken.is_largest_of(64..=64))),
    ("65 bits, plain", |counts| counts.any(|taken| taken.is_largest_of(65..=65))),
    ("more bits, plain", |counts| counts.any(|taken| taken.is_largest_of(66..=u32::MAX))),
    ("one less", |counts| counts.any(|taken| taken.is_off_by(-1))),
    ("one more", |counts| counts.any(|taken| taken.is_off_by(1))),
    ("ones of fewer", |counts| counts.any(|taken| taken.is_ones_of(|of, own| of < own))),
    ("ones of more", |counts| counts.any(|taken| taken.is_ones_of(|of, own| of > own))),
    ("ones and above", |counts| counts.any(|taken| taken.has_more_above())),
    ("continued", |counts| counts.any(|taken| taken.not_available() && is_continued(taken.field))),
    ("of value_bits", |counts| counts.any(|taken| is_continued(taken.field) && takes_value_bits(taken))),
    ("set 1", |counts| counts.any(|taken| taken.not_available() && taken.set == 0)),
    ("set 2", |counts| counts.any(|taken| taken.not_available() && taken.set == 1)),
    ("outer", |counts| counts.nested() && counts.any(|taken| taken.not_available() && taken.set == 0)),
    ("nested", |counts| counts.nested() && counts.any(|taken| taken.not_available() && taken.set == 1)),
    ("in some passes", |counts| counts.nested_in_some_passes()),
    ("both by one", |counts| counts.both_by_one()),
    ("then the other", |counts| counts.then_the_other()),
    ("whole without", |counts| counts.whole_without()),
    ("plain, then ones", |counts| counts.any(|taken| taken.not_available() && counts.earlier(taken, false))),
    ("ones, then plain", |counts| counts.any(|taken| taken.has_passes() && counts.earlier(taken, true))),
    (STOP_2, |counts| counts.stop_2_first()),
    ("unlike plain", |counts| counts.walked != walk_by(plain_passes, counts.pack, counts.pgn, counts.readings).0),
];

/// All ones was read, but of a field that is not current.
pub const STOP_2: &str = "stop 2 first";

pub fn rows() -> impl Iterator<Item = &'static str> {
    ROWS.into_iter().map(|(name, _)| name)
}

impl<'a> Counts<'a> {
    pub fn new(pack: &'a Pack, pgn: &'a Pgn, readings: &'a [u64]) -> Self {
        let (walked, arrivals) = walk_by(passes, pack, pgn, readings);
        let stopped_at = arrivals.iter().find(|arrival| arrival.taken.is_none()).map(|arrival| arrival.set);
        let taken = |Arrival { set, taken }| {
            let visit = taken?;
            Some(Taken { set, field: &pgn.fields[walked.visits[visit] as usize], visit, reading: readings[visit] })
        };
        let taken = arrivals.into_iter().filter_map(taken).collect();
        Counts { pack, pgn, readings, walked, taken, stopped_at }
    }

    /// The rows in which the walk counts.
    pub fn reached(&self) -> impl Iterator<Item = &'static str> {
        ROWS.into_iter().filter(|(_, shows)| shows(self)).map(|(name, _)| name)
    }

    /// Whether a count that is not available is 0: the plain walk with 0 in the place of each reading of all ones that a
    /// countField took goes as this one, and whether there are any. None where one of these fields has a lookup, since
    /// there a reading may be met by stop 5 too.
    pub fn as_zeros(&self) -> Option<(bool, bool)> {
        let counters = counters(self.pgn);
        let mut readings = self.readings.to_vec();
        for (reading, index) in readings.iter_mut().zip(&self.walked.visits) {
            let field = &self.pgn.fields[*index as usize];
            if counters.contains(&(*index as usize)) && is_not_available(field, *reading) {
                if field.reference.is_some() {
                    return None;
                }
                *reading = 0;
            }
        }
        let plain = walk_by(plain_passes, self.pack, self.pgn, &readings).0;
        Some((plain == self.walked, readings != self.readings))
    }

    fn any(&self, so: impl Fn(&Taken) -> bool) -> bool {
        self.taken.iter().any(so)
    }

    fn nested(&self) -> bool {
        nonempty(self.pgn, 1).is_some_and(|set| set.nested)
    }

    fn nested_in_some_passes(&self) -> bool {
        self.nested()
            && self.any(|taken| taken.set == 1 && taken.not_available())
            && self.any(|taken| taken.set == 1 && taken.has_passes())
    }

    /// Whether both sets take all ones from one visit.
    fn both_by_one(&self) -> bool {
        let mut pairs = self.taken.windows(2);
        pairs.any(|pair| pair[0].not_available() && pair[0].visit == pair[1].visit && pair[0].set != pair[1].set)
    }

    /// Whether a set has passes after the other was passed over.
    fn then_the_other(&self) -> bool {
        let mut pairs = self.taken.windows(2);
        !self.nested() && pairs.any(|pair| pair[0].not_available() && pair[1].has_passes())
    }

    /// Whether what is passed over are the last fields, which end the walk.
    fn whole_without(&self) -> bool {
        let ends_the_fields = |taken: &Taken| {
            let set = nonempty(self.pgn, taken.set);
            set.is_some_and(|set| (set.start + set.count - 1) as usize == self.pgn.fields.len())
        };
        self.walked.end == End::Whole && self.any(|taken| taken.not_available() && ends_the_fields(taken))
    }

    /// Whether an earlier visit of the countField took all ones, or something else.
    fn earlier(&self, taken: &Taken, all_ones: bool) -> bool {
        let index = self.walked.visits[taken.visit];
        let mut before = self.readings.iter().zip(&self.walked.visits[..taken.visit]);
        before.any(|(reading, visit)| *visit == index && is_not_available(taken.field, *reading) == all_ones)
    }

    fn stop_2_first(&self) -> bool {
        let set = self.stopped_at.and_then(|set| nonempty(self.pgn, set));
        let index = set.and_then(|set| set.count_field?.checked_sub(1));
        let latest = index.and_then(|index| self.walked.visits.iter().rposition(|visit| *visit == index));
        latest.is_some_and(|visit| {
            is_not_available(&self.pgn.fields[self.walked.visits[visit] as usize], self.readings[visit])
        })
    }
}

fn is_continued(field: &Field) -> bool {
    field.continuation.is_some_and(|width| width > 0)
}

/// All ones of the value's bits, which are more than the field's.
fn takes_value_bits(taken: &Taken) -> bool {
    taken.is_ones_of(|of, _| of == taken.field.value_bits())
}
