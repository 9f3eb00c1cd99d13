//! The walk as a plain program does it, for the times: it keeps no history. Where stop 1 is not met, the field that is due
//! decides which others are current: those before it whose nonempty sets hold it too. So a table made beforehand says at
//! which fields there is a stop; only stop 5 asks for the reading. The reference is `walk`.

use crate::value::*;
use crate::walk::End;
use std::ops::Range;

/// The end, and the number of visits, which stand at the beginning of `visits`.
pub fn quick_walk(pack: &Pack, pgn: &Pgn, readings: &[u64], visits: &mut [u32]) -> (End, usize) {
    match ranges(pgn) {
        Some(ranges) => Plan::new(pack, pgn, ranges).run(readings, visits),
        None => (End::Stop(1), 0),
    }
}

/// The indexes of each set's fields.
type Ranges = [Range<usize>; 2];

/// None for stop 1.
fn ranges(pgn: &Pgn) -> Option<Ranges> {
    let mut ranges = [0..0, 0..0];
    for (range, set) in ranges.iter_mut().zip(&pgn.sets) {
        if let Some(set) = set.as_ref().filter(|set| set.count > 0) {
            let start = set.start.checked_sub(1)? as usize;
            *range = start..start + set.count as usize;
        }
    }
    let nested = |which: usize| !ranges[which].is_empty() && pgn.sets[which].as_ref().is_some_and(|set| set.nested);
    let [one, two] = &ranges;
    let apart = one.is_empty() || two.is_empty() || one.end <= two.start || two.end <= one.start;
    let within = one.start < two.start && two.end <= one.end;
    let fit = one.end.max(two.end) <= pgn.fields.len() && !nested(0) && if nested(1) { within } else { apart };
    fit.then_some(ranges)
}

/// What is done at a field.
struct Row {
    /// nothing but the visit
    plain: bool,
    /// stop 3 or 4
    first: Option<u32>,
    /// the readings of stop 5, rising
    missing: Vec<u64>,
    /// one of stops 6 to 9
    last: Option<u32>,
    /// of which sets it is the countField
    counts: [bool; 2],
}

impl Row {
    fn stop(&self, reading: u64) -> Option<u32> {
        self.first.or_else(|| self.missing.binary_search(&reading).ok().map(|_| 5)).or(self.last)
    }
}

#[derive(Clone, Copy)]
enum Passes {
    Endless,
    /// by the countField's latest reading; none by this one, as by 0
    Counted {
        all_ones: u64,
    },
    /// stop 2
    NotCurrent,
}

struct Plan {
    rows: Vec<Row>,
    /// by index, one past the last too: whether a set begins here or one has ended
    edges: Vec<bool>,
    ranges: Ranges,
    passes: [Passes; 2],
}

#[derive(Default)]
struct State {
    index: usize,
    /// for each set whether it has a present pass, how many follow it, and the latest reading of its countField
    within: [bool; 2],
    more: [u64; 2],
    latest: [u64; 2],
}

impl Plan {
    fn new(pack: &Pack, pgn: &Pgn, ranges: Ranges) -> Self {
        let mut edges = vec![false; pgn.fields.len() + 1];
        for range in ranges.iter().filter(|range| !range.is_empty()) {
            edges[range.start] = true;
            edges[range.end] = true;
        }
        let mut rows: Vec<Row> = (0..pgn.fields.len()).map(|due| row(pack, pgn, &ranges, due)).collect();
        let mut passes = [Passes::Endless; 2];
        for which in [0, 1] {
            let Some(order) = pgn.sets[which].as_ref().and_then(|set| set.count_field) else { continue };
            let counter = order.checked_sub(1).map(|index| index as usize);
            passes[which] = Passes::NotCurrent;
            if let Some(counter) = counter.filter(|counter| current(&ranges, *counter, ranges[which].start)) {
                passes[which] = Passes::Counted { all_ones: not_available(pgn.fields[counter].res_bits) };
                rows[counter].counts[which] = true;
                rows[counter].plain = false;
            }
        }
        Plan { rows, edges, ranges, passes }
    }

    fn run(&self, readings: &[u64], visits: &mut [u32]) -> (End, usize) {
        let mut state = State::default();
        let mut taken = 0;
        loop {
            if self.edges[state.index]
                && let Some(end) = self.settle(&mut state)
            {
                return (end, taken);
            }
            let Some(row) = self.rows.get(state.index) else { return (End::Whole, taken) };
            let Some(reading) = readings.get(taken) else { return (End::UsedUp, taken) };
            if !row.plain {
                if let Some(stop) = row.stop(*reading) {
                    return (End::Stop(stop), taken);
                }
                for which in [0, 1] {
                    if row.counts[which] {
                        state.latest[which] = *reading;
                    }
                }
            }
            visits[taken] = state.index as u32;
            taken += 1;
            state.index += 1;
        }
    }

    /// Passes end, that of the inner set first; then sets are arrived at, the outer one first.
    fn settle(&self, state: &mut State) -> Option<End> {
        loop {
            let before = state.index;
            self.end_pass(1, state);
            self.end_pass(0, state);
            if self.arrives(0, state) || self.arrives(1, state) {
                return Some(End::Stop(2));
            }
            if state.index == before {
                return None;
            }
        }
    }

    fn end_pass(&self, which: usize, state: &mut State) {
        if !state.within[which] || state.index != self.ranges[which].end {
            return;
        }
        if state.more[which] == 0 {
            state.within[which] = false;
        } else {
            state.more[which] -= 1;
            state.index = self.ranges[which].start;
        }
    }

    /// Whether the set's countField is not current.
    fn arrives(&self, which: usize, state: &mut State) -> bool {
        let range = &self.ranges[which];
        if range.is_empty() || state.within[which] || state.index != range.start {
            return false;
        }
        let passes = match self.passes[which] {
            // more than there can be readings
            Passes::Endless => u64::MAX,
            Passes::Counted { all_ones } if state.latest[which] == all_ones => 0,
            Passes::Counted { .. } => state.latest[which],
            Passes::NotCurrent => return true,
        };
        if passes == 0 {
            state.index = range.end;
        } else {
            state.within[which] = true;
            state.more[which] = passes - 1;
        }
        false
    }
}

/// The count that is not available: every bit is set of a countField of 2 to 64 bits. 0 where there is no such count.
fn not_available(bits: u32) -> u64 {
    if (2..=u64::BITS).contains(&bits) { u64::MAX >> (u64::BITS - bits) } else { 0 }
}

/// Whether a field is current where another is due.
fn current(ranges: &Ranges, index: usize, due: usize) -> bool {
    index < due && ranges.iter().all(|range| !range.contains(&index) || range.contains(&due))
}

fn row(pack: &Pack, pgn: &Pgn, ranges: &Ranges, due: usize) -> Row {
    let field = &pgn.fields[due];
    let lookup = field.reference.as_ref().map(|(_, name)| pack.lookup(name));
    let first = if lookup == Some(None) {
        Some(3)
    } else {
        field.match_.as_ref().filter(|_| !match_fits(pack, field)).map(|_| 4)
    };
    let missing = lookup.flatten().map_or(Vec::new(), |lookup| missing_readings(pack, &pack.lookups[lookup]));
    let away = |id: &Option<Text>| {
        let target = |id: &Text| pgn.fields.iter().position(|field| field.id == *id);
        id.as_ref().is_some_and(|id| !target(id).is_some_and(|target| current(ranges, target, due)))
    };
    let source = |(index, field): (usize, &Field)| {
        (field.dynamic_field_length || pack.root_name(field) == b"DYNAMIC_FIELD_KEY") && current(ranges, index, due)
    };
    let dynamic = pack.root_name(field) == b"DYNAMIC_FIELD_VALUE";
    let stops = [
        (6, away(&field.bit_length_field)),
        (7, away(&field.continues)),
        (8, dynamic && !pgn.fields.iter().enumerate().any(source)),
        (9, away(&field.trailing_zero)),
    ];
    let last = stops.into_iter().find(|(_, met)| *met).map(|(stop, _)| stop);
    Row { plain: first.is_none() && missing.is_empty() && last.is_none(), first, missing, last, counts: [false; 2] }
}

fn match_fits(pack: &Pack, field: &Field) -> bool {
    let most = if field.res_bits < 64 { (1 << field.res_bits) - 1 } else { u64::MAX };
    pack.resolve_match(field).is_some_and(|value| value <= most)
}

/// The values of entries that name a missing field type or nested lookup.
fn missing_readings(pack: &Pack, lookup: &Lookup) -> Vec<u64> {
    let known = |entry: &&Entry| {
        pack.has_fieldtype(&entry.fieldtype) && entry.nested.as_ref().is_none_or(|name| pack.lookup(name).is_some())
    };
    let entries = lookup.entries.iter().filter(|_| lookup.kind == Kind::Fieldtype);
    let mut values: Vec<u64> = entries.filter(|entry| !known(entry)).map(|entry| entry.value).collect();
    values.sort_unstable();
    values
}
