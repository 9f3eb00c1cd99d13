//! For counts that are not available: countFields of the widths that matter, and readings of all ones, or nearly so, where
//! they are visited.

use super::{Generator, keep_sums, text};
use crate::counts::counters;
use crate::finding::Finding;
use crate::rules::check;
use crate::value::*;
use crate::walk::walk;

/// At both ends of the widths in which all ones is not available, and between and beyond them.
const WIDTHS: [u32; 18] = [0, 1, 2, 2, 3, 5, 7, 8, 9, 16, 32, 62, 63, 63, 64, 65, 66, 1000];
/// A list is walked at most so often, since what is put in changes what follows.
const WALKS: usize = 8;

fn is_clean(pack: &Pack) -> bool {
    !check(pack).iter().any(Finding::is_error)
}

impl Generator {
    /// A single PGN of few numbers, the second of which may continue the first, with two sets, one behind the other. Often one
    /// field counts both, or the second is counted by a field of the first, which has been left by then.
    pub fn pack_of_counts(&mut self) -> Pack {
        let mut pack = self.pack_of_one(0, false);
        let pgn = &mut pack.trees[0][0];
        let count = self.rng.between(4, 6) as u32;
        pgn.fields = (1..=count).map(|order| self.number(order)).collect();
        if self.coin() {
            // the value seldom has more than 64 bits, which R43 would report
            let more = self.rng.between(1, 8) as u32;
            pgn.fields[0].continuation = Some(more);
            pgn.fields[1] = Field { res_bits: more, continues: Some(pgn.fields[0].id.clone()), ..self.number(2) };
        }
        let middle = self.rng.between(3, count as usize - 1) as u32;
        let (mut one, mut two) = (self.set_within(3, middle, 1), self.set_within(middle + 1, count, 1));
        let by = self.rng.between(1, 2) as u32;
        one.count_field = Some(by);
        match self.rng.below(4) {
            0 => two.count_field = Some(by),
            1 => two.count_field = Some(3 - by),
            2 => two.count_field = Some(one.start),
            _ => {}
        }
        pgn.sets = [Some(one), Some(two)];
        if self.coin() {
            pgn.sets.swap(0, 1);
        }
        pack
    }

    fn number(&mut self, order: u32) -> Field {
        Field {
            id: text(format!("f{order}")),
            name: text(format!("Field {order}")),
            type_: text("NUMBER"),
            bits_given: true,
            res_bits: *self.rng.pick(&WIDTHS),
            res_resolution: Float::of(1.0),
            ..Field::default()
        }
    }

    /// Other widths for some countFields; a pack without error stays without.
    pub fn change_counters(&mut self, pack: &mut Pack) {
        let clean = is_clean(pack);
        for tree in 0..3 {
            for item in 0..pack.trees[tree].len() {
                for index in counters(&pack.trees[tree][item]) {
                    let before = pack.trees[tree][item].clone();
                    let pgn = &mut pack.trees[tree][item];
                    pgn.fields[index].res_bits = *self.rng.pick(&WIDTHS);
                    keep_sums(pgn);
                    if clean && !is_clean(pack) {
                        pack.trees[tree][item] = before;
                    }
                }
            }
        }
    }

    /// All ones or nearly so at some of the visits of countFields, from the first on.
    pub fn put_counts(&mut self, pack: &Pack, pgn: &Pgn, readings: &mut [u64]) {
        let counters = counters(pgn);
        let mut from = 0;
        for _ in 0..WALKS {
            let visits = walk(pack, pgn, readings).visits;
            let counting = |visit: &usize| counters.contains(&(visits[*visit] as usize));
            let Some(visit) = (from..visits.len()).filter(counting).find(|_| self.coin()) else { return };
            readings[visit] = self.count(&pgn.fields[visits[visit] as usize]);
            from = visit + 1;
        }
    }

    /// All ones of the field's bits, or of its value's where it is continued; one less, one more, with other bits above it; or
    /// all ones of some other bits.
    fn count(&mut self, field: &Field) -> u64 {
        let bits = if self.coin() { field.res_bits } else { field.value_bits() };
        let all_ones = if bits == 0 { u64::MAX } else { largest(bits) };
        match self.rng.below(8) {
            0..4 => all_ones,
            4 => all_ones - 1,
            5 => all_ones.wrapping_add(1),
            6 => all_ones | self.rng.u64(),
            _ => {
                let others = [bits.saturating_sub(1), bits.saturating_add(1), 1, 2, 8, 32, 63, 64];
                largest(*self.rng.pick(&others))
            }
        }
    }
}
