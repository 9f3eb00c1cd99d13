//! Slips: one thing of a good record changed to something out of a pool.

use super::pools::*;
use super::{Generator, text};
use crate::value::*;

impl Generator {
    pub(super) fn change_fieldtype(&mut self, ft: &mut FieldType) {
        match self.rng.below(7) {
            0 => ft.name = self.pool(&["NUMBER", "x"]),
            1 => ft.base = !ft.base,
            2 => ft.print_function = !ft.print_function,
            3 => ft.signed = !ft.signed,
            4 => ft.size = *self.rng.pick(&WILD_BITS),
            5 => ft.resolution = Float::of(*self.rng.pick(&FLOATS)),
            _ => ft.root_name = text(self.rng.pick(&TYPES).1),
        }
    }

    pub(super) fn change_entry(&mut self, kind: Kind, entry: &mut Entry) {
        match (self.rng.below(4), kind) {
            (0, Kind::Fieldtype) => entry.fieldtype = self.pool(&["NUMBER", "missing"]),
            (1, Kind::Fieldtype) => entry.nested = self.maybe(|g| g.pool(&["A", "missing"])),
            (0 | 1, Kind::Triplet) => entry.first = u64::MAX,
            (2, _) => entry.name = self.pool(&["n0", "n1", "7", "", "0x1F", "+0x1F"]),
            _ => entry.value = *self.rng.pick(&[0, 1, 7, 8, 255, 1 << 63, u64::MAX]),
        }
    }

    pub(super) fn wild_set(&mut self, count: u32) -> Repeating {
        let order = |g: &mut Self| match g.rng.below(40) {
            0 => u32::MAX,
            _ => g.rng.below(count as usize + 3) as u32,
        };
        let start = order(self);
        // their sum stays within 32 bits
        let count = order(self).min(u32::MAX - start);
        Repeating { count, start, count_field: self.maybe(order), nested: self.rng.chance(1, 3) }
    }

    /// Some field refers to some other, a later one too; often from within the inner of two sets, which the first pass of
    /// the outer may skip.
    pub(super) fn refer_anywhere(&mut self, pgn: &mut Pgn) {
        let count = pgn.fields.len();
        let inner = pgn.sets[1].as_ref().filter(|set| set.count > 0 && set.start > 0 && self.rng.chance(3, 4));
        let user = match inner {
            Some(set) => (set.start as usize - 1 + self.rng.below(set.count as usize)).min(count - 1),
            None => self.rng.below(count),
        };
        let id = Some(pgn.fields[self.rng.below(count)].id.clone());
        let field = &mut pgn.fields[user];
        match self.rng.below(3) {
            0 => field.bit_length_field = id,
            1 => field.continues = id,
            _ => field.trailing_zero = id,
        }
    }

    pub(super) fn change_pgn(&mut self, pgn: &mut Pgn, earlier: &[Pgn]) {
        match self.rng.below(9) {
            0 => pgn.pgn = *self.rng.pick(&NUMBERS),
            1 if !earlier.is_empty() => pgn.id = self.rng.pick(earlier).id.clone(),
            1 => pgn.id = self.pool(&TEXTS),
            2 => pgn.packet = *self.rng.pick(&PacketType::ALL),
            3 => pgn.fallback = !pgn.fallback,
            4 => pgn.variable = !pgn.variable,
            5 => pgn.missing_company_fields = !pgn.missing_company_fields,
            6 => pgn.length = *self.rng.pick(&[0, 1, 7, 8, 9, 223]),
            7 => pgn.min_length = self.maybe(|g| *g.rng.pick(&[0, 1, 2, 4, 7, 8, 9, 536_870_911])),
            _ => {
                let set = self.rng.below(2);
                pgn.sets[set] = self.maybe(|g| g.wild_set(pgn.fields.len() as u32));
            }
        }
    }

    /// The id of a field of most PGNs, or some text.
    pub(super) fn some_id(&mut self) -> Text {
        if self.coin() { text(format!("f{}", self.rng.below(7))) } else { self.pool(&TEXTS) }
    }

    /// Changes what a field refers to, where it refers to something; that is where most causes lie.
    pub(super) fn change_reference(&mut self, field: &mut Field) -> bool {
        if let Some(id) =
            [&mut field.bit_length_field, &mut field.trailing_zero, &mut field.continues].into_iter().flatten().next()
        {
            *id = self.some_id();
        } else if field.spn.is_some() {
            match self.rng.below(3) {
                0 => field.name = self.pool(&NAMES),
                1 => field.res_unit = self.maybe(|g| g.pool(&["m", "K", ""])),
                _ => field.res_resolution = Float::of(*self.rng.pick(&FLOATS)),
            }
        } else if field.reference.is_some() {
            field.reference = Some((*self.rng.pick(&Kind::ALL), self.pool(&LOOKUPS)));
        } else {
            return false;
        }
        true
    }

    pub(super) fn change_field(&mut self, field: &mut Field) {
        if self.rng.chance(1, 3) && self.change_reference(field) {
            return;
        }
        match self.rng.below(24) {
            0 => field.id = self.pool(&TEXTS),
            1 => field.name = self.pool(&NAMES),
            2 => field.type_ = text(self.rng.pick(&TYPES).0),
            3 => field.ft = self.rng.below(self.types.len()) as u32,
            4 => field.bits_given = !field.bits_given,
            5 => field.unit_given = !field.unit_given,
            6 => field.proprietary = !field.proprietary,
            7 => field.allow_lookup_width_mismatch = !field.allow_lookup_width_mismatch,
            8 => field.dynamic_field_length = !field.dynamic_field_length,
            9 => field.overhead = !field.overhead,
            10 => field.res_bits = *self.rng.pick(&WILD_BITS),
            11 => field.res_resolution = Float::of(*self.rng.pick(&FLOATS)),
            12 => field.res_offset = Float::of(*self.rng.pick(&FLOATS)),
            13 => field.res_unit = self.maybe(|g| g.pool(&["m", "K", ""])),
            14 => field.resolution = self.maybe(|g| Float::of(*g.rng.pick(&FLOATS))),
            15 => field.offset = self.maybe(|g| Float::of(*g.rng.pick(&FLOATS))),
            16 => field.spn = self.maybe(|g| *g.rng.pick(&[0, 1, 2, 3, 524287, 524288, u32::MAX])),
            17 | 23 => field.continues = self.maybe(Self::some_id),
            18 if self.hexadecimal => self.match_at_a_width(field),
            18 => field.match_ = self.maybe(|g| g.pool(&MATCHES)),
            19 => field.reference = self.maybe(|g| (*g.rng.pick(&Kind::ALL), g.pool(&LOOKUPS))),
            20 => field.special_values = self.maybe(|g| *g.rng.pick(&[0, 1, 2, 3, 4, u32::MAX])),
            21 if self.coin() => field.bit_length_field = self.maybe(Self::some_id),
            21 => field.trailing_zero = self.maybe(Self::some_id),
            _ => field.continuation = self.maybe(|g| *g.rng.pick(&[0, 1, 8, 61, 64, 1000])),
        }
    }
}
