//! Packs for R42: few SPNs and few scalings, so that fields of one SPN meet, alike about as often as not.

use super::pools::GOOD_NUMBERS;
use super::{Generator, text};
use crate::value::*;

/// Around the largest of 19 bits, and far from it.
const SPNS: [u32; 7] = [0, 1, 190, 524_286, 524_287, 524_288, u32::MAX];
const WIDTHS: [u32; 3] = [0, 8, 16];
const RESOLUTIONS: [f64; 5] = [1.0, 0.5, 0.0, -0.0, f64::INFINITY];
const OFFSETS: [f64; 3] = [0.0, -0.0, -40.0];
/// Patterns: the usual one, a signalling one, a negative one.
const NANS: [u64; 3] = [0x7ff8_0000_0000_0000, 0x7ff0_0000_0000_0001, 0xfff8_0000_0000_0000];
const UNITS: [Option<&str>; 4] = [None, Some(""), Some("h"), Some("H")];
/// So many PGNs, and so many fields.
const COUNTS: [usize; 8] = [0, 1, 1, 2, 2, 2, 3, 4];
const IDS: [&str; 4] = ["a", "b", "c", "d"];

impl Generator {
    /// A small pack with few SPNs in tree 1; now and then they stand in another tree too, scaled otherwise.
    pub fn pack_of_spns(&mut self) -> Pack {
        let scaled: Vec<Field> = (0..self.rng.between(1, 3)).map(|_| self.scaled()).collect();
        let pool: Vec<Field> = (0..*self.rng.pick(&[1, 1, 2, 3]))
            .map(|_| {
                let spn = *self.rng.pick(&SPNS);
                Field { spn: Some(spn), name: text(format!("SPN {spn}")), ..self.rng.pick(&scaled).clone() }
            })
            .collect();
        let root = text("NUMBER");
        let number = FieldType { name: root.clone(), print_function: true, root_name: root, ..FieldType::default() };
        let fixed = FieldType { name: text("UFIX16"), base: true, size: 16, ..number.clone() };
        self.slip = *self.rng.pick(&[0, 200, 600]);
        let j1939 = (0..*self.rng.pick(&COUNTS)).map(|_| self.pgn_of_spns(1, &pool)).collect();
        let mut pack = Pack { fieldtypes: vec![number, fixed], trees: [vec![], j1939, vec![]], ..Pack::default() };
        self.slip = 1000;
        for tree in [0, 2] {
            if self.rng.chance(1, 8) {
                pack.trees[tree].push(self.pgn_of_spns(tree, &pool));
            }
        }
        pack
    }

    fn pgn_of_spns(&mut self, tree: usize, pool: &[Field]) -> Pgn {
        let (pgn, packet) = *self.rng.pick(GOOD_NUMBERS[tree]);
        Pgn {
            pgn,
            id: text(self.rng.pick(&IDS)),
            packet,
            fallback: self.coin(),
            variable: self.coin(),
            missing_company_fields: self.coin(),
            length: 8,
            fields: (0..*self.rng.pick(&COUNTS)).map(|i| self.field_of_spns(IDS[i], pool)).collect(),
            ..Pgn::default()
        }
    }

    /// A field of the pool, with a slip scaled as another one of it or with one member drawn anew.
    fn field_of_spns(&mut self, id: &str, pool: &[Field]) -> Field {
        let mut field = self.rng.pick(pool).clone();
        if self.slips() {
            match self.rng.below(8) {
                member @ 0..4 => self.rescale(&mut field, member),
                _ => field = Field { spn: field.spn, ..self.rng.pick(pool).clone() },
            }
        }
        for float in [&mut field.res_resolution, &mut field.res_offset] {
            if self.rng.chance(1, 4) {
                // the other zero is as good, and no NaN is better
                if float.get() == 0.0 {
                    *float = Float::of(-float.get());
                } else if float.get().is_nan() {
                    *float = Float(*self.rng.pick(&NANS));
                }
            }
        }
        if self.rng.chance(1, 8) {
            field.spn = None;
        }
        field.id = text(id);
        if self.coin() {
            self.change_beside_scaling(&mut field);
        }
        field
    }

    /// Changes something that is nothing to R42.
    fn change_beside_scaling(&mut self, field: &mut Field) {
        match self.rng.below(12) {
            0 => field.id = text(self.rng.pick(&IDS)),
            1 => field.name = text(self.rng.pick(&["Hours", ""])),
            2 => field.ft = 1,
            3 => field.bits_given = true,
            4 => field.unit_given = true,
            5 => field.proprietary = true,
            6 => field.allow_lookup_width_mismatch = true,
            7 => field.dynamic_field_length = true,
            8 => field.overhead = true,
            9 => field.resolution = Some(self.float(&RESOLUTIONS)),
            10 => field.offset = Some(self.float(&OFFSETS)),
            // 8 and 8 bits more are no 16
            _ => field.continuation = Some(*self.rng.pick(&WIDTHS)),
        }
    }

    /// A field with a scaling.
    fn scaled(&mut self) -> Field {
        let mut field = Field { type_: text("NUMBER"), ..Field::default() };
        (0..4).for_each(|member| self.rescale(&mut field, member));
        field
    }

    /// Draws width, resolution, offset or unit anew.
    fn rescale(&mut self, field: &mut Field, member: usize) {
        match member {
            0 => field.res_bits = *self.rng.pick(&WIDTHS),
            1 => field.res_resolution = self.float(&RESOLUTIONS),
            2 => field.res_offset = self.float(&OFFSETS),
            _ => field.res_unit = self.rng.pick(&UNITS).map(text),
        }
    }

    /// One of these, or now and then a NaN.
    fn float(&mut self, list: &[f64]) -> Float {
        if self.rng.chance(1, 8) { Float(*self.rng.pick(&NANS)) } else { Float::of(*self.rng.pick(list)) }
    }
}
