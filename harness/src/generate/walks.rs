//! Packs and readings for the walk: good packs in which some PGNs get what may stop it, and lists that are meant to do harm.

use super::hexadecimal::ONE_OF;
use super::{Generator, text};
use crate::value::*;

/// The kinds of lists that are meant to do harm.
pub const HARMFUL: [&str; 4] = ["ones", "zeros", "huge counts", "0 and 1"];

impl Generator {
    /// A pack without error, but for what may stop the walk in some of its PGNs; every stop is aimed at as often.
    pub fn pack_with_stops(&mut self) -> Pack {
        let mut pack = self.pack_with(0, false);
        self.aim_at_stops(&mut pack);
        pack
    }

    /// The same with a single PGN of so many fields.
    pub fn pack_of_fields(&mut self, fields: usize) -> Pack {
        let hexadecimal = self.rng.chance(1, ONE_OF);
        let mut pack = self.pack_of_one(fields, hexadecimal);
        self.aim_at_stops(&mut pack);
        pack
    }

    /// A pack without error and with a single PGN of so many fields.
    pub(super) fn pack_of_one(&mut self, fields: usize, hexadecimal: bool) -> Pack {
        self.bytes = false;
        self.slip = 0;
        self.hexadecimal = hexadecimal;
        self.begin();
        let mut pack =
            Pack { fieldtypes: self.types.clone(), lookups: self.lookups.clone(), trees: Default::default() };
        self.add_pgn(0, fields, &mut pack.trees[0]);
        pack
    }

    /// A single PGN of few fields, with many matches that are hexadecimal numerals or nearly so, good ones and others.
    pub fn pack_of_matches(&mut self) -> Pack {
        let fields = self.rng.between(1, 4);
        let mut pack = self.pack_of_one(fields, true);
        let pgn = &mut pack.trees[0][0];
        if self.coin() {
            pgn.sets = [None, None];
        }
        for field in &mut pgn.fields {
            if self.coin() {
                self.match_at_a_width(field);
            }
        }
        pack
    }

    fn aim_at_stops(&mut self, pack: &mut Pack) {
        for tree in 0..3 {
            for item in 0..pack.trees[tree].len() {
                let mut pgn = std::mem::take(&mut pack.trees[tree][item]);
                if !pgn.fields.is_empty() && self.coin() {
                    self.aim_at_stop(pack, &mut pgn);
                }
                if !pgn.fields.is_empty() && self.hexadecimal && self.coin() {
                    let at = self.rng.below(pgn.fields.len());
                    self.match_at_a_width(&mut pgn.fields[at]);
                }
                pack.trees[tree][item] = pgn;
            }
        }
    }

    fn aim_at_stop(&mut self, pack: &mut Pack, pgn: &mut Pgn) {
        let count = pgn.fields.len();
        let at = self.rng.below(count);
        match self.rng.between(1, 9) {
            1 => {
                let set = self.rng.below(2);
                pgn.sets[set] = Some(self.wild_set(count as u32));
            }
            2 => self.count_anywhere(pgn),
            3 => pgn.fields[at].reference = Some((*self.rng.pick(&Kind::ALL), text("missing"))),
            4 => self.match_badly(&mut pgn.fields[at]),
            5 => self.refer_to_missing(pack, &mut pgn.fields[at]),
            8 => {
                pgn.fields[at].ft = dynamic_value(pack);
                if self.coin() {
                    let source = self.rng.below(count);
                    pgn.fields[source].dynamic_field_length = true;
                }
            }
            stop => {
                let (at, target) = self.user_and_target(pgn);
                let id = Some(pgn.fields.get(target).map_or(text("missing"), |field| field.id.clone()));
                let field = &mut pgn.fields[at];
                match stop {
                    6 => field.bit_length_field = id,
                    7 => field.continues = id,
                    _ => field.trailing_zero = id,
                }
            }
        }
    }

    /// Two indexes, the second maybe one past the fields; often a user in the inner set, which the first pass of the outer
    /// may skip, and a target that comes after it in the outer.
    fn user_and_target(&mut self, pgn: &Pgn) -> (usize, usize) {
        let count = pgn.fields.len();
        let any = (self.rng.below(count), self.rng.below(count + 1));
        let [Some(outer), Some(inner)] = &pgn.sets else { return any };
        let orders = [inner.start, inner.start + inner.count, outer.start + outer.count].map(|order| order as usize);
        let [start, after, end] = orders;
        let late = inner.nested && inner.count > 0 && after < end && end <= count + 1;
        if !late || !self.coin() {
            return any;
        }
        (self.rng.between(start, after - 1) - 1, self.rng.between(after, end - 1) - 1)
    }

    /// Some nonempty set, a new one where there is none, takes its passes from any order.
    fn count_anywhere(&mut self, pgn: &mut Pgn) {
        let count = pgn.fields.len();
        if pgn.sets.iter().flatten().all(|set| set.count == 0) {
            pgn.sets[0] = Some(self.set_within(1, count as u32, 1));
        }
        let order = self.rng.below(count + 2) as u32;
        let first = self.rng.below(2);
        let set = [first, 1 - first].into_iter().find(|set| pgn.sets[*set].as_ref().is_some_and(|set| set.count > 0));
        if let Some(set) = set.and_then(|set| pgn.sets[set].as_mut()) {
            set.count_field = Some(order);
        }
    }

    /// A match that hardly an entry has, or the smallest number above the field's bits; at 64 bits and more the largest.
    fn match_badly(&mut self, field: &mut Field) {
        let above = 1u64.checked_shl(field.res_bits).unwrap_or(u64::MAX);
        field.match_ = Some(match self.rng.below(if self.hexadecimal { 4 } else { 2 }) {
            0 => text("no entry"),
            1 => text(above.to_string()),
            2 => self.numeral(above),
            _ => self.nearly_a_numeral(),
        });
    }

    /// A reference, of any kind, to a fieldtype lookup with an entry that names something missing.
    fn refer_to_missing(&mut self, pack: &mut Pack, field: &mut Field) {
        let given = pack.lookups.iter().position(|lookup| lookup.kind == Kind::Fieldtype);
        let at = given.unwrap_or_else(|| {
            // after every other name
            pack.lookups.push(Lookup { name: text("ÿ"), kind: Kind::Fieldtype, bits: 8, entries: Vec::new() });
            pack.lookups.len() - 1
        });
        let value = self.rng.below(4) as u64;
        let known = pack.fieldtypes[0].name.clone();
        let (fieldtype, nested) = if self.coin() { (text("missing"), None) } else { (known, Some(text("missing"))) };
        let entries = &mut pack.lookups[at].entries;
        entries.push(Entry { first: 0, value, name: text("n"), fieldtype, nested });
        field.reference = Some((*self.rng.pick(&Kind::ALL), pack.lookups[at].name.clone()));
        field.match_ = None;
    }

    /// A list of a kind of `HARMFUL`.
    pub fn harmful(&mut self, kind: usize, length: usize, pgn: &Pgn) -> Vec<u64> {
        let mut readings: Vec<u64> = match kind {
            0 => vec![u64::MAX; length],
            1 => vec![0; length],
            2 => (0..length).map(|_| self.rng.below(3) as u64).collect(),
            _ => (0..length).map(|_| self.rng.below(2) as u64).collect(),
        };
        if kind == 2 {
            // where no set stands before it, the countField takes the reading of its index
            for order in pgn.sets.iter().flatten().filter_map(|set| set.count_field) {
                let huge = *self.rng.pick(&[u64::MAX, 1 << 63, 1 << 32]);
                if let Some(reading) = readings.get_mut((order as usize).wrapping_sub(1)) {
                    *reading = huge;
                }
            }
        }
        readings
    }
}

/// The index of a type of root DYNAMIC_FIELD_VALUE.
fn dynamic_value(pack: &mut Pack) -> u32 {
    let root = text("DYNAMIC_FIELD_VALUE");
    let given = pack.fieldtypes.iter().position(|ft| ft.root_name == root);
    let at = given.unwrap_or_else(|| {
        pack.fieldtypes.push(FieldType {
            name: root.clone(),
            print_function: true,
            root_name: root,
            ..FieldType::default()
        });
        pack.fieldtypes.len() - 1
    });
    at as u32
}
