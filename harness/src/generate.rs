//! Structured packs from a seed. Each record is first made as the rules want it; then, as often as the pack's own
//! `slip` says, one thing of it is changed to something out of a small pool. With no slips the pack is without error.

mod change;
mod counts;
mod fields;
mod hexadecimal;
mod pools;
mod sample;
mod sizes;
mod spns;
mod walks;

use self::pools::*;
pub use self::sample::sample_of_size;
pub use self::sizes::{hexadecimal_packs_of_sizes, pack_of_digits, packs_of_sizes, pad};
pub use self::walks::HARMFUL;
use crate::rng::Rng;
use crate::rules::match_set;
use crate::value::*;
use std::collections::HashMap;

pub struct Generator {
    pub rng: Rng,
    /// how often, of 1000, something is changed
    slip: usize,
    /// whether texts may be other than UTF-8
    bytes: bool,
    /// whether matches and names may be hexadecimal numerals, or nearly so
    hexadecimal: bool,
    types: Vec<FieldType>,
    lookups: Vec<Lookup>,
    spns: HashMap<u32, (u32, Float, Float, Option<Text>)>,
}

fn text(s: impl AsRef<str>) -> Text {
    s.as_ref().as_bytes().to_vec()
}

impl Generator {
    pub fn new(seed: u64) -> Self {
        Generator {
            rng: Rng::new(seed),
            slip: 0,
            bytes: false,
            hexadecimal: false,
            types: Vec::new(),
            lookups: Vec::new(),
            spns: HashMap::new(),
        }
    }

    /// A small pack; with `bytes` its texts may be other than UTF-8.
    pub fn pack(&mut self, bytes: bool) -> Pack {
        let slip = *self.rng.pick(&[0, 0, 0, 0, 5, 5, 20, 20, 100, 400]);
        self.pack_with(slip, bytes)
    }

    /// A small pack in which something is changed as often as `slip` of 1000 says.
    pub fn pack_with(&mut self, slip: usize, bytes: bool) -> Pack {
        self.bytes = bytes;
        self.slip = slip;
        self.hexadecimal = self.rng.chance(1, hexadecimal::ONE_OF);
        self.begin();
        let mut trees = [const { Vec::new() }; 3];
        for (tree, pgns) in trees.iter_mut().enumerate() {
            for _ in 0..*self.rng.pick(&[0, 1, 1, 2, 3]) {
                let fields = self.field_count();
                self.add_pgn(tree, fields, pgns);
            }
        }
        Pack { fieldtypes: self.types.clone(), lookups: self.lookups.clone(), trees }
    }

    /// Readings for a walk: small counts, values of entries, any number.
    pub fn readings(&mut self, most: usize) -> Vec<u64> {
        let length = self.rng.below(most + 1);
        (0..length)
            .map(|_| match self.rng.below(8) {
                0..=4 => self.rng.below(4) as u64,
                5 => self.rng.below(12) as u64,
                // a count of which 32 bits are small
                6 => *self.rng.pick(&[u64::MAX, 1 << 32, (1 << 32) + 1]),
                _ => self.rng.u64(),
            })
            .collect()
    }

    fn slips(&mut self) -> bool {
        self.rng.chance(self.slip, 1000)
    }

    fn coin(&mut self) -> bool {
        self.rng.chance(1, 2)
    }

    fn pool(&mut self, list: &[&str]) -> Text {
        if self.bytes && self.rng.chance(1, 3) {
            return self.rng.pick(&[&b"\xff"[..], b"a\xc3", b"\x80a", b"a\0b"]).to_vec();
        }
        text(self.rng.pick(list))
    }

    fn maybe<T>(&mut self, make: impl FnOnce(&mut Self) -> T) -> Option<T> {
        if self.rng.chance(1, 4) { None } else { Some(make(self)) }
    }

    fn field_count(&mut self) -> usize {
        match self.rng.below(64) {
            0 => *self.rng.pick(&[33, if self.slip > 0 { 34 } else { 33 }, 20]),
            1..=4 => 0,
            _ => self.rng.between(1, 8),
        }
    }

    /// Types and lookups of a new pack.
    fn begin(&mut self) {
        self.spns.clear();
        self.types.clear();
        for (i, (name, root, size, resolution, signed)) in TYPES.into_iter().enumerate() {
            // NUMBER is always there
            if i > 0 && self.rng.chance(1, 5) {
                continue;
            }
            let mut ft = FieldType {
                name: text(name),
                base: name != root,
                print_function: name == root || self.coin(),
                signed,
                size,
                resolution: Float::of(resolution),
                root_name: text(root),
            };
            while self.slips() {
                self.change_fieldtype(&mut ft);
            }
            self.types.push(ft);
        }
        self.lookups.clear();
        let names: Vec<&str> = LOOKUPS.into_iter().filter(|_| self.coin()).collect();
        for name in &names {
            let lookup = self.lookup(name, &names);
            self.lookups.push(lookup);
        }
    }

    fn lookup(&mut self, name: &str, names: &[&str]) -> Lookup {
        let (kind, bits) = match name {
            "MANUFACTURER_CODE" => (Kind::Pair, 11),
            "INDUSTRY_CODE" => (Kind::Pair, 3),
            "J1939_SPN" => (Kind::Pair, 19),
            "KEYS" => (Kind::Fieldtype, 8),
            _ => (*self.rng.pick(&Kind::ALL), *self.rng.pick(&BITS)),
        };
        let mut lookup = Lookup { name: text(name), kind, bits, entries: Vec::new() };
        let room = match kind {
            Kind::Bit => u64::from(bits),
            _ if bits >= 64 => u64::MAX,
            _ => 1 << bits,
        };
        for i in 0..self.rng.below(if self.hexadecimal { 5 } else { 4 }) as u64 {
            if i >= room {
                break;
            }
            let mut entry = self.entry(&lookup, i, room, names);
            while self.slips() {
                self.change_entry(kind, &mut entry);
            }
            lookup.entries.push(entry);
        }
        while self.slips() {
            match self.rng.below(2) {
                0 => lookup.bits = *self.rng.pick(&WILD_BITS),
                _ => lookup.entries.extend(lookup.entries.clone().into_iter().take(2)),
            }
        }
        lookup
    }

    /// A lookup's next entry, with a value among so many.
    fn entry(&mut self, lookup: &Lookup, i: u64, room: u64, names: &[&str]) -> Entry {
        // small ones are met by readings
        let value = if lookup.kind == Kind::Fieldtype || self.coin() { i } else { room - 1 - i };
        let mut entry = Entry { value, name: text(format!("n{i}")), ..Entry::default() };
        match lookup.kind {
            Kind::Triplet => entry.first = self.rng.below(3) as u64,
            Kind::Fieldtype => {
                entry.fieldtype = self.rng.pick(&self.types).name.clone();
                entry.nested = self.maybe(|g| text(g.rng.pick(names)));
            }
            _ => {}
        }
        if self.hexadecimal && self.rng.chance(3, 4) {
            entry.name = self.name_like_a_numeral(lookup).unwrap_or(entry.name);
        }
        entry
    }

    fn add_pgn(&mut self, tree: usize, fields: usize, pgns: &mut Vec<Pgn>) {
        let mut pgn = self.pgn(tree, fields, pgns.len());
        if self.hexadecimal
            && self.rng.chance(1, 4)
            && let Some(again) = pgns.last().and_then(|earlier| self.spelt_again(earlier))
        {
            pgn = Pgn { id: pgn.id, ..again };
        }
        if self.slips() && !pgns.is_empty() {
            // a second record of one number, and maybe of one id
            let copied = self.rng.pick(pgns).clone();
            pgn = Pgn { id: if self.coin() { copied.id.clone() } else { pgn.id }, ..copied };
            if self.coin() {
                // other SPNs with the same names
                pgn.fields.iter_mut().for_each(|field| field.spn = field.spn.map(|spn| spn ^ 0x100));
            }
        }
        if self.slips()
            && let Some(earlier) = pgns.last_mut().filter(|earlier| earlier.fields.len() > 1)
        {
            // two variants whose match sets are one text
            earlier.fields[0].match_ = Some(text("1"));
            earlier.fields[1].match_ = Some(text("2"));
            pgn = Pgn { id: pgn.id, ..earlier.clone() };
            pgn.fields[0].match_ = Some(text("1,1=2"));
            pgn.fields[1].match_ = None;
        }
        while self.slips() {
            self.change_pgn(&mut pgn, pgns);
        }
        let rival = |other: &Pgn| !other.fallback && other.pgn == pgn.pgn && match_set(other) == match_set(&pgn);
        if pgns.iter().any(rival) && !self.slips() {
            pgn.fallback = true;
        }
        keep_sums(&mut pgn);
        pgns.push(pgn);
    }

    fn pgn(&mut self, tree: usize, count: usize, item: usize) -> Pgn {
        let (number, packet) = *self.rng.pick(GOOD_NUMBERS[tree]);
        let mut pgn =
            Pgn { pgn: number, id: text(format!("{}{item}", self.rng.pick(&["a", "b"]))), packet, ..Pgn::default() };
        pgn.fallback = self.rng.chance(1, 12);
        pgn.sets = self.sets(count as u32);
        let company = self.company_fields().filter(|_| count >= 3 && self.coin());
        pgn.missing_company_fields = company.is_none() || self.rng.chance(1, 8);
        for i in 0..count {
            let mut field = match &company {
                Some(company) if i < 3 => company[i].clone(),
                _ => self.field(tree, &mut pgn, i),
            };
            while self.slips() {
                self.change_field(&mut field);
            }
            if self.hexadecimal && self.slip > 0 && self.rng.chance(1, 10) {
                self.match_at_a_width(&mut field);
            }
            pgn.fields.push(field);
        }
        if count > 0 && self.slips() {
            self.refer_anywhere(&mut pgn);
        }
        pgn.variable = self.coin();
        pgn.length = match packet {
            PacketType::Single if pgn.variable => self.rng.below(9) as u32,
            PacketType::Single => 8,
            _ => self.rng.below(224) as u32,
        };
        if !pgn.variable && self.coin() {
            pgn.min_length = self.boundary(&pgn);
        }
        pgn
    }

    /// A minimum length that ends between two fields.
    fn boundary(&mut self, pgn: &Pgn) -> Option<u32> {
        let mut bits = 0u32;
        let mut ends = Vec::new();
        for field in &pgn.fields {
            bits = bits.checked_add(field.res_bits)?;
            if bits > 0 && bits.is_multiple_of(8) && bits / 8 < pgn.length {
                ends.push(bits / 8);
            }
        }
        (!ends.is_empty()).then(|| *self.rng.pick(&ends))
    }

    /// Sets that R05 takes, or with slips any.
    fn sets(&mut self, count: u32) -> [Option<Repeating>; 2] {
        let mut sets = [None, None];
        let shape = self.rng.below(8);
        if count > 0 {
            match shape {
                0..=2 => {}
                3 => sets[0] = Some(self.set_within(1, count, 1)),
                4 => sets[1] = Some(self.set_within(1, count, 1)),
                5 | 6 => {
                    let outer = self.set_within(1, count, 1);
                    if outer.count > 1 {
                        let last = outer.start + outer.count - 1;
                        let mut inner = self.set_within(outer.start + 1, last, outer.start);
                        inner.nested = true;
                        inner.count_field =
                            Some(self.rng.between(outer.start as usize, inner.start as usize - 1) as u32);
                        if self.slips() {
                            inner.count_field = self.maybe(|g| g.rng.below(inner.start as usize) as u32);
                        }
                        sets[1] = Some(inner);
                    }
                    sets[0] = Some(outer);
                }
                _ => {
                    let middle = self.rng.between(1, count as usize) as u32;
                    sets[0] = Some(self.set_within(1, middle, 1));
                    if middle < count {
                        sets[1] = Some(self.set_within(middle + 1, count, 1));
                    }
                    if self.coin() {
                        sets.swap(0, 1);
                    }
                }
            }
        }
        for set in &mut sets {
            if set.is_none() && self.rng.chance(1, 8) {
                let start = self.rng.below(count as usize + 2) as u32;
                *set = Some(Repeating { count: 0, start, count_field: None, nested: self.coin() });
            }
            if self.slips() {
                *set = self.maybe(|g| g.wild_set(count));
            }
        }
        sets
    }

    /// A set of orders from `low` to `high`, with a countField from `least` to before it, or none.
    fn set_within(&mut self, low: u32, high: u32, least: u32) -> Repeating {
        let start = self.rng.between(low as usize, high as usize) as u32;
        let count = self.rng.between(1, (high - start + 1) as usize) as u32;
        let counted = start > least && self.rng.chance(3, 4);
        let count_field = counted.then(|| self.rng.between(least as usize, start as usize - 1) as u32);
        Repeating { count, start, count_field, nested: false }
    }
}

/// The sums of refusal 7 stay within 32 bits; what would pass them goes.
fn keep_sums(pgn: &mut Pgn) {
    let mut bits = 0u32;
    for field in &mut pgn.fields {
        match bits.checked_add(field.res_bits) {
            Some(sum) => bits = sum,
            None => field.res_bits = 0,
        }
        field.continuation = field.continuation.filter(|width| field.res_bits.checked_add(*width).is_some());
    }
}
