//! An independent producer of findings, from document 01 and the oracle's `check.rs` (less R40 and R41), over the pack's
//! value with texts as bytes. Functions carry the oracle's names and stand in its order.

use crate::finding::{FIELDTYPES, Finding, GROUP, LOOKUP, PGN};
use crate::value::*;
use std::collections::{BTreeMap, HashMap, HashSet};

/// The first of canboat's pseudo-PGNs, outside the wire ranges.
const ACTISENSE_BEM: u32 = 0x40000;
/// J1939 carries SPNs in 19 bits.
const MAX_SPN: u32 = 0x7ffff;
/// Generated from field names, so R24 leaves it to the SPN names.
const SPN_LOOKUP: &[u8] = b"J1939_SPN";

pub fn check(pack: &Pack) -> Vec<Finding> {
    let mut out = Findings { pack, list: Vec::new() };
    out.check_fieldtypes();
    out.check_lookup_wiring();
    out.check_lookup_names();
    for tree in 0..3 {
        for (item, pgn) in pack.trees[tree].iter().enumerate() {
            let at = At { tree, item };
            out.check_pgn_range(at, pgn);
            out.check_frame_length(at, pgn);
            out.check_repeating(at, pgn);
            out.check_dynamic_length(at, pgn);
            out.check_proprietary(at, pgn);
            out.check_special_values(at, pgn);
            out.check_field_count(at, pgn);
            out.check_reserved_ids(at, pgn);
            out.check_match_values(at, pgn);
            out.check_field_type_overrides(at, pgn);
            out.check_bit_length_field(at, pgn);
            out.check_trailing_zero_is_digit(at, pgn);
            out.check_min_length(at, pgn);
        }
        out.check_variants(tree);
        out.check_unique_ids(tree);
    }
    out.check_spns();
    for tree in 0..3 {
        for (item, pgn) in pack.trees[tree].iter().enumerate() {
            out.check_continues(At { tree, item }, pgn);
        }
    }
    out.list
}

/// A PGN's place.
#[derive(Clone, Copy)]
struct At {
    tree: usize,
    item: usize,
}

struct Findings<'a> {
    pack: &'a Pack,
    list: Vec<Finding>,
}

/// (start, end, PDU1, packet type); no two ranges overlap and they rise.
type Range = (u32, u32, bool, PacketType);

const PGN_RANGES: [Range; 8] = [
    (0xe800, 0xee00, true, PacketType::Single),
    (0xef00, 0xef00, true, PacketType::Single),
    (0xf000, 0xfeff, false, PacketType::Single),
    (0xff00, 0xffff, false, PacketType::Single),
    (0x1ed00, 0x1ee00, true, PacketType::Fast),
    (0x1ef00, 0x1ef00, true, PacketType::Fast),
    (0x1f000, 0x1feff, false, PacketType::Mixed),
    (0x1ff00, 0x1ffff, false, PacketType::Fast),
];

const J1939_PGN_RANGES: [Range; 10] = [
    (0x0000, 0xe700, true, PacketType::Iso),
    (0xe800, 0xee00, true, PacketType::Single),
    (0xef00, 0xef00, true, PacketType::Single),
    (0xf000, 0xfeff, false, PacketType::Single),
    (0xff00, 0xffff, false, PacketType::Single),
    (0x10000, 0x1ec00, true, PacketType::Iso),
    (0x1ed00, 0x1ee00, true, PacketType::Iso),
    (0x1ef00, 0x1ef00, true, PacketType::Iso),
    (0x1f000, 0x1feff, false, PacketType::Iso),
    (0x1ff00, 0x1ffff, false, PacketType::Iso),
];

/// The range of a tree (0 or 1) that the oracle judges a number by: the first that ends at or above it.
pub fn range_of(tree: usize, number: u32) -> Option<&'static (u32, u32, bool, PacketType)> {
    let ranges: &[Range] = if tree == 1 { &J1939_PGN_RANGES } else { &PGN_RANGES };
    ranges.iter().find(|(_, end, ..)| number <= *end)
}

fn is_manufacturer_pgn(number: u32) -> bool {
    (0xff00..=0xffff).contains(&number) || number == 0x1ef00 || (0x1ff00..=0x1ffff).contains(&number)
}

/// The field's reference, where it is a pair reference.
fn pair_reference(field: &Field) -> Option<&[u8]> {
    match &field.reference {
        Some((Kind::Pair, name)) => Some(name),
        _ => None,
    }
}

/// R20's key: one text, so that texts with `,` and `=` in them can collide as they do in the oracle.
pub fn match_set(pgn: &Pgn) -> Option<Text> {
    let parts: Vec<Text> = pgn
        .fields
        .iter()
        .enumerate()
        .filter_map(|(i, field)| field.match_.as_ref().map(|text| [format!("{i}=").as_bytes(), text].concat()))
        .collect();
    (!parts.is_empty()).then(|| parts.join(&b","[..]))
}

/// The set a field belongs to, set 2 first.
fn set_of(pgn: &Pgn, index: usize) -> u32 {
    let holds = |set: &Option<Repeating>| set.as_ref().is_some_and(|set| set.holds(index as u32 + 1));
    if holds(&pgn.sets[1]) {
        2
    } else if holds(&pgn.sets[0]) {
        1
    } else {
        0
    }
}

fn position(fields: &[Field], id: &[u8]) -> Option<usize> {
    fields.iter().position(|field| field.id == id)
}

impl<'a> Findings<'a> {
    fn pgn(&mut self, rule: u32, cause: u32, at: At, part: usize, other: usize) {
        self.list.push(Finding {
            rule,
            severity: 1,
            cause,
            place: PGN,
            tree: at.tree as u32,
            item: at.item as u32,
            part: part as u32,
            other: other as u32,
        });
    }

    fn lookup(&mut self, rule: u32, cause: u32, item: usize, part: usize, other: usize) {
        self.list.push(Finding {
            rule,
            severity: 1,
            cause,
            place: LOOKUP,
            tree: 0,
            item: item as u32,
            part: part as u32,
            other: other as u32,
        });
    }

    /// R23
    fn check_fieldtypes(&mut self) {
        for (item, ft) in self.pack.fieldtypes.iter().enumerate() {
            if !ft.base && !ft.print_function {
                self.list.push(Finding {
                    rule: 23,
                    severity: 1,
                    cause: 1,
                    place: FIELDTYPES,
                    item: item as u32,
                    ..Finding::default()
                });
            }
        }
    }

    /// R08 and R22
    fn check_lookup_wiring(&mut self) {
        let pack = self.pack;
        let mut referenced = vec![false; pack.lookups.len()];
        for tree in 0..3 {
            for (item, pgn) in pack.trees[tree].iter().enumerate() {
                for (i, field) in pgn.fields.iter().enumerate() {
                    self.check_reference(At { tree, item }, i, field, &mut referenced);
                }
            }
        }
        let names: HashSet<&Text> = pack.fieldtypes.iter().map(|ft| &ft.name).collect();
        for (item, lookup) in pack.lookups.iter().enumerate() {
            if lookup.kind != Kind::Fieldtype {
                continue;
            }
            for (part, entry) in lookup.entries.iter().enumerate() {
                if !names.contains(&entry.fieldtype) {
                    self.lookup(8, 6, item, part, 0);
                }
                if let Some(nested) = &entry.nested {
                    match pack.lookup(nested) {
                        None => self.lookup(8, 7, item, part, 0),
                        Some(found) => referenced[found] = true,
                    }
                }
            }
        }
        for (item, referenced) in referenced.into_iter().enumerate() {
            if !referenced {
                self.lookup(22, 1, item, 0, 0);
                self.warning();
            }
        }
    }

    /// The finding just made is a warning.
    fn warning(&mut self) {
        self.list.last_mut().unwrap().severity = 0;
    }

    fn check_reference(&mut self, at: At, i: usize, field: &Field, referenced: &mut [bool]) {
        let Some((kind, name)) = &field.reference else { return };
        let Some(found) = self.pack.lookup(name) else {
            return self.pgn(8, 1, at, i, 0);
        };
        referenced[found] = true;
        let lookup = &self.pack.lookups[found];
        if lookup.kind != *kind {
            self.pgn(8, 2, at, i, found);
        }
        let width = field.value_bits();
        let mismatch = width != lookup.bits;
        let allowed = field.allow_lookup_width_mismatch;
        let bit = lookup.kind == Kind::Bit;
        let unreachable = largest_named(lookup)
            .is_some_and(|largest| if bit { largest >= u64::from(width) } else { width < 64 && largest >> width != 0 });
        if unreachable && !(bit && allowed) {
            self.pgn(8, 3, at, i, found);
        } else if mismatch && !allowed {
            self.pgn(8, 4, at, i, found);
        } else if !mismatch && allowed {
            self.pgn(8, 5, at, i, found);
            self.warning();
        }
    }

    /// R24, the SPN names first
    fn check_lookup_names(&mut self) {
        self.check_spn_names();
        for (item, lookup) in self.pack.lookups.iter().enumerate() {
            if lookup.name == SPN_LOOKUP {
                continue;
            }
            // `first` is 0 for all but triplets
            let mut seen: HashMap<(u64, &Text), usize> = HashMap::new();
            for (part, entry) in lookup.entries.iter().enumerate() {
                if let Some(earlier) = seen.insert((entry.first, &entry.name), part) {
                    self.lookup(24, 1, item, part, earlier);
                }
            }
        }
    }

    fn check_spn_names(&mut self) {
        let pgns = &self.pack.trees[1];
        let first = first_carriers(pgns);
        let mut seen: HashMap<&Text, (u32, usize)> = HashMap::new();
        for (spn, (item, i)) in first {
            if let Some((earlier, earlier_item)) = seen.insert(&pgns[item].fields[i].name, (spn, item)) {
                self.pgn(24, 2, At { tree: 1, item: earlier_item }, earlier as usize, spn as usize);
                // one place text, one finding
                let place = |item: usize| (pgns[item].pgn, &pgns[item].id);
                if place(earlier_item) != place(item) {
                    self.pgn(24, 2, At { tree: 1, item }, earlier as usize, spn as usize);
                }
            }
        }
    }

    /// R02
    fn check_pgn_range(&mut self, at: At, pgn: &Pgn) {
        if pgn.pgn >= ACTISENSE_BEM {
            return;
        }
        if at.tree == 2 {
            if pgn.pgn > 0x7ff {
                self.pgn(2, 1, at, 0, 0);
            }
            if pgn.packet != PacketType::Single {
                self.pgn(2, 2, at, 0, 0);
            }
            return;
        }
        let Some((start, _, pdu1, packet)) = range_of(at.tree, pgn.pgn) else {
            return self.pgn(2, 3, at, 0, 0);
        };
        if pgn.pgn < *start {
            return self.pgn(2, 4, at, 0, 0);
        }
        if *pdu1 && pgn.pgn & 0xff != 0 {
            self.pgn(2, 5, at, 0, 0);
        }
        if *packet != pgn.packet && *packet != PacketType::Mixed && pgn.packet != PacketType::Iso {
            self.pgn(2, 6, at, 0, 0);
        }
    }

    /// R04
    fn check_frame_length(&mut self, at: At, pgn: &Pgn) {
        if pgn.packet != PacketType::Single {
            return;
        }
        if !pgn.variable && pgn.length != 8 && pgn.pgn != 59904 {
            self.pgn(4, 1, at, 0, 0);
        }
        if pgn.variable && pgn.length > 8 {
            self.pgn(4, 2, at, 0, 0);
        }
    }

    /// R05
    fn check_repeating(&mut self, at: At, pgn: &Pgn) {
        for (n, set) in [(1, &pgn.sets[0]), (2, &pgn.sets[1])] {
            let Some(set) = set.as_ref().filter(|set| set.count > 0) else { continue };
            if set.start == 0 {
                self.pgn(5, 1, at, n, 0);
            } else if (set.start + set.count - 1) as usize > pgn.fields.len() {
                self.pgn(5, 2, at, n, 0);
            }
            if set.count_field.is_some_and(|order| order == 0 || order >= set.start) {
                self.pgn(5, 3, at, n, 0);
            }
            if !set.nested {
                continue;
            }
            let outer = pgn.sets[0].as_ref().filter(|outer| {
                n == 2 && set.start > outer.start && set.start + set.count <= outer.start + outer.count
            });
            match outer {
                None => self.pgn(5, 5, at, n, 0),
                Some(outer) if set.count_field.is_none_or(|order| order < outer.start) => self.pgn(5, 4, at, n, 0),
                Some(_) => {}
            }
        }
    }

    /// R06
    fn check_dynamic_length(&mut self, at: At, pgn: &Pgn) {
        let mut source = false;
        for (i, field) in pgn.fields.iter().enumerate() {
            let root = self.pack.root_name(field);
            if field.dynamic_field_length && root != b"DYNAMIC_FIELD_LENGTH" {
                self.pgn(6, 1, at, i, 0);
            }
            if field.overhead && !field.dynamic_field_length {
                self.pgn(6, 2, at, i, 0);
            }
            source |= field.dynamic_field_length || root == b"DYNAMIC_FIELD_KEY";
            if root == b"DYNAMIC_FIELD_VALUE" && !source {
                self.pgn(6, 3, at, i, 0);
            }
        }
    }

    /// R07
    fn check_proprietary(&mut self, at: At, pgn: &Pgn) {
        if !is_manufacturer_pgn(pgn.pgn) || pgn.fallback || pgn.missing_company_fields {
            return;
        }
        let opens = match pgn.fields.as_slice() {
            [maker, reserved, industry, ..] => {
                pair_reference(maker) == Some(b"MANUFACTURER_CODE")
                    && maker.res_bits == 11
                    && self.pack.root_name(reserved) == b"RESERVED"
                    && reserved.res_bits == 2
                    && pair_reference(industry) == Some(b"INDUSTRY_CODE")
                    && industry.res_bits == 3
            }
            _ => false,
        };
        if !opens {
            self.pgn(7, 1, at, 0, 0);
        }
    }

    /// R09
    fn check_special_values(&mut self, at: At, pgn: &Pgn) {
        for (i, field) in pgn.fields.iter().enumerate() {
            // from 2 bits on, 3 is the narrower bound
            let largest = [0, 1][..].get(field.res_bits as usize).copied().unwrap_or(3);
            if field.special_values.is_some_and(|special| special > largest) {
                self.pgn(9, 1, at, i, 0);
            }
        }
    }

    /// R11
    fn check_field_count(&mut self, at: At, pgn: &Pgn) {
        if pgn.fields.len() > 33 {
            self.pgn(11, 1, at, 0, 0);
        }
    }

    /// R12
    fn check_reserved_ids(&mut self, at: At, pgn: &Pgn) {
        for (i, field) in pgn.fields.iter().enumerate() {
            let want: &[u8] = match field.name.as_slice() {
                b"Reserved" => b"reserved",
                b"Spare" => b"spare",
                _ => continue,
            };
            if !field.id.strip_prefix(want).is_some_and(|rest| rest.iter().all(u8::is_ascii_digit)) {
                self.pgn(12, 1, at, i, 0);
            }
        }
    }

    /// R13
    fn check_match_values(&mut self, at: At, pgn: &Pgn) {
        for (i, field) in pgn.fields.iter().enumerate() {
            if field.match_.is_none() {
                continue;
            }
            match self.pack.resolve_match(field) {
                None => self.pgn(13, 1, at, i, 0),
                Some(value) if field.res_bits < 64 && value >> field.res_bits != 0 => self.pgn(13, 2, at, i, 0),
                Some(_) => {}
            }
        }
    }

    /// R14
    fn check_field_type_overrides(&mut self, at: At, pgn: &Pgn) {
        for (i, field) in pgn.fields.iter().enumerate() {
            let ft = &self.pack.fieldtypes[field.ft as usize];
            if field.bits_given && ft.size != 0 {
                self.pgn(14, 1, at, i, 0);
            }
            if field.resolution.is_some() && ft.resolution.get() != 0.0 {
                self.pgn(14, 2, at, i, 0);
            }
        }
    }

    /// R15
    fn check_bit_length_field(&mut self, at: At, pgn: &Pgn) {
        for (i, field) in pgn.fields.iter().enumerate() {
            let variable_binary = field.res_bits == 0 && field.type_ == b"BINARY";
            let Some(id) = &field.bit_length_field else {
                if variable_binary {
                    self.pgn(15, 1, at, i, 0);
                }
                continue;
            };
            if !variable_binary {
                self.pgn(15, 2, at, i, 0);
                continue;
            }
            let Some(target) = position(&pgn.fields, id) else {
                self.pgn(15, 3, at, i, 0);
                continue;
            };
            let length = &pgn.fields[target];
            if target >= i {
                self.pgn(15, 4, at, i, target);
            } else if length.reference.is_some() || length.res_resolution.get() != 1.0 || length.res_bits == 0 {
                self.pgn(15, 5, at, i, target);
            }
        }
    }

    /// R44
    fn check_trailing_zero_is_digit(&mut self, at: At, pgn: &Pgn) {
        for (i, field) in pgn.fields.iter().enumerate() {
            let Some(id) = &field.trailing_zero else { continue };
            if field.type_ != b"DECIMAL" {
                self.pgn(44, 1, at, i, 0);
                continue;
            }
            let Some(target) = position(&pgn.fields, id) else {
                self.pgn(44, 2, at, i, 0);
                continue;
            };
            // any set that is present counts, an empty one too
            let fixed = pgn.fields[..target].iter().all(|field| field.res_bits != 0 && !field.proprietary)
                && pgn.sets.iter().flatten().all(|set| set.start as usize > target + 1);
            if target >= i || !fixed {
                self.pgn(44, 3, at, i, target);
                continue;
            }
            let digit = &pgn.fields[target];
            if !matches!(self.pack.root_name(digit), b"NUMBER" | b"LOOKUP")
                || self.pack.fieldtypes[digit.ft as usize].signed
                || digit.res_resolution.get() != 1.0
                || digit.res_offset.get() != 0.0
                || !(1..=63).contains(&digit.res_bits)
            {
                self.pgn(44, 4, at, i, target);
            }
        }
    }

    /// R16
    fn check_min_length(&mut self, at: At, pgn: &Pgn) {
        let Some(min) = pgn.min_length else { return };
        if pgn.variable {
            return self.pgn(16, 1, at, 0, 0);
        }
        if min == 0 || min >= pgn.length {
            return self.pgn(16, 2, at, 0, 0);
        }
        let mut bits = 0;
        let ends_there = |field: &Field| {
            bits += field.res_bits;
            bits == min * 8
        };
        if !pgn.fields.iter().any(ends_there) {
            self.pgn(16, 3, at, 0, 0);
        }
    }

    /// R20
    fn check_variants(&mut self, tree: usize) {
        let mut groups: BTreeMap<u32, Vec<usize>> = BTreeMap::new();
        for (item, pgn) in self.pack.trees[tree].iter().enumerate() {
            if !pgn.fallback {
                groups.entry(pgn.pgn).or_default().push(item);
            }
        }
        for (number, group) in groups {
            if group.len() < 2 {
                continue;
            }
            let mut matchless = 0;
            let mut latest: HashMap<Text, usize> = HashMap::new();
            for item in group {
                match match_set(&self.pack.trees[tree][item]) {
                    None => matchless += 1,
                    Some(key) => {
                        if let Some(other) = latest.insert(key, item) {
                            self.pgn(20, 1, At { tree, item }, 0, other);
                        }
                    }
                }
            }
            if matchless > 1 {
                self.list.push(Finding {
                    rule: 20,
                    severity: 1,
                    cause: 2,
                    place: GROUP,
                    tree: tree as u32,
                    item: number,
                    part: 0,
                    other: matchless,
                });
            }
        }
    }

    /// R21
    fn check_unique_ids(&mut self, tree: usize) {
        let mut latest: HashMap<&Text, usize> = HashMap::new();
        for (item, pgn) in self.pack.trees[tree].iter().enumerate() {
            let at = At { tree, item };
            if let Some(other) = latest.insert(&pgn.id, item) {
                self.pgn(21, 1, at, 0, other);
            }
            let mut ids: HashSet<&Text> = HashSet::new();
            for (i, field) in pgn.fields.iter().enumerate() {
                if !ids.insert(&field.id) {
                    self.pgn(21, 2, at, i, 0);
                }
            }
        }
    }

    /// R42
    fn check_spns(&mut self) {
        for tree in [0, 2] {
            for (item, pgn) in self.pack.trees[tree].iter().enumerate() {
                for (i, _) in pgn.fields.iter().enumerate().filter(|(_, field)| field.spn.is_some()) {
                    self.pgn(42, 1, At { tree, item }, i, 0);
                }
            }
        }
        let mut first: HashMap<u32, (usize, Scaling)> = HashMap::new();
        for (item, pgn) in self.pack.trees[1].iter().enumerate() {
            let at = At { tree: 1, item };
            for (i, field) in pgn.fields.iter().enumerate() {
                let Some(spn) = field.spn else { continue };
                if spn > MAX_SPN {
                    self.pgn(42, 2, at, i, 0);
                    continue;
                }
                let scaling = scaling(field);
                match first.get(&spn) {
                    None => {
                        first.insert(spn, (item, scaling));
                    }
                    Some((seen, recorded)) if *recorded != scaling => self.pgn(42, 3, at, i, *seen),
                    Some(_) => {}
                }
            }
        }
    }

    /// R43
    fn check_continues(&mut self, at: At, pgn: &Pgn) {
        for (i, field) in pgn.fields.iter().enumerate() {
            let Some(id) = &field.continues else { continue };
            let Some(target) = position(&pgn.fields[..i], id) else {
                self.pgn(43, 1, at, i, 0);
                continue;
            };
            let low = &pgn.fields[target];
            let low_type = &self.pack.fieldtypes[low.ft as usize];
            let continued = pgn.fields.iter().filter(|field| field.continues.as_ref() == Some(id)).count();
            if set_of(pgn, target) != set_of(pgn, i) {
                self.pgn(43, 2, at, i, target);
            } else if low.continuation.is_none() {
                self.pgn(43, 3, at, i, target);
            } else if continued > 1 {
                self.pgn(43, 4, at, i, target);
            }
            if low.continues.is_some() {
                self.pgn(43, 5, at, i, target);
            }
            if !matches!(low_type.root_name.as_slice(), b"NUMBER" | b"LOOKUP")
                || self.pack.root_name(field) != b"NUMBER"
            {
                self.pgn(43, 6, at, i, target);
            }
            if field.resolution.is_some_and(|resolution| resolution.get() != 1.0)
                || field.offset.is_some_and(|offset| offset.get() != 0.0)
                || field.unit_given
                || field.reference.is_some()
                || field.match_.is_some()
                || field.spn.is_some()
            {
                self.pgn(43, 7, at, i, target);
            }
            if low_type.signed || low.res_offset.get() != 0.0 {
                self.pgn(43, 8, at, i, target);
            }
            if low.value_bits() > 64 {
                self.pgn(43, 9, at, i, target);
            }
        }
    }
}

/// The largest value that a lookup names.
pub fn largest_named(lookup: &Lookup) -> Option<u64> {
    lookup.entries.iter().map(|entry| entry.value).max()
}

/// A width, two floats compared as floats, and a unit.
pub type Scaling<'a> = (u32, f64, f64, Option<&'a Text>);

pub fn scaling(field: &Field) -> Scaling<'_> {
    (field.res_bits, field.res_resolution.get(), field.res_offset.get(), field.res_unit.as_ref())
}

/// For each SPN the first field that carries it, by PGN number, then list, then field: (PGN, field).
pub fn first_carriers(pgns: &[Pgn]) -> BTreeMap<u32, (usize, usize)> {
    let mut order: Vec<usize> = (0..pgns.len()).collect();
    order.sort_by_key(|item| pgns[*item].pgn);
    let mut first = BTreeMap::new();
    for item in order {
        for (i, field) in pgns[item].fields.iter().enumerate() {
            if let Some(spn) = field.spn {
                first.entry(spn).or_insert((item, i));
            }
        }
    }
    first
}
