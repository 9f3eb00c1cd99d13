//! Fields that no rule finds fault with, each with its part in the PGN.

use super::pools::*;
use super::{Generator, text};
use crate::value::*;

/// What a field is to be.
#[derive(Clone, Copy, PartialEq)]
enum Role {
    Plain,
    Typed,
    Lookup,
    Reserved,
    Binary,
    Decimal,
    Key,
    Length,
    Value,
    Continues,
    Str,
}

const ROLES: [Role; 16] = {
    use Role::*;
    [
        Plain, Plain, Plain, Typed, Lookup, Lookup, Lookup, Reserved, Binary, Binary, Decimal, Key, Length, Value,
        Continues, Str,
    ]
};

impl Generator {
    pub(super) fn type_index(&self, name: &str) -> Option<u32> {
        self.types.iter().position(|ft| ft.name == name.as_bytes()).map(|i| i as u32)
    }

    /// Manufacturer Code, Reserved, Industry Code, where the pack has what they need.
    pub(super) fn company_fields(&mut self) -> Option<[Field; 3]> {
        let has = |name: &str| self.lookups.iter().any(|l| l.name == name.as_bytes() && l.kind == Kind::Pair);
        if !has("MANUFACTURER_CODE") || !has("INDUSTRY_CODE") {
            return None;
        }
        let (lookup, reserved) = (self.type_index("LOOKUP")?, self.type_index("RESERVED")?);
        let field = |id: &str, ft: u32, type_: &str, bits: u32, name: Option<&str>| Field {
            id: text(id),
            name: text(if id == "reserved" { "Reserved" } else { id }),
            type_: text(type_),
            ft,
            bits_given: true,
            res_bits: bits,
            res_resolution: Float::of(1.0),
            reference: name.map(|name| (Kind::Pair, text(name))),
            ..Field::default()
        };
        let mut maker = field("manufacturerCode", lookup, "LOOKUP", 11, Some("MANUFACTURER_CODE"));
        if self.coin() {
            let hexadecimal = self.hexadecimal && self.coin();
            let number = self.rng.below(4) as u64;
            maker.match_ = Some(if hexadecimal { self.numeral(number) } else { text(number.to_string()) });
        }
        Some([
            maker,
            field("reserved", reserved, "RESERVED", 2, None),
            field("industryCode", lookup, "LOOKUP", 3, Some("INDUSTRY_CODE")),
        ])
    }

    /// A field that no rule finds fault with after `pgn.fields`; it may set the continuation of an earlier one.
    pub(super) fn field(&mut self, tree: usize, pgn: &mut Pgn, i: usize) -> Field {
        let role = *self.rng.pick(&ROLES);
        let type_name = match role {
            Role::Typed => *self.rng.pick(&["UINT8", "INT16", "UFIX16"]),
            Role::Lookup => "LOOKUP",
            Role::Reserved => "RESERVED",
            Role::Binary => "BINARY",
            Role::Decimal => "DECIMAL",
            Role::Key => "DYNAMIC_FIELD_KEY",
            Role::Length => "DYNAMIC_FIELD_LENGTH",
            Role::Value => "DYNAMIC_FIELD_VALUE",
            Role::Str => "STRING_FIX",
            Role::Plain | Role::Continues => "NUMBER",
        };
        let (ft, type_name, role) = match self.type_index(type_name) {
            Some(ft) => (ft, type_name, role),
            None => (0, "NUMBER", Role::Plain),
        };
        let size = self.types[ft as usize].size;
        let mut field = Field {
            id: text(format!("f{i}")),
            name: text(format!("Field {i}")),
            type_: text(type_name),
            ft,
            bits_given: size == 0 && self.coin(),
            res_bits: if size == 0 { *self.rng.pick(&BITS) } else { size },
            res_resolution: Float::of(1.0),
            proprietary: self.rng.chance(1, 16),
            ..Field::default()
        };
        match role {
            Role::Plain => self.plain(tree, &mut field),
            Role::Lookup => self.refer(&mut field),
            Role::Reserved => {
                field.name = text(self.rng.pick(&["Reserved", "Spare"]));
                let first = pgn.fields.iter().all(|earlier| earlier.name != field.name);
                let number = if first { String::new() } else { i.to_string() };
                field.id = text(String::from_utf8_lossy(&field.name).to_lowercase() + &number);
            }
            Role::Binary => {
                if let Some(target) = self.target(pgn, |f| f.reference.is_none() && f.res_bits > 0) {
                    field.res_bits = 0;
                    field.bit_length_field = Some(target);
                }
            }
            Role::Decimal => field.trailing_zero = self.digit_field(pgn),
            Role::Length => {
                field.dynamic_field_length = self.rng.chance(3, 4);
                field.overhead = field.dynamic_field_length && self.coin();
            }
            Role::Value => {
                let types = &self.types;
                let source =
                    |f: &Field| f.dynamic_field_length || types[f.ft as usize].root_name == b"DYNAMIC_FIELD_KEY";
                if !pgn.fields.iter().any(source) {
                    field.ft = 0;
                    field.type_ = text("NUMBER");
                }
            }
            Role::Continues => self.continue_earlier(pgn, i, &mut field),
            Role::Key | Role::Str | Role::Typed => {}
        }
        if role != Role::Continues && field.res_bits > 0 && field.match_.is_none() {
            field.match_ = self.fitting_match(field.res_bits);
        }
        if self.rng.chance(1, 6) {
            let most = [0, 1].get(field.res_bits as usize).copied().unwrap_or(3);
            field.special_values = Some(self.rng.below(most + 1) as u32);
        }
        field
    }

    /// Now and then a number that so many bits take, at least one.
    fn fitting_match(&mut self, bits: u32) -> Option<Text> {
        if self.hexadecimal && self.rng.chance(1, 3) {
            return Some(self.numeral_within(bits));
        }
        self.rng.chance(1, 6).then(|| text(self.rng.pick(&["0", "1", "+1", "01"])))
    }

    pub(super) fn plain(&mut self, tree: usize, field: &mut Field) {
        if self.rng.chance(1, 3) {
            field.res_resolution = Float::of(*self.rng.pick(&[0.1, 0.5, 1e-16]));
            field.resolution = Some(field.res_resolution).filter(|_| self.types[field.ft as usize].size == 0);
        }
        if self.rng.chance(1, 6) {
            field.res_offset = Float::of(-40.0);
            field.offset = Some(field.res_offset);
        }
        if self.coin() {
            field.res_unit = Some(text(self.rng.pick(&["m", "K", "rad"])));
            field.unit_given = self.coin();
        }
        if tree == 1 && self.coin() {
            let spn = *self.rng.pick(&[1, 2, 3, 4, 190, 247, 524287]);
            let (bits, resolution, offset, unit) = self
                .spns
                .entry(spn)
                .or_insert_with(|| (field.res_bits, field.res_resolution, field.res_offset, field.res_unit.clone()));
            field.res_bits = *bits;
            field.res_resolution = *resolution;
            field.res_offset = *offset;
            field.res_unit = unit.clone();
            field.spn = Some(spn);
            field.name = text(format!("SPN {spn}"));
        }
    }

    /// A reference to a lookup of the pack, by its kind and width.
    pub(super) fn refer(&mut self, field: &mut Field) {
        if self.lookups.is_empty() {
            return;
        }
        let lookup = self.rng.pick(&self.lookups);
        field.reference = Some((lookup.kind, lookup.name.clone()));
        field.res_bits = lookup.bits;
        field.bits_given = false;
        if self.rng.chance(1, 5) {
            field.allow_lookup_width_mismatch = true;
            field.res_bits = field.res_bits.saturating_add(self.rng.below(3) as u32);
        }
        let searched = matches!(lookup.kind, Kind::Pair | Kind::Fieldtype);
        if searched && !lookup.entries.is_empty() && self.rng.chance(1, 2) {
            let name = &self.rng.pick(&lookup.entries).name;
            // a name that is a numeral counts as its number
            let fits = |number: u64| field.res_bits >= 64 || number >> field.res_bits == 0;
            field.match_ = Some(name.clone()).filter(|name| parse_hex(name).is_none_or(fits));
        }
    }

    /// The id of an earlier field that scales by 1 and has the property.
    pub(super) fn target(&mut self, pgn: &Pgn, property: impl Fn(&Field) -> bool) -> Option<Text> {
        let fit: Vec<&Field> =
            pgn.fields.iter().filter(|f| f.res_resolution == Float::of(1.0) && property(f)).collect();
        (!fit.is_empty()).then(|| self.rng.pick(&fit).id.clone())
    }

    pub(super) fn digit_field(&mut self, pgn: &Pgn) -> Option<Text> {
        let before_sets = pgn.sets.iter().flatten().map(|set| set.start).min().unwrap_or(u32::MAX);
        let fixed = pgn.fields.iter().take_while(|f| f.res_bits != 0 && !f.proprietary).count();
        let reach = pgn.fields.len().min(fixed + 1).min((before_sets as usize).saturating_sub(1));
        let fit: Vec<&Field> = pgn.fields[..reach]
            .iter()
            .filter(|f| {
                matches!(f.type_.as_slice(), b"NUMBER" | b"LOOKUP" | b"UINT8")
                    && f.res_resolution == Float::of(1.0)
                    && f.res_offset == Float::of(0.0)
                    && (1..=63).contains(&f.res_bits)
            })
            .collect();
        (!fit.is_empty()).then(|| self.rng.pick(&fit).id.clone())
    }

    pub(super) fn continue_earlier(&mut self, pgn: &mut Pgn, i: usize, field: &mut Field) {
        let held_by =
            |set: &Option<Repeating>, index: usize| set.as_ref().is_some_and(|set| set.holds(index as u32 + 1));
        let same_sets = |a: usize, b: usize| pgn.sets.iter().all(|set| held_by(set, a) == held_by(set, b));
        let fit: Vec<usize> = (0..i)
            .filter(|t| {
                let low = &pgn.fields[*t];
                // a wider value could miss its lookup's width
                matches!(low.type_.as_slice(), b"NUMBER" | b"UINT8")
                    && low.reference.is_none()
                    && low.continues.is_none()
                    && low.continuation.is_none()
                    && low.res_offset == Float::of(0.0)
                    && low.res_bits <= 32
                    && same_sets(*t, i)
            })
            .collect();
        if fit.is_empty() {
            return;
        }
        let low = &mut pgn.fields[*self.rng.pick(&fit)];
        field.res_bits = field.res_bits.min(32);
        low.continuation = Some(field.res_bits);
        field.continues = Some(low.id.clone());
        field.proprietary = false;
    }
}
