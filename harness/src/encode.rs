//! From a pack's value to its bytes (document 01, "The pack"), with the offset of each record and the place of each item.

use crate::value::*;

/// What an item is, as far as a refusal asks for it.
#[derive(Clone, Copy, PartialEq, Eq, Debug)]
pub enum Item {
    Version,
    /// a number with no condition of its own, list counts included
    Number,
    Number64,
    Float,
    Text,
    LookupName,
    /// a mark, code or flags, with its largest value
    Code(u32),
    /// the first item of a PGN
    PgnNumber,
    FieldTypeIndex,
    SetStart,
    MinLength,
    ResBits,
    ContinuationWidth,
}

#[derive(Clone, Copy, Debug)]
pub struct Placed {
    pub at: usize,
    pub end: usize,
    pub item: Item,
}

#[derive(Default)]
pub struct Encoded {
    pub bytes: Vec<u8>,
    /// the offset of each record in pack order: what the work buffer holds
    pub records: Vec<u32>,
    pub items: Vec<Placed>,
}

/// Groups of seven bits, lowest first, top bit on all but the last byte, in shortest form.
fn push_number(bytes: &mut Vec<u8>, mut value: u128) {
    while value >= 0x80 {
        bytes.push(value as u8 | 0x80);
        value >>= 7;
    }
    bytes.push(value as u8);
}

pub fn number(value: u128) -> Vec<u8> {
    let mut bytes = Vec::new();
    push_number(&mut bytes, value);
    bytes
}

fn push_text(bytes: &mut Vec<u8>, text: &[u8]) {
    push_number(bytes, text.len() as u128);
    bytes.extend_from_slice(text);
}

pub fn text(value: &[u8]) -> Vec<u8> {
    let mut bytes = Vec::new();
    push_text(&mut bytes, value);
    bytes
}

pub fn encode(pack: &Pack) -> Encoded {
    let mut out = Encoded::default();
    out.number(Item::Version, 1);
    out.count(pack.fieldtypes.len());
    for ft in &pack.fieldtypes {
        out.fieldtype(ft);
    }
    out.count(pack.lookups.len());
    for lookup in &pack.lookups {
        out.lookup(lookup);
    }
    for tree in &pack.trees {
        out.count(tree.len());
        for pgn in tree {
            out.pgn(pgn);
        }
    }
    out
}

fn flags(bits: &[bool]) -> u32 {
    bits.iter().rev().fold(0, |flags, bit| flags << 1 | u32::from(*bit))
}

impl Encoded {
    fn item(&mut self, item: Item, write: impl FnOnce(&mut Vec<u8>)) {
        let at = self.bytes.len();
        write(&mut self.bytes);
        self.items.push(Placed { at, end: self.bytes.len(), item });
    }

    fn number(&mut self, item: Item, value: u64) {
        self.item(item, |bytes| push_number(bytes, value.into()));
    }

    fn u32(&mut self, value: u32) {
        self.number(Item::Number, value.into());
    }

    fn count(&mut self, count: usize) {
        self.number(Item::Number, count as u64);
    }

    fn code(&mut self, largest: u32, value: u32) {
        self.number(Item::Code(largest), value.into());
    }

    fn mark(&mut self, given: bool) {
        self.code(1, given.into());
    }

    fn text_as(&mut self, item: Item, value: &[u8]) {
        self.item(item, |bytes| push_text(bytes, value));
    }

    fn text(&mut self, value: &[u8]) {
        self.text_as(Item::Text, value);
    }

    fn float(&mut self, value: Float) {
        self.item(Item::Float, |bytes| bytes.extend(value.0.to_le_bytes()));
    }

    fn optional<T>(&mut self, value: &Option<T>, write: impl FnOnce(&mut Self, &T)) {
        self.mark(value.is_some());
        if let Some(value) = value {
            write(self, value);
        }
    }

    fn optional_text(&mut self, value: &Option<Text>) {
        self.optional(value, |out, value| out.text(value));
    }

    fn optional_float(&mut self, value: Option<Float>) {
        self.optional(&value, |out, value| out.float(*value));
    }

    fn optional_number(&mut self, item: Item, value: Option<u32>) {
        self.optional(&value, |out, value| out.number(item, (*value).into()));
    }

    fn record(&mut self) {
        self.records.push(self.bytes.len() as u32);
    }

    fn fieldtype(&mut self, ft: &FieldType) {
        self.record();
        self.text(&ft.name);
        self.code(7, flags(&[ft.base, ft.print_function, ft.signed]));
        self.u32(ft.size);
        self.float(ft.resolution);
        self.text(&ft.root_name);
    }

    fn lookup(&mut self, lookup: &Lookup) {
        self.record();
        self.text_as(Item::LookupName, &lookup.name);
        self.code(3, lookup.kind as u32);
        self.u32(lookup.bits);
        self.count(lookup.entries.len());
        for entry in &lookup.entries {
            self.record();
            if lookup.kind == Kind::Triplet {
                self.number(Item::Number64, entry.first);
            }
            self.number(Item::Number64, entry.value);
            self.text(&entry.name);
            if lookup.kind == Kind::Fieldtype {
                self.text(&entry.fieldtype);
                self.optional_text(&entry.nested);
            }
        }
    }

    fn pgn(&mut self, pgn: &Pgn) {
        self.record();
        self.number(Item::PgnNumber, pgn.pgn.into());
        self.text(&pgn.id);
        self.code(3, pgn.packet as u32);
        self.code(7, flags(&[pgn.fallback, pgn.variable, pgn.missing_company_fields]));
        self.u32(pgn.length);
        self.optional_number(Item::MinLength, pgn.min_length);
        for set in &pgn.sets {
            self.optional(set, |out, set| {
                out.u32(set.count);
                out.number(Item::SetStart, set.start.into());
                out.optional_number(Item::Number, set.count_field);
                out.mark(set.nested);
            });
        }
        self.count(pgn.fields.len());
        for field in &pgn.fields {
            self.field(field);
        }
    }

    fn field(&mut self, field: &Field) {
        self.record();
        self.text(&field.id);
        self.text(&field.name);
        self.text(&field.type_);
        self.number(Item::FieldTypeIndex, field.ft.into());
        self.code(
            63,
            flags(&[
                field.bits_given,
                field.unit_given,
                field.proprietary,
                field.allow_lookup_width_mismatch,
                field.dynamic_field_length,
                field.overhead,
            ]),
        );
        self.number(Item::ResBits, field.res_bits.into());
        self.float(field.res_resolution);
        self.float(field.res_offset);
        self.optional_text(&field.res_unit);
        self.optional_float(field.resolution);
        self.optional_float(field.offset);
        self.optional_number(Item::Number, field.spn);
        self.optional_text(&field.continues);
        self.optional_text(&field.match_);
        self.optional(&field.reference, |out, (kind, name)| {
            out.code(3, *kind as u32);
            out.text(name);
        });
        self.optional_number(Item::Number, field.special_values);
        self.optional_text(&field.bit_length_field);
        self.optional_text(&field.trailing_zero);
        self.optional_number(Item::ContinuationWidth, field.continuation);
    }
}
