//! What a pack says, with no position in it (document 01, "The pack"). Names are those of the oracle's `model.rs`.

/// A text is any bytes; only packs whose texts are UTF-8 can go to the oracle.
pub type Text = Vec<u8>;

/// A float as its 64-bit pattern: packs keep it bit for bit, rules compare it as a float.
#[derive(Clone, Copy, PartialEq, Eq, Debug, Default)]
pub struct Float(pub u64);

impl Float {
    pub fn of(value: f64) -> Self {
        Float(value.to_bits())
    }

    pub fn get(self) -> f64 {
        f64::from_bits(self.0)
    }
}

#[derive(Clone, PartialEq, Debug, Default)]
pub struct Pack {
    pub fieldtypes: Vec<FieldType>,
    pub lookups: Vec<Lookup>,
    /// 0 NMEA 2000, 1 J1939, 2 Quick
    pub trees: [Vec<Pgn>; 3],
}

#[derive(Clone, PartialEq, Debug, Default)]
pub struct FieldType {
    pub name: Text,
    pub base: bool,
    pub print_function: bool,
    pub signed: bool,
    pub size: u32,
    pub resolution: Float,
    pub root_name: Text,
}

#[derive(Clone, Copy, PartialEq, Eq, Debug, Default)]
pub enum Kind {
    #[default]
    Pair,
    Triplet,
    Bit,
    Fieldtype,
}

impl Kind {
    pub const ALL: [Kind; 4] = [Kind::Pair, Kind::Triplet, Kind::Bit, Kind::Fieldtype];

    pub fn name(self) -> &'static str {
        ["pair", "triplet", "bit", "fieldtype"][self as usize]
    }
}

/// What an entry of its lookup's kind does not have is 0, empty or none. A triplet's second value is `value`.
#[derive(Clone, PartialEq, Debug, Default)]
pub struct Entry {
    pub first: u64,
    pub value: u64,
    pub name: Text,
    pub fieldtype: Text,
    pub nested: Option<Text>,
}

#[derive(Clone, PartialEq, Debug, Default)]
pub struct Lookup {
    pub name: Text,
    pub kind: Kind,
    pub bits: u32,
    pub entries: Vec<Entry>,
}

#[derive(Clone, Copy, PartialEq, Eq, Debug, Default)]
pub enum PacketType {
    #[default]
    Single,
    Fast,
    Iso,
    Mixed,
}

impl PacketType {
    pub const ALL: [PacketType; 4] = [PacketType::Single, PacketType::Fast, PacketType::Iso, PacketType::Mixed];

    pub fn name(self) -> &'static str {
        ["Single", "Fast", "ISO", "Mixed"][self as usize]
    }
}

#[derive(Clone, PartialEq, Eq, Debug, Default)]
pub struct Repeating {
    pub count: u32,
    pub start: u32,
    pub count_field: Option<u32>,
    pub nested: bool,
}

impl Repeating {
    /// Whether it is nonempty and has the field of this order (orders run from 1).
    pub fn holds(&self, order: u32) -> bool {
        self.start <= order && order < self.start + self.count
    }
}

#[derive(Clone, PartialEq, Debug, Default)]
pub struct Pgn {
    pub pgn: u32,
    pub id: Text,
    pub packet: PacketType,
    pub fallback: bool,
    pub variable: bool,
    pub missing_company_fields: bool,
    pub length: u32,
    pub min_length: Option<u32>,
    /// set 1 and set 2
    pub sets: [Option<Repeating>; 2],
    pub fields: Vec<Field>,
}

#[derive(Clone, PartialEq, Debug, Default)]
pub struct Field {
    pub id: Text,
    pub name: Text,
    pub type_: Text,
    pub ft: u32,
    pub bits_given: bool,
    pub unit_given: bool,
    pub proprietary: bool,
    pub allow_lookup_width_mismatch: bool,
    pub dynamic_field_length: bool,
    pub overhead: bool,
    pub res_bits: u32,
    pub res_resolution: Float,
    pub res_offset: Float,
    pub res_unit: Option<Text>,
    pub resolution: Option<Float>,
    pub offset: Option<Float>,
    pub spn: Option<u32>,
    pub continues: Option<Text>,
    pub match_: Option<Text>,
    /// (kind, name)
    pub reference: Option<(Kind, Text)>,
    pub special_values: Option<u32>,
    pub bit_length_field: Option<Text>,
    pub trailing_zero: Option<Text>,
    pub continuation: Option<u32>,
}

impl Field {
    /// The oracle's `value_bits`; the pack's sums keep it within 32 bits.
    pub fn value_bits(&self) -> u32 {
        self.res_bits + self.continuation.unwrap_or(0)
    }
}

/// The prefix of each tree's place texts.
pub const PREFIX: [&str; 3] = ["", "j1939/", "quick/"];

impl Pack {
    /// Lookup names rise, so the name decides the lookup.
    pub fn lookup(&self, name: &[u8]) -> Option<usize> {
        self.lookups.binary_search_by(|lookup| lookup.name.as_slice().cmp(name)).ok()
    }

    pub fn has_fieldtype(&self, name: &[u8]) -> bool {
        self.fieldtypes.iter().any(|ft| ft.name == name)
    }

    pub fn root_name(&self, field: &Field) -> &[u8] {
        &self.fieldtypes[field.ft as usize].root_name
    }

    /// A number first, decimal or else hexadecimal, then a name. Without the hexadecimal it is the oracle's `resolve_match`.
    pub fn resolve_match(&self, field: &Field) -> Option<u64> {
        let text = field.match_.as_ref()?;
        parse_u64(text).or_else(|| parse_hex(text)).or_else(|| self.named_match(field))
    }

    /// The value of the entry that the match names, by the reference's kind, not by the lookup's own.
    pub fn named_match(&self, field: &Field) -> Option<u64> {
        let text = field.match_.as_ref()?;
        let (kind, name) = field.reference.as_ref()?;
        let lookup = &self.lookups[self.lookup(name)?];
        // A lookup has entries in the list of its own kind alone; pair and bit share theirs.
        let searched = match kind {
            Kind::Fieldtype => lookup.kind == Kind::Fieldtype,
            _ => matches!(lookup.kind, Kind::Pair | Kind::Bit),
        };
        lookup.entries.iter().find(|entry| searched && entry.name == *text).map(|entry| entry.value)
    }

    /// Whether some match begins as a hexadecimal numeral, whatever follows. The oracle knows none of them, so that such a
    /// pack is not compared with it.
    pub fn has_hexadecimal_match(&self) -> bool {
        let mut fields = self.trees.iter().flatten().flat_map(|pgn| &pgn.fields);
        fields.any(|field| field.match_.as_ref().is_some_and(|text| after_0x(text).is_some()))
    }
}

/// Decimal digits with at most one leading `+`, at least one digit, below 2^64.
fn parse_u64(text: &[u8]) -> Option<u64> {
    let digits = text.strip_prefix(b"+").unwrap_or(text);
    if digits.is_empty() {
        return None;
    }
    digits.iter().try_fold(0u64, |value, digit| {
        let digit = digit.is_ascii_digit().then(|| u64::from(digit - b'0'))?;
        value.checked_mul(10)?.checked_add(digit)
    })
}

/// The largest number of so many bits, or of 64 where there are more.
pub fn largest(bits: u32) -> u64 {
    1u64.checked_shl(bits).map_or(u64::MAX, |above| above - 1)
}

/// What stands behind 0x or 0X.
pub fn after_0x(text: &[u8]) -> Option<&[u8]> {
    text.strip_prefix(b"0x").or_else(|| text.strip_prefix(b"0X"))
}

/// 0x or 0X and 1 to 16 hexadecimal digits, leading zeros counted.
pub fn parse_hex(text: &[u8]) -> Option<u64> {
    let digits = after_0x(text)?;
    // the std's parser alone would take a sign and any number of zeros
    let fit = (1..=16).contains(&digits.len()) && digits.iter().all(u8::is_ascii_hexdigit);
    fit.then(|| str::from_utf8(digits).ok().and_then(|digits| u64::from_str_radix(digits, 16).ok())).flatten()
}
