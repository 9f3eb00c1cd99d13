//! From a finding to words: the place text and the message that the oracle writes for it, made from the eight numbers
//! and the pack alone. If a number is wrong, so are the words.

use crate::finding::{FIELDTYPES, Finding, GROUP, LOOKUP, PGN};
use crate::rules;
use crate::value::*;

#[derive(Clone, PartialEq, Eq, Debug)]
pub struct Words {
    pub rule: String,
    pub error: bool,
    pub location: String,
    pub message: String,
}

/// A text in words; what is not UTF-8 goes to no oracle, so it may be replaced here.
fn s(text: &[u8]) -> std::borrow::Cow<'_, str> {
    String::from_utf8_lossy(text)
}

/// The place text of a finding's place, tree and item, or none where that is not in the pack.
pub fn place_text(pack: &Pack, place: u32, tree: u32, item: u32) -> Option<Text> {
    let index = item as usize;
    let prefix = || PREFIX[tree as usize].as_bytes();
    match place {
        FIELDTYPES if tree == 0 => pack.fieldtypes.get(index).map(|_| b"fieldtypes.yaml".to_vec()),
        LOOKUP if tree == 0 => Some([b"lookups/", pack.lookups.get(index)?.name.as_slice(), b".yaml"].concat()),
        PGN if tree < 3 => {
            let pgn = pack.trees[tree as usize].get(index)?;
            let number = format!("pgns/{:06}-", pgn.pgn);
            Some([prefix(), number.as_bytes(), &pgn.id, b".yaml"].concat())
        }
        GROUP if tree < 3 => {
            let there = pack.trees[tree as usize].iter().any(|pgn| pgn.pgn == item);
            there.then(|| [prefix(), format!("pgns/{item:06}-*.yaml").as_bytes()].concat())
        }
        _ => None,
    }
}

pub fn words(pack: &Pack, finding: &Finding) -> Words {
    let place = place_text(pack, finding.place, finding.tree, finding.item);
    words_at(pack, finding, place.as_deref().unwrap_or(b"not in the pack"))
}

/// As `words`, with a place text from elsewhere. A finding whose numbers say nothing of the pack makes it panic.
pub fn words_at(pack: &Pack, finding: &Finding, place: &[u8]) -> Words {
    Words {
        rule: format!("R{:02}", finding.rule),
        error: finding.is_error(),
        location: s(place).into_owned(),
        message: message(pack, finding),
    }
}

fn message(pack: &Pack, finding: &Finding) -> String {
    let item = finding.item as usize;
    match finding.place {
        FIELDTYPES => format!("root fieldtype '{}' has no print function", s(&pack.fieldtypes[item].name)),
        LOOKUP => lookup_message(pack, finding),
        GROUP => group_message(pack, finding),
        _ => pgn_message(pack, finding),
    }
}

fn lookup_message(pack: &Pack, finding: &Finding) -> String {
    let lookup = &pack.lookups[finding.item as usize];
    if finding.rule == 22 {
        return "lookup enumeration is never referenced by any field".into();
    }
    let entry = &lookup.entries[finding.part as usize];
    match (finding.rule, finding.cause) {
        (8, 6) => format!("value {}: unknown fieldtype '{}'", entry.value, s(&entry.fieldtype)),
        (8, 7) => {
            format!("value {}: unknown nested lookup '{}'", entry.value, s(entry.nested.as_deref().unwrap_or_default()))
        }
        (24, 1) => {
            let earlier = &lookup.entries[finding.other as usize];
            let under = match lookup.kind {
                Kind::Triplet => format!(" under {}", entry.first),
                _ => String::new(),
            };
            let (name, earlier, code) = (s(&entry.name), earlier.value, entry.value);
            format!("'{name}' names both {earlier} and {code}{under}; give each its own name")
        }
        other => panic!("no message for {other:?} at a lookup"),
    }
}

fn group_message(pack: &Pack, finding: &Finding) -> String {
    let number = finding.item;
    let matchless: Vec<_> = pack.trees[finding.tree as usize]
        .iter()
        .filter(|pgn| pgn.pgn == number && !pgn.fallback && pgn.fields.iter().all(|field| field.match_.is_none()))
        .map(|pgn| s(&pgn.id))
        .collect();
    format!(
        "PGN {number} has {} variants without match fields ({}); at most one catch-all is decodable",
        finding.other,
        matchless.join(", ")
    )
}

fn yaml_key(kind: Kind) -> &'static str {
    match kind {
        Kind::Pair => "lookup",
        Kind::Triplet => "lookupIndirect",
        Kind::Bit => "lookupBits",
        Kind::Fieldtype => "lookupFieldtype",
    }
}

fn pgn_message(pack: &Pack, finding: &Finding) -> String {
    let pgns = &pack.trees[finding.tree as usize];
    let pgn = &pgns[finding.item as usize];
    let number = pgn.pgn;
    let length = pgn.length;
    let packet = pgn.packet.name();
    let min = pgn.min_length.unwrap_or_default();
    match (finding.rule, finding.cause) {
        (2, 1) => format!("Quick message type {number} is beyond 11 bits (0x7ff)"),
        (2, 2) => format!("Quick message type {number} is {packet}; Quick has only Single"),
        (2, 3) => format!("PGN {number} is beyond every known PGN range"),
        (2, 4) => format!("PGN {number} is not part of a valid PGN range"),
        (2, 5) => format!("PGN {number} (0x{number:x}) is PDU1 and must end in 0x00"),
        (2, 6) => {
            let (.., range) = rules::range_of(finding.tree as usize, number).unwrap();
            format!("PGN {number} is in a {} range but has packet type {packet}", range.name())
        }
        (4, 1) => format!("single-frame PGN is {length} bytes, must be exactly 8"),
        (4, 2) => format!("{length} fixed bytes do not fit a single 8-byte frame"),
        (5, _) => set_message(pgn, finding),
        (7, 1) => "proprietary PGN must start with Manufacturer Code (11 bits) / Reserved (2) / Industry Code (3), \
                   or declare missing: [MissingCompanyFields]"
            .into(),
        (11, 1) => format!("{} fields exceed the C runtime limit of 33", pgn.fields.len()),
        (16, 1) => format!(
            "minLength: {min} is authored, but this PGN is variable-length and already publishes its derived minimum \
             ({length} bytes)"
        ),
        (16, 2) => format!("minLength: {min} must be at least 1 and less than the full length of {length}"),
        (16, 3) => format!(
            "minLength: {min} does not fall on a field boundary; a shorter payload must end between two fields, not \
             inside one"
        ),
        (20, 1) => {
            let key = rules::match_set(pgn).unwrap_or_default();
            let other = &pgns[finding.other as usize].id;
            format!(
                "match set [{}] duplicates variant '{}' of PGN {number}; the later variant is unreachable",
                s(&key),
                s(other)
            )
        }
        (21, 1) => format!("PGN id '{}' already used by PGN {}", s(&pgn.id), pgns[finding.other as usize].pgn),
        (24, 2) => {
            let (item, i) = rules::first_carriers(pgns)[&finding.other];
            let name = &pgns[item].fields[i].name;
            let (earlier, spn) = (finding.part, finding.other);
            format!("'{}' names both SPN {earlier} and SPN {spn} in J1939_SPN; give each its own name", s(name))
        }
        _ => field_message(pack, pgn, finding),
    }
}

fn set_message(pgn: &Pgn, finding: &Finding) -> String {
    let set = pgn.sets[finding.part as usize - 1].as_ref().unwrap();
    let says = match finding.cause {
        1 => "no way to determine the repeating set (start missing)".to_string(),
        2 => {
            let last = set.start + set.count - 1;
            format!("fields {}..{last} exceed the {} defined fields", set.start, pgn.fields.len())
        }
        3 => format!("countField {} must reference a field before the set", set.count_field.unwrap()),
        4 => "a nested set needs a countField inside the enclosing set".to_string(),
        _ => "a nested set must be set 2, inside set 1".to_string(),
    };
    format!("repeating set {}: {says}", finding.part)
}

fn field_message(pack: &Pack, pgn: &Pgn, finding: &Finding) -> String {
    let field = &pgn.fields[finding.part as usize];
    let id = s(&field.id);
    let ft = &pack.fieldtypes[field.ft as usize];
    let type_ = s(&field.type_);
    let width = field.value_bits();
    let lookup = || &pack.lookups[finding.other as usize];
    let named = field.reference.as_ref().map(|(_, name)| s(name)).unwrap_or_default();
    let target = || &pgn.fields[finding.other as usize];
    let of = |text: &Option<Text>| s(text.as_deref().unwrap_or_default()).into_owned();
    let continued = of(&field.continues);
    let length_field = of(&field.bit_length_field);
    let zero_field = of(&field.trailing_zero);
    match (finding.rule, finding.cause) {
        (6, 1) => format!("field '{id}': dynamicFieldLength on a {} field", s(&ft.root_name)),
        (6, 2) => format!("field '{id}': overhead without dynamicFieldLength"),
        (6, 3) => {
            format!("field '{id}': DYNAMIC_FIELD_VALUE without an earlier DYNAMIC_FIELD_LENGTH or DYNAMIC_FIELD_KEY")
        }
        (8, 1) => format!("field '{id}': unknown lookup '{named}'"),
        (8, 2) => {
            let (kind, have) = (lookup().kind, yaml_key(field.reference.as_ref().unwrap().0));
            format!(
                "field '{id}': '{named}' is a {} enumeration but is referenced with '{have}:'; use '{}:' instead",
                kind.name(),
                yaml_key(kind)
            )
        }
        (8, 3) => {
            let largest = rules::largest_named(lookup()).unwrap();
            format!("field '{id}' is {width} bits; lookup '{named}' names unreachable value {largest}")
        }
        (8, 4) => format!(
            "field '{id}' is {width} bits but lookup '{named}' declares {}; add allowLookupWidthMismatch: true if \
             deliberate",
            lookup().bits
        ),
        (8, 5) => format!("field '{id}': unnecessary allowLookupWidthMismatch (widths agree)"),
        (9, 1) => {
            format!("field '{id}': specialValues {} out of range (0-3, < 2^bits)", field.special_values.unwrap())
        }
        (12, 1) => {
            let name = s(&field.name);
            format!("field '{id}' named '{name}' must have id '{}[N]'", name.to_lowercase())
        }
        (13, 1) => {
            let hint = match field.reference {
                Some(_) => "not an integer, and not a value name in its lookup",
                None => "not a non-negative integer",
            };
            format!("field '{id}': match value {:?} does not resolve ({hint})", of(&field.match_))
        }
        (13, 2) => {
            let value = pack.resolve_match(field).unwrap();
            let bits = field.res_bits;
            let max = (1u64 << bits) - 1;
            format!("field '{id}': match value {value} exceeds the field's {bits}-bit range (max {max})")
        }
        (14, 1) => format!(
            "field '{id}': type {type_} already fixes its width ({} bits) — drop bits, or use a base type \
             (NUMBER/INTEGER/UNSIGNED_INTEGER) for a custom width",
            ft.size
        ),
        (14, 2) => format!(
            "field '{id}': type {type_} already fixes its resolution ({}) — drop resolution, or use a plain \
             NUMBER/INTEGER type for a custom scale",
            ft.resolution.get()
        ),
        (15, 1) => format!(
            "field '{id}': a variable-length BINARY field must name the field holding its length, e.g. \
             bitLengthField: <id>"
        ),
        (15, 2) => format!("field '{id}': bitLengthField only applies to a variable-length BINARY field"),
        (15, 3) => format!("field '{id}': bitLengthField '{length_field}' is not a field of this PGN"),
        (15, 4) => format!("field '{id}': bitLengthField '{}' must come before it", s(&target().id)),
        (15, 5) => format!(
            "field '{id}': bitLengthField '{}' ({}) is not an integer bit-count field",
            s(&target().id),
            s(&target().type_)
        ),
        (21, 2) => format!("duplicate field id '{id}'"),
        (42, 1) => format!("field '{id}': spn: is a J1939 attribute"),
        (42, 2) => format!("field '{id}': SPN {} is beyond 19 bits", field.spn.unwrap()),
        (42, 3) => {
            let spn = field.spn.unwrap();
            let first_pgn = &pack.trees[1][finding.other as usize];
            let first = first_pgn.fields.iter().find(|field| field.spn == Some(spn)).unwrap();
            let place = place_text(pack, PGN, 1, finding.other).unwrap();
            format!(
                "field '{id}': SPN {spn} decodes as {:?} here but as {:?} in '{}' ({})",
                scaling(field),
                scaling(first),
                s(&first.id),
                s(&place)
            )
        }
        (43, 1) => format!("field '{id}' continues '{continued}', which is not an earlier field"),
        (43, 2) => format!("field '{id}' continues '{}' across a repeating-set boundary", s(&target().id)),
        (43, 3) => {
            format!("field '{id}' continues '{}', but a field of no fixed width lies between", s(&target().id))
        }
        (43, 4) => format!("more than one field continues '{}'", s(&target().id)),
        (43, 5) => format!("field '{}' both continues and is continued", s(&target().id)),
        (43, 6) => {
            format!("field '{id}' continues '{}': both must be integers (NUMBER or LOOKUP)", s(&target().id))
        }
        (43, 7) => format!(
            "field '{id}' continues '{}', so it is raw bits: no resolution, offset, unit, lookup, match or spn of its \
             own",
            s(&target().id)
        ),
        (43, 8) => {
            format!("field '{}' is continued, so it must be unsigned and have no offset", s(&target().id))
        }
        (43, 9) => format!("field '{}' would be {} bits wide", s(&target().id), target().value_bits()),
        (44, 1) => format!("field '{id}': trailingZeroIsDigit only applies to a DECIMAL field"),
        (44, 2) => format!("field '{id}': trailingZeroIsDigit field '{zero_field}' is not a field of this PGN"),
        (44, 3) => format!(
            "field '{id}': trailingZeroIsDigit field '{}' must come before it, at a fixed position",
            s(&target().id)
        ),
        (44, 4) => format!(
            "field '{id}': trailingZeroIsDigit field '{}' ({}) is not an unsigned integer field",
            s(&target().id),
            s(&target().type_)
        ),
        other => panic!("no message for {other:?} at a PGN"),
    }
}

/// As the oracle writes it: a tuple with an owned unit.
fn scaling(field: &Field) -> (u32, f64, f64, Option<String>) {
    let (bits, resolution, offset, unit) = rules::scaling(field);
    (bits, resolution, offset, unit.map(|unit| s(unit).into_owned()))
}
