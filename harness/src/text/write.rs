//! From a pack's value to the text form: every value that is not what the text form would derive is stated.

use super::line::{float, word};
use super::{SPN_LOOKUP, TREES, default_resolution};
use crate::value::*;

/// The pack in the text form; reading it gives the pack again, whatever stands in it.
pub fn from_pack(pack: &Pack) -> String {
    let mut lines: Vec<String> = Vec::new();
    let rise = pack.lookups.windows(2).all(|pair| pair[0].name < pair[1].name);
    let names_spns = pack.trees[1].iter().flat_map(|pgn| &pgn.fields).any(|field| field.spn.is_some());
    if !rise || names_spns && !pack.lookups.iter().any(|lookup| lookup.name == SPN_LOOKUP) {
        lines.push("lookupsAsWritten".into());
    }
    lines.extend(pack.fieldtypes.iter().map(fieldtype));
    for lookup in &pack.lookups {
        lines.push(format!("lookup {} {} {}", word(&lookup.name), lookup.kind.name(), lookup.bits));
        lines.extend(lookup.entries.iter().map(|one| entry(lookup.kind, one)));
    }
    for (name, pgns) in TREES.iter().zip(&pack.trees) {
        if !pgns.is_empty() {
            lines.push(format!("tree {name}"));
        }
        for pgn in pgns {
            write_pgn(&mut lines, pack, pgn);
        }
    }
    lines.into_iter().map(|line| line + "\n").collect()
}

/// A line that grows by options.
struct Options(String);

impl Options {
    fn flag(&mut self, name: &str, given: bool) {
        if given {
            self.0 += &format!(" {name}");
        }
    }

    fn option(&mut self, name: &str, value: Option<impl ToString>) {
        if let Some(value) = value {
            self.0 += &format!(" {name} {}", value.to_string());
        }
    }
}

fn fieldtype(ft: &FieldType) -> String {
    let mut line = Options(format!("type {}", word(&ft.name)));
    line.flag("hasBase", ft.base);
    line.flag("prints", ft.print_function);
    line.flag("signed", ft.signed);
    line.option("size", Some(ft.size).filter(|size| *size != 0));
    line.option("resolution", Some(ft.resolution).filter(|float| float.0 != 0).map(float));
    line.option("root", Some(&ft.root_name).filter(|root| **root != ft.name).map(|root| word(root)));
    line.0
}

fn entry(kind: Kind, entry: &Entry) -> String {
    let first = if kind == Kind::Triplet { format!(" {}", entry.first) } else { String::new() };
    let mut line = Options(format!("  value{first} {} {}", entry.value, word(&entry.name)));
    if kind == Kind::Fieldtype {
        line.0 += &format!(" {}", word(&entry.fieldtype));
        line.option("lookup", entry.nested.as_deref().map(word));
    }
    line.0
}

fn write_pgn(lines: &mut Vec<String>, pack: &Pack, pgn: &Pgn) {
    let mut line = Options(format!("pgn {} {} {}", pgn.pgn, word(&pgn.id), pgn.packet.name()));
    line.flag("fallback", pgn.fallback);
    line.flag("missingCompanyFields", pgn.missing_company_fields);
    line.option("length", Some(pgn.length));
    line.flag("variable", pgn.variable);
    line.option("minLength", pgn.min_length);
    lines.push(line.0);
    for (n, set) in pgn.sets.iter().enumerate() {
        let Some(set) = set else { continue };
        let mut line = Options(format!("  set {} start {} count {}", n + 1, set.start, set.count));
        line.option("countField", set.count_field);
        line.flag("nested", set.nested);
        lines.push(line.0);
    }
    for (i, one) in pgn.fields.iter().enumerate() {
        let continued = pgn.fields[i + 1..].iter().any(|later| later.continues.as_ref() == Some(&one.id));
        lines.push(field(pack, one, continued));
    }
}

fn field(pack: &Pack, field: &Field, continued: bool) -> String {
    let texts = [&field.id, &field.name, &field.type_].map(|text| word(text));
    let mut line = Options(format!("  field {}", texts.join(" ")));
    let named = pack.fieldtypes.iter().position(|ft| ft.name == field.type_).filter(|ft| *ft == field.ft as usize);
    line.option("typeIndex", named.is_none().then_some(field.ft));
    // what the field would have unsaid
    let (bits, resolution) =
        named.map_or_else(Default::default, |ft| (pack.fieldtypes[ft].size, default_resolution(&pack.fieldtypes[ft])));
    line.option("bits", field.bits_given.then_some(field.res_bits));
    line.option("resBits", Some(field.res_bits).filter(|width| !field.bits_given && *width != bits));
    line.option("resolution", field.resolution.map(float));
    let unsaid = field.resolution.unwrap_or(resolution);
    line.option("resResolution", Some(field.res_resolution).filter(|one| *one != unsaid).map(float));
    line.option("offset", field.offset.map(float));
    let unsaid = field.offset.unwrap_or_default();
    line.option("resOffset", Some(field.res_offset).filter(|one| *one != unsaid).map(float));
    line.flag("unitGiven", field.unit_given && field.res_unit.is_none());
    line.option(if field.unit_given { "unit" } else { "resUnit" }, field.res_unit.as_deref().map(word));
    line.option("spn", field.spn);
    line.option("continues", field.continues.as_deref().map(word));
    line.option("match", field.match_.as_deref().map(word));
    if let Some((kind, name)) = &field.reference {
        line.option(super::REFERENCES[*kind as usize], Some(word(name)));
    }
    line.flag("allowLookupWidthMismatch", field.allow_lookup_width_mismatch);
    line.flag("proprietary", field.proprietary);
    line.option("specialValues", field.special_values);
    line.option("bitLengthField", field.bit_length_field.as_deref().map(word));
    line.option("trailingZeroIsDigit", field.trailing_zero.as_deref().map(word));
    line.flag("dynamicFieldLength", field.dynamic_field_length);
    line.flag("overhead", field.overhead);
    line.option("continuation", field.continuation);
    line.flag("noContinuation", continued && field.continuation.is_none());
    line.0
}
