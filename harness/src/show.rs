//! A pack listed in words: its records with their offsets, what the rules find in it, and which PGNs are held.

use crate::reader::{Loaded, read};
use crate::rules;
use crate::value::*;
use crate::walk::held;
use crate::words::words;
use std::fmt::Write;

pub fn show(bytes: &[u8]) -> String {
    match read(bytes) {
        Ok(loaded) => list(bytes, &loaded),
        Err(refusal) => format!("refused {} {}\n", refusal.number, refusal.detail),
    }
}

fn s(text: &[u8]) -> String {
    match std::str::from_utf8(text) {
        Ok(text) => format!("{text:?}"),
        Err(_) => format!("{text:02x?}"),
    }
}

fn list(bytes: &[u8], loaded: &Loaded) -> String {
    let pack = &loaded.pack;
    let mut records = loaded.records.iter();
    let mut at = || *records.next().unwrap();
    let mut out = format!("pack of {} bytes, {} records\n", bytes.len(), loaded.records.len());
    // Writing to a String cannot fail.
    let _ = write_types(&mut out, pack, &mut at).and_then(|()| write_lookups(&mut out, pack, &mut at));
    for tree in 0..3 {
        let _ = write_tree(&mut out, pack, tree, &mut at);
    }
    let findings = rules::check(pack);
    for finding in &findings {
        let words = words(pack, finding);
        let severity = if words.error { "error" } else { "warning" };
        let _ = writeln!(out, "{} {severity} {}: {}", words.rule, words.location, words.message);
    }
    let errors = findings.iter().filter(|finding| finding.is_error()).count();
    let _ = writeln!(out, "findings {} errors {errors}", findings.len());
    out
}

type Written = Result<(), std::fmt::Error>;

fn write_types(out: &mut String, pack: &Pack, at: &mut impl FnMut() -> u32) -> Written {
    for (i, ft) in pack.fieldtypes.iter().enumerate() {
        write!(out, "{:>7} type {i} {} of root {}", at(), s(&ft.name), s(&ft.root_name))?;
        for (given, word) in [(ft.base, "base"), (ft.print_function, "prints"), (ft.signed, "signed")] {
            if given {
                write!(out, " {word}")?;
            }
        }
        writeln!(out, " size {} resolution {}", ft.size, ft.resolution.get())?;
    }
    Ok(())
}

fn write_lookups(out: &mut String, pack: &Pack, at: &mut impl FnMut() -> u32) -> Written {
    for (i, lookup) in pack.lookups.iter().enumerate() {
        writeln!(out, "{:>7} lookup {i} {} {} {} bits", at(), s(&lookup.name), lookup.kind.name(), lookup.bits)?;
        for entry in &lookup.entries {
            write!(out, "{:>7}   value", at())?;
            if lookup.kind == Kind::Triplet {
                write!(out, " {}", entry.first)?;
            }
            write!(out, " {} {}", entry.value, s(&entry.name))?;
            if lookup.kind == Kind::Fieldtype {
                write!(out, " {}", s(&entry.fieldtype))?;
            }
            if let Some(nested) = &entry.nested {
                write!(out, " lookup {}", s(nested))?;
            }
            writeln!(out)?;
        }
    }
    Ok(())
}

fn write_tree(out: &mut String, pack: &Pack, tree: usize, at: &mut impl FnMut() -> u32) -> Written {
    for (item, pgn) in pack.trees[tree].iter().enumerate() {
        write!(out, "{:>7} tree {tree} PGN {item} {} {} {}", at(), pgn.pgn, s(&pgn.id), pgn.packet.name())?;
        write!(out, " length {}", pgn.length)?;
        if let Some(min) = pgn.min_length {
            write!(out, " minimum {min}")?;
        }
        for (given, word) in [
            (pgn.fallback, "fallback"),
            (pgn.variable, "variable"),
            (pgn.missing_company_fields, "MissingCompanyFields"),
        ] {
            if given {
                write!(out, " {word}")?;
            }
        }
        writeln!(out, "{}", if held(pack, pgn) { " held" } else { "" })?;
        for (n, set) in pgn.sets.iter().enumerate() {
            let Some(set) = set else { continue };
            write!(out, "          set {} start {} count {}", n + 1, set.start, set.count)?;
            if let Some(order) = set.count_field {
                write!(out, " countField {order}")?;
            }
            writeln!(out, "{}", if set.nested { " nested" } else { "" })?;
        }
        for (i, field) in pgn.fields.iter().enumerate() {
            write!(out, "{:>7}   field {i} ", at())?;
            write_field(out, field)?;
        }
    }
    Ok(())
}

fn write_field(out: &mut String, field: &Field) -> Written {
    write!(out, "{} {} {} type {}", s(&field.id), s(&field.name), s(&field.type_), field.ft)?;
    write!(out, " {} bits ×{} +{}", field.res_bits, field.res_resolution.get(), field.res_offset.get())?;
    let flags = [
        (field.bits_given, "bits given"),
        (field.unit_given, "unit given"),
        (field.proprietary, "proprietary"),
        (field.allow_lookup_width_mismatch, "allowLookupWidthMismatch"),
        (field.dynamic_field_length, "dynamicFieldLength"),
        (field.overhead, "overhead"),
    ];
    for (_, word) in flags.iter().filter(|(given, _)| *given) {
        write!(out, ", {word}")?;
    }
    let texts = [
        ("unit", &field.res_unit),
        ("continues", &field.continues),
        ("match", &field.match_),
        ("bitLengthField", &field.bit_length_field),
        ("trailingZeroIsDigit", &field.trailing_zero),
    ];
    for (word, text) in texts {
        if let Some(text) = text {
            write!(out, ", {word} {}", s(text))?;
        }
    }
    for (word, float) in [("resolution", field.resolution), ("offset", field.offset)] {
        if let Some(float) = float {
            write!(out, ", {word} {}", float.get())?;
        }
    }
    let numbers =
        [("spn", field.spn), ("specialValues", field.special_values), ("continued by bits", field.continuation)];
    for (word, number) in numbers {
        if let Some(number) = number {
            write!(out, ", {word} {number}")?;
        }
    }
    if let Some((kind, name)) = &field.reference {
        write!(out, ", {} lookup {}", kind.name(), s(name))?;
    }
    writeln!(out)
}
