//! The oracle: the Rust rule checker, compiled unchanged, run over a pack that is turned into its `Database`.

use crate::value::Pack;
use crate::words::Words;

/// Whether the oracle's files were there when the harness was built.
pub const PRESENT: bool = cfg!(keel);

/// What the oracle checks: a pack turned into its `Database`.
#[cfg(keel)]
pub struct Database(crate::model::Database);

#[cfg(not(keel))]
pub enum Database {}

/// None where a text is not UTF-8 or the oracle is not there.
#[cfg(keel)]
pub fn database(pack: &Pack) -> Option<Database> {
    database::database(pack).map(Database)
}

#[cfg(not(keel))]
pub fn database(_: &Pack) -> Option<Database> {
    None
}

/// The oracle's check alone: how many violations it gives.
#[cfg(keel)]
pub fn check(database: &Database) -> usize {
    crate::check::check(&database.0).len()
}

#[cfg(not(keel))]
pub fn check(database: &Database) -> usize {
    match *database {}
}

/// The oracle's violations in words, R08 causes 6 and 7 put in the order of lookup names; none where a text is not UTF-8
/// or the oracle is not there.
#[cfg(not(keel))]
pub fn violations(_: &Pack) -> Option<Vec<Words>> {
    None
}

#[cfg(keel)]
pub fn violations(pack: &Pack) -> Option<Vec<Words>> {
    let database = database::database(pack)?;
    let mut list: Vec<Words> = crate::check::check(&database)
        .into_iter()
        .map(|violation| Words {
            rule: violation.rule.into(),
            error: violation.error,
            location: violation.location,
            message: violation.message,
        })
        .collect();
    sort_lookup_run(&mut list);
    Some(list)
}

/// R08 causes 6 and 7 follow a `HashMap`'s order in the oracle; here they stand by lookup name. Entries keep their order.
#[cfg(keel)]
fn sort_lookup_run(list: &mut [Words]) {
    let of_lookup = |words: &Words| words.rule == "R08" && words.location.starts_with("lookups/");
    let begin = list.iter().position(of_lookup).unwrap_or(list.len());
    let length = list[begin..].iter().take_while(|words| of_lookup(words)).count();
    fn name(words: &Words) -> &str {
        let file = words.location.strip_prefix("lookups/").unwrap_or_default();
        file.strip_suffix(".yaml").unwrap_or_default()
    }
    list[begin..begin + length].sort_by(|a, b| name(a).cmp(name(b)));
}

#[cfg(keel)]
mod database {
    use crate::model;
    use crate::value::*;

    fn text(bytes: &[u8]) -> Option<String> {
        String::from_utf8(bytes.to_vec()).ok()
    }

    /// Some(None) where there is no text, None where it is not UTF-8.
    fn optional(bytes: &Option<Text>) -> Option<Option<String>> {
        match bytes {
            None => Some(None),
            Some(bytes) => text(bytes).map(Some),
        }
    }

    pub fn database(pack: &Pack) -> Option<model::Database> {
        let [pgns, pgns_j1939, pgns_quick] = &pack.trees;
        let mut database = model::Database {
            fieldtypes: pack.fieldtypes.iter().map(fieldtype).collect::<Option<_>>()?,
            lookups: pack
                .lookups
                .iter()
                .map(|from| lookup(from).map(|lookup| (lookup.name.clone(), lookup)))
                .collect::<Option<_>>()?,
            pgns: pgns.iter().map(pgn).collect::<Option<_>>()?,
            pgns_j1939: pgns_j1939.iter().map(pgn).collect::<Option<_>>()?,
            pgns_quick: pgns_quick.iter().map(pgn).collect::<Option<_>>()?,
            ..Default::default()
        };
        database.index();
        Some(database)
    }

    fn fieldtype(from: &FieldType) -> Option<model::FieldType> {
        Some(model::FieldType {
            name: text(&from.name)?,
            base: from.base.then(String::new),
            print_function: from.print_function.then(String::new),
            has_sign: Some(from.signed),
            size: from.size,
            resolution: from.resolution.get(),
            root_name: text(&from.root_name)?,
            ..Default::default()
        })
    }

    fn lookup(from: &Lookup) -> Option<model::Lookup> {
        let mut lookup = model::Lookup {
            name: text(&from.name)?,
            kind: from.kind.name().into(),
            bits: from.bits,
            ..Default::default()
        };
        for entry in &from.entries {
            let name = text(&entry.name)?;
            match from.kind {
                Kind::Pair | Kind::Bit => lookup.pairs.push((entry.value, name)),
                Kind::Triplet => lookup.triplets.push((entry.first, entry.value, name)),
                Kind::Fieldtype => lookup.fieldtypes.push(model::FieldTypeLookupEntry {
                    value: entry.value,
                    name,
                    fieldtype: text(&entry.fieldtype)?,
                    lookup: optional(&entry.nested)?,
                    ..Default::default()
                }),
            }
        }
        Some(lookup)
    }

    fn pgn(from: &Pgn) -> Option<model::Pgn> {
        let set = |set: &Option<Repeating>| {
            set.as_ref().map(|set| model::Repeating {
                count: set.count,
                start: set.start,
                count_field: set.count_field,
                nested: set.nested,
            })
        };
        Some(model::Pgn {
            pgn: from.pgn,
            id: text(&from.id)?,
            type_: from.packet.name().into(),
            fallback: from.fallback,
            missing: from.missing_company_fields.then(|| "MissingCompanyFields".into()).into_iter().collect(),
            repeating1: set(&from.sets[0]),
            repeating2: set(&from.sets[1]),
            min_length: from.min_length,
            fields: from.fields.iter().map(field).collect::<Option<_>>()?,
            length: from.length,
            is_variable: from.variable,
            ..Default::default()
        })
    }

    fn field(from: &Field) -> Option<model::Field> {
        let reference = |kind: Kind| match &from.reference {
            Some((of, name)) if *of == kind => text(name).map(Some),
            _ => Some(None),
        };
        Some(model::Field {
            id: text(&from.id)?,
            name: text(&from.name)?,
            type_: text(&from.type_)?,
            bits: from.bits_given.then_some(from.res_bits),
            resolution: from.resolution.map(Float::get),
            unit: from.unit_given.then(String::new),
            offset: from.offset.map(Float::get),
            spn: from.spn,
            continues: optional(&from.continues)?,
            match_: optional(&from.match_)?,
            lookup: reference(Kind::Pair)?,
            lookup_indirect: reference(Kind::Triplet)?,
            lookup_bits: reference(Kind::Bit)?,
            lookup_fieldtype: reference(Kind::Fieldtype)?,
            proprietary: from.proprietary,
            allow_lookup_width_mismatch: from.allow_lookup_width_mismatch,
            special_values: from.special_values,
            bit_length_field: optional(&from.bit_length_field)?,
            trailing_zero_is_digit: optional(&from.trailing_zero)?.map(|target| (target, 0)),
            dynamic_field_length: from.dynamic_field_length,
            dynamic_field_length_overhead: from.overhead.into(),
            ft: from.ft as usize,
            res_bits: from.res_bits,
            res_resolution: from.res_resolution.get(),
            res_unit: optional(&from.res_unit)?,
            res_offset: from.res_offset.get(),
            res_continuation: from.continuation.map(|width| (0, width)),
            ..Default::default()
        })
    }
}
