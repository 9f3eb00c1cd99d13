//! Packs of real messages: the sample's, over and over.

use crate::encode::encode;
use crate::text::to_pack;
use crate::value::*;
use std::collections::{BTreeMap, BTreeSet};

/// The first messages of an endless row of copies of the sample, as many as have at most `size` bytes with the field
/// types and lookups that they use. The pack is without error.
pub fn sample_of_size(size: usize) -> Pack {
    let sample = to_pack(include_str!("../../../samples/sample.txt")).expect("the sample");
    let fits = |count: usize| encode(&messages(&sample, count)).bytes.len() <= size;
    let (mut count, mut over) = (0, 1);
    while fits(over) {
        (count, over) = (over, 2 * over);
    }
    while count + 1 < over {
        let middle = (count + over) / 2;
        if fits(middle) { count = middle } else { over = middle }
    }
    messages(&sample, count)
}

/// The first so many messages with what they use.
fn messages(sample: &Pack, count: usize) -> Pack {
    let all: Vec<(usize, &Pgn)> =
        sample.trees.iter().enumerate().flat_map(|(tree, pgns)| pgns.iter().map(move |pgn| (tree, pgn))).collect();
    let spns = all.iter().flat_map(|(_, pgn)| pgn.fields.iter().filter_map(|field| field.spn)).max().unwrap_or(0) + 1;
    let mut lookups = BTreeMap::new();
    let mut types = BTreeSet::new();
    let mut trees = [const { Vec::new() }; 3];
    for n in 0..count {
        let (tree, pgn) = all[n % all.len()];
        let copy = n / all.len();
        let mut pgn = pgn.clone();
        pgn.id = named(&pgn.id, copy);
        if copy > 0 && pgn.pgn == 59904 {
            // R04 takes this number alone with 3 bytes
            pgn.fallback = true;
        } else if copy > 0 {
            pgn.pgn = 0x40000 + n as u32;
        }
        for field in &mut pgn.fields {
            types.insert(field.ft);
            if let Some((_, name)) = &mut field.reference {
                add_lookup(sample, name, copy, &mut lookups, &mut types);
                *name = named(name, copy);
            }
            // SPNs of its own, each with its own name, as long as they have 19 bits
            if let Some(spn) = field.spn.as_mut().filter(|spn| **spn + copy as u32 * spns <= 0x7ffff) {
                *spn += copy as u32 * spns;
                field.name = named(&field.name, copy);
            }
        }
        trees[tree].push(pgn);
    }
    let types: Vec<u32> = types.into_iter().collect();
    for field in trees.iter_mut().flatten().flat_map(|pgn| &mut pgn.fields) {
        field.ft = types.binary_search(&field.ft).expect("each type is kept") as u32;
    }
    let fieldtypes = types.iter().map(|i| sample.fieldtypes[*i as usize].clone()).collect();
    Pack { fieldtypes, lookups: lookups.into_values().collect(), trees }
}

/// A copy's name for something.
fn named(name: &[u8], copy: usize) -> Text {
    match copy {
        0 => name.to_vec(),
        _ => [name, format!("_{copy}").as_bytes()].concat(),
    }
}

/// A copy of a lookup with what it uses.
fn add_lookup(
    sample: &Pack,
    name: &[u8],
    copy: usize,
    lookups: &mut BTreeMap<Text, Lookup>,
    types: &mut BTreeSet<u32>,
) {
    let mut lookup = sample.lookups[sample.lookup(name).expect("the sample's lookups are there")].clone();
    lookup.name = named(name, copy);
    if lookups.contains_key(&lookup.name) {
        return;
    }
    for entry in lookup.entries.iter_mut().filter(|_| lookup.kind == Kind::Fieldtype) {
        types.extend(sample.fieldtypes.iter().position(|ft| ft.name == entry.fieldtype).map(|i| i as u32));
        if let Some(nested) = &mut entry.nested {
            add_lookup(sample, nested, copy, lookups, types);
            *nested = named(nested, copy);
        }
    }
    lookups.insert(lookup.name.clone(), lookup);
}
