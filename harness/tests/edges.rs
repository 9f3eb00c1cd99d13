//! Document 01's edges as one table, run over the library, where it is linked, and over the harness's own rules.
//! Those that 01 stars are proved too: `edges` of crates/rules/specs/Examples.antt.

use harness::finding::Finding;
use harness::report::worked_example;
use harness::value::*;
use harness::{library, rules};

struct Edge {
    says: String,
    rule: u32,
    pack: Pack,
    /// of the rule's findings
    causes: Vec<u32>,
}

fn edge(says: impl Into<String>, rule: u32, pack: Pack, causes: &[u32]) -> Edge {
    Edge { says: says.into(), rule, pack, causes: causes.to_vec() }
}

/// The worked example's field type, and these PGNs in a tree.
fn in_tree(tree: usize, pgns: Vec<Pgn>) -> Pack {
    let mut pack = Pack { fieldtypes: worked_example().fieldtypes, ..Pack::default() };
    pack.trees[tree] = pgns;
    pack
}

/// A PGN of type Single.
fn pgn(number: u32, id: &str, fields: Vec<Field>) -> Pgn {
    Pgn { pgn: number, id: id.into(), length: 8, fields, ..Pgn::default() }
}

fn of_fields(fields: Vec<Field>) -> Pack {
    in_tree(0, vec![pgn(127488, "a", fields)])
}

fn field(id: impl Into<Text>, bits: u32) -> Field {
    Field {
        id: id.into(),
        name: b"A".to_vec(),
        type_: b"NUMBER".to_vec(),
        res_bits: bits,
        res_resolution: Float::of(1.0),
        ..Field::default()
    }
}

fn special(bits: u32, value: u32) -> Pack {
    of_fields(vec![Field { special_values: Some(value), ..field("a", bits) }])
}

fn matching(id: &str, bits: u32, text: &str) -> Field {
    Field { match_: Some(text.into()), ..field(id, bits) }
}

fn matched(bits: u32, text: &str) -> Pack {
    of_fields(vec![matching("a", bits, text)])
}

/// A match that names an entry of that value.
fn named(bits: u32, value: u64) -> Pack {
    let reference = Some((Kind::Pair, b"ANY".to_vec()));
    let mut pack = of_fields(vec![Field { reference, ..matching("a", bits, "x") }]);
    let entries = vec![Entry { value, name: b"x".to_vec(), ..Entry::default() }];
    pack.lookups = vec![Lookup { name: b"ANY".to_vec(), kind: Kind::Pair, bits, entries }];
    pack
}

/// Two fields of one SPN that differ in width.
fn twice(spn: u32) -> Pack {
    let of_width = |id: &str, bits| Field { spn: Some(spn), ..field(id, bits) };
    in_tree(1, vec![pgn(65262, "a", vec![of_width("a", 8), of_width("b", 16)])])
}

fn edges() -> Vec<Edge> {
    let single = |number| in_tree(0, vec![pgn(number, "a", vec![])]);
    let fields = |count: u32| of_fields((0..count).map(|i| field(format!("f{i}"), 1)).collect());
    let two_matches = pgn(127488, "a", vec![matching("a", 8, "1"), matching("b", 8, "2")]);
    let colliding = in_tree(0, vec![two_matches, pgn(127488, "b", vec![matching("a", 8, "1,1=2")])]);
    let mut list = vec![
        edge("59904 silent", 2, single(59904), &[]),
        edge("59905 cause 5", 2, single(59905), &[5]),
        edge("61183 cause 4", 2, single(61183), &[4]),
        edge("131072 cause 3", 2, single(131072), &[3]),
        edge("262144 silent", 2, single(262144), &[]),
        edge("1 bit takes 1", 9, special(1, 1), &[]),
        edge("1 bit takes not 2", 9, special(1, 2), &[1]),
        edge("0 bits takes 0", 9, special(0, 0), &[]),
        edge("3 bits take 7", 13, matched(3, "7"), &[]),
        edge("3 bits take not 8", 13, matched(3, "8"), &[2]),
        edge("\"+5\" resolves", 13, matched(8, "+5"), &[]),
        edge("\"-0\" does not", 13, matched(8, "-0"), &[1]),
        edge("33 silent", 11, fields(33), &[]),
        edge("34 found", 11, fields(34), &[1]),
        edge("524287 recorded", 42, twice(524287), &[3]),
        edge("524288 found only", 42, twice(524288), &[2, 2]),
        edge("\"1,1=2\" on field 0 duplicates \"1\", \"2\" on 0, 1", 20, colliding, &[1]),
    ];
    for value in [0, 1, 2, 1 << 32, 1 << 63, u64::MAX] {
        let only_0: &[u32] = if value == 0 { &[] } else { &[2] };
        list.push(edge(format!("64 bits take all: {value}"), 13, matched(64, &value.to_string()), &[]));
        list.push(edge(format!("64 bits take all: {value}, by name"), 13, named(64, value), &[]));
        list.push(edge(format!("0 bits only 0: {value}"), 13, matched(0, &value.to_string()), only_0));
        list.push(edge(format!("0 bits only 0: {value}, by name"), 13, named(0, value), only_0));
    }
    list
}

fn causes(findings: &[Finding], rule: u32) -> Vec<u32> {
    findings.iter().filter(|finding| finding.rule == rule).map(|finding| finding.cause).collect()
}

#[test]
fn over_the_library() {
    if !library::PRESENT {
        println!("skipped, no library is linked (SARWYMP_LIB names its folder)");
        return;
    }
    for edge in edges() {
        let findings = library::findings(&edge.pack).unwrap();
        assert_eq!(causes(&findings, edge.rule), edge.causes, "R{:02}: {}", edge.rule, edge.says);
    }
}

#[test]
fn over_the_harness() {
    for edge in edges() {
        let findings = rules::check(&edge.pack);
        assert_eq!(causes(&findings, edge.rule), edge.causes, "R{:02}: {}", edge.rule, edge.says);
    }
}
