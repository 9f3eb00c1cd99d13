//! What a silent R42 says, at its edges, spelt out: over the library, where it is linked, over the harness's own rules, and
//! by the comparison of every two. The oracle, where it is there, finds what the rules find.

use harness::finding::{Finding, PGN};
use harness::spns::every_two_alike;
use harness::text::to_pack;
use harness::value::Pack;
use harness::words::words;
use harness::{library, oracle, rules};

struct Edge {
    says: &'static str,
    pack: Pack,
    /// of R42's findings
    causes: Vec<u32>,
}

fn edge(says: &'static str, pack: Pack, causes: &[u32]) -> Edge {
    Edge { says, pack, causes: causes.to_vec() }
}

/// J1939 PGNs by what their fields say; unsaid, a field has 8 bits, the resolution 1, the offset 0 and no unit.
fn j1939(pgns: &[&[&str]]) -> Pack {
    let mut text = String::from("lookupsAsWritten\ntype NUMBER prints\ntree j1939\n");
    for (item, fields) in pgns.iter().enumerate() {
        text += &format!("pgn {} a ISO\n", 65262 + item);
        for (i, says) in fields.iter().enumerate() {
            text += &format!("field f{i} F{i} NUMBER bits 8 {says}\n");
        }
    }
    to_pack(&text).unwrap()
}

/// A J1939 PGN, and one in another tree.
fn beside(fields: &[&str], tree: usize, others: &[&str]) -> Pack {
    let mut pack = j1939(&[fields]);
    pack.trees[tree] = j1939(&[others]).trees[1].clone();
    pack
}

fn edges() -> Vec<Edge> {
    let nan = "spn 1 resolution 0x7ff8000000000000";
    let nan_offset = "spn 1 offset 0x7ff8000000000000";
    let scaled = "spn 1 bits 16 resolution 0.05 offset -40 unit h";
    vec![
        edge("a lone NaN", j1939(&[&[nan]]), &[]),
        edge("a lone NaN as offset", j1939(&[&[nan_offset]]), &[]),
        edge("a NaN for each of two SPNs", j1939(&[&[nan, "spn 2 resolution 0x7ff8000000000000"]]), &[]),
        edge("a NaN twice", j1939(&[&[nan, nan]]), &[3]),
        edge("a NaN in two PGNs", j1939(&[&[nan], &[nan]]), &[3]),
        edge("a NaN three times", j1939(&[&[nan, nan, nan]]), &[3, 3]),
        edge("a NaN as offset twice", j1939(&[&[nan_offset, nan_offset]]), &[3]),
        edge("a NaN and a negative one", j1939(&[&[nan, "spn 1 resolution 0xfff8000000000000"]]), &[3]),
        edge("a NaN and a number", j1939(&[&[nan, "spn 1"]]), &[3]),
        edge("0 and -0", j1939(&[&["spn 1 resolution 0", "spn 1 resolution -0"]]), &[]),
        edge("0 and -0 as offset", j1939(&[&["spn 1 offset 0", "spn 1 offset -0"]]), &[]),
        edge("an infinity twice", j1939(&[&["spn 1 resolution inf", "spn 1 resolution inf"]]), &[]),
        edge("two infinities", j1939(&[&["spn 1 resolution inf", "spn 1 resolution -inf"]]), &[3]),
        edge("two widths", j1939(&[&["spn 1", "spn 1 bits 16"]]), &[3]),
        edge("two resolutions", j1939(&[&["spn 1", "spn 1 resolution 0.05"]]), &[3]),
        edge("two offsets", j1939(&[&["spn 1", "spn 1 offset -40"]]), &[3]),
        edge("two units", j1939(&[&["spn 1 unit h", "spn 1 unit H"]]), &[3]),
        edge("no unit and an empty one", j1939(&[&["spn 1", r#"spn 1 unit """#]]), &[3]),
        edge("no unit twice", j1939(&[&["spn 1", "spn 1"]]), &[]),
        edge("an empty unit twice", j1939(&[&[r#"spn 1 unit """#, r#"spn 1 unit """#]]), &[]),
        edge("alike in one PGN", j1939(&[&[scaled, scaled]]), &[]),
        edge("alike in two PGNs", j1939(&[&[scaled], &[scaled]]), &[]),
        edge("two widths in two PGNs", j1939(&[&["spn 1"], &["spn 1 bits 16"]]), &[3]),
        edge("the first of three is odd", j1939(&[&["spn 1 bits 16", "spn 1", "spn 1"]]), &[3, 3]),
        edge("the third of three is odd", j1939(&[&["spn 1", "spn 1", "spn 1 bits 16"]]), &[3]),
        edge("524287, two widths", j1939(&[&["spn 524287", "spn 524287 bits 16"]]), &[3]),
        edge("524288, two widths", j1939(&[&["spn 524288", "spn 524288 bits 16"]]), &[2, 2]),
        edge("SPN 0, two widths", j1939(&[&["spn 0", "spn 0 bits 16"]]), &[3]),
        edge("two widths after another SPN", j1939(&[&["spn 2", "spn 1", "spn 1 bits 16"]]), &[3]),
        edge("two SPNs, two widths", j1939(&[&["spn 1", "spn 2 bits 16"]]), &[]),
        edge("no SPN, two widths", j1939(&[&["", "bits 16"]]), &[]),
        edge("two authored resolutions", j1939(&[&["spn 1", "spn 1 resolution 2 resResolution 1"]]), &[]),
        edge("two authored offsets", j1939(&[&["spn 1", "spn 1 offset 2 resOffset 0"]]), &[]),
        edge("16 bits, and 8 that are continued by 8", j1939(&[&["spn 1 bits 16", "spn 1 continuation 8"]]), &[3]),
        edge("8 bits, continued or not", j1939(&[&["spn 1", "spn 1 continuation 8"]]), &[]),
        edge("another width in tree 0", beside(&["spn 1"], 0, &["spn 1 bits 16"]), &[1]),
        edge("another width in tree 2", beside(&["spn 1"], 2, &["spn 1 bits 16"]), &[1]),
        edge("a NaN here and in tree 0", beside(&[nan], 0, &[nan]), &[1]),
    ]
}

fn causes(findings: &[Finding]) -> Vec<u32> {
    findings.iter().filter(|finding| finding.rule == 42).map(|finding| finding.cause).collect()
}

#[test]
fn over_the_library() {
    if !library::PRESENT {
        println!("skipped, no library is linked (SARWYMP_LIB names its folder)");
        return;
    }
    for Edge { says, pack, causes: due } in edges() {
        assert_eq!(causes(&library::findings(&pack).unwrap()), due, "{says}");
    }
}

#[test]
fn over_the_harness() {
    for Edge { says, pack, causes: due } in edges() {
        assert_eq!(causes(&rules::check(&pack)), due, "{says}");
    }
}

#[test]
fn over_the_oracle() {
    if !oracle::PRESENT {
        println!("skipped, its files were not there at build time (KEEL_SRC names their folder)");
        return;
    }
    for Edge { says, pack, .. } in edges() {
        let ours = rules::check(&pack).iter().map(|finding| words(&pack, finding)).collect();
        assert_eq!(oracle::violations(&pack), Some(ours), "{says}");
    }
}

#[test]
fn by_every_two() {
    for Edge { says, pack, causes } in edges() {
        assert_eq!(every_two_alike(&pack), !causes.contains(&3), "{says}");
    }
}

/// A finding stands at the later field, and names the PGN of the first.
#[test]
fn where_they_stand() {
    let nan = "spn 1 resolution 0x7ff8000000000000";
    let pack = j1939(&[&["spn 2"], &["spn 2", nan], &["", nan, nan], &["spn 1"]]);
    let at = |item, part| Finding { rule: 42, severity: 1, cause: 3, place: PGN, tree: 1, item, part, other: 1 };
    let due = [at(2, 1), at(2, 2), at(3, 0)];
    for findings in [Some(rules::check(&pack)), library::findings(&pack)].into_iter().flatten() {
        let found: Vec<Finding> = findings.into_iter().filter(|finding| finding.rule == 42).collect();
        assert_eq!(found, due);
    }
}
