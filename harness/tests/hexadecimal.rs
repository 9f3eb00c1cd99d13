//! Matches in hexadecimal at their edges, spelt out: R13, the walk's stop 4 and R20, over the library, where it is
//! linked, and over the harness's own rules and walks. The oracle knows no such numbers.

use harness::encode::encode;
use harness::finding::Finding;
use harness::quick_walk::quick_walk;
use harness::report::worked_example;
use harness::value::*;
use harness::walk::{End, held, walk};
use harness::{library, rules};

#[derive(Clone, Copy, PartialEq, Debug)]
enum Due {
    Fits,
    TooLarge,
    NotResolved,
}

use Due::*;

/// A field with a match, and maybe a reference to a lookup of one entry.
#[derive(Debug)]
struct Edge {
    bits: u32,
    text: Text,
    entry: Option<(Kind, Text, u64)>,
    due: Due,
}

fn alone(bits: u32, text: impl Into<Text>, due: Due) -> Edge {
    Edge { bits, text: text.into(), entry: None, due }
}

fn beside(bits: u32, text: &str, (kind, name, value): (Kind, &str, u64), due: Due) -> Edge {
    Edge { entry: Some((kind, name.into(), value)), ..alone(bits, text, due) }
}

/// Numerals with the bits that just take them.
const NUMERALS: [(&str, u32); 22] = [
    ("0x1F", 5),
    ("0x1f", 5),
    ("0X1F", 5),
    ("0X1f", 5),
    ("0xaB", 8),
    ("0XAb", 8),
    ("0x0", 0),
    ("0X00", 0),
    ("0x1", 1),
    ("0x01", 1),
    ("0x10", 5),
    ("0x9", 4),
    ("0x001F", 5),
    ("0x00000000FfFfFfFf", 32),
    ("0x100000000", 33),
    ("0x0000000000000000", 0),
    ("0X000000000000001f", 5),
    ("0x7FFFFFFFFFFFFFFF", 63),
    ("0x8000000000000000", 64),
    ("0xFFFFFFFFFFFFFFFF", 64),
    ("0Xffffffffffffffff", 64),
    ("0xFEDCBA9876543210", 64),
];

/// Texts that can only be names.
const NAMES: [&str; 25] = [
    "0x",
    "0X",
    "0xG1",
    "0X1G",
    "0x1g",
    "0x 1",
    "0x1 ",
    "0x_1",
    "0x1_F",
    "0x+1",
    "0x-1",
    "0x0x1",
    "+0x1F",
    "+0X1F",
    "-0x1",
    " 0x1",
    "x1F",
    "1x0",
    "00x1",
    "1F",
    "0x10000000000000000",
    "0xFFFFFFFFFFFFFFFFF",
    "0x00000000000000001",
    "0X0000000000000001F",
    "0x000000000000000000000000000000000",
];

fn of_numerals(list: &mut Vec<Edge>) {
    for (text, bits) in NUMERALS {
        for more in [bits, bits + 1, 64, 65, u32::MAX] {
            list.push(alone(more, text, Fits));
        }
        if bits > 0 {
            list.push(alone(bits - 1, text, TooLarge));
            list.push(alone(0, text, TooLarge));
        }
    }
    // the number counts, not the entry of that name
    for kind in Kind::ALL {
        for (bits, due) in [(1, TooLarge), (4, TooLarge), (5, Fits)] {
            list.push(beside(bits, "0x1F", (kind, "0x1F", 1), due));
            list.push(beside(bits, "0x1F", (kind, "x", 1), due));
        }
        for bits in [1, 4, 5] {
            list.push(beside(bits, "0x1", (kind, "0x1", 31), Fits));
            list.push(beside(bits, "1", (kind, "1", 31), Fits));
        }
        list.push(beside(0, "0x1", (kind, "0x1", 0), TooLarge));
        list.push(beside(64, "0xFFFFFFFFFFFFFFFF", (kind, "0xFFFFFFFFFFFFFFFF", 0), Fits));
        list.push(beside(63, "0xFFFFFFFFFFFFFFFF", (kind, "0xFFFFFFFFFFFFFFFF", 0), TooLarge));
    }
}

fn of_names(list: &mut Vec<Edge>) {
    for text in NAMES {
        list.push(alone(64, text, NotResolved));
        for kind in Kind::ALL {
            list.push(beside(64, text, (kind, "x", 1), NotResolved));
            for (bits, due) in [(5, Fits), (4, TooLarge)] {
                // names of triplets are not searched
                let due = if kind == Kind::Triplet { NotResolved } else { due };
                list.push(beside(bits, text, (kind, text, 31), due));
            }
        }
    }
    // names are compared byte for byte
    for (text, name) in [("0x", "0X"), ("0xG1", "0xg1"), ("+0x1F", "0x1F"), ("+0x1F", "+0x1f")] {
        list.push(beside(64, text, (Kind::Pair, name, 1), NotResolved));
    }
}

/// Every byte at each place, at a width that takes any number.
fn of_bytes(list: &mut Vec<Edge>) {
    for byte in 0..=255u8 {
        let digit = byte.is_ascii_hexdigit();
        let shapes: [(&[u8], &[u8], bool); 7] = [
            (b"0x", b"", digit),
            (b"0X1", b"", digit),
            (b"0x", b"1", digit),
            (b"0x000000000000000", b"", digit),
            (b"", b"x1", byte == b'0'),
            (b"0", b"1", byte.is_ascii_digit() || matches!(byte, b'x' | b'X')),
            (b"", b"0x1", false),
        ];
        for (before, behind, resolves) in shapes {
            let due = if resolves { Fits } else { NotResolved };
            list.push(alone(64, [before, &[byte], behind].concat(), due));
        }
    }
}

/// Each number of digits, and each digit at each place with the bits that just take it.
fn of_digits(list: &mut Vec<Edge>) {
    for digits in 0..=40 {
        let due = if (1..=16).contains(&digits) { Fits } else { NotResolved };
        for text in [format!("0x{}", "0".repeat(digits)), format!("0X{}", "F".repeat(digits))] {
            list.push(alone(64, text, due));
        }
    }
    for place in 0..16 {
        for (digit, value) in "123456789abcdefABCDEF".chars().zip((1u32..=15).chain(10..=15)) {
            let bits = 4 * place as u32 + 32 - value.leading_zeros();
            let behind = "0".repeat(place);
            for before in [String::new(), "0".repeat(15 - place)] {
                let text = format!("0x{before}{digit}{behind}");
                list.extend([alone(bits, text.clone(), Fits), alone(bits - 1, text, TooLarge)]);
            }
        }
    }
}

fn edges() -> Vec<Edge> {
    let mut list = Vec::new();
    of_numerals(&mut list);
    of_names(&mut list);
    of_bytes(&mut list);
    of_digits(&mut list);
    list
}

/// PGNs of one number with these fields.
fn pack_of(variants: Vec<Vec<Field>>) -> Pack {
    let mut pack = Pack { fieldtypes: worked_example().fieldtypes, ..Pack::default() };
    let pgn = |(i, fields)| Pgn { pgn: 127488, id: format!("v{i}").into(), length: 8, fields, ..Pgn::default() };
    pack.trees[0] = variants.into_iter().enumerate().map(pgn).collect();
    pack
}

fn matching(bits: u32, text: impl Into<Text>) -> Field {
    Field {
        id: b"a".to_vec(),
        name: b"A".to_vec(),
        type_: b"NUMBER".to_vec(),
        res_bits: bits,
        res_resolution: Float::of(1.0),
        match_: Some(text.into()),
        ..Field::default()
    }
}

fn pack(edge: &Edge) -> Pack {
    let mut field = matching(edge.bits, edge.text.clone());
    let mut lookups = Vec::new();
    if let Some((kind, name, value)) = &edge.entry {
        field.reference = Some((*kind, b"L".to_vec()));
        let fieldtype = if *kind == Kind::Fieldtype { b"NUMBER".to_vec() } else { Text::new() };
        let entry = Entry { value: *value, name: name.clone(), fieldtype, ..Entry::default() };
        lookups.push(Lookup { name: b"L".to_vec(), kind: *kind, bits: edge.bits, entries: vec![entry] });
    }
    Pack { lookups, ..pack_of(vec![vec![field]]) }
}

fn causes(findings: &[Finding], rule: u32) -> Vec<u32> {
    findings.iter().filter(|finding| finding.rule == rule).map(|finding| finding.cause).collect()
}

/// R13's causes, and how the walk with one reading ends after how many visits; the reading is no entry's.
type Judged = (Vec<u32>, End, usize);

fn due(edge: &Edge) -> Judged {
    match edge.due {
        Fits => (vec![], End::Whole, 1),
        TooLarge => (vec![2], End::Stop(4), 0),
        NotResolved => (vec![1], End::Stop(4), 0),
    }
}

const READING: [u64; 1] = [77];

fn by_the_harness(pack: &Pack) -> Judged {
    let pgn = &pack.trees[0][0];
    let walked = walk(pack, pgn, &READING);
    assert_eq!(quick_walk(pack, pgn, &READING, &mut [0]), (walked.end, walked.visits.len()));
    assert!(held(pack, pgn));
    (causes(&rules::check(pack), 13), walked.end, walked.visits.len())
}

fn by_the_library(pack: &Pack) -> Judged {
    let encoded = encode(pack);
    let mut work = vec![0; encoded.records.len()];
    let (number, [end, visits]) =
        library::walk(&encoded.bytes, &mut work, 0, 0, &READING, &mut [0]).expect("the library");
    assert_eq!(number, 0);
    assert_eq!(library::held(&encoded.bytes, &mut work, 0, 0), Some((0, [1])));
    (causes(&library::findings(pack).expect("the library"), 13), End::of_number(end), visits as usize)
}

fn judge_all(judge: fn(&Pack) -> Judged) {
    let edges = edges();
    let wrong: Vec<&Edge> = edges.iter().filter(|edge| judge(&pack(edge)) != due(edge)).collect();
    let shown = &wrong[..wrong.len().min(10)];
    assert!(wrong.is_empty(), "{} of {} edges are judged otherwise, the first {shown:#?}", wrong.len(), edges.len());
}

#[test]
fn over_the_harness() {
    judge_all(by_the_harness);
}

#[test]
fn over_the_library() {
    if !library::PRESENT {
        println!("skipped, no library is linked (SARWYMP_LIB names its folder)");
        return;
    }
    judge_all(by_the_library);
}

/// What each side that is there finds.
fn found(pack: &Pack, rule: u32) -> Vec<u32> {
    let ours = rules::check(pack);
    if let Some(theirs) = library::findings(pack) {
        assert_eq!(theirs, ours);
    }
    causes(&ours, rule)
}

/// R20 goes by the texts: one number spelt in two ways is no duplicate.
#[test]
fn variants_go_by_the_texts() {
    let two = |one: &str, other: &str| found(&pack_of(vec![vec![matching(8, one)], vec![matching(8, other)]]), 20);
    for text in ["0x1", "0X1F", "0x", "+0x1F"] {
        assert_eq!(two(text, text), [1], "{text}");
    }
    for (one, other) in [("0x1", "1"), ("1", "0x1"), ("0x1", "0X1"), ("0x1", "0x01"), ("0x1f", "0x1F"), ("0x", "0X")] {
        assert_eq!(two(one, other), [], "{one} and {other}");
    }
}

/// A numeral resolves without its lookup; that the lookup is missing is R08's, and the walk's stop 3.
#[test]
fn missing_lookup() {
    for (text, causes) in [("0x1F", vec![]), ("0x", vec![1])] {
        let reference = Some((Kind::Pair, b"NONE".to_vec()));
        let pack = pack_of(vec![vec![Field { reference, ..matching(5, text) }]]);
        assert_eq!((found(&pack, 8), found(&pack, 13)), (vec![1], causes), "{text}");
        assert_eq!(by_the_harness(&pack).1, End::Stop(3));
        if library::PRESENT {
            assert_eq!(by_the_library(&pack).1, End::Stop(3));
        }
    }
}

/// A match decides whether a pack goes to the oracle, a name or an id does not.
#[test]
fn packs_with_hexadecimal_matches() {
    let with = |text: &str| pack(&beside(8, text, (Kind::Pair, "0x1F", 1), Fits)).has_hexadecimal_match();
    assert!(["0x", "0X", "0x1F", "0X1f", "0xG1", "0x is no number", "0x00000000000000001"].into_iter().all(with));
    assert!(!["", "0", "x1F", "+0x1F", " 0x1F", "00x1", "1F"].into_iter().any(with));
    let mut pack = pack(&beside(8, "1", (Kind::Pair, "0x1F", 1), Fits));
    pack.trees[0][0].id = b"0x1F".to_vec();
    pack.trees[0][0].fields[0].id = b"0x1F".to_vec();
    assert!(!pack.has_hexadecimal_match());
    let field = matching(8, "0x1F");
    pack.trees[2] = pack_of(vec![vec![Field { match_: None, ..field.clone() }, field]]).trees[0].clone();
    assert!(pack.has_hexadecimal_match());
}
