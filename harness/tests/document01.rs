//! Document 01's worked example, its refusals and its errors to shut out, run over the independent reader and rules, and
//! where findings are compared over the library too. Its edges are in edges.rs.

use harness::encode::{encode, number};
use harness::finding::Finding;
use harness::reader::{LIMIT, Refusal, read};
use harness::report::{report, worked_example};
use harness::rules::check;
use harness::value::*;
use harness::words::words;
use harness::{calls, library};

/// The findings of a pack. The library, where it is linked, has the same.
fn findings(pack: &Pack) -> Vec<Finding> {
    let ours = check(pack);
    if let Some(theirs) = library::findings(pack) {
        assert_eq!(theirs, ours);
    }
    ours
}

/// The causes of one rule's findings.
fn causes(pack: &Pack, rule: u32) -> Vec<u32> {
    findings(pack).iter().filter(|finding| finding.rule == rule).map(|finding| finding.cause).collect()
}

/// The worked example's pack with what is wrong in it put right.
fn clean() -> Pack {
    let mut pack = worked_example();
    pack.trees[0][0].sets = [None, None];
    pack.trees[0][0].fields[0].id = b"reserved".to_vec();
    assert!(check(&pack).is_empty());
    pack
}

fn pgn(pack: &mut Pack) -> &mut Pgn {
    &mut pack.trees[0][0]
}

/// A field that no rule minds.
fn field(id: &str, bits: u32) -> Field {
    Field {
        id: id.into(),
        name: format!("Name of {id}").into(),
        type_: b"NUMBER".to_vec(),
        res_bits: bits,
        res_resolution: Float::of(1.0),
        ..Field::default()
    }
}

fn text(s: &str) -> Option<Text> {
    Some(s.into())
}

#[test]
fn worked_example_is_reported_as_printed() {
    let expected = "R05 error pgns/127488-a.yaml 2 1 0\nR12 error pgns/127488-a.yaml 1 0 0\nfindings 2 errors 2\n";
    assert_eq!(String::from_utf8(report(&encode(&worked_example()).bytes)).unwrap(), expected);
}

#[test]
fn worked_example_in_bytes() {
    let bytes = encode(&worked_example()).bytes;
    let mut expected = vec![1, 1, 6];
    expected.extend(b"NUMBER");
    expected.extend([2, 0]);
    expected.extend([0; 8]);
    expected.push(6);
    expected.extend(b"NUMBER");
    expected.extend([0, 1, 0x80, 0xe4, 0x07, 1, b'a', 0, 0, 8, 0, 1, 2, 1, 0, 0, 0, 1]);
    expected.extend(b"\x01r\x08Reserved\x06NUMBER");
    expected.extend([0, 0, 64]);
    expected.extend([0; 16]);
    expected.extend([0; 11]);
    expected.extend([0, 0]);
    assert_eq!(bytes, expected);
    assert_eq!(read(&bytes).unwrap().records, [2, 28, 44]);
}

#[test]
fn numbers_are_seven_bit_groups() {
    assert_eq!(number(127488), [0x80, 0xe4, 0x07]);
    assert_eq!(number(0), [0]);
}

fn refusal(bytes: &[u8]) -> Option<(u32, u64)> {
    read(bytes).err().map(|refusal| (refusal.number, refusal.detail))
}

#[test]
fn refusals_of_short_packs() {
    assert_eq!(refusal(b""), Some((1, 0)));
    assert_eq!(refusal(b"\x01\x00\x00\x00\x00\x00"), None);
    assert_eq!(refusal(b"\x01\x00\x00\x00\x00"), Some((1, 5)));
    assert_eq!(refusal(b"\x01\x00\x00\x00\x00\x00\x00"), Some((8, 6)));
    // inside an item, whatever its groups say
    assert_eq!(refusal(b"\x80\x80\x80\x80\x80\x80\x80\x80\x80\x80\x80\x80"), Some((1, 0)));
    // not shortest, too large, the version only then
    assert_eq!(refusal(b"\x81\x00"), Some((2, 0)));
    assert_eq!(refusal(b"\x80\x80\x80\x80\x10"), Some((2, 0)));
    assert_eq!(refusal(b"\x80\x80\x80\x80\x80\x80\x80\x80\x80\x80\x80\x01"), Some((2, 0)));
    assert_eq!(refusal(b"\xff\xff\xff\xff\x0f"), Some((3, 0)));
    assert_eq!(refusal(b"\x00"), Some((3, 0)));
    // a text's length before its bytes: too large is 2 though the bytes run out too
    assert_eq!(refusal(b"\x01\x01\x80\x80\x80\x80\x10"), Some((2, 2)));
    assert_eq!(refusal(b"\x01\x01\x05abcd"), Some((1, 2)));
    // flags are a number first
    assert_eq!(refusal(b"\x01\x01\x00\x08"), Some((4, 3)));
    assert_eq!(refusal(b"\x01\x01\x00\x80\x80\x80\x80\x10"), Some((2, 3)));
    // a float cut
    assert_eq!(refusal(b"\x01\x01\x00\x00\x00\x00\x00"), Some((1, 5)));
}

#[test]
fn lookup_names_rise() {
    let pack = |names: [&str; 2]| {
        let lookup = |name: &str| Lookup { name: name.into(), ..Lookup::default() };
        encode(&Pack { lookups: names.map(lookup).to_vec(), ..Pack::default() }).bytes
    };
    assert_eq!(refusal(&pack(["A", "B"])), None);
    assert_eq!(refusal(&pack(["", "A"])), None);
    assert_eq!(refusal(&pack(["A", "AB"])), None);
    assert_eq!(refusal(&pack(["z", "ä"])), None);
    for names in [["A", "A"], ["B", "A"], ["AB", "A"], ["ä", "z"], ["", ""]] {
        let at = 3 + 1 + names[0].len() as u64 + 3;
        assert_eq!(refusal(&pack(names)), Some((5, at)), "{names:?}");
    }
}

fn set(count: u32, start: u32) -> Option<Repeating> {
    Some(Repeating { count, start, ..Repeating::default() })
}

#[test]
fn sums_at_and_past_32_bits() {
    let number_of = |change: fn(&mut Pgn)| {
        let mut pack = clean();
        pgn(&mut pack).fields = vec![field("a", 1), field("b", 2)];
        change(pgn(&mut pack));
        read(&encode(&pack).bytes).err().map(|refusal| refusal.number)
    };
    assert_eq!(number_of(|pgn| pgn.min_length = Some(536_870_911)), None);
    assert_eq!(number_of(|pgn| pgn.min_length = Some(536_870_912)), Some(7));
    assert_eq!(number_of(|pgn| pgn.sets[1] = set(1, u32::MAX - 1)), None);
    assert_eq!(number_of(|pgn| pgn.sets[1] = set(1, u32::MAX)), Some(7));
    assert_eq!(number_of(|pgn| pgn.fields[1].res_bits = u32::MAX - 1), None);
    assert_eq!(number_of(|pgn| pgn.fields[1].res_bits = u32::MAX), Some(7));
    assert_eq!(number_of(|pgn| pgn.fields[1].continuation = Some(u32::MAX - 2)), None);
    assert_eq!(number_of(|pgn| pgn.fields[1].continuation = Some(u32::MAX - 1)), Some(7));
}

#[test]
fn pack_of_the_largest_size() {
    let mut pack = Pack { fieldtypes: clean().fieldtypes, ..Pack::default() };
    harness::generate::pad(&mut pack, LIMIT);
    let mut bytes = encode(&pack).bytes;
    assert_eq!((bytes.len(), refusal(&bytes)), (LIMIT, None));
    bytes.push(0);
    assert_eq!(refusal(&bytes), Some((9, 0)));
    // 9 comes before everything
    bytes[0] = 0;
    assert_eq!(refusal(&bytes), Some((9, 0)));
}

#[test]
fn state_refusals_and_buffers() {
    let bytes = encode(&worked_example()).bytes;
    fn refused<T>(number: u32, detail: u64) -> Result<T, Refusal> {
        Err(Refusal { number, detail })
    }
    let mut work = [7; 2];
    assert_eq!(calls::load(&bytes, &mut work), refused(21, 3));
    assert_eq!(work, [7; 2]);
    let mut work = [7; 5];
    let mut findings = [7; 15];
    assert_eq!(calls::check(&bytes, &mut work, &mut findings), refused(22, 16));
    assert_eq!((work, findings), ([2, 28, 44, 7, 7], [7; 15]));
    let mut findings = [7; 17];
    assert_eq!(calls::check(&bytes, &mut work, &mut findings), Ok([2, 2]));
    assert_eq!(findings, [5, 1, 2, 1, 0, 0, 1, 0, 12, 1, 1, 1, 0, 0, 0, 0, 7]);
    let place = |place, tree, item, length: usize| {
        let mut text = vec![b'#'; length];
        calls::place_text(&bytes, &mut [0; 3], place, tree, item, &mut text).map(|[n]| text[..n as usize].to_vec())
    };
    assert_eq!(place(1, 0, 0, 18), Ok(b"pgns/127488-a.yaml".to_vec()));
    assert_eq!(place(1, 0, 0, 17), refused(24, 18));
    assert_eq!(place(1, 0, 1, 99), refused(23, 0));
    assert_eq!(place(1, 1, 0, 99), refused(23, 0));
    assert_eq!(place(0, 0, 0, 99), Ok(b"fieldtypes.yaml".to_vec()));
    assert_eq!(place(0, 1, 0, 99), refused(23, 0));
    assert_eq!(place(2, 0, 0, 99), refused(23, 0));
    assert_eq!(place(3, 0, 127488, 99), Ok(b"pgns/127488-*.yaml".to_vec()));
    assert_eq!(place(3, 0, 0, 99), refused(23, 0));
    assert_eq!(place(4, 0, 0, 99), refused(23, 0));
    assert_eq!(place(1, 3, 0, 99), refused(23, 0));
    let walk =
        |tree, item, visits: usize| calls::walk_pgn(&bytes, &mut [0; 3], tree, item, &[1, 2], &mut vec![0; visits]);
    assert_eq!(walk(0, 1, 0), refused(23, 0));
    assert_eq!(walk(0, 0, 1), refused(25, 2));
    assert_eq!(walk(0, 0, 2), Ok([1, 0]));
}

#[test]
fn special_values_of_other_widths() {
    let of = |bits, special| {
        let mut pack = clean();
        pgn(&mut pack).fields = vec![Field { special_values: Some(special), ..field("a", bits) }];
        causes(&pack, 9)
    };
    assert_eq!(of(0, 1), [1]);
    assert_eq!(of(2, 3), []);
    assert_eq!(of(64, 4), [1]);
}

#[test]
fn matches_that_do_not_resolve() {
    for unresolved in ["18446744073709551616", "", "+", "++1", " 1", "1 ", "1F"] {
        let mut pack = clean();
        pgn(&mut pack).fields = vec![Field { match_: text(unresolved), ..field("a", 64) }];
        assert_eq!(causes(&pack, 13), [1], "{unresolved:?}");
    }
}

/// J1939 fields of one PGN.
fn with_spns(fields: Vec<Field>) -> Pack {
    let mut pack = clean();
    pack.trees[1].push(Pgn { pgn: 61444, id: b"b".to_vec(), length: 8, fields, ..Pgn::default() });
    pack
}

#[test]
fn scaling_is_compared_as_floats() {
    let of = |one: f64, two: f64| {
        let field = |id, offset| Field { spn: Some(1), res_offset: Float::of(offset), ..field(id, 8) };
        causes(&with_spns(vec![field("a", one), field("b", two)]), 42)
    };
    assert_eq!(of(0.0, -0.0), []);
    assert_eq!(of(f64::NAN, f64::NAN), [3]);
    assert_eq!(of(1.0, 1.0), []);
    let alone = Field { spn: Some(1), res_offset: Float::of(f64::NAN), ..field("a", 8) };
    assert_eq!(causes(&with_spns(vec![alone]), 42), []);
}

/// PGNs of one number with these matches on their fields.
fn variants(matches: &[&[&str]]) -> Pack {
    let mut pack = clean();
    pack.trees[0] = matches
        .iter()
        .enumerate()
        .map(|(i, matches)| Pgn {
            pgn: 127488,
            id: format!("v{i}").into(),
            length: 8,
            fields: matches
                .iter()
                .enumerate()
                .map(|(i, matched)| Field { match_: text(matched), ..field(&format!("f{i}"), 64) })
                .collect(),
            ..Pgn::default()
        })
        .collect();
    pack
}

/// (cause, item, other) of a rule's findings.
fn found(pack: &Pack, rule: u32) -> Vec<(u32, u32, u32)> {
    let list = findings(pack).into_iter().filter(|finding| finding.rule == rule);
    list.map(|finding| (finding.cause, finding.item, finding.other)).collect()
}

#[test]
fn r20_joined_keys_collide() {
    assert_eq!(found(&variants(&[&["1", "2"], &["1,1=2"]]), 20), [(1, 1, 0)]);
    assert_eq!(found(&variants(&[&["1", "2"], &["1", "3"]]), 20), []);
}

#[test]
fn r20_and_r21_name_the_latest_earlier_holder() {
    assert_eq!(found(&variants(&[&["1"], &["1"], &["2"], &["1"]]), 20), [(1, 1, 0), (1, 3, 1)]);
    assert_eq!(found(&variants(&[&[], &[], &[]]), 20), [(2, 127488, 3)]);
    let mut pack = variants(&[&["1"], &["2"], &["3"]]);
    for pgn in &mut pack.trees[0] {
        pgn.id = b"same".to_vec();
    }
    assert_eq!(found(&pack, 21), [(1, 1, 0), (1, 2, 1)]);
}

#[test]
fn empty_set_with_start_0_counts_in_r44() {
    let mut pack = clean();
    let decimal = Field { type_: b"DECIMAL".to_vec(), trailing_zero: text("a"), ..field("b", 40) };
    pgn(&mut pack).fields = vec![field("a", 8), decimal];
    assert_eq!(causes(&pack, 44), []);
    pgn(&mut pack).sets[1] = Some(Repeating::default());
    assert_eq!((causes(&pack, 44), causes(&pack, 5)), (vec![3], vec![]));
}

#[test]
fn match_goes_by_the_references_kind() {
    let entry = Entry { value: 3, name: b"three".to_vec(), fieldtype: b"NUMBER".to_vec(), ..Entry::default() };
    let resolves = |lookup_kind, reference_kind| {
        let mut pack = clean();
        pack.lookups = vec![Lookup { name: b"L".to_vec(), kind: lookup_kind, bits: 8, entries: vec![entry.clone()] }];
        let reference = Some((reference_kind, b"L".to_vec()));
        pgn(&mut pack).fields = vec![Field { match_: text("three"), reference, ..field("a", 8) }];
        causes(&pack, 13).is_empty()
    };
    for lookup_kind in Kind::ALL {
        for reference_kind in Kind::ALL {
            let expected = match reference_kind {
                Kind::Fieldtype => lookup_kind == Kind::Fieldtype,
                _ => matches!(lookup_kind, Kind::Pair | Kind::Bit),
            };
            assert_eq!(resolves(lookup_kind, reference_kind), expected, "{lookup_kind:?} {reference_kind:?}");
        }
    }
}

#[test]
fn r24_spn_names_by_pgn_number() {
    let spn = |id: &str, name: &str, spn| Field { name: name.into(), spn: Some(spn), ..field(id, 8) };
    let pgn = |number, id: &str, fields| Pgn { pgn: number, id: id.into(), length: 8, fields, ..Pgn::default() };
    let clashes = |pack: &Pack| -> Vec<_> {
        findings(pack).into_iter().filter(|f| f.rule == 24).map(|f| (f.item, f.part, f.other)).collect()
    };
    let mut pack = clean();
    pack.trees[1] = vec![
        pgn(61445, "later", vec![spn("a", "Speed", 7)]),
        pgn(61444, "earlier", vec![spn("a", "Speed", 9), spn("b", "Other", 7)]),
    ];
    // SPN 7 is named by the lower number: no clash
    assert_eq!(found(&pack, 24), []);
    pack.trees[1][1].fields[1].spn = Some(8);
    assert_eq!(clashes(&pack), [(0, 7, 9), (1, 7, 9)]);
    // one place text, one finding: the earlier SPN's
    pack.trees[1][1].pgn = 61445;
    pack.trees[1][1].id = b"later".to_vec();
    assert_eq!(clashes(&pack), [(0, 7, 9)]);
}

#[test]
fn words_are_the_oracles() {
    if !harness::oracle::PRESENT {
        return;
    }
    let pack = worked_example();
    let ours: Vec<_> = check(&pack).iter().map(|finding| words(&pack, finding)).collect();
    assert_eq!(ours[0].message, "repeating set 1: fields 1..2 exceed the 1 defined fields");
    assert_eq!(Some(ours), harness::oracle::violations(&pack));
}
