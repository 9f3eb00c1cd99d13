//! The text form (docs/TEXT-FORM.md): it can say any pack, a faulty one too, and an error names its line.

use harness::calls;
use harness::encode::encode;
use harness::generate::{Generator, packs_of_sizes};
use harness::library;
use harness::reader::{LIMIT, Refusal, read};
use harness::report::{report, worked_example};
use harness::rng::Rng;
use harness::text::{from_pack, read as read_text, to_bytes, to_pack};
use harness::value::*;

const SAMPLE: &str = include_str!("../../samples/sample.txt");

/// What the library says of a text's bytes, and where it was not linked what the harness says.
fn loaded(text: &str) -> Result<[u64; 11], Refusal> {
    let bytes = to_bytes(text).unwrap();
    let mut work = vec![0; 1000];
    let answer = calls::load(&bytes, &mut work);
    if let Some(theirs) = library::load(&bytes, &mut work) {
        assert_eq!(theirs, library::as_numbers(answer), "{text}");
    }
    answer
}

fn refusal(text: &str) -> u32 {
    loaded(text).expect_err(text).number
}

fn error(text: &str) -> String {
    to_bytes(text).expect_err(text)
}

/// The pack of a text of one lookup of this name, written as a word.
fn lookup_name(word: &str) -> Text {
    to_pack(&format!("lookup {word} pair 8")).unwrap().lookups.remove(0).name
}

#[test]
fn the_worked_example_of_the_paper() {
    let text = "
type NUMBER prints
tree nmea2000
pgn 127488 a Single length 8
  set 1 start 1 count 2
  field r Reserved NUMBER resBits 64 resResolution 0
";
    let bytes = to_bytes(text).unwrap();
    assert_eq!(bytes, encode(&worked_example()).bytes);
    let printed = String::from_utf8(report(&bytes)).unwrap();
    let place = "pgns/127488-a.yaml";
    assert_eq!(printed, format!("R05 error {place} 2 1 0\nR12 error {place} 1 0 0\nfindings 2 errors 2\n"));
    // with what an author would write, too
    let text = text.replace("resBits 64 resResolution 0", "bits 64");
    assert_eq!(String::from_utf8(report(&to_bytes(&text).unwrap())).unwrap(), printed);
    // and without the length, which keel would not give
    let said = read_text(text.replace(" length 8", "").as_bytes()).unwrap();
    assert_eq!(said.notes, ["line 4: the sets have more fields than the PGN, its length is taken as 0"]);
    assert!(said.pack.trees[0][0].variable);
}

#[test]
fn any_bytes_in_a_text() {
    for (word, name) in [
        (r#""""#, &b""[..]),
        (r#""say \"aye\"""#, b"say \"aye\""),
        (r#""back\\slash""#, b"back\\slash"),
        (r#""\\x41""#, b"\\x41"),
        (r#""\x41\xff\x00\xC3""#, b"A\xff\0\xc3"),
        (r#""line\x0aend""#, b"line\nend"),
        ("\"é # no comment\"", "é # no comment".as_bytes()),
        // a word without quotes stands for itself
        (r"back\slash", b"back\\slash"),
        ("5\"", b"5\""),
        ("a#b", b"a#b"),
    ] {
        assert_eq!(lookup_name(word), name, "{word}");
        let pack = to_pack(&format!("lookup {word} pair 8")).unwrap();
        assert_eq!(to_pack(&from_pack(&pack)), Ok(pack), "{word}");
    }
    let every: Text = (0..=255).collect();
    let pack = Pack { lookups: vec![Lookup { name: every, ..Lookup::default() }], ..Pack::default() };
    assert_eq!(to_pack(&from_pack(&pack)), Ok(pack));
}

#[test]
fn any_float() {
    let resolution = |word: &str| to_pack(&format!("type A resolution {word}")).unwrap().fieldtypes[0].resolution.0;
    assert_eq!(resolution("0x7ff0000000000001"), 0x7ff0_0000_0000_0001);
    assert_eq!(resolution("0xFFF8000000000000"), 0xfff8_0000_0000_0000);
    assert_eq!(resolution("-0"), 1 << 63);
    assert_eq!(resolution("-inf"), f64::NEG_INFINITY.to_bits());
    assert_eq!(resolution("1e-7"), 1e-7f64.to_bits());
    for wrong in ["0x", "0x7ff", "0x+ff8000000000000", "0x7ff00000000000011", "one"] {
        assert_eq!(error(&format!("\ntype A resolution {wrong}")), format!("line 2: {wrong} is no float"));
    }
}

#[test]
fn a_faulty_pack_is_the_librarys_to_refuse() {
    let number = |lines: &str| refusal(&format!("type NUMBER prints\n{lines}"));
    assert_eq!(number("version 2"), 3);
    assert_eq!(number("version 4294967295"), 3);
    assert_eq!(number("lookup A pair 1\nlookup A pair 1"), 5);
    assert_eq!(number("lookupsAsWritten\nlookup B pair 1\nlookup A pair 1"), 5);
    assert_eq!(number("pgn 1 a Single\nfield f F NUMBER typeIndex 1"), 6);
    assert_eq!(number("pgn 1 a Single\nfield f F NONE typeIndex 4294967295"), 6);
    assert_eq!(number("pgn 1 a Single\nfield f F NUMBER bits 4294967295\nfield g G NUMBER bits 1"), 7);
    assert_eq!(number("pgn 1 a Single\nset 1 start 1 count 4294967295"), 7);
    assert_eq!(number("pgn 1 a Single minLength 536870912"), 7);
    assert_eq!(number("pgn 1 a Single\nfield f F NUMBER bits 2 continuation 4294967294"), 7);
    assert_eq!(number("tail \"\\x00\""), 8);
    let long = format!("type {}", "x".repeat(LIMIT));
    assert_eq!(refusal(&long), 9);
}

#[test]
fn what_the_sums_just_allow() {
    let text = "type NUMBER\npgn 1 a Single\nset 1 start 0 count 4294967295\nset 2 start 1 count 4294967294\n";
    let said = read_text(text.as_bytes()).unwrap();
    assert_eq!(said.pack.trees[0][0].length, 0);
    assert_eq!(said.notes.len(), 1);
    assert!(loaded(text).is_ok());
    let text = "type NUMBER\npgn 1 a Single\nfield f F NUMBER bits 4294967295\nfield g G NUMBER\n";
    let said = read_text(text.as_bytes()).unwrap();
    assert_eq!((said.pack.trees[0][0].length, said.pack.trees[0][0].variable), (1 << 29, true));
    assert_eq!(said.notes, ["line 2: 4294967295 bits are no length in bytes, it is taken as 536870912"]);
    assert!(loaded(text).is_ok());
    // more than a length can say
    let fields = "field f F NUMBER bits 4294967295\n".repeat(9);
    let pack = to_pack(&format!("type NUMBER\npgn 1 a Single\n{fields}")).unwrap();
    assert_eq!(pack.trees[0][0].length, u32::MAX);
}

#[test]
fn what_is_stated_is_not_derived() {
    let types = "type T size 8 resolution 2 offset 3 unit m\n";
    let field = |options: &str| {
        let pack = to_pack(&format!("{types}pgn 1 a Fast\nfield f F T {options}")).unwrap();
        pack.trees[0][0].fields[0].clone()
    };
    let plain = field("");
    assert_eq!((plain.res_bits, plain.res_resolution, plain.res_offset), (8, Float::of(2.0), Float::of(3.0)));
    assert_eq!((plain.res_unit, plain.bits_given, plain.unit_given), (Some(b"m".to_vec()), false, false));
    assert_eq!(field("noUnit").res_unit, None);
    assert_eq!(field("resBits 9"), Field { res_bits: 9, ..field("") });
    assert_eq!(field("bits 9"), Field { res_bits: 9, bits_given: true, ..field("") });
    assert_eq!(field("bits 9 resBits 7"), Field { res_bits: 7, ..field("bits 9") });
    assert_eq!(
        field("resolution 1 resResolution 5"),
        Field { res_resolution: Float::of(5.0), ..field("resolution 1") }
    );
    assert_eq!(field("offset 1 resOffset 5"), Field { res_offset: Float::of(5.0), ..field("offset 1") });
    assert_eq!(field("resUnit s"), Field { res_unit: Some(b"s".to_vec()), ..field("") });
    assert_eq!(field("unitGiven noUnit"), Field { unit_given: true, ..field("noUnit") });
    let bare = Field { id: b"f".to_vec(), name: b"F".to_vec(), type_: b"T".to_vec(), ..Field::default() };
    assert_eq!(field("typeIndex 0"), bare);
    assert_eq!(field("typeIndex 7"), Field { ft: 7, ..bare });
    // a continued field, the lookup of SPNs, a type's base and root
    let continued = |options: &str| {
        let lines = format!("field f F T {options}\nfield g G T bits 3 continues f\n");
        to_pack(&format!("{types}pgn 1 a Fast\n{lines}")).unwrap().trees[0][0].fields[0].continuation
    };
    assert_eq!([continued(""), continued("continuation 0"), continued("noContinuation")], [Some(3), Some(0), None]);
    let lookups = |line: &str| {
        let lines = format!("{line}\ntree j1939\npgn 1 a Fast\nfield f F T spn 5\n");
        let lookups = to_pack(&format!("{types}{lines}")).unwrap().lookups;
        lookups.iter().map(|lookup| (lookup.name.clone(), lookup.bits)).collect::<Vec<_>>()
    };
    assert_eq!(lookups(""), [(b"J1939_SPN".to_vec(), 19)]);
    assert_eq!(lookups("lookup J1939_SPN pair 20"), [(b"J1939_SPN".to_vec(), 20)]);
    assert_eq!(lookups("lookupsAsWritten"), []);
    let ft = to_pack("type A prints\ntype B base A root C\ntype D hasBase").unwrap().fieldtypes;
    assert_eq!((ft[1].base, ft[1].print_function, &ft[1].root_name[..]), (true, true, &b"C"[..]));
    assert_eq!((ft[2].base, ft[2].print_function, &ft[2].root_name[..]), (true, false, &b"D"[..]));
}

#[test]
fn errors_name_the_line() {
    for (text, expected) in [
        ("\n# comment\nbogus", "line 3: bogus is not known here"),
        ("type", "line 1: the line ends too early"),
        ("type A size 4294967296", "line 1: 4294967296 is no number that fits"),
        ("type A size -1", "line 1: -1 is no number that fits"),
        ("type A size \"\\xff\"", "line 1: \u{fffd} is no number that fits"),
        ("type A base B", "line 1: there is no type B so far"),
        ("type \"A", "line 1: a quote is not closed"),
        ("type \"A\\", "line 1: an escape is none of \\\" \\\\ \\xNN"),
        ("type \"A\\xg0\"", "line 1: an escape is none of \\\" \\\\ \\xNN"),
        ("type \"A\\xé\"", "line 1: an escape is none of \\\" \\\\ \\xNN"),
        ("type \"A\\é\"", "line 1: an escape is none of \\\" \\\\ \\xNN"),
        ("type \"A\"prints", "line 1: a blank is missing after a quote"),
        ("value 1 a", "line 1: a value before any lookup"),
        ("lookup A pairs 1", "line 1: pairs is none of its names"),
        ("lookup A pair 1 2", "line 1: 2 is not known here"),
        ("lookup A pair 1\nvalue 18446744073709551616 a", "line 2: 18446744073709551616 is no number that fits"),
        ("lookup A pair 1\nvalue 1 a lookup A", "line 2: lookup is not known here"),
        ("lookup A fieldtype 1\nvalue 1 a T lookup A more", "line 2: more is not known here"),
        ("tree nmea", "line 1: nmea is none of its names"),
        ("tree quick quick", "line 1: quick is not known here"),
        ("lookupsAsWritten yes", "line 1: yes is not known here"),
        ("version 1 2", "line 1: 2 is not known here"),
        ("set 1 start 1", "line 1: no PGN so far in this tree"),
        ("pgn 1 a Fast\ntree quick\nset 1 start 1", "line 3: no PGN so far in this tree"),
        ("pgn 1 a Fast\nset 3", "line 2: 3 is none of its names"),
        ("pgn 1 a Fast\nfield f F T", "line 2: there is no type T so far"),
        ("pgn 1 a Fast\nfield f F \"\\xfe\"", "line 2: there is no type \u{fffd} so far"),
        ("pgn 1 a Fast\nfield f F T typeIndex 0 lookup", "line 2: the line ends too early"),
    ] {
        assert_eq!(error(text), expected, "{text}");
    }
    let error = read_text(b"type A\n\ntype \xff").err();
    assert_eq!(error.as_deref(), Some("line 3: bytes that are not UTF-8 are written as \\xNN in quotes"));
}

/// Reading never panics, and an error names a line that is there.
#[test]
fn any_text_is_read() {
    let mut rng = Rng::new(5);
    let words = [
        "type",
        "lookup",
        "value",
        "tree",
        "pgn",
        "set",
        "field",
        "version",
        "tail",
        "base",
        "size",
        "bits",
        "resBits",
        "start",
        "count",
        "nested",
        "typeIndex",
        "spn",
        "continues",
        "match",
        "length",
        "variable",
        "continuation",
        "pair",
        "triplet",
        "fieldtype",
        "quick",
        "j1939",
        "Fast",
        "Single",
        "0",
        "1",
        "2",
        "4294967295",
        "\"",
        "\\",
        "#",
        "\"a b\"",
        "\"\\xff\"",
        "é",
        "A",
        "resolution",
        "0x7ff0000000000001",
        "nan",
        "minLength",
        "lookupsAsWritten",
    ];
    let judge = |source: &[u8]| match read_text(source) {
        Ok(said) => drop(said.bytes()),
        Err(error) => {
            let number = error.strip_prefix("line ").and_then(|rest| rest.split_once(':')).map(|(number, _)| number);
            let number: usize = number.unwrap_or_else(|| panic!("{error}")).parse().unwrap();
            assert!(number >= 1 && number <= source.split(|byte| *byte == b'\n').count(), "{error}");
        }
    };
    for _ in 0..20_000 {
        let line = |rng: &mut Rng| {
            let count = rng.below(9);
            (0..count).map(|_| *rng.pick(&words)).collect::<Vec<_>>().join(" ")
        };
        let lines: Vec<String> = (0..4).map(|_| line(&mut rng)).collect();
        judge(format!("type A\nlookup L pair 8\npgn 1 a Fast\nfield f F A bits 8\n{}", lines.join("\n")).as_bytes());
    }
    for _ in 0..2_000 {
        let mut bytes = SAMPLE.as_bytes().to_vec();
        for _ in 0..rng.between(1, 3) {
            let place = rng.below(bytes.len());
            bytes[place] = if rng.chance(1, 2) { *rng.pick(b"\"\\# \n0x9") } else { rng.u64() as u8 };
        }
        judge(&bytes);
    }
}

/// A pack that is accepted comes back byte for byte from its text.
#[test]
fn accepted_packs_come_back() {
    let same = |pack: &Pack| {
        let bytes = encode(pack).bytes;
        let text = from_pack(pack);
        assert!(to_bytes(&text).unwrap() == bytes, "{text}");
        bytes
    };
    let mut generator = Generator::new(11);
    for _ in 0..20_000 {
        let bytes = same(&generator.pack(true));
        assert!(read(&bytes).is_ok());
    }
    for pack in packs_of_sizes(1) {
        same(&pack);
    }
    same(&to_pack(SAMPLE).unwrap());
    same(&to_pack(include_str!("../../samples/nested.txt")).unwrap());
    same(&worked_example());
}

/// And so does one with anything in its items.
#[test]
fn faulty_packs_come_back() {
    let mut generator = Generator::new(12);
    let mut refused = [0; 10];
    for _ in 0..20_000 {
        let mut pack = generator.pack(true);
        for _ in 0..generator.rng.between(1, 4) {
            spoil(&mut generator.rng, &mut pack);
        }
        let bytes = encode(&pack).bytes;
        let text = from_pack(&pack);
        assert!(to_bytes(&text).unwrap() == bytes, "{text}");
        if let Err(refusal) = read(&bytes) {
            refused[refusal.number as usize] += 1;
        }
    }
    assert!([5, 6, 7].iter().all(|number| refused[*number] > 100), "{refused:?}");
}

/// Changes one item to anything that its width holds.
fn spoil(rng: &mut Rng, pack: &mut Pack) {
    let number = match rng.below(3) {
        0 => u32::MAX,
        1 => rng.below(40) as u32,
        _ => rng.u64() as u32,
    };
    let float = Float(rng.u64() | if rng.chance(1, 4) { 0x7ff << 52 } else { 0 });
    let text: Text = (0..rng.below(6)).map(|_| rng.u64() as u8).collect();
    match rng.below(4) {
        0 if pack.lookups.len() > 1 => {
            let (one, two) = (rng.below(pack.lookups.len()), rng.below(pack.lookups.len()));
            if rng.chance(1, 2) {
                pack.lookups.swap(one, two);
            } else {
                pack.lookups[one].name = pack.lookups[two].name.clone();
            }
        }
        1 if !pack.fieldtypes.is_empty() => {
            let ft = rng.below(pack.fieldtypes.len());
            let ft = &mut pack.fieldtypes[ft];
            (ft.size, ft.resolution, ft.name) = (number, float, text.clone());
            if rng.chance(1, 2) {
                ft.root_name = text;
            }
        }
        _ => {
            let mut pgns: Vec<&mut Pgn> = pack.trees.iter_mut().flatten().collect();
            if pgns.is_empty() {
                return;
            }
            let pgn = rng.below(pgns.len());
            let pgn = &mut *pgns[pgn];
            let set = Repeating { count: number, start: number / 2 + 1, count_field: Some(number), nested: false };
            match rng.below(5) {
                0 => (pgn.length, pgn.variable) = (number, !pgn.variable),
                1 => pgn.min_length = Some(number),
                2 => pgn.sets[rng.below(2)] = Some(set),
                _ if !pgn.fields.is_empty() => {
                    let field = rng.below(pgn.fields.len());
                    let field = &mut pgn.fields[field];
                    match rng.below(8) {
                        0 => field.ft = number,
                        1 => field.res_bits = number,
                        2 => field.continuation = Some(number).filter(|_| rng.chance(1, 2)),
                        3 => (field.res_resolution, field.offset) = (float, Some(float)),
                        4 => (field.res_offset, field.resolution) = (float, Some(float)),
                        5 => (field.res_unit, field.unit_given) = (None, true),
                        6 => (field.res_unit, field.unit_given) = (Some(text), false),
                        _ => (field.type_, field.match_) = (text.clone(), Some(text)),
                    }
                }
                _ => pgn.id = text,
            }
        }
    }
}
