//! The exported calls are declared alike in the library's source, in the C header and in the harness: the same functions in
//! the same order, with the same parameters. The header's constants are the numbers that the harness uses.

use harness::encode::encode;
use harness::finding::{self, Finding};
use harness::reader::{LIMIT, Refusal};
use harness::report::worked_example;
use harness::text::{to_bytes, to_pack};
use harness::walk::End;
use harness::{calls, library};
use std::path::Path;
use std::process::Command;

const SOURCE: &str = include_str!("../../crates/exports_c/src/lib.rt");
const HEADER: &str = include_str!("../../include/sarwymp.h");
const WRAPPER: &str = include_str!("../src/library.rs");

/// How a declaration in Rattle stands in another language: a parameter of a name and a type, the whole with its parameters.
struct Language {
    parameter: fn(&str, &str) -> String,
    whole: fn(&str, &str, &str) -> String,
}

const C: Language = Language {
    parameter: |name, type_| match type_ {
        "u32" => format!("uint32_t {name}"),
        _ => match parts(type_) {
            (changes, item, None) => {
                let constant = if changes { "" } else { "const " };
                format!("{constant}{} *{name}, size_t {name}_len", c_item(item))
            }
            (true, item, Some(length)) => format!("{} {name}[{length}]", c_item(item)),
            _ => panic!("no C form of {type_}"),
        },
    },
    whole: |name, parameters, answer| format!("{} {name}({parameters})", c_item(answer)),
};

const RUST: Language = Language {
    parameter: |name, type_| match type_ {
        "u32" => format!("{name}: u32"),
        _ => match parts(type_) {
            (changes, item, None) => {
                format!("{name}: *{} {item}, {name}_len: usize", if changes { "mut" } else { "const" })
            }
            (true, item, Some(length)) => format!("{name}: *mut [{item}; {length}]"),
            _ => panic!("no Rust form of {type_}"),
        },
    },
    whole: |name, parameters, answer| format!("fn {name}({parameters}) -> {answer}"),
};

/// Of a slice or an array that is lent: whether the call may change it, the type of its items, an array's length.
fn parts(type_: &str) -> (bool, &str, Option<&str>) {
    let lent = type_.strip_prefix('&').unwrap_or_else(|| panic!("not lent: {type_}"));
    let (changes, lent) = lent.strip_prefix("mut ").map_or((false, lent), |lent| (true, lent));
    let inside = lent.strip_prefix('[').and_then(|inside| inside.strip_suffix(']'));
    let inside = inside.unwrap_or_else(|| panic!("no slice or array: {type_}"));
    match inside.split_once("; ") {
        Some((item, length)) => (changes, item, Some(length)),
        None => (changes, inside, None),
    }
}

fn c_item(item: &str) -> &str {
    match item {
        "u8" => "uint8_t",
        "u32" => "uint32_t",
        "u64" => "uint64_t",
        _ => panic!("no C form of {item}"),
    }
}

/// One blank between words, none within brackets.
fn plain(declaration: &str) -> String {
    let words: Vec<&str> = declaration.split_whitespace().collect();
    words.join(" ").replace("( ", "(").replace(", )", ")").replace(",)", ")").replace(" )", ")")
}

/// The declarations that the source's exported functions want.
fn wanted(source: &str, language: &Language) -> Vec<String> {
    let exported = source.split("#[unsafe(no_mangle)]").skip(1);
    let one = |function: &str| {
        let declared = function.trim_start().strip_prefix("pub extern \"C\" fn ").expect("an exported function");
        let (name, rest) = declared.split_once('(').expect("parameters");
        let (parameters, rest) = rest.split_once(')').expect("the end of the parameters");
        let answer = rest.trim_start().strip_prefix("-> ").and_then(|rest| rest.split_whitespace().next());
        let parameters: Vec<String> = parameters
            .split(',')
            .filter(|parameter| !parameter.trim().is_empty())
            .map(|parameter| parameter.split_once(':').expect("a name and a type"))
            .map(|(name, type_)| (language.parameter)(name.trim(), type_.trim()))
            .collect();
        (language.whole)(name, &parameters.join(", "), answer.expect("an answer"))
    };
    exported.map(one).collect()
}

/// The declarations between two lines, each with a line's end after it.
fn declared(text: &str, begin: &str, end: &str) -> Vec<String> {
    let (_, rest) = text.split_once(begin).unwrap_or_else(|| panic!("no {begin}"));
    let (declarations, _) = rest.split_once(end).unwrap_or_else(|| panic!("no {end}"));
    declarations.split(";\n").map(plain).filter(|declaration| !declaration.is_empty()).collect()
}

fn in_header(header: &str) -> Vec<String> {
    let mut parts = header.split("/*");
    let first = parts.next().unwrap_or_default();
    let after_comments = parts.map(|part| part.split_once("*/").expect("the end of a comment").1);
    let bare: String = [first].into_iter().chain(after_comments).collect();
    declared(&bare, "extern \"C\" {\n#endif\n", "#ifdef __cplusplus\n}")
}

fn in_wrapper(wrapper: &str) -> Vec<String> {
    declared(wrapper, "unsafe extern \"C\" {\n", "}\n")
}

fn header_agrees(source: &str, header: &str) -> bool {
    wanted(source, &C) == in_header(header)
}

fn wrapper_agrees(source: &str, wrapper: &str) -> bool {
    wanted(source, &RUST) == in_wrapper(wrapper)
}

#[test]
fn header_declares_the_exported_functions() {
    assert_eq!(in_header(HEADER), wanted(SOURCE, &C));
}

#[test]
fn wrapper_declares_the_exported_functions() {
    assert_eq!(in_wrapper(WRAPPER), wanted(SOURCE, &RUST));
}

/// The text with one part of it, which is there once, changed.
fn changed(text: &str, part: &str, with: &str) -> String {
    assert_eq!(text.matches(part).count(), 1, "{part}");
    text.replace(part, with)
}

#[test]
fn anything_else_is_seen() {
    assert!(header_agrees(SOURCE, HEADER) && wrapper_agrees(SOURCE, WRAPPER));
    let header = [
        // parameters exchanged, of another type, missing, too many
        ("uint32_t place,\n                            uint32_t tree", "uint32_t tree,\n uint32_t place"),
        ("uint8_t *text, size_t text_len", "size_t text_len, uint8_t *text"),
        ("uint8_t *text, ", "const uint8_t *text, "),
        ("const uint64_t *readings", "uint64_t *readings"),
        ("uint64_t answer[11]", "uint64_t answer[10]"),
        (",\n                       size_t findings_len", ""),
        ("uint64_t answer[11]", "uint64_t answer[11], uint32_t more"),
        // a function missing, too many, of another name, of another answer
        ("uint32_t sarwymp_load(", "static uint32_t sarwymp_load("),
        ("uint32_t sarwymp_load(", "uint32_t sarwymp_unload(uint32_t pack);\nuint32_t sarwymp_load("),
        ("sarwymp_load(", "sarwymp_lode("),
        ("uint32_t sarwymp_load(", "uint64_t sarwymp_load("),
    ];
    for (part, with) in header {
        assert!(!header_agrees(SOURCE, &changed(HEADER, part, with)), "{part:?} as {with:?}");
    }
    let wrapper = [
        (
            "place: u32,\n        tree: u32,\n        item: u32,\n        text: *mut",
            "tree: u32, place: u32, item: u32, text: *mut",
        ),
        ("readings: *const u64", "readings: *mut u64"),
        ("fn sarwymp_load(pack: *const u8, pack_len: usize, ", "fn sarwymp_load("),
        ("answer: *mut [u64; 11]", "answer: *mut [u64; 12]"),
        ("fn sarwymp_held(", "fn sarwymp_hold("),
    ];
    for (part, with) in wrapper {
        assert!(!wrapper_agrees(SOURCE, &changed(WRAPPER, part, with)), "{part:?} as {with:?}");
    }
}

#[test]
fn a_missing_function_is_seen() {
    let without = |text: &str, from: &str, to: &str| {
        let from = text.find(from).unwrap_or_else(|| panic!("no {from}"));
        let end = from + text[from..].find(to).unwrap() + to.len();
        [&text[..from], &text[end..]].concat()
    };
    for name in ["load", "check", "place_text", "walk", "held"] {
        let header = without(HEADER, &format!("uint32_t sarwymp_{name}("), ";");
        assert!(!header_agrees(SOURCE, &header), "{name}");
        let wrapper = without(WRAPPER, &format!("fn sarwymp_{name}("), "-> u32;");
        assert!(!wrapper_agrees(SOURCE, &wrapper), "{name}");
        let source = without(SOURCE, &format!("#[unsafe(no_mangle)]\npub extern \"C\" fn sarwymp_{name}("), "-> u32");
        assert!(!header_agrees(&source, HEADER) && !wrapper_agrees(&source, WRAPPER), "{name}");
    }
}

/// The compiler takes a file of this one line without a warning; none where there is no compiler of that language.
fn compiles(language: &str, line: &str) -> Option<Result<(), String>> {
    let include = Path::new(env!("CARGO_MANIFEST_DIR")).join("../include");
    // tests run at once, each with a file of its own
    let thread = format!("{:?}", std::thread::current().id());
    let name = format!("sarwymp-{}-{thread}-{}", std::process::id(), language.replace('+', "p"));
    let file = std::env::temp_dir().join(name);
    std::fs::write(&file, line).unwrap();
    let mut command = Command::new("cc");
    command.args(["-x", language, "-Wall", "-Wextra", "-Werror", "-fsyntax-only", "-I"]).arg(include).arg(&file);
    let answer = command.output();
    std::fs::remove_file(&file).unwrap();
    let answer = answer.ok()?;
    Some(if answer.status.success() { Ok(()) } else { Err(String::from_utf8_lossy(&answer.stderr).into_owned()) })
}

#[test]
fn header_compiles() {
    for language in ["c", "c++"] {
        match compiles(language, "int nothing;\n") {
            Some(Ok(())) => {
                assert_eq!(compiles(language, "#include \"sarwymp.h\"\n"), Some(Ok(())), "{language}");
                // the compiler does judge it
                let wrong = "#include \"sarwymp.h\"\nuint32_t sarwymp_load(uint32_t pack);\n";
                assert!(language == "c++" || compiles(language, wrong) != Some(Ok(())), "{language}");
            }
            _ => println!("header_compiles: skipped, `cc` does not compile {language} here"),
        }
    }
}

/// The header's constants of numbers, in their order.
fn constants(header: &str) -> Vec<(String, u64)> {
    let defined = header.lines().filter_map(|line| line.strip_prefix("#define SARWYMP_"));
    let split = defined.filter_map(|rest| rest.split_once(' '));
    let number = |rest: &str| rest.split_whitespace().next().unwrap().parse().unwrap();
    split.map(|(name, rest)| (name.to_string(), number(rest))).collect()
}

/// The number that the library refuses by, and where it was not linked the harness.
fn number<const N: usize>(theirs: Option<(u32, [u64; N])>, ours: Result<[u64; N], Refusal>) -> u64 {
    let ours = library::as_numbers(ours);
    assert_eq!(theirs.unwrap_or(ours), ours);
    ours.0.into()
}

/// The number of the refusal that each name is for.
fn refusals() -> Vec<(&'static str, u64)> {
    let load = |bytes: &[u8], lent: usize| {
        let (mut work, mut other) = (vec![0; lent], vec![0; lent]);
        number(library::load(bytes, &mut work), calls::load(bytes, &mut other))
    };
    let text = |text: &str| load(&to_bytes(text).unwrap(), 9);
    let bytes = encode(&worked_example()).bytes;
    let (work, other) = (&mut [0; 9], &mut [0; 9]);
    let findings = number(library::check(&bytes, work, &mut []), calls::check(&bytes, other, &mut []));
    let named = number(library::held(&bytes, work, 3, 0), calls::held_pgn(&bytes, other, 3, 0));
    let place = library::place_text(&bytes, work, 1, 0, 0, &mut []);
    let place = number(place, calls::place_text(&bytes, other, 1, 0, 0, &mut []));
    let visits = library::walk(&bytes, work, 0, 0, &[0], &mut []);
    let visits = number(visits, calls::walk_pgn(&bytes, other, 0, 0, &[0], &mut []));
    vec![
        ("DONE", load(&bytes, 9)),
        ("REFUSED_CUT", load(&[], 9)),
        ("REFUSED_NUMBER", load(&[0x81, 0], 9)),
        ("REFUSED_VERSION", text("version 2")),
        ("REFUSED_CODE", load(&[1, 1, 0, 8], 9)),
        ("REFUSED_LOOKUP_ORDER", text("lookup A pair 1\nlookup A pair 1")),
        ("REFUSED_FIELD_TYPE", text("pgn 1 a Fast\nfield f F T typeIndex 0")),
        ("REFUSED_SUM", text("pgn 1 a Fast\nset 1 start 1 count 4294967295")),
        ("REFUSED_TAIL", text("tail x")),
        ("REFUSED_LONG", load(&vec![0; LIMIT + 1], 9)),
        ("REFUSED_WORK", load(&bytes, 0)),
        ("REFUSED_FINDINGS", findings),
        ("REFUSED_NAMED", named),
        ("REFUSED_TEXT", place),
        ("REFUSED_VISITS", visits),
    ]
}

/// Every constant but the sizes of stacks, which stack.rs tries.
fn in_harness() -> Vec<(&'static str, u64)> {
    let tree = |name: &str| {
        let pack = to_pack(&format!("tree {name}\npgn 1 a Fast")).unwrap();
        pack.trees.iter().position(|pgns| !pgns.is_empty()).unwrap() as u64
    };
    let at = Finding::from_numbers([0, 1, 2, 3, 4, 5, 6, 7]);
    let severity = |error| {
        let fits = |severity: &u32| Finding { severity: *severity, ..Finding::default() }.is_error() == error;
        (0..2).find(fits).unwrap().into()
    };
    let ends = [
        "END_WHOLE",
        "END_SETS",
        "END_COUNT_FIELD",
        "END_LOOKUP",
        "END_MATCH",
        "END_ENTRY",
        "END_BIT_LENGTH",
        "END_CONTINUES",
        "END_DYNAMIC",
        "END_TRAILING_ZERO",
        "END_USED_UP",
    ];
    let stops = (1..=9).map(End::Stop);
    let numbers = [End::Whole].into_iter().chain(stops).chain([End::UsedUp]).map(End::number);
    let mut all = refusals();
    all.extend([
        ("PACK_MOST", LIMIT as u64),
        ("TREE_NMEA2000", tree("nmea2000")),
        ("TREE_J1939", tree("j1939")),
        ("TREE_QUICK", tree("quick")),
        ("FINDING_RULE", at.rule.into()),
        ("FINDING_SEVERITY", at.severity.into()),
        ("FINDING_CAUSE", at.cause.into()),
        ("FINDING_PLACE", at.place.into()),
        ("FINDING_TREE", at.tree.into()),
        ("FINDING_ITEM", at.item.into()),
        ("FINDING_PART", at.part.into()),
        ("FINDING_OTHER", at.other.into()),
        ("FINDING_NUMBERS", at.numbers().len() as u64),
        ("SEVERITY_WARNING", severity(false)),
        ("SEVERITY_ERROR", severity(true)),
        ("PLACE_FIELD_TYPES", finding::FIELDTYPES.into()),
        ("PLACE_PGN", finding::PGN.into()),
        ("PLACE_LOOKUP", finding::LOOKUP.into()),
        ("PLACE_PGN_GROUP", finding::GROUP.into()),
    ]);
    all.extend(ends.into_iter().zip(numbers));
    all
}

#[test]
fn constants_are_the_harnesss_numbers() {
    let header = constants(HEADER);
    let header: Vec<(&str, u64)> = header.iter().map(|(name, number)| (name.as_str(), *number)).collect();
    let (stacks, others): (Vec<_>, Vec<_>) = header.into_iter().partition(|(name, _)| name.starts_with("STACK_"));
    assert_eq!(others, in_harness());
    assert_eq!(stacks.len(), 3);
}

/// A call that is refused leaves 0 where the number of errors stands, as the header says at the call.
#[test]
fn a_refused_check_counts_no_error() {
    let bytes = encode(&worked_example()).bytes;
    for (work, findings) in [(0, 100), (9, 0)] {
        let (number, answer) = library::as_numbers(calls::check(&bytes, &mut vec![0; work], &mut vec![0; findings]));
        let theirs = library::check(&bytes, &mut vec![0; work], &mut vec![0; findings]);
        assert_eq!(theirs.unwrap_or((number, answer)), (number, answer));
        assert!(number != 0 && answer[1] == 0);
    }
}

/// The constants as a compiler reads them.
#[test]
fn constants_compile() {
    for (language, assert) in [("c", "_Static_assert"), ("c++", "static_assert")] {
        let one = |(name, number): &(String, u64)| format!("{assert}(SARWYMP_{name} == {number}, \"{name}\");\n");
        let lines: String = constants(HEADER).iter().map(one).collect();
        if compiles(language, "int nothing;\n") == Some(Ok(())) {
            assert_eq!(compiles(language, &format!("#include \"sarwymp.h\"\n{lines}")), Some(Ok(())), "{language}");
        }
    }
}
