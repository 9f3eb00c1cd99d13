//! Holds docs/RULES.md to the rules: each rule has its section, each cause one row and one example that shows it, over the
//! harness's rules, the library's (where it is linked) and the Rust's (where its files are). What the rows say of severity,
//! part, other and the stops is held to the examples and to random packs. Holds the pack in docs/FORMAT.md to the worked example.

use harness::encode::encode;
use harness::finding::{CAUSES, Finding, LOOKUP, PGN};
use harness::generate::Generator;
use harness::reader::read;
use harness::report::worked_example;
use harness::rules::check;
use harness::text::to_pack;
use harness::value::Pack;
use harness::walk::{End, held, walk};
use harness::{library, oracle, words};
use std::collections::{BTreeMap, BTreeSet};

const RULES: &str = include_str!("../../docs/RULES.md");
const FORMAT: &str = include_str!("../../docs/FORMAT.md");
const ARCHITECTURE: &str = include_str!("../../docs/ARCHITECTURE.md");

/// A rule and a cause.
type Cause = (u32, u32);

/// The columns of a cause's row.
struct Row<'a> {
    cause: u32,
    severity: &'a str,
    part: &'a str,
    other: &'a str,
    stop: Option<u32>,
}

/// A pack in the text form, the causes that it shows and those that are found beside them.
struct Example<'a> {
    shows: Vec<Cause>,
    beside: Vec<Cause>,
    source: &'a str,
}

struct Section<'a> {
    rule: u32,
    functions: &'a str,
    rows: Vec<Row<'a>>,
    examples: Vec<Example<'a>>,
}

/// `R05.2`
fn cause(word: &str) -> Cause {
    let (rule, cause) = word.strip_prefix('R').and_then(|word| word.split_once('.')).expect(word);
    assert_eq!(rule.len(), 2, "{word}");
    (rule.parse().expect(word), cause.parse().expect(word))
}

fn cells(line: &str) -> Vec<&str> {
    let line = line.strip_prefix('|').and_then(|line| line.strip_suffix('|'));
    line.map_or(vec![], |line| line.split('|').map(str::trim).collect())
}

fn row(line: &str) -> Option<Row<'_>> {
    let [cause, severity, says, part, other, stop] = cells(line)[..] else { return None };
    let cause = cause.parse().ok()?;
    assert!(!says.is_empty(), "{line}");
    let stop = match stop {
        "-" => None,
        _ => Some(stop.strip_prefix("stop ").and_then(|stop| stop.parse().ok()).expect(line)),
    };
    Some(Row { cause, severity, part, other, stop })
}

fn examples(section: &str) -> Vec<Example<'_>> {
    let fenced = section.split("\n```pack ").skip(1);
    fenced
        .map(|text| {
            let (tags, rest) = text.split_once('\n').expect("an example");
            let (source, _) = rest.split_once("\n```").expect("the end of an example");
            let (shows, beside) = tags.split_once(" with ").unwrap_or((tags, ""));
            let causes = |words: &str| words.split_whitespace().map(cause).collect();
            Example { shows: causes(shows), beside: causes(beside), source }
        })
        .collect()
}

fn sections() -> Vec<Section<'static>> {
    let parts = RULES.split("\n## R").skip(1);
    parts
        .map(|part| {
            let (title, _) = part.split_once('\n').expect("a title");
            let (rule, functions) = title.split_once(' ').expect(title);
            Section {
                rule: rule.parse().expect(title),
                functions,
                rows: part.lines().filter_map(row).collect(),
                examples: examples(part),
            }
        })
        .collect()
}

fn pack_of(example: &Example) -> Pack {
    to_pack(example.source).unwrap_or_else(|error| panic!("{:?}: {error}", example.shows))
}

/// The findings of an example. The library and the Rust checker, where they are there, have the same; the Rust checker is
/// not asked about a hexadecimal match.
fn findings(pack: &Pack) -> Vec<Finding> {
    let bytes = encode(pack).bytes;
    assert!(read(&bytes).is_ok_and(|loaded| loaded.pack == *pack));
    let ours = check(pack);
    if let Some(theirs) = library::findings(pack) {
        assert_eq!(theirs, ours);
    }
    if oracle::PRESENT && !pack.has_hexadecimal_match() {
        assert_eq!(oracle::violations(pack), Some(ours.iter().map(|finding| words::words(pack, finding)).collect()));
    }
    ours
}

#[test]
fn each_rule_has_its_section_and_each_cause_its_row() {
    let sections = sections();
    let have: Vec<(u32, Vec<u32>)> =
        sections.iter().map(|section| (section.rule, section.rows.iter().map(|row| row.cause).collect())).collect();
    let due: Vec<(u32, Vec<u32>)> = CAUSES.iter().map(|(rule, causes)| (*rule, (1..=*causes).collect())).collect();
    assert_eq!(have, due);
    for section in &sections {
        let number = format!("R{:02}", section.rule);
        let functions = ARCHITECTURE.lines().map(cells).find_map(|cells| match cells[..] {
            [rules, functions, ..] if rules.split(", ").any(|rule| rule == number) => Some(functions.replace('`', "")),
            _ => None,
        });
        assert_eq!(functions.as_deref(), Some(section.functions), "{number}");
    }
}

#[test]
fn each_cause_has_one_example_in_its_section() {
    for (section, (rule, causes)) in sections().iter().zip(CAUSES) {
        let shown: Vec<Cause> = section.examples.iter().flat_map(|example| example.shows.clone()).collect();
        let due: Vec<Cause> = (1..=causes).map(|cause| (rule, cause)).collect();
        assert_eq!(shown, due);
    }
}

#[test]
fn examples_show_their_causes_and_nothing_else() {
    for example in sections().iter().flat_map(|section| &section.examples) {
        let found = findings(&pack_of(example)).iter().map(|finding| (finding.rule, finding.cause)).collect();
        let said: BTreeSet<Cause> = example.shows.iter().chain(&example.beside).copied().collect();
        assert_eq!(said, found, "{}", example.source);
    }
}

/// Whether a number of a finding can be what a row says that it is.
fn can_be(said: &str, number: u32, pack: &Pack, finding: &Finding) -> bool {
    let index = number as usize;
    let pgns = &pack.trees[finding.tree as usize];
    let fields = || {
        assert_eq!(finding.place, PGN);
        &pgns[finding.item as usize].fields
    };
    let entries = || {
        assert_eq!(finding.place, LOOKUP);
        pack.lookups[finding.item as usize].entries.len()
    };
    let is_carried = || pgns.iter().flat_map(|pgn| &pgn.fields).any(|field| field.spn == Some(number));
    match said {
        "-" => number == 0,
        "the field" => index < fields().len(),
        "the target" => {
            let user = &fields()[finding.part as usize];
            let named = [&user.bit_length_field, &user.continues, &user.trailing_zero];
            named.into_iter().flatten().any(|id| fields()[index].id == *id)
        }
        "the set" => (1..=2).contains(&number) && pgns[finding.item as usize].sets[index - 1].is_some(),
        "the lookup" => {
            let reference = &fields()[finding.part as usize].reference;
            reference.as_ref().is_some_and(|(_, name)| pack.lookups[index].name == *name)
        }
        "the entry" => index < entries(),
        "the earlier entry" => index < entries() && number < finding.part,
        "the other PGN" => index < pgns.len() && number < finding.item,
        "the PGN first seen" => index < pgns.len(),
        "how many" => number > 1 && index <= pgns.len(),
        "the earlier SPN" => is_carried() && number < finding.other,
        "the later SPN" => is_carried() && number > finding.part,
        _ => panic!("{said} is none of the columns' words"),
    }
}

/// The rows of every cause.
fn rows<'a>(sections: &'a [Section<'a>]) -> BTreeMap<Cause, &'a Row<'a>> {
    let of = |section: &'a Section<'a>| section.rows.iter().map(|row| ((section.rule, row.cause), row));
    sections.iter().flat_map(of).collect()
}

/// The examples' packs, then random ones with many findings.
fn packs(sections: &[Section]) -> impl Iterator<Item = Pack> {
    let shown = sections.iter().flat_map(|section| &section.examples).map(pack_of);
    let mut generator = Generator::new(11);
    let random = std::iter::repeat_with(move || generator.pack_with(100, false)).take(20_000);
    shown.collect::<Vec<_>>().into_iter().chain(random)
}

#[test]
fn rows_say_severity_part_and_other() {
    let sections = sections();
    let rows = rows(&sections);
    // where a number was other than 0
    let mut parts = BTreeSet::new();
    let mut others = BTreeSet::new();
    for pack in packs(&sections) {
        for finding in check(&pack) {
            let this = (finding.rule, finding.cause);
            let row = rows[&this];
            assert_eq!(row.severity, if finding.is_error() { "error" } else { "warning" }, "{finding:?}");
            assert!(can_be(row.part, finding.part, &pack, &finding), "part: {finding:?}");
            assert!(can_be(row.other, finding.other, &pack, &finding), "other: {finding:?}");
            parts.extend((finding.part != 0).then_some(this));
            others.extend((finding.other != 0).then_some(this));
        }
    }
    for (this, row) in rows {
        assert_eq!(row.part != "-", parts.contains(&this), "part of {this:?}");
        assert_eq!(row.other != "-", others.contains(&this), "other of {this:?}");
    }
}

/// How the walks over an example's PGNs end, each with whether the PGN is held.
fn ends(pack: &Pack) -> Vec<(bool, End)> {
    let encoded = encode(pack);
    let mut work = vec![0; encoded.records.len()];
    let mut ends = Vec::new();
    for (tree, pgns) in pack.trees.iter().enumerate() {
        for (item, pgn) in pgns.iter().enumerate() {
            for (reading, length) in [(0, 0), (0, 100), (1, 100), (2, 100), (u64::MAX, 100)] {
                let readings = vec![reading; length];
                let walked = walk(pack, pgn, &readings);
                let mut visits = vec![0; length];
                let bytes = &encoded.bytes;
                if let Some(theirs) = library::walk(bytes, &mut work, tree as u32, item as u32, &readings, &mut visits)
                {
                    assert_eq!(theirs, (0, [walked.end.number(), walked.visits.len() as u64]));
                    assert_eq!(visits[..walked.visits.len()], walked.visits);
                }
                ends.push((held(pack, pgn), walked.end));
            }
        }
    }
    ends
}

#[test]
fn rows_say_the_stop() {
    for section in sections() {
        for row in &section.rows {
            let this = (section.rule, row.cause);
            let example = section.examples.iter().find(|example| example.shows.contains(&this)).expect("an example");
            let ends = ends(&pack_of(example));
            match row.stop {
                // the example meets it
                Some(stop) => assert!(ends.iter().any(|(_, end)| *end == End::Stop(stop)), "{this:?}: {ends:?}"),
                // the walk does without this rule: no stop on a held PGN, though the cause is there
                None => {
                    let stopped = ends.iter().any(|(held, end)| *held && matches!(end, End::Stop(_)));
                    assert!(!stopped, "{this:?}: {ends:?}");
                }
            }
        }
    }
}

/// On a held PGN a stop comes only where a cause that shuts it out is reported; stop 8 does not come.
#[test]
fn no_stop_where_no_row_names_it() {
    let sections = sections();
    let rows = rows(&sections);
    let mut generator = Generator::new(12);
    let mut met = BTreeSet::new();
    for case in 0..20_000 {
        let pack = if case % 2 == 0 { generator.pack_with_stops() } else { generator.pack_with(100, false) };
        let found = check(&pack);
        let named: BTreeSet<u32> =
            found.iter().filter_map(|finding| rows[&(finding.rule, finding.cause)].stop).collect();
        for pgn in pack.trees.iter().flatten().filter(|pgn| held(&pack, pgn)) {
            for readings in [generator.readings(40), vec![1; 40]] {
                if let End::Stop(stop) = walk(&pack, pgn, &readings).end {
                    assert!(named.contains(&stop), "stop {stop}: {found:?}");
                    met.insert(stop);
                }
            }
        }
    }
    assert_eq!(met.into_iter().collect::<Vec<_>>(), [1, 2, 3, 4, 5, 6, 7, 9]);
}

#[test]
fn the_pack_of_the_format_document_is_the_worked_example() {
    let (_, from) = FORMAT.split_once("\n## 6. ").expect("section 6");
    let (section, _) = from.split_once("\n## 7. ").expect("section 7");
    let mut bytes = Vec::new();
    for line in section.lines() {
        let [offset, hexadecimal, _] = cells(line)[..] else { continue };
        let Ok(offset) = offset.parse::<usize>() else { continue };
        assert_eq!(offset, bytes.len(), "{line}");
        bytes.extend(hexadecimal.split(' ').map(|byte| u8::from_str_radix(byte, 16).expect(line)));
    }
    let encoded = encode(&worked_example());
    assert_eq!(bytes, encoded.bytes);
    let mut work = [0; 3];
    assert_eq!(harness::calls::load(&bytes, &mut work), Ok([3, 1, 0, 0, 1, 1, 1, 0, 3, 0, 3]));
    assert_eq!(work, [2, 28, 44]);
    if let Some(theirs) = library::load(&bytes, &mut work) {
        assert_eq!(theirs, (0, [3, 1, 0, 0, 1, 1, 1, 0, 3, 0, 3]));
    }
}

/// The table of short packs in docs/FORMAT.md: the refusal and its detail.
#[test]
fn short_packs_of_the_format_document() {
    let (_, from) = FORMAT.split_once("Packs of a few bytes").expect("the table");
    let (table, _) = from.split_once("\n### ").expect("its end");
    let mut rows = 0;
    for line in table.lines() {
        let [hexadecimal, said] = cells(line)[..] else { continue };
        if matches!(hexadecimal, "bytes" | "---") {
            continue;
        }
        let bytes: Vec<u8> = match hexadecimal {
            "(none)" => vec![],
            _ => hexadecimal.split(' ').map(|byte| u8::from_str_radix(byte, 16).expect(line)).collect(),
        };
        let refused = read(&bytes).err().map(|refusal| format!("{}, {}", refusal.number, refusal.detail));
        assert!(said.starts_with(refused.as_deref().unwrap_or("accepted")), "{line}");
        if let Some((number, answer)) = library::load(&bytes, &mut []) {
            let theirs = (number != 0).then(|| format!("{number}, {}", answer[0]));
            assert_eq!(theirs, refused, "{line}");
        }
        rows += 1;
    }
    assert_eq!(rows, 11);
}
