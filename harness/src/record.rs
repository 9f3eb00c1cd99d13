//! Records a fixed list of cases with their answers, for a program that is proved to replay them: what stands on its
//! standard input, and what it must write. README.txt says how; the answers are those of `calls`.

mod walk;

use self::walk::walks;
use crate::calls;
use crate::damage::damage;
use crate::encode::encode;
use crate::finding::{CAUSES, FIELDTYPES, Finding, GROUP, LOOKUP, PGN};
use crate::generate::{Generator, pack_of_digits};
use crate::matches::Row;
use crate::reader::{LIMIT, Loaded, Refusal, read};
use crate::report::worked_example;
use crate::{matches, text, words};
use std::collections::HashMap;
use std::fs;
use std::path::Path;

const SEED: u64 = 2000;
/// Longer packs would fill the recording with what short ones show as well.
const LONGEST: usize = 1400;
const README: &str = "\
Recorded cases, made by `harness record` (seed 2000) from the harness's own reader, rules and walk, which its
differential runs compare with the Rust checker, but for hexadecimal matches, which it does not know. A case is kept
where it reaches something that few before it reached: a refusal, a rule's cause, a place, an end of the walk, a form of
match that is hexadecimal or nearly so, with how it fares.

Each folder has `stdin`, the number of cases and then the cases, and `stdout`, the lines that a program must write for
them. In `stdin` a number has 4 bytes, lowest first, a reading 8; a pack is its length and its bytes, but one of more
than 65536 bytes is zeros, and only its length stands there. Before the call a work buffer of load and walk holds 165
everywhere, a text buffer of place 46, a full stop, a visit buffer 170. In check and place no work or findings buffer has
more than 1024 numbers.

load    a case: length of the work buffer, pack
        lines:  refused NUMBER DETAIL
           or   records N, then for field types, lookups and trees 0 to 2 the count and the work position of the first
                work NUMBER .. (the whole buffer after the call, refused or not)
check   a case: pack, length of the work buffer, length of the findings buffer
        lines:  refused NUMBER DETAIL
           or   a line for each finding, its eight numbers and its place text, then: findings N errors N
        Packs, some of them damaged: every rule and cause, every place, every form of match, refusals 1 to 9, 21 and 22.
place   a case: pack, length of the work buffer, place, tree, item, length of the text buffer
        lines:  refused NUMBER DETAIL (only where it is refused)
                text BYTES (the whole buffer after the call, refused or not)
        Texts of every place and tree, refusals 1 to 8, 21, 23 and 24. All bytes of a text are printable ASCII.
walk    a case: pack, length of the work buffer, tree, index of the PGN, length of the visit buffer, number of readings,
                the readings; then a call of walk, and one of held with a work buffer of the same length
        lines:  whole N, used up N or stop NUMBER N (N visits), or refused NUMBER DETAIL
                held or not held, or refused NUMBER DETAIL
                visits NUMBER .. (the whole visit buffer after the call of walk, refused or not)
        At most 32768 bytes of pack, 1024 numbers of work, 64 readings and a visit buffer of 80. Every end, several passes
        of nested sets, PGNs held and not held, every form of match, refusals 1 to 8, 21, 23 and 25. The last cases are
        counts of all ones, which are not available in 2 to 64 bits, and the numbers next to them.
";
/// A longer pack is recorded by its length alone.
const SPELT: usize = 65_536;
/// What the work buffer of load and walk holds before the call, and the visit buffer.
const UNTOUCHED: u32 = 165;
const UNVISITED: u32 = 170;

pub fn record(folder: &Path) -> Result<(), String> {
    let write = |name: &str, bytes: &[u8]| {
        let path = folder.join(name);
        fs::create_dir_all(path.parent().unwrap()).and_then(|()| fs::write(&path, bytes)).map_err(|e| e.to_string())
    };
    write("README.txt", README.as_bytes())?;
    for (name, recording, all) in [
        ("load", load(), numbers((1..=9).chain([21]))),
        ("check", check(), all_of_check()),
        ("place", place(), numbers((1..=8).chain([21, 23, 24])).into_iter().chain(places()).collect()),
        ("walk", walks(), numbers((1..=8).chain([21, 23, 25])).into_iter().chain(walk::all()).collect()),
    ] {
        if let Some(missing) = all.iter().find(|key| !recording.reached.contains_key(*key)) {
            return Err(format!("{name}: no case for {missing}"));
        }
        let stdin = [&(recording.cases as u32).to_le_bytes(), &recording.stdin[..]].concat();
        write(&format!("{name}/stdin"), &stdin)?;
        write(&format!("{name}/stdout"), &recording.stdout)?;
        println!("{name}: {} cases, {} bytes in, {} out", recording.cases, stdin.len(), recording.stdout.len());
    }
    Ok(())
}

fn all_of_check() -> Vec<String> {
    let numbers = numbers((1..=9).chain([21, 22]));
    numbers.into_iter().chain(causes()).chain(places()).chain(matches::rows().map(match_key)).collect()
}

/// What must be reached.
fn numbers(numbers: impl IntoIterator<Item = u32>) -> Vec<String> {
    numbers.into_iter().map(|number| number.to_string()).collect()
}

fn causes() -> impl Iterator<Item = String> {
    CAUSES.into_iter().flat_map(|(rule, causes)| (1..=causes).map(move |cause| format!("R{rule}.{cause}")))
}

/// Every place and tree that a text can have.
fn places() -> impl Iterator<Item = String> {
    let places = (0..4).flat_map(|place| (0..3).map(move |tree| (place, tree)));
    let places = places.filter(|(place, tree)| *tree == 0 || matches!(*place, PGN | GROUP));
    places.map(|(place, tree)| place_key(place, tree))
}

fn place_key(place: u32, tree: u32) -> String {
    format!("place {place} tree {tree}")
}

fn match_key((form, fares): Row) -> String {
    format!("match {form} {fares}")
}

#[derive(Default)]
struct Recording {
    stdin: Vec<u8>,
    stdout: Vec<u8>,
    cases: usize,
    reached: HashMap<String, usize>,
}

impl Recording {
    /// Whether one of these was reached fewer than `times` times; if so all of them are now reached once more.
    fn wants(&mut self, times: usize, reaches: &[String]) -> bool {
        self.wants_more(times, reaches, &[])
    }

    /// The same, or whether one of `once` was never reached.
    fn wants_more(&mut self, times: usize, reaches: &[String], once: &[String]) -> bool {
        let fewer = |key: &String, times: usize| self.reached.get(key).is_none_or(|count| *count < times);
        let wanted = reaches.iter().any(|key| fewer(key, times)) || once.iter().any(|key| fewer(key, 1));
        if wanted {
            self.cases += 1;
            for key in reaches.iter().chain(once) {
                *self.reached.entry(key.clone()).or_default() += 1;
            }
        }
        wanted
    }

    fn number(&mut self, number: usize) {
        self.stdin.extend((number as u32).to_le_bytes());
    }

    fn pack(&mut self, bytes: &[u8]) {
        self.number(bytes.len());
        if bytes.len() <= SPELT {
            self.stdin.extend(bytes);
        } else {
            assert!(bytes.iter().all(|byte| *byte == 0), "a long pack of zeros");
        }
    }

    fn line(&mut self, line: &[u8]) {
        self.stdout.extend(line);
        self.stdout.push(b'\n');
    }

    fn refused(&mut self, refusal: Refusal) {
        self.line(format!("refused {} {}", refusal.number, refusal.detail).as_bytes());
    }
}

/// Numbers with a blank before each.
fn spaced<T: ToString>(numbers: impl IntoIterator<Item = T>) -> String {
    numbers.into_iter().map(|number| format!(" {}", number.to_string())).collect()
}

/// The packs that come first in every recording: 01's worked example and the sample.
fn first_packs() -> [Vec<u8>; 2] {
    let sample = text::to_bytes(include_str!("../../samples/sample.txt")).expect("the sample");
    [encode(&worked_example()).bytes, sample]
}

fn load() -> Recording {
    let mut out = Recording::default();
    let mut generator = Generator::new(SEED);
    let one = |out: &mut Recording, bytes: &[u8], lent: fn(usize) -> usize| {
        let lent = lent(read(bytes).map_or(3, |loaded| loaded.records.len()));
        let mut work = vec![UNTOUCHED; lent];
        let answer = calls::load(bytes, &mut work);
        let key = answer.map_or_else(|refusal| refusal.number.to_string(), |_| "accepted".into());
        if !out.wants(6, &[key]) {
            return;
        }
        out.number(lent);
        out.pack(bytes);
        match answer {
            Err(refusal) => out.refused(refusal),
            Ok(answer) => out.line(format!("records{}", spaced(answer)).as_bytes()),
        }
        out.line(format!("work{}", spaced(&work)).as_bytes());
    };
    for bytes in first_packs() {
        one(&mut out, &bytes, |needed| needed);
    }
    for length in [LIMIT, LIMIT + 1] {
        one(&mut out, &vec![0; length], |needed| needed);
    }
    for case in 0..1000 {
        let encoded = encode(&generator.pack(true));
        if encoded.bytes.len() > LONGEST {
            continue;
        }
        let lent: fn(usize) -> usize =
            if case % 4 == 0 { |needed| needed.saturating_sub(1) } else { |needed| needed + 2 };
        one(&mut out, &encoded.bytes, lent);
        one(&mut out, &damage(&mut generator.rng, &encoded).bytes, |needed| needed);
    }
    out
}

/// A case of check is kept where it reaches something that this many before it did not reach.
const CHECKS: usize = 8;
/// No buffer of check or place has more numbers.
const MOST: usize = 1024;

fn check() -> Recording {
    let mut out = Recording::default();
    let mut generator = Generator::new(SEED);
    let first = first_packs();
    for bytes in &first {
        one_check(&mut out, bytes, [0, 0]);
    }
    one_check(&mut out, &vec![0; LIMIT + 1], [0, 0]);
    // R11 wants more fields than a short pack has
    for (longest, count) in [(LONGEST - 200, 30_000), (4 * LONGEST, 4_000)] {
        for case in 0..count {
            let encoded = encode(&generator.pack(false));
            if encoded.bytes.len() < longest {
                one_check(&mut out, &encoded.bytes, [usize::from(case % 31 == 0), usize::from(case % 32 == 0)]);
                if case % 8 == 0 {
                    one_check(&mut out, &damage(&mut generator.rng, &encoded).bytes, [0, 0]);
                }
            }
        }
    }
    out
}

/// The matches of a pack that has been read.
fn matches_of(read: &Result<Loaded, Refusal>) -> Vec<String> {
    let Ok(Loaded { pack, .. }) = read else { return Vec::new() };
    let fields = pack.trees.iter().flatten().flat_map(|pgn| &pgn.fields);
    fields.filter_map(|field| matches::row(pack, field)).map(match_key).collect()
}

/// A call of check whose work and findings buffers are `less` shorter than they should be.
fn one_check(out: &mut Recording, bytes: &[u8], less: [usize; 2]) {
    let read = read(bytes);
    let list = calls::found(&read);
    let work_lent = read.as_ref().map_or(3, |loaded| loaded.records.len()).saturating_sub(less[0]);
    let lent = (8 * list.len()).saturating_sub(less[1]);
    let mut findings = vec![0; lent];
    let answer = calls::check_as_read(&read, &list, &mut vec![0; work_lent], &mut findings);
    let reaches: Vec<String> = match answer {
        Ok([_, errors]) => {
            let found = list.iter().map(|finding| format!("R{}.{}", finding.rule, finding.cause));
            let places = list.iter().map(|finding| place_key(finding.place, finding.tree));
            let clean = (errors == 0).then(|| "clean".to_string());
            found.chain(places).chain(clean).collect()
        }
        Err(refusal) => vec![refusal.number.to_string()],
    };
    let matches = if answer.is_ok() { matches_of(&read) } else { Vec::new() };
    if work_lent.max(lent) > MOST || !out.wants_more(CHECKS, &reaches, &matches) {
        return;
    }
    out.pack(bytes);
    out.number(work_lent);
    out.number(lent);
    let [count, errors] = match answer {
        Ok(answer) => answer,
        Err(refusal) => return out.refused(refusal),
    };
    for finding in &list {
        let mut line = spaced(finding.numbers()).trim_start().as_bytes().to_vec();
        let Finding { place, tree, item, .. } = *finding;
        let mut text = vec![0; bytes.len() + 64];
        let length = calls::place_text_as_read(&read, &mut vec![0; work_lent], place, tree, item, &mut text);
        let [length] = length.expect("a finding's place is in the pack");
        line.push(b' ');
        line.extend(&text[..length as usize]);
        out.line(&line);
    }
    out.line(format!("findings {count} errors {errors}").as_bytes());
}

fn place() -> Recording {
    let mut out = Recording::default();
    let mut generator = Generator::new(SEED);
    let [example, sample] = first_packs();
    for (place, item) in [(0, 0), (1, 0), (2, 0), (3, 127488)] {
        one_place(&mut out, &example, [place, 0, item], [0, 0], 1);
    }
    one_place(&mut out, &sample, [LOOKUP, 0, 3], [0, 0], 1);
    // each number of digits, which no other case shows
    let digits = pack_of_digits();
    let bytes = encode(&digits).bytes;
    for (item, pgn) in digits.trees[0].iter().enumerate() {
        let tree = item as u32 % 3;
        one_place(&mut out, &bytes, [PGN, tree, item as u32], [0, 0], usize::MAX);
        one_place(&mut out, &bytes, [GROUP, tree, pgn.pgn], [0, 2], usize::MAX);
    }
    for case in 0..6_000 {
        let encoded = encode(&generator.pack(false));
        if encoded.bytes.len() > LONGEST / 2 {
            continue;
        }
        let rng = &mut generator.rng;
        let place = rng.below(5) as u32;
        let tree = if matches!(place, FIELDTYPES | LOOKUP) && rng.chance(7, 8) { 0 } else { rng.below(4) as u32 };
        let loaded = read(&encoded.bytes).expect("a good pack");
        let numbers: Vec<u32> = loaded.pack.trees.iter().flatten().map(|pgn| pgn.pgn).collect();
        let item = match place {
            GROUP if !numbers.is_empty() => *rng.pick(&numbers),
            _ => rng.below(4) as u32,
        };
        let less = [usize::from(rng.chance(1, 8)), rng.below(4)];
        one_place(&mut out, &encoded.bytes, [place, tree, item], less, 5);
        if case % 4 == 0 {
            one_place(&mut out, &damage(rng, &encoded).bytes, [place, tree, item], [0, 0], 2);
        }
    }
    out
}

/// A call of place text whose work buffer is `less[0]` shorter than it should be; the text buffer has the length needed,
/// or with `less[1]` 1, 2 or 3 it is 1 shorter, 3 longer, or empty. The case is kept where fewer than `times` are like it.
fn one_place(out: &mut Recording, bytes: &[u8], at: [u32; 3], less: [usize; 2], times: usize) {
    let [place, tree, item] = at;
    let read = read(bytes);
    let loaded = read.as_ref().ok();
    let expected = loaded.and_then(|loaded| words::place_text(&loaded.pack, place, tree, item));
    let needed = expected.as_ref().map_or(8, Vec::len);
    let work_lent = loaded.map_or(3, |loaded| loaded.records.len()).saturating_sub(less[0]);
    let lent = [needed, needed - 1, needed + 3, 0][less[1]];
    let mut text = vec![b'.'; lent];
    let answer = calls::place_text_as_read(&read, &mut vec![0; work_lent], place, tree, item, &mut text);
    let reached = match answer {
        Ok(_) => place_key(place, tree),
        Err(refusal) => refusal.number.to_string(),
    };
    let more = format!("{reached}, {} {}", less[0], less[1]);
    let printable = expected.is_none_or(|text| text.iter().all(|byte| matches!(byte, b' '..=b'~')));
    if !printable || work_lent > MOST || !out.wants(times, &[reached, more]) {
        return;
    }
    out.pack(bytes);
    for number in [work_lent, place as usize, tree as usize, item as usize, lent] {
        out.number(number);
    }
    if let Err(refusal) = answer {
        out.refused(refusal);
    }
    out.line(&[b"text ", &text[..]].concat());
}
