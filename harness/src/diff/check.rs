//! The check and place text calls, with buffers of many lengths: what the model answers and leaves in the buffers, and
//! the library beside it.

use super::case::{Answers, Case, Lengths};
use super::{Lent, PACKS_OF_MATCHES, Run, finish, keep, short_inputs};
use crate::damage::damage;
use crate::encode::encode;
use crate::finding::{FIELDTYPES, GROUP, LOOKUP, PGN};
use crate::generate::{Generator, hexadecimal_packs_of_sizes, pack_of_digits, packs_of_sizes};
use crate::matches::Matches;
use crate::table::{RuleTable, Table};
use crate::value::Pack;
use crate::{calls, library, words};

/// Packs up to this size are tried with many calls, longer ones with a few.
const SHORT: usize = 16 * 1024;

/// `calls::check` and `calls::place_text` against what 01 says of the buffers, and against the library where it is linked.
pub fn check(seed: u64, count: usize) -> Run {
    if !library::PRESENT {
        println!("check: no library linked (SARWYMP_LIB names its folder), so only the model of the calls is tried");
    }
    let mut run = CheckRun::new(seed);
    for pack in packs_of_sizes(seed).chain(hexadecimal_packs_of_sizes(seed)).chain([pack_of_digits()]) {
        run.pack_and_damaged(&pack, 1)?;
    }
    for bytes in short_inputs() {
        run.one_each(&Case::new(&bytes))?;
    }
    for case in 0..PACKS_OF_MATCHES {
        let pack = run.generator.pack_of_matches();
        run.pack_and_damaged(&pack, 0).map_err(|failure| format!("matches, case {case}: {failure}"))?;
    }
    for case in 0..count {
        let bytes = run.generator.rng.chance(1, 2);
        let pack = run.generator.pack(bytes);
        run.pack_and_damaged(&pack, 2).map_err(|failure| format!("case {case}: {failure}"))?;
    }
    println!(
        "check: {count} packs with 2 damaged copies each, {PACKS_OF_MATCHES} of hexadecimal matches, seed {seed}, and every \
         short input: no difference"
    );
    let tables = [&run.rules.table, &run.matches.table, &run.checks.table, &run.texts.table, &run.places];
    finish(&[&tables[..], &[&run.lengths.table]].concat())
}

/// The buffers whose lengths are varied.
const BUFFERS: [&str; 3] = ["work", "findings", "text"];

struct CheckRun {
    generator: Generator,
    rules: RuleTable,
    matches: Matches,
    checks: Answers,
    texts: Answers,
    places: Table,
    lengths: Lengths,
}

impl CheckRun {
    fn new(seed: u64) -> Self {
        let places = (0..4).flat_map(|place| (0..3).map(move |tree| (place, tree)));
        let places = places.filter(|(place, tree)| *tree == 0 || matches!(*place, PGN | GROUP));
        CheckRun {
            generator: Generator::new(seed),
            rules: RuleTable::new(),
            matches: Matches::new(),
            checks: Answers::new("answers of check", "findings", &[21, 22]),
            texts: Answers::new("answers of place text", "text", &[21, 23, 24]),
            places: Table::new("place texts", places.map(|(place, tree)| place_row(place, tree))),
            lengths: Lengths::new(&BUFFERS),
        }
    }

    /// A pack and so many damaged copies of it.
    fn pack_and_damaged(&mut self, pack: &Pack, copies: usize) -> Run {
        let encoded = encode(pack);
        let case = Case::new(&encoded.bytes);
        for finding in &case.list {
            self.rules.hit(finding.rule, finding.cause);
        }
        if case.bytes.len() <= SHORT {
            self.many(&case)?;
        } else {
            self.few(&case)?;
        }
        for _ in 0..copies {
            let damaged = damage(&mut self.generator.rng, &encoded);
            self.one_each(&Case::new(&damaged.bytes))?;
        }
        Ok(())
    }

    /// Two calls of check, the place text of every finding, and of places that may be there or not.
    fn many(&mut self, case: &Case) -> Run {
        for _ in 0..2 {
            self.check(case)?;
        }
        for finding in &case.list {
            self.place_text(case, finding.place, finding.tree, finding.item)?;
        }
        for _ in 0..4 {
            let (place, tree, item) = self.some_place(case);
            self.place_text(case, place, tree, item)?;
        }
        Ok(())
    }

    /// A call of check with room for everything, and the place texts of some findings.
    fn few(&mut self, case: &Case) -> Run {
        self.check_lent(case, case.records().len(), 8 * case.list.len())?;
        for finding in case.list.iter().step_by(1 + case.list.len() / 8) {
            self.place_text(case, finding.place, finding.tree, finding.item)?;
        }
        self.place_text(case, PGN, 0, 0)
    }

    /// A call of each.
    fn one_each(&mut self, case: &Case) -> Run {
        self.check(case)?;
        let (place, tree, item) = self.some_place(case);
        self.place_text(case, place, tree, item)
    }

    /// Places 0 to 5 and trees 0 to 4; an index near those that are there, a PGN's number, or any.
    fn some_place(&mut self, case: &Case) -> (u32, u32, u32) {
        let rng = &mut self.generator.rng;
        let pgns: Vec<u32> = match &case.read {
            Ok(loaded) => loaded.pack.trees.iter().flatten().map(|pgn| pgn.pgn).collect(),
            Err(_) => Vec::new(),
        };
        let place = if rng.chance(1, 8) { rng.between(4, 5) } else { rng.below(4) } as u32;
        let tree = match place {
            FIELDTYPES | LOOKUP if !rng.chance(1, 4) => 0,
            _ if rng.chance(1, 8) => rng.between(3, 4) as u32,
            _ => rng.below(3) as u32,
        };
        let item = match rng.below(16) {
            0 => *rng.pick(&[u32::MAX, 1 << 31, 1 << 24, 0x10000, 256]),
            1 => rng.u64() as u32,
            2..=6 if !pgns.is_empty() && place != GROUP => *rng.pick(&pgns),
            _ if !pgns.is_empty() && place == GROUP => rng.pick(&pgns).wrapping_add(rng.chance(1, 8).into()),
            _ => rng.below(14) as u32,
        };
        (place, tree, item)
    }

    /// The length that is needed or some other, for a buffer of `BUFFERS`.
    fn length(&mut self, buffer: usize, needed: usize) -> usize {
        self.lengths.pick(&mut self.generator.rng, buffer, needed)
    }

    fn check(&mut self, case: &Case) -> Run {
        let work = self.length(0, case.records().len());
        let findings = self.length(1, 8 * case.list.len());
        self.check_lent(case, work, findings)
    }

    fn check_lent(&mut self, case: &Case, work_lent: usize, findings_lent: usize) -> Run {
        let (mut work, mut findings) = (Lent::numbers(work_lent), Lent::numbers(findings_lent));
        let answer = calls::check_as_read(&case.read, &case.list, work.part(), findings.part());
        let number = answer.err().map_or(0, |refusal| refusal.number);
        self.checks.hit(number);
        let mut findings_after = Lent::numbers(findings_lent);
        if number == 0 {
            let numbers: Vec<u32> = case.list.iter().flat_map(|finding| finding.numbers()).collect();
            findings_after = findings_after.with(&numbers);
        }
        let said = || format!("check, work of {work_lent}, findings of {findings_lent}: {answer:?}");
        if work != case.work_after(work_lent, number) || findings != findings_after {
            return Err(format!("{}: the model's buffers are not as 01 has them\n{}", said(), keep(case.bytes)));
        }
        let (mut their_work, mut their_findings) = (Lent::numbers(work_lent), Lent::numbers(findings_lent));
        if let Some(theirs) = library::check(case.bytes, their_work.part(), their_findings.part())
            && (theirs != library::as_numbers(answer) || their_work != work || their_findings != findings)
        {
            let (work, findings) = (work.unlike(&their_work), findings.unlike(&their_findings));
            return Err(format!(
                "{}, the library {theirs:?}; work {work}, findings {findings}\n{}",
                said(),
                keep(case.bytes)
            ));
        }
        if let (0, Ok(loaded)) = (number, &case.read) {
            let fields = loaded.pack.trees.iter().flatten().flat_map(|pgn| &pgn.fields);
            fields.for_each(|field| self.matches.judged(&loaded.pack, field));
        }
        Ok(())
    }

    fn place_text(&mut self, case: &Case, place: u32, tree: u32, item: u32) -> Run {
        let expected = case.read.as_ref().ok();
        let expected = expected.and_then(|loaded| words::place_text(&loaded.pack, place, tree, item));
        let work_lent = self.length(0, case.records().len());
        let text_lent = self.length(2, expected.as_ref().map_or(12, Vec::len));
        let (mut work, mut text) = (Lent::numbers(work_lent), Lent::bytes(text_lent));
        let answer = calls::place_text_as_read(&case.read, work.part(), place, tree, item, text.part());
        let number = answer.err().map_or(0, |refusal| refusal.number);
        self.texts.hit(number);
        let mut text_after = Lent::bytes(text_lent);
        if number == 0 {
            self.places.reached(&place_row(place, tree));
            text_after = text_after.with(&expected.unwrap_or_default());
        }
        let said =
            || format!("place {place}, tree {tree}, item {item}, work of {work_lent}, text of {text_lent}: {answer:?}");
        if work != case.work_after(work_lent, number) || text != text_after {
            return Err(format!("{}: the model's buffers are not as 01 has them\n{}", said(), keep(case.bytes)));
        }
        let (mut their_work, mut their_text) = (Lent::numbers(work_lent), Lent::bytes(text_lent));
        if let Some(theirs) = library::place_text(case.bytes, their_work.part(), place, tree, item, their_text.part())
            && (theirs != library::as_numbers(answer) || their_work != work || their_text != text)
        {
            let (work, text) = (work.unlike(&their_work), text.unlike(&their_text));
            return Err(format!("{}, the library {theirs:?}; work {work}, text {text}\n{}", said(), keep(case.bytes)));
        }
        Ok(())
    }
}

fn place_row(place: u32, tree: u32) -> String {
    match place {
        FIELDTYPES => "field types".into(),
        LOOKUP => "lookup".into(),
        PGN => format!("PGN {tree}"),
        _ => format!("group {tree}"),
    }
}
