//! The library against the Rust: its findings in the Rust's words, with its place texts, beside the oracle's violations.

use super::{Compared, Failure, Growing, Run, difference, finish, keep};
use crate::encode::{Encoded, encode};
use crate::finding::Finding;
use crate::generate::{Generator, packs_of_sizes};
use crate::reader::LIMIT;
use crate::table::{RuleTable, Table};
use crate::value::Pack;
use crate::words::{Words, words_at};
use crate::{library, oracle};
use std::panic::{AssertUnwindSafe, catch_unwind};

/// Of a longer pack not every place text is asked for: each call reads the pack again.
const SHORT: usize = 65_536;

/// The library against the oracle, order, message and place included; nothing where one of them is not there.
pub fn rust(seed: u64, count: usize) -> Run {
    if !library::PRESENT {
        println!("rust: skipped, no library is linked (SARWYMP_LIB names its folder)");
        return Ok(());
    }
    if !oracle::PRESENT {
        println!("rust: skipped, the oracle's files were not there at build time (KEEL_SRC names their folder)");
        return Ok(());
    }
    let mut run = RustRun {
        rules: RuleTable::new(),
        kinds: Table::new("packs", ["no finding", "no error", "errors"].map(String::from)),
        library: Growing::new(),
        compared: Compared::default(),
    };
    for (case, pack) in packs_of_sizes(seed).enumerate() {
        let encoded = encode(&pack);
        if encoded.bytes.len() <= LIMIT {
            run.one_pack(case, &pack, &encoded).map_err(|failure| format!("packs of sizes, {failure}"))?;
        }
    }
    let mut generator = Generator::new(seed);
    for case in 0..count {
        let pack = generator.pack(false);
        run.one_pack(case, &pack, &encode(&pack))?;
    }
    println!(
        "rust: {count} packs, seed {seed}, and some of up to 1 MiB: {}; of those compared the library's findings and place \
         texts are the oracle's violations, word for word",
        run.compared
    );
    finish(&[&run.rules.table, &run.kinds])
}

struct RustRun {
    rules: RuleTable,
    kinds: Table,
    library: Growing,
    compared: Compared,
}

impl RustRun {
    fn one_pack(&mut self, case: usize, pack: &Pack, encoded: &Encoded) -> Run {
        if !self.compared.takes(pack) {
            return Ok(());
        }
        let say = |failure: Failure| format!("case {case}: {failure}\n{}", keep(&encoded.bytes));
        let (findings, errors) = self.library.check(&encoded.bytes).map_err(say)?;
        let mut ours = Vec::with_capacity(findings.len());
        let step = if encoded.bytes.len() > SHORT { 1 + findings.len() / 64 } else { 1 };
        for (i, finding) in findings.iter().enumerate() {
            let text = if i % step == 0 {
                self.library.place_text(&encoded.bytes, finding).map_err(say)?
            } else {
                crate::words::place_text(pack, finding.place, finding.tree, finding.item).unwrap_or_default()
            };
            ours.push(in_words(pack, finding, &text).map_err(say)?);
        }
        let expected = oracle::violations(pack).ok_or("a generated pack is not UTF-8")?;
        if ours != expected {
            return Err(say(difference(&ours, &expected)));
        }
        if errors != expected.iter().filter(|words| words.error).count() as u64 {
            return Err(say(format!("the library counts {errors} errors")));
        }
        for finding in &findings {
            self.rules.hit(finding.rule, finding.cause);
        }
        self.kinds.hit(match (findings.len(), errors) {
            (0, _) => 0,
            (_, 0) => 1,
            _ => 2,
        });
        Ok(())
    }
}

/// The words of a finding that may be wrong: its numbers may say nothing of the pack.
fn in_words(pack: &Pack, finding: &Finding, place: &[u8]) -> Result<Words, Failure> {
    if finding.severity > 1 {
        return Err(format!("a severity that is none: {finding:?}"));
    }
    catch_unwind(AssertUnwindSafe(|| words_at(pack, finding, place)))
        .map_err(|_| format!("a finding that says nothing of the pack: {finding:?}"))
}
