//! The differential runs: random packs, the same question to two sides, a table of what was reached.

mod case;
mod check;
mod growing;
mod lent;
mod place;
mod rust;
mod spns;
mod walk;

use self::check::check;
use self::growing::Growing;
use self::lent::Lent;
use self::place::place;
use self::rust::rust;
use self::spns::spns;
use self::walk::walk;
use crate::calls;
use crate::damage::damage;
use crate::encode::encode;
use crate::generate::{Generator, packs_of_sizes};
use crate::reader::{LIMIT, Loaded, Refusal, read};
use crate::table::{RuleTable, Table};
use crate::value::Pack;
use crate::words::{Words, words};
use crate::{library, oracle, rules};
use std::fmt;

/// What went wrong, in words; the run goes no further.
pub type Failure = String;

type Run = Result<(), Failure>;

/// A run from a seed over so many packs, for place over so many numbers, for the walk over so many triples of pack, PGN
/// and readings.
pub type RunOver = fn(u64, usize) -> Run;

/// The runs by name.
pub const RUNS: [(&str, RunOver); 7] = [
    ("oracle", oracle),
    ("load", load),
    ("check", check),
    ("place", place),
    ("spns", spns),
    ("rust", rust),
    ("walk", walk),
];

/// Of packs with few fields and many hexadecimal matches check and walk try so many, beside packs that have some by chance.
const PACKS_OF_MATCHES: usize = 1000;

/// The packs of a run that were compared with the oracle, and those that were not.
#[derive(Default)]
struct Compared {
    packs: usize,
    left_out: usize,
}

impl Compared {
    /// Whether this pack is compared too: one with a hexadecimal match is not.
    fn takes(&mut self, pack: &Pack) -> bool {
        let takes = !pack.has_hexadecimal_match();
        *(if takes { &mut self.packs } else { &mut self.left_out }) += 1;
        takes
    }
}

impl fmt::Display for Compared {
    fn fmt(&self, f: &mut fmt::Formatter) -> fmt::Result {
        write!(f, "{} packs compared, {} left out for a match that begins with 0x or 0X", self.packs, self.left_out)
    }
}

/// The oracle against `rules`, through the words.
pub fn oracle(seed: u64, count: usize) -> Run {
    if !oracle::PRESENT {
        println!("oracle: skipped, its files were not there at build time (KEEL_SRC names their folder)");
        return Ok(());
    }
    let mut generator = Generator::new(seed);
    let mut table = RuleTable::new();
    let mut kinds = Table::new("packs", ["no finding", "no error", "errors"].map(String::from));
    let mut compared = Compared::default();
    for case in 0..count {
        let pack = generator.pack(false);
        if !compared.takes(&pack) {
            continue;
        }
        let findings = rules::check(&pack);
        let expected = oracle::violations(&pack).ok_or("a generated pack is not UTF-8")?;
        let ours: Vec<Words> = findings.iter().map(|finding| words(&pack, finding)).collect();
        if ours != expected {
            return Err(format!("case {case}, {}\n{pack:#?}", difference(&ours, &expected)));
        }
        for finding in &findings {
            table.hit(finding.rule, finding.cause);
        }
        kinds.reached(if findings.is_empty() {
            "no finding"
        } else if findings.iter().any(|finding| finding.is_error()) {
            "errors"
        } else {
            "no error"
        });
    }
    println!(
        "oracle: {count} packs, seed {seed}: {compared}; of those compared the rules' findings are the oracle's violations, \
         word for word"
    );
    finish(&[&table.table, &kinds])
}

/// The first finding of which the words differ.
fn difference(ours: &[Words], expected: &[Words]) -> String {
    let at = ours.iter().zip(expected).take_while(|(a, b)| a == b).count();
    format!("finding {at}:\n  ours   {:?}\n  oracle {:?}", ours.get(at), expected.get(at))
}

/// Keeps a pack that shows a difference, and says where.
fn keep(bytes: &[u8]) -> String {
    let path = std::env::temp_dir().join("difference.pack");
    match std::fs::write(&path, bytes) {
        Ok(()) => format!("the pack of {} bytes is in {}", bytes.len(), path.display()),
        Err(error) => format!("the pack of {} bytes could not be written: {error}", bytes.len()),
    }
}

/// Prints the tables; a row never reached is a failure.
fn finish(tables: &[&Table]) -> Run {
    let mut never = Vec::new();
    for table in tables {
        print!("{table}");
        never.extend(table.never_reached());
    }
    if never.is_empty() { Ok(()) } else { Err(format!("never reached: {}", never.join(", "))) }
}

/// The reader against the encoder and against what damage must bring; `load` against the library, where it is linked.
pub fn load(seed: u64, count: usize) -> Run {
    if !library::PRESENT {
        println!("load: no library linked (SARWYMP_LIB names its folder), so only the reader is tried");
    }
    let mut generator = Generator::new(seed);
    let numbers = (1..=9).chain([21]).map(|number| number.to_string());
    let mut table = Table::new("answers of load", ["accepted".to_string()].into_iter().chain(numbers));
    let mut known = Table::new("refusals known from the damage", (1..=9).map(|number| number.to_string()));
    for pack in packs_of_sizes(seed) {
        one_pack(&mut generator, &pack, &mut table, &mut known)?;
    }
    for bytes in short_inputs() {
        one_input(&mut generator, &bytes, &read(&bytes), &mut table)?;
    }
    for case in 0..count {
        let bytes = generator.rng.chance(1, 2);
        let pack = generator.pack(bytes);
        one_pack(&mut generator, &pack, &mut table, &mut known).map_err(|failure| format!("case {case}: {failure}"))?;
    }
    println!("load: {count} packs with 3 damaged copies each, seed {seed}, and every short input: no difference");
    finish(&[&table, &known])
}

/// 9 is tested first.
const TOO_LONG: Refusal = Refusal { number: 9, detail: 0 };

/// A pack and three damaged copies of it, read and loaded.
fn one_pack(generator: &mut Generator, pack: &Pack, table: &mut Table, known: &mut Table) -> Run {
    let encoded = encode(pack);
    let answer = read(&encoded.bytes);
    let good = match &answer {
        Ok(loaded) => loaded.pack == *pack && loaded.records == encoded.records && encoded.bytes.len() <= LIMIT,
        Err(refusal) => *refusal == TOO_LONG && encoded.bytes.len() > LIMIT,
    };
    if !good {
        return Err(format!("{} bytes, read back {answer:?}\n{pack:#?}", encoded.bytes.len()));
    }
    one_load(generator, &encoded.bytes, &answer, table)?;
    for _ in 0..3 {
        let damaged = damage(&mut generator.rng, &encoded);
        let expected = if damaged.bytes.len() > LIMIT { Some(TOO_LONG) } else { damaged.expected };
        let answer = read(&damaged.bytes);
        if let Some(expected) = expected {
            known.hit(expected.number as usize - 1);
            if answer.as_ref().err() != Some(&expected) {
                return Err(format!("expected {expected:?}, read {answer:?}\n{}", keep(&damaged.bytes)));
            }
        }
        one_input(generator, &damaged.bytes, &answer, table)?;
    }
    Ok(())
}

/// Version 1, and every run of at most seven bytes that stand at an edge of what a byte can mean.
fn short_inputs() -> impl Iterator<Item = Vec<u8>> {
    const EDGES: [u8; 6] = [0, 1, 2, 0x7f, 0x80, 0xff];
    let runs = |length: u32| (0..EDGES.len().pow(length)).map(move |which| (length, which));
    (0..=7).flat_map(runs).map(|(length, which)| {
        let edge = |place| EDGES[which / EDGES.len().pow(place) % EDGES.len()];
        [1].into_iter().chain((0..length).map(edge)).collect()
    })
}

/// Bytes that may be refused, read and loaded.
fn one_input(generator: &mut Generator, bytes: &[u8], read: &Result<Loaded, Refusal>, table: &mut Table) -> Run {
    // No other bytes give the same pack.
    if let Ok(loaded) = read
        && encode(&loaded.pack).bytes != bytes
    {
        return Err(format!("accepted, but written otherwise: {}", keep(bytes)));
    }
    one_load(generator, bytes, read, table)
}

/// One call of load with some length of work buffer, by the model and by the library; numbers beyond the part that is
/// lent stay as they are.
fn one_load(generator: &mut Generator, bytes: &[u8], read: &Result<Loaded, Refusal>, table: &mut Table) -> Run {
    let needed = read.as_ref().map_or(4, |loaded| loaded.records.len());
    let lent = match generator.rng.below(8) {
        0 if needed > 0 => needed - 1,
        1 => generator.rng.below(needed + 1),
        2 => needed + generator.rng.below(5),
        _ => needed,
    };
    let mut work = Lent::numbers(lent);
    let answer = calls::load_as_read(read, work.part());
    // rows: accepted, 1 to 9, 21
    table.hit(answer.map_or_else(|refusal| refusal.number.min(10) as usize, |_| 0));
    let mut other = Lent::numbers(lent);
    if let Some(theirs) = library::load(bytes, other.part())
        && (theirs != library::as_numbers(answer) || other != work)
    {
        let work = work.unlike(&other);
        return Err(format!("work of {lent}: {answer:?}, the library {theirs:?}; work {work}\n{}", keep(bytes)));
    }
    Ok(())
}
