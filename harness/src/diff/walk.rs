//! The walk and held calls over triples of pack, PGN and readings, with buffers of many lengths: what the model answers and
//! leaves in the buffers, the walk without history beside it, the walk that reads counts plainly, and the library.

use super::case::{Answers, Case, Lengths};
use super::{Lent, PACKS_OF_MATCHES, Run, finish, keep};
use crate::counts::{self, Counts, STOP_2, counters};
use crate::damage::damage;
use crate::encode::encode;
use crate::finding::Finding;
use crate::generate::{Generator, HARMFUL, hexadecimal_packs_of_sizes, packs_of_sizes};
use crate::matches::{Matches, judged_in_walk};
use crate::quick_walk::quick_walk;
use crate::table::Table;
use crate::value::{Pack, Pgn};
use crate::walk::{End, held, passes_of_nested};
use crate::{calls, library};

/// So many lists for each PGN.
const LISTS: usize = 3;
/// A long list has at least so many readings.
const LONG: usize = 1000;

/// Fields about as many as a walk can remember in a table of 256, and more: so many, each in so many packs.
const MANY_FIELDS: [usize; 5] = [64, 255, 256, 257, 600];
const MANY: usize = 40;

/// So many packs with little else than counted sets.
const PACKS_OF_COUNTS: usize = 500;

/// `calls::walk_pgn` and `calls::held_pgn` against what 01 says of the buffers, and against the library where it is linked.
/// No list brings a stop on a held PGN of a pack without error.
pub fn walk(seed: u64, count: usize) -> Run {
    if !library::PRESENT {
        println!("walk: no library linked (SARWYMP_LIB names its folder), so only the model of the calls is tried");
    }
    let mut run = WalkRun::new(seed);
    for pack in packs_of_sizes(seed).chain(hexadecimal_packs_of_sizes(seed)) {
        run.few(&pack)?;
    }
    for fields in MANY_FIELDS {
        for _ in 0..MANY {
            let pack = run.generator.pack_of_fields(fields);
            run.pack_and_damaged(&pack).map_err(|failure| format!("{fields} fields: {failure}"))?;
        }
    }
    for _ in 0..PACKS_OF_MATCHES {
        let pack = run.generator.pack_of_matches();
        run.pack_and_damaged(&pack).map_err(|failure| format!("matches, pack {}: {failure}", run.packs))?;
    }
    for _ in 0..PACKS_OF_COUNTS {
        let pack = run.generator.pack_of_counts();
        run.pack_and_damaged(&pack).map_err(|failure| format!("counts, pack {}: {failure}", run.packs))?;
    }
    while run.triples < count {
        let pack = run.some_pack();
        run.pack_and_damaged(&pack).map_err(|failure| format!("pack {}: {failure}", run.packs))?;
    }
    println!(
        "walk: {} triples (pack, PGN, list of readings) of {} packs, and {} refused calls, seed {seed}: no difference, \
         and no stop on a held PGN of a pack without error",
        run.triples, run.packs, run.refused
    );
    let tables = [&run.ends, &run.pgns, &run.lists, &run.counts, &run.safe_counts, &run.matches.table];
    finish(&[&tables[..], &[&run.walks.table, &run.helds.table, &run.lengths.table]].concat())
}

/// A walk with counts that are not available, which goes as the plain walk over 0 in their place.
const AS_ZEROS: &str = "as over zeros";

/// The buffers whose lengths are varied.
const BUFFERS: [&str; 2] = ["work", "visits"];

struct WalkRun {
    generator: Generator,
    packs: usize,
    /// calls that walked, and calls that were refused
    triples: usize,
    refused: usize,
    ends: Table,
    pgns: Table,
    lists: Table,
    /// of all walks, and of those that no list may stop
    counts: Table,
    safe_counts: Table,
    matches: Matches,
    walks: Answers,
    helds: Answers,
    lengths: Lengths,
}

/// A PGN of a pack by its place, with what is known of it.
#[derive(Clone, Copy)]
struct Named {
    tree: u32,
    item: u32,
    /// held, and of a pack without error
    safe: bool,
}

impl WalkRun {
    fn new(seed: u64) -> Self {
        let kinds = ["clean held", "clean only", "held only", "neither", "set", "counted", "nested", "empty"];
        let lists = ["empty", "short", "long", "long, safe", "again", "nested again"];
        let stops = ["stop at 0", "stop later", "stop again", "past 256", "stop past 256"];
        let harmful = HARMFUL.map(|kind| format!("{kind}, safe"));
        let counts = || counts::rows().chain([AS_ZEROS]);
        WalkRun {
            generator: Generator::new(seed),
            packs: 0,
            triples: 0,
            refused: 0,
            ends: Table::new("ends of walks", End::all().map(|end| end.to_string())),
            pgns: Table::new("PGNs", kinds.map(String::from)),
            lists: Table::new("lists walked", lists.into_iter().chain(stops).map(String::from).chain(harmful)),
            counts: Table::new("counts taken", counts().map(String::from)),
            safe_counts: Table::new("counts taken, safe", counts().filter(|row| *row != STOP_2).map(String::from)),
            matches: Matches::new(),
            walks: Answers::new("answers of walk", "walked", &[21, 23, 25]),
            helds: Answers::new("answers of held", "told", &[21, 23]),
            lengths: Lengths::new(&BUFFERS),
        }
    }

    fn some_pack(&mut self) -> Pack {
        let rng = &mut self.generator.rng;
        let mut pack = match rng.below(512) {
            0 => {
                let fields = rng.between(200, 600);
                self.generator.pack_of_fields(fields)
            }
            kind if kind % 2 == 0 => self.generator.pack_with_stops(),
            _ => {
                let bytes = rng.chance(1, 4);
                self.generator.pack(bytes)
            }
        };
        if self.generator.rng.chance(1, 2) {
            self.generator.change_counters(&mut pack);
        }
        pack
    }

    /// A long pack: some of its PGNs, one list each.
    fn few(&mut self, pack: &Pack) -> Run {
        self.packs += 1;
        let encoded = encode(pack);
        let case = Case::new(&encoded.bytes);
        for (tree, pgns) in pack.trees.iter().enumerate() {
            for item in (0..pgns.len()).step_by(1 + pgns.len() / 4).chain([pgns.len()]) {
                let readings = self.generator.readings(40);
                self.both(&case, Named { tree: tree as u32, item: item as u32, safe: false }, &readings)?;
            }
        }
        Ok(())
    }

    /// Every PGN of a pack, others that are not there, and some of a damaged copy.
    fn pack_and_damaged(&mut self, pack: &Pack) -> Run {
        self.packs += 1;
        let encoded = encode(pack);
        let case = Case::new(&encoded.bytes);
        let clean = !case.list.iter().any(Finding::is_error);
        for (tree, pgns) in pack.trees.iter().enumerate() {
            for (item, pgn) in pgns.iter().enumerate() {
                let held = held(pack, pgn);
                self.note(pgn, clean, held);
                let named = Named { tree: tree as u32, item: item as u32, safe: clean && held };
                for _ in 0..LISTS {
                    let mut readings = self.readings(pgn, named.safe);
                    if self.generator.rng.chance(1, 2) {
                        self.generator.put_counts(pack, pgn, &mut readings);
                    }
                    self.both(&case, named, &readings)?;
                }
            }
        }
        let readings = self.generator.readings(40);
        let elsewhere = self.some_place(pack);
        self.both(&case, elsewhere, &readings)?;
        let damaged = damage(&mut self.generator.rng, &encoded);
        self.both(&Case::new(&damaged.bytes), elsewhere, &readings)
    }

    /// What kind of PGN is walked.
    fn note(&mut self, pgn: &Pgn, clean: bool, held: bool) {
        self.pgns.reached(match (clean, held) {
            (true, true) => "clean held",
            (true, false) => "clean only",
            (false, true) => "held only",
            (false, false) => "neither",
        });
        let mut sets = pgn.sets.iter().flatten().filter(|set| set.count > 0);
        let has = [
            ("set", sets.clone().next().is_some()),
            ("counted", sets.clone().any(|set| set.count_field.is_some())),
            ("nested", sets.any(|set| set.nested)),
            ("empty", pgn.fields.is_empty()),
        ];
        has.iter().filter(|(_, has)| *has).for_each(|(row, _)| self.pgns.reached(row));
    }

    /// A tree and an index that are there or not.
    fn some_place(&mut self, pack: &Pack) -> Named {
        let rng = &mut self.generator.rng;
        let tree = if rng.chance(1, 4) { *rng.pick(&[3, 4, 256, 1 << 31, u32::MAX]) } else { rng.below(3) as u32 };
        let count = pack.trees.get(tree as usize).map_or(1, Vec::len) as u32;
        let item = match rng.below(4) {
            0 => rng.below(4) as u32,
            1 => *rng.pick(&[256, 1 << 16, 1 << 31, u32::MAX]),
            _ => count,
        };
        Named { tree, item, safe: false }
    }

    /// Some readings, or a list that is meant to do harm; on a PGN that no list may stop, it is a long one now and then.
    fn readings(&mut self, pgn: &Pgn, safe: bool) -> Vec<u64> {
        let most = 40 + 2 * pgn.fields.len();
        let rng = &mut self.generator.rng;
        if rng.chance(1, 2) {
            return self.generator.readings(most);
        }
        let long = safe && rng.chance(1, 32);
        let (kind, length) =
            (rng.below(HARMFUL.len()), if long { rng.between(LONG, 5 * LONG) } else { rng.below(most) });
        if safe {
            self.lists.reached(&format!("{}, safe", HARMFUL[kind]));
        }
        self.generator.harmful(kind, length, pgn)
    }

    /// The length needed, and now and then some other.
    fn length(&mut self, buffer: usize, needed: usize) -> usize {
        let rng = &mut self.generator.rng;
        if rng.chance(3, 4) { self.lengths.exact(buffer, needed) } else { self.lengths.pick(rng, buffer, needed) }
    }

    /// A call of walk and one of held.
    fn both(&mut self, case: &Case, named: Named, readings: &[u64]) -> Run {
        let (work, visits) = (self.length(0, case.records().len()), self.length(1, readings.len()));
        let call = Call { case, named, readings, work, visits };
        self.walk(&call).map_err(|failure| call.in_words("walk", &failure))?;
        let call = Call { work: self.length(0, case.records().len()), ..call };
        self.held(&call).map_err(|failure| call.in_words("held", &failure))
    }

    fn walk(&mut self, call: &Call) -> Run {
        let model = call.walk_by_model();
        self.walks.hit(model.numbers.0);
        if model.numbers.0 == 0 {
            self.note_walk(call, model.numbers.1, model.visits.lent())?;
        } else {
            self.refused += 1;
        }
        let plain = call.walk_by_quick(model.numbers);
        if plain != model {
            return Err(format!("{}, without history {}", model.numbers_in_words(), plain.unlike(&model)));
        }
        match call.walk_by_library() {
            Some(theirs) if theirs != model => {
                Err(format!("{}, the library {}", model.numbers_in_words(), theirs.unlike(&model)))
            }
            _ => {
                self.note_matches(call, &model);
                self.note_counts(call, &model)
            }
        }
    }

    /// The matches that were judged in a walk.
    fn note_matches(&mut self, call: &Call, walked: &Walked) {
        if let ((0, [end, count]), Ok(loaded), Some(pgn)) = (walked.numbers, &call.case.read, call.pgn()) {
            let visits = &walked.visits.lent()[..count as usize];
            for field in judged_in_walk(&loaded.pack, pgn, End::of_number(end), visits) {
                self.matches.judged(&loaded.pack, field);
            }
        }
    }

    /// The counts that a walk took; that one which is not available is more than a 0 is a failure.
    fn note_counts(&mut self, call: &Call, walked: &Walked) -> Run {
        let (0, Ok(loaded), Some(pgn)) = (walked.numbers.0, &call.case.read, call.pgn()) else { return Ok(()) };
        if counters(pgn).is_empty() {
            return Ok(());
        }
        let counts = Counts::new(&loaded.pack, pgn, call.readings);
        let as_zeros = counts.as_zeros();
        if let Some((false, _)) = as_zeros {
            return Err("the plain walk goes otherwise over 0 in place of each count that is not available".into());
        }
        for row in counts.reached().chain(as_zeros.filter(|(_, any)| *any).map(|_| AS_ZEROS)) {
            self.counts.reached(row);
            if call.named.safe {
                self.safe_counts.reached(row);
            }
        }
        Ok(())
    }

    /// How it ended; a stop that may not be is a failure.
    fn note_walk(&mut self, call: &Call, [end, count]: [u64; 2], visits: &[u32]) -> Run {
        self.triples += 1;
        self.ends.hit(end as usize);
        let end = End::of_number(end);
        let (length, count) = (call.readings.len(), count as usize);
        let visits = &visits[..count];
        let stops = matches!(end, End::Stop(_));
        let again = visits.windows(2).any(|pair| pair[1] <= pair[0]);
        let is = [
            ("empty", length == 0),
            ("short", length > 0 && length < LONG),
            ("long", length >= LONG),
            ("again", again),
            ("nested again", call.pgn().is_some_and(|pgn| passes_of_nested(pgn, visits) > 1)),
            ("stop at 0", stops && count == 0),
            ("stop later", stops && count > 0),
            ("stop again", stops && again),
            ("past 256", visits.iter().any(|visit| *visit > 256)),
            ("stop past 256", stops && visits.iter().any(|visit| *visit > 256)),
            ("long, safe", call.named.safe && count >= LONG),
        ];
        is.iter().filter(|(_, is)| *is).for_each(|(row, _)| self.lists.reached(row));
        if stops && call.named.safe {
            return Err(format!("{end} after {count} visits of a held PGN in a pack without error"));
        }
        if end == End::UsedUp && count != length {
            return Err(format!("used up after {count} of {length} readings"));
        }
        Ok(())
    }

    fn held(&mut self, call: &Call) -> Run {
        let (Named { tree, item, .. }, case) = (call.named, call.case);
        let mut work = Lent::numbers(call.work);
        let answer = calls::held_pgn_as_read(&case.read, work.part(), tree, item);
        let number = answer.err().map_or(0, |refusal| refusal.number);
        self.helds.hit(number);
        if work != case.work_after(call.work, number) {
            return Err(format!("{answer:?}: the model's work buffer is not as 01 has it"));
        }
        let mut their_work = Lent::numbers(call.work);
        match library::held(case.bytes, their_work.part(), tree, item) {
            Some(theirs) if theirs != library::as_numbers(answer) || their_work != work => {
                Err(format!("{answer:?}, the library {theirs:?}; work {}", work.unlike(&their_work)))
            }
            _ => Ok(()),
        }
    }
}

/// What a call is given; held is given no readings and no visit buffer.
struct Call<'a> {
    case: &'a Case<'a>,
    named: Named,
    readings: &'a [u64],
    /// the lengths of the two buffers
    work: usize,
    visits: usize,
}

/// What a call of walk answers, with the buffers as it leaves them.
#[derive(PartialEq)]
struct Walked {
    numbers: (u32, [u64; 2]),
    work: Lent<u32>,
    visits: Lent<u32>,
}

impl Walked {
    fn numbers_in_words(&self) -> String {
        format!("{:?}", self.numbers)
    }

    /// Where it is unlike the other, in words.
    fn unlike(&self, other: &Walked) -> String {
        let (work, visits) = (other.work.unlike(&self.work), other.visits.unlike(&self.visits));
        format!("{:?}; work {work}, visits {visits}", self.numbers)
    }
}

impl Call<'_> {
    /// A failure with what was called, the readings and the pack.
    fn in_words(&self, name: &str, failure: &str) -> String {
        let Named { tree, item, safe } = self.named;
        let (count, readings) = (self.readings.len(), &self.readings[..self.readings.len().min(100)]);
        format!(
            "{name}, tree {tree}, PGN {item}, safe {safe}, work of {}, visits of {}: {failure}\n{}\n{count} readings \
             {readings:?}",
            self.work,
            self.visits,
            keep(self.case.bytes)
        )
    }

    /// The PGN, where it is there.
    fn pgn(&self) -> Option<&Pgn> {
        let Named { tree, item, .. } = self.named;
        self.case.read.as_ref().ok()?.pack.trees.get(tree as usize)?.get(item as usize)
    }

    fn walk_by_model(&self) -> Walked {
        let (mut work, mut visits) = (Lent::numbers(self.work), Lent::numbers(self.visits));
        let Named { tree, item, .. } = self.named;
        let read = &self.case.read;
        let answer = calls::walk_pgn_as_read(read, work.part(), tree, item, self.readings, visits.part());
        Walked { numbers: library::as_numbers(answer), work, visits }
    }

    fn walk_by_library(&self) -> Option<Walked> {
        let (mut work, mut visits) = (Lent::numbers(self.work), Lent::numbers(self.visits));
        let Named { tree, item, .. } = self.named;
        let numbers = library::walk(self.case.bytes, work.part(), tree, item, self.readings, visits.part())?;
        Some(Walked { numbers, work, visits })
    }

    /// By the walk without history where the model is not refused, with the buffers as 01 has them.
    fn walk_by_quick(&self, mut numbers: (u32, [u64; 2])) -> Walked {
        let work = self.case.work_after(self.work, numbers.0);
        let mut visits = Lent::numbers(self.visits);
        if let (0, Ok(loaded), Some(pgn)) = (numbers.0, &self.case.read, self.pgn()) {
            let mut visited = vec![u32::MAX; self.readings.len()];
            let (end, count) = quick_walk(&loaded.pack, pgn, self.readings, &mut visited);
            numbers.1 = [end.number(), count as u64];
            visits = visits.with(&visited[..count]);
        }
        Walked { numbers, work, visits }
    }
}
