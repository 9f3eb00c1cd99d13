//! The cases of walk and held.

use super::{LONGEST, Recording, SEED, UNTOUCHED, UNVISITED, first_packs, match_key, spaced};
use crate::calls;
use crate::counts::{self, Counts};
use crate::damage::damage;
use crate::encode::encode;
use crate::generate::Generator;
use crate::matches::{self, judged_in_walk};
use crate::reader::{Loaded, Refusal, read};
use crate::text::{to_bytes, to_pack};
use crate::value::Pgn;
use crate::walk::{End, Walked, held, passes_of_nested, walk};
use std::ops::RangeInclusive;

/// The buffers of the program that replays: no case has more.
const BYTES: usize = 32_768;
const WORK: usize = 1024;
const READINGS: usize = 64;
const VISITS: usize = 80;

/// What must be reached beside the refusals.
pub fn all() -> impl Iterator<Item = String> {
    let more = ["held", "not held", NESTED_PASSES, WITHIN_A_SET, LONGER, NO_VISIT_BUFFER, OTHER_REFUSALS];
    let rows = matches::rows().map(match_key).chain(counts::rows().map(count_key));
    End::all().map(|end| end.to_string()).chain(more.map(String::from)).chain(rows)
}

fn count_key(row: &str) -> String {
    format!("count {row}")
}

const NESTED_PASSES: &str = "several passes of a nested set in several of the outer";
const WITHIN_A_SET: &str = "used up within a set";
const LONGER: &str = "a visit buffer longer than the visits";
const NO_VISIT_BUFFER: &str = "no reading and no visit buffer";
const OTHER_REFUSALS: &str = "walk refused by 25, held not";

/// f1 counts f2 to f5, f3 counts f4 within.
const NESTED: &str = "
type NUMBER prints
tree nmea2000
pgn 126208 nested Fast
  set 1 start 2 count 4 countField 1
  set 2 start 4 count 1 countField 3 nested
  field f1 F1 NUMBER bits 8
  field f2 F2 NUMBER bits 8
  field f3 F3 NUMBER bits 8
  field f4 F4 NUMBER bits 8
  field f5 F5 NUMBER bits 8
  field f6 F6 NUMBER bits 8
";

pub fn walks() -> Recording {
    let mut out = Recording::default();
    let [example, sample] = first_packs();
    one_walk(&mut out, &example, [0, 0], &[1, 2], [0, 0], 1);
    for (tree, pgn) in [(0, 1), (0, 14), (1, 1)] {
        one_walk(&mut out, &sample, [tree, pgn], &[4; READINGS], [0, 2], usize::MAX);
    }
    let nested = to_bytes(NESTED).expect("the nested sets");
    let readings: [&[u64]; 7] = [
        &[],
        &[0, 9],
        &[2, 7, 2, 7, 7, 7, 7, 3, 7, 7, 7, 7, 9],
        &[2, 7, 2, 7, 7, 7, 7, 3, 7, 7],
        &[3, 7, 0, 7, 7, 1, 7, 7, 7, 0, 7, 9, 9, 9],
        &[1 << 32, 7, (1 << 32) + 1, 7, 7, 7],
        &[u64::MAX; READINGS],
    ];
    for readings in readings {
        one_walk(&mut out, &nested, [0, 0], readings, [0, 2], usize::MAX);
    }
    let mut generator = Generator::new(SEED);
    judge_matches(&mut out, &mut generator);
    for case in 0..40_000 {
        let encoded = encode(&generator.pack(false));
        // what no short pack has reached a longer one may
        let longest = if case < 20_000 { LONGEST / 2 } else { 2 * LONGEST };
        let rng = &mut generator.rng;
        let at = [rng.below(4) as u32, rng.below(3) as u32];
        let lengths = [usize::from(rng.chance(1, 16)), *rng.pick(&[0, 0, 0, 0, 1, 2, 2, 3])];
        let readings = generator.readings(24);
        if encoded.bytes.len() <= longest {
            one_walk(&mut out, &encoded.bytes, at, &readings, lengths, 2);
            if case % 4 == 0 {
                one_walk(&mut out, &damage(&mut generator.rng, &encoded).bytes, at, &readings, [0, 0], 2);
            }
        }
    }
    counts_at_edges(&mut out);
    out
}

/// Bits, and the readings of a countField: all ones and what stands next to it.
const COUNTS: [(u32, &[u64]); 11] = [
    (0, &[u64::MAX]),
    (1, &[1]),
    (2, &[2, 3, 4]),
    (3, &[6, 7, 8]),
    (8, &[254, 255, 256, 511, (1 << 32) + 255]),
    (16, &[255, u16::MAX as u64]),
    (63, &[u64::MAX / 2, u64::MAX / 2 + 1, u64::MAX]),
    (64, &[u64::MAX / 2, u64::MAX - 1, u64::MAX]),
    (65, &[u64::MAX]),
    (66, &[u64::MAX]),
    (u32::MAX - 16, &[u64::MAX]),
];

/// Sets, the fields of 8 bits behind them, by their orders, and lists of readings.
type Counted = (&'static str, RangeInclusive<u32>, &'static [&'static [u64]]);

/// One set or both passed over, each by its own countField or both by one; stop 2; a nested set passed over in some passes, an
/// outer one with what is in it; a countField that another field continues.
const COUNTS_OF_SETS: [Counted; 5] = [
    (
        "set 1 start 3 count 1 countField 1\nset 2 start 4 count 1 countField 2",
        1..=4,
        &[&[255, 2, 7, 7], &[1, 255, 7], &[255, 255], &[254, 254, 7]],
    ),
    (
        "set 1 start 2 count 1 countField 1\nset 2 start 3 count 1 countField 1",
        1..=4,
        &[&[255, 7], &[2, 7, 7, 7, 7, 7]],
    ),
    ("set 1 start 2 count 1 countField 1\nset 2 start 3 count 1 countField 2", 1..=4, &[&[1, 255, 7], &[255, 255, 7]]),
    (
        "set 1 start 2 count 3 countField 1\nset 2 start 3 count 1 countField 2 nested",
        1..=5,
        &[&[3, 255, 7, 2, 7, 7, 7, 255, 7, 7], &[2, 2, 7, 7, 7, 255, 7, 7], &[255, 7]],
    ),
    (
        "set 1 start 3 count 1 countField 1\nfield c C NUMBER bits 8\nfield d D NUMBER bits 8 continues c",
        3..=4,
        &[&[255, 7, 7], &[65_535, 7, 7]],
    ),
];

/// Counts that are not available, and those next to them, in packs of their own.
fn counts_at_edges(out: &mut Recording) {
    for (bits, counts) in COUNTS {
        let lines = format!("set 1 start 2 count 1 countField 1\nfield c C NUMBER bits {bits}");
        for count in counts {
            one_count(out, &lines, 2..=3, &[*count, 7, 7, 7]);
        }
    }
    for (lines, fields, lists) in COUNTS_OF_SETS {
        for readings in lists {
            one_count(out, lines, fields.clone(), readings);
        }
    }
}

/// The walk over a PGN of these lines and these fields of 8 bits, kept whatever it shows.
fn one_count(out: &mut Recording, lines: &str, fields: RangeInclusive<u32>, readings: &[u64]) {
    let fields: String = fields.map(|order| format!("field f{order} F{order} NUMBER bits 8\n")).collect();
    let text = format!("type NUMBER prints\ntree nmea2000\npgn 126208 a Fast\n{lines}\n{fields}");
    let pack = to_pack(&text).expect("a countField and its set");
    one_walk(out, &encode(&pack).bytes, [0, 0], readings, [0, 0], usize::MAX);
    for row in Counts::new(&pack, &pack.trees[0][0], readings).reached() {
        *out.reached.entry(count_key(row)).or_default() += 1;
    }
}

/// Short packs for each form of match, before longer ones have it by chance.
fn judge_matches(out: &mut Recording, generator: &mut Generator) {
    for _ in 0..4_000 {
        let bytes = encode(&generator.pack_of_matches()).bytes;
        if bytes.len() <= LONGEST / 2 {
            one_walk(out, &bytes, [0, 0], &generator.readings(12), [0, 0], 1);
        }
    }
}

/// A call of walk and one of held with a work buffer `less` shorter than it should be; the visit buffer is as long as the
/// readings, or with `visits` 1, 2 or 3 it is 1 shorter, 16 longer, or empty. Kept where fewer than `times` are like it.
fn one_walk(
    out: &mut Recording,
    bytes: &[u8],
    at: [u32; 2],
    readings: &[u64],
    [less, visits]: [usize; 2],
    times: usize,
) {
    let [tree, pgn] = at;
    let read = read(bytes);
    let work_lent = read.as_ref().map_or(3, |loaded| loaded.records.len()).saturating_sub(less);
    let lent = [readings.len(), readings.len().saturating_sub(1), readings.len() + 16, 0][visits];
    let mut work = vec![UNTOUCHED; work_lent];
    let mut visits = vec![UNVISITED; lent];
    let walked = calls::walk_pgn_as_read(&read, &mut work, tree, pgn, readings, &mut visits);
    let held = calls::held_pgn_as_read(&read, &mut work, tree, pgn);
    let fits = bytes.len() <= BYTES && work_lent <= WORK && readings.len() <= READINGS && lent <= VISITS;
    let (reaches, matches) = reaches(&read, at, readings, walked, lent);
    if !fits || !out.wants_more(times, &reaches, &matches) {
        return;
    }
    out.pack(bytes);
    for number in [work_lent, tree as usize, pgn as usize, lent, readings.len()] {
        out.number(number);
    }
    for reading in readings {
        out.stdin.extend(reading.to_le_bytes());
    }
    match walked {
        Ok([end, count]) => out.line(format!("{} {count}", End::of_number(end)).as_bytes()),
        Err(refusal) => out.refused(refusal),
    }
    match held {
        Ok([held]) => out.line(if held == 1 { b"held" } else { b"not held" }),
        Err(refusal) => out.refused(refusal),
    }
    out.line(format!("visits{}", spaced(&visits)).as_bytes());
}

/// What the case shows, and which matches it judges.
fn reaches(
    read: &Result<Loaded, Refusal>,
    [tree, pgn]: [u32; 2],
    readings: &[u64],
    answer: Result<[u64; 2], Refusal>,
    lent: usize,
) -> (Vec<String>, Vec<String>) {
    let refused = answer.err().map(|refusal| refusal.number);
    let (Ok(loaded), None | Some(25)) = (read, refused) else {
        return (refused.iter().map(u32::to_string).collect(), Vec::new());
    };
    let pack = &loaded.pack;
    let pgn = &pack.trees[tree as usize][pgn as usize];
    let held = if held(pack, pgn) { "held" } else { "not held" };
    if refused.is_some() {
        return (["25", held, OTHER_REFUSALS].map(String::from).to_vec(), Vec::new());
    }
    let walked = walk(pack, pgn, readings);
    let again = walked.visits.windows(2).any(|pair| pair[1] <= pair[0]);
    let sets = pgn.sets.iter().flatten().count();
    let end = walked.end.to_string();
    let mut reaches = vec![format!("{end} {held} {again} {sets}"), end, held.to_string()];
    let more = [
        (passes_of_nested(pgn, &walked.visits) > 1, NESTED_PASSES),
        (walked.end == End::UsedUp && within_a_set(pgn, &walked), WITHIN_A_SET),
        (lent > walked.visits.len(), LONGER),
        (readings.is_empty() && lent == 0, NO_VISIT_BUFFER),
    ];
    reaches.extend(more.into_iter().filter(|(is, _)| *is).map(|(_, name)| name.to_string()));
    let judged = judged_in_walk(pack, pgn, walked.end, &walked.visits);
    (reaches, judged.into_iter().filter_map(|field| matches::row(pack, field)).map(match_key).collect())
}

/// Whether the latest visit was of a field in a set, and not of its last one.
fn within_a_set(pgn: &Pgn, walked: &Walked) -> bool {
    let Some(latest) = walked.visits.last() else { return false };
    pgn.sets.iter().flatten().any(|set| set.holds(latest + 1) && set.holds(latest + 2))
}
