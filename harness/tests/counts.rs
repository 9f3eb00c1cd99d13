//! Counts that are not available at their edges, spelt out, over the library, where it is linked, and over the harness's own
//! walks.

use harness::encode::encode;
use harness::library;
use harness::quick_walk::quick_walk;
use harness::text::to_pack;
use harness::value::Pack;
use harness::walk::End::{Stop, UsedUp, Whole};
use harness::walk::{End, Walked, walk};

const TYPES: &str = "
type NUMBER prints
type BINARY prints
lookup FT fieldtype 8
value 255 any MISSING
tree nmea2000
pgn 126208 a Fast
";

const MAX: u64 = u64::MAX;

/// The lines of a PGN, the readings, and the walk that is due.
#[derive(Debug)]
struct Edge {
    lines: String,
    readings: Vec<u64>,
    due: Walked,
}

fn edge(lines: impl Into<String>, readings: &[u64], end: End, visits: &[u32]) -> Edge {
    Edge { lines: lines.into(), readings: readings.into(), due: Walked { end, visits: visits.into() } }
}

/// Sets, and so many fields of 8 bits.
fn sets(sets: &str, fields: usize) -> String {
    let fields: String = (1..=fields).map(|i| format!("field f{i} F{i} NUMBER bits 8\n")).collect();
    format!("{sets}\n{fields}")
}

/// What a count means in a field of so many bits: over short lists, and over such as its passes just use up.
fn count(list: &mut Vec<Edge>, bits: u32, reading: u64, passes: u64) {
    let lines = format!(
        "set 1 start 2 count 1 countField 1\nfield c C NUMBER bits {bits}\nfield x X NUMBER bits 8\n\
         field y Y NUMBER bits 8"
    );
    let passes = usize::try_from(passes).expect("64 bits");
    let just = if passes < 300 { passes + 1 } else { 1 };
    for length in [1, 2, 3, 5, just, just + 1, just + 2] {
        let readings = [vec![reading], vec![7; length - 1]].concat();
        let mut visits = [vec![0], vec![1; passes.min(length - 1)]].concat();
        let whole = length - 1 > passes;
        visits.extend(whole.then_some(2));
        list.push(edge(&lines, &readings, if whole { Whole } else { UsedUp }, &visits));
    }
}

/// Bits, a reading, and the passes that it means.
const COUNTS: [(u32, u64, u64); 56] = [
    (0, 0, 0),
    (0, 1, 1),
    (0, 255, 255),
    (0, MAX, MAX),
    (1, 0, 0),
    (1, 1, 1),
    (1, 2, 2),
    (1, 3, 3),
    (1, MAX, MAX),
    (2, 0, 0),
    (2, 1, 1),
    (2, 2, 2),
    (2, 3, 0),
    (2, 4, 4),
    (2, 7, 7),
    (3, 3, 3),
    (3, 6, 6),
    (3, 7, 0),
    (3, 8, 8),
    (3, 15, 15),
    (8, 0, 0),
    (8, 127, 127),
    (8, 254, 254),
    (8, 255, 0),
    (8, 256, 256),
    (8, 511, 511),
    (8, (1 << 32) + 255, (1 << 32) + 255),
    (8, MAX, MAX),
    (16, 255, 255),
    (16, 65_534, 65_534),
    (16, 65_535, 0),
    (16, 65_536, 65_536),
    (31, (1 << 32) - 1, (1 << 32) - 1),
    (32, (1 << 32) - 2, (1 << 32) - 2),
    (32, (1 << 32) - 1, 0),
    (32, 1 << 32, 1 << 32),
    (32, MAX, MAX),
    (33, (1 << 32) - 1, (1 << 32) - 1),
    (33, (1 << 33) - 1, 0),
    (62, (1 << 62) - 1, 0),
    (63, (1 << 63) - 2, (1 << 63) - 2),
    (63, (1 << 63) - 1, 0),
    (63, 1 << 63, 1 << 63),
    (63, MAX, MAX),
    (64, (1 << 32) - 1, (1 << 32) - 1),
    (64, (1 << 63) - 1, (1 << 63) - 1),
    (64, MAX - 1, MAX - 1),
    (64, MAX, 0),
    (64, 0, 0),
    (65, (1 << 63) - 1, (1 << 63) - 1),
    (65, 1, 1),
    (65, MAX, MAX),
    (66, 3, 3),
    (66, MAX, MAX),
    (128, MAX, MAX),
    (1 << 31, MAX, MAX),
];

/// In every width all ones of it and of every other, and the numbers beside all ones.
fn of_widths(list: &mut Vec<Edge>) {
    for (bits, reading, passes) in COUNTS {
        count(list, bits, reading, passes);
    }
    for of in 1..=64 {
        let all_ones = MAX >> (64 - of);
        for bits in 0..=130 {
            count(list, bits, all_ones, if of == bits && bits > 1 { 0 } else { all_ones });
        }
        for near in [all_ones - 1, all_ones.saturating_add(1)] {
            if near != all_ones {
                count(list, of, near, near);
            }
        }
    }
}

/// The width is the countField's own, not that of the value which another field continues, or of some other field.
fn of_other_widths(list: &mut Vec<Edge>) {
    let continued = "set 1 start 3 count 1 countField 1\nfield c C NUMBER bits 8\nfield d D NUMBER bits 8 continues c\n\
                     field x X NUMBER bits 8\nfield y Y NUMBER bits 8";
    list.push(edge(continued, &[255, 7, 7], Whole, &[0, 1, 3]));
    list.push(edge(continued, &[65_535, 7, 7], UsedUp, &[0, 1, 2]));
    // by the field that continues it
    let continuing = continued.replace("countField 1", "countField 2");
    list.push(edge(&continuing, &[7, 255, 7], Whole, &[0, 1, 3]));
    list.push(edge(&continuing, &[7, 65_535, 7], UsedUp, &[0, 1, 2]));
    let stated = |bits: u32, more: u32| {
        format!(
            "set 1 start 2 count 1 countField 1\nfield c C NUMBER bits {bits} continuation {more}\nfield x X NUMBER bits 8"
        )
    };
    list.push(edge(stated(1, 1), &[1, 7], Whole, &[0, 1]));
    list.push(edge(stated(1, 1), &[3, 7], UsedUp, &[0, 1]));
    list.push(edge(stated(63, 1), &[MAX, 7], UsedUp, &[0, 1]));
    list.push(edge(stated(64, 1), &[MAX, 7], Whole, &[0]));
    list.push(edge(stated(0, 8), &[255, 7], UsedUp, &[0, 1]));
    for [counter, first] in [[8, 16], [16, 8]] {
        let lines = format!(
            "set 1 start 3 count 1 countField 2\nfield a A NUMBER bits {first}\nfield c C NUMBER bits {counter}\n\
             field x X NUMBER bits {first}\nfield y Y NUMBER bits {first}"
        );
        let [of_counter, of_first] = [counter, first].map(|bits| MAX >> (64 - bits));
        list.push(edge(&lines, &[of_first, of_counter, 7], Whole, &[0, 1, 3]));
        list.push(edge(&lines, &[of_counter, of_first, 7], UsedUp, &[0, 1, 2]));
    }
}

/// What is passed over is the whole set, with what is nested in it, and nothing else.
fn of_sets(list: &mut Vec<Edge>) {
    for set in [1, 2] {
        let last = sets(&format!("set {set} start 2 count 2 countField 1"), 3);
        list.push(edge(&last, &[255], Whole, &[0]));
        list.push(edge(&last, &[255, 7, 7], Whole, &[0]));
        list.push(edge(&last, &[254, 7, 7], UsedUp, &[0, 1, 2]));
        let far = sets(&format!("set {set} start 4 count 2 countField 2"), 6);
        list.push(edge(&far, &[7, 255, 7, 7], Whole, &[0, 1, 2, 5]));
        list.push(edge(&far, &[7, 255, 7], UsedUp, &[0, 1, 2]));
        let empty = sets(&format!("set {set} start 2 count 0 countField 1"), 2);
        list.push(edge(&empty, &[255, 7], Whole, &[0, 1]));
    }
    // one countField for both sets, side by side or apart
    for [one, two] in [[1, 2], [2, 1]] {
        let both = |start: u32, count| {
            sets(
                &format!("set {one} start 2 count 1 countField 1\nset {two} start {start} count 1 countField 1"),
                count,
            )
        };
        list.push(edge(both(3, 4), &[255, 7], Whole, &[0, 3]));
        list.push(edge(both(3, 3), &[255], Whole, &[0]));
        list.push(edge(both(4, 5), &[255, 7, 7], Whole, &[0, 2, 4]));
        list.push(edge(both(3, 4), &[2, 7, 7, 7, 7, 7], Whole, &[0, 1, 1, 2, 2, 3]));
        list.push(edge(both(3, 4), &[254, 7, 7], UsedUp, &[0, 1, 1]));
        let two_counts = format!("set {one} start 3 count 1 countField 1\nset {two} start 4 count 1 countField 2");
        let after = sets(&two_counts, 5);
        list.push(edge(&after, &[255, 2, 7, 7, 7], Whole, &[0, 1, 3, 3, 4]));
        list.push(edge(&after, &[1, 255, 7, 7], Whole, &[0, 1, 2, 4]));
        list.push(edge(&after, &[255, 255, 7], Whole, &[0, 1, 4]));
        list.push(edge(&after, &[255, 0, 7], Whole, &[0, 1, 4]));
        // a set without countField behind one that is passed over
        let endless = sets(&format!("set {one} start 2 count 1 countField 1\nset {two} start 3 count 1"), 3);
        list.push(edge(&endless, &[255, 7, 7], UsedUp, &[0, 2, 2]));
    }
}

/// A nested set takes its count in each pass of the outer one anew.
fn of_nested_sets(list: &mut Vec<Edge>) {
    let nested = sets("set 1 start 2 count 3 countField 1\nset 2 start 3 count 1 countField 2 nested", 5);
    list.push(edge(&nested, &[3, 255, 7, 2, 7, 7, 7, 255, 7, 7], Whole, &[0, 1, 3, 1, 2, 2, 3, 1, 3, 4]));
    list.push(edge(&nested, &[3, 2, 7, 7, 7, 255, 7, 1, 7, 7, 7], Whole, &[0, 1, 2, 2, 3, 1, 3, 1, 2, 3, 4]));
    list.push(edge(&nested, &[2, 255, 7, 254, 7, 7], UsedUp, &[0, 1, 3, 1, 2, 2]));
    list.push(edge(&nested, &[255, 7], Whole, &[0, 4]));
    list.push(edge(&nested, &[254, 255, 7, 255], UsedUp, &[0, 1, 3, 1]));
    // both sets end at once
    let ends = sets("set 1 start 2 count 2 countField 1\nset 2 start 3 count 1 countField 2 nested", 3);
    list.push(edge(&ends, &[3, 255, 1, 7, 255], Whole, &[0, 1, 1, 2, 1]));
    // one countField for both, before them
    let by_one = sets("set 1 start 2 count 2 countField 1\nset 2 start 3 count 1 countField 1 nested", 4);
    list.push(edge(&by_one, &[255, 7], Whole, &[0, 3]));
    list.push(edge(&by_one, &[2, 7, 7, 7, 7, 7, 7, 7], Whole, &[0, 1, 2, 2, 1, 2, 2, 3]));
    // the inner set's countField stands before an endless outer one: its reading stays
    let before = sets("set 1 start 2 count 2\nset 2 start 3 count 1 countField 1 nested", 3);
    list.push(edge(&before, &[255, 7, 7, 7], UsedUp, &[0, 1, 1, 1]));
    // the countField is read again in each pass
    let again = sets("set 1 start 1 count 3\nset 2 start 2 count 1 countField 1 nested", 3);
    list.push(edge(&again, &[255, 7, 2, 7, 7, 7, 255, 7], UsedUp, &[0, 2, 0, 1, 1, 2, 0, 2]));
    list.push(edge(&again, &[1, 7, 7, 255, 7, 1, 7, 7], UsedUp, &[0, 1, 2, 0, 2, 0, 1, 2]));
}

/// Not current is not current, whatever was read; and what was passed over is not current.
fn of_stops(list: &mut Vec<Edge>) {
    let left = sets("set 1 start 2 count 1 countField 1\nset 2 start 3 count 1 countField 2", 4);
    list.push(edge(&left, &[1, 255], Stop(2), &[0, 1]));
    list.push(edge(&left, &[1, 255, 7, 7], Stop(2), &[0, 1]));
    list.push(edge(&left, &[255, 7, 7], Stop(2), &[0]));
    for count_field in [0, 2, 3, 4, 9] {
        let lines = sets(&format!("set 1 start 2 count 2 countField {count_field}"), 4);
        list.push(edge(lines, &[255, 255, 255], Stop(2), &[0]));
    }
    let target = "set 1 start 2 count 1 countField 1\nfield c C NUMBER bits 8\nfield x X NUMBER bits 8\n\
                  field y Y BINARY bitLengthField x";
    list.push(edge(target, &[255, 7], Stop(6), &[0]));
    let looked_up =
        "set 1 start 2 count 1 countField 1\nfield c C NUMBER bits 8 lookupFieldtype FT\nfield x X NUMBER bits 8";
    list.push(edge(looked_up, &[255, 7], Stop(5), &[]));
    list.push(edge(looked_up, &[254, 7], UsedUp, &[0, 1]));
}

fn edges() -> Vec<Edge> {
    let mut list = Vec::new();
    of_widths(&mut list);
    of_other_widths(&mut list);
    of_sets(&mut list);
    of_nested_sets(&mut list);
    of_stops(&mut list);
    list
}

fn by_the_model(pack: &Pack, readings: &[u64]) -> Walked {
    walk(pack, &pack.trees[0][0], readings)
}

/// The visits of a walk that leaves the rest of its visit buffer as it was.
fn visited(end: End, mut visits: Vec<u32>, count: usize) -> Walked {
    assert!(visits[count..].iter().all(|visit| *visit == u32::MAX));
    visits.truncate(count);
    Walked { end, visits }
}

fn without_history(pack: &Pack, readings: &[u64]) -> Walked {
    let mut visits = vec![u32::MAX; readings.len()];
    let (end, count) = quick_walk(pack, &pack.trees[0][0], readings, &mut visits);
    visited(end, visits, count)
}

fn by_the_library(pack: &Pack, readings: &[u64]) -> Walked {
    let encoded = encode(pack);
    let mut work = vec![0; encoded.records.len()];
    let mut visits = vec![u32::MAX; readings.len()];
    let (number, [end, count]) =
        library::walk(&encoded.bytes, &mut work, 0, 0, readings, &mut visits).expect("the library");
    assert_eq!(number, 0);
    visited(End::of_number(end), visits, count as usize)
}

fn judge_all(walk: fn(&Pack, &[u64]) -> Walked) {
    let edges = edges();
    let walked = |edge: &Edge| walk(&to_pack(&format!("{TYPES}{}", edge.lines)).expect("a pack"), &edge.readings);
    let wrong: Vec<&Edge> = edges.iter().filter(|edge| walked(edge) != edge.due).collect();
    let shown = &wrong[..wrong.len().min(5)];
    assert!(wrong.is_empty(), "{} of {} edges are walked otherwise, the first {shown:#?}", wrong.len(), edges.len());
}

#[test]
fn over_the_model() {
    judge_all(by_the_model);
}

#[test]
fn over_the_walk_without_history() {
    judge_all(without_history);
}

#[test]
fn over_the_library() {
    if !library::PRESENT {
        println!("skipped, no library is linked (SARWYMP_LIB names its folder)");
        return;
    }
    judge_all(by_the_library);
}
