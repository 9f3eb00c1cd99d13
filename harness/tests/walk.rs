//! The walk and `held` by hand: passes, nesting, what is current, each stop.

use harness::quick_walk::quick_walk;
use harness::text::to_pack;
use harness::value::*;
use harness::walk::{End, Walked, held, walk};

const TYPES: &str = "
type NUMBER prints
type BINARY prints
type LENGTH base NUMBER
type DYNAMIC_FIELD_KEY prints
type DYNAMIC_FIELD_VALUE prints
lookup FT fieldtype 8
value 1 one NUMBER
value 2 two MISSING
value 3 three NUMBER lookup MISSING
lookup P pair 8
value 1 one
tree nmea2000
pgn 127488 a Fast
";

fn pack(lines: &str) -> Pack {
    to_pack(&format!("{TYPES}{lines}")).unwrap()
}

/// Fields f1, f2 and so on, 8 bits each.
fn fields(count: usize) -> String {
    (1..=count).map(|i| format!("field f{i} F{i} NUMBER bits 8\n")).collect()
}

/// By both walks.
fn walked(pack: &Pack, readings: &[u64]) -> (End, Vec<u32>) {
    let pgn = &pack.trees[0][0];
    let Walked { end, visits } = walk(pack, pgn, readings);
    let mut quick = vec![7; readings.len()];
    assert_eq!(quick_walk(pack, pgn, readings, &mut quick), (end, visits.len()));
    assert_eq!(quick[..visits.len()], visits);
    assert!(quick[visits.len()..].iter().all(|visit| *visit == 7));
    (end, visits)
}

fn set(pack: &mut Pack, which: usize, start: u32, count: u32, count_field: Option<u32>, nested: bool) {
    pack.trees[0][0].sets[which - 1] = Some(Repeating { count, start, count_field, nested });
}

fn is_held(pack: &Pack) -> bool {
    held(pack, &pack.trees[0][0])
}

#[test]
fn no_sets() {
    let pack = pack(&fields(3));
    assert_eq!(walked(&pack, &[9, 9, 9]), (End::Whole, vec![0, 1, 2]));
    assert_eq!(walked(&pack, &[9, 9, 9, 9]), (End::Whole, vec![0, 1, 2]));
    assert_eq!(walked(&pack, &[9, 9]), (End::UsedUp, vec![0, 1]));
    assert_eq!(walked(&pack, &[]), (End::UsedUp, vec![]));
}

#[test]
fn no_fields_is_whole_without_readings() {
    assert_eq!(walked(&pack(""), &[]), (End::Whole, vec![]));
}

#[test]
fn counted_passes() {
    let mut pack = pack(&fields(4));
    set(&mut pack, 1, 2, 2, Some(1), false);
    assert_eq!(walked(&pack, &[2, 0, 0, 0, 0, 0]), (End::Whole, vec![0, 1, 2, 1, 2, 3]));
    assert_eq!(walked(&pack, &[0, 7]), (End::Whole, vec![0, 3]));
    assert_eq!(walked(&pack, &[u64::MAX, 0, 0, 0]), (End::UsedUp, vec![0, 1, 2, 1]));
    assert!(is_held(&pack));
}

#[test]
fn endless_passes_end_by_readings() {
    let mut pack = pack(&fields(2));
    set(&mut pack, 1, 2, 1, None, false);
    assert_eq!(walked(&pack, &[0; 5]), (End::UsedUp, vec![0, 1, 1, 1, 1]));
}

#[test]
fn set_at_the_end_with_no_passes_is_whole() {
    let mut pack = pack(&fields(2));
    set(&mut pack, 1, 2, 1, Some(1), false);
    assert_eq!(walked(&pack, &[0]), (End::Whole, vec![0]));
    assert_eq!(walked(&pack, &[1]), (End::UsedUp, vec![0]));
}

#[test]
fn nested_passes_are_counted_anew() {
    // f1 counts f2 to f4, f2 counts f3 within
    let mut pack = pack(&fields(5));
    set(&mut pack, 1, 2, 3, Some(1), false);
    set(&mut pack, 2, 3, 1, Some(2), true);
    let readings = [2, 2, 0, 0, 0, 0, 0, 0];
    assert_eq!(walked(&pack, &readings), (End::Whole, vec![0, 1, 2, 2, 3, 1, 3, 4]));
    assert!(is_held(&pack));
}

#[test]
fn nested_set_that_ends_with_the_outer() {
    let mut pack = pack(&fields(3));
    set(&mut pack, 1, 2, 2, Some(1), false);
    set(&mut pack, 2, 3, 1, Some(2), true);
    assert_eq!(walked(&pack, &[3, 0, 1, 5, 0]), (End::Whole, vec![0, 1, 1, 2, 1]));
}

#[test]
fn two_sets_one_after_the_other() {
    // set 2 may stand before set 1
    let mut pack = pack(&fields(4));
    set(&mut pack, 2, 2, 1, Some(1), false);
    set(&mut pack, 1, 3, 2, Some(1), false);
    assert_eq!(walked(&pack, &[2, 0, 0, 0, 0, 0, 0]), (End::Whole, vec![0, 1, 1, 2, 3, 2, 3]));
    assert_eq!(walked(&pack, &[0]), (End::Whole, vec![0]));
}

#[test]
fn stop_1() {
    let stops = |which, start, count, nested| {
        let mut pack = pack(&fields(4));
        set(&mut pack, which, start, count, None, nested);
        walked(&pack, &[0; 9]).0 == End::Stop(1)
    };
    assert!(stops(1, 0, 1, false));
    assert!(!stops(1, 0, 0, false));
    assert!(stops(1, 4, 2, false));
    assert!(!stops(1, 4, 1, false));
    assert!(stops(1, 1, 2, true));
    assert!(stops(2, 1, 2, true));
    assert!(!stops(2, 9, 0, true));
    let both = |start, count, nested| {
        let mut pack = pack(&fields(5));
        set(&mut pack, 1, 2, 3, None, false);
        set(&mut pack, 2, start, count, None, nested);
        walked(&pack, &[0; 9]).0 == End::Stop(1)
    };
    assert!(both(2, 1, true), "a nested set starts after set 1's start");
    assert!(!both(3, 2, true));
    assert!(both(3, 3, true));
    assert!(both(4, 1, false));
    assert!(!both(5, 1, false));
    assert!(!both(1, 1, false));
    assert!(both(1, 2, false));
}

#[test]
fn stop_2() {
    // it comes before "used up"
    let stops = |count_field| {
        let mut pack = pack(&fields(4));
        set(&mut pack, 1, 2, 2, Some(count_field), false);
        walked(&pack, &[1])
    };
    assert_eq!(stops(0), (End::Stop(2), vec![0]));
    assert_eq!(stops(1), (End::UsedUp, vec![0]));
    assert_eq!(stops(2), (End::Stop(2), vec![0]));
    assert_eq!(stops(9), (End::Stop(2), vec![0]));
    // a countField in a set that has been left
    let mut pack = pack(&fields(4));
    set(&mut pack, 1, 2, 1, Some(1), false);
    set(&mut pack, 2, 3, 1, Some(2), false);
    assert_eq!(walked(&pack, &[1, 1]), (End::Stop(2), vec![0, 1]));
    assert!(!is_held(&pack));
}

#[test]
fn stops_3_to_5_by_lookups() {
    let stop = |lines: &str, readings: &[u64]| walked(&pack(lines), readings);
    assert_eq!(stop("field a A NUMBER bits 8 lookup NONE", &[0]), (End::Stop(3), vec![]));
    assert_eq!(stop("field a A NUMBER bits 8 lookup NONE", &[]), (End::UsedUp, vec![]));
    assert_eq!(stop("field a A NUMBER bits 8 lookup P match one", &[0]), (End::Whole, vec![0]));
    assert_eq!(stop("field a A NUMBER bits 8 lookup P match two", &[0]), (End::Stop(4), vec![]));
    assert_eq!(stop("field a A NUMBER bits 8 match 255", &[0]), (End::Whole, vec![0]));
    assert_eq!(stop("field a A NUMBER bits 8 match 256", &[0]), (End::Stop(4), vec![]));
    assert_eq!(stop("field a A NUMBER bits 64 match 18446744073709551615", &[0]), (End::Whole, vec![0]));
    for (reading, end) in [(1, End::Whole), (2, End::Stop(5)), (3, End::Stop(5)), (4, End::Whole)] {
        assert_eq!(stop("field a A NUMBER bits 8 lookupFieldtype FT", &[reading]).0, end, "{reading}");
    }
    // whatever the reference's kind
    assert_eq!(stop("field a A NUMBER bits 8 lookup FT", &[2]).0, End::Stop(5));
}

#[test]
fn stops_6_to_9_by_targets() {
    let stop = |lines: &str| walked(&pack(lines), &[0, 0, 0]);
    let pairs = [("bitLengthField", 6), ("continues", 7), ("trailingZeroIsDigit", 9)];
    for (attribute, number) in pairs {
        let before = format!("field a A NUMBER bits 8\nfield b B BINARY bits 8 {attribute} a");
        assert_eq!(stop(&before), (End::Whole, vec![0, 1]), "{attribute}");
        let none = format!("field a A NUMBER bits 8\nfield b B BINARY bits 8 {attribute} c");
        assert_eq!(stop(&none), (End::Stop(number), vec![0]), "{attribute}");
        let later = format!("field b B BINARY bits 8 {attribute} a\nfield a A NUMBER bits 8");
        assert_eq!(stop(&later), (End::Stop(number), vec![]), "{attribute}");
        // the first field with the id counts: it lies in a set that has been left, though a later one is current
        let two = "field n N NUMBER bits 8\nfield a A NUMBER bits 8\nfield a A NUMBER bits 8\n";
        let mut two = pack(&format!("{two}field b B BINARY bits 8 {attribute} a"));
        set(&mut two, 1, 2, 1, Some(1), false);
        assert_eq!(walked(&two, &[1; 4]), (End::Stop(number), vec![0, 1, 2]), "{attribute}");
    }
    let value = "field v V DYNAMIC_FIELD_VALUE bits 8";
    assert_eq!(stop(value), (End::Stop(8), vec![]));
    assert_eq!(stop(&format!("field k K DYNAMIC_FIELD_KEY bits 8\n{value}")), (End::Whole, vec![0, 1]));
    assert_eq!(stop(&format!("field l L LENGTH bits 8 dynamicFieldLength\n{value}")), (End::Whole, vec![0, 1]));
    assert_eq!(stop(&format!("{value} dynamicFieldLength")), (End::Stop(8), vec![]));
}

#[test]
fn target_in_a_set_that_is_left_is_not_current() {
    let lines = "field n N NUMBER bits 8\nfield a A NUMBER bits 8\nfield b B BINARY bitLengthField a";
    let mut pack = pack("");
    pack.trees[0][0].fields = to_pack(&format!("{TYPES}{lines}")).unwrap().trees[0][0].fields.clone();
    assert_eq!(walked(&pack, &[1, 1, 1]).0, End::Whole);
    assert!(is_held(&pack));
    set(&mut pack, 1, 2, 1, Some(1), false);
    assert_eq!(walked(&pack, &[1, 1, 1]), (End::Stop(6), vec![0, 1]));
    assert!(!is_held(&pack));
    set(&mut pack, 1, 2, 2, Some(1), false);
    assert_eq!(walked(&pack, &[2, 1, 1, 1, 1]), (End::Whole, vec![0, 1, 2, 1, 2]));
    assert!(is_held(&pack));
}

#[test]
fn target_of_the_previous_pass_is_not_current() {
    let lines = "field n N NUMBER bits 8\nfield m M NUMBER bits 8\nfield a A NUMBER bits 8\nfield b B NUMBER bits 8";
    let mut pack = pack(lines);
    pack.trees[0][0].fields[3].continues = Some(b"m".to_vec());
    set(&mut pack, 1, 2, 3, Some(1), false);
    assert_eq!(walked(&pack, &[2; 7]), (End::Whole, vec![0, 1, 2, 3, 1, 2, 3]));
    // its own set's earlier pass does not count either: a field that continues itself
    pack.trees[0][0].fields[3].continues = Some(b"b".to_vec());
    assert_eq!(walked(&pack, &[2; 7]), (End::Stop(7), vec![0, 1, 2]));
}

#[test]
fn held_by_sets() {
    let with = |one: (u32, u32, Option<u32>), two: (u32, u32, Option<u32>), nested| {
        let mut pack = pack(&fields(6));
        set(&mut pack, 1, one.0, one.1, one.2, false);
        set(&mut pack, 2, two.0, two.1, two.2, nested);
        is_held(&pack)
    };
    assert!(with((2, 2, Some(1)), (4, 2, Some(1)), false));
    assert!(!with((2, 3, Some(1)), (4, 2, Some(1)), false), "they share an order");
    assert!(with((2, 3, Some(1)), (3, 1, Some(2)), true));
    assert!(!with((2, 3, Some(2)), (3, 1, Some(2)), true), "set 1's countField in set 1");
    assert!(!with((2, 2, Some(1)), (4, 2, Some(3)), false), "set 2's countField in set 1, not nested");
    assert!(!with((2, 2, Some(1)), (5, 0, Some(3)), false), "an empty set's countField too");
    assert!(!with((2, 3, Some(1)), (3, 1, Some(3)), true), "in set 2 itself");
}

#[test]
fn held_by_length_sources() {
    let lines = "field n N NUMBER bits 8\nfield k K DYNAMIC_FIELD_KEY bits 8\nfield v V DYNAMIC_FIELD_VALUE bits 8";
    let mut pack = pack(lines);
    assert!(is_held(&pack));
    set(&mut pack, 1, 2, 1, Some(1), false);
    assert!(!is_held(&pack));
    set(&mut pack, 1, 2, 2, Some(1), false);
    assert!(is_held(&pack));
    set(&mut pack, 1, 3, 1, Some(1), false);
    assert!(is_held(&pack));
}
