//! The packs that are made to be slow: accepted, of the size asked for, and the library and the harness say the same of them.

use harness::bench::call::{Call, Case, Side};
use harness::bench::shapes::SHAPES;
use harness::library;
use harness::reader::read;
use harness::rules::check;
use harness::walk::{End, walk};

#[test]
fn each_is_accepted_and_has_nearly_the_size() {
    for shape in SHAPES {
        for size in [4 << 10, 64 << 10, 1 << 20] {
            let case = shape.case(size, 0);
            let length = case.bytes.len();
            assert!(length <= size && 10 * length >= 9 * size, "{}: {length} of {size} bytes", shape.name);
            let loaded = read(&case.bytes);
            assert!(loaded.is_ok_and(|loaded| loaded.pack == case.pack), "{} is not read", shape.name);
        }
    }
}

#[test]
fn only_these_walks_stop() {
    for shape in SHAPES {
        let case = shape.case(4 << 10, 1_000);
        let Some((tree, item)) = case.pgn else { continue };
        let walked = walk(&case.pack, &case.pack.trees[tree][item], &case.readings);
        let stops = match shape.name {
            "bit-length-ahead" => Some(6),
            "lookups-missing" => Some(3),
            _ => None,
        };
        let stop = match walked.end {
            End::Stop(stop) => Some(stop),
            _ => None,
        };
        assert_eq!(stop, stops, "{}", shape.name);
    }
}

#[test]
fn each_call_answers_alike() {
    for shape in SHAPES.iter().filter(|_| library::PRESENT) {
        let case = shape.case(4 << 10, 1_000);
        assert_eq!(library::findings(&case.pack), Some(check(&case.pack)), "{}", shape.name);
        for call in Call::ALL {
            // without the oracle's files there is no Rust side of check
            let other = answer(&case, if call == Call::Check { Side::Harness } else { Side::Rust }, call);
            assert_eq!(answer(&case, Side::Library, call), other, "{} {call:?}", shape.name);
        }
    }
}

fn answer(case: &Case, side: Side, call: Call) -> Option<u64> {
    case.run(side, call).map(|mut run| run())
}
