//! The sample pack: its two forms agree, and a check finds in it what its comments say.

use harness::encode::encode;
use harness::finding::Finding;
use harness::generate::sample_of_size;
use harness::reader::read;
use harness::rules::check;
use harness::text::to_bytes;
use harness::walk::{End, held, walk};
use harness::{oracle, words};

const TEXT: &str = include_str!("../../samples/sample.txt");
const PACK: &[u8] = include_bytes!("../../samples/sample.pack");

#[test]
fn text_and_pack_agree() {
    assert!(to_bytes(TEXT).unwrap() == PACK, "run: harness pack samples/sample.txt > samples/sample.pack");
}

#[test]
fn only_the_two_warnings_that_are_meant() {
    let pack = read(PACK).unwrap().pack;
    let found: Vec<_> = check(&pack).iter().map(|finding| words::words(&pack, finding)).collect();
    let places: Vec<_> =
        found.iter().map(|words| (words.rule.as_str(), words.error, words.location.as_str())).collect();
    let rudder = ("R08", false, "pgns/127245-rudder.yaml");
    assert_eq!(places, [rudder, ("R22", false, "lookups/SEATALK_ALARM_STATUS.yaml")]);
    if oracle::PRESENT && !pack.has_hexadecimal_match() {
        assert_eq!(oracle::violations(&pack), Some(found));
    }
}

#[test]
fn every_pgn_is_held_and_walks_without_a_stop() {
    let pack = read(PACK).unwrap().pack;
    for pgn in pack.trees.iter().flatten() {
        assert!(held(&pack, pgn));
        for reading in [0, 1, 3, 81, 5160, u64::MAX] {
            let end = walk(&pack, pgn, &[reading; 100]).end;
            assert!(!matches!(end, End::Stop(_)), "PGN {}: {end:?}", pgn.pgn);
        }
    }
}

#[test]
fn position_repeats_once_for_each_reference_station() {
    let pack = read(PACK).unwrap().pack;
    let position = pack.trees[0].iter().find(|pgn| pgn.pgn == 129029).unwrap();
    let mut readings = vec![0; 14];
    readings.push(2);
    readings.resize(30, 0);
    let walked = walk(&pack, position, &readings);
    assert_eq!((walked.end, walked.visits.len()), (End::Whole, 15 + 2 * 3));
}

#[test]
fn repeated_it_is_without_error() {
    for size in [1 << 10, 1 << 12, 1 << 16, 1 << 18] {
        let pack = sample_of_size(size);
        let bytes = encode(&pack).bytes;
        assert!(bytes.len() <= size && bytes.len() > size / 4 * 3, "{size}: {}", bytes.len());
        assert!(read(&bytes).is_ok_and(|loaded| loaded.pack == pack));
        let found = check(&pack);
        assert_eq!(found.iter().find(|finding| Finding::is_error(finding)), None);
        if oracle::PRESENT && !pack.has_hexadecimal_match() {
            assert_eq!(oracle::violations(&pack), Some(found.iter().map(|f| words::words(&pack, f)).collect()));
        }
    }
}
