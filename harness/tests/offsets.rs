//! Packs with as many records as the library's lists on its stack have room for, one fewer and one more: their offsets, and that
//! a work buffer which is too short, or lent for a pack that is refused, is left as it was.

use harness::calls;
use harness::encode::encode;
use harness::library;
use harness::value::{Entry, Kind, Lookup, Pack};

/// One lookup, and so many entries of it with names of that length: one record more than the entries.
fn entries(count: usize, name: usize) -> Vec<u8> {
    let entry = |i: usize| Entry { value: i as u64, name: vec![b'a'; name], ..Entry::default() };
    let lookup = Lookup { name: b"L".to_vec(), kind: Kind::Pair, bits: 8, entries: (0..count).map(entry).collect() };
    encode(&Pack { lookups: vec![lookup], ..Pack::default() }).bytes
}

fn compare(pack: &[u8], room: usize) -> Option<u32> {
    let (mut work, mut other) = (vec![7; room], vec![7; room]);
    let (number, answer) = library::load(pack, &mut work)?;
    match calls::load(pack, &mut other) {
        Ok(ours) => assert_eq!((number, answer), (0, ours)),
        Err(refusal) => assert_eq!((number, answer[0]), (refusal.number, refusal.detail)),
    }
    assert_eq!(work, other, "{} bytes, room for {room}", pack.len());
    Some(number)
}

#[test]
fn every_offset_is_delivered_or_none() {
    for records in (508..517).chain(4_092..4_101).chain([8_192, 20_000]) {
        for name in [0, 10] {
            let pack = entries(records - 1, name);
            let answers = [records, records + 9, records - 1, 0].map(|room| compare(&pack, room));
            let cut = compare(&pack[..pack.len() - 1], records);
            if library::PRESENT {
                assert_eq!(answers, [0, 0, 21, 21].map(Some));
                assert_eq!(cut, Some(1));
            }
        }
    }
}
