//! Place texts at the edges of six digits, spelt out: over the library, where it is linked, and over the harness.

use harness::encode::encode;
use harness::finding::{GROUP, PGN};
use harness::value::{Pack, Pgn};
use harness::{calls, library};

const NUMBERS: [(u32, &str); 6] = [
    (0, "000000"),
    (99_999, "099999"),
    (100_000, "100000"),
    (999_999, "999999"),
    (1_000_000, "1000000"),
    (4_294_967_295, "4294967295"),
];

/// Number, detail or length, and the text buffer after the call.
type Answer = (u32, [u64; 1], Vec<u8>);

/// The text in a buffer of its length and in a longer one; 24 and nothing written in one that is a byte short, and in none.
fn at_the_edges(place_text: impl Fn(&[u8], u32, u32, usize) -> Answer) {
    for (number, digits) in NUMBERS {
        let mut pack = Pack::default();
        pack.trees[0] = vec![Pgn { pgn: number, id: b"a".to_vec(), ..Pgn::default() }];
        let bytes = encode(&pack).bytes;
        for (place, item, text) in
            [(PGN, 0, format!("pgns/{digits}-a.yaml")), (GROUP, number, format!("pgns/{digits}-*.yaml"))]
        {
            let needed = text.len();
            let call = |lent| place_text(&bytes, place, item, lent);
            assert_eq!(call(needed), (0, [needed as u64], text.clone().into_bytes()), "{text}");
            assert_eq!(call(needed + 2), (0, [needed as u64], format!("{text}##").into_bytes()), "{text}");
            for short in [needed - 1, 0] {
                assert_eq!(call(short), (24, [needed as u64], vec![b'#'; short]), "{text}, a buffer of {short}");
            }
        }
    }
}

#[test]
fn over_the_library() {
    if !library::PRESENT {
        println!("skipped, no library is linked (SARWYMP_LIB names its folder)");
        return;
    }
    at_the_edges(|bytes, place, item, lent| {
        let mut text = vec![b'#'; lent];
        let (number, answer) = library::place_text(bytes, &mut [0; 1], place, 0, item, &mut text).unwrap();
        (number, answer, text)
    });
}

#[test]
fn over_the_harness() {
    at_the_edges(|bytes, place, item, lent| {
        let mut text = vec![b'#'; lent];
        let (number, answer) = library::as_numbers(calls::place_text(bytes, &mut [0; 1], place, 0, item, &mut text));
        (number, answer, text)
    });
}
