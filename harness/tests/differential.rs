//! A short run of each differential run, long enough that everything is reached.

use harness::encode::encode;
use harness::finding::Finding;
use harness::generate::{Generator, hexadecimal_packs_of_sizes, packs_of_sizes};
use harness::reader::LIMIT;
use harness::rules::check;
use harness::value::{Lookup, Pack};
use harness::words::words;
use harness::{calls, diff, library};

#[test]
fn every_run_reaches_everything_and_finds_no_difference() {
    for (name, run) in diff::RUNS {
        if let Err(failure) = run(7, 10_000) {
            panic!("{name}: {failure}");
        }
    }
}

#[test]
fn packs_of_sizes_have_them() {
    for seed in 0..4 {
        let sizes: Vec<usize> = packs_of_sizes(seed).map(|pack| encode(&pack).bytes.len()).collect();
        assert_eq!(sizes, [1 << 10, 1 << 13, 1 << 16, 1 << 18, LIMIT - 1, LIMIT, LIMIT + 1]);
    }
}

/// So that packs of each size go to the oracle, and are timed beside it.
#[test]
fn hexadecimal_matches_have_packs_of_sizes_of_their_own() {
    assert!(!packs_of_sizes(1).any(|pack| pack.has_hexadecimal_match()));
    assert!(hexadecimal_packs_of_sizes(1).all(|pack| pack.has_hexadecimal_match()));
}

#[test]
fn packs_without_slips_are_without_error() {
    let mut generator = Generator::new(3);
    let mut hexadecimal = 0;
    for _ in 0..5_000 {
        let pack = generator.pack_with(0, false);
        hexadecimal += usize::from(pack.has_hexadecimal_match());
        let error = check(&pack).into_iter().find(Finding::is_error);
        assert_eq!(error.map(|finding| words(&pack, &finding)), None);
    }
    assert!((500..1000).contains(&hexadecimal), "{hexadecimal} of 5000 have a hexadecimal match");
}

/// The library holds up to 1024 findings before it looks for them again, and marks up to 4096 lookups.
#[test]
fn many_findings_and_many_lookups() {
    for count in [1023, 1024, 1025, 4095, 4096, 4097] {
        let lookup = |i: usize| Lookup { name: format!("L{i:04}").into_bytes(), ..Lookup::default() };
        let pack = Pack { lookups: (0..count).map(lookup).collect(), ..Pack::default() };
        let encoded = encode(&pack);
        for lent in [8 * count, 8 * count - 1] {
            let mut work = vec![7; encoded.records.len()];
            let mut findings = vec![7; lent];
            let (mut other_work, mut other_findings) = (work.clone(), findings.clone());
            let answer = calls::check(&encoded.bytes, &mut work, &mut findings);
            assert_eq!(answer.is_ok(), lent == 8 * count);
            if let Some(theirs) = library::check(&encoded.bytes, &mut other_work, &mut other_findings) {
                assert_eq!(theirs, library::as_numbers(answer), "{count} lookups");
                assert_eq!((other_work, other_findings), (work, findings), "{count} lookups");
            }
        }
    }
}
