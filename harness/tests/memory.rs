//! What the library remembers of a field between its visits: readings that stop it at the first visit and at later ones, few
//! of them and many, at fields near and far, against the harness's own walk.

use harness::calls;
use harness::encode::encode;
use harness::library;
use harness::text::to_pack;

/// Where the set begins: about field 128, up to which the readings of a field are kept.
const FIELDS: [usize; 8] = [0, 1, 125, 126, 127, 128, 255, 300];

/// As far behind as a pack has fields, nearly.
const FAR: usize = 20_000;

/// A lookup with so many entries that name a missing type, their values from 100 on and one of them twice; and a PGN with a set
/// of three fields from field `at` on that has no end, of which the second names that lookup.
fn pack(missing: usize, at: usize) -> String {
    let entries: String = (0..missing).map(|i| format!("value {} m{i} MISSING\n", 100 + i)).collect();
    let again = if missing > 1 { "value 101 again MISSING\nvalue 100 good NUMBER\n" } else { "" };
    let fields: String = (0..at + 3)
        .map(|i| format!("field f{i} F{i} NUMBER bits 8{}\n", if i == at + 1 { " lookupFieldtype FT" } else { "" }))
        .collect();
    format!(
        "type NUMBER prints\nlookup FT fieldtype 8\nvalue 1 a NUMBER\n{entries}{again}tree nmea2000\npgn 126208 a Fast\n\
         set 1 start {} count 3\n{fields}",
        at + 1
    )
}

/// Harmless readings, but for one: the looked-up field's in that pass.
fn readings(at: usize, pass: usize, reading: u64) -> Vec<u64> {
    let mut readings = vec![1; at + 3 * (pass + 3)];
    readings[at + 3 * pass + 1] = reading;
    readings
}

fn compare(missing: usize, at: usize, unmet: &[u64]) {
    let bytes = encode(&to_pack(&pack(missing, at)).expect("a pack")).bytes;
    for pass in 0..5 {
        for reading in (99..101 + missing as u64).chain(unmet.iter().copied()) {
            let readings = readings(at, pass, reading);
            let lent = || (vec![u32::MAX; at + 20], vec![u32::MAX; readings.len()]);
            let ((mut work, mut visits), (mut other_work, mut other_visits)) = (lent(), lent());
            let Some(theirs) = library::walk(&bytes, &mut work, 0, 0, &readings, &mut visits) else { return };
            let ours =
                calls::walk_pgn(&bytes, &mut other_work, 0, 0, &readings, &mut other_visits).expect("a good pack");
            let what = format!("{missing} missing, field {at}, pass {pass}, reading {reading}");
            assert_eq!(theirs, (0, ours), "{what}");
            assert_eq!((visits, work), (other_visits, other_work), "{what}");
        }
    }
}

#[test]
fn readings_that_stop_a_field_are_remembered() {
    for missing in 0..8 {
        FIELDS.into_iter().for_each(|at| compare(missing, at, &[0, 1, u64::MAX]));
    }
}

#[test]
fn fields_far_behind_are_walked_alike() {
    for missing in [0, 1, 5] {
        compare(missing, FAR, &[]);
    }
}
