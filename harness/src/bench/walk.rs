//! Visits a second of the walk on each side, over short and long lists of readings, and walks on packs of each size.

use super::call::{Call, Case, Side};
use super::clock::time;
use super::{PACKS, by_size, milliseconds, packs, print_table};
use crate::library;
use crate::quick_walk::quick_walk;
use crate::text::to_pack;
use crate::value::*;
use crate::walk::walk;
use std::hint::black_box;

const LENGTHS: [usize; 3] = [100, 10_000, 1_000_000];
const SIDES: [Side; 3] = [Side::Library, Side::Rust, Side::Harness];

/// A PGN that takes as many readings as there are.
struct Shape {
    name: &'static str,
    pack: Pack,
    /// the PGN of tree 0
    item: usize,
    /// the reading of each visit
    reading: fn(usize) -> u64,
}

pub fn bench() -> Result<(), String> {
    println!(
        "\nwalk, from the pack's bytes to the visits; millions of visits a second over lists of so many readings:"
    );
    println!("  library  the library's call: reads the pack and walks");
    println!(
        "  Rust     reads the pack into values (the harness's reader) and walks without history, by a table of the"
    );
    println!("           fields that is made for the call");
    println!("  harness  the same reader and the harness's own walk, which asks the whole history");
    println!("ratio: the library's time to the Rust's; over the longest list hardly anything is left of the reading.");
    let mut table = Vec::new();
    for shape in shapes()? {
        println!("{}", shape.name);
        table.push(row(&shape)?);
    }
    if library::PRESENT {
        println!(
            "\nwalk: the library's time to the Rust's by the readings; millions of visits a second over the most\n"
        );
        let heads = ["PGN", "100", "10,000", "1,000,000", "library", "Rust"];
        print_table(heads.map(String::from).into(), table);
    }
    println!("\nwalk by size, over {} readings and the PGN that takes the most of them.\n{PACKS}", packs::READINGS);
    by_size(Call::Walk, &SIDES[..2], &[("", packs::longest_walk)], milliseconds)
}

/// Prints the rates by the readings; the ratios, and the rates over the most readings, for the table.
fn row(shape: &Shape) -> Result<Vec<String>, String> {
    let mut row = vec![shape.name.to_string()];
    let mut latest = [None; 3];
    for length in LENGTHS {
        latest = rates(shape, length)?;
        print!("{length:>9} readings");
        for (side, rate) in SIDES.into_iter().zip(latest) {
            print!("   {} {}", side.name(), shown(rate));
        }
        let ratio = latest[0].zip(latest[1]).map_or("-".into(), |(library, rust)| format!("{:.1}", rust / library));
        println!("   ratio {ratio}");
        row.push(ratio);
    }
    row.extend(latest[..2].iter().map(|rate| shown(*rate)));
    Ok(row)
}

fn shown(rate: Option<f64>) -> String {
    rate.map_or("-".into(), |rate| format!("{rate:.2}"))
}

/// Millions of visits a second of each side; none for one that is not there.
fn rates(shape: &Shape, length: usize) -> Result<[Option<f64>; 3], String> {
    let readings = (0..length).map(shape.reading).collect();
    let case = Case::new(shape.pack.clone(), Some((0, shape.item)), readings);
    agree(&case).map_err(|difference| format!("{}: {difference}", shape.name))?;
    Ok(SIDES.map(|side| {
        let mut run = case.run(side, Call::Walk)?;
        let micros = time(&mut || {
            black_box(run());
        });
        Some(length as f64 / micros)
    }))
}

/// Every reading is taken, and each side makes the same visits.
fn agree(case: &Case) -> Result<(), String> {
    let (tree, item) = case.pgn.ok_or("no PGN")?;
    let pgn = &case.pack.trees[tree][item];
    let length = case.readings.len();
    let expected = walk(&case.pack, pgn, &case.readings).visits;
    if expected.len() != length {
        return Err("not every reading is taken".into());
    }
    let mut visits = vec![u32::MAX; length];
    quick_walk(&case.pack, pgn, &case.readings, &mut visits);
    if visits != expected {
        return Err("the walk without history goes otherwise".into());
    }
    visits.fill(u32::MAX);
    let mut work = vec![0; case.records];
    let theirs = library::walk(&case.bytes, &mut work, tree as u32, item as u32, &case.readings, &mut visits);
    if theirs.is_some_and(|answer| answer != (0, [10, length as u64]) || visits != expected) {
        return Err(format!("the library walks otherwise: {theirs:?}"));
    }
    Ok(())
}

fn shapes() -> Result<Vec<Shape>, String> {
    let sample = to_pack(include_str!("../../../samples/sample.txt"))?;
    let in_view = sample.trees[0].iter().position(|pgn| pgn.pgn == 129_540).ok_or("the sample has no 129540")?;
    let shape = |name, lines: String, reading| {
        let pack = to_pack(&format!("{TYPES}{lines}"))?;
        Ok::<_, String>(Shape { name, pack, item: 0, reading })
    };
    let fields = |count: usize, more: &str| -> String {
        (1..=count).map(|order| format!("field f{order} F{order} NUMBER bits 8 {more}\n")).collect()
    };
    Ok(vec![
        shape("8 plain fields, endless set", format!("set 1 start 1 count 8\n{}", fields(8, "")), |_| 3)?,
        shape("64 plain fields, endless set", format!("set 1 start 1 count 64\n{}", fields(64, "")), |_| 3)?,
        shape("300 plain fields, endless set", format!("set 1 start 1 count 300\n{}", fields(300, "")), |_| 3)?,
        shape("1000 plain fields, endless set", format!("set 1 start 1 count 1000\n{}", fields(1000, "")), |_| 3)?,
        shape(
            "nested sets with counts, 8 fields",
            format!("set 1 start 2 count 7 countField 1\nset 2 start 4 count 3 countField 3 nested\n{}", fields(8, "")),
            |visit| if visit == 0 { u64::MAX } else { 3 },
        )?,
        shape(
            "8 fields with a fieldtype lookup, endless set",
            format!("set 1 start 1 count 8\n{}", fields(8, "lookupFieldtype FT")),
            |visit| visit as u64 % 17,
        )?,
        shape(
            "8 fields with a fieldtype lookup without fault, endless set",
            format!("set 1 start 1 count 8\n{}", fields(8, "lookupFieldtype GOOD")),
            |visit| visit as u64 % 17,
        )?,
        Shape { name: "the sample's satellites in view", pack: sample, item: in_view, reading: |_| u64::MAX },
    ])
}

/// One entry of FT names a type that is missing, and no reading meets it; those of GOOD name none.
const TYPES: &str = "
type NUMBER prints
lookup FT fieldtype 8
value 0 a NUMBER
value 1 b NUMBER
value 2 c NUMBER
value 3 d NUMBER
value 4 e NUMBER
value 5 f NUMBER
value 6 g NUMBER
value 200 h MISSING
lookup GOOD fieldtype 8
value 0 a NUMBER
value 1 b NUMBER
value 2 c NUMBER
value 3 d NUMBER
value 4 e NUMBER
value 5 f NUMBER
value 6 g NUMBER
value 200 h NUMBER
tree nmea2000
pgn 126208 a Fast
";
