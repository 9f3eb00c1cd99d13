//! Times of the same inputs on each side: how they grow with the pack, 1 KiB to 1 MiB, and on packs made to be slow.

pub mod call;
mod clock;
pub mod packs;
pub mod shapes;
mod walk;
pub mod worst;

use self::call::{Call, Case, Side};
use self::clock::time;
use self::packs::{Choose, KINDS, READINGS, SEED, SIZES};
use crate::{library, oracle};
use std::hint::black_box;

/// Prints the times of one call.
pub type Part = fn() -> Result<(), String>;

/// The parts by name. The packs made to be slow take too long to be among them.
pub const PARTS: [(&str, Part); 4] =
    [("load", bench_loads), ("check", bench_checks), ("walk", walk::bench), ("held", bench_held)];

/// What holds for every part.
pub fn introduce() {
    println!(
        "CPU time, the best of many runs (seed {SEED}). All are built for release; the buffers lent are long enough, made"
    );
    println!("outside the clock, and not cleared between runs.");
    say_what_is_missing();
    println!(
        "Packs: real (the sample's messages, repeated), clean (random, without error), faulty (random, many findings)."
    );
}

/// The sides that were not there at build time.
fn say_what_is_missing() {
    if !library::PRESENT {
        println!("No library is linked (SARWYMP_LIB names its folder), so its side is missing.");
    }
    if !oracle::PRESENT {
        println!(
            "The oracle's files were not there at build time (KEEL_SRC names their folder), so its side is missing."
        );
    }
}

/// What is said of times by size.
const PACKS: &str =
    "Microseconds for one pack; in brackets the growth from the size before, which is 4 where the time grows as
the size; ratio: the first side's time to this side's.";

/// What stands in a table of one pack's times beside the ratio, by the bytes and the library's microseconds.
type Beside = fn(usize, f64) -> String;

fn bench_loads() -> Result<(), String> {
    println!("\nload: the library's call, and the harness's own reader.\n{PACKS}");
    let rate: Beside = |bytes, micros| format!("{:.0} MB/s", bytes as f64 / micros);
    by_size(Call::Load, &[Side::Library, Side::Rust], &[("", packs::last)], rate)
}

fn bench_checks() -> Result<(), String> {
    println!("\ncheck, from the pack's bytes to the findings:");
    println!("  library  the library's call: reads the pack and writes the findings as numbers");
    println!(
        "  Rust     reads the pack into values (the harness's reader) and runs keel's check, which writes messages;"
    );
    println!(
        "           its `Database` is made from such values outside the clock, as a Rust reader would make it at once"
    );
    println!("  whole    the same with that conversion in the clock: read, convert, keel's check");
    println!("  harness  the harness's own reader and rules, findings as numbers\n{PACKS}");
    by_size(Call::Check, &Side::ALL, &[("", packs::last)], milliseconds)
}

fn bench_held() -> Result<(), String> {
    println!(
        "\nheld: the library's call, and the harness's own reader and held. Of a pack's last PGN, and of the last with"
    );
    println!("a nonempty set.\n{PACKS}");
    let chosen: [(&str, Choose); 2] = [(", last", packs::last), (", sets", packs::last_with_sets)];
    by_size(Call::Held, &[Side::Library, Side::Rust], &chosen, milliseconds)
}

fn milliseconds(_: usize, micros: f64) -> String {
    match micros / 1e3 {
        short if short < 1.0 => format!("{short:.3} ms"),
        long => format!("{long:.1} ms"),
    }
}

/// The times of a call on each kind of packs, for each way to choose a PGN; then a table of the library's to the Rust's.
fn by_size(call: Call, sides: &[Side], chosen: &[(&str, Choose)], beside: Beside) -> Result<(), String> {
    let mut table = Vec::new();
    for (kind, make) in KINDS {
        for (choice, choose) in chosen {
            let name = format!("{kind}{choice}");
            println!("{name}");
            let mut before = Vec::new();
            let mut row = vec![name];
            for kib in SIZES {
                let case = packs::case(make, *choose, 1024 * kib, READINGS)?;
                print!("{kib:>5} KiB {:>6} records", case.records);
                before = line(&case, call, sides, &before)?;
                row.push(
                    ratio(&before).map_or("-".into(), |(ratio, micros)| {
                        format!("{ratio:.2}, {}", beside(case.bytes.len(), micros))
                    }),
                );
            }
            table.push(row);
        }
    }
    if library::PRESENT {
        println!("\n{}: the library's time to the Rust's, and the library's own\n", call.name());
        print_table(["packs".to_string()].into_iter().chain(SIZES.map(|kib| format!("{kib} KiB"))).collect(), table);
    }
    Ok(())
}

/// A side's name and its time, in microseconds.
type Time = (&'static str, f64);

/// The library's time to the Rust's, and its own.
fn ratio(times: &[Time]) -> Option<(f64, f64)> {
    let of = |side: Side| times.iter().find(|(name, _)| *name == side.name()).map(|(_, time)| *time);
    let library = of(Side::Library)?;
    Some((library / of(Side::Rust)?, library))
}

/// Prints the sides' times with the growth of each, and the ratio of the first to each other.
fn line(case: &Case, call: Call, sides: &[Side], before: &[Time]) -> Result<Vec<Time>, String> {
    let mut times: Vec<Time> = Vec::new();
    let mut answers = Vec::new();
    for side in sides {
        let Some(mut run) = case.run(*side, call) else { continue };
        answers.push(run());
        times.push((
            side.name(),
            time(&mut || {
                black_box(run());
            }),
        ));
    }
    if answers.iter().any(|answer| *answer != answers[0]) {
        return Err(format!("the sides' answers differ: {answers:?}"));
    }
    for (i, (name, time)) in times.iter().enumerate() {
        print!("   {name} {time:.1}");
        if let Some((_, before)) = before.get(i) {
            print!(" [{:.1}]", time / before);
        }
        if i > 0 {
            print!(" ratio {:.2}", times[0].1 / time);
        }
    }
    println!("   answer {}", answers.first().copied().unwrap_or_default());
    Ok(times)
}

/// A row of a table as documents have it.
fn table_row<T: AsRef<str>>(cells: &[T]) -> String {
    let cells: Vec<&str> = cells.iter().map(AsRef::as_ref).collect();
    format!("| {} |", cells.join(" | "))
}

fn print_table(heads: Vec<String>, rows: Vec<Vec<String>>) {
    println!("{}\n{}", table_row(&heads), table_row(&vec!["---"; heads.len()]));
    rows.iter().for_each(|row| println!("{}", table_row(row)));
}
