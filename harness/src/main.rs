//! The harness's commands.

use harness::{bench, diff, library, oracle, reader, record, report, show, text};
use std::io::{Read, Write};
use std::process::ExitCode;

const USAGE: &str = "usage:
  harness diff [--seed N] [--count N] [--what oracle|load|check|place|spns|rust|walk|all]
                        compare over random packs; what is never reached is a failure
  harness record DIR    write a fixed list of packs with their answers
  harness bench [--what load|check|walk|held|all]
                        time the same inputs on each side
  harness bench --what worst [--limit SECONDS] [--shape NAME]
                        time each call on packs made to be slow
  harness pack FILE     write the pack that a text says (docs/TEXT-FORM.md) to standard output
  harness unpack FILE   write a pack in the text form to standard output
  harness show          list the pack on standard input in words
  harness report        print what the report program prints for the pack on standard input";

fn main() -> ExitCode {
    let arguments: Vec<String> = std::env::args().skip(1).collect();
    let words: Vec<&str> = arguments.iter().map(String::as_str).collect();
    let result = match words[..] {
        ["diff", ref options @ ..] => run_diff(options),
        ["record", folder] => record::record(folder.as_ref()),
        ["bench", ref options @ ..] => run_bench(options),
        // for the table of worst and for tools: one call alone
        ["once", ref words @ ..] => bench::worst::once(words),
        ["pack", file] => pack(file),
        ["unpack", file] => unpack(file),
        ["show"] => answer(|bytes| show::show(bytes).into_bytes()),
        ["report"] => answer(report::report),
        _ => Err(USAGE.into()),
    };
    match result {
        Ok(()) => ExitCode::SUCCESS,
        Err(failure) => {
            eprintln!("{failure}");
            ExitCode::FAILURE
        }
    }
}

fn run_diff(options: &[&str]) -> Result<(), String> {
    let (mut seed, mut count, mut what) = (1, 100_000, "all");
    for option in options.chunks(2) {
        match option {
            ["--seed", value] => seed = value.parse().map_err(|_| USAGE)?,
            ["--count", value] => count = value.parse().map_err(|_| USAGE)?,
            ["--what", value] => what = value,
            _ => return Err(USAGE.into()),
        }
    }
    let runs: Vec<_> = diff::RUNS.iter().filter(|(name, _)| what == "all" || what == *name).collect();
    if runs.is_empty() {
        return Err(USAGE.into());
    }
    // what is asked for by name must run
    let missing = match what {
        "oracle" | "rust" if !oracle::PRESENT => Some("the oracle's files were not there at build time"),
        "rust" if !library::PRESENT => Some("no library is linked"),
        _ => None,
    };
    if let Some(missing) = missing {
        return Err(format!("{what}: cannot run, {missing}"));
    }
    runs.into_iter().try_for_each(|(name, run)| run(seed, count).map_err(|failure| format!("{name}: {failure}")))
}

fn run_bench(options: &[&str]) -> Result<(), String> {
    let (mut what, mut limit, mut shape) = ("all", 20.0, None);
    for option in options.chunks(2) {
        match option {
            ["--what", value] => what = value,
            ["--limit", value] => limit = value.parse().map_err(|_| USAGE)?,
            ["--shape", value] => shape = Some(*value),
            _ => return Err(USAGE.into()),
        }
    }
    if what == "worst" {
        return bench::worst::bench(limit, shape);
    }
    let parts: Vec<_> = bench::PARTS.iter().filter(|(name, _)| what == "all" || what == *name).collect();
    if parts.is_empty() {
        return Err(USAGE.into());
    }
    bench::introduce();
    parts.into_iter().try_for_each(|(_, part)| part())
}

fn pack(file: &str) -> Result<(), String> {
    let said = text::read(&read(file)?).map_err(|error| format!("{file}: {error}"))?;
    for note in &said.notes {
        eprintln!("{file}: note: {note}");
    }
    write(&said.bytes())
}

fn unpack(file: &str) -> Result<(), String> {
    let loaded = reader::read(&read(file)?);
    let loaded = loaded.map_err(|refusal| format!("{file}: refused {} {}", refusal.number, refusal.detail))?;
    write(text::from_pack(&loaded.pack).as_bytes())
}

fn read(file: &str) -> Result<Vec<u8>, String> {
    std::fs::read(file).map_err(|error| format!("{file}: {error}"))
}

fn write(bytes: &[u8]) -> Result<(), String> {
    std::io::stdout().write_all(bytes).map_err(|error| error.to_string())
}

/// Writes what is said of the pack on standard input.
fn answer(of: impl Fn(&[u8]) -> Vec<u8>) -> Result<(), String> {
    let mut bytes = Vec::new();
    std::io::stdin().read_to_end(&mut bytes).map_err(|error| error.to_string())?;
    write(&of(&bytes))
}
