//! How long each call takes on packs that are made to be slow. Each call is made in a process of its own, which is ended at
//! a limit.

use super::call::{Call, Case, Run, Side};
use super::clock::clocked;
use super::packs::{self, KINDS};
use super::shapes::{SHAPES, Shape};
use super::{say_what_is_missing, table_row};
use std::fs::read_to_string;
use std::process::{Child, Command, Stdio};
use std::thread::sleep;
use std::time::{Duration, Instant};

const SIZES: [usize; 2] = [64 << 10, 1 << 20];
const READINGS: usize = packs::READINGS;

/// What is timed, and the readings of a walk: so many, or as many as the PGN has fields.
const COLUMNS: [(&str, Side, Call, Option<usize>); 8] = [
    ("load", Side::Library, Call::Load, None),
    ("check", Side::Library, Call::Check, None),
    ("Rust's check", Side::Rust, Call::Check, None),
    ("held", Side::Library, Call::Held, None),
    ("place text", Side::Library, Call::Place, None),
    ("walk, 1,000", Side::Library, Call::Walk, Some(READINGS)),
    ("walk, fields", Side::Library, Call::Walk, None),
    ("Rust's walk, fields", Side::Rust, Call::Walk, None),
];

/// A call's seconds and its answer, or why there are none.
enum Timed {
    Taken(f64, u64),
    /// nothing to call, or a walk of fewer readings than the other
    Nothing,
    Over,
    /// a smaller pack was over the limit
    Skipped,
}

/// Prints the table, of all shapes or of one.
pub fn bench(limit: f64, only: Option<&str>) -> Result<(), String> {
    if only.is_some_and(|only| Shape::named(only).is_none()) {
        let names: Vec<&str> = SHAPES.iter().map(|shape| shape.name).collect();
        return Err(format!("the shapes are: {}", names.join(", ")));
    }
    println!("CPU seconds of one call on packs that are made to be slow; a call is ended at {limit} s.");
    println!("Readings of the walk over the last PGN: {READINGS}, and as many as it has fields where these are more.");
    say_what_is_missing();
    println!("The place text is that of the last PGN or of the last lookup, whichever are more.\n");
    let heads = ["shape", "bytes", "records", "findings"].into_iter().chain(COLUMNS.map(|(head, ..)| head));
    let heads: Vec<&str> = heads.collect();
    println!("{}\n{}", table_row(&heads), table_row(&vec!["---"; heads.len()]));
    for shape in SHAPES.iter().filter(|shape| only.is_none_or(|only| shape.name == only)) {
        let mut over = [false; COLUMNS.len()];
        for size in SIZES {
            println!("{}", row(shape, size, limit, &mut over)?);
        }
    }
    Ok(())
}

/// A shape at one size; `over` says which calls took too long at a smaller one.
fn row(shape: &Shape, size: usize, limit: f64, over: &mut [bool; COLUMNS.len()]) -> Result<String, String> {
    let case = shape.case(size, 0);
    let fields = case.pgn.map_or(0, |(tree, item)| case.pack.trees[tree][item].fields.len());
    let mut cells = Vec::new();
    let mut findings = "-".to_string();
    for ((_, side, call, readings), over) in COLUMNS.iter().zip(over) {
        let short = *call == Call::Walk && readings.is_none() && fields <= READINGS;
        let timed = match side {
            _ if short => Timed::Nothing,
            _ if *over => Timed::Skipped,
            side => in_child(shape.name, size, *side, *call, readings.unwrap_or(fields), limit)?,
        };
        if let (Call::Check, Timed::Taken(_, count)) = (call, &timed) {
            findings = count.to_string();
        }
        *over |= matches!(timed, Timed::Over);
        cells.push(timed.cell(limit));
    }
    let heads = [shape.name.to_string(), case.bytes.len().to_string(), case.records.to_string(), findings];
    Ok(table_row(&heads.into_iter().chain(cells).collect::<Vec<_>>()))
}

impl Timed {
    fn cell(&self, limit: f64) -> String {
        match self {
            Timed::Taken(seconds, _) if *seconds < 1.0 => format!("{seconds:.4}"),
            Timed::Taken(seconds, _) => format!("{seconds:.1}"),
            Timed::Nothing => "-".into(),
            Timed::Over => format!("> {limit}"),
            Timed::Skipped => "skipped".into(),
        }
    }
}

/// The call made by `harness once`.
fn in_child(name: &str, size: usize, side: Side, call: Call, readings: usize, limit: f64) -> Result<Timed, String> {
    let harness = std::env::current_exe().map_err(|error| error.to_string())?;
    let mut command = Command::new(harness);
    command.args(["once", side.name(), call.name(), name, &size.to_string(), &readings.to_string()]);
    let mut child = command.stdout(Stdio::piped()).spawn().map_err(|error| error.to_string())?;
    let begin = Instant::now();
    while child.try_wait().map_err(|error| error.to_string())?.is_none() {
        if cpu_of(&child).unwrap_or(begin.elapsed()).as_secs_f64() > limit {
            child.kill().and_then(|()| child.wait()).map_err(|error| error.to_string())?;
            return Ok(Timed::Over);
        }
        sleep(Duration::from_millis(2));
    }
    let output = child.wait_with_output().map_err(|error| error.to_string())?;
    let said = String::from_utf8_lossy(&output.stdout);
    match said.split_whitespace().collect::<Vec<_>>()[..] {
        ["nothing"] => Ok(Timed::Nothing),
        [seconds, answer] if output.status.success() => {
            Ok(Timed::Taken(seconds.parse().map_err(|_| "seconds")?, answer.parse().map_err(|_| "an answer")?))
        }
        _ => Err(format!("{name}: the call {} failed: {said}", call.name())),
    }
}

/// What a child has taken of the CPU, where the system tells.
fn cpu_of(child: &Child) -> Option<Duration> {
    let times = read_to_string(format!("/proc/{}/schedstat", child.id())).ok()?;
    times.split_whitespace().next()?.parse().ok().map(Duration::from_nanos)
}

/// Makes one call on a kind of packs or a shape, and prints its seconds and its answer: a process for the table above, and for
/// tools that count.
pub fn once(words: &[&str]) -> Result<(), String> {
    let [side, call, name, size, readings] = *words else { return Err(ONCE.into()) };
    let side = Side::ALL.into_iter().find(|known| known.name() == side).ok_or(ONCE)?;
    let call = Call::ALL.into_iter().find(|known| known.name() == call).ok_or(ONCE)?;
    let size = size.parse().map_err(|_| ONCE)?;
    let case = named(name, size, readings.parse().map_err(|_| ONCE)?)?;
    let Some(mut run) = case.run(side, call) else {
        println!("nothing");
        return Ok(());
    };
    let mut answer = 0;
    let seconds = clocked(|| answer = one_call(&mut run));
    println!("{seconds} {answer}");
    Ok(())
}

const ONCE: &str = "harness once library|Rust|whole|harness load|check|held|place|walk NAME BYTES READINGS";

/// A kind of packs, with the PGN of the longest walk, or a shape.
fn named(name: &str, size: usize, readings: usize) -> Result<Case, String> {
    if let Some((_, make)) = KINDS.iter().find(|(kind, _)| *kind == name) {
        return packs::case(*make, packs::longest_walk, size, readings);
    }
    Shape::named(name).map(|shape| shape.case(size, readings)).ok_or(format!("there is no pack {name}"))
}

/// By this name a tool finds where the call begins.
#[inline(never)]
fn one_call(run: &mut Run) -> u64 {
    run()
}
