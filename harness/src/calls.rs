//! What each call answers, refusals and buffers included (document 01, "Refused for the state"): load, check, place text,
//! walk and held, over the independent reader, rules and walk.

use crate::finding::Finding;
use crate::reader::{Loaded, Refusal, read};
use crate::value::Pgn;
use crate::walk::{held, walk};
use crate::{rules, words};

type Answer<T> = Result<T, Refusal>;

fn refused<T>(number: u32, needed: usize) -> Answer<T> {
    Err(Refusal { number, detail: needed as u64 })
}

/// Fills the work buffer from a pack that has been read: 1 to 9, then 21.
fn open_as_read<'a>(read: &'a Answer<Loaded>, work: &mut [u32]) -> Answer<&'a Loaded> {
    let loaded = read.as_ref().map_err(|refusal| *refusal)?;
    fill(loaded, work)?;
    Ok(loaded)
}

fn fill(loaded: &Loaded, work: &mut [u32]) -> Answer<()> {
    let needed = loaded.records.len();
    if work.len() < needed {
        return refused(21, needed);
    }
    work[..needed].copy_from_slice(&loaded.records);
    Ok(())
}

/// The number of records, then for field types, lookups and trees 0 to 2 the count and the work position of the first.
pub fn load(pack: &[u8], work: &mut [u32]) -> Answer<[u64; 11]> {
    load_as_read(&read(pack), work)
}

/// As `load`, of a pack that has been read.
pub fn load_as_read(read: &Answer<Loaded>, work: &mut [u32]) -> Answer<[u64; 11]> {
    let loaded = open_as_read(read, work)?;
    let mut answer = [0; 11];
    answer[0] = loaded.records.len() as u64;
    for (i, section) in loaded.sections.iter().enumerate() {
        answer[1 + 2 * i] = section.count.into();
        answer[2 + 2 * i] = section.begins.into();
    }
    Ok(answer)
}

/// The number of findings, eight numbers each, and the number of errors among them.
pub fn check(pack: &[u8], work: &mut [u32], findings: &mut [u32]) -> Answer<[u64; 2]> {
    let read = read(pack);
    check_as_read(&read, &found(&read), work, findings)
}

/// What the rules find in a pack that has been read; nothing where it is refused.
pub fn found(read: &Answer<Loaded>) -> Vec<Finding> {
    read.as_ref().map_or_else(|_| Vec::new(), |loaded| rules::check(&loaded.pack))
}

/// As `check`, of a pack that has been read and in which the rules have found `list`.
pub fn check_as_read(
    read: &Answer<Loaded>,
    list: &[Finding],
    work: &mut [u32],
    findings: &mut [u32],
) -> Answer<[u64; 2]> {
    open_as_read(read, work)?;
    if findings.len() < 8 * list.len() {
        return refused(22, 8 * list.len());
    }
    for (numbers, finding) in findings.chunks_exact_mut(8).zip(list) {
        numbers.copy_from_slice(&finding.numbers());
    }
    let errors = list.iter().filter(|finding| finding.is_error()).count();
    Ok([list.len() as u64, errors as u64])
}

/// The length of the place text.
pub fn place_text(
    pack: &[u8],
    work: &mut [u32],
    place: u32,
    tree: u32,
    item: u32,
    text: &mut [u8],
) -> Answer<[u64; 1]> {
    place_text_as_read(&read(pack), work, place, tree, item, text)
}

/// As `place_text`, of a pack that has been read.
pub fn place_text_as_read(
    read: &Answer<Loaded>,
    work: &mut [u32],
    place: u32,
    tree: u32,
    item: u32,
    text: &mut [u8],
) -> Answer<[u64; 1]> {
    let loaded = open_as_read(read, work)?;
    let Some(bytes) = words::place_text(&loaded.pack, place, tree, item) else {
        return refused(23, 0);
    };
    if text.len() < bytes.len() {
        return refused(24, bytes.len());
    }
    text[..bytes.len()].copy_from_slice(&bytes);
    Ok([bytes.len() as u64])
}

fn named(loaded: &Loaded, tree: u32, item: u32) -> Answer<&Pgn> {
    let pgn = loaded.pack.trees.get(tree as usize).and_then(|pgns| pgns.get(item as usize));
    pgn.ok_or(Refusal { number: 23, detail: 0 })
}

/// The number of the end and the number of visits.
pub fn walk_pgn(
    pack: &[u8],
    work: &mut [u32],
    tree: u32,
    item: u32,
    readings: &[u64],
    visits: &mut [u32],
) -> Answer<[u64; 2]> {
    walk_pgn_as_read(&read(pack), work, tree, item, readings, visits)
}

/// As `walk_pgn`, of a pack that has been read.
pub fn walk_pgn_as_read(
    read: &Answer<Loaded>,
    work: &mut [u32],
    tree: u32,
    item: u32,
    readings: &[u64],
    visits: &mut [u32],
) -> Answer<[u64; 2]> {
    let loaded = open_as_read(read, work)?;
    let pgn = named(loaded, tree, item)?;
    if visits.len() < readings.len() {
        return refused(25, readings.len());
    }
    let walked = walk(&loaded.pack, pgn, readings);
    visits[..walked.visits.len()].copy_from_slice(&walked.visits);
    Ok([walked.end.number(), walked.visits.len() as u64])
}

/// 1 where the PGN is held, else 0.
pub fn held_pgn(pack: &[u8], work: &mut [u32], tree: u32, item: u32) -> Answer<[u64; 1]> {
    held_pgn_as_read(&read(pack), work, tree, item)
}

/// As `held_pgn`, of a pack that has been read.
pub fn held_pgn_as_read(read: &Answer<Loaded>, work: &mut [u32], tree: u32, item: u32) -> Answer<[u64; 1]> {
    let loaded = open_as_read(read, work)?;
    let pgn = named(loaded, tree, item)?;
    Ok([held(&loaded.pack, pgn).into()])
}
