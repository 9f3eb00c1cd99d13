//! The Rattle library's exported calls, wrapped: linked where SARWYMP_LIB named its folder at build time. Each wrapper
//! answers the refusal number, 0 where there is none, and the numbers of the answer as the call left them; none where the
//! library was not linked. Each number must be written: they hold something else before the call.

use crate::encode::encode;
use crate::finding::Finding;
use crate::reader::Refusal;
use crate::value::Pack;

/// Whether the library was linked.
pub const PRESENT: bool = cfg!(sarwymp);

/// What a number of an answer holds before the call.
#[cfg(sarwymp)]
const UNWRITTEN: u64 = u64::MAX;

#[cfg(sarwymp)]
unsafe extern "C" {
    fn sarwymp_load(pack: *const u8, pack_len: usize, work: *mut u32, work_len: usize, answer: *mut [u64; 11]) -> u32;

    fn sarwymp_check(
        pack: *const u8,
        pack_len: usize,
        work: *mut u32,
        work_len: usize,
        findings: *mut u32,
        findings_len: usize,
        answer: *mut [u64; 2],
    ) -> u32;

    fn sarwymp_place_text(
        pack: *const u8,
        pack_len: usize,
        work: *mut u32,
        work_len: usize,
        place: u32,
        tree: u32,
        item: u32,
        text: *mut u8,
        text_len: usize,
        answer: *mut [u64; 1],
    ) -> u32;

    fn sarwymp_walk(
        pack: *const u8,
        pack_len: usize,
        work: *mut u32,
        work_len: usize,
        tree: u32,
        pgn: u32,
        readings: *const u64,
        readings_len: usize,
        visits: *mut u32,
        visits_len: usize,
        answer: *mut [u64; 2],
    ) -> u32;

    fn sarwymp_held(
        pack: *const u8,
        pack_len: usize,
        work: *mut u32,
        work_len: usize,
        tree: u32,
        pgn: u32,
        answer: *mut [u64; 1],
    ) -> u32;
}

#[cfg(sarwymp)]
pub fn load(pack: &[u8], work: &mut [u32]) -> Option<(u32, [u64; 11])> {
    let mut answer = [UNWRITTEN; 11];
    // SAFETY: the pointers and lengths are those of live slices, and the answer is writable for the call.
    let number = unsafe { sarwymp_load(pack.as_ptr(), pack.len(), work.as_mut_ptr(), work.len(), &mut answer) };
    Some((number, answer))
}

/// The answer is the number of findings and of errors, or the detail and 0.
#[cfg(sarwymp)]
pub fn check(pack: &[u8], work: &mut [u32], findings: &mut [u32]) -> Option<(u32, [u64; 2])> {
    let mut answer = [UNWRITTEN; 2];
    // SAFETY: as for load; the two lent buffers are apart.
    let number = unsafe {
        sarwymp_check(
            pack.as_ptr(),
            pack.len(),
            work.as_mut_ptr(),
            work.len(),
            findings.as_mut_ptr(),
            findings.len(),
            &mut answer,
        )
    };
    Some((number, answer))
}

/// The answer is the length of the text, or the detail.
#[cfg(sarwymp)]
pub fn place_text(
    pack: &[u8],
    work: &mut [u32],
    place: u32,
    tree: u32,
    item: u32,
    text: &mut [u8],
) -> Option<(u32, [u64; 1])> {
    let mut answer = [UNWRITTEN; 1];
    // SAFETY: as for load; the two lent buffers are apart.
    let number = unsafe {
        sarwymp_place_text(
            pack.as_ptr(),
            pack.len(),
            work.as_mut_ptr(),
            work.len(),
            place,
            tree,
            item,
            text.as_mut_ptr(),
            text.len(),
            &mut answer,
        )
    };
    Some((number, answer))
}

/// The answer is the number of the end and of the visits, or the detail and 0. `pgn` is the index of the PGN in its tree.
#[cfg(sarwymp)]
pub fn walk(
    pack: &[u8],
    work: &mut [u32],
    tree: u32,
    pgn: u32,
    readings: &[u64],
    visits: &mut [u32],
) -> Option<(u32, [u64; 2])> {
    let mut answer = [UNWRITTEN; 2];
    // SAFETY: as for load; the two lent buffers are apart, and the readings are only read.
    let number = unsafe {
        sarwymp_walk(
            pack.as_ptr(),
            pack.len(),
            work.as_mut_ptr(),
            work.len(),
            tree,
            pgn,
            readings.as_ptr(),
            readings.len(),
            visits.as_mut_ptr(),
            visits.len(),
            &mut answer,
        )
    };
    Some((number, answer))
}

/// The answer is 1 where the PGN is held and else 0, or the detail.
#[cfg(sarwymp)]
pub fn held(pack: &[u8], work: &mut [u32], tree: u32, pgn: u32) -> Option<(u32, [u64; 1])> {
    let mut answer = [UNWRITTEN; 1];
    // SAFETY: as for load.
    let number =
        unsafe { sarwymp_held(pack.as_ptr(), pack.len(), work.as_mut_ptr(), work.len(), tree, pgn, &mut answer) };
    Some((number, answer))
}

#[cfg(not(sarwymp))]
pub fn load(_: &[u8], _: &mut [u32]) -> Option<(u32, [u64; 11])> {
    None
}

#[cfg(not(sarwymp))]
pub fn check(_: &[u8], _: &mut [u32], _: &mut [u32]) -> Option<(u32, [u64; 2])> {
    None
}

#[cfg(not(sarwymp))]
pub fn place_text(_: &[u8], _: &mut [u32], _: u32, _: u32, _: u32, _: &mut [u8]) -> Option<(u32, [u64; 1])> {
    None
}

#[cfg(not(sarwymp))]
pub fn walk(_: &[u8], _: &mut [u32], _: u32, _: u32, _: &[u64], _: &mut [u32]) -> Option<(u32, [u64; 2])> {
    None
}

#[cfg(not(sarwymp))]
pub fn held(_: &[u8], _: &mut [u32], _: u32, _: u32) -> Option<(u32, [u64; 1])> {
    None
}

/// What the library's check reports of a pack, in a findings buffer of the length that it asks for.
pub fn findings(pack: &Pack) -> Option<Vec<Finding>> {
    let encoded = encode(pack);
    let mut work = vec![0; encoded.records.len()];
    let mut findings = vec![];
    let (mut number, mut answer) = check(&encoded.bytes, &mut work, &mut findings)?;
    if number == 22 {
        findings.resize(answer[0] as usize, 0);
        (number, answer) = check(&encoded.bytes, &mut work, &mut findings)?;
    }
    assert_eq!(number, 0, "the library refuses the pack: {answer:?}");
    let numbers = &findings.as_chunks().0[..answer[0] as usize];
    Some(numbers.iter().map(|numbers| Finding::from_numbers(*numbers)).collect())
}

/// An answer of `calls` as the library gives it: a refusal's detail comes first, the rest is 0.
pub fn as_numbers<const N: usize>(answer: Result<[u64; N], Refusal>) -> (u32, [u64; N]) {
    match answer {
        Ok(numbers) => (0, numbers),
        Err(refusal) => {
            let mut numbers = [0; N];
            numbers[0] = refusal.detail;
            (refusal.number, numbers)
        }
    }
}
