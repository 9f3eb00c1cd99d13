//! The library's calls with buffers that grow as it says that it needs more.

use super::{Failure, Run};
use crate::finding::Finding;
use crate::library;
use crate::reader::LIMIT;

pub struct Growing {
    work: Vec<u32>,
    findings: Vec<u32>,
    text: Vec<u8>,
}

impl Growing {
    pub fn new() -> Self {
        Growing { work: Vec::new(), findings: vec![0; 8 * 64], text: vec![0; 64] }
    }

    /// The findings, and how many errors the library counts.
    pub fn check(&mut self, bytes: &[u8]) -> Result<(Vec<Finding>, u64), Failure> {
        for _ in 0..3 {
            // nothing of an earlier call may stand in for what this one does not write
            self.findings.fill(u32::MAX);
            match library::check(bytes, &mut self.work, &mut self.findings) {
                Some((0, [count, errors])) if 8 * count <= self.findings.len() as u64 => {
                    let numbers = &self.findings.as_chunks().0[..count as usize];
                    return Ok((numbers.iter().map(|numbers| Finding::from_numbers(*numbers)).collect(), errors));
                }
                Some((21, [needed, 0])) => lengthen(&mut self.work, needed)?,
                Some((22, [needed, 0])) => lengthen(&mut self.findings, needed)?,
                other => return Err(format!("the library's check answers {other:?}")),
            }
        }
        Err("the buffers are as long as the library said, and it refuses them".into())
    }

    pub fn place_text(&mut self, bytes: &[u8], finding: &Finding) -> Result<Vec<u8>, Failure> {
        for _ in 0..2 {
            let Finding { place, tree, item, .. } = *finding;
            self.text.fill(u8::MAX);
            match library::place_text(bytes, &mut self.work, place, tree, item, &mut self.text) {
                Some((0, [length])) if length <= self.text.len() as u64 => {
                    return Ok(self.text[..length as usize].to_vec());
                }
                Some((24, [needed])) => lengthen(&mut self.text, needed)?,
                other => return Err(format!("the library's place text for {finding:?} answers {other:?}")),
            }
        }
        Err("the text buffer is as long as the library said, and it refuses it".into())
    }
}

/// To the length that a refusal says is needed.
fn lengthen<T: Default + Clone>(buffer: &mut Vec<T>, needed: u64) -> Run {
    // a pack has at most a record for each byte, and far fewer findings than 8 for each
    let said = needed as usize;
    if said <= buffer.len() || said > 64 * LIMIT {
        return Err(format!("a buffer of {} is refused, and {needed} is said to be needed", buffer.len()));
    }
    buffer.resize(said, T::default());
    Ok(())
}
