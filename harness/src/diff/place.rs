//! Place texts by the PGN's number: the edges of each count of digits with text buffers of every length, and random
//! numbers of each count of digits, in each tree, of a PGN and of a group. The text is the Rust's `{:06}` between what
//! stands before and behind the number.

use super::{Lent, Run, finish};
use crate::encode::encode;
use crate::finding::{GROUP, PGN};
use crate::rng::Rng;
use crate::table::Table;
use crate::value::{PREFIX, Pack, Pgn};
use crate::{calls, library};

/// `calls::place_text`, and the library's where it is linked.
pub fn place(seed: u64, count: usize) -> Run {
    if !library::PRESENT {
        println!("place: no library linked (SARWYMP_LIB names its folder), so only the model is tried");
    }
    let rows = (1..=10).flat_map(|digits| [row(digits, true), row(digits, false)]);
    let mut table = Table::new("place texts by the number's digits", rows);
    for number in edges() {
        for (place, tree) in [PGN, GROUP].into_iter().flat_map(|place| (0..3).map(move |tree| (place, tree))) {
            let named = Named::new(number, place, tree);
            (0..=named.text.len() + 2).try_for_each(|lent| named.call(lent, &mut table))?;
        }
    }
    let mut rng = Rng::new(seed);
    for _ in 0..count {
        let number = some_number(&mut rng);
        let named = Named::new(number, *rng.pick(&[PGN, GROUP]), rng.below(3) as u32);
        let needed = named.text.len();
        for lent in [needed, needed - 1, rng.below(needed), needed + rng.below(4)] {
            named.call(lent, &mut table)?;
        }
    }
    println!("place: every edge of the digits and {count} numbers, seed {seed}: no difference");
    finish(&[&table])
}

fn row(digits: usize, written: bool) -> String {
    format!("{digits} {}", if written { "written" } else { "24" })
}

/// 10^k - 1, 10^k and 10^k + 1, and the largest.
fn edges() -> impl Iterator<Item = u32> {
    let powers = (0..10).map(|power| 10u32.pow(power));
    powers.flat_map(|power| [power - 1, power, power + 1]).chain([u32::MAX - 1, u32::MAX])
}

/// Each count of digits as often.
fn some_number(rng: &mut Rng) -> u32 {
    let digits = rng.between(1, 10) as u32;
    let low = if digits == 1 { 0 } else { 10usize.pow(digits - 1) };
    let high = (10usize.pow(digits) - 1).min(u32::MAX as usize);
    rng.between(low, high) as u32
}

/// A PGN alone in its tree, or its group, with its place text.
struct Named {
    bytes: Vec<u8>,
    number: u32,
    place: u32,
    tree: u32,
    item: u32,
    text: Vec<u8>,
}

impl Named {
    fn new(number: u32, place: u32, tree: u32) -> Self {
        let mut pack = Pack::default();
        pack.trees[tree as usize] = vec![Pgn { pgn: number, id: b"id".to_vec(), ..Pgn::default() }];
        let (item, id) = if place == PGN { (0, "id") } else { (number, "*") };
        let text = format!("{}pgns/{number:06}-{id}.yaml", PREFIX[tree as usize]).into_bytes();
        Named { bytes: encode(&pack).bytes, number, place, tree, item, text }
    }

    /// A call with so long a text buffer: the text, or 24 with its length and no byte changed.
    fn call(&self, lent: usize, table: &mut Table) -> Run {
        let Named { ref bytes, place, tree, item, .. } = *self;
        let (before, needed) = (Lent::bytes(lent), self.text.len());
        let written = needed <= lent;
        table.reached(&row(self.number.to_string().len(), written));
        let expected = (if written { 0 } else { 24 }, [needed as u64]);
        let after = if written { before.clone().with(&self.text) } else { before.clone() };
        let mut ours = before.clone();
        let answer = calls::place_text(bytes, &mut [0; 1], place, tree, item, ours.part());
        let mut theirs = before;
        let their_answer = library::place_text(bytes, &mut [0; 1], place, tree, item, theirs.part());
        let sides = [(Some(library::as_numbers(answer)), ours, "model"), (their_answer, theirs, "library")];
        for (answer, text, side) in sides {
            if let Some(answer) = answer
                && (answer != expected || text != after)
            {
                let (said, unlike) = (String::from_utf8_lossy(&self.text), text.unlike(&after));
                return Err(format!("{said}, text of {lent}: the {side} answers {answer:?}; text {unlike}"));
            }
        }
        Ok(())
    }
}
