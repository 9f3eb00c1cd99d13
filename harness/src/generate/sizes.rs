//! Packs of given sizes, and of PGN numbers of each count of digits.

use super::{Generator, text};
use crate::encode::{encode, number};
use crate::reader::LIMIT;
use crate::value::*;

impl Generator {
    /// A pack of exactly `size` bytes, where that is large enough (256 bytes or so). It has no hexadecimals.
    pub fn pack_of_size(&mut self, size: usize, slip: usize) -> Pack {
        self.hexadecimal = false;
        self.any_pack_of_size(size, slip)
    }

    fn any_pack_of_size(&mut self, size: usize, slip: usize) -> Pack {
        self.bytes = false;
        self.slip = slip;
        self.begin();
        let mut pack =
            Pack { fieldtypes: self.types.clone(), lookups: self.lookups.clone(), trees: Default::default() };
        let mut length = encode(&pack).bytes.len();
        if length + 16 > size {
            pack = Pack::default();
            pack.fieldtypes.push(self.types[0].clone());
            length = encode(&pack).bytes.len();
        }
        while pack.fieldtypes.len() > 1 {
            let tree = self.rng.below(3);
            let fields = self.field_count().max(3);
            let mut pgns = std::mem::take(&mut pack.trees[tree]);
            self.add_pgn(tree, fields, &mut pgns);
            let added = pgns.last_mut().unwrap();
            added.id = text(format!("p{length}"));
            // Numbers of their own, or fallback, keep the pack without error however long it gets.
            if slip == 0 && self.coin() {
                added.pgn = 0x40000 + length as u32;
            } else if slip == 0 {
                added.fallback = true;
            }
            let one = Pack { trees: [vec![added.clone()], vec![], vec![]], ..Pack::default() };
            // a fresh pack has five counts and a version of one byte each; leave room for the counts to grow
            length += encode(&one).bytes.len() - 6;
            if length + 16 > size {
                pgns.pop();
                pack.trees[tree] = pgns;
                break;
            }
            pack.trees[tree] = pgns;
        }
        // a slip may have lengthened an earlier PGN
        while encode(&pack).bytes.len() > size && pack.trees.iter_mut().rev().any(|pgns| pgns.pop().is_some()) {}
        pad(&mut pack, size);
        pack
    }
}

/// Makes the first field type's name longer until the pack has exactly `size` bytes, where it is shorter.
pub fn pad(pack: &mut Pack, size: usize) {
    loop {
        let length = encode(pack).bytes.len();
        if length >= size {
            return;
        }
        let name = &mut pack.fieldtypes[0].name;
        if length + 1 == size
            && number(name.len() as u128 + 1).len() > number(name.len() as u128).len()
            && let Some(pgn) = pack.trees.iter_mut().flatten().next()
        {
            // one byte more would be two, so it goes elsewhere
            pgn.id.push(b'x');
            continue;
        }
        // the length's own bytes may grow too: come near, then byte by byte
        let more = (size - length).saturating_sub(3).max(1);
        name.extend(std::iter::repeat_n(b'x', more));
    }
}

/// Packs of many sizes, the largest that is read and one byte more among them.
pub fn packs_of_sizes(seed: u64) -> impl Iterator<Item = Pack> {
    let mut generator = Generator::new(seed);
    let sizes = [1 << 10, 1 << 13, 1 << 16, 1 << 18, LIMIT - 1, LIMIT, LIMIT + 1];
    sizes.into_iter().map(move |size| generator.pack_of_size(size, 20))
}

/// Packs of some sizes with hexadecimals.
pub fn hexadecimal_packs_of_sizes(seed: u64) -> impl Iterator<Item = Pack> {
    let mut generator = Generator { hexadecimal: true, ..Generator::new(seed) };
    [1 << 12, 1 << 15, 1 << 18].into_iter().map(move |size| generator.any_pack_of_size(size, 20))
}

/// PGNs with numbers at each edge of their digits, in each tree.
pub fn pack_of_digits() -> Pack {
    let edges = (1..=9).flat_map(|digits| [10u32.pow(digits) - 1, 10u32.pow(digits)]);
    let numbers = [0, 1].into_iter().chain(edges).chain([u32::MAX - 1, u32::MAX]);
    let pgns: Vec<Pgn> = numbers.map(|pgn| Pgn { pgn, id: text("a"), ..Pgn::default() }).collect();
    Pack { trees: [pgns.clone(), pgns.clone(), pgns], ..Pack::default() }
}
