//! Damaged copies of a good pack. Where one item is made wrong, what 01 refuses is known without reading the pack.

use crate::encode::{Encoded, Item, Placed, number, text};
use crate::reader::Refusal;
use crate::rng::Rng;

pub struct Damaged {
    pub bytes: Vec<u8>,
    /// the refusal, where the way of the damage says it
    pub expected: Option<Refusal>,
}

type Way = fn(&mut Rng, &Encoded) -> Option<Damaged>;

const WAYS: [Way; 15] = [
    cut,
    not_shortest,
    too_large,
    without_end,
    too_long_text,
    version,
    code,
    name_order,
    fieldtype_index,
    sum,
    sum_at_limit,
    after_the_end,
    two_at_once,
    bytes_changed,
    bytes_moved,
];

/// A copy damaged in some way that this pack has room for.
pub fn damage(rng: &mut Rng, pack: &Encoded) -> Damaged {
    loop {
        if let Some(damaged) = rng.pick(&WAYS)(rng, pack) {
            return damaged;
        }
    }
}

fn refused(number: u32, at: usize) -> Option<Refusal> {
    Some(Refusal { number, detail: at as u64 })
}

/// Some item with the property.
fn some_item(rng: &mut Rng, pack: &Encoded, property: impl Fn(Item) -> bool) -> Option<usize> {
    let fit: Vec<usize> = (0..pack.items.len()).filter(|i| property(pack.items[*i].item)).collect();
    (!fit.is_empty()).then(|| *rng.pick(&fit))
}

/// The pack with other bytes for one item; the refusal is at that item.
fn replaced(pack: &Encoded, item: usize, with: &[u8], refusal: u32) -> Option<Damaged> {
    let Placed { at, end, .. } = pack.items[item];
    let bytes = [&pack.bytes[..at], with, &pack.bytes[end..]].concat();
    Some(Damaged { bytes, expected: refused(refusal, at) })
}

fn value(pack: &Encoded, item: usize) -> u64 {
    let Placed { at, end, .. } = pack.items[item];
    pack.bytes[at..end].iter().rev().fold(0, |value, byte| value << 7 | u64::from(byte & 0x7f))
}

/// The bytes of an item's number, a text's length included, and the rest of it.
fn split(pack: &Encoded, item: usize) -> (&[u8], &[u8]) {
    let Placed { at, end, .. } = pack.items[item];
    let bytes = &pack.bytes[at..end];
    bytes.split_at(bytes.iter().position(|byte| byte & 0x80 == 0).unwrap() + 1)
}

fn has_number(item: Item) -> bool {
    item != Item::Float
}

/// Bytes end inside an item or before the next one.
fn cut(rng: &mut Rng, pack: &Encoded) -> Option<Damaged> {
    let length = rng.below(pack.bytes.len());
    let item = pack.items.iter().find(|item| length < item.end)?;
    Some(Damaged { bytes: pack.bytes[..length].to_vec(), expected: refused(1, item.at) })
}

fn not_shortest(rng: &mut Rng, pack: &Encoded) -> Option<Damaged> {
    let item = some_item(rng, pack, has_number)?;
    let (number, rest) = split(pack, item);
    let mut with = number.to_vec();
    *with.last_mut().unwrap() |= 0x80;
    with.resize(with.len() + rng.below(3), 0x80);
    with.push(0);
    with.extend(rest);
    replaced(pack, item, &with, 2)
}

fn too_large(rng: &mut Rng, pack: &Encoded) -> Option<Damaged> {
    let item = some_item(rng, pack, has_number)?;
    let width = if pack.items[item].item == Item::Number64 { 64 } else { 32 };
    let (_, rest) = split(pack, item);
    let with = match rng.below(4) {
        0 => number(1 << width),
        1 => number((1 << width) + u128::from(rng.u64())),
        // the groups in reach are 0 or small: a value that wraps would be taken
        2 => [vec![0x80; rng.between(10, 40)], vec![1]].concat(),
        _ => number(1 << rng.between(width, 120)),
    };
    replaced(pack, item, &[&with, rest].concat(), 2)
}

/// A number that runs to the end of the pack.
fn without_end(rng: &mut Rng, pack: &Encoded) -> Option<Damaged> {
    let at = pack.items[some_item(rng, pack, has_number)?].at;
    let mut bytes = pack.bytes[..at].to_vec();
    bytes.resize(at + rng.below(20), *rng.pick(&[0x80, 0xff]));
    Some(Damaged { bytes, expected: refused(1, at) })
}

/// A text's length is judged before its bytes.
fn too_long_text(rng: &mut Rng, pack: &Encoded) -> Option<Damaged> {
    let item = some_item(rng, pack, |item| matches!(item, Item::Text | Item::LookupName))?;
    let (_, rest) = split(pack, item);
    let left = pack.bytes.len() - pack.items[item].end + rest.len();
    let length = *rng.pick(&[left as u128 + 1, left as u128 + 1000, u128::from(u32::MAX)]);
    replaced(pack, item, &[&number(length), rest].concat(), 1)
}

fn version(rng: &mut Rng, pack: &Encoded) -> Option<Damaged> {
    replaced(pack, 0, &number(*rng.pick(&[0, 2, 3, 127, 128, u128::from(u32::MAX)])), 3)
}

fn code(rng: &mut Rng, pack: &Encoded) -> Option<Damaged> {
    let item = some_item(rng, pack, |item| matches!(item, Item::Code(_)))?;
    let Item::Code(largest) = pack.items[item].item else { return None };
    let above = u128::from(largest) + 1;
    let with = *rng.pick(&[above, above + 1, 128, 256 + above, u128::from(u32::MAX)]);
    replaced(pack, item, &number(with), 4)
}

/// A lookup's name equal to the previous one, or a prefix of it.
fn name_order(rng: &mut Rng, pack: &Encoded) -> Option<Damaged> {
    let names: Vec<usize> = (0..pack.items.len()).filter(|i| pack.items[*i].item == Item::LookupName).collect();
    if names.len() < 2 {
        return None;
    }
    let which = rng.between(1, names.len() - 1);
    let (_, previous) = split(pack, names[which - 1]);
    let length = if rng.chance(1, 2) { previous.len() } else { rng.below(previous.len() + 1) };
    replaced(pack, names[which], &text(&previous[..length]), 5)
}

fn fieldtype_index(rng: &mut Rng, pack: &Encoded) -> Option<Damaged> {
    let item = some_item(rng, pack, |item| item == Item::FieldTypeIndex)?;
    // the second item is the number of field types
    let count = u128::from(value(pack, 1));
    replaced(pack, item, &number(*rng.pick(&[count, count + 1, u128::from(u32::MAX)])), 6)
}

/// For an item that completes a sum, the largest value that it may have.
fn room(pack: &Encoded, item: usize) -> u64 {
    let most = u64::from(u32::MAX);
    let before = |item: usize, what: Item| (0..item).rev().find(|i| pack.items[*i].item == what).unwrap();
    match pack.items[item].item {
        Item::MinLength => most / 8,
        Item::SetStart => most - value(pack, item - 1),
        Item::ContinuationWidth => most - value(pack, before(item, Item::ResBits)),
        Item::ResBits => {
            let widths = (before(item, Item::PgnNumber)..item).filter(|i| pack.items[*i].item == Item::ResBits);
            most - widths.map(|i| value(pack, i)).sum::<u64>()
        }
        _ => most,
    }
}

fn completes_sum(item: Item) -> bool {
    matches!(item, Item::MinLength | Item::SetStart | Item::ContinuationWidth | Item::ResBits)
}

fn sum(rng: &mut Rng, pack: &Encoded) -> Option<Damaged> {
    let item = some_item(rng, pack, completes_sum)?;
    let above = room(pack, item) + 1;
    if above > u64::from(u32::MAX) {
        return None;
    }
    let with = if rng.chance(1, 2) { above } else { u64::from(u32::MAX) };
    replaced(pack, item, &number(with.into()), 7)
}

/// The largest value is taken here; a later item may complete another sum.
fn sum_at_limit(rng: &mut Rng, pack: &Encoded) -> Option<Damaged> {
    let item = some_item(rng, pack, completes_sum)?;
    let damaged = replaced(pack, item, &number(room(pack, item).into()), 0)?;
    Some(Damaged { expected: None, ..damaged })
}

fn after_the_end(rng: &mut Rng, pack: &Encoded) -> Option<Damaged> {
    let mut bytes = pack.bytes.clone();
    bytes.extend((0..rng.between(1, 9)).map(|_| rng.u64() as u8));
    Some(Damaged { bytes, expected: refused(8, pack.bytes.len()) })
}

/// The first offending item decides: what comes after it does not matter.
fn two_at_once(rng: &mut Rng, pack: &Encoded) -> Option<Damaged> {
    let first: Way = *rng.pick(&[not_shortest, too_large, code, name_order, fieldtype_index, sum]);
    let mut damaged = first(rng, pack)?;
    // Past the item that is refused, and past its bytes, anything may stand.
    let at = damaged.expected?.detail as usize;
    let item = pack.items.iter().find(|item| item.at == at)?;
    let keep = damaged.bytes.len() - (pack.bytes.len() - item.end);
    let rest = damaged.bytes.len() - keep;
    if rest > 0 && rng.chance(1, 2) {
        damaged.bytes.truncate(keep + rng.below(rest));
    }
    for _ in 0..4 {
        if damaged.bytes.len() > keep {
            let place = rng.between(keep, damaged.bytes.len() - 1);
            damaged.bytes[place] = rng.u64() as u8;
        }
    }
    Some(damaged)
}

fn bytes_changed(rng: &mut Rng, pack: &Encoded) -> Option<Damaged> {
    let mut bytes = pack.bytes.clone();
    for _ in 0..rng.between(1, 3) {
        let place = rng.below(bytes.len());
        bytes[place] = match rng.below(3) {
            0 => bytes[place] ^ (1 << rng.below(8)),
            1 => bytes[place].wrapping_add(1),
            _ => rng.u64() as u8,
        };
    }
    Some(Damaged { bytes, expected: None })
}

fn bytes_moved(rng: &mut Rng, pack: &Encoded) -> Option<Damaged> {
    let mut bytes = pack.bytes.clone();
    let place = rng.below(bytes.len());
    if rng.chance(1, 2) {
        bytes.remove(place);
    } else {
        bytes.insert(place, rng.u64() as u8);
    }
    Some(Damaged { bytes, expected: None })
}
