//! An independent field walk and `held` (document 01, "The walk", with document 02's count that is not available). The whole
//! history of visits is kept, and "current" is asked of it as the paper words it.

use crate::value::*;
use std::fmt;

#[derive(Clone, Copy, PartialEq, Eq, Debug)]
pub enum End {
    Whole,
    UsedUp,
    Stop(u32),
}

impl End {
    /// Every end, in the order of their numbers.
    pub fn all() -> impl Iterator<Item = End> {
        [End::Whole].into_iter().chain((1..=9).map(End::Stop)).chain([End::UsedUp])
    }

    /// The number that the exported call gives it.
    pub fn number(self) -> u64 {
        match self {
            End::Whole => 0,
            End::Stop(stop) => stop.into(),
            End::UsedUp => 10,
        }
    }

    /// The end of a number that `number` gives.
    pub fn of_number(number: u64) -> End {
        End::all().find(|end| end.number() == number).expect("the number of an end")
    }
}

impl fmt::Display for End {
    fn fmt(&self, f: &mut fmt::Formatter) -> fmt::Result {
        match self {
            End::Whole => write!(f, "whole"),
            End::UsedUp => write!(f, "used up"),
            End::Stop(stop) => write!(f, "stop {stop}"),
        }
    }
}

#[derive(Clone, PartialEq, Eq, Debug)]
pub struct Walked {
    pub end: End,
    /// the index of each field visited, one for each reading taken
    pub visits: Vec<u32>,
}

/// The stay in a set: since which visit its present pass runs, and how many passes follow this one (none: no end).
struct Stay {
    since: usize,
    more: Option<u64>,
}

/// How many passes a countField's reading means.
pub type Passes = fn(&Field, u64) -> u64;

/// "A countField reading equal to 2^bits - 1, for `res_bits` of 2 to 64, now means no passes. All other widths keep their
/// plain reading" (document 02).
pub fn passes(count_field: &Field, reading: u64) -> u64 {
    let bits = count_field.res_bits;
    let not_available = (2..=64).contains(&bits) && u128::from(reading) == (1 << bits) - 1;
    if not_available { 0 } else { reading }
}

/// The reading as it is, whatever it is (document 01).
pub fn plain_passes(_: &Field, reading: u64) -> u64 {
    reading
}

/// An arrival at a nonempty set with a countField.
pub struct Arrival {
    pub set: usize,
    /// the visit that took the countField's latest reading; none where it is not current
    pub taken: Option<usize>,
}

struct Walk<'a> {
    pack: &'a Pack,
    pgn: &'a Pgn,
    readings: &'a [u64],
    passes: Passes,
    visits: Vec<u32>,
    arrivals: Vec<Arrival>,
    /// set 1 and set 2: their present passes, none for a set that has been left
    stays: [Option<Stay>; 2],
}

pub fn walk(pack: &Pack, pgn: &Pgn, readings: &[u64]) -> Walked {
    walk_by(passes, pack, pgn, readings).0
}

/// The walk that counts passes so, and its arrivals.
pub fn walk_by(passes: Passes, pack: &Pack, pgn: &Pgn, readings: &[u64]) -> (Walked, Vec<Arrival>) {
    let mut walk = Walk { pack, pgn, readings, passes, visits: Vec::new(), arrivals: Vec::new(), stays: [None, None] };
    let end = if sets_are_walkable(pgn) { walk.run() } else { End::Stop(1) };
    (Walked { end, visits: walk.visits }, walk.arrivals)
}

pub fn nonempty(pgn: &Pgn, set: usize) -> Option<&Repeating> {
    pgn.sets[set].as_ref().filter(|set| set.count > 0)
}

fn share_an_order(a: &Repeating, b: &Repeating) -> bool {
    a.start < b.start + b.count && b.start < a.start + a.count
}

/// Not stop 1.
fn sets_are_walkable(pgn: &Pgn) -> bool {
    for set in 0..2 {
        let Some(this) = nonempty(pgn, set) else { continue };
        if this.start == 0 || (this.start + this.count - 1) as usize > pgn.fields.len() {
            return false;
        }
        let within =
            |outer: &Repeating| this.start > outer.start && this.start + this.count <= outer.start + outer.count;
        if this.nested && !(set == 1 && nonempty(pgn, 0).is_some_and(within)) {
            return false;
        }
    }
    match (nonempty(pgn, 0), nonempty(pgn, 1)) {
        (Some(one), Some(two)) => two.nested || !share_an_order(one, two),
        _ => true,
    }
}

impl Walk<'_> {
    fn run(&mut self) -> End {
        let mut order = 1;
        loop {
            order = match self.settle(order) {
                Ok(order) => order,
                Err(end) => return end,
            };
            if order as usize > self.pgn.fields.len() {
                return End::Whole;
            }
            let index = order as usize - 1;
            let Some(reading) = self.readings.get(self.visits.len()) else {
                return End::UsedUp;
            };
            if let Some(stop) = self.stop_at(index, *reading) {
                return End::Stop(stop);
            }
            self.visits.push(index as u32);
            order += 1;
        }
    }

    /// From the order that comes next to the order that is due: passes end and sets are left, others are arrived at.
    fn settle(&mut self, mut order: u32) -> Result<u32, End> {
        loop {
            let before = (order, self.stays[0].is_some(), self.stays[1].is_some());
            // At the end of a pass the inner set is left first.
            for set in [1, 0] {
                order = self.end_of_pass(set, order);
            }
            // The outer set is arrived at first.
            for set in [0, 1] {
                order = self.arrive(set, order)?;
            }
            if before == (order, self.stays[0].is_some(), self.stays[1].is_some()) {
                return Ok(order);
            }
        }
    }

    fn end_of_pass(&mut self, set: usize, order: u32) -> u32 {
        let since = self.visits.len();
        let (Some(this), Some(stay)) = (nonempty(self.pgn, set), &mut self.stays[set]) else {
            return order;
        };
        if order != this.start + this.count {
            return order;
        }
        stay.since = since;
        match &mut stay.more {
            None => this.start,
            Some(0) => {
                self.stays[set] = None;
                order
            }
            Some(more) => {
                *more -= 1;
                this.start
            }
        }
    }

    fn arrive(&mut self, set: usize, order: u32) -> Result<u32, End> {
        let Some(this) = nonempty(self.pgn, set) else { return Ok(order) };
        if self.stays[set].is_some() || order != this.start {
            return Ok(order);
        }
        let passes = match this.count_field {
            None => None,
            Some(order) => {
                let taken = self.current_visit(order);
                self.arrivals.push(Arrival { set, taken });
                let reading = self.readings[taken.ok_or(End::Stop(2))?];
                Some((self.passes)(&self.pgn.fields[order as usize - 1], reading))
            }
        };
        if passes == Some(0) {
            return Ok(this.start + this.count);
        }
        self.stays[set] = Some(Stay { since: self.visits.len(), more: passes.map(|passes| passes - 1) });
        Ok(order)
    }

    /// The latest visit of a field that is current.
    fn current_visit(&self, order: u32) -> Option<usize> {
        let index = order.checked_sub(1)?;
        let latest = self.visits.iter().rposition(|visit| *visit == index)?;
        let current = (0..2).all(|set| match nonempty(self.pgn, set) {
            Some(this) if this.holds(order) => self.stays[set].as_ref().is_some_and(|stay| stay.since <= latest),
            _ => true,
        });
        current.then_some(latest)
    }

    fn is_current(&self, index: usize) -> bool {
        self.current_visit(index as u32 + 1).is_some()
    }

    /// A target is the first field with that id; without one it is not current.
    fn target_is_current(&self, id: &Text) -> bool {
        self.pgn.fields.iter().position(|field| field.id == *id).is_some_and(|index| self.is_current(index))
    }

    fn stop_at(&self, index: usize, reading: u64) -> Option<u32> {
        let field = &self.pgn.fields[index];
        let missing = |id: &Option<Text>| id.as_ref().is_some_and(|id| !self.target_is_current(id));
        if field.reference.as_ref().is_some_and(|(_, name)| self.pack.lookup(name).is_none()) {
            Some(3)
        } else if field.match_.is_some() && !self.match_fits(field) {
            Some(4)
        } else if self.entry_names_missing(field, reading) {
            Some(5)
        } else if missing(&field.bit_length_field) {
            Some(6)
        } else if missing(&field.continues) {
            Some(7)
        } else if self.pack.root_name(field) == b"DYNAMIC_FIELD_VALUE" && !self.length_source(index) {
            Some(8)
        } else if missing(&field.trailing_zero) {
            Some(9)
        } else {
            None
        }
    }

    fn match_fits(&self, field: &Field) -> bool {
        let value = self.pack.resolve_match(field);
        value.is_some_and(|value| field.res_bits >= 64 || value >> field.res_bits == 0)
    }

    fn entry_names_missing(&self, field: &Field, reading: u64) -> bool {
        let Some((_, name)) = &field.reference else { return false };
        let Some(found) = self.pack.lookup(name) else { return false };
        let lookup = &self.pack.lookups[found];
        lookup.kind == Kind::Fieldtype
            && lookup.entries.iter().any(|entry| {
                entry.value == reading
                    && (!self.pack.has_fieldtype(&entry.fieldtype)
                        || entry.nested.as_ref().is_some_and(|nested| self.pack.lookup(nested).is_none()))
            })
    }

    fn length_source(&self, index: usize) -> bool {
        (0..index).any(|lower| is_length_source(self.pack, &self.pgn.fields[lower]) && self.is_current(lower))
    }
}

/// In how many passes of set 1 a nested set 2 has several.
pub fn passes_of_nested(pgn: &Pgn, visits: &[u32]) -> usize {
    let [Some(outer), Some(Repeating { count: 1.., start, nested: true, .. })] = &pgn.sets else { return 0 };
    let passes = visits.split(|visit| visit + 1 == outer.start).skip(1);
    passes.filter(|pass| pass.iter().filter(|visit| *visit + 1 == *start).count() > 1).count()
}

fn is_length_source(pack: &Pack, field: &Field) -> bool {
    field.dynamic_field_length || pack.root_name(field) == b"DYNAMIC_FIELD_KEY"
}

/// A PGN is held.
pub fn held(pack: &Pack, pgn: &Pgn) -> bool {
    let sets: Vec<(usize, &Repeating)> = (0..2).filter_map(|set| Some((set, nonempty(pgn, set)?))).collect();
    if let [(_, one), (_, two)] = sets[..]
        && share_an_order(one, two)
        && !two.nested
    {
        return false;
    }
    // The countField of every set, an empty one's too (docs/DECISIONS.md 13).
    for (set, this) in pgn.sets.iter().enumerate().filter_map(|(set, this)| Some((set, this.as_ref()?))) {
        let Some(count_field) = this.count_field else { continue };
        for (other, holder) in &sets {
            if holder.holds(count_field) && !(set == 1 && this.nested && *other == 0) {
                return false;
            }
        }
    }
    // Each nonempty set that holds the needed field holds its user too.
    let holds_user = |needed: usize, user: usize| {
        sets.iter().all(|(_, set)| !set.holds(needed as u32 + 1) || set.holds(user as u32 + 1))
    };
    for (user, field) in pgn.fields.iter().enumerate() {
        if let Some(id) = &field.bit_length_field
            && let Some(target) = pgn.fields.iter().position(|field| field.id == *id)
            && !holds_user(target, user)
        {
            return false;
        }
        if pack.root_name(field) == b"DYNAMIC_FIELD_VALUE"
            && !(0..user).any(|lower| is_length_source(pack, &pgn.fields[lower]) && holds_user(lower, user))
        {
            return false;
        }
    }
    true
}
