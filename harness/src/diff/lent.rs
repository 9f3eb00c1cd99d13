//! A buffer of which a call is lent the middle: what stands before and after that must stay.

/// So many numbers or bytes stand before the part that is lent, and as many after it.
const EDGE: usize = 8;

/// The whole, each place with something of its own in it before the call.
#[derive(Clone, PartialEq, Eq, Debug)]
pub struct Lent<T> {
    whole: Vec<T>,
}

impl Lent<u32> {
    pub fn numbers(lent: usize) -> Self {
        Lent { whole: (0..(lent + 2 * EDGE) as u32).map(|place| 0xa5a5_0000 ^ place).collect() }
    }
}

impl Lent<u8> {
    pub fn bytes(lent: usize) -> Self {
        Lent { whole: (0..lent + 2 * EDGE).map(|place| 0xa5 ^ place as u8).collect() }
    }
}

impl<T: Copy + PartialEq> Lent<T> {
    /// What the call gets.
    pub fn part(&mut self) -> &mut [T] {
        let end = self.whole.len() - EDGE;
        &mut self.whole[EDGE..end]
    }

    /// What the call got.
    pub fn lent(&self) -> &[T] {
        &self.whole[EDGE..self.whole.len() - EDGE]
    }

    /// The buffer after a call that writes `begin` at the beginning of its part and nothing else.
    pub fn with(mut self, begin: &[T]) -> Self {
        self.part()[..begin.len()].copy_from_slice(begin);
        self
    }

    /// Where two buffers differ, seen from the part that is lent, in words.
    pub fn unlike(&self, other: &Self) -> String {
        match self.whole.iter().zip(&other.whole).position(|(a, b)| a != b) {
            None => "alike".into(),
            Some(place) => format!("differs at {}", place as isize - EDGE as isize),
        }
    }
}
