//! A list of which a part is lent to a call, while the rest is looked at
//! afterwards.

use std::fmt::Display;

/// So many entries are looked at on either side of the part.
const AROUND: usize = 8;

/// The list is kept from call to call, and no more of it is filled than is
/// looked at.
#[derive(Default)]
pub struct Lent<T> {
    list: Vec<T>,
    length: usize,
    mark: T,
}

impl<T: Copy + PartialEq + Display> Lent<T> {
    /// A part of this length, filled with the mark like what lies around it.
    pub fn lend(&mut self, length: usize, mark: T) -> &mut [T] {
        let whole = AROUND + length + AROUND;
        if self.list.len() < whole {
            self.list.resize(whole, mark);
        }
        self.list[..whole].fill(mark);
        (self.length, self.mark) = (length, mark);
        &mut self.list[AROUND..AROUND + length]
    }

    /// The part as it was left.
    pub fn part(&self) -> &[T] {
        &self.list[AROUND..AROUND + self.length]
    }

    /// How many entries are changed outside the first `count` of the part.
    pub fn outside(&self, count: usize) -> usize {
        let before = &self.list[..AROUND];
        let after = &self.list[AROUND + count.min(self.length)..AROUND + self.length + AROUND];
        let changed = |list: &[T]| list.iter().filter(|&&entry| entry != self.mark).count();
        changed(before) + changed(after)
    }

    /// The first entry of the part that is not the other's, and both.
    pub fn difference(&self, other: &Lent<T>) -> Option<String> {
        if self.part() == other.part() {
            return None;
        }
        let mut pairs = self.part().iter().zip(other.part()).enumerate();
        let (at, (given, expected)) = pairs.find(|(_, (given, expected))| given != expected)?;
        Some(format!("at {at}: {given} given, {expected}"))
    }
}
