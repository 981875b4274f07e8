//! Buffers that are lent to a call in the tests.

/// Elements on both sides of the lent part, to be left alone.
const GUARD: usize = 40;

/// Filled elements of which the middle part is lent.
#[derive(Clone, Debug, PartialEq, Eq)]
pub struct Lent<T> {
    elements: Vec<T>,
    length: usize,
}

impl<T> Lent<T> {
    /// So many elements to lend, between guards of such elements.
    pub fn filled(length: usize, element: impl FnMut() -> T) -> Lent<T> {
        let mut elements = Vec::new();
        elements.resize_with(GUARD + length + GUARD, element);
        Lent { elements, length }
    }

    pub fn part(&mut self) -> &mut [T] {
        &mut self.elements[GUARD..GUARD + self.length]
    }

    /// The lent part and the guards.
    pub fn whole(&self) -> &[T] {
        &self.elements
    }

    /// The guard before the lent part.
    pub fn before(&self) -> &[T] {
        &self.elements[..GUARD]
    }

    /// All after so many elements of the lent part, with the guard.
    pub fn after(&self, count: usize) -> &[T] {
        &self.elements[GUARD + count..]
    }
}
