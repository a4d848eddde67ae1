//! Memory to lend: filled with a pattern, with a margin on both sides, so that
//! every place the library should not touch can be looked at afterwards.

const MARGIN: usize = 16;

#[derive(Clone, PartialEq)]
pub struct Lent<T> {
    places: Vec<T>,
    pattern: T,
}

impl<T: Copy + PartialEq> Lent<T> {
    pub fn new(length: usize, pattern: T) -> Self {
        Lent { places: vec![pattern; length + 2 * MARGIN], pattern }
    }

    /// Memory that holds these values beforehand, and the pattern around them.
    pub fn of(values: &[T], pattern: T) -> Self {
        let mut lent = Lent::new(values.len(), pattern);
        lent.lend().copy_from_slice(values);
        lent
    }

    /// What the library gets to see.
    pub fn lend(&mut self) -> &mut [T] {
        let end = self.places.len() - MARGIN;
        &mut self.places[MARGIN..end]
    }

    /// The same where the length is a part of the type.
    pub fn lend_array<const N: usize>(&mut self) -> &mut [T; N] {
        self.lend().try_into().expect("memory of that length")
    }

    /// What lies around it is as it was.
    pub fn is_framed(&self) -> bool {
        let (before, rest) = self.places.split_at(MARGIN);
        let behind = &rest[rest.len() - MARGIN..];
        before.iter().chain(behind).all(|&place| place == self.pattern)
    }

    /// The first places hold these values, and all others what they held.
    pub fn holds(&self, values: impl Iterator<Item = T>) -> bool {
        let (before, rest) = self.places.split_at(MARGIN);
        let mut rest = rest.iter();
        let written = values.into_iter().all(|value| rest.next() == Some(&value));
        written && before.iter().chain(rest).all(|&place| place == self.pattern)
    }
}
