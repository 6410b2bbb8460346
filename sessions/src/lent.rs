//! A buffer lent to the library between two guards, so that a write past either end is seen.

/// Elements of a guard. Odd, so that a pool does not begin at an even address.
const GUARD: usize = 5;

/// A buffer between guards.
pub struct Lent<T> {
    all: Vec<T>,
    guard: T,
}

impl<T: Copy + PartialEq> Lent<T> {
    /// An empty buffer; the guards consist of this element.
    pub fn new(guard: T) -> Lent<T> {
        Lent { all: vec![guard; 2 * GUARD], guard }
    }

    /// Takes over these contents, with new guards.
    pub fn copy(&mut self, contents: &[T]) {
        self.all.clear();
        self.all.extend([self.guard; GUARD]);
        self.all.extend(contents);
        self.all.extend([self.guard; GUARD]);
    }

    /// The buffer.
    pub fn contents(&self) -> &[T] {
        &self.all[GUARD..self.all.len() - GUARD]
    }

    /// The buffer, to be changed.
    pub fn contents_mut(&mut self) -> &mut [T] {
        let end = self.all.len() - GUARD;
        &mut self.all[GUARD..end]
    }

    /// Both guards are as they were.
    pub fn is_intact(&self) -> bool {
        let behind = self.all.len() - GUARD;
        self.all[..GUARD].iter().chain(&self.all[behind..]).all(|&element| element == self.guard)
    }
}

#[cfg(test)]
mod tests {
    use super::Lent;

    #[test]
    fn a_write_past_either_end_is_seen() {
        for place in [0, 4, 7, 11] {
            let mut lent = Lent::new(9u8);
            lent.copy(&[1, 2]);
            assert_eq!(lent.contents(), [1, 2]);
            lent.contents_mut()[1] = 3;
            assert!(lent.is_intact());
            lent.all[place] = 0;
            assert!(!lent.is_intact());
        }
    }
}
