//! Memory that is lent to the port's library: filled with a pattern before each call and looked at after
//! it, with some cells behind what is lent.

/// Cells behind what is lent, which no call may touch.
const BEHIND: usize = 8;

pub struct Lent<T> {
    cells: Vec<T>,
    pattern: T,
    length: usize,
}

impl<T: Copy + PartialEq> Lent<T> {
    pub fn new(pattern: T) -> Lent<T> {
        Lent { cells: Vec::new(), pattern, length: 0 }
    }

    /// The first `length` cells, all of which have the pattern: pointer and length.
    pub fn lend(&mut self, length: usize) -> (*mut T, usize) {
        self.length = length;
        if self.cells.len() < length + BEHIND {
            self.cells.resize(length + BEHIND, self.pattern);
        }
        (self.cells.as_mut_ptr(), length)
    }

    /// What a call has put into these cells; none where it reaches past what was lent.
    pub fn filled(&self, start: usize, length: usize) -> Option<&[T]> {
        self.cells[..self.length].get(start..start.checked_add(length)?)
    }

    /// Whether all other cells are as they were. These cells get the pattern again.
    pub fn only_filled(&mut self, start: usize, length: usize) -> bool {
        let (start, end) = (start.min(self.length), start.saturating_add(length).min(self.length));
        let rest = &self.cells[end..self.length + BEHIND];
        let untouched = self.is_pattern(&self.cells[..start]) && self.is_pattern(rest);
        self.cells[start..end].fill(self.pattern);
        untouched
    }

    /// Without an early end, so that many cells are compared at once.
    fn is_pattern(&self, cells: &[T]) -> bool {
        cells.iter().fold(true, |same, cell| same & (*cell == self.pattern))
    }
}
