//! What a cycle has overwritten, so that a refused one can be undone.

use crate::cell::Cell;

/// The first `count` are those of this cycle. The rest is room, of cycles that were longer.
#[derive(Default)]
pub struct Undo {
    overwritten: Vec<(u16, Cell)>,
    count: usize,
}

impl Undo {
    #[inline(always)]
    pub fn add(&mut self, c: u16, before: Cell) {
        if self.count < self.overwritten.len() {
            self.overwritten[self.count] = (c, before);
        } else {
            self.grow(c, before);
        }
        self.count += 1;
    }

    #[cold]
    #[inline(never)]
    fn grow(&mut self, c: u16, before: Cell) {
        self.overwritten.push((c, before));
    }

    #[inline(always)]
    pub fn clear(&mut self) {
        self.count = 0;
    }

    /// Last first.
    pub fn put_back(&mut self, cells: &mut [Cell]) {
        for &(c, before) in self.overwritten[..self.count].iter().rev() {
            cells[c as usize] = before;
        }
        self.count = 0;
    }
}
