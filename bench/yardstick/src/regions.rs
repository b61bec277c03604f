//! The region table: letter and count of each deck region in record order.

use crate::cell::FIRST_DECK;

pub const LARGEST_NUMBER: u16 = 9_999;
pub const LETTER_J: u8 = b'J';

#[derive(Clone, Copy)]
pub struct Region {
    pub letter: u8,
    pub count: u16,
}

/// The regions that every store has, from cell 1 on.
const FIXED: [Region; 3] =
    [Region { letter: b'H', count: 10 }, Region { letter: b'W', count: 10 }, Region { letter: LETTER_J, count: 200 }];

#[derive(Clone, Default)]
pub struct Regions(Vec<Region>);

impl Regions {
    pub fn deck_regions(&self) -> &[Region] {
        &self.0
    }

    pub fn add(&mut self, letter: u8, count: u16) {
        self.0.push(Region { letter, count });
    }

    fn all(&self) -> impl Iterator<Item = &Region> {
        FIXED.iter().chain(&self.0)
    }

    pub fn is_taken(&self, letter: u8) -> bool {
        self.all().any(|r| r.letter == letter)
    }

    /// Where the deck regions end: the first cell that is not reserved. An unsound table may end past any store.
    pub fn end(&self) -> usize {
        self.0.iter().map(|r| r.count as usize).sum::<usize>() + FIRST_DECK as usize
    }

    /// The cell of a regional symbol; none outside its region, or where that is undeclared.
    pub fn cell_of(&self, letter: u8, number: u16) -> Option<u16> {
        let mut at = 1;
        for r in self.all() {
            if r.letter == letter {
                return if number < r.count { Some(at + number) } else { None };
            }
            at += r.count;
        }
        None
    }

    /// Letter and number of a reserved cell.
    pub fn name_of(&self, cell: u16) -> Option<(u8, u16)> {
        let mut number = cell.checked_sub(1)?;
        for r in self.all() {
            if number < r.count {
                return Some((r.letter, number));
            }
            number -= r.count;
        }
        None
    }

    pub fn is_sound(&self, n: usize) -> bool {
        let mut taken = [false; 256];
        for r in &FIXED {
            taken[r.letter as usize] = true;
        }
        for r in &self.0 {
            let fits = r.letter.is_ascii_uppercase() && !taken[r.letter as usize] && (1..=LARGEST_NUMBER).contains(&r.count);
            if !fits {
                return false;
            }
            taken[r.letter as usize] = true;
        }
        self.end() <= n
    }
}
