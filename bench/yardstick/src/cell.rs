//! A cell, the word in it, a symbol, and the numbers of the cells that every store has.

use std::fmt;

pub const SMALLEST_N: usize = 256;
pub const LARGEST_N: usize = 65_535;

pub const H0: u16 = 1;
pub const H1: u16 = 2;
pub const H2: u16 = 3;
pub const H3: u16 = 4;
pub const H5: u16 = 6;
pub const W0: u16 = 11;
pub const J0: u16 = 21;
pub const J3: u16 = J0 + 3;
pub const J4: u16 = J0 + 4;

/// Deck regions begin here; below are H, W and J.
pub const FIRST_DECK: u16 = 221;

pub fn is_hw(c: u16) -> bool {
    (H0..J0).contains(&c)
}

pub fn is_j(c: u16) -> bool {
    (J0..FIRST_DECK).contains(&c)
}

pub fn is_hwj(c: u16) -> bool {
    (H0..FIRST_DECK).contains(&c)
}

pub const REGIONAL: u8 = 0;
pub const LOCAL: u8 = 2;
pub const INTERNAL: u8 = 4;

/// A word with this Q has no symbol to be read: it is an instruction.
pub const Q_ONCE: u8 = 1;

#[derive(Clone, Copy)]
pub struct Symbol {
    pub tag: u8,
    pub num: u16,
}

impl Symbol {
    pub const fn regional(num: u16) -> Symbol {
        Symbol { tag: REGIONAL, num }
    }

    pub const fn local(num: u16) -> Symbol {
        Symbol { tag: LOCAL, num }
    }

    pub const fn internal(num: u16) -> Symbol {
        Symbol { tag: INTERNAL, num }
    }
}

#[derive(Clone, Copy)]
pub struct Word {
    pub p: u8,
    pub q: u8,
    pub symb: u16,
    pub link: u16,
}

impl Word {
    pub const ZEROS: Word = Word { p: 0, q: 0, symb: 0, link: 0 };
    pub const EMPTY: Word = Word { p: 0, q: INTERNAL, symb: 0, link: 0 };

    #[inline]
    pub fn symbol(&self) -> Symbol {
        Symbol { tag: self.q, num: self.symb }
    }

    /// Storing a symbol leaves P and LINK.
    #[inline]
    pub fn set_symbol(&mut self, x: Symbol) {
        self.q = x.tag;
        self.symb = x.num;
    }

    /// An empty word with LINK 0: a private end, for J60.
    #[inline]
    pub fn is_end(&self) -> bool {
        self.p == 0 && self.q == INTERNAL && self.symb == 0 && self.link == 0
    }
}

#[derive(Clone, Copy)]
pub enum Cell {
    Free(u16),
    Word(Word),
    Int(i32),
    /// A floating term by its bits; in a store that is not sound they need not be finite.
    Float(u32),
    Process,
}

const FREE: u64 = 1 << 48;
const INT: u64 = 2 << 48;
const FLOAT: u64 = INT + (1 << 32);
const PROCESS: u64 = 3 << 48;
const HALF_RANGE: i64 = 1 << 31;

impl Cell {
    pub const ZEROS: Cell = Cell::Word(Word::ZEROS);
    pub const EMPTY: Cell = Cell::Word(Word::EMPTY);

    /// An integer or a floating term.
    #[inline]
    pub fn is_term(&self) -> bool {
        matches!(self, Cell::Int(_) | Cell::Float(_))
    }

    /// The cell in one number, as cases give it and the digest takes it.
    pub fn number(self) -> u64 {
        match self {
            Cell::Word(w) => (w.p as u64) << 40 | (w.q as u64) << 32 | (w.symb as u64) << 16 | w.link as u64,
            Cell::Free(link) => FREE + link as u64,
            Cell::Int(i) => INT + (i as i64 + HALF_RANGE) as u64,
            Cell::Float(bits) => FLOAT + bits as u64,
            Cell::Process => PROCESS,
        }
    }

    /// None for a number that stands for no cell.
    pub fn from_number(n: u64) -> Option<Cell> {
        let low = n % FREE;
        match n / FREE {
            0 => {
                Some(Cell::Word(Word { p: (low >> 40) as u8, q: (low >> 32) as u8, symb: (low >> 16) as u16, link: low as u16 }))
            }
            1 => u16::try_from(low).ok().map(Cell::Free),
            2 if n < FLOAT => i32::try_from(low as i64 - HALF_RANGE).ok().map(Cell::Int),
            2 => u32::try_from(n - FLOAT).ok().map(Cell::Float),
            3 if low == 0 => Some(Cell::Process),
            _ => None,
        }
    }
}

/// As the cases write it.
impl fmt::Display for Cell {
    fn fmt(&self, to: &mut fmt::Formatter) -> fmt::Result {
        match self {
            Cell::Word(w) => write!(to, "w{},{},{},{}", w.p, w.q, w.symb, w.link),
            Cell::Free(link) => write!(to, "f{}", link),
            Cell::Int(i) => write!(to, "i{}", i),
            Cell::Float(bits) => write!(to, "x{:08x}", bits),
            Cell::Process => write!(to, "p"),
        }
    }
}
