//! The machine over a lent store, and the small actions of a cycle. Each says which answers it can be refused with, in
//! the order in which they are looked for. All that a cycle of every kind is made of is inlined into the run: calls would
//! take more time than what they do.

use crate::answer::Refusal::{self, *};
use crate::cell::*;
use crate::regions::Regions;
use crate::term::{Pair, Term};
use crate::undo::Undo;
use crate::walk::Trail;
use std::mem;

pub struct Machine<'a> {
    cells: &'a mut [Cell],
    pub regions: &'a Regions,
    /// Cells from 1 to this are reserved.
    last_reserved: u16,
    pub own: Own,
    /// H3 at the start, which with the cycles done since gives what is in it.
    first_tally: i32,
    pub cycles: u32,
    kept: Kept,
    /// What else the cycle has overwritten.
    undo: Undo,
    pub trail: Trail,
    pub out: &'a mut [u8],
    /// The bytes of `out` that lines fill.
    pub printed: usize,
}

/// H1, and H2's LINK. While the machine works they are here and not in their cells: no action that is not refused gets there
/// by a symbol or LINK.
#[derive(Clone, Copy)]
pub struct Own {
    pub h1: Word,
    pub free: u16,
}

/// What nearly every cycle changes, as it was before the cycle.
struct Kept {
    own: Own,
    h0: Cell,
    h5: Cell,
}

impl<'a> Machine<'a> {
    /// The store has to be sound: then no number in it is past the end, and all H and W cells but H3 are words.
    pub fn new(cells: &'a mut [Cell], regions: &'a Regions, out: &'a mut [u8]) -> Machine<'a> {
        let n = cells.len();
        let own = Own { h1: *word_in(cells, H1), free: word_in(cells, H2).link };
        let first_tally = match cells[H3 as usize] {
            Cell::Int(i) => i,
            _ => unsound(),
        };
        Machine {
            regions,
            last_reserved: regions.end() as u16 - 1,
            own,
            first_tally,
            cycles: 0,
            kept: Kept { own, h0: cells[H0 as usize], h5: cells[H5 as usize] },
            cells,
            undo: Undo::default(),
            trail: Trail::new(n),
            out,
            printed: 0,
        }
    }

    /// The machine's own cells get what they hold.
    pub fn write_back(&mut self) {
        self.cells[H1 as usize] = Cell::Word(self.own_word(H1));
        self.cells[H2 as usize] = Cell::Word(self.own_word(H2));
        self.cells[H3 as usize] = Cell::Int(self.tally());
    }

    /// From here on changes can be undone.
    #[inline(always)]
    pub fn begin(&mut self) {
        self.kept = Kept { own: self.own, h5: self.peek(H5), h0: self.peek(H0) };
        self.undo.clear();
    }

    /// A cycle was refused: nothing of it stays.
    pub fn roll_back(&mut self) {
        self.undo.put_back(self.cells);
        self.cells[H0 as usize] = self.kept.h0;
        self.cells[H5 as usize] = self.kept.h5;
        self.own = self.kept.own;
    }

    pub fn size(&self) -> usize {
        self.cells.len()
    }

    #[inline(always)]
    pub fn cell(&self, c: u16) -> &Cell {
        &self.cells[c as usize]
    }

    #[inline(always)]
    pub fn cell_mut(&mut self, c: u16) -> &mut Cell {
        &mut self.cells[c as usize]
    }

    #[inline(always)]
    pub fn peek(&self, c: u16) -> Cell {
        self.cells[c as usize]
    }

    /// The log comes last, so that nothing has to outlive it.
    #[inline(always)]
    pub fn put(&mut self, c: u16, x: Cell) {
        let before = mem::replace(&mut self.cells[c as usize], x);
        self.undo.add(c, before);
    }

    /// A word is changed in its place.
    #[inline(always)]
    pub fn change(&mut self, c: u16, how: impl FnOnce(&mut Word)) {
        let cell = &mut self.cells[c as usize];
        let before = *cell;
        how(word_of(cell));
        self.undo.add(c, before);
    }

    /// The word in H0, H5 or a W cell.
    #[inline(always)]
    pub fn hw(&self, c: u16) -> &Word {
        word_in(self.cells, c)
    }

    #[inline(always)]
    pub fn h0(&self) -> &Word {
        word_in(self.cells, H0)
    }

    /// H0 and H5 are kept, so they may be changed without more ado.
    #[inline(always)]
    pub fn change_h0(&mut self) -> &mut Word {
        word_of(&mut self.cells[H0 as usize])
    }

    #[inline(always)]
    pub fn change_h5(&mut self) -> &mut Word {
        word_of(&mut self.cells[H5 as usize])
    }

    /// H3: one more after each cycle, and 0 after the largest.
    fn tally(&self) -> i32 {
        let sum = self.first_tally as i64 + self.cycles as i64;
        let largest = i32::MAX as i64;
        (if sum > largest { sum - largest - 1 } else { sum }) as i32
    }

    #[inline(always)]
    pub fn is_reserved(&self, c: u16) -> bool {
        c.wrapping_sub(1) < self.last_reserved
    }

    /// A cell number made a symbol.
    #[inline(always)]
    pub fn name_of(&self, c: u16) -> Symbol {
        if self.is_reserved(c) {
            Symbol::regional(c)
        } else {
            Symbol::internal(c)
        }
    }

    /// 21, 22
    #[inline(always)]
    pub fn touch(&self, c: u16) -> Result<&Cell, Refusal> {
        if c == 0 {
            return Err(CellZero);
        }
        match &self.cells[c as usize] {
            Cell::Free(_) => Err(FreeCell),
            x => Ok(x),
        }
    }

    /// A cell to be written; H3 is only to be read. 21, 22, 27
    #[inline(always)]
    pub fn target(&self, c: u16) -> Result<&Cell, Refusal> {
        let x = self.touch(c)?;
        if c == H3 {
            return Err(OwnCell);
        }
        Ok(x)
    }

    /// 21, 22, 23
    #[inline(always)]
    pub fn word_at(&self, c: u16) -> Result<&Word, Refusal> {
        match &self.cells[c as usize] {
            Cell::Word(w) if c != 0 => Ok(w),
            x => Err(other_kind(c, x)),
        }
    }

    /// 21, 22, 27, 23. H3 is no word, so it is asked for only where there is none.
    #[inline(always)]
    pub fn word_to(&self, c: u16) -> Result<&Word, Refusal> {
        match &self.cells[c as usize] {
            Cell::Word(w) if c != 0 => Ok(w),
            _ if c == H3 => Err(OwnCell),
            x => Err(other_kind(c, x)),
        }
    }

    /// 21, 22, 23
    #[inline(always)]
    pub fn term_at(&self, c: u16) -> Result<Term, Refusal> {
        match &self.cells[c as usize] {
            Cell::Int(_) if c == H3 => Ok(Term::Int(self.tally())),
            Cell::Int(i) => Ok(Term::Int(*i)),
            Cell::Float(bits) => Ok(Term::Float(f32::from_bits(*bits))),
            x => Err(other_kind(c, x)),
        }
    }

    /// 21, 22, 27, 23
    #[inline(always)]
    pub fn term_to(&self, c: u16) -> Result<Term, Refusal> {
        if c == H3 {
            return Err(OwnCell);
        }
        self.term_at(c)
    }

    /// 21, 22, 27, 23
    #[inline(always)]
    pub fn integer_to(&self, c: u16) -> Result<i32, Refusal> {
        match &self.cells[c as usize] {
            Cell::Int(_) if c == H3 => Err(OwnCell),
            Cell::Int(i) => Ok(*i),
            x => Err(other_kind(c, x)),
        }
    }

    /// Two terms, met in this order; the second has to be of the first one's sort. 21, 22, 23, then of the second 21, 22, 23
    #[inline(always)]
    pub fn pair_at(&self, c: u16, d: u16) -> Result<Pair, Refusal> {
        match self.term_at(c)? {
            Term::Int(a) => match self.term_at(d)? {
                Term::Int(b) => Ok(Pair::Ints(a, b)),
                Term::Float(_) => Err(WrongKind),
            },
            Term::Float(a) => match self.term_at(d)? {
                Term::Float(b) => Ok(Pair::Floats(a, b)),
                Term::Int(_) => Err(WrongKind),
            },
        }
    }

    /// A word read for its symbol. 21, 22, 23, 27
    #[inline(always)]
    pub fn read_at(&self, c: u16) -> Result<&Word, Refusal> {
        let w = self.word_at(c)?;
        if w.q == Q_ONCE {
            return Err(WrongKind);
        }
        not_own(c)?;
        Ok(w)
    }

    /// Of a free cell.
    #[inline(always)]
    pub fn free_link(&self, c: u16) -> u16 {
        match self.cells[c as usize] {
            Cell::Free(link) => link,
            _ => unsound(),
        }
    }

    /// The first free cell is taken, and holds `x`. 26
    #[inline(always)]
    pub fn take(&mut self, x: Cell) -> Result<u16, Refusal> {
        let c = self.own.free;
        if c == 0 {
            return Err(NoFreeCell);
        }
        self.own.free = self.free_link(c);
        self.put(c, x);
        Ok(c)
    }

    #[inline(always)]
    pub fn release(&mut self, c: u16) {
        self.put(c, Cell::Free(self.own.free));
        self.own.free = c;
    }

    /// 21, 22, 27, 23, 27, 26
    #[inline(always)]
    pub fn preserve(&mut self, c: u16) -> Result<(), Refusal> {
        self.word_to(c)?;
        not_own(c)?;
        self.link_below(c, self.peek(c))
    }

    /// `below` goes into a new cell, linked below the word in cell c. 26
    #[inline(always)]
    pub fn link_below(&mut self, c: u16, below: Cell) -> Result<(), Refusal> {
        let n = self.take(below)?;
        self.change(c, |w| w.link = n);
        Ok(())
    }

    /// 21, 22, 27, 23, 24, 25, 27, then of the cell below 22, 23, 24
    #[inline(always)]
    pub fn restore(&mut self, c: u16) -> Result<(), Refusal> {
        let b = self.word_to(c)?.link;
        if is_own(c) {
            has_below(c, self.own_word(c).link)?;
            return Err(OwnCell);
        }
        self.pull_up(c, b)
    }

    /// The word in H1 or H2. A program that names these is refused, but for some actions their words say how.
    #[cold]
    pub fn own_word(&self, c: u16) -> Word {
        if c == H1 {
            self.own.h1
        } else {
            Word { link: self.own.free, ..*word_in(self.cells, H2) }
        }
    }

    /// What the cell b holds, which lies below c, is to be copied up into it and freed. 24, 25, 22, 23, 24
    #[inline(always)]
    fn pulled(&self, c: u16, b: u16) -> Result<&Word, Refusal> {
        has_below(c, b)?;
        let v = self.word_at(b)?;
        if v.q == Q_ONCE && is_hw(c) {
            return Err(WrongKind);
        }
        if self.is_reserved(b) {
            return Err(NotToBeFreed);
        }
        Ok(v)
    }

    /// 24, 25, 22, 23, 24
    #[inline(always)]
    pub fn pull_up(&mut self, c: u16, b: u16) -> Result<(), Refusal> {
        self.pulled(c, b)?;
        self.put(c, self.peek(b));
        self.release(b);
        Ok(())
    }

    /// 21, 22, 27, 23, 27
    #[inline(always)]
    pub fn store(&mut self, c: u16, x: Symbol) -> Result<(), Refusal> {
        self.word_to(c)?;
        not_own(c)?;
        self.change(c, |w| w.set_symbol(x));
        Ok(())
    }

    /// H1 is preserved, and a symbol put there. 26
    #[inline(always)]
    pub fn descend(&mut self, x: Symbol) -> Result<(), Refusal> {
        let n = self.take(Cell::Word(self.own.h1))?;
        self.own.h1.set_symbol(x);
        self.own.h1.link = n;
        Ok(())
    }

    /// H1 is restored. 24, 25, 22, 23, 24
    #[inline(always)]
    pub fn come_back(&mut self) -> Result<(), Refusal> {
        let b = self.own.h1.link;
        self.own.h1 = *self.pulled(H1, b)?;
        self.release(b);
        Ok(())
    }

    /// 26
    #[inline(always)]
    pub fn push(&mut self, x: Symbol) -> Result<(), Refusal> {
        let n = self.take(self.peek(H0))?;
        let top = self.change_h0();
        top.set_symbol(x);
        top.link = n;
        Ok(())
    }

    /// 24, 25, 22, 23, 24
    #[inline(always)]
    pub fn pop(&mut self) -> Result<(), Refusal> {
        let b = self.h0().link;
        self.pulled(H0, b)?;
        self.cells[H0 as usize] = self.peek(b);
        self.release(b);
        Ok(())
    }

    #[inline(always)]
    pub fn pops(&mut self, n: u32) -> Result<(), Refusal> {
        for _ in 0..n {
            self.pop()?;
        }
        Ok(())
    }

    /// Pop, then push. The push takes the cell that the pop has just freed, and copies into it what was there: so only H0
    /// changes, and its P becomes that of the word below. 24, 25, 22, 23, 24
    #[inline(always)]
    pub fn replace(&mut self, x: Symbol) -> Result<(), Refusal> {
        let p = self.pulled(H0, self.h0().link)?.p;
        let top = self.change_h0();
        top.p = p;
        top.set_symbol(x);
        Ok(())
    }

    /// (0), (1), (2) are the symbols down H0: the word below w. 25, 22, 23, 27
    #[inline(always)]
    pub fn below(&self, w: &Word) -> Result<&Word, Refusal> {
        if w.link == 0 {
            return Err(NothingBelow);
        }
        self.read_at(w.link)
    }
}

/// Of a cell that is not of the kind wanted. 21, 22, 23
#[cold]
pub fn other_kind(c: u16, x: &Cell) -> Refusal {
    match x {
        _ if c == 0 => CellZero,
        Cell::Free(_) => FreeCell,
        _ => WrongKind,
    }
}

#[cold]
#[inline(never)]
fn unsound() -> ! {
    unreachable!("the store was found sound, and every action keeps it so")
}

#[inline]
fn word_in(cells: &[Cell], c: u16) -> &Word {
    match &cells[c as usize] {
        Cell::Word(w) => w,
        _ => unsound(),
    }
}

#[inline]
fn word_of(x: &mut Cell) -> &mut Word {
    match x {
        Cell::Word(w) => w,
        _ => unsound(),
    }
}

#[inline]
pub fn is_own(c: u16) -> bool {
    c == H1 || c == H2
}

/// H1 and H2 may not be named by a symbol or LINK. 27
#[inline]
pub fn not_own(c: u16) -> Result<(), Refusal> {
    if is_own(c) {
        return Err(OwnCell);
    }
    Ok(())
}

/// The LINK of cell c has to name another cell that lies below it. 24, 25
#[inline]
fn has_below(c: u16, link: u16) -> Result<(), Refusal> {
    if link == 0 || link == c {
        return Err(nothing_else_below(link));
    }
    Ok(())
}

#[cold]
fn nothing_else_below(link: u16) -> Refusal {
    if link == 0 {
        NothingBelow
    } else {
        NotToBeFreed
    }
}
