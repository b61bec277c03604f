//! The walk of a structure, J71's chain, and what is done with their cells: erase and copy.

use crate::answer::Refusal::{self, *};
use crate::cell::*;
use crate::store::{not_own, Machine};
use std::mem;

const DEEPEST: u32 = 64;

/// The cells that a walk has met, in order; and for each cell the last walk that met it, which makes the repeat check quick,
/// and its copy in the last walk that copied it. Cell 0 has no copy but itself.
#[derive(Default)]
pub struct Trail {
    met: Vec<u16>,
    walk: u32,
    last_walk: Vec<u32>,
    copy: Vec<u16>,
}

impl Trail {
    pub fn new(n: usize) -> Trail {
        Trail { met: Vec::new(), walk: 0, last_walk: vec![0; n], copy: vec![0; n] }
    }

    fn begin(&mut self) {
        self.met.clear();
        self.walk += 1;
    }

    /// 31
    #[inline]
    fn add(&mut self, c: u16) -> Result<(), Refusal> {
        let last = &mut self.last_walk[c as usize];
        if *last == self.walk {
            return Err(BadWalk);
        }
        *last = self.walk;
        self.met.push(c);
        Ok(())
    }
}

impl Machine<'_> {
    /// The cells of the structure at c, in walk order. 21, 22, 31, 23
    pub fn walk(&mut self, c: u16) -> Result<Vec<u16>, Refusal> {
        self.on_trail(|m, trail| {
            m.walk_list(c, 1, trail)?;
            Ok(trail.met.clone())
        })
    }

    /// The structure at c is freed. 21, 22, 31, 23, 24
    pub fn erase(&mut self, c: u16) -> Result<(), Refusal> {
        self.on_trail(|m, trail| {
            m.walk_list(c, 1, trail)?;
            m.free_trail(trail)
        })
    }

    /// The LINK chain of c is freed, or a data term alone. 21, 22, 23, 27, 31, 24
    pub fn erase_chain(&mut self, c: u16) -> Result<(), Refusal> {
        self.on_trail(|m, trail| {
            m.walk_chain(c, trail)?;
            m.free_trail(trail)
        })
    }

    /// The structure at c is copied: the copy's first cell. 21, 22, 31, 23, 26
    pub fn copy(&mut self, c: u16) -> Result<u16, Refusal> {
        self.on_trail(|m, trail| {
            m.walk_list(c, 1, trail)?;
            m.copy_trail(trail)?;
            Ok(trail.copy[c as usize])
        })
    }

    /// Does something with an empty trail.
    fn on_trail<T>(&mut self, act: impl FnOnce(&mut Self, &mut Trail) -> Result<T, Refusal>) -> Result<T, Refusal> {
        let mut trail = mem::take(&mut self.trail);
        trail.begin();
        let done = act(self, &mut trail);
        self.trail = trail;
        done
    }

    /// A list is entered at its head; sublists are walked as they are named. A cell's own checks come before its repeat and
    /// its depth.
    fn walk_list(&self, head: u16, depth: u32, trail: &mut Trail) -> Result<(), Refusal> {
        let mut at = self.meet(head)?;
        trail.add(head)?;
        if depth > DEEPEST {
            return Err(BadWalk);
        }
        while let Cell::Word(w) = at {
            if w.q == LOCAL && w.symb != 0 {
                self.walk_list(w.symb, depth + 1, trail)?;
            }
            if w.link == 0 {
                break;
            }
            at = self.meet(w.link)?;
            if !matches!(at, Cell::Word(_)) {
                return Err(WrongKind);
            }
            trail.add(w.link)?;
        }
        Ok(())
    }

    /// In a walk an H, W or J cell is 31 before its kind is looked at. 21, 22, 31
    #[inline]
    fn meet(&self, c: u16) -> Result<&Cell, Refusal> {
        let x = self.touch(c)?;
        if is_hwj(c) {
            return Err(BadWalk);
        }
        Ok(x)
    }

    /// 21, 22, 23, 27, 31
    fn walk_chain(&self, c: u16, trail: &mut Trail) -> Result<(), Refusal> {
        if self.touch(c)?.is_term() {
            return trail.add(c);
        }
        let mut at = c;
        loop {
            let w = self.word_at(at)?;
            not_own(at)?;
            trail.add(at)?;
            if w.link == 0 {
                return Ok(());
            }
            at = w.link;
        }
    }

    /// The cells met are freed, last first. 24
    fn free_trail(&mut self, trail: &Trail) -> Result<(), Refusal> {
        for &c in trail.met.iter().rev() {
            if self.is_reserved(c) {
                return Err(NotToBeFreed);
            }
            self.release(c);
        }
        Ok(())
    }

    /// A free cell is taken for each cell met, in that order. LINKs and local names are given anew, all else is kept. 26
    fn copy_trail(&mut self, trail: &mut Trail) -> Result<(), Refusal> {
        for &c in &trail.met {
            trail.copy[c as usize] = self.take(self.peek(c))?;
        }
        for &c in &trail.met {
            if let Cell::Word(w) = self.cell_mut(trail.copy[c as usize]) {
                if w.q == LOCAL {
                    w.symb = trail.copy[w.symb as usize];
                }
                w.link = trail.copy[w.link as usize];
            }
        }
        Ok(())
    }
}
