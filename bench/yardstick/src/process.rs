//! The processes J0 to J153. J1 is in the cycle, since it executes.

use crate::answer::Refusal::{self, *};
use crate::cell::*;
use crate::print::Line;
use crate::store::{is_own, not_own, Machine};
use crate::term::{Pair, Term};

/// The loader asks this; a run finds out in `perform`.
pub fn is_listed(n: u16) -> bool {
    matches!(n, 0..=6 | 8 | 9 | 20..=60 | 63 | 64 | 68 | 71 | 72 | 74 | 90)
        || matches!(n, 110 | 111 | 114..=120 | 123..=125)
        || matches!(n, 130..=132 | 134 | 136 | 138 | 152 | 153)
}

impl Machine<'_> {
    /// Process Jn is done. 28 before any input is read
    #[inline(always)]
    pub fn perform(&mut self, n: u16) -> Result<(), Refusal> {
        match n {
            0 => Ok(()),
            2 => self.same_symbol(),
            3 => self.set_h5(false),
            4 => self.set_h5(true),
            5 => self.set_h5(self.hw(H5).symb == J3),
            6 => self.swap(),
            8 => self.pop(),
            9 => self.free_cell(),
            20..=29 => self.move_to_w(n - 20),
            30..=39 => self.restore_w(n - 30),
            40..=49 => self.preserve_w(n - 40),
            50..=59 => {
                self.preserve_w(n - 50)?;
                self.move_to_w(n - 50)
            }
            60 => self.next_cell(),
            63 => self.insert_before(),
            64 => self.insert_after(),
            68 => self.delete(),
            71 => {
                self.erase_chain(self.h0().symb)?;
                self.pop()
            }
            72 => self.erase_structure(),
            74 => self.copy_structure(),
            90 => {
                let c = self.take(Cell::EMPTY)?;
                self.push(Symbol::internal(c))
            }
            110 => self.combine(Pair::sum),
            111 => self.combine(Pair::difference),
            114 => self.compare(Pair::is_equal),
            115 => self.compare(Pair::is_above),
            116 => self.compare(Pair::is_below),
            117 => self.compare_zero(Pair::is_equal),
            118 => self.compare_zero(Pair::is_above),
            119 => self.compare_zero(Pair::is_below),
            120 => self.copy_term(),
            123 => self.negate(),
            124 => self.clear(),
            125 => self.add_one(),
            130 => self.test_tag(REGIONAL),
            131 => self.test_term(),
            132 => self.test_tag(LOCAL),
            134 => self.test_tag(INTERNAL),
            136 => self.replace(Symbol::local(self.h0().symb)),
            138 => self.replace(Symbol::internal(self.h0().symb)),
            152 => self.print_and_pop(Line::symbol(self.regions, self.h0().symbol())),
            153 => {
                let term = self.term_at(self.h0().symb)?;
                self.print_and_pop(Line::term(term))
            }
            _ => Err(NotListed),
        }
    }

    /// (0) and (1). 25, 22, 23, 27
    #[inline]
    fn two_inputs(&self) -> Result<(Symbol, Symbol), Refusal> {
        let w0 = self.h0();
        let w1 = self.below(w0)?;
        Ok((w0.symbol(), w1.symbol()))
    }

    #[inline(always)]
    fn set_h5(&mut self, plus: bool) -> Result<(), Refusal> {
        self.change_h5().set_symbol(Symbol::regional(if plus { J4 } else { J3 }));
        Ok(())
    }

    /// A test sets H5 and pops its inputs.
    #[inline(always)]
    fn tests(&mut self, inputs: u32, plus: bool) -> Result<(), Refusal> {
        self.set_h5(plus)?;
        self.pops(inputs)
    }

    fn same_symbol(&mut self) -> Result<(), Refusal> {
        let (x0, x1) = self.two_inputs()?;
        self.tests(2, x0.num == x1.num)
    }

    fn swap(&mut self) -> Result<(), Refusal> {
        let (x0, x1) = self.two_inputs()?;
        self.pop()?;
        self.replace(x0)?;
        self.push(x1)
    }

    fn free_cell(&mut self) -> Result<(), Refusal> {
        let c = self.h0().symb;
        if let Cell::Process = self.touch(c)? {
            return Err(WrongKind);
        }
        if self.is_reserved(c) {
            return Err(NotToBeFreed);
        }
        self.release(c);
        self.pop()
    }

    fn move_to_w(&mut self, n: u16) -> Result<(), Refusal> {
        for w in W0..=W0 + n {
            let x = self.h0().symbol();
            self.change(w, |w| w.set_symbol(x));
            self.pop()?;
        }
        Ok(())
    }

    fn restore_w(&mut self, n: u16) -> Result<(), Refusal> {
        for w in W0..=W0 + n {
            self.pull_up(w, self.hw(w).link)?;
        }
        Ok(())
    }

    fn preserve_w(&mut self, n: u16) -> Result<(), Refusal> {
        for w in W0..=W0 + n {
            self.link_below(w, self.peek(w))?;
        }
        Ok(())
    }

    fn next_cell(&mut self) -> Result<(), Refusal> {
        let x = self.h0().symbol();
        let link = self.word_at(x.num)?.link;
        not_own(x.num)?;
        if link == 0 {
            self.set_h5(false)?;
            return self.replace(x);
        }
        let next = self.word_at(link)?;
        // an end is to be freed, which for a reserved one is 24, before 27
        if is_own(link) {
            return Err(if self.own_word(link).is_end() { NotToBeFreed } else { OwnCell });
        }
        if next.is_end() {
            if self.is_reserved(link) {
                return Err(NotToBeFreed);
            }
            self.change(x.num, |w| w.link = 0);
            self.release(link);
            self.set_h5(false)?;
            return self.replace(x);
        }
        self.set_h5(true)?;
        self.replace(self.name_of(link))
    }

    fn insert_before(&mut self) -> Result<(), Refusal> {
        let (x0, x1) = self.two_inputs()?;
        self.preserve(x1.num)?;
        self.store(x1.num, x0)?;
        self.pops(2)
    }

    fn insert_after(&mut self) -> Result<(), Refusal> {
        let (x0, x1) = self.two_inputs()?;
        let link = self.word_to(x1.num)?.link;
        not_own(x1.num)?;
        self.link_below(x1.num, Cell::Word(Word { p: 0, q: x0.tag, symb: x0.num, link }))?;
        self.pops(2)
    }

    fn delete(&mut self) -> Result<(), Refusal> {
        let c = self.h0().symb;
        let link = self.word_to(c)?.link;
        if is_own(c) {
            return Err(if self.own_word(c).link == c { NotToBeFreed } else { OwnCell });
        }
        if link == 0 {
            self.put(c, Cell::EMPTY);
            return self.tests(1, false);
        }
        self.pull_up(c, link)?;
        self.tests(1, true)
    }

    pub fn erase_structure(&mut self) -> Result<(), Refusal> {
        self.erase(self.h0().symb)?;
        self.pop()
    }

    pub fn copy_structure(&mut self) -> Result<(), Refusal> {
        let x = self.h0().symbol();
        let c = self.copy(x.num)?;
        self.replace(copy_name(x, c))
    }

    /// What (0) holds takes the sort of (1) and (2).
    fn combine(&mut self, f: impl Fn(Pair) -> Result<Term, Refusal>) -> Result<(), Refusal> {
        let w0 = self.h0();
        let w1 = self.below(w0)?;
        let w2 = self.below(w1)?;
        let x = w0.symbol();
        self.term_to(x.num)?;
        let result = f(self.pair_at(w1.symb, w2.symb)?)?;
        self.put(x.num, result.cell());
        self.pops(2)?;
        self.replace(x)
    }

    fn compare(&mut self, f: impl Fn(Pair) -> bool) -> Result<(), Refusal> {
        let (x0, x1) = self.two_inputs()?;
        let plus = f(self.pair_at(x0.num, x1.num)?);
        self.tests(2, plus)
    }

    fn compare_zero(&mut self, f: impl Fn(Pair) -> bool) -> Result<(), Refusal> {
        let plus = f(self.term_at(self.h0().symb)?.and_zero());
        self.tests(1, plus)
    }

    fn copy_term(&mut self) -> Result<(), Refusal> {
        let x = self.h0().symbol();
        let term = self.term_at(x.num)?;
        let c = self.take(term.cell())?;
        self.replace(copy_name(x, c))
    }

    fn negate(&mut self) -> Result<(), Refusal> {
        let x = self.h0().symbol();
        let result = self.term_to(x.num)?.negated()?;
        self.put(x.num, result.cell());
        self.replace(x)
    }

    /// Of integers only.
    fn add_one(&mut self) -> Result<(), Refusal> {
        let x = self.h0().symbol();
        let i = self.integer_to(x.num)?;
        self.put(x.num, Cell::Int(i.checked_add(1).ok_or(OutOfRange)?));
        self.replace(x)
    }

    fn clear(&mut self) -> Result<(), Refusal> {
        let x = self.h0().symbol();
        if let Cell::Process = self.target(x.num)? {
            return Err(WrongKind);
        }
        if is_hw(x.num) {
            return Err(WrongKind);
        }
        self.put(x.num, Cell::Int(0));
        self.replace(x)
    }

    fn test_tag(&mut self, tag: u8) -> Result<(), Refusal> {
        let plus = self.h0().q == tag;
        self.tests(1, plus)
    }

    fn test_term(&mut self) -> Result<(), Refusal> {
        let c = self.h0().symb;
        let plus = self.touch(c)?.is_term();
        not_own(c)?;
        self.tests(1, plus)
    }
}

/// The name of a copy: local if the input was, else internal.
fn copy_name(x: Symbol, c: u16) -> Symbol {
    if x.tag == LOCAL {
        Symbol::local(c)
    } else {
        Symbol::internal(c)
    }
}
