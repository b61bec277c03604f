//! One cycle, and the run.

use crate::answer::Refusal::{self, *};
use crate::answer::RunAnswer;
use crate::cell::*;
use crate::regions::Regions;
use crate::sound;
use crate::store::{is_own, not_own, other_kind, Machine};
use Control::{GoesOn, Moved};

const LARGEST_BUDGET: u32 = 1_000_000;

pub struct Outcome {
    pub answer: RunAnswer,
    pub cycles: u32,
    /// The bytes of the output that lines fill.
    pub printed: usize,
}

/// Where control is after an operation: on the way to the LINK, or gone elsewhere.
enum Control {
    GoesOn,
    Moved,
}

pub fn run(cells: &mut [Cell], regions: &Regions, budget: u32, out: &mut [u8]) -> Outcome {
    if let Err(answer) = sound::check(cells, regions) {
        return Outcome { answer, cycles: 0, printed: 0 };
    }
    if budget > LARGEST_BUDGET {
        return Outcome { answer: RunAnswer::NotSound, cycles: 0, printed: 0 };
    }
    let mut machine = Machine::new(cells, regions, out);
    let answer = machine.run(budget);
    machine.write_back();
    Outcome { answer, cycles: machine.cycles, printed: machine.printed }
}

impl Machine<'_> {
    fn run(&mut self, budget: u32) -> RunAnswer {
        while self.cycles < budget {
            self.begin();
            let done = match self.own.h1.symb {
                0 if self.is_finished() => return RunAnswer::Finished,
                0 => self.ascend(),
                c => self.interpret(c),
            };
            if let Err(refusal) = done {
                self.roll_back();
                return RunAnswer::Refused(refusal);
            }
            self.cycles += 1;
        }
        // the finish is looked for before the budget
        if self.is_finished() {
            RunAnswer::Finished
        } else {
            RunAnswer::BudgetSpent
        }
    }

    fn is_finished(&self) -> bool {
        self.own.h1.symb == 0 && self.own.h1.link == 0
    }

    /// Step 2. The Q of the word come back to is not looked at: only step 3 fetches.
    #[inline(always)]
    fn ascend(&mut self) -> Result<(), Refusal> {
        self.come_back()?;
        let c = self.own.h1.symb;
        let link = match self.cell(c) {
            Cell::Word(w) if c != 0 => w.link,
            Cell::Process => 0,
            x => return Err(other_kind(c, x)),
        };
        not_own(c)?;
        self.go_to(self.name_of(link));
        Ok(())
    }

    /// Step 3. The LINK is the one that was fetched, whatever the operation does to the cell.
    #[inline(always)]
    fn interpret(&mut self, c: u16) -> Result<(), Refusal> {
        let (p, s, link) = match self.cell(c) {
            Cell::Word(w) => {
                if is_own(c) {
                    return Err(if self.own_word(c).q == INTERNAL { WrongKind } else { OwnCell });
                }
                (w.p, self.designate(w)?, w.link)
            }
            Cell::Process => (0, Symbol::regional(c), 0),
            x => return Err(other_kind(c, x)),
        };
        if let GoesOn = self.operate(p, s)? {
            self.go_to(self.name_of(link));
        }
        Ok(())
    }

    #[inline(always)]
    fn go_to(&mut self, x: Symbol) {
        self.own.h1.set_symbol(x);
    }

    #[inline(always)]
    fn designate(&self, w: &Word) -> Result<Symbol, Refusal> {
        match w.q {
            0 => Ok(self.name_of(w.symb)),
            1 => Ok(self.read_at(w.symb)?.symbol()),
            2 => {
                let v = self.read_at(w.symb)?;
                Ok(self.read_at(v.symb)?.symbol())
            }
            _ => Err(WrongKind),
        }
    }

    #[inline(always)]
    fn operate(&mut self, p: u8, s: Symbol) -> Result<Control, Refusal> {
        match p {
            0 => return self.execute(s),
            1 => self.push(s)?,
            2 => {
                self.store(s.num, self.h0().symbol())?;
                self.pop()?;
            }
            3 => self.restore(s.num)?,
            4 => self.preserve(s.num)?,
            5 => self.change_h0().set_symbol(s),
            6 => self.store(s.num, self.h0().symbol())?,
            _ => {
                if self.hw(H5).symb == J3 {
                    self.go_to(s);
                    return Ok(Moved);
                }
            }
        }
        Ok(GoesOn)
    }

    /// A process is done at once, any other cell is descended to. J1 pops a symbol and executes that. In a sound store the
    /// processes are the J cells.
    #[inline(always)]
    fn execute(&mut self, s: Symbol) -> Result<Control, Refusal> {
        let mut s = s;
        while is_j(s.num) {
            match s.num - J0 {
                1 => {
                    s = self.h0().symbol();
                    self.pop()?;
                }
                n => {
                    self.perform(n)?;
                    return Ok(GoesOn);
                }
            }
        }
        self.touch(s.num)?;
        not_own(s.num)?;
        self.descend(s)?;
        Ok(Moved)
    }
}
