//! The cases that are read, and the line that answers each.

use crate::answer::{LoadError, RunAnswer};
use crate::cell::{Cell, Symbol};
use crate::cycle;
use crate::deck;
use crate::plain;
use crate::regions::Regions;
use std::io::{self, Write};

/// The bytes still to be read; numbers are big-endian. None is the end.
pub struct Input<'a>(pub &'a [u8]);

impl<'a> Input<'a> {
    fn take(&mut self, k: usize) -> Option<&'a [u8]> {
        if k > self.0.len() {
            return None;
        }
        let (front, rest) = self.0.split_at(k);
        self.0 = rest;
        Some(front)
    }

    fn number(&mut self, bytes: usize) -> Option<u64> {
        Some(self.take(bytes)?.iter().fold(0, |n, &b| n << 8 | b as u64))
    }

    fn byte(&mut self) -> Option<u8> {
        Some(self.take(1)?[0])
    }

    fn pair(&mut self) -> Option<u16> {
        Some(self.number(2)? as u16)
    }

    fn size(&mut self) -> Option<usize> {
        Some(self.number(3)? as usize)
    }

    fn deck(&mut self) -> Option<&'a [u8]> {
        let len = self.pair()?;
        self.take(len as usize)
    }

    fn regions(&mut self) -> Option<Regions> {
        let mut regions = Regions::default();
        for _ in 0..self.byte()? {
            let letter = self.byte()?;
            regions.add(letter, self.pair()?);
        }
        Some(regions)
    }

    fn cells(&mut self, n: usize, cells: &mut Vec<Cell>) -> Option<()> {
        cells.clear();
        for _ in 0..n {
            cells.push(Cell::from_number(self.number(8)?)?);
        }
        Some(())
    }
}

enum Case<'a> {
    Load { deck: &'a [u8] },
    LoadAndRun { budget: u32, room: u16, deck: &'a [u8] },
    Run { budget: u32, room: u16, regions: Regions },
    Walk { x: Symbol, regions: Regions },
    Demand3 { regions: Regions },
}

/// Answers cases from one store and one output room, which are used again for each.
pub struct Desk {
    cells: Vec<Cell>,
    out: Vec<u8>,
    /// A line has the cells themselves, not their digest.
    in_full: bool,
}

impl Desk {
    pub fn new(in_full: bool) -> Desk {
        Desk { cells: Vec::new(), out: Vec::new(), in_full }
    }

    /// Whether there was a whole case.
    pub fn answer(&mut self, input: &mut Input, to: &mut impl Write) -> io::Result<bool> {
        let case = match self.read(input) {
            Some(case) => case,
            None => return Ok(false),
        };
        match case {
            Case::Load { deck } => self.load(deck, to)?,
            Case::LoadAndRun { budget, room, deck } => self.load_and_run(deck, budget, room, to)?,
            Case::Run { budget, room, regions } => {
                write!(to, "S ")?;
                self.run(&regions, budget, room, to)?;
            }
            Case::Walk { x, regions } => self.walk(x, &regions, to)?,
            Case::Demand3 { regions } => self.demand3(&regions, to)?,
        }
        Ok(true)
    }

    fn read<'a>(&mut self, input: &mut Input<'a>) -> Option<Case<'a>> {
        match input.byte()? {
            b'L' => {
                self.spoil(input.size()?);
                Some(Case::Load { deck: input.deck()? })
            }
            b'R' => {
                self.spoil(input.size()?);
                let budget = input.number(4)? as u32;
                let room = input.pair()?;
                Some(Case::LoadAndRun { budget, room, deck: input.deck()? })
            }
            b'S' => {
                let n = input.size()?;
                let budget = input.number(4)? as u32;
                let room = input.pair()?;
                let regions = input.regions()?;
                input.cells(n, &mut self.cells)?;
                Some(Case::Run { budget, room, regions })
            }
            b'W' => {
                let x = Symbol { tag: input.byte()?, num: input.pair()? };
                let n = input.size()?;
                let regions = input.regions()?;
                input.cells(n, &mut self.cells)?;
                Some(Case::Walk { x, regions })
            }
            b'D' => {
                let n = input.size()?;
                let regions = input.regions()?;
                input.cells(n, &mut self.cells)?;
                Some(Case::Demand3 { regions })
            }
            _ => None,
        }
    }

    /// What the cells hold before a load does not matter.
    fn spoil(&mut self, n: usize) {
        self.cells.clear();
        self.cells.resize(n, Cell::Int(-1));
    }

    fn load(&mut self, deck: &[u8], to: &mut impl Write) -> io::Result<()> {
        match deck::load(deck, &mut self.cells) {
            Ok(regions) => {
                write!(to, "L 0 - ")?;
                write_regions(&regions, to)?;
                self.end(to)
            }
            Err(why) => {
                write!(to, "L ")?;
                self.refused(why, "-", to)
            }
        }
    }

    fn load_and_run(&mut self, deck: &[u8], budget: u32, room: u16, to: &mut impl Write) -> io::Result<()> {
        match deck::load(deck, &mut self.cells) {
            Ok(regions) => {
                write!(to, "R 0 - ")?;
                self.run(&regions, budget, room, to)
            }
            Err(why) => {
                write!(to, "R ")?;
                self.refused(why, "- - -", to)
            }
        }
    }

    /// The answer of a refused load, and its offset.
    fn refused(&self, why: LoadError, rest: &str, to: &mut impl Write) -> io::Result<()> {
        write!(to, "{} ", why.number())?;
        match why {
            LoadError::BadSize => writeln!(to, "- {} | -", rest),
            LoadError::Broken(_, offset) => {
                write!(to, "{} {}", offset, rest)?;
                self.end(to)
            }
        }
    }

    fn run(&mut self, regions: &Regions, budget: u32, room: u16, to: &mut impl Write) -> io::Result<()> {
        self.out.resize(room as usize, 0);
        let done = cycle::run(&mut self.cells, regions, budget, &mut self.out);
        write!(to, "{} {} ", done.answer.number(), done.cycles)?;
        write_hex(&self.out[..done.printed], to)?;
        self.end(to)
    }

    fn walk(&mut self, x: Symbol, regions: &Regions, to: &mut impl Write) -> io::Result<()> {
        match plain::walk(&mut self.cells, regions, x) {
            Ok(met) => {
                write!(to, "W 0")?;
                for c in met {
                    write!(to, " {}", c)?;
                }
                writeln!(to)
            }
            Err(answer) => writeln!(to, "W {}", answer.number()),
        }
    }

    /// Where an action is refused the line has the cells as given, whatever the actions before it did.
    fn demand3(&mut self, regions: &Regions, to: &mut impl Write) -> io::Result<()> {
        let given = self.told();
        let mut refused = false;
        write!(to, "D")?;
        for action in [plain::preserve, plain::copy, plain::erase] {
            if refused {
                write!(to, " -")?;
                continue;
            }
            let answer = match action(&mut self.cells, regions) {
                Ok(()) => RunAnswer::Finished,
                Err(answer) => answer,
            };
            write!(to, " {}", answer.number())?;
            refused = answer.number() != 0;
        }
        if refused {
            return writeln!(to, " | {}", given);
        }
        self.end(to)
    }

    fn end(&self, to: &mut impl Write) -> io::Result<()> {
        writeln!(to, " | {}", self.told())
    }

    /// The cells, as a line has them.
    fn told(&self) -> String {
        if !self.in_full {
            return digest(&self.cells).to_string();
        }
        let texts: Vec<String> = self.cells.iter().map(Cell::to_string).collect();
        texts.join(" ")
    }
}

/// The cells in one number.
fn digest(cells: &[Cell]) -> u64 {
    cells.iter().fold(0, |h, x| (h * 1_000_003 + x.number()) % 1_000_000_007)
}

fn write_regions(regions: &Regions, to: &mut impl Write) -> io::Result<()> {
    let table = regions.deck_regions();
    if table.is_empty() {
        return write!(to, "-");
    }
    for (i, r) in table.iter().enumerate() {
        let comma = if i > 0 { "," } else { "" };
        write!(to, "{}{}:{}", comma, r.letter as char, r.count)?;
    }
    Ok(())
}

fn write_hex(bytes: &[u8], to: &mut impl Write) -> io::Result<()> {
    if bytes.is_empty() {
        return write!(to, "-");
    }
    const DIGITS: &[u8; 16] = b"0123456789abcdef";
    for &b in bytes {
        to.write_all(&[DIGITS[b as usize / 16], DIGITS[b as usize % 16]])?;
    }
    Ok(())
}
