//! Loading a deck. Answers 1, 5 to 9 and 11.

use crate::answer::Fault::{self, *};
use crate::answer::LoadError;
use crate::cell::*;
use crate::process::is_listed;
use crate::record::{self, Field, Name, Record, MANY_LOCALS};
use crate::regions::{Regions, LETTER_J};
use crate::sound::size_fits;
use crate::term::Term;

/// A refused deck leaves all cells words of zeros; N out of range leaves them untouched.
pub fn load(deck: &[u8], cells: &mut [Cell]) -> Result<Regions, LoadError> {
    if !size_fits(cells.len()) {
        return Err(LoadError::BadSize);
    }
    match Loader::new(cells).load(deck) {
        Ok(regions) => Ok(regions),
        Err((fault, offset)) => {
            cells.fill(Cell::ZEROS);
            Err(LoadError::Broken(fault, offset))
        }
    }
}

/// A local of the open structure: its cell, 0 before its first mention, and whether it has a word.
#[derive(Clone, Copy)]
struct Local {
    cell: u16,
    has_word: bool,
}

const NO_LOCAL: Local = Local { cell: 0, has_word: false };

struct Loader<'a> {
    cells: &'a mut [Cell],
    regions: Regions,
    /// A word, data term or start has come: the cells are laid out, and regions come too late.
    laid_out: bool,
    /// Cells are taken in ascending order: all from here on are free.
    next_free: usize,
    structure_open: bool,
    /// By number.
    locals: Vec<Local>,
    /// The numbers of the locals that the open structure mentions.
    mentioned: Vec<u16>,
    /// How many of these have no word yet.
    wordless: usize,
    /// The cells that a regional NAME has given a word.
    defined: Vec<bool>,
    /// The cell whose blank LINK the next record fills.
    waiting: Option<u16>,
}

impl<'a> Loader<'a> {
    fn new(cells: &'a mut [Cell]) -> Loader<'a> {
        let n = cells.len();
        Loader {
            cells,
            regions: Regions::default(),
            laid_out: false,
            next_free: n,
            structure_open: false,
            locals: vec![NO_LOCAL; MANY_LOCALS as usize],
            mentioned: Vec::new(),
            wordless: 0,
            defined: vec![false; n],
            waiting: None,
        }
    }

    /// The regions, or what is wrong and the offset.
    fn load(mut self, deck: &[u8]) -> Result<Regions, (Fault, usize)> {
        let mut offset = 0;
        while offset < deck.len() {
            let here = offset;
            let at = |fault| (fault, here);
            let (record, len) = record::parse(&deck[offset..]).map_err(at)?;
            let start = self.record(record).map_err(at)?;
            offset += len;
            if let Some(start) = start {
                if offset < deck.len() {
                    return Err((NotEnded, offset));
                }
                if !self.can_start(start) {
                    return Err(at(Hopeless));
                }
                self.finish(start);
                return Ok(self.regions);
            }
        }
        Err((NotEnded, offset))
    }

    /// The start cell, if this is the start record.
    fn record(&mut self, record: Record) -> Result<Option<u16>, Fault> {
        match record {
            Record::Region { letter, count } => self.region(letter, count)?,
            Record::Routine { name, p, q, symb, link } => {
                self.word(name, p, q, symb, link)?;
                if p == 0 && q == 0 && is_missing(symb) {
                    return Err(Hopeless);
                }
            }
            Record::Data { name, symb, link } => self.word(name, 0, data_tag(symb), symb, link)?,
            Record::Term { name, term } => self.term(name, term)?,
            Record::Start { letter, number } => return self.start(letter, number).map(Some),
        }
        Ok(None)
    }

    fn region(&mut self, letter: u8, count: u16) -> Result<(), Fault> {
        let no_room = self.regions.end() + count as usize > self.cells.len();
        if self.regions.is_taken(letter) || self.laid_out || no_room {
            return Err(BadRegion);
        }
        self.regions.add(letter, count);
        Ok(())
    }

    /// The cells before any word: reserved ones empty, the rest free, in ascending order.
    fn lay_out(&mut self) {
        if self.laid_out {
            return;
        }
        self.laid_out = true;
        let n = self.cells.len();
        let end = self.regions.end();
        self.cells[..end].fill(Cell::EMPTY);
        self.cells[0] = Cell::ZEROS;
        self.cells[H3 as usize] = Cell::Int(0);
        self.cells[J0 as usize..FIRST_DECK as usize].fill(Cell::Process);
        for c in end..n {
            self.cells[c] = Cell::Free(if c + 1 < n { c as u16 + 1 } else { 0 });
        }
        self.next_free = end;
    }

    /// All checks of names come before any cell is taken; cells are taken in the order NAME, SYMB, LINK.
    fn word(&mut self, name: Name, p: u8, q: u8, symb: Field, link: Field) -> Result<(), Fault> {
        self.lay_out();
        self.check_name(name, true)?;
        self.check_field(symb)?;
        self.check_field(link)?;
        let c = self.cell_for(name)?;
        let symb = self.cell_named(symb)?;
        let waits = matches!(link, Field::Blank);
        let link = self.cell_named(link)?;
        self.fill(c, Cell::Word(Word { p, q, symb, link }));
        self.waiting = if waits { Some(c) } else { None };
        Ok(())
    }

    fn term(&mut self, name: Name, term: Term) -> Result<(), Fault> {
        self.lay_out();
        self.check_name(name, false)?;
        let c = self.cell_for(name)?;
        self.fill(c, term.cell());
        Ok(())
    }

    fn start(&mut self, letter: u8, number: u16) -> Result<u16, Fault> {
        self.lay_out();
        if self.waiting.is_some() {
            return Err(BadName);
        }
        let c = self.regions.cell_of(letter, number).ok_or(BadName)?;
        self.close()?;
        Ok(c)
    }

    fn can_start(&self, c: u16) -> bool {
        if is_j(c) {
            return is_listed(c - J0);
        }
        self.defined[c as usize]
    }

    fn finish(&mut self, start: u16) {
        let first = if self.next_free < self.cells.len() { self.next_free as u16 } else { 0 };
        self.cells[H1 as usize] = Cell::Word(Word { symb: start, ..Word::ZEROS });
        self.cells[H2 as usize] = Cell::Word(Word { link: first, ..Word::EMPTY });
        self.cells[H5 as usize] = Cell::Word(Word { symb: J4, ..Word::ZEROS });
    }

    fn check_name(&self, name: Name, is_word: bool) -> Result<(), Fault> {
        let waiting = self.waiting.is_some();
        let fits = match name {
            Name::Regional(letter, number) => match self.regions.cell_of(letter, number) {
                Some(c) => !waiting && c >= FIRST_DECK && !self.defined[c as usize],
                None => false,
            },
            Name::Local(n) => (!waiting || is_word) && self.structure_open && !self.locals[n as usize].has_word,
            Name::Blank => waiting && is_word,
        };
        if !fits {
            return Err(BadName);
        }
        Ok(())
    }

    fn check_field(&self, field: Field) -> Result<(), Fault> {
        if let Field::Regional(letter, number) = field {
            self.regions.cell_of(letter, number).ok_or(BadName)?;
        }
        Ok(())
    }

    /// The cell that NAME gives a record. A regional one ends the open structure and opens another.
    fn cell_for(&mut self, name: Name) -> Result<u16, Fault> {
        match name {
            Name::Regional(letter, number) => {
                self.close()?;
                let c = self.regions.cell_of(letter, number).ok_or(BadName)?;
                self.structure_open = true;
                self.defined[c as usize] = true;
                Ok(c)
            }
            Name::Local(n) => {
                let c = self.mention(n)?;
                self.locals[n as usize].has_word = true;
                self.wordless -= 1;
                Ok(c)
            }
            Name::Blank => self.take(),
        }
    }

    fn cell_named(&mut self, field: Field) -> Result<u16, Fault> {
        match field {
            Field::Regional(letter, number) => self.regions.cell_of(letter, number).ok_or(BadName),
            Field::Local(n) => self.mention(n),
            Field::Zero | Field::Blank => Ok(0),
        }
    }

    /// A local gets its cell at first mention.
    fn mention(&mut self, n: u16) -> Result<u16, Fault> {
        let cell = self.locals[n as usize].cell;
        if cell != 0 {
            return Ok(cell);
        }
        let cell = self.take()?;
        self.locals[n as usize].cell = cell;
        self.mentioned.push(n);
        self.wordless += 1;
        Ok(cell)
    }

    /// The open structure ends, and its locals with it.
    fn close(&mut self) -> Result<(), Fault> {
        if self.wordless > 0 {
            return Err(NoWord);
        }
        for n in self.mentioned.drain(..) {
            self.locals[n as usize] = NO_LOCAL;
        }
        Ok(())
    }

    fn take(&mut self) -> Result<u16, Fault> {
        if self.next_free == self.cells.len() {
            return Err(NoCell);
        }
        self.next_free += 1;
        Ok(self.next_free as u16 - 1)
    }

    /// The record's cell is filled, and the one that waited is linked to it.
    fn fill(&mut self, c: u16, x: Cell) {
        if let Some(before) = self.waiting.take() {
            if let Cell::Word(w) = &mut self.cells[before as usize] {
                w.link = c;
            }
        }
        self.cells[c as usize] = x;
    }
}

fn data_tag(symb: Field) -> u8 {
    match symb {
        Field::Regional(..) => REGIONAL,
        Field::Local(_) => LOCAL,
        Field::Zero | Field::Blank => INTERNAL,
    }
}

/// A process that is not listed.
fn is_missing(symb: Field) -> bool {
    match symb {
        Field::Regional(letter, number) => letter == LETTER_J && !is_listed(number),
        _ => false,
    }
}
