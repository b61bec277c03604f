//! Description lists: the head of a list names one, on which attributes and values stand in turn. An attribute is found by
//! its number.

use crate::answer::Refusal::{self, *};
use crate::cell::*;
use crate::store::Machine;
use crate::walk::Trail;

/// An attribute that was found: its cell, the cell before, and the words of it and of its value, whose cell it links to.
struct Entry {
    before: u16,
    at: u16,
    attribute: Word,
    value: Word,
}

impl Machine<'_> {
    /// The value, if there is one. 21, 22, 23, 27, 31, 32
    pub fn value_of(&mut self, list: u16, attribute: u16) -> Result<Option<Symbol>, Refusal> {
        Ok(self.search(list, attribute)?.map(|entry| entry.value.symbol()))
    }

    /// The new value is there before the old one is erased. 21, 22, 23, 27, 31, 32, then of the erasure 22, 31, 23, 24, or 26
    pub fn assign(&mut self, list: u16, attribute: Symbol, value: Symbol) -> Result<(), Refusal> {
        match self.search(list, attribute.num)? {
            Some(entry) => {
                self.change(entry.attribute.link, |w| w.set_symbol(value));
                self.erase_sublist(entry.value)
            }
            None => self.put_on(list, attribute, value).map(|_| ()),
        }
    }

    /// 21, 22, 23, 27, 31, 32, then of the value list 21, 22, 27, 23, 27, 26
    pub fn add_first(&mut self, list: u16, attribute: Symbol, x: Symbol) -> Result<(), Refusal> {
        let head = self.value_list(list, attribute)?;
        self.insert(head, x).map(|_| ())
    }

    /// 21, 22, 23, 27, 31, 32, then of the value list 21, 22, 23, 27, 31, 26
    pub fn add_last(&mut self, list: u16, attribute: Symbol, x: Symbol) -> Result<(), Refusal> {
        let head = self.value_list(list, attribute)?;
        let last = self.last_cell(head)?;
        self.insert(last, x).map(|_| ())
    }

    /// 21, 22, 23, 27, 31, 32, 24, then of the erasures 22, 31, 23, 24
    pub fn erase_attribute(&mut self, list: u16, attribute: u16) -> Result<(), Refusal> {
        if let Some(Entry { before, at, attribute, value }) = self.search(list, attribute)? {
            self.change(before, |w| w.link = value.link);
            self.free(at)?;
            self.free(attribute.link)?;
            self.erase_sublist(attribute)?;
            self.erase_sublist(value)?;
        }
        Ok(())
    }

    /// The description list is erased, whatever its tag, and the head of the list is empty. 21, 22, 23, 27, then of the
    /// erasure 22, 31, 23, 24, then 22
    pub fn erase_description(&mut self, list: u16) -> Result<(), Refusal> {
        let description = self.read_at(list)?.symb;
        if description != 0 {
            self.erase(description)?;
        }
        // the erasure may have freed the head
        let link = self.word_at(list)?.link;
        self.put(list, Cell::Word(Word { link, ..Word::EMPTY }));
        Ok(())
    }

    /// No further than to the attribute. None also where there is no description list. 21, 22, 23, 27, 31, 32
    fn search(&mut self, list: u16, attribute: u16) -> Result<Option<Entry>, Refusal> {
        match self.read_at(list)?.symb {
            0 => Ok(None),
            description => self.on_trail(|m, trail| m.search_from(description, attribute, trail)),
        }
    }

    /// Of each cell 22, 23, 27, 31, and of an attribute's 32. Only what is compared or handed on is read for its symbol.
    fn search_from(&self, description: u16, attribute: u16, trail: &mut Trail) -> Result<Option<Entry>, Refusal> {
        let mut before = description;
        let mut at = self.passed_at(before)?.link;
        trail.add(before)?;
        while at != 0 {
            let a = *self.read_at(at)?;
            trail.add(at)?;
            if a.link == 0 {
                return Err(NoValue);
            }
            let found = a.symb == attribute;
            let v = *if found { self.read_at(a.link)? } else { self.passed_at(a.link)? };
            trail.add(a.link)?;
            if found {
                return Ok(Some(Entry { before, at, attribute: a, value: v }));
            }
            before = a.link;
            at = v.link;
        }
        Ok(None)
    }

    /// A new attribute, at the front, and its value: the value's cell. The list must have been searched. 26
    fn put_on(&mut self, list: u16, attribute: Symbol, value: Symbol) -> Result<u16, Refusal> {
        let description = match self.read_at(list)?.symb {
            0 => self.name_new_list(list)?,
            description => description,
        };
        let a = self.insert(description, attribute)?;
        self.insert(a, value)
    }

    /// The list that an attribute has as its value; a new attribute gets a new one. 21, 22, 23, 27, 31, 32, 26
    fn value_list(&mut self, list: u16, attribute: Symbol) -> Result<u16, Refusal> {
        match self.search(list, attribute.num)? {
            Some(entry) => Ok(entry.value.symb),
            None => {
                let v = self.put_on(list, attribute, Word::EMPTY.symbol())?;
                self.name_new_list(v)
            }
        }
    }

    /// A list of a head alone is made, and the word in cell c gets its name, a local one. 26
    fn name_new_list(&mut self, c: u16) -> Result<u16, Refusal> {
        let head = self.take(Cell::EMPTY)?;
        self.change(c, |w| w.set_symbol(Symbol::local(head)));
        Ok(head)
    }

    /// 22, 31, 23, 24
    fn erase_sublist(&mut self, was: Word) -> Result<(), Refusal> {
        if was.names_sublist() {
            self.erase(was.symb)?;
        }
        Ok(())
    }
}
