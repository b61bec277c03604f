//! The lines of J152 and J153.

use crate::answer::Refusal::{self, NoRoom};
use crate::cell::{Symbol, LOCAL, REGIONAL};
use crate::regions::Regions;
use crate::store::Machine;
use crate::term::Term;

/// The longest is `-`, ten digits and a line feed.
const LONGEST: usize = 12;

pub struct Line {
    bytes: [u8; LONGEST],
    len: usize,
}

impl Line {
    pub fn symbol(regions: &Regions, x: Symbol) -> Line {
        let mut line = Line::new();
        let mut number = x.num;
        match x.tag {
            LOCAL => {
                line.add(b'9');
                line.add(b'-');
            }
            REGIONAL => {
                if let Some((letter, n)) = regions.name_of(x.num) {
                    line.add(letter);
                    number = n;
                }
            }
            _ => {}
        }
        line.digits(number as u32);
        line.add(b'\n');
        line
    }

    pub fn term(term: Term) -> Line {
        let mut line = Line::new();
        match term {
            Term::Int(i) => {
                if i < 0 {
                    line.add(b'-');
                }
                line.digits(i.unsigned_abs());
            }
            Term::Float(x) => line.hex_digits(x.to_bits()),
        }
        line.add(b'\n');
        line
    }

    fn new() -> Line {
        Line { bytes: [0; LONGEST], len: 0 }
    }

    fn add(&mut self, byte: u8) {
        self.bytes[self.len] = byte;
        self.len += 1;
    }

    fn digits(&mut self, n: u32) {
        if n >= 10 {
            self.digits(n / 10);
        }
        self.add(b'0' + (n % 10) as u8);
    }

    /// All eight.
    fn hex_digits(&mut self, n: u32) {
        const DIGITS: &[u8; 16] = b"0123456789ABCDEF";
        for shift in (0..32).step_by(4).rev() {
            self.add(DIGITS[(n >> shift) as usize % 16]);
        }
    }

    fn bytes(&self) -> &[u8] {
        &self.bytes[..self.len]
    }
}

impl Machine<'_> {
    /// Whether the line fits is asked before the pop; it is written after, when nothing of the cycle can fail any more, so that
    /// bytes past the lines keep what they held. 30, then those of the pop
    pub fn print_and_pop(&mut self, line: Line) -> Result<(), Refusal> {
        let end = self.printed + line.len;
        if end > self.out.len() {
            return Err(NoRoom);
        }
        self.pop()?;
        self.out[self.printed..end].copy_from_slice(line.bytes());
        self.printed = end;
        Ok(())
    }
}
