//! The records of a deck from their bytes. Answers 3, 2 and 4.

use crate::answer::Fault::{self, *};
use crate::regions::LARGEST_NUMBER;
use crate::term::Term;

pub const MANY_LOCALS: u16 = 1_000;

#[derive(Clone, Copy)]
pub enum Field {
    Regional(u8, u16),
    Local(u16),
    Zero,
    Blank,
}

#[derive(Clone, Copy)]
pub enum Name {
    Regional(u8, u16),
    Local(u16),
    Blank,
}

pub enum Record {
    Region { letter: u8, count: u16 },
    Routine { name: Name, p: u8, q: u8, symb: Field, link: Field },
    Data { name: Name, symb: Field, link: Field },
    Term { name: Name, term: Term },
    Start { letter: u8, number: u16 },
}

/// The record at the front of some bytes, and its length. There has to be a first byte, else the record runs past the end.
pub fn parse(bytes: &[u8]) -> Result<(Record, usize), Fault> {
    let kind = *bytes.first().ok_or(PastEnd)?;
    let len = match kind {
        1 | 5 => 4,
        2 => 12,
        3 => 10,
        4 | 6 => 8,
        _ => return Err(UnknownKind),
    };
    let body = bytes.get(1..len).ok_or(PastEnd)?;
    let record = match kind {
        1 => region(body)?,
        2 => routine(body)?,
        3 => data(body)?,
        4 => integer(body)?,
        6 => floating(body)?,
        _ => start(body)?,
    };
    Ok((record, len))
}

fn region(b: &[u8]) -> Result<Record, Fault> {
    let (letter, count) = (b[0], pair(b, 1));
    if !letter.is_ascii_uppercase() || !(1..=LARGEST_NUMBER).contains(&count) {
        return Err(BadField);
    }
    Ok(Record::Region { letter, count })
}

fn routine(b: &[u8]) -> Result<Record, Fault> {
    let (p, q) = (b[3], b[4]);
    let (name, symb, link) = (name(b)?, field(b, 5)?, field(b, 8)?);
    if p > 7 || q > 2 || matches!(symb, Field::Blank) {
        return Err(BadField);
    }
    Ok(Record::Routine { name, p, q, symb, link })
}

fn data(b: &[u8]) -> Result<Record, Fault> {
    let (name, symb, link) = (name(b)?, field(b, 3)?, field(b, 6)?);
    match link {
        Field::Zero | Field::Blank => Ok(Record::Data { name, symb, link }),
        _ => Err(BadField),
    }
}

fn integer(b: &[u8]) -> Result<Record, Fault> {
    Ok(Record::Term { name: name(b)?, term: Term::Int(i32::from_be_bytes([b[3], b[4], b[5], b[6]])) })
}

fn floating(b: &[u8]) -> Result<Record, Fault> {
    let x = f32::from_be_bytes([b[3], b[4], b[5], b[6]]);
    if !x.is_finite() {
        return Err(BadField);
    }
    Ok(Record::Term { name: name(b)?, term: Term::Float(x) })
}

fn start(b: &[u8]) -> Result<Record, Fault> {
    match field(b, 0)? {
        Field::Regional(letter, number) => Ok(Record::Start { letter, number }),
        _ => Err(BadField),
    }
}

fn name(b: &[u8]) -> Result<Name, Fault> {
    match field(b, 0)? {
        Field::Regional(letter, number) => Ok(Name::Regional(letter, number)),
        Field::Local(n) => Ok(Name::Local(n)),
        Field::Blank => Ok(Name::Blank),
        Field::Zero => Err(BadField),
    }
}

fn field(b: &[u8], at: usize) -> Result<Field, Fault> {
    let number = pair(b, at + 1);
    match b[at] {
        letter @ b'A'..=b'Z' if number <= LARGEST_NUMBER => Ok(Field::Regional(letter, number)),
        b'9' if number < MANY_LOCALS => Ok(Field::Local(number)),
        b'0' if number == 0 => Ok(Field::Zero),
        b' ' if number == 0 => Ok(Field::Blank),
        _ => Err(BadField),
    }
}

fn pair(b: &[u8], at: usize) -> u16 {
    u16::from_be_bytes([b[at], b[at + 1]])
}
