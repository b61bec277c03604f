//! An ordinary interpreter of the rules of document 01, against which the proved machine is measured. It reads cases from
//! standard input and answers each in a line, which has a digest of the cells, or with the argument `cells` the cells as text.

mod answer;
mod cases;
mod cell;
mod cycle;
mod deck;
mod plain;
mod print;
mod process;
mod record;
mod regions;
mod sound;
mod store;
mod term;
mod undo;
mod walk;

use cases::{Desk, Input};
use std::env;
use std::io::{self, BufWriter, Read, Write};

fn main() -> io::Result<()> {
    let mut bytes = Vec::new();
    io::stdin().lock().read_to_end(&mut bytes)?;
    let mut input = Input(&bytes);
    let mut to = BufWriter::new(io::stdout().lock());
    let mut desk = Desk::new(env::args().nth(1).as_deref() == Some("cells"));
    while !input.0.is_empty() {
        if !desk.answer(&mut input, &mut to)? {
            writeln!(to, "no whole case")?;
            break;
        }
    }
    to.flush()
}
