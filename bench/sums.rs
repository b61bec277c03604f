//! What the processor's own arithmetic of 32 bits gives. For each line of standard input, the bits of a and b as two hex numbers, it
//! writes the bits of a + b and a - b, and `E`, `A` or `B` for a equal, above or below b. Nothing of the yardstick is in it.

use std::io::{self, BufRead};

fn main() -> io::Result<()> {
    for line in io::stdin().lock().lines() {
        let line = line?;
        let mut given = line.split(' ').map(|t| f32::from_bits(u32::from_str_radix(t, 16).expect("no bits")));
        let (a, b) = (given.next().expect("no a"), given.next().expect("no b"));
        let order = match () {
            _ if a == b => 'E',
            _ if a > b => 'A',
            _ if a < b => 'B',
            _ => 'X',
        };
        println!("{:08X} {:08X} {}", (a + b).to_bits(), (a - b).to_bits(), order);
    }
    Ok(())
}
