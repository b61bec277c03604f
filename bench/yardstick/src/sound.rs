//! Is a store sound? Asked in full once, before a run or a plain call; every action keeps it so.

use crate::answer::RunAnswer;
use crate::cell::{is_hw, is_j, Cell, Word, FIRST_DECK, H2, H3, J0, LARGEST_N, SMALLEST_N};
use crate::regions::Regions;

pub fn size_fits(n: usize) -> bool {
    (SMALLEST_N..=LARGEST_N).contains(&n)
}

/// What every call asks of its store first: 1, then 20.
pub fn check(cells: &[Cell], regions: &Regions) -> Result<(), RunAnswer> {
    if !size_fits(cells.len()) {
        return Err(RunAnswer::BadSize);
    }
    if !is_sound(cells, regions) {
        return Err(RunAnswer::NotSound);
    }
    Ok(())
}

fn is_sound(cells: &[Cell], regions: &Regions) -> bool {
    let n = cells.len();
    if !regions.is_sound(n) || !matches!(cells[0], Cell::Word(Word { p: 0, q: 0, symb: 0, link: 0 })) {
        return false;
    }
    let end = regions.end();
    let mut free = 0;
    for (i, &x) in cells.iter().enumerate() {
        let c = i as u16;
        let holds = match x {
            Cell::Free(link) => {
                free += 1;
                i >= end && (link as usize) < n
            }
            Cell::Word(w) => word_is_sound(c, w, n) && ((c < J0 && c != H3) || c >= FIRST_DECK),
            Cell::Int(_) => c == H3 || c >= FIRST_DECK,
            Cell::Float(bits) => c >= FIRST_DECK && f32::from_bits(bits).is_finite(),
            Cell::Process => is_j(c),
        };
        if !holds {
            return false;
        }
    }
    free_list_meets(cells, free)
}

fn word_is_sound(c: u16, w: Word, n: usize) -> bool {
    let q_fits = match w.q {
        0 | 2 | 4 => true,
        1 => !is_hw(c),
        _ => false,
    };
    w.p <= 7 && q_fits && (w.symb as usize) < n && (w.link as usize) < n
}

/// H2's list meets so many free cells and then ends: as many as there are, so each once. A ring would not end.
fn free_list_meets(cells: &[Cell], count: usize) -> bool {
    let mut at = match cells[H2 as usize] {
        Cell::Word(h2) => h2.link,
        _ => return false,
    };
    for _ in 0..count {
        at = match cells[at as usize] {
            Cell::Free(link) => link,
            _ => return false,
        };
    }
    at == 0
}
