//! Preserve, copy, erase and the walk as calls outside any cycle.

use crate::answer::{Refusal, RunAnswer};
use crate::cell::{Cell, Symbol, H0};
use crate::regions::Regions;
use crate::sound;
use crate::store::Machine;

pub fn preserve(cells: &mut [Cell], regions: &Regions) -> Result<(), RunAnswer> {
    plainly(cells, regions, |m| m.preserve(H0))
}

pub fn copy(cells: &mut [Cell], regions: &Regions) -> Result<(), RunAnswer> {
    plainly(cells, regions, |m| m.copy_structure())
}

pub fn erase(cells: &mut [Cell], regions: &Regions) -> Result<(), RunAnswer> {
    plainly(cells, regions, |m| m.erase_structure())
}

/// The cells of the structure that x names, in walk order.
pub fn walk(cells: &mut [Cell], regions: &Regions, x: Symbol) -> Result<Vec<u16>, RunAnswer> {
    plainly(cells, regions, |m| {
        // in a sound store no number is past the end; one that a caller gives reads as a free cell
        if x.num as usize >= m.size() {
            return Err(Refusal::FreeCell);
        }
        m.walk(x.num)
    })
}

/// A call asks of the store what a run asks; refused, it leaves the store as it was.
fn plainly<T>(
    cells: &mut [Cell],
    regions: &Regions,
    act: impl FnOnce(&mut Machine) -> Result<T, Refusal>,
) -> Result<T, RunAnswer> {
    sound::check(cells, regions)?;
    let mut machine = Machine::new(cells, regions, &mut []);
    let done = act(&mut machine).map_err(|refusal| {
        machine.roll_back();
        RunAnswer::from(refusal)
    });
    machine.write_back();
    done
}
