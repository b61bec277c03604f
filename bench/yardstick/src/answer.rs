//! The answers of document 01, with their numbers.

/// Why a cycle, or a plain action, is refused.
#[derive(Clone, Copy)]
pub enum Refusal {
    CellZero = 21,
    FreeCell = 22,
    WrongKind = 23,
    NotToBeFreed = 24,
    NothingBelow = 25,
    NoFreeCell = 26,
    OwnCell = 27,
    NotListed = 28,
    OutOfRange = 29,
    NoRoom = 30,
    BadWalk = 31,
}

/// What ends a run, or a plain call.
#[derive(Clone, Copy)]
pub enum RunAnswer {
    Finished,
    BadSize,
    BudgetSpent,
    NotSound,
    Refused(Refusal),
}

impl RunAnswer {
    pub fn number(self) -> u32 {
        match self {
            RunAnswer::Finished => 0,
            RunAnswer::BadSize => 1,
            RunAnswer::BudgetSpent => 10,
            RunAnswer::NotSound => 20,
            RunAnswer::Refused(r) => r as u32,
        }
    }
}

impl From<Refusal> for RunAnswer {
    fn from(r: Refusal) -> RunAnswer {
        RunAnswer::Refused(r)
    }
}

/// What is wrong with a record of a deck.
#[derive(Clone, Copy)]
pub enum Fault {
    PastEnd = 2,
    UnknownKind = 3,
    BadField = 4,
    BadRegion = 5,
    BadName = 6,
    NoWord = 7,
    NoCell = 8,
    NotEnded = 9,
    Hopeless = 11,
}

/// Why a deck was not loaded; a broken one with the offset.
#[derive(Clone, Copy)]
pub enum LoadError {
    BadSize,
    Broken(Fault, usize),
}

impl LoadError {
    pub fn number(self) -> u32 {
        match self {
            LoadError::BadSize => 1,
            LoadError::Broken(fault, _) => fault as u32,
        }
    }
}
