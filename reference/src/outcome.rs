//! What a load answers (paper 01, "Memory map" and "Refusal numbers").

/// A refusal: the paper's number, and the place it names.
#[derive(Clone, Copy, Debug, PartialEq, Eq)]
pub struct Refusal {
    pub number: u32,
    pub place: u64,
}

pub fn refuse<T>(number: u32, place: u64) -> Result<T, Refusal> {
    Err(Refusal { number, place })
}

/// How code at a legal run address is entered.
#[derive(Clone, Copy, Debug, PartialEq, Eq)]
pub enum Entry {
    Arm,
    Thumb,
}

/// Where a load stopped.
#[derive(Clone, Copy, Debug, PartialEq, Eq)]
pub enum Stop {
    End { place: u64 },
    Unknown { command: u32, place: u64 },
    /// The address is as written, bit 0 included.
    Run { entry: Entry, address: u32, resume: u64 },
}

/// An accepted load: its stop, how many entries or blocks it took before the stop, and how many bytes it stored.
#[derive(Clone, Copy, Debug, PartialEq, Eq)]
pub struct Loaded {
    pub stop: Stop,
    pub taken: u64,
    pub stored: u64,
}

pub type Answer = Result<Loaded, Refusal>;
