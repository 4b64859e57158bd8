//! A series of loads beside the plan's meaning (paper 01, "Plans", demand 3).
//! The loads run on one memory. The meaning runs on a copy of the first one, and is told only each load's index
//! and what the called code changed. The two traces must be equal.

use crate::bytes::share;
use crate::map::{Map, Right};
use crate::outcome::{Answer, Entry, Stop};
use crate::plan::{meaning, Ending, Piece};
use crate::srom;

#[derive(Clone, Copy, Debug, PartialEq, Eq)]
pub enum Medium {
    Srom,
    /// The address of the image.
    Aplx { image: u32 },
}

/// One load, and what the called code changes after it: buffer places and bytes.
#[derive(Clone, Debug, PartialEq, Eq)]
pub struct Step {
    pub index: usize,
    pub changes: Vec<(usize, u8)>,
}

/// How a load ended, in the terms of its medium.
#[derive(Clone, Copy, Debug, PartialEq, Eq)]
pub enum Report {
    Run { entry: Entry, address: u32, resume: u64 },
    End { place: u64 },
    Unknown { command: u32, place: u64 },
    Refused { number: u32, place: u64 },
}

/// What there is after a load.
#[derive(Clone, Debug, PartialEq, Eq)]
pub struct After {
    pub memory: Vec<u8>,
    pub report: Report,
}

/// The offset of a piece's start byte in the SROM image; for the count, that of the 0xFF.
fn block(pieces: &[Piece], index: usize) -> u64 {
    1 + pieces[..index].iter().map(|piece| srom::HEADER as u64 + piece.length()).sum::<u64>()
}

/// Where a stretch loads: an offset of the slice, or a header address.
pub fn start(medium: Medium, pieces: &[Piece], index: usize) -> u64 {
    match medium {
        Medium::Srom if index == 0 => 0,
        Medium::Srom => block(pieces, index),
        Medium::Aplx { image } => u64::from(image) + 16 * index as u64,
    }
}

/// The place by which a load from an index names a piece, or the end.
pub fn mark(medium: Medium, pieces: &[Piece], index: usize, piece: usize) -> u64 {
    match medium {
        Medium::Srom => block(pieces, piece),
        Medium::Aplx { .. } => (piece - index) as u64,
    }
}

/// What demand 3 grants: a sound map, and for APLX an intact image, word-aligned, inside one readable region,
/// met by no destination of the plan. The changes of the called code leave the image alone.
pub fn granted(
    medium: Medium,
    pieces: &[Piece],
    image: &[u8],
    map: &Map,
    memory: &[u8],
    steps: &[Step],
) -> bool {
    let indices = steps.iter().all(|step| step.index <= pieces.len());
    let Medium::Aplx { image: address } = medium else {
        return indices && map.sound(memory.len());
    };
    let (start, length) = (u64::from(address), image.len() as u64);
    let Some(place) = map.lookup(Right::Read, start, length) else {
        return false;
    };
    let kept = place..place + image.len();
    indices
        && map.sound(memory.len())
        && address % 4 == 0
        && memory[kept.clone()] == *image
        && pieces.iter().all(|p| !share(u64::from(p.address()), p.length(), start, length))
        && steps.iter().all(|step| step.changes.iter().all(|(at, _)| !kept.contains(at)))
}

/// What the called code does.
fn change(memory: &mut [u8], changes: &[(usize, u8)]) {
    for (at, byte) in changes {
        if let Some(cell) = memory.get_mut(*at) {
            *cell = *byte;
        }
    }
}

/// The trace of a loader, which is given a memory and a start.
pub fn loads(
    medium: Medium,
    pieces: &[Piece],
    mut memory: Vec<u8>,
    steps: &[Step],
    loader: &mut dyn FnMut(&mut [u8], u64) -> Answer,
) -> Vec<After> {
    let mut trace = Vec::new();
    for step in steps {
        let report = match loader(&mut memory, start(medium, pieces, step.index)) {
            Err(refusal) => Report::Refused { number: refusal.number, place: refusal.place },
            Ok(loaded) => match loaded.stop {
                Stop::End { place } => Report::End { place },
                Stop::Unknown { command, place } => Report::Unknown { command, place },
                Stop::Run { entry, address, resume } => Report::Run { entry, address, resume },
            },
        };
        trace.push(After { memory: memory.clone(), report });
        change(&mut memory, &step.changes);
    }
    trace
}

/// The trace of the plan's meaning.
pub fn meant(
    medium: Medium,
    plan: &[u8],
    pieces: &[Piece],
    map: &Map,
    mut memory: Vec<u8>,
    steps: &[Step],
) -> Vec<After> {
    let mut trace = Vec::new();
    for step in steps {
        let report = match meaning(plan, pieces, map, &mut memory, step.index) {
            Ending::Run { entry, address, piece } => {
                Report::Run { entry, address, resume: start(medium, pieces, piece + 1) }
            }
            Ending::End => Report::End { place: mark(medium, pieces, step.index, pieces.len()) },
            Ending::Denied { number, piece } => {
                Report::Refused { number, place: mark(medium, pieces, step.index, piece) }
            }
        };
        trace.push(After { memory: memory.clone(), report });
        change(&mut memory, &step.changes);
    }
    trace
}
