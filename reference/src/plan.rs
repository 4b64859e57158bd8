//! Plans (paper 01, "Plans"): the reader, and what a plan means.

use std::ops::Range;

use crate::bytes::le32;
use crate::map::{Map, Right};
use crate::outcome::{refuse, Entry, Refusal};

pub const HEADER: usize = 16;
pub const PIECE: u64 = 16;
pub const MOST_PIECES: u32 = 64;
pub const LONGEST_PIECE: u32 = 65_536;

/// Lengths are multiples of this for APLX.
pub const APLX_UNIT: u32 = 32;
/// Lengths are multiples of this for SROM.
pub const SROM_UNIT: u32 = 4;
/// No test of lengths.
pub const NO_UNIT: u32 = 1;

#[derive(Clone, Debug, PartialEq, Eq)]
pub enum Piece {
    /// The data stands at this range of the plan's bytes.
    Put { address: u32, data: Range<usize> },
    Fill { address: u32, length: u32, word: u32 },
    Run { address: u32 },
}

impl Piece {
    /// How many bytes the piece stores.
    pub fn length(&self) -> u64 {
        match self {
            Piece::Put { data, .. } => data.len() as u64,
            Piece::Fill { length, .. } => u64::from(*length),
            Piece::Run { .. } => 0,
        }
    }

    pub fn put_length(&self) -> u64 {
        match self {
            Piece::Put { data, .. } => data.len() as u64,
            _ => 0,
        }
    }

    pub fn address(&self) -> u32 {
        match self {
            Piece::Put { address, .. } | Piece::Fill { address, .. } | Piece::Run { address } => *address,
        }
    }

    pub fn is_run(&self) -> bool {
        matches!(self, Piece::Run { .. })
    }

    /// The number with which the piece is not permitted, or None where it is.
    pub fn denied(&self, map: &Map) -> Option<u32> {
        match self {
            Piece::Run { address } => map.run_entry(*address).is_none().then_some(9),
            _ => map
                .lookup(Right::Write, u64::from(self.address()), self.length())
                .is_none()
                .then_some(4),
        }
    }
}

/// The pieces of a plan. A put or fill has a length that is a multiple of the unit (else 12).
pub fn read(plan: &[u8], unit: u32) -> Result<Vec<Piece>, Refusal> {
    read_tested(plan, unit, |_| Ok(()))
}

/// The same with one more test, the last one of each piece; its error is a refusal number.
pub fn read_tested(
    plan: &[u8],
    unit: u32,
    last: impl Fn(&Piece) -> Result<(), u32>,
) -> Result<Vec<Piece>, Refusal> {
    let size = plan.len() as u64;
    if plan.len() < HEADER {
        return refuse(2, 0);
    }
    let [count, table, data, data_length] = [0, 4, 8, 12].map(|at| le32(plan, at));
    if count > MOST_PIECES {
        return refuse(11, 0);
    }
    if u64::from(table) + PIECE * u64::from(count) > size {
        return refuse(2, 0);
    }
    if u64::from(data) + u64::from(data_length) > size {
        return refuse(2, 0);
    }
    (0..u64::from(count))
        .map(|index| {
            let at = (u64::from(table) + PIECE * index) as usize;
            let words = [0, 4, 8, 12].map(|k| le32(plan, at + k));
            let read = piece(words, data, data_length, unit).and_then(|piece| last(&piece).map(|()| piece));
            read.or_else(|number| refuse(number, index))
        })
        .collect()
}

/// One piece of four words; the error is a refusal number.
fn piece(words: [u32; 4], data: u32, data_length: u32, unit: u32) -> Result<Piece, u32> {
    let [kind, address, length, last] = words;
    match kind {
        3 if length != 0 || last != 0 => Err(11),
        3 if address % 4 == 2 => Err(9),
        3 => Ok(Piece::Run { address }),
        1 | 2 => {
            if length == 0 {
                return Err(5);
            }
            if length > LONGEST_PIECE {
                return Err(11);
            }
            if address % 4 != 0 {
                return Err(3);
            }
            if kind == 1 && u64::from(last) + u64::from(length) > u64::from(data_length) {
                return Err(2);
            }
            if length % unit != 0 {
                return Err(12);
            }
            if kind == 2 {
                return Ok(Piece::Fill { address, length, word: last });
            }
            let start = data as usize + last as usize;
            Ok(Piece::Put { address, data: start..start + length as usize })
        }
        _ => Err(11),
    }
}

/// How a stretch ends, in the plan's own terms.
#[derive(Clone, Copy, Debug, PartialEq, Eq)]
pub enum Ending {
    /// It stops at the run of this piece.
    Run { entry: Entry, address: u32, piece: usize },
    /// It goes to the plan's end.
    End,
    /// The first piece that is not permitted, and its number. Nothing is stored.
    Denied { number: u32, piece: usize },
}

/// The stretch from a piece index through the next run, or to the end.
pub fn stretch(pieces: &[Piece], index: usize) -> Range<usize> {
    let run = pieces[index..].iter().position(Piece::is_run);
    index..run.map_or(pieces.len(), |k| index + k + 1)
}

/// What one permitted piece does to memory.
fn effect(plan: &[u8], piece: &Piece, map: &Map, memory: &mut [u8]) {
    let Some(place) = map.lookup(Right::Write, u64::from(piece.address()), piece.length()) else {
        return;
    };
    let destination = &mut memory[place..place + piece.length() as usize];
    match piece {
        Piece::Put { data, .. } => destination.copy_from_slice(&plan[data.clone()]),
        Piece::Fill { word, .. } => {
            let bytes = word.to_le_bytes();
            for (k, byte) in destination.iter_mut().enumerate() {
                *byte = bytes[k % 4];
            }
        }
        Piece::Run { .. } => {}
    }
}

/// The meaning of the stretch from an index on: memory gets what its pieces in order leave.
pub fn meaning(plan: &[u8], pieces: &[Piece], map: &Map, memory: &mut [u8], index: usize) -> Ending {
    let stretch = stretch(pieces, index);
    for piece in stretch.clone() {
        if let Some(number) = pieces[piece].denied(map) {
            return Ending::Denied { number, piece };
        }
    }
    for piece in &pieces[stretch.clone()] {
        if !piece.is_run() {
            effect(plan, piece, map, memory);
        }
    }
    finish(pieces, map, stretch)
}

/// How a stretch ends whose pieces are all permitted.
fn finish(pieces: &[Piece], map: &Map, stretch: Range<usize>) -> Ending {
    match pieces[stretch.clone()].last() {
        Some(Piece::Run { address }) => match map.run_entry(*address) {
            Some(entry) => Ending::Run { entry, address: *address, piece: stretch.end - 1 },
            None => Ending::Denied { number: 9, piece: stretch.end - 1 },
        },
        _ => Ending::End,
    }
}
