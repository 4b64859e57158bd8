//! Pieces of plans that are compared: drawn from a few small areas of addresses, so that they meet, overlap and adjoin,
//! and changed a little.

use super::plans::Draft;
use crate::plan_difference::ADDRESSES;
use crate::random::Random;

/// A piece with its own bytes.
#[derive(Clone, Debug)]
pub enum Part {
    Put { address: u32, bytes: Vec<u8> },
    Fill { address: u32, length: u32, word: u32 },
    Run { address: u32 },
}

/// So many addresses from a first one on.
#[derive(Clone, Copy, Debug)]
pub struct Area {
    first: u32,
    length: u32,
}

/// One to three areas; one of them may end with the last address.
pub fn areas(random: &mut Random) -> Vec<Area> {
    (0..random.between(1, 3))
        .map(|_| {
            let length = random.pick(&[16, 32, 64, 64, 300]);
            let first = match random.below(8) {
                0 | 1 => 0u32.wrapping_sub(length),
                2 => 0,
                3 => 0x8000_0000 - length / 8 * 4,
                4 => random.pick(&[0x0040_0000, 0xf500_7fe0]),
                5 => (random.word() & !0xff).wrapping_sub(length / 8 * 4),
                _ => random.word() & !3,
            };
            Area { first: first.min(0u32.wrapping_sub(length)), length }
        })
        .collect()
}

impl Part {
    pub fn address(&self) -> u32 {
        match self {
            Part::Put { address, .. } | Part::Fill { address, .. } | Part::Run { address } => *address,
        }
    }

    /// The bytes that it stores.
    pub fn bytes(&self) -> Vec<u8> {
        match self {
            Part::Put { bytes, .. } => bytes.clone(),
            Part::Fill { length, word, .. } => {
                word.to_le_bytes().into_iter().cycle().take(*length as usize).collect()
            }
            Part::Run { .. } => Vec::new(),
        }
    }

    pub fn is_run(&self) -> bool {
        matches!(self, Part::Run { .. })
    }

    /// The address after its last one.
    pub fn end(&self) -> u64 {
        u64::from(self.address()) + self.bytes().len() as u64
    }

    /// The piece in a plan's table; a put's bytes are added to the data, or shared where they stand at its front or end.
    pub fn draft(&self, data: &mut Vec<u8>) -> Draft {
        match self {
            Part::Put { address, bytes } => {
                let last = if data.starts_with(bytes) {
                    0
                } else if data.ends_with(bytes) {
                    data.len() - bytes.len()
                } else {
                    data.extend(bytes);
                    data.len() - bytes.len()
                };
                Draft { kind: 1, address: *address, length: bytes.len() as u32, last: last as u32 }
            }
            Part::Fill { address, length, word } => {
                Draft { kind: 2, address: *address, length: *length, last: *word }
            }
            Part::Run { address } => Draft { kind: 3, address: *address, length: 0, last: 0 },
        }
    }
}

/// Bytes of which many are equal, or random ones.
fn bytes(random: &mut Random, length: usize) -> Vec<u8> {
    match random.below(3) {
        0 => (0..length).map(|_| random.pick(&[0, 1])).collect(),
        1 => vec![random.pick(&[0, 1, 0xff]); length],
        _ => random.bytes(length),
    }
}

/// A fill's word: two or four equal bytes, few bits, or any.
fn word(random: &mut Random) -> u32 {
    let byte = u32::from(random.byte());
    match random.below(4) {
        0 => random.pick(&[0, 1, 0x0101_0101, 0x0001_0001, 0xff00_0000]),
        1 => byte * 0x0101_0101,
        2 => byte << (8 * random.below(4)),
        _ => random.word(),
    }
}

/// A put or fill at an address, of so many bytes.
pub fn store(random: &mut Random, address: u32, length: u32) -> Part {
    if random.once_in(2) {
        return Part::Fill { address, length, word: word(random) };
    }
    Part::Put { address, bytes: bytes(random, length as usize) }
}

pub fn run(random: &mut Random) -> Part {
    let address = random.pick(&[0, 0x100, 0x100, 0x0040_0000, 0xffff_fffc]);
    Part::Run { address: address | random.pick(&[0, 0, 1, 3]) }
}

/// A good piece in one of the areas, or behind it; now and then it ends past the last address. Its length is a multiple of 32 where
/// `whole` is set, and else any.
pub fn part(random: &mut Random, areas: &[Area], whole: bool) -> Part {
    if random.once_in(7) {
        return run(random);
    }
    let area = random.pick(areas);
    let address = area.first + 4 * random.below(area.length as usize / 4) as u32;
    let room = ADDRESSES - u64::from(address);
    if room < 400 && random.once_in(25) {
        // Past the last address, by one byte or more.
        let length = room as u32 + random.pick(&[1, 1, 2, 4, 32, 65_000]);
        return if random.once_in(4) {
            Part::Put { address, bytes: vec![1; length as usize] }
        } else {
            Part::Fill { address, length, word: word(random) }
        };
    }
    let length = match random.below(10) {
        _ if whole => 32 * random.between(1, 3),
        0..=3 => 4 * random.between(1, 6),
        4 => (area.first + (area.length - 1) - address) as usize + 1,
        5 => random.between(1, 100),
        _ => random.between(1, 13),
    };
    store(random, address, (length as u64).min(room) as u32)
}
