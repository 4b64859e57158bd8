//! Pieces of plans that repeat the same data: puts that are equal, nearly equal, or parts of each other, with fills and runs between.

use super::parts::{run, Part};
use super::plans::Draft;
use super::Size;
use crate::plan::{LONGEST_PIECE, MOST_PIECES};
use crate::random::Random;

const UNIT: usize = 32;
/// Data up to this length are searched at every byte for a place where bytes stand already.
const MOST_SEARCHED: usize = 2_000;

/// Bytes of their own: random ones, equal ones, or one word again and again.
fn fresh(random: &mut Random, length: usize) -> Vec<u8> {
    match random.below(6) {
        0 => vec![random.pick(&[0, 7, 0xff]); length],
        1 => {
            let word = random.word().to_le_bytes();
            word.into_iter().cycle().take(length).collect()
        }
        _ => random.bytes(length),
    }
}

/// Bytes that are like those: the same, another byte at the front, at the end or between, two bytes exchanged, some left out or added.
fn like(random: &mut Random, those: &[u8]) -> Vec<u8> {
    let mut bytes = those.to_vec();
    let last = bytes.len() - 1;
    let [one, other] = [random.below(last + 1), random.below(last + 1)];
    let bit = 1 << random.below(8);
    match random.below(16) {
        0 => bytes[0] ^= bit,
        1 => bytes[last] ^= bit,
        2 => bytes[one] ^= bit,
        3 => bytes.swap(one, other),
        4 => bytes.truncate(UNIT * random.between(1, those.len() / UNIT)),
        5 => bytes = those[UNIT * random.below(those.len() / UNIT)..].to_vec(),
        6 if bytes.len() < 400 => bytes.extend(random.bytes(UNIT)),
        7 => bytes = fresh(random, those.len()),
        _ => {}
    }
    bytes
}

/// A put, fill or run at address 0. The bytes of puts are mostly like those of one before.
fn piece(random: &mut Random, before: &[Part], longest: usize) -> Part {
    let units = random.between(1, longest / UNIT);
    match random.below(8) {
        0 => return run(random),
        1 => {
            let length = (UNIT * units.min(3)) as u32;
            // Often a fill has the bytes of a put.
            let word = match before.last() {
                Some(Part::Put { bytes, .. }) => u32::from_le_bytes([bytes[0], bytes[1], bytes[2], bytes[3]]),
                _ => random.pick(&[0, 0x0707_0707, u32::MAX]),
            };
            return Part::Fill { address: 0, length, word };
        }
        _ => {}
    }
    let stores: Vec<&Part> = before.iter().filter(|part| !part.is_run()).collect();
    let bytes = if stores.is_empty() || random.once_in(6) {
        fresh(random, UNIT * units)
    } else {
        let those = random.pick(&stores).bytes();
        like(random, &those)
    };
    Part::Put { address: 0, bytes }
}

/// One table for so many channels; now and then one of them has another.
fn channels(random: &mut Random, count: usize, length: usize) -> Vec<Part> {
    let table = fresh(random, length);
    let mut parts = vec![Part::Put { address: 0, bytes: table.clone() }; count];
    if random.once_in(2) {
        let at = random.below(count);
        parts[at] = Part::Put { address: 0, bytes: like(random, &table) };
    }
    if random.once_in(2) {
        parts.push(run(random));
    }
    parts.truncate(MOST_PIECES as usize);
    parts
}

/// Pieces with an address each, often one behind the other, and now and then one piece twice.
pub fn repeated(random: &mut Random, size: Size) -> Vec<Part> {
    let free = size == Size::Free;
    let mut parts = match random.below(6_000) {
        0..=3 if free => vec![Part::Put { address: 0, bytes: fresh(random, LONGEST_PIECE as usize) }; 64],
        4..=20 if free => {
            let count = random.between(2, 4);
            channels(random, count, LONGEST_PIECE as usize)
        }
        21..=40 if free => several(random, 4, LONGEST_PIECE as usize),
        41..=300 if free => {
            let count = random.pick(&[16, 16, 16, 63, 64]);
            let length = UNIT * random.between(1, 8);
            channels(random, count, length)
        }
        301..=420 if free => several(random, 64, 2 * UNIT),
        421..=600 if free => {
            let count = random.between(17, 63);
            several(random, count, 2 * UNIT)
        }
        _ => {
            let count = random.between(0, if free { 9 } else { 4 });
            several(random, count, if free { 5 * UNIT } else { 2 * UNIT })
        }
    };
    place(random, &mut parts);
    if random.once_in(8) && !parts.is_empty() && parts.len() < MOST_PIECES as usize {
        let at = random.below(parts.len());
        parts.insert(at, parts[at].clone());
    }
    parts
}

/// So many pieces.
pub fn several(random: &mut Random, count: usize, longest: usize) -> Vec<Part> {
    let mut parts = Vec::new();
    for _ in 0..count {
        parts.push(piece(random, &parts, longest));
    }
    parts
}

/// An address for each put and fill.
fn place(random: &mut Random, parts: &mut [Part]) {
    let any = random.word() & !3;
    let mut next = random.pick(&[0, 0x0040_0000, 0xffff_ff00, any]);
    for part in parts {
        let length = part.bytes().len() as u32;
        if let Part::Put { address, .. } | Part::Fill { address, .. } = part {
            *address = if random.once_in(8) { random.word() & !3 } else { next };
            next = address.wrapping_add(length);
        }
    }
}

/// The pieces in a plan's table, and the plan's data. Bytes of puts stand where they stand already, over the last ones, or anew.
pub fn drafts(random: &mut Random, parts: &[Part]) -> (Vec<Draft>, Vec<u8>) {
    let gap = random.pick(&[0, 0, 1, 6]);
    let mut data = random.bytes(gap);
    let chance = random.pick(&[0, 50, 100]);
    let mut starts: Vec<usize> = Vec::new();
    let mut drafts = Vec::new();
    for part in parts {
        drafts.push(match part {
            Part::Put { address, bytes } => {
                let start = found(random, &data, &starts, bytes).filter(|_| random.percent(chance));
                let start = start.unwrap_or_else(|| added(random, &mut data, bytes, chance));
                starts.push(start);
                Draft { kind: 1, address: *address, length: bytes.len() as u32, last: start as u32 }
            }
            _ => part.draft(&mut data),
        });
    }
    (drafts, data)
}

/// One of the places where bytes stand in the data; in long data only those of other puts.
fn found(random: &mut Random, data: &[u8], starts: &[usize], bytes: &[u8]) -> Option<usize> {
    let here = |at: &usize| data[*at..].starts_with(bytes);
    let places: Vec<usize> = match data.len() {
        0..=MOST_SEARCHED => (0..data.len()).filter(here).collect(),
        _ => starts.iter().copied().filter(here).collect(),
    };
    (!places.is_empty()).then(|| random.pick(&places))
}

/// Adds bytes to the data, over the last ones that are the same or behind them.
fn added(random: &mut Random, data: &mut Vec<u8>, bytes: &[u8], chance: usize) -> usize {
    let nearest = data.len().saturating_sub(bytes.len().min(200));
    let over = (nearest..data.len()).find(|at| bytes.starts_with(&data[*at..]));
    let start = over.filter(|_| random.percent(chance)).unwrap_or(data.len());
    data.truncate(start);
    data.extend(bytes);
    start
}
