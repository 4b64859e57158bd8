//! Random images as another firm's packer may write them: puts and fills in parts, their data anywhere behind the end entry,
//! shared and overlapping, with any unused words and bytes behind.

use super::parts::{run, Part};
use super::supplied::{unused, Supplied};
use crate::aplx::END;
use crate::plan::LONGEST_PIECE;
use crate::random::Random;

/// The lengths of the parts of a put or fill. Style 0: one part, 1: parts of 32 bytes, any other: of any lengths.
fn split(random: &mut Random, part: &Part, style: usize) -> Vec<usize> {
    let whole = part.bytes().len();
    let mut lengths = Vec::new();
    let mut done = 0;
    while done < whole {
        let rest = whole - done;
        let length = match style {
            0 => rest,
            1 if whole < LONGEST_PIECE as usize => 32,
            _ => 32 * random.between(1, rest / 32),
        };
        // The next part must not begin past the last address.
        let begins = u64::from(part.address()) + (done + length) as u64;
        let length = if begins > u64::from(u32::MAX) { rest } else { length };
        lengths.push(length);
        done += length;
    }
    lengths
}

/// A put, fill or run. The bytes of puts are often taken from the pool; lengths are multiples of 32.
fn piece(random: &mut Random, pool: &[u8], addresses: &[u32], short: bool) -> Part {
    if random.once_in(6) {
        return run(random);
    }
    let address = match random.below(4) {
        0 => random.word() & !3,
        1 => random.pick(addresses).wrapping_add(32 * random.below(4) as u32),
        _ => random.pick(addresses),
    };
    let length = match random.below(400) {
        0 if !short => LONGEST_PIECE as usize,
        _ => 32 * random.between(1, if short { 2 } else { 5 }),
    };
    match random.below(8) {
        0..=3 => Part::Fill { address, length: length as u32, word: random.pick(&[0, 1, END, 0x0403_0201]) },
        4 => Part::Put { address, bytes: random.bytes(length) },
        5 => Part::Put { address, bytes: vec![random.pick(&[0, 7, 0xff]); length] },
        _ => {
            let at = 4 * random.below(pool.len() / 4);
            Part::Put { address, bytes: pool.iter().cycle().skip(at).take(length).copied().collect() }
        }
    }
}

/// A valid image.
pub fn supplied(random: &mut Random, free: bool) -> Supplied {
    let units = random.between(1, 6);
    let pool = random.bytes(32 * units);
    let near_the_last = 0u32.wrapping_sub(4 * random.between(1, 40) as u32);
    let addresses = [random.word() & !3, 0x0040_0000, near_the_last];
    let count = match random.below(60) {
        0 if free => 64,
        1 if free => random.between(8, 63),
        2 | 3 => 0,
        _ => random.between(1, 6),
    };
    let pieces = (0..count).map(|_| piece(random, &pool, &addresses, !free || count > 6)).collect();
    let style = random.below(4);
    made_of(random, pieces, &pool, style)
}

/// An image of about 256 entries: parts of 32 bytes.
pub fn long(random: &mut Random, entries: usize) -> Supplied {
    let runs = random.below(3);
    let puts = if random.once_in(2) { 0 } else { 32 * random.between(1, 40) };
    let fills = 32 * (entries - 1 - runs) - puts;
    let mut pieces = vec![Part::Fill { address: 0x1000, length: fills as u32, word: random.word() }];
    if puts > 0 {
        pieces.push(Part::Put { address: 0x2000, bytes: vec![random.byte(); puts] });
    }
    pieces.extend((0..runs).map(|_| run(random)));
    random.shuffle(&mut pieces);
    made_of(random, pieces, &[], 1)
}

/// The image of pieces; the pool may stand behind its end.
pub fn made_of(random: &mut Random, pieces: Vec<Part>, pool: &[u8], style: usize) -> Supplied {
    let gap = random.pick(&[0, 0, 4, 20]);
    let mut behind = random.bytes(gap);
    if random.once_in(2) {
        behind.extend(pool);
    }
    let end = [END, unused(random), unused(random), unused(random)];
    let mut supplied = Supplied { pieces, entries: Vec::new(), end, behind, cut: None };
    for (piece, part) in supplied.pieces.clone().iter().enumerate() {
        let lengths = split(random, part, style);
        supplied.extend(random, piece, part, &lengths);
    }
    if random.once_in(3) {
        let more = random.bytes_below(40);
        supplied.behind.extend(more);
    }
    supplied
}
