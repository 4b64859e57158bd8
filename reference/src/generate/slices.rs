//! Random APLX images in a slice, to be read back: what the packer writes of valid plans, entries whose data lies anywhere,
//! near-valid images for each refusal, random bytes; and outputs that fit, just fit, or are too small.

use super::plans::{plan, room};
use super::{damage, Case, Size};
use crate::aplx::{ACOPY, END, EXEC, FILL, RCOPY};
use crate::bytes::{le32, put_le32};
use crate::pack::aplx_image;
use crate::plan::{self as plans, APLX_UNIT, LONGEST_PIECE, MOST_PIECES};
use crate::random::Random;
use crate::read_back::{pieces, plan_length};

pub fn read(random: &mut Random, size: Size) -> Case {
    let (image, packed) = image(random, size);
    let exact = pieces(&image).map_or(64, |pieces| plan_length(&pieces));
    let output = room(random, size, exact as usize);
    Case::AplxRead { image, output, packed }
}

/// An image, and whether it is just what the packer writes.
fn image(random: &mut Random, size: Size) -> (Vec<u8>, bool) {
    let (mut image, count) = match random.below(40) {
        0 => return (random.bytes_below(80), false),
        1 => {
            // Random words that are small numbers, or the end.
            let words = random.below(40);
            let word = |random: &mut Random| if random.once_in(9) { END } else { random.below(33) as u32 };
            return ((0..words).flat_map(|_| word(random).to_le_bytes()).collect(), false);
        }
        2 if size == Size::Free && random.once_in(3) => return (long_put(random), false),
        3..=12 => {
            let (image, count) = packed(random, size);
            if random.percent(60) {
                return (image, true);
            }
            (image, count)
        }
        _ => {
            let count = match random.below(20) {
                0 | 1 => random.between(63, 66),
                2 => 0,
                3 if size == Size::Free => random.between(8, 61),
                _ => random.between(1, 6),
            };
            (laid_out(random, count, false), count)
        }
    };
    match random.below(20) {
        0..=7 => spoil(random, &mut image, count),
        8 => damage(random, &mut image),
        9 | 10 => cut(random, &mut image, count),
        13..=15 if count > 60 => cut(random, &mut image, count),
        11 | 12 => image.extend(random.bytes_below(50)),
        _ => {}
    }
    (image, false)
}

/// What the packer writes of a valid plan, and the count of its pieces.
fn packed(random: &mut Random, size: Size) -> (Vec<u8>, usize) {
    loop {
        let plan = plan(random, size, APLX_UNIT);
        if let Ok(pieces) = plans::read(&plan, APLX_UNIT) {
            return (aplx_image(&plan, &pieces), pieces.len());
        }
    }
}

/// Entries, the end, and bytes behind it; the data of each RCOPY lies anywhere in the image. All is as it must be, but there may be too
/// many entries. `short`: no long fills.
pub fn laid_out(random: &mut Random, count: usize, short: bool) -> Vec<u8> {
    let behind = match random.below(4) {
        0 => 0,
        1 => random.below(40),
        _ => random.between(32, 200),
    };
    // Now and then all data lies over the entries before the end, so that the image can be cut there.
    let over = count > 1 && random.once_in(if count > 60 { 2 } else { 4 });
    let within = if over { 16 * count } else { 16 * (count + 1) + behind };
    let mut starts = Vec::new();
    let mut words = Vec::new();
    for index in 0..count {
        words.extend(entry(random, index, count, within, short, &mut starts));
    }
    words.extend([END, unused(random), unused(random), unused(random)]);
    let mut image: Vec<u8> = words.iter().flat_map(|word| word.to_le_bytes()).collect();
    image.extend(random.bytes(behind));
    image
}

/// A word that has no meaning.
fn unused(random: &mut Random) -> u32 {
    if random.once_in(2) { 0 } else { random.word() }
}

/// A good entry of an image of so many entries, whose data lies within so many bytes; `starts` are where that of earlier ones begins.
fn entry(
    random: &mut Random,
    index: usize,
    count: usize,
    within: usize,
    short: bool,
    starts: &mut Vec<usize>,
) -> [u32; 4] {
    let address = match random.below(6) {
        0 => random.pick(&[0, 0xf500_7fe0, 0x0040_0000, 0xffff_fffc]),
        _ => random.word() & !3,
    };
    match random.below(5) {
        0 => return [EXEC, address | random.pick(&[0, 0, 1, 3]), unused(random), unused(random)],
        1 => {
            let longest = !short && random.once_in(20);
            let length = if longest { LONGEST_PIECE } else { 32 * random.between(1, 3) as u32 };
            return [FILL, address, length, random.word()];
        }
        _ => {}
    }
    let length = 32 * random.between(1, (within / 32).min(3));
    let last = (within - length) / 4 * 4;
    let start = match random.below(8) {
        0 | 1 if !starts.is_empty() => random.pick(starts),
        2 if !starts.is_empty() => (random.pick(starts) + 4 * random.below(17)).saturating_sub(32),
        3 => last,
        // Before the entry, or over any entry.
        4 => 4 * random.below(4 * index + 1),
        5 => 4 * random.below(4 * count + 4),
        _ => 16 * (count + 1) + 4 * random.below((within / 4).saturating_sub(4 * (count + 1)) + 1),
    };
    let start = start.min(last);
    starts.push(start);
    [RCOPY, address, (start as u32).wrapping_sub(16 * index as u32), length as u32]
}

/// The end, or the 65th entry where there are so many, or any.
fn chosen(random: &mut Random, count: usize) -> usize {
    match random.below(3) {
        0 => count.min(MOST_PIECES as usize),
        _ => random.below(count + 1),
    }
}

/// One thing wrong with an entry, or two; now and then with another one too.
fn spoil(random: &mut Random, image: &mut [u8], count: usize) {
    for _ in 0..random.pick(&[1, 1, 1, 2]) {
        let index = chosen(random, count);
        let size = image.len() as u32;
        let entry = &mut image[16 * index..16 * index + 16];
        for _ in 0..random.pick(&[1, 1, 2]) {
            spoil_entry(random, entry, 16 * index as u32, size);
        }
    }
}

fn spoil_entry(random: &mut Random, entry: &mut [u8], at: u32, size: u32) {
    let [command, address, second, third] = [0, 4, 8, 12].map(|k| le32(entry, k));
    let length_at = if command == FILL { 8 } else { 12 };
    let length = le32(entry, length_at);
    match random.below(13) {
        0 => put_le32(entry, 0, random.pick(&[0, ACOPY, 5, END, END - 1, 0x0100_0002, 0x8000_0003])),
        1 => put_le32(entry, 0, random.pick(&[ACOPY, RCOPY, FILL, EXEC])),
        2 => damage(random, entry),
        3 => put_le32(entry, 4 * random.below(4), random.word()),
        4 => put_le32(entry, length_at, 0),
        5 => {
            let lengths = [1, 31, 33, 65_535, 65_537, 65_568, 0x8000_0000, u32::MAX, u32::MAX - 31];
            put_le32(entry, length_at, random.pick(&lengths));
        }
        6 => put_le32(entry, length_at, length.wrapping_add(random.pick(&[1, 2, 4, 8, 16, 24]))),
        7 => put_le32(entry, length_at, random.pick(&[length.wrapping_add(32), LONGEST_PIECE])),
        8 => put_le32(entry, 4, address.wrapping_add(random.between(1, 3) as u32)),
        9 => put_le32(entry, 8, second.wrapping_add(random.between(1, 3) as u32)),
        10 => {
            // Data that ends past the slice, or begins past it.
            let past = size.wrapping_sub(third).wrapping_add(4) & !3;
            let starts = [past, past, size & !3, 0x8000_0000, 0u32.wrapping_sub(third), u32::MAX - 3];
            put_le32(entry, 8, random.pick(&starts).wrapping_sub(at));
        }
        11 => {
            put_le32(entry, 0, EXEC);
            put_le32(entry, 4, address & !3 | 2);
        }
        _ => {
            // A destination and something else, so that the order of the tests shows.
            put_le32(entry, 4, address | 1);
            put_le32(entry, length_at, random.pick(&[0, 33, length]));
        }
    }
}

/// Fewer bytes: any number, those before an entry or most of it, or all but the last.
fn cut(random: &mut Random, image: &mut Vec<u8>, count: usize) {
    let entry = 16 * chosen(random, count);
    let length = match random.below(6) {
        0 => random.below(image.len() + 1),
        1 | 2 => entry,
        3 => entry + 15,
        4 => entry + random.below(16),
        _ => image.len() - 1,
    };
    image.truncate(length);
}

/// Puts of the greatest length, or of one that is too great, whose data is there.
fn long_put(random: &mut Random) -> Vec<u8> {
    let length = random.pick(&[LONGEST_PIECE, LONGEST_PIECE, LONGEST_PIECE - 32, LONGEST_PIECE + 32]);
    let count = random.between(1, 2) as u32;
    let mut words = Vec::new();
    for index in 0..count {
        words.extend([RCOPY, random.word() & !3, 16 * (count + 1 - index), length]);
    }
    words.extend([END, 0, 0, 0]);
    let mut image: Vec<u8> = words.iter().flat_map(|word| word.to_le_bytes()).collect();
    let pattern = random.bytes(8_191);
    image.extend(pattern.iter().cycle().take(length as usize));
    image
}
