//! Pairs of plans with many stretches, just as many as are allowed or one more; and long pieces.

use super::parts::Part;
use crate::plan::LONGEST_PIECE;
use crate::plan_difference::MOST_STRETCHES;
use crate::random::Random;

/// How many stretches a pair is to have.
fn wanted(random: &mut Random) -> usize {
    match random.below(12) {
        0..=2 => MOST_STRETCHES,
        3 | 4 => MOST_STRETCHES - 1,
        5..=7 => MOST_STRETCHES + 1,
        8 | 9 => random.between(500, 530),
        10 => random.between(2, 300),
        _ => random.between(1_000, 3_000),
    }
}

/// Where a row of so many bytes begins: it may end with the last address.
fn place(random: &mut Random, length: usize) -> u32 {
    let length = length.next_multiple_of(4) as u32;
    match random.below(4) {
        0 => 0u32.wrapping_sub(length),
        1 => random.pick(&[0, 0x0040_0000, 0x7fff_ff00]),
        _ => (random.word() & !3).min(0u32.wrapping_sub(length)),
    }
}

pub fn rows(random: &mut Random) -> (Vec<Part>, Vec<Part>) {
    let wanted = wanted(random);
    match random.below(5) {
        0 => fills(random, wanted),
        1 => gaps(random, wanted),
        _ => puts(random, wanted),
    }
}

/// Two puts that differ in so many rows of one to three bytes.
fn puts(random: &mut Random, wanted: usize) -> (Vec<Part>, Vec<Part>) {
    let mut old = Vec::new();
    let mut new = Vec::new();
    for _ in 0..wanted {
        let count = random.pick(&[1, 1, 1, 2]);
        let equal = random.bytes(count);
        old.extend(&equal);
        new.extend(&equal);
        for _ in 0..random.pick(&[1, 1, 1, 2, 3]) {
            let byte = random.byte();
            old.push(byte);
            new.push(byte ^ (1 << random.below(8)));
        }
    }
    // Whole words, so that the last stretch can end with the last address.
    while old.len() % 4 != 0 {
        old.insert(0, 5);
        new.insert(0, 5);
    }
    let address = place(random, old.len());
    (cut(random, address, &old), cut(random, address, &new))
}

/// Bytes as one put, or as two whose border is anywhere, the later one listed first or last.
fn cut(random: &mut Random, address: u32, bytes: &[u8]) -> Vec<Part> {
    let border = 4 * random.below(bytes.len() / 4);
    let whole = Part::Put { address, bytes: bytes.to_vec() };
    if border == 0 || random.once_in(2) {
        return vec![whole];
    }
    let rest = Part::Put { address: address + border as u32, bytes: bytes[border..].to_vec() };
    let front = Part::Put { address, bytes: bytes[..border].to_vec() };
    if random.once_in(2) { vec![front, rest] } else { vec![rest, front] }
}

/// Two fills whose words differ in one byte, or in two that do not adjoin; or of more bytes than stretches can be told for.
fn fills(random: &mut Random, wanted: usize) -> (Vec<Part>, Vec<Part>) {
    let word = random.word();
    let one = random.once_in(2);
    let bits = if one { 0x40 << (8 * random.below(4)) } else { random.pick(&[0x0001_0001, 0x0100_0100]) };
    let words = if one { wanted } else { wanted.div_ceil(2) };
    let length = if random.once_in(10) { LONGEST_PIECE } else { 4 * words as u32 };
    let address = place(random, length as usize);
    (vec![Part::Fill { address, length, word }], vec![Part::Fill { address, length, word: word ^ bits }])
}

/// Short fills that are apart, each in one of the plans only, beside a row of puts.
fn gaps(random: &mut Random, wanted: usize) -> (Vec<Part>, Vec<Part>) {
    let short = 60.min(wanted - 1);
    let (mut old, mut new) = puts(random, wanted - short);
    let first = 0x2000_0000 + 4 * random.below(1_000) as u32;
    for index in 0..short as u32 {
        let piece = Part::Fill { address: first + 8 * index, length: 4 + index % 4, word: random.word() };
        if index % 2 == 0 { &mut old } else { &mut new }.push(piece);
    }
    (old, new)
}

/// Pieces of 65,536 bytes, up to 64, which overlap or adjoin; one of them is different in the other plan, or their order.
pub fn long(random: &mut Random) -> (Vec<Part>, Vec<Part>) {
    let count = random.pick(&[1, 1, 2, 8, 64]);
    let step = random.pick(&[LONGEST_PIECE, LONGEST_PIECE, 4_096]);
    let first = 0u32.wrapping_sub(LONGEST_PIECE * 64 + random.pick(&[0, 0, 4, 0x4000_0000]));
    let data = random.bytes(LONGEST_PIECE as usize);
    let mut old: Vec<Part> = (0..count)
        .map(|index| {
            let address = first + step * (64 - count + index);
            match random.below(3) {
                0 => Part::Put { address, bytes: data.clone() },
                _ => Part::Fill { address, length: LONGEST_PIECE, word: random.word() },
            }
        })
        .collect();
    random.shuffle(&mut old);
    let mut new = old.clone();
    let at = random.below(new.len());
    match random.below(4) {
        0 => drop(new.remove(at)),
        1 => new[at] = Part::Fill { address: new[at].address(), length: LONGEST_PIECE, word: random.word() },
        2 => random.shuffle(&mut new),
        _ => {}
    }
    (old, new)
}
