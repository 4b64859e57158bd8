//! One thing wrong with an image: the order and the number of its entries. Each answers the entry that is to be refused, or None
//! where the image does not lend itself to it.

use super::parts::{run, Part};
use super::supplied::{unused, Entry, Supplied};
use crate::aplx::{ACOPY, END, EXEC, FILL, RCOPY};
use crate::random::Random;

/// Whether one can't be taken for the other: the command or the address differs.
fn differ(one: &Entry, other: Option<&Entry>) -> bool {
    other.is_none_or(|other| one.words[..2] != other.words[..2])
}

/// Any entry.
pub fn any(random: &mut Random, made: &Supplied) -> Option<usize> {
    (!made.entries.is_empty()).then(|| random.below(made.entries.len()))
}

pub fn exchanged(random: &mut Random, made: &mut Supplied) -> Option<u64> {
    let [one, other] = [any(random, made)?, any(random, made)?];
    let first = one.min(other);
    made.entries.swap(one, other);
    differ(&made.entries[one], Some(&made.entries[other])).then_some(first as u64)
}

/// The pieces with all their parts, by address.
pub fn sorted(_: &mut Random, made: &mut Supplied) -> Option<u64> {
    let before = made.entries.clone();
    let pieces = &made.pieces;
    made.entries.sort_by_key(|entry| pieces.get(entry.piece).map(Part::address));
    let moved = before.iter().zip(&made.entries).position(|(old, new)| old.piece != new.piece)?;
    differ(&made.entries[moved], Some(&before[moved])).then_some(moved as u64)
}

pub fn missing(random: &mut Random, made: &mut Supplied) -> Option<u64> {
    let index = any(random, made)?;
    let gone = made.entries.remove(index);
    differ(&gone, made.entries.get(index)).then_some(index as u64)
}

/// The plan has one piece more.
pub fn last_missing(random: &mut Random, made: &mut Supplied) -> Option<u64> {
    if made.pieces.len() == 64 {
        return None;
    }
    let fill = Part::Fill { address: random.word() & !3, length: 32, word: 0 };
    made.pieces.push(if random.once_in(2) { run(random) } else { fill });
    Some(made.entries.len() as u64)
}

pub fn twice(random: &mut Random, made: &mut Supplied) -> Option<u64> {
    let index = any(random, made)?;
    let again = made.entries[index].clone();
    made.entries.insert(index + 1, again);
    differ(&made.entries[index + 1], made.entries.get(index + 2)).then_some(index as u64 + 1)
}

pub fn end_too_early(random: &mut Random, made: &mut Supplied) -> Option<u64> {
    let index = any(random, made)?;
    if random.once_in(2) {
        made.entries[index].words[0] = END;
        return Some(index as u64);
    }
    let words = [END, unused(random), unused(random), unused(random)];
    made.entries.insert(index, Entry { words, data: None, piece: 0 });
    Some(index as u64)
}

pub fn end_too_late(random: &mut Random, made: &mut Supplied) -> Option<u64> {
    let index = made.entries.len();
    let entry = match (random.below(4), any(random, made)) {
        (0, Some(other)) => made.entries[other].clone(),
        (1, Some(_)) => made.entries[index - 1].clone(),
        (2, _) => {
            let words = [EXEC, run(random).address(), 0, 0];
            Entry { words, data: None, piece: 0 }
        }
        _ => {
            let command = random.pick(&[0, ACOPY, RCOPY, FILL, 5, END - 1]);
            Entry { words: [command, random.word() & !3, 32, 32], data: None, piece: 0 }
        }
    };
    made.entries.push(entry);
    Some(index as u64)
}

/// A word other than the end word in its place. The bytes behind must hold no other one where an entry would begin.
pub fn no_end_word(random: &mut Random, made: &mut Supplied) -> Option<u64> {
    made.end[0] = random.pick(&[0, ACOPY, EXEC, 5, END - 1, 0x7fff_ffff, 0xffff_ff00]);
    let image = made.image();
    let end = image.chunks_exact(16).take(256).any(|entry| entry[..4] == [0xff; 4]);
    (!end).then_some((image.len() as u64 / 16).min(256))
}

/// The slice ends before its end entry does.
pub fn cut_before_the_end(random: &mut Random, made: &mut Supplied) -> Option<u64> {
    let length = match random.below(3) {
        0 => random.below(made.header()),
        1 => made.header() - 1,
        _ => made.header() - random.between(1, 16),
    };
    made.cut = Some(length);
    Some(length as u64 / 16)
}

/// Two fills side by side as one.
pub fn two_as_one(random: &mut Random, made: &mut Supplied) -> Option<u64> {
    let index = any(random, made)?;
    let Entry { words: [FILL, address, length, word], piece, .. } = made.entries[index] else { return None };
    let last = made.entries.get(index + 1).is_none_or(|next| next.piece != piece);
    let next = address.checked_add(length)?;
    if !last || made.pieces.len() == 64 {
        return None;
    }
    made.pieces.insert(piece + 1, Part::Fill { address: next, length: 32, word });
    made.entries[index].words[2] += 32;
    Some(index as u64)
}
