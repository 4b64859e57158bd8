//! One thing wrong with an image: a command, an address, a length or a word of an entry. Each answers the entry that is to be refused,
//! or None where the image does not lend itself to it.

use super::parts::Part;
use super::supplied::{place, Entry, Supplied};
use super::supplier_order::any;
use crate::aplx::{ACOPY, END, EXEC, FILL, RCOPY};
use crate::plan::LONGEST_PIECE;
use crate::random::Random;

/// Any part of these commands. The length of one that is wrong already may be any number: a very long one is left alone.
pub fn part(random: &mut Random, made: &Supplied, commands: &[u32]) -> Option<usize> {
    let is_one = |index: &usize| {
        let words = made.entries[*index].words;
        commands.contains(&words[0]) && words[if words[0] == FILL { 2 } else { 3 }] <= LONGEST_PIECE
    };
    let those: Vec<usize> = (0..made.entries.len()).filter(is_one).collect();
    (!those.is_empty()).then(|| random.pick(&those))
}

/// The length word of a part.
fn length_of(entry: &mut Entry) -> &mut u32 {
    let at = if entry.words[0] == FILL { 2 } else { 3 };
    &mut entry.words[at]
}

/// Whether it is the last part of its piece.
fn is_last(made: &Supplied, index: usize) -> bool {
    made.entries.get(index + 1).is_none_or(|next| next.piece != made.entries[index].piece)
}

/// The last part of any put or fill.
fn last_part(random: &mut Random, made: &Supplied) -> Option<usize> {
    let index = part(random, made, &[RCOPY, FILL])?;
    (index..made.entries.len()).find(|index| is_last(made, *index))
}

/// So many bytes less of a piece of the plan, which has more.
fn shorten(piece: &mut Part, less: usize) -> Option<()> {
    match piece {
        Part::Put { bytes, .. } if bytes.len() > less => bytes.truncate(bytes.len() - less),
        Part::Fill { length, .. } if *length > less as u32 => *length -= less as u32,
        _ => return None,
    }
    Some(())
}

/// The piece's length is no multiple of 32, and that of its last part is rounded up, or the very length.
pub fn padded(random: &mut Random, made: &mut Supplied) -> Option<u64> {
    let index = last_part(random, made)?;
    let less = random.between(1, 31);
    let piece = made.entries[index].piece;
    shorten(made.pieces.get_mut(piece)?, less)?;
    if random.once_in(3) {
        let length = length_of(&mut made.entries[index]);
        *length = length.wrapping_sub(less as u32);
    }
    Some(index as u64)
}

/// The same, and the length of its last part is rounded down.
pub fn left_out(random: &mut Random, made: &mut Supplied) -> Option<u64> {
    let index = last_part(random, made)?;
    let piece = made.entries[index].piece;
    let less = random.between(1, 31);
    shorten(made.pieces.get_mut(piece)?, less)?;
    let length = length_of(&mut made.entries[index]);
    if *length <= 32 {
        made.entries.remove(index);
        return Some(index as u64);
    }
    *length -= 32;
    Some(index as u64 + 1)
}

pub fn past_its_piece(random: &mut Random, made: &mut Supplied) -> Option<u64> {
    let index = last_part(random, made)?;
    let more = 32 * random.between(1, 3) as u32;
    *length_of(&mut made.entries[index]) += more;
    let behind = random.bytes(more as usize);
    made.behind.extend(behind);
    Some(index as u64)
}

/// A part that goes on over the next one, with the right bytes.
pub fn over_the_next(random: &mut Random, made: &mut Supplied) -> Option<u64> {
    let index = part(random, made, &[RCOPY, FILL])?;
    if is_last(made, index) {
        return None;
    }
    let Entry { words, piece, .. } = made.entries[index].clone();
    let whole = made.pieces.get(piece)?.bytes();
    let from = words[1].wrapping_sub(made.pieces[piece].address()) as usize;
    let length = length_of(&mut made.entries[index]);
    *length += 32;
    let to = from + *length as usize;
    if words[0] == RCOPY {
        made.entries[index].data = Some(place(random, &mut made.behind, whole.get(from..to)?));
    }
    // Where the piece ends there, the next one must not look like the part that is too many.
    let due = made.entries.get(index + 2);
    let alike = to == whole.len() && due.is_some_and(|due| due.words[..2] == made.entries[index + 1].words[..2]);
    (!alike).then_some(index as u64 + 1)
}

pub fn no_multiple(random: &mut Random, made: &mut Supplied) -> Option<u64> {
    let index = part(random, made, &[RCOPY, FILL])?;
    let change = random.pick(&[1, 2, 4, 8, 12, 16, 20, 28, 31]);
    let length = length_of(&mut made.entries[index]);
    *length = if random.once_in(2) { length.wrapping_add(change) } else { length.wrapping_sub(change) };
    Some(index as u64)
}

/// A part of no bytes, in the place of another one or before it.
pub fn no_bytes(random: &mut Random, made: &mut Supplied) -> Option<u64> {
    let index = part(random, made, &[RCOPY, FILL])?;
    if random.once_in(2) {
        let again = made.entries[index].clone();
        made.entries.insert(index, again);
    }
    *length_of(&mut made.entries[index]) = 0;
    Some(index as u64)
}

pub fn another_address(random: &mut Random, made: &mut Supplied) -> Option<u64> {
    let index = any(random, made)?;
    let change = match random.below(4) {
        0 => 1 << random.below(32),
        1 => random.pick(&[4, 28, 32, 64]),
        2 => 0u32.wrapping_sub(random.pick(&[4, 28, 32, 64])),
        _ => random.word() | 1,
    };
    let address = &mut made.entries[index].words[1];
    *address = address.wrapping_add(change);
    Some(index as u64)
}

pub fn another_word(random: &mut Random, made: &mut Supplied) -> Option<u64> {
    let index = part(random, made, &[FILL])?;
    let word = made.entries[index].words[3];
    let other = match random.below(3) {
        0 => word ^ 1 << random.below(32),
        1 => word.rotate_left(16),
        _ => random.word(),
    };
    made.entries[index].words[3] = other;
    (other != word).then_some(index as u64)
}

pub fn acopy(random: &mut Random, made: &mut Supplied) -> Option<u64> {
    let index = part(random, made, &[RCOPY])?;
    made.entries[index].words[0] = ACOPY;
    Some(index as u64)
}

pub fn another_command(random: &mut Random, made: &mut Supplied) -> Option<u64> {
    let index = any(random, made)?;
    let command = made.entries[index].words[0];
    let other = random.pick(&[0, RCOPY, FILL, EXEC, 5, command ^ 0x0100_0000, command ^ 0x8000_0000, END - 1]);
    made.entries[index].words[0] = other;
    (other != command).then_some(index as u64)
}

/// A put of one word over and over, as a fill.
pub fn put_as_fill(random: &mut Random, made: &mut Supplied) -> Option<u64> {
    let index = part(random, made, &[RCOPY])?;
    let Entry { words: [_, address, _, length], piece, .. } = made.entries[index];
    let word: u32 = random.pick(&[0, 0x0707_0707, 0x0403_0201]);
    let Part::Put { address: first, bytes } = made.pieces.get_mut(piece)? else { return None };
    let from = address.wrapping_sub(*first) as usize;
    for (at, byte) in bytes.get_mut(from..from + length as usize)?.iter_mut().enumerate() {
        *byte = word.to_le_bytes()[at % 4];
    }
    made.entries[index] = Entry { words: [FILL, address, length, word], data: None, piece };
    Some(index as u64)
}

pub fn fill_as_put(random: &mut Random, made: &mut Supplied) -> Option<u64> {
    let index = part(random, made, &[FILL])?;
    let Entry { words: [_, address, length, word], piece, .. } = made.entries[index];
    let bytes = word.to_le_bytes().repeat(length as usize / 4);
    let start = place(random, &mut made.behind, &bytes);
    made.entries[index] = Entry { words: [RCOPY, address, 0, length], data: Some(start), piece };
    Some(index as u64)
}
