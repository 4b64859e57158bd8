//! One thing wrong with an image: where the data of a put lie, or what they are; and parts past the last address. Each answers the
//! entry that is to be refused, or None where the image does not lend itself to it.

use super::parts::Part;
use super::supplied::Supplied;
use super::supplier_words::part;
use crate::aplx::{FILL, RCOPY};
use crate::random::Random;
use std::ops::Range;

/// Where the data of an entry lie, from behind the end entry on; None where there are none, or not all.
fn range(made: &Supplied, index: usize) -> Option<Range<usize>> {
    let entry = &made.entries[index];
    let range = entry.data.map(|start| start..start + entry.words[3] as usize)?;
    (!range.is_empty() && range.end <= made.behind.len()).then_some(range)
}

/// The first entry whose data are so.
fn first(made: &Supplied, those: impl Fn(Range<usize>) -> bool) -> Option<u64> {
    (0..made.entries.len()).find(|index| range(made, *index).is_some_and(&those)).map(|index| index as u64)
}

/// The bytes that an image has from an offset on become the data of a put's part.
fn take(made: &mut Supplied, index: usize, start: usize) -> Option<()> {
    let [_, address, _, length] = made.entries[index].words;
    let bytes = made.image()[start..start + length as usize].to_vec();
    let piece = made.entries[index].piece;
    let Part::Put { address: first, bytes: all } = made.pieces.get_mut(piece)? else { return None };
    let from = address.wrapping_sub(*first) as usize;
    all.get_mut(from..from + bytes.len())?.copy_from_slice(&bytes);
    Some(())
}

/// Data that begin in an entry, often in the last word of the end; the bytes are the right ones.
pub fn over_an_entry(random: &mut Random, made: &mut Supplied) -> Option<u64> {
    let index = part(random, made, &[RCOPY])?;
    let length = made.entries[index].words[3] as usize;
    let start = match random.below(3) {
        0 => made.header() - 4,
        1 => made.header() - 4 * random.between(1, 4),
        _ => 4 * random.below(made.header() / 4),
    };
    let short = (start + length).saturating_sub(made.header() + made.behind.len());
    let more = random.bytes(short);
    made.behind.extend(more);
    made.entries[index].data = None;
    made.entries[index].words[2] = (start as u32).wrapping_sub(16 * index as u32);
    take(made, index, start)?;
    Some(index as u64)
}

/// The right bytes at no multiple of 4.
pub fn not_aligned(random: &mut Random, made: &mut Supplied) -> Option<u64> {
    let index = part(random, made, &[RCOPY])?;
    let length = made.entries[index].words[3] as usize;
    let start = made.behind.len().next_multiple_of(4) + random.between(1, 3);
    let more = random.bytes(start + length - made.behind.len());
    made.behind.extend(more);
    made.entries[index].data = Some(start);
    let start = made.header() + start;
    take(made, index, start)?;
    Some(index as u64)
}

pub fn another_byte(random: &mut Random, made: &mut Supplied) -> Option<u64> {
    let index = part(random, made, &[RCOPY])?;
    let Range { start, end } = range(made, index)?;
    let any = random.between(start, end - 1);
    let at = random.pick(&[start, end - 1, any]);
    made.behind[at] ^= 1 << random.below(8);
    first(made, |range| range.contains(&at))
}

/// The slice ends before the data of a put do.
pub fn cut_off(random: &mut Random, made: &mut Supplied) -> Option<u64> {
    let index = part(random, made, &[RCOPY])?;
    let end = range(made, index)?.end;
    let any = random.below(end);
    let length = random.pick(&[end - 1, end.saturating_sub(4), end.saturating_sub(32), any]);
    made.cut = Some(made.header() + length);
    first(made, |range| range.end > length)
}

/// Data far outside the slice; their end may be at 2^32 or wrap.
pub fn far_outside(random: &mut Random, made: &mut Supplied) -> Option<u64> {
    let index = part(random, made, &[RCOPY])?;
    let length = made.entries[index].words[3];
    let size = (made.header() + made.behind.len()) as u32;
    let start = match random.below(4) {
        0 => 0u32.wrapping_sub(length),
        1 => 0u32.wrapping_sub(4 * random.between(1, 40) as u32),
        2 => size.next_multiple_of(4),
        _ => random.pick(&[0x8000_0000, 0x7fff_fffc, 0x0001_0000 + size]) & !3,
    };
    made.entries[index].data = None;
    made.entries[index].words[2] = start.wrapping_sub(16 * index as u32);
    Some(index as u64)
}

/// The offset counts from the header. The bytes that are there then must be others.
pub fn from_the_header(random: &mut Random, made: &mut Supplied) -> Option<u64> {
    let index = part(random, made, &[RCOPY])?;
    let Range { start, end } = range(made, index)?;
    let there = made.behind.get(start + 16 * index..end + 16 * index);
    if there == Some(&made.behind[start..end]) {
        return None;
    }
    made.entries[index].data = None;
    made.entries[index].words[2] = (made.header() + start) as u32;
    Some(index as u64)
}

/// A piece over the last address in parts of 32 bytes, whose addresses go on from 0.
pub fn past_the_last_address(random: &mut Random, made: &mut Supplied) -> Option<u64> {
    let index = part(random, made, &[RCOPY, FILL])?;
    let piece = made.entries[index].piece;
    let parts = made.pieces.get(piece)?.bytes().len() / 32;
    if !(2..=40).contains(&parts) {
        return None;
    }
    let before = random.between(1, parts - 1);
    let address = 0u32.wrapping_sub(32 * before as u32 - 4 * random.below(8) as u32);
    match &mut made.pieces[piece] {
        Part::Put { address: first, .. } | Part::Fill { address: first, .. } => *first = address,
        Part::Run { .. } => return None,
    }
    let start = made.entries.iter().position(|entry| entry.piece == piece)?;
    let after = made.entries.split_off(start).into_iter().filter(|entry| entry.piece != piece);
    let rest: Vec<_> = after.collect();
    let part = made.pieces[piece].clone();
    made.extend(random, piece, &part, &vec![32; parts]);
    made.entries.extend(rest);
    Some((start + before) as u64)
}
