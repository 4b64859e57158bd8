//! Another firm's APLX image checked against the plan that it was packed from (paper 02, C-20). The image is a slice with its
//! header at offset 0.

use crate::aplx::{END, ENTRY, EXEC, FILL, MOST_ENTRIES, RCOPY};
use crate::bytes::le32;
use crate::outcome::{refuse, Refusal};
use crate::plan::{self, Piece, APLX_UNIT, NO_UNIT};

/// The image has no end entry, or an entry is not the one that is due.
pub const NOT_DUE: u32 = 30;

/// Accepts an image whose entries are the plan's pieces in order, puts and fills whole or in parts, and then the end.
pub fn check(plan: &[u8], image: &[u8]) -> Result<(), Refusal> {
    let pieces = plan::read(plan, NO_UNIT)?;
    let end = end_entry(image)?;
    let mut piece = 0;
    // So many bytes of the piece are done.
    let mut done = 0;
    for index in 0..end {
        let taken = pieces.get(piece).and_then(|due| taken(plan, due, done, image, index, end));
        let Some(length) = taken else { return refuse(NOT_DUE, index) };
        done += length;
        if done == pieces[piece].length() {
            piece += 1;
            done = 0;
        }
    }
    if piece < pieces.len() {
        return refuse(NOT_DUE, end);
    }
    Ok(())
}

/// The first end word among the first 256 whole entries.
pub fn end_entry(image: &[u8]) -> Result<u64, Refusal> {
    let whole = (image.len() as u64 / ENTRY).min(MOST_ENTRIES);
    match (0..whole).find(|index| entry(image, *index)[0] == END) {
        Some(index) => Ok(index),
        None => refuse(NOT_DUE, whole),
    }
}

/// The four words of an entry that is whole.
pub fn entry(image: &[u8], index: u64) -> [u32; 4] {
    [0, 4, 8, 12].map(|k| le32(image, (ENTRY * index) as usize + k))
}

/// How many bytes of the due piece an entry before the end does, of which so many are done; 0 for a run. None where it is not
/// the run or the next part.
fn taken(plan: &[u8], due: &Piece, done: u64, image: &[u8], index: u64, end: u64) -> Option<u64> {
    let [command, address, second, third] = entry(image, index);
    // Whole numbers: no part begins past the last address.
    if u64::from(address) != u64::from(due.address()) + done {
        return None;
    }
    let is_part = |length: u32| length > 0 && length % APLX_UNIT == 0 && done + u64::from(length) <= due.length();
    match due {
        Piece::Run { .. } => (command == EXEC).then_some(0),
        Piece::Fill { word, .. } => {
            (command == FILL && is_part(second) && third == *word).then_some(u64::from(second))
        }
        Piece::Put { data, .. } => {
            if command != RCOPY || !is_part(third) {
                return None;
            }
            let from = data.start + done as usize;
            let bytes = data_of(image, index, end, second, third)?;
            (bytes == &plan[from..from + bytes.len()]).then_some(u64::from(third))
        }
    }
}

/// The data of an RCOPY: at a multiple of 4, behind the end entry and inside the slice.
fn data_of(image: &[u8], index: u64, end: u64, offset: u32, length: u32) -> Option<&[u8]> {
    let start = u64::from(((ENTRY * index) as u32).wrapping_add(offset));
    if start % 4 != 0 || start < ENTRY * (end + 1) || start + u64::from(length) > image.len() as u64 {
        return None;
    }
    Some(&image[start as usize..start as usize + length as usize])
}
