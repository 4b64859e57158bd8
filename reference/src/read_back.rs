//! An APLX image read back as a plan (paper 02, C-11). The image is a slice with its header at offset 0.

use crate::aplx::{END, ENTRY, EXEC, FILL, RCOPY};
use crate::bytes::le32;
use crate::outcome::{refuse, Refusal};
use crate::plan::{Piece, APLX_UNIT, HEADER, LONGEST_PIECE, MOST_PIECES, PIECE};

/// Writes the plan of an image to the output's front, and answers its length.
pub fn read_back(image: &[u8], output: &mut [u8]) -> Result<u64, Refusal> {
    let pieces = pieces(image)?;
    let length = plan_length(&pieces);
    if length > output.len() as u64 {
        return refuse(10, pieces.len() as u64);
    }
    let plan = plan_of(image, &pieces);
    assert_eq!(plan.len() as u64, length, "a plan has the length that it was said to have");
    output[..plan.len()].copy_from_slice(&plan);
    Ok(length)
}

/// One piece for each entry up to the first end word. The data of a put is a range of the image's bytes.
pub fn pieces(image: &[u8]) -> Result<Vec<Piece>, Refusal> {
    let mut pieces = Vec::new();
    loop {
        let index = pieces.len() as u32;
        let at = ENTRY as usize * pieces.len();
        if at + ENTRY as usize > image.len() {
            return refuse(2, u64::from(index));
        }
        let words = [0, 4, 8, 12].map(|k| le32(image, at + k));
        if words[0] == END {
            return Ok(pieces);
        }
        match piece(words, index, image.len() as u64) {
            Ok(piece) => pieces.push(piece),
            Err(number) => return refuse(number, u64::from(index)),
        }
    }
}

/// The piece of an entry that is not the end, in an image of so many bytes; the error is a refusal number.
fn piece(words: [u32; 4], index: u32, size: u64) -> Result<Piece, u32> {
    let [command, address, second, third] = words;
    if !matches!(command, RCOPY | FILL | EXEC) {
        return Err(20);
    }
    if index >= MOST_PIECES {
        return Err(21);
    }
    if command == EXEC {
        // The other two words are unused.
        return if address % 4 == 2 { Err(9) } else { Ok(Piece::Run { address }) };
    }
    let length = if command == FILL { second } else { third };
    if length == 0 {
        return Err(5);
    }
    if length % APLX_UNIT != 0 || length > LONGEST_PIECE {
        return Err(22);
    }
    if address % 4 != 0 {
        return Err(3);
    }
    if command == FILL {
        return Ok(Piece::Fill { address, length, word: third });
    }
    if second % 4 != 0 {
        return Err(3);
    }
    // The offset counts from the entry; it may lead backward, and the data may lie over entries.
    let start = (ENTRY as u32 * index).wrapping_add(second);
    if u64::from(start) + u64::from(length) > size {
        return Err(23);
    }
    Ok(Piece::Put { address, data: start as usize..start as usize + length as usize })
}

pub fn plan_length(pieces: &[Piece]) -> u64 {
    HEADER as u64 + PIECE * pieces.len() as u64 + pieces.iter().map(Piece::put_length).sum::<u64>()
}

/// The header, the table directly behind it, and the data of the puts in order.
pub fn plan_of(image: &[u8], pieces: &[Piece]) -> Vec<u8> {
    let mut table: Vec<u32> = Vec::new();
    let mut data: Vec<u8> = Vec::new();
    for piece in pieces {
        match piece {
            Piece::Put { address, data: from } => {
                table.extend([1, *address, from.len() as u32, data.len() as u32]);
                data.extend(&image[from.clone()]);
            }
            Piece::Fill { address, length, word } => table.extend([2, *address, *length, *word]),
            Piece::Run { address } => table.extend([3, *address, 0, 0]),
        }
    }
    let table_at = HEADER as u32;
    let data_at = table_at + 4 * table.len() as u32;
    let header = [pieces.len() as u32, table_at, data_at, data.len() as u32];
    let mut plan: Vec<u8> = header.iter().chain(&table).flat_map(|word| word.to_le_bytes()).collect();
    plan.extend(data);
    plan
}
