//! The second APLX packing (paper 02, C-23): of puts with equal bytes one copy is kept, and each of their entries points to it.

use crate::aplx::{END, ENTRY, EXEC, FILL, RCOPY};
use crate::outcome::{refuse, Refusal};
use crate::plan::{self, Piece};

/// Whether a put shares the copy of an earlier one: all its bytes are equal, and so is the length.
fn shares(bytes: &[u8], earlier: &[u8]) -> bool {
    bytes == earlier
}

/// The different contents of the puts, in the order in which they first appear.
fn contents<'a>(plan: &'a [u8], pieces: &[Piece]) -> Vec<&'a [u8]> {
    let mut contents: Vec<&[u8]> = Vec::new();
    for piece in pieces {
        if let Piece::Put { data, .. } = piece {
            let bytes = &plan[data.clone()];
            if !contents.iter().any(|earlier| shares(bytes, earlier)) {
                contents.push(bytes);
            }
        }
    }
    contents
}

fn total(contents: &[&[u8]]) -> u64 {
    contents.iter().map(|bytes| bytes.len() as u64).sum()
}

/// The entries, the end entry among them, and the different contents.
pub fn shared_length(plan: &[u8], pieces: &[Piece]) -> u64 {
    ENTRY * (pieces.len() as u64 + 1) + total(&contents(plan, pieces))
}

/// One entry for each piece, the end entry, and each of the different contents once.
pub fn shared_image(plan: &[u8], pieces: &[Piece]) -> Vec<u8> {
    let contents = contents(plan, pieces);
    let mut words: Vec<u32> = Vec::new();
    for (index, piece) in pieces.iter().enumerate() {
        words.extend(match piece {
            Piece::Put { address, data } => {
                let bytes = &plan[data.clone()];
                let before = contents.iter().position(|earlier| shares(bytes, earlier)).unwrap_or(0);
                let start = ENTRY * (pieces.len() as u64 + 1) + total(&contents[..before]);
                let offset = start - ENTRY * index as u64;
                [RCOPY, *address, offset as u32, bytes.len() as u32]
            }
            Piece::Fill { address, length, word } => [FILL, *address, *length, *word],
            Piece::Run { address } => [EXEC, *address, 0, 0],
        });
    }
    words.extend([END, 0, 0, 0]);
    let mut image: Vec<u8> = words.iter().flat_map(|word| word.to_le_bytes()).collect();
    image.extend(contents.concat());
    image
}

/// Writes a plan's image with shared data to the output's front, and answers its length.
pub fn pack_aplx_shared(plan: &[u8], output: &mut [u8]) -> Result<u64, Refusal> {
    let pieces = plan::read(plan, plan::APLX_UNIT)?;
    let length = shared_length(plan, &pieces);
    if length > output.len() as u64 {
        return refuse(10, pieces.len() as u64);
    }
    let image = shared_image(plan, &pieces);
    assert_eq!(image.len() as u64, length, "an image has the length that the request gives");
    output[..image.len()].copy_from_slice(&image);
    Ok(length)
}
