//! The two packers (paper 01, "Plans"): from a plan to its SROM or APLX image.

use crate::aplx;
use crate::outcome::{refuse, Refusal};
use crate::plan::{self, Piece};
use crate::srom;

/// The byte that ends a packed SROM image.
pub const SROM_END: u8 = 0xff;

pub fn srom_length(pieces: &[Piece]) -> u64 {
    2 + pieces.iter().map(|piece| srom::HEADER as u64 + piece.length()).sum::<u64>()
}

pub fn aplx_length(pieces: &[Piece]) -> u64 {
    aplx::ENTRY * (pieces.len() as u64 + 1) + pieces.iter().map(Piece::put_length).sum::<u64>()
}

/// A pad, one block for each piece with its words Big Endian, and the end.
pub fn srom_image(plan: &[u8], pieces: &[Piece]) -> Vec<u8> {
    let mut image = vec![srom::PAD];
    for piece in pieces {
        image.push(srom::START);
        image.extend(((piece.length() / 4) as u16).to_be_bytes());
        image.extend(piece.address().to_be_bytes());
        match piece {
            Piece::Put { data, .. } => {
                for word in plan[data.clone()].chunks_exact(4) {
                    image.extend(word.iter().rev());
                }
            }
            Piece::Fill { length, word, .. } => {
                for _ in 0..length / 4 {
                    image.extend(word.to_be_bytes());
                }
            }
            Piece::Run { .. } => {}
        }
    }
    image.push(SROM_END);
    image
}

/// One entry for each piece, the end entry, and the data of the puts.
pub fn aplx_image(plan: &[u8], pieces: &[Piece]) -> Vec<u8> {
    let mut image = Vec::new();
    let mut data_at = 16 * (pieces.len() as u32 + 1);
    for (index, piece) in pieces.iter().enumerate() {
        let words = match piece {
            Piece::Put { address, data } => {
                let length = data.len() as u32;
                let offset = data_at - 16 * index as u32;
                data_at += length;
                [aplx::RCOPY, *address, offset, length]
            }
            Piece::Fill { address, length, word } => [aplx::FILL, *address, *length, *word],
            Piece::Run { address } => [aplx::EXEC, *address, 0, 0],
        };
        image.extend(words.iter().flat_map(|word| word.to_le_bytes()));
    }
    image.extend([aplx::END, 0, 0, 0].iter().flat_map(|word| word.to_le_bytes()));
    for piece in pieces {
        if let Piece::Put { data, .. } = piece {
            image.extend(&plan[data.clone()]);
        }
    }
    image
}

/// Writes a plan's SROM image to the output's front, and answers its length.
pub fn pack_srom(plan: &[u8], output: &mut [u8]) -> Result<u64, Refusal> {
    pack(plan, output, plan::SROM_UNIT, srom_length, srom_image)
}

/// Writes a plan's APLX image to the output's front, and answers its length.
pub fn pack_aplx(plan: &[u8], output: &mut [u8]) -> Result<u64, Refusal> {
    pack(plan, output, plan::APLX_UNIT, aplx_length, aplx_image)
}

fn pack(
    plan: &[u8],
    output: &mut [u8],
    unit: u32,
    length: fn(&[Piece]) -> u64,
    image: fn(&[u8], &[Piece]) -> Vec<u8>,
) -> Result<u64, Refusal> {
    let pieces = plan::read(plan, unit)?;
    let length = length(&pieces);
    if length > output.len() as u64 {
        return refuse(10, pieces.len() as u64);
    }
    let image = image(plan, &pieces);
    assert_eq!(image.len() as u64, length, "an image has the length that the paper gives");
    output[..image.len()].copy_from_slice(&image);
    Ok(length)
}
