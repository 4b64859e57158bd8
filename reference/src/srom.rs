//! The serial ROM loader (paper 01, "Serial ROM"; AppNote 6).

use crate::bytes::{be16, be32};
use crate::map::{Map, Right};
use crate::outcome::{refuse, Answer, Loaded, Refusal, Stop};

pub const LONGEST_SLICE: usize = 16_777_216;
pub const PAD: u8 = 0x55;
pub const START: u8 = 0x3a;
/// Start byte, length halfword, address word.
pub const HEADER: usize = 7;

/// A tested block: where its data stands in the slice, how long it is, and where it goes in the buffer.
struct Block {
    data: usize,
    length: usize,
    place: usize,
}

/// Loads from an offset of the slice on. Every block is tested before the first byte is stored.
pub fn load(map: &Map, memory: &mut [u8], rom: &[u8], offset: usize) -> Answer {
    if !map.sound(memory.len()) {
        return refuse(1, 0);
    }
    if rom.len() > LONGEST_SLICE {
        return refuse(13, 0);
    }
    let (blocks, stop) = walk(map, rom, offset)?;
    let mut stored = 0;
    for block in &blocks {
        let words = &rom[block.data..block.data + block.length];
        store(&mut memory[block.place..block.place + block.length], words);
        stored += block.length as u64;
    }
    Ok(Loaded { stop, taken: blocks.len() as u64, stored })
}

/// The blocks before the stop, and the stop.
fn walk(map: &Map, rom: &[u8], offset: usize) -> Result<(Vec<Block>, Stop), Refusal> {
    let mut blocks = Vec::new();
    let mut next = offset;
    loop {
        let at = match rom.get(next..).and_then(|rest| rest.iter().position(|byte| *byte != PAD)) {
            Some(pads) => next + pads,
            None => return refuse(2, rom.len() as u64),
        };
        let here = at as u64;
        if rom[at] != START {
            return Ok((blocks, Stop::End { place: here }));
        }
        if rom.len() - at < HEADER {
            return refuse(2, here);
        }
        let words = be16(rom, at + 1);
        let address = be32(rom, at + 3);
        let data = at + HEADER;
        if words == 0 {
            return match map.run_entry(address) {
                Some(entry) => Ok((blocks, Stop::Run { entry, address, resume: data as u64 })),
                None => refuse(9, here),
            };
        }
        let length = usize::from(words) * 4;
        if address % 4 != 0 {
            return refuse(3, here);
        }
        if rom.len() - data < length {
            return refuse(2, here);
        }
        match map.lookup(Right::Write, u64::from(address), length as u64) {
            Some(place) => blocks.push(Block { data, length, place }),
            None => return refuse(4, here),
        }
        next = data + length;
    }
}

/// Stores words that are Big Endian in the slice as Little Endian ones.
fn store(memory: &mut [u8], words: &[u8]) {
    for (to, from) in memory.chunks_exact_mut(4).zip(words.chunks_exact(4)) {
        to.copy_from_slice(&be32(from, 0).to_le_bytes());
    }
}
