//! The APLX loader (paper 01, "APLX"; "The APLX File Format"). The image lies in memory.

use crate::bytes::{le32, share};
use crate::map::{Map, Right};
use crate::outcome::{refuse, Answer, Loaded, Refusal, Stop};

pub const ACOPY: u32 = 1;
pub const RCOPY: u32 = 2;
pub const FILL: u32 = 3;
pub const EXEC: u32 = 4;
pub const END: u32 = 0xffff_ffff;
pub const ENTRY: u64 = 16;
pub const MOST_ENTRIES: u64 = 256;

/// A tested command: its destination as an address range, and what is done there in the buffer.
struct Command {
    destination: u64,
    length: u64,
    to: usize,
    action: Action,
}

enum Action {
    Copy { from: usize },
    Fill { word: u32 },
}

/// Loads from a header address on. Every entry is tested before the first byte is stored.
pub fn load(map: &Map, memory: &mut [u8], header: u32) -> Answer {
    if !map.sound(memory.len()) {
        return refuse(1, 0);
    }
    if header % 4 != 0 {
        return refuse(3, 0);
    }
    let (commands, stop) = walk(map, memory, u64::from(header))?;
    let read = (commands.len() as u64 + 1) * ENTRY;
    if let Some(entry) =
        commands.iter().position(|c| share(c.destination, c.length, u64::from(header), read))
    {
        return refuse(8, entry as u64);
    }
    for command in &commands {
        carry_out(memory, command);
    }
    let stored = commands.iter().map(|c| c.length).sum();
    Ok(Loaded { stop, taken: commands.len() as u64, stored })
}

/// A length rounded up to a multiple of 32, as a whole number.
pub fn rounded(length: u32) -> u64 {
    u64::from(length).div_ceil(32) * 32
}

/// The commands before the stop, and the stop.
fn walk(map: &Map, memory: &[u8], header: u64) -> Result<(Vec<Command>, Stop), Refusal> {
    let mut commands = Vec::new();
    for index in 0..MOST_ENTRIES {
        let address = header + ENTRY * index;
        let Some(at) = map.lookup(Right::Read, address, ENTRY) else {
            return refuse(6, index);
        };
        let [word, first, second, third] = [0, 4, 8, 12].map(|k| le32(memory, at + k));
        let command = match word {
            ACOPY => copy(map, first, second, third),
            RCOPY => copy(map, first, (address as u32).wrapping_add(second), third),
            FILL => destination(map, first, second, Action::Fill { word: third }),
            EXEC => {
                return match map.run_entry(first) {
                    Some(entry) => {
                        Ok((commands, Stop::Run { entry, address: first, resume: address + ENTRY }))
                    }
                    None => refuse(9, index),
                }
            }
            END => return Ok((commands, Stop::End { place: index })),
            other => return Ok((commands, Stop::Unknown { command: other, place: index })),
        };
        match command {
            Ok(command) => commands.push(command),
            Err(number) => return refuse(number, index),
        }
    }
    refuse(7, MOST_ENTRIES)
}

/// Tests a copy; the error is a refusal number.
fn copy(map: &Map, to: u32, from: u32, length: u32) -> Result<Command, u32> {
    if length == 0 {
        return Err(5);
    }
    if to % 4 != 0 || from % 4 != 0 {
        return Err(3);
    }
    let source = map.lookup(Right::Read, u64::from(from), rounded(length)).ok_or(4u32);
    destination(map, to, length, Action::Copy { from: source? })
}

/// Tests length and destination; the error is a refusal number.
fn destination(map: &Map, start: u32, length: u32, action: Action) -> Result<Command, u32> {
    if length == 0 {
        return Err(5);
    }
    if start % 4 != 0 {
        return Err(3);
    }
    let (destination, length) = (u64::from(start), rounded(length));
    match map.lookup(Right::Write, destination, length) {
        Some(to) => Ok(Command { destination, length, to, action }),
        None => Err(4),
    }
}

/// Word by word, lowest address first.
fn carry_out(memory: &mut [u8], command: &Command) {
    let length = command.length as usize;
    match command.action {
        Action::Copy { from } => {
            for k in (0..length).step_by(4) {
                memory.copy_within(from + k..from + k + 4, command.to + k);
            }
        }
        Action::Fill { word } => {
            for to in memory[command.to..command.to + length].chunks_exact_mut(4) {
                to.copy_from_slice(&word.to_le_bytes());
            }
        }
    }
}
