//! Random receivers, most of which no calls leave, and a few messages to each. Fields are 0, near limits, or random.

use super::flood_damage::{odd_number, odd_start};
use super::floods::{lent_whole, Flood};
use super::Size;
use crate::flood_fill::{Message, Receiver, MARKS};
use crate::random::Random;
use crate::receiver::{receiver_of, ReceiverBytes, CAME, DONE, RECEIVER};

/// The longest image that is lent.
fn longest(size: Size) -> u64 {
    match size {
        Size::Stored => 512,
        Size::Free => 40_000,
    }
}

/// The first two fields are mostly such that some image is long enough.
pub fn any(random: &mut Random, size: Size) -> Box<ReceiverBytes> {
    let mut bytes: Box<ReceiverBytes> = Box::new([0; RECEIVER]);
    bytes.copy_from_slice(&random.bytes(RECEIVER));
    if random.once_in(20) {
        return bytes;
    }
    let most = longest(size) / 4;
    let count: u16 = random.pick(&[0, 0, 1, 1, 2, 3, 5, 8, 255, 256, 257, 300, 65_535]);
    let mut full: u16 = random.pick(&[0, 1, 1, 2, 3, 4, 8, 255, 256, 257, 300, 65_535]);
    if u64::from(count) * u64::from(full) > most && !random.once_in(8) {
        full = (most / u64::from(count)) as u16;
    }
    let open = match random.below(6) {
        0 => random.pick(&[255, 256, 257, 300, 65_535]),
        1 => count,
        2 => count.wrapping_sub(1),
        _ => random.below(usize::from(count).clamp(1, 8)) as u16,
    };
    let own = match random.below(8) {
        0 => 0,
        1 => random.pick(&[255, 256, 257, 300, 65_535]),
        2 => full.wrapping_add(1),
        3 | 4 => random.between(1, 8) as u16,
        _ => full,
    };
    for (index, field) in [count, full, open, own].iter().enumerate() {
        bytes[2 * index..2 * index + 2].copy_from_slice(&field.to_le_bytes());
    }
    marks(random, &mut bytes[DONE..DONE + MARKS]);
    marks(random, &mut bytes[CAME..CAME + MARKS]);
    bytes
}

/// Marks: all empty, all set, few or most set, or random bytes. A set mark is any byte but 0.
fn marks(random: &mut Random, bytes: &mut [u8]) {
    for byte in bytes.iter_mut() {
        *byte = if random.once_in(3) { 1 } else { random.between(1, 255) as u8 };
    }
    match random.below(6) {
        0 => bytes.fill(0),
        1 => {}
        2 => bytes.fill(1),
        3 => {
            for _ in 0..random.between(1, 3) {
                let most = random.pick(&[4, 8, MARKS]);
                bytes[random.below(most)] = 0;
            }
        }
        4 => {
            let most = random.pick(&[4, 8, MARKS]);
            let kept = random.below(most);
            for (index, byte) in bytes.iter_mut().enumerate() {
                if index != kept {
                    *byte = 0;
                }
            }
        }
        _ => bytes.iter_mut().for_each(|byte| *byte *= u8::from(random.once_in(2))),
    }
}

pub fn flood(random: &mut Random, size: Size) -> Flood {
    let bytes = any(random, size);
    let receiver = receiver_of(&bytes);
    let declared = 4 * receiver.declared();
    let behind = 4 * u64::from(receiver.open) * u64::from(receiver.full) + 4 * u64::from(receiver.size).min(256);
    let mut length = match random.below(10) {
        0 => declared.saturating_sub(1),
        1 => behind.saturating_sub(1),
        2 => random.below(300) as u64,
        3 => 0,
        4..=6 => declared.max(behind),
        7 => behind,
        8 => declared + 40,
        _ => declared,
    };
    if length > longest(size) {
        length = random.below(longest(size) as usize) as u64;
    }
    let messages: Vec<Message> = (0..random.between(1, 4)).map(|_| message(random, &receiver)).collect();
    let image = random.bytes(length as usize);
    lent_whole(bytes, image, &messages)
}

/// A message that mostly concerns what the receiver has open or declared.
fn message(random: &mut Random, receiver: &Receiver) -> Message {
    let (open, own) = (u32::from(receiver.open), u32::from(receiver.size));
    let block = if random.once_in(4) { odd_number(random, open) } else { open };
    match random.below(20) {
        0 => odd_start(random),
        1..=6 => {
            let last = u32::from(receiver.count).wrapping_sub(1);
            let full = u32::from(receiver.full);
            let block = match random.below(4) {
                0 => last,
                1 => random.below(usize::from(receiver.count).max(1)) as u32,
                _ => block,
            };
            let size = match random.below(6) {
                0 => odd_number(random, full),
                1 => random.below(receiver.full as usize + 1) as u32,
                _ => full,
            };
            Message::BlockStart { block, size }
        }
        7..=12 => {
            let word_id = match random.below(4) {
                0 => odd_number(random, own),
                1 => random.below(own as usize + 1) as u32,
                _ => random.below(8) as u32,
            };
            Message::BlockData { block, word_id, word: random.word() }
        }
        _ => Message::BlockEnd { block },
    }
}
