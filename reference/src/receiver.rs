//! The bytes of a flood-fill receiver, as include/reidhintsje.h says them. Any bytes are read as a receiver.

use crate::bytes::{le16, le32, put_le32};
use crate::flood_fill::{Receiver, MARKS};

pub const RECEIVER: usize = 1_544;

pub type ReceiverBytes = [u8; RECEIVER];

/// Where the marks of the blocks, the marks of the words, and the words begin.
pub const DONE: usize = 8;
pub const CAME: usize = 264;
pub const WORDS: usize = 520;

pub fn receiver_of(bytes: &ReceiverBytes) -> Receiver {
    let mut receiver = Receiver {
        count: le16(bytes, 0),
        full: le16(bytes, 2),
        open: le16(bytes, 4),
        size: le16(bytes, 6),
        ..Receiver::empty()
    };
    for index in 0..MARKS {
        receiver.done[index] = bytes[DONE + index] != 0;
        receiver.came[index] = bytes[CAME + index] != 0;
        receiver.words[index] = le32(bytes, WORDS + 4 * index);
    }
    receiver
}

/// Writes a receiver over the bytes of an earlier one. A mark that is still set keeps its byte.
pub fn write_receiver(bytes: &mut ReceiverBytes, receiver: &Receiver) {
    for (index, field) in [receiver.count, receiver.full, receiver.open, receiver.size].iter().enumerate() {
        bytes[2 * index..2 * index + 2].copy_from_slice(&field.to_le_bytes());
    }
    for index in 0..MARKS {
        write_mark(&mut bytes[DONE + index], receiver.done[index]);
        write_mark(&mut bytes[CAME + index], receiver.came[index]);
        put_le32(bytes, WORDS + 4 * index, receiver.words[index]);
    }
}

fn write_mark(byte: &mut u8, mark: bool) {
    if mark != (*byte != 0) {
        *byte = u8::from(mark);
    }
}
