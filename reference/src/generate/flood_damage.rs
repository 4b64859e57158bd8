//! Damaged series of flood-fill messages: wrong words, sizes and IDs, messages out of place, numbers outside the
//! limits and very large ones, and images that are too short.

use super::floods::{lent_whole, Flood, Sent};
use super::pictures::Picture;
use crate::flood_fill::Message;
use crate::random::Random;
use crate::receiver::RECEIVER;

/// Starts with their numbers at the limits, outside them, and so large that products do not fit into 32 or 64 bits.
const STARTS: [(u32, u32); 24] = [
    (0, 0),
    (0, 1),
    (0, 256),
    (0, 257),
    (255, 0),
    (255, 1),
    (256, 0),
    (256, 1),
    (31, 256),
    (31, 257),
    (32, 256),
    (255, 32),
    (255, 33),
    (256, 32),
    (33, 240),
    (33, 241),
    (0xffff, 0x4000),
    (0x3fff_ffff, 1),
    (u32::MAX, 0),
    (u32::MAX, 1),
    (u32::MAX, 0x4000_0000),
    (u32::MAX, u32::MAX),
    (0, u32::MAX),
    (0x7fff_ffff, 0x8000_0000),
];

/// A number near another, near a limit, the same in its lowest bits, or any.
pub fn odd_number(random: &mut Random, near: u32) -> u32 {
    match random.below(10) {
        0 | 1 => near.wrapping_add(1),
        2 => near.wrapping_sub(1),
        3 => random.pick(&[0, 1, 255, 256, 257]),
        4 => near.wrapping_add(256),
        5 => near.wrapping_add(65_536),
        6 => random.pick(&[65_535, 65_536, 1 << 30, 1 << 31, u32::MAX]),
        7 => random.word(),
        _ => random.below(8) as u32,
    }
}

/// A Start: mostly near the limits.
pub fn odd_start(random: &mut Random) -> Message {
    let (last_block, block_size) = random.pick(&STARTS);
    match random.below(6) {
        0 => Message::Start { last_block: odd_number(random, last_block), block_size },
        1 => Message::Start { last_block, block_size: odd_number(random, block_size) },
        _ => Message::Start { last_block, block_size },
    }
}

/// Starts with an image that is long enough for numbers outside the limits, or too short by little.
pub fn limits(random: &mut Random) -> Flood {
    let length = match random.below(6) {
        0 => 32_768 - random.below(6),
        1 => 33_792 - random.below(6),
        2 => random.pick(&[1_024, 1_028]) - random.below(6),
        3 => 40_000,
        _ => random.below(3_000),
    };
    let messages: Vec<Message> = (0..random.between(1, 6))
        .map(|_| match random.below(6) {
            0 => Message::BlockStart { block: random.below(3) as u32, size: random.between(1, 256) as u32 },
            _ => odd_start(random),
        })
        .collect();
    let image = random.bytes(length);
    lent_whole(Box::new([0; RECEIVER]), image, &messages)
}

/// A message with one of its numbers changed.
fn damage_message(random: &mut Random, picture: &Picture, message: Message) -> Message {
    match message {
        Message::Start { last_block, block_size } => match random.below(3) {
            0 => Message::Start { last_block: odd_number(random, last_block), block_size },
            1 => Message::Start { last_block, block_size: odd_number(random, block_size) },
            _ => odd_start(random),
        },
        Message::BlockStart { block, size } => match random.below(3) {
            0 => Message::BlockStart { block: odd_number(random, block), size },
            1 => Message::BlockStart { block, size: odd_number(random, size) },
            _ => Message::BlockStart { block: picture.shape().0, size },
        },
        Message::BlockData { block, word_id, word } => match random.below(4) {
            0 => Message::BlockData { block: odd_number(random, block), word_id, word },
            1 => Message::BlockData { block, word_id: odd_number(random, word_id), word },
            _ => Message::BlockData { block, word_id, word: word ^ (1 << random.below(32)) },
        },
        Message::BlockEnd { block } => Message::BlockEnd { block: odd_number(random, block) },
    }
}

/// Damages a series here and there. Mostly its Start stays, since without it little else happens.
pub fn damage_messages(random: &mut Random, picture: &Picture, messages: &mut Vec<Message>) {
    for _ in 0..random.between(1, 5) {
        let at = random.below(messages.len() + 1);
        let there = messages.get(at).copied();
        match (random.below(12), there) {
            (0..=3, Some(message)) => {
                // A damaged message instead of this one, or behind it.
                let damaged = damage_message(random, picture, message);
                if random.once_in(2) && !matches!(message, Message::Start { .. }) {
                    messages[at] = damaged;
                } else {
                    messages.insert(at + 1, damaged);
                }
            }
            (4..=6, _) => messages.insert(at, picture.message(random)),
            (7, _) => messages.insert(at, picture.start()),
            (8, _) => {
                let start = odd_start(random);
                messages.insert(at, start);
            }
            (9, Some(message)) => {
                if !matches!(message, Message::Start { .. }) || random.once_in(4) {
                    messages.remove(at);
                }
            }
            (10, Some(message)) => {
                let to = random.below(messages.len() + 1);
                messages.insert(to, message);
            }
            (_, _) => {
                let message = picture.message(random);
                let damaged = damage_message(random, picture, message);
                messages.insert(at, damaged);
            }
        }
    }
}

/// Lends too short an image with some messages.
pub fn shorten(random: &mut Random, picture: &Picture, sent: &mut [Sent]) {
    if !random.once_in(3) {
        return;
    }
    let often = random.pick(&[3, 10, 30]);
    for one in sent {
        if random.once_in(often) {
            let lent = match random.below(6) {
                0 => 0,
                1 => random.below(one.lent + 1),
                2 => picture.bytes().len(),
                3 => picture.declared() - 4,
                4 => picture.declared() / 4,
                _ => picture.declared() - 1,
            };
            one.lent = lent.min(one.lent);
        }
    }
}
