//! The series of flood-fill messages among the stored vectors. Images are small: a byte string has at most 8,192 bytes.

use reference::flood_fill::Message::{self, BlockData, BlockEnd, BlockStart, Start};
use reference::generate::{case_of, lent_whole, Call, Case, Flood, Size};
use reference::random::Random;
use reference::receiver::{ReceiverBytes, CAME, DONE, RECEIVER, WORDS};

/// Series from receivers of random bytes, and the most messages of each.
const DRAWN: usize = 6;
const MOST_DRAWN: usize = 2;

fn start(last_block: u32, block_size: u32) -> Message {
    Start { last_block, block_size }
}

fn block_start(block: u32, size: u32) -> Message {
    BlockStart { block, size }
}

fn data(block: u32, word_id: u32, word: u32) -> Message {
    BlockData { block, word_id, word }
}

fn block_end(block: u32) -> Message {
    BlockEnd { block }
}

fn empty() -> Box<ReceiverBytes> {
    Box::new([0; RECEIVER])
}

/// A receiver with these fields and this byte for each mark of a word. No block is done, and no two words are the same.
fn receiver(fields: [u16; 4], came: u8) -> Box<ReceiverBytes> {
    let mut bytes = empty();
    for (index, field) in fields.iter().enumerate() {
        bytes[2 * index..2 * index + 2].copy_from_slice(&field.to_le_bytes());
    }
    bytes[CAME..WORDS].fill(came);
    for (index, byte) in bytes[WORDS..].iter_mut().enumerate() {
        *byte = (index / 4 + 85 * (index % 4)) as u8;
    }
    bytes
}

fn image(length: usize) -> Vec<u8> {
    vec![0x77; length]
}

/// An image of five words in two blocks of three, and all that can happen to it.
fn one_image() -> Flood {
    let messages = [
        data(0, 0, 1),
        block_end(0),
        block_start(0, 3),
        start(1, 3),
        start(1, 3),
        block_start(2, 3),
        block_start(0, 2),
        block_start(1, 0),
        block_start(1, 4),
        block_start(0, 3),
        data(0, 2, 0x0c0b_0a09),
        data(0, 2, 7),
        data(0, 3, 7),
        data(1, 0, 7),
        data(0, 256, 7),
        block_end(0),
        block_end(1),
        data(0, 0, 0x0403_0201),
        data(0, 1, 0x0807_0605),
        data(0, 1, 0x0807_0605),
        block_end(0),
        block_end(0),
        block_end(0),
        block_start(1, 2),
        data(1, 1, 0x1413_1211),
        block_start(0, 3),
        block_start(0, 2),
        block_end(1),
        block_start(1, 2),
        block_start(1, 2),
        data(1, 1, 0x1413_1211),
        data(1, 0, 0x100f_0e0d),
        data(1, 0, 0x100f_0e0d),
        block_end(1),
        start(1, 3),
        block_start(0, 3),
        data(0, 0, 5),
        block_start(1, 3),
        data(0, 1, 5),
        block_end(0),
    ];
    let mut flood = lent_whole(empty(), image(26), &messages);
    // One message of each kind is lent too short an image.
    for (index, lent) in [(3, 23), (20, 23), (29, 20), (32, 0)] {
        flood.sent[index].lent = lent;
    }
    flood
}

fn limits() -> Vec<Flood> {
    let rows: [(usize, &[Message]); 4] = [
        (1_028, &[start(0, 0), start(0, 256), start(0, 257), start(256, 1), start(u32::MAX, 0)]),
        (1_024, &[start(256, 1), start(255, 1), block_start(255, 1), block_start(256, 1), block_start(511, 1)]),
        (8_192, &[start(255, 8), start(u32::MAX, u32::MAX), start(u32::MAX, 1 << 30), start(0xffff, 1 << 14)]),
        (0, &[start(0, 1), start(u32::MAX, 1)]),
    ];
    rows.iter().map(|(length, messages)| lent_whole(empty(), image(*length), messages)).collect()
}

/// A block of 256 words of which one is missing, the last of 256 blocks, and receivers that no calls leave.
fn receivers() -> Vec<Flood> {
    let mut lacking = receiver([1, 256, 0, 256], 1);
    lacking[CAME + 255] = 0;
    let mut last = receiver([256, 1, 255, 1], 0);
    last[DONE..DONE + 255].fill(1);
    vec![
        lent_whole(lacking, image(1_026), &[block_end(0), data(0, 255, 0xfefd_fcfb), block_end(0)]),
        lent_whole(last, image(1_024), &[block_end(255), data(255, 0, 1), block_end(255)]),
        lent_whole(receiver([1, 300, 0, 300], 2), image(1_200), &[data(0, 256, 1), block_end(0)]),
        lent_whole(receiver([300, 1, 299, 1], 0x80), image(1_200), &[block_end(299), block_start(299, 1)]),
        lent_whole(receiver([0, 3, 2, 2], 1), image(31), &[block_end(2)]),
        lent_whole(receiver([0, 3, 2, 2], 1), image(32), &[block_end(2)]),
        lent_whole(receiver([65_535, 65_535, 1, 1], 0), image(64), &[data(1, 0, 1)]),
        lent_whole(receiver([2, 0, 1, 1], 1), image(4), &[block_start(0, 0), block_end(0)]),
    ]
}

/// A few messages to receivers of random bytes.
fn drawn(random: &mut Random) -> Vec<Flood> {
    let mut floods = Vec::new();
    while floods.len() < DRAWN {
        let Case::FloodFill(mut flood) = case_of(Call::FloodFill, random, Size::Stored) else { continue };
        if flood.receiver.iter().all(|byte| *byte == 0) || flood.whole.is_some() || flood.image.len() > 512 {
            continue;
        }
        flood.sent.truncate(MOST_DRAWN);
        floods.push(flood);
    }
    floods
}

pub fn all(random: &mut Random) -> Vec<Flood> {
    let mut all = vec![one_image()];
    all.extend(limits());
    all.extend(receivers());
    all.extend(drawn(random));
    all
}
