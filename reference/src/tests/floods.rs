//! The flood-fill receiver: the limits, the refusals and their order, and what each message does (paper 02, C-14).

use super::refused;
use crate::flood_fill::Message::{BlockData, BlockEnd, BlockStart, Start};
use crate::flood_fill::Taken::{Accepted, Done, Ignored, Missing};
use crate::flood_fill::{Answer, Message, Receiver};

/// What each message of a row answers, all with one image.
fn answers(receiver: &mut Receiver, image: &mut [u8], messages: &[Message]) -> Vec<Answer> {
    messages.iter().map(|message| receiver.take(image, *message)).collect()
}

fn start(last_block: u32, block_size: u32) -> Message {
    Start { last_block, block_size }
}

fn block_start(block: u32, size: u32) -> Message {
    BlockStart { block, size }
}

fn data(block: u32, word_id: u32, word: u32) -> Message {
    BlockData { block, word_id, word }
}

fn block_end(block: u32) -> Message {
    BlockEnd { block }
}

/// A receiver after a Start of two blocks of three words.
fn begun() -> Receiver {
    let mut receiver = Receiver::empty();
    assert_eq!(receiver.take(&mut [0; 24], start(1, 3)), Ok(Accepted));
    receiver
}

/// A message that must be refused, and must leave the receiver and the image as they were.
fn refuses(receiver: &Receiver, length: usize, message: Message, number: u32) {
    let mut after = receiver.clone();
    let mut image = vec![0x77; length];
    assert_eq!(after.take(&mut image, message), refused(number, 0), "{message:?}");
    assert_eq!(after, *receiver, "{message:?}");
    assert!(image.iter().all(|byte| *byte == 0x77), "{message:?}");
}

#[test]
fn limits_of_a_start() {
    let mut long = vec![0; 70_000];
    let rows = [
        (0, 1, true),
        (0, 256, true),
        (255, 1, true),
        (31, 256, true),
        (255, 32, true),
        (33, 240, true),
        (0, 0, false),
        (0, 257, false),
        (256, 1, false),
        (32, 256, false),
        (255, 33, false),
        (33, 241, false),
        (u32::MAX, 0, false),
    ];
    for (last_block, block_size, taken) in rows {
        let mut receiver = Receiver::empty();
        let answer = receiver.take(&mut long, start(last_block, block_size));
        assert_eq!(answer, if taken { Ok(Accepted) } else { refused(25, 0) }, "{last_block} {block_size}");
    }
}

#[test]
fn an_image_that_is_too_short() {
    let empty = Receiver::empty();
    // By the Start's own numbers, also those outside the limits, and before 25.
    for (last_block, block_size, words) in [(0, 1, 1), (1, 3, 6), (31, 256, 8_192), (256, 1, 257), (0, 257, 257)] {
        refuses(&empty, 4 * words - 1, start(last_block, block_size), 24);
    }
    // Products that do not fit into 32 or 64 bits.
    for (last_block, block_size) in
        [(0xffff, 0x4000), (0x3fff_ffff, 1), (u32::MAX, 1), (u32::MAX, 0x4000_0000), (u32::MAX, u32::MAX)]
    {
        refuses(&empty, 70_000, start(last_block, block_size), 24);
    }
    // A Start by its own numbers and not by those of the last one.
    assert_eq!(begun().take(&mut [0; 4], start(0, 1)), Ok(Accepted));
    // Every other message by those of the last Start: also a short last block needs room for a full one.
    let mut receiver = begun();
    assert_eq!(receiver.take(&mut [0; 24], block_start(1, 1)), Ok(Accepted));
    for message in [block_start(1, 1), block_start(9, 9), data(1, 0, 5), data(9, 9, 9), block_end(1), block_end(9)] {
        refuses(&receiver, 23, message, 24);
    }
    refuses(&receiver, 0, data(0, 0, 0), 24);
}

#[test]
fn before_any_start_no_image_is_too_short() {
    let empty = Receiver::empty();
    refuses(&empty, 0, block_start(0, 1), 26);
    refuses(&empty, 0, block_start(u32::MAX, 0), 26);
    refuses(&empty, 0, block_end(0), 29);
    assert_eq!(empty.clone().take(&mut [], data(0, 0, 1)), Ok(Ignored));
}

#[test]
fn block_starts_that_are_refused() {
    let receiver = begun();
    // 27 before 28.
    for (block, size) in [(2, 3), (2, 9), (257, 3), (65_536, 3), (u32::MAX, 3)] {
        refuses(&receiver, 24, block_start(block, size), 27);
    }
    for (block, size) in [(0, 0), (0, 2), (0, 4), (0, 259), (0, 65_539), (1, 0), (1, 4), (1, u32::MAX)] {
        refuses(&receiver, 24, block_start(block, size), 28);
    }
    for (block, size) in [(0, 3), (1, 1), (1, 2), (1, 3)] {
        assert_eq!(receiver.clone().take(&mut [0; 24], block_start(block, size)), Ok(Accepted));
    }
}

#[test]
fn a_block() {
    let (mut receiver, mut image) = (begun(), [0x77; 26]);
    let row = [
        (data(0, 0, 1), Ok(Ignored)),
        (block_start(0, 3), Ok(Accepted)),
        (block_end(0), Ok(Missing { count: 3, lowest: 0 })),
        (data(0, 2, 0x0a0b_0c0d), Ok(Accepted)),
        (data(0, 0, 2), Ok(Accepted)),
        // A word that came keeps its first value.
        (data(0, 2, 9), Ok(Ignored)),
        (data(0, 3, 9), Ok(Ignored)),
        (data(0, 257, 9), Ok(Ignored)),
        (data(1, 1, 9), Ok(Ignored)),
        (data(256, 1, 9), Ok(Ignored)),
        (block_end(0), Ok(Missing { count: 1, lowest: 1 })),
        (block_end(1), refused(29, 0)),
        (block_end(256), refused(29, 0)),
        (data(0, 1, 3), Ok(Accepted)),
    ];
    for (message, answer) in row {
        assert_eq!(receiver.take(&mut image, message), answer, "{message:?}");
        assert_eq!(image, [0x77; 26]);
    }
    // A block that is done is closed.
    let ends = answers(&mut receiver, &mut image, &[block_end(0), block_end(0), data(0, 0, 1)]);
    assert_eq!(ends, [Ok(Done), refused(29, 0), Ok(Ignored)]);
    assert_eq!(image[..12], [2, 0, 0, 0, 3, 0, 0, 0, 0x0d, 0x0c, 0x0b, 0x0a]);
    assert_eq!(image[12..], [0x77; 14]);
}

#[test]
fn a_shorter_last_block_stands_at_its_id_times_the_full_size() {
    let (mut receiver, mut image) = (begun(), [0x77; 24]);
    let row = answers(&mut receiver, &mut image, &[block_start(1, 1), data(1, 0, 1), data(1, 1, 2), block_end(1)]);
    assert_eq!(row, [Ok(Accepted), Ok(Accepted), Ok(Ignored), Ok(Done)]);
    assert_eq!(image[12..16], [1, 0, 0, 0]);
    assert!(image[..12].iter().chain(&image[16..]).all(|byte| *byte == 0x77));
}

#[test]
fn block_starts_over_open_and_done_blocks() {
    let (mut receiver, mut image) = (begun(), [0; 24]);
    let first = [block_start(0, 3), data(0, 0, 1), data(0, 1, 2), data(0, 2, 3), block_end(0)];
    assert!(answers(&mut receiver, &mut image, &first).iter().all(|answer| answer.is_ok()));
    // The Block Start of a done block is ignored: the open block stays open, with its words. Its size is tested.
    answers(&mut receiver, &mut image, &[block_start(1, 2), data(1, 1, 7)]);
    let open = receiver.clone();
    assert_eq!(receiver.take(&mut image, block_start(0, 3)), Ok(Ignored));
    assert_eq!(receiver.take(&mut image, block_start(0, 2)), refused(28, 0));
    assert_eq!(receiver, open);
    assert_eq!(receiver.take(&mut image, block_end(1)), Ok(Missing { count: 1, lowest: 0 }));
    // The open block's own begins it again.
    let again = answers(&mut receiver, &mut image, &[block_start(1, 3), block_end(1)]);
    assert_eq!(again, [Ok(Accepted), Ok(Missing { count: 3, lowest: 0 })]);
    // Another block's drops the open one.
    let mut receiver = begun();
    let row = [block_start(0, 3), data(0, 0, 1), block_start(1, 3), data(0, 1, 1), block_end(0), block_start(0, 3), block_end(0)];
    let missing = Ok(Missing { count: 3, lowest: 0 });
    let expected = [Ok(Accepted), Ok(Accepted), Ok(Accepted), Ok(Ignored), refused(29, 0), Ok(Accepted), missing];
    assert_eq!(answers(&mut receiver, &mut image, &row), expected);
}

#[test]
fn a_start_begins_afresh_and_leaves_the_image() {
    let (mut receiver, mut image) = (begun(), [0x77; 24]);
    let block = [block_start(1, 1), data(1, 0, 5), block_end(1), block_start(0, 3), data(0, 0, 1)];
    answers(&mut receiver, &mut image, &block);
    let before = image;
    assert_eq!(receiver.take(&mut image, start(1, 3)), Ok(Accepted));
    assert_eq!(image, before);
    assert_eq!(receiver, begun());
    assert_eq!(receiver.take(&mut image, block_start(1, 1)), Ok(Accepted));
}
