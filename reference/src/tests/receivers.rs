//! The bytes of a flood-fill receiver, also those that no calls leave, as the header says them; and its outcome numbers.

use crate::compare_flood::call;
use crate::flood_fill::Message::{self, BlockData, BlockEnd, BlockStart, Start};
use crate::flood_fill::Receiver;
use crate::interface::{Outcome, Reference};
use crate::receiver::{receiver_of, ReceiverBytes, CAME, DONE, RECEIVER, WORDS};

/// A receiver with these four fields; every mark is empty, and the words are counted up.
fn bytes(count: u16, full: u16, open: u16, size: u16) -> ReceiverBytes {
    let mut bytes = [0; RECEIVER];
    for (index, field) in [count, full, open, size].iter().enumerate() {
        bytes[2 * index..2 * index + 2].copy_from_slice(&field.to_le_bytes());
    }
    for (index, byte) in bytes[WORDS..].iter_mut().enumerate() {
        *byte = index as u8;
    }
    bytes
}

/// The outcome of a message, which is also what the call returns.
fn send(receiver: &mut ReceiverBytes, image: &mut [u8], message: Message) -> Outcome {
    let mut outcome = [9; 8];
    let number = call(&Reference, receiver, image, message, &mut outcome);
    assert_eq!(u64::from(number), outcome[0]);
    outcome
}

const ACCEPTED: Outcome = [0, 0, 9, 0, 0, 0, 0, 0];
const IGNORED: Outcome = [0, 0, 10, 0, 0, 0, 0, 0];
const DONE_NUMBERS: Outcome = [0, 0, 12, 0, 0, 0, 0, 0];

fn refusal(number: u64) -> Outcome {
    [number, 0, 0, 0, 0, 0, 0, 0]
}

#[test]
fn all_zeros_is_the_empty_receiver() {
    assert_eq!(receiver_of(&[0; RECEIVER]), Receiver::empty());
}

#[test]
fn what_each_call_changes() {
    let (mut receiver, mut image) = ([0xee; RECEIVER], [0x77; 24]);
    assert_eq!(send(&mut receiver, &mut image, Start { last_block: 1, block_size: 3 }), ACCEPTED);
    let mut expected = [0; RECEIVER];
    expected[0] = 2;
    expected[2] = 3;
    assert_eq!(receiver, expected);

    // The words stay; a set mark of a block keeps its byte.
    receiver[DONE] = 5;
    receiver[CAME..].fill(0xee);
    expected = receiver;
    assert_eq!(send(&mut receiver, &mut image, BlockStart { block: 1, size: 2 }), ACCEPTED);
    expected[4..8].copy_from_slice(&[1, 0, 2, 0]);
    expected[CAME..WORDS].fill(0);
    assert_eq!(receiver, expected);
    assert_eq!(send(&mut receiver, &mut image, BlockStart { block: 0, size: 3 }), IGNORED);
    assert_eq!(receiver, expected);

    assert_eq!(send(&mut receiver, &mut image, BlockData { block: 1, word_id: 1, word: 0x0403_0201 }), ACCEPTED);
    expected[CAME + 1] = 1;
    expected[WORDS + 4..WORDS + 8].copy_from_slice(&[1, 2, 3, 4]);
    assert_eq!(receiver, expected);
    // How many stands in items, the lowest in place.
    assert_eq!(send(&mut receiver, &mut image, BlockEnd { block: 1 }), [0, 0, 11, 0, 0, 0, 1, 0]);
    receiver[CAME] = 0xee;
    receiver[CAME + 1] = 0;
    expected = receiver;
    assert_eq!(send(&mut receiver, &mut image, BlockEnd { block: 1 }), [0, 1, 11, 0, 0, 0, 1, 0]);
    assert_eq!(receiver, expected);
    receiver[CAME + 1] = 2;
    expected[CAME + 1] = 2;

    assert_eq!(send(&mut receiver, &mut image, BlockEnd { block: 0 }), refusal(29));
    assert_eq!(receiver, expected);
    assert_eq!(send(&mut receiver, &mut image, BlockEnd { block: 1 }), DONE_NUMBERS);
    expected[4..8].fill(0);
    expected[DONE + 1] = 1;
    assert_eq!(receiver, expected);
    assert_eq!(image[12..20], [0xee, 0xee, 0xee, 0xee, 1, 2, 3, 4]);
}

#[test]
fn a_block_from_256_on_counts_as_done() {
    let mut receiver = bytes(300, 1, 0, 0);
    let before = receiver;
    let mut image = [0x77; 1_200];
    for block in [256, 299] {
        assert_eq!(send(&mut receiver, &mut image, BlockStart { block, size: 1 }), IGNORED);
    }
    assert_eq!(send(&mut receiver, &mut image, BlockStart { block: 300, size: 1 }), refusal(27));
    assert_eq!(receiver, before);
    // One that is open all the same is ended; it has no byte of its own.
    receiver = bytes(300, 1, 256, 1);
    receiver[CAME] = 1;
    let mut expected = receiver;
    expected[4..8].fill(0);
    assert_eq!(send(&mut receiver, &mut image, BlockEnd { block: 256 }), DONE_NUMBERS);
    assert_eq!(receiver, expected);
    assert_eq!(image[1_024..1_028], [0, 1, 2, 3]);
    assert!(image[..1_024].iter().chain(&image[1_028..]).all(|byte| *byte == 0x77));
}

#[test]
fn a_word_from_256_on_counts_as_come() {
    let (mut receiver, mut image) = (bytes(1, 300, 0, 0), [0x77; 1_200]);
    assert_eq!(send(&mut receiver, &mut image, BlockStart { block: 0, size: 300 }), ACCEPTED);
    let before = receiver;
    for word_id in [256, 299, 300] {
        assert_eq!(send(&mut receiver, &mut image, BlockData { block: 0, word_id, word: 1 }), IGNORED);
    }
    assert_eq!(receiver, before);
    assert_eq!(send(&mut receiver, &mut image, BlockEnd { block: 0 }), [0, 0, 11, 0, 0, 0, 256, 0]);
    receiver[CAME..CAME + 255].fill(1);
    assert_eq!(send(&mut receiver, &mut image, BlockEnd { block: 0 }), [0, 255, 11, 0, 0, 0, 1, 0]);
    receiver[CAME + 255] = 1;
    assert_eq!(send(&mut receiver, &mut image, BlockEnd { block: 0 }), DONE_NUMBERS);
    assert!(image[..1_024].iter().enumerate().all(|(index, byte)| *byte == index as u8));
    assert!(image[1_024..].iter().all(|byte| *byte == 0x77));
}

#[test]
fn words_that_do_not_fit_leave_the_image() {
    // Before any Start: block 2 is open, its words stand from byte 24 on and need 8 bytes.
    for (length, fits) in [(32, true), (31, false), (24, false), (0, false)] {
        let mut receiver = bytes(0, 3, 2, 2);
        receiver[CAME..CAME + 2].fill(1);
        let mut expected = receiver;
        expected[4..8].fill(0);
        expected[DONE + 2] = 1;
        let mut image = vec![0x77; length];
        assert_eq!(send(&mut receiver, &mut image, BlockEnd { block: 2 }), DONE_NUMBERS);
        assert_eq!(receiver, expected);
        assert_eq!(image.ends_with(&[0, 1, 2, 3, 4, 5, 6, 7]), fits);
        assert!(fits || image.iter().all(|byte| *byte == 0x77));
    }
}

#[test]
fn fields_of_zero() {
    // A block has at least one word, also where the full size is 0.
    let (mut receiver, mut image) = (bytes(2, 0, 1, 1), [0x77; 4]);
    assert_eq!(send(&mut receiver, &mut image, BlockStart { block: 0, size: 1 }), refusal(28));
    assert_eq!(send(&mut receiver, &mut image, BlockStart { block: 0, size: 0 }), refusal(28));
    assert_eq!(send(&mut receiver, &mut image, BlockStart { block: 1, size: 0 }), refusal(28));
    assert_eq!(receiver[4..8], [1, 0, 1, 0]);
    // Without a count no image is too short, whatever the size is.
    let mut receiver = bytes(0, 65_535, 0, 1);
    assert_eq!(send(&mut receiver, &mut [], BlockData { block: 0, word_id: 0, word: 1 }), ACCEPTED);
    let mut receiver = bytes(65_535, 65_535, 0, 1);
    assert_eq!(send(&mut receiver, &mut image, BlockData { block: 0, word_id: 0, word: 1 }), refusal(24));
}
