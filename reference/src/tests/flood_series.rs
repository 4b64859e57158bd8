//! What paper 02, C-14 says of series of flood-fill messages, and series as the differential test makes them.

use crate::compare::compare;
use crate::flood_fill::Message::{BlockData, BlockEnd, BlockStart, Start};
use crate::flood_fill::{Receiver, Taken};
use crate::generate::{case_of, Call, Case, Size};
use crate::interface::Reference;
use crate::random::Random;
use crate::tally::Tally;

/// The word of an image at a block and a word ID.
fn word(block: u32, word_id: u32) -> u32 {
    0x0101_0101 * (16 * block + word_id + 1)
}

/// A receiver with a block of an image open, and its image: three blocks of four words.
fn opened(block: u32) -> (Receiver, Vec<u8>) {
    let (mut receiver, mut image) = (Receiver::empty(), vec![0x77; 50]);
    for message in [Start { last_block: 2, block_size: 4 }, BlockStart { block, size: 4 }] {
        assert_eq!(receiver.take(&mut image, message), Ok(Taken::Accepted));
    }
    (receiver, image)
}

#[test]
fn the_state_depends_on_which_words_came() {
    let mut random = Random::new(14);
    for _ in 0..500 {
        let block = random.below(3) as u32;
        let (left, mut image) = opened(block);
        let came: Vec<u32> = (0..4).filter(|_| random.once_in(2)).collect();
        let mut expected = left.clone();
        for word_id in &came {
            expected.came[*word_id as usize] = true;
            expected.words[*word_id as usize] = word(block, *word_id);
        }
        // Any order, words more than once, and words of other blocks.
        let mut ids = came.clone();
        for _ in 0..if came.is_empty() { 0 } else { random.below(4) } {
            ids.push(random.pick(&came));
        }
        let mut data: Vec<(u32, u32)> = ids.iter().map(|word_id| (block, *word_id)).collect();
        for _ in 0..random.below(3) {
            data.push(((block + 1) % 3, random.below(4) as u32));
        }
        random.shuffle(&mut data);
        let mut receiver = left;
        for (block, word_id) in data {
            let message = BlockData { block, word_id, word: word(block, word_id) };
            assert!(receiver.take(&mut image, message).is_ok());
        }
        assert_eq!(receiver, expected);
        let end = receiver.take(&mut image, BlockEnd { block });
        if let Some(lowest) = (0..4).find(|word_id| !came.contains(word_id)) {
            let count = 4 - came.len() as u64;
            assert_eq!(end, Ok(Taken::Missing { count, lowest: u64::from(lowest) }));
            assert_eq!(receiver, expected);
        } else {
            assert_eq!(end, Ok(Taken::Done));
            assert!(receiver.is_done(block));
        }
    }
}

#[test]
fn a_pass_over_all_blocks_leaves_the_image_whole() {
    let (mut receiver, mut image) = opened(1);
    for block in [2, 0, 1] {
        let size = if block == 2 { 3 } else { 4 };
        receiver.take(&mut image, BlockStart { block, size }).expect("a Block Start");
        for word_id in (0..size).rev() {
            receiver.take(&mut image, BlockData { block, word_id, word: word(block, word_id) }).expect("data");
        }
        assert_eq!(receiver.take(&mut image, BlockEnd { block }), Ok(Taken::Done));
    }
    let words = (0..11).flat_map(|k| word(k / 4, k % 4).to_le_bytes());
    assert_eq!(image, words.chain([0x77; 6]).collect::<Vec<u8>>());
}

#[test]
fn random_series() {
    let mut tally = Tally::default();
    let mut whole = 0;
    for number in 0..3_000 {
        let mut random = Random::of_case(14, number);
        let case = case_of(Call::FloodFill, &mut random, Size::Free);
        if let Case::FloodFill(flood) = &case {
            whole += u64::from(flood.whole.is_some());
        }
        assert_eq!(compare(&case, &Reference, &mut random, &mut tally).err(), None, "case {number}");
    }
    assert!(whole > 1_000);
    assert_eq!(tally.of("flood_fill", "image whole"), whole);
}
