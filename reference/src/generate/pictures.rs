//! Random images that are passed along by flood fill, and their messages.

use super::Size;
use crate::flood_fill::Message;
use crate::random::Random;

/// An image in blocks of words. Every block has the full size, only the last one may be shorter.
pub struct Picture {
    count: u32,
    full: u32,
    last: u32,
    words: Vec<u32>,
}

impl Picture {
    /// Mostly few words; now and then 256 blocks, blocks of 256 words, or as many words as an image can have.
    pub fn any(random: &mut Random, size: Size) -> Picture {
        if size == Size::Stored {
            return Picture::few(random);
        }
        let (count, full) = match random.below(2_000) {
            0 => random.pick(&[(32, 256), (256, 32), (64, 128), (34, 240)]),
            1..=20 => (256, random.between(1, 3)),
            21..=60 => (random.between(1, 2), 256),
            61..=100 => (random.between(1, 3), random.between(200, 256)),
            101..=120 => (random.between(200, 256), 1),
            _ => return Picture::few(random),
        };
        Picture::of(random, count as u32, full as u32)
    }

    /// An image of few words.
    pub fn few(random: &mut Random) -> Picture {
        let count = random.pick(&[1, 1, 2, 2, 3, 4, 6]);
        let full = random.pick(&[1, 1, 2, 3, 4, 5, 8]);
        Picture::of(random, count, full)
    }

    fn of(random: &mut Random, count: u32, full: u32) -> Picture {
        let last = if random.once_in(2) { full } else { random.between(1, full as usize) as u32 };
        let same = random.once_in(8);
        let first = random.word();
        let words = (1..(count - 1) * full + last).map(|_| if same { first } else { random.word() });
        let words = std::iter::once(first).chain(words).collect();
        Picture { count, full, last, words }
    }

    pub fn small(&self) -> bool {
        self.words.len() < 100
    }

    /// The block count, and the full size.
    pub fn shape(&self) -> (u32, u32) {
        (self.count, self.full)
    }

    /// The bytes that a lent image must have.
    pub fn declared(&self) -> usize {
        4 * self.count as usize * self.full as usize
    }

    pub fn bytes(&self) -> Vec<u8> {
        self.words.iter().flat_map(|word| word.to_le_bytes()).collect()
    }

    pub fn start(&self) -> Message {
        Message::Start { last_block: self.count - 1, block_size: self.full }
    }

    fn size(&self, block: u32) -> u32 {
        if block + 1 == self.count { self.last } else { self.full }
    }

    fn datum(&self, block: u32, word_id: u32) -> Message {
        let word = self.words[(block * self.full + word_id) as usize];
        Message::BlockData { block, word_id, word }
    }

    /// All messages of a block: its start, its words and its end.
    pub fn block(&self, block: u32) -> Vec<Message> {
        let size = self.size(block);
        let mut messages = vec![Message::BlockStart { block, size }];
        messages.extend((0..size).map(|word_id| self.datum(block, word_id)));
        messages.push(Message::BlockEnd { block });
        messages
    }

    /// All blocks, in some order.
    pub fn order(&self, random: &mut Random) -> Vec<u32> {
        let mut blocks: Vec<u32> = (0..self.count).collect();
        if random.once_in(2) {
            random.shuffle(&mut blocks);
        }
        blocks
    }

    fn some_block(&self, random: &mut Random) -> u32 {
        random.below(self.count as usize) as u32
    }

    /// A word of any block.
    pub fn data(&self, random: &mut Random) -> Message {
        let block = self.some_block(random);
        let word_id = random.below(self.size(block) as usize) as u32;
        self.datum(block, word_id)
    }

    /// Any message of a block.
    pub fn message(&self, random: &mut Random) -> Message {
        let block = self.some_block(random);
        match random.below(3) {
            0 => Message::BlockStart { block, size: self.size(block) },
            1 => self.data(random),
            _ => Message::BlockEnd { block },
        }
    }
}
