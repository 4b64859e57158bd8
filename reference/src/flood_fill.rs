//! The flood-fill receiver (paper 02, C-14): an image comes in blocks of words, by four kinds of messages.
//! Numbers are widened before they are added or multiplied, so that every number of a message gets an answer.

use crate::outcome::{refuse, Refusal};

/// A receiver has marks for so many blocks, and for so many words of the open block.
pub const MARKS: usize = 256;
const MOST_BLOCKS: u64 = 256;
const MOST_SIZE: u64 = 256;
const MOST_WORDS: u64 = 8_192;

/// A message, taken apart.
#[derive(Clone, Copy, Debug, PartialEq, Eq)]
pub enum Message {
    Start { last_block: u32, block_size: u32 },
    BlockStart { block: u32, size: u32 },
    BlockData { block: u32, word_id: u32, word: u32 },
    BlockEnd { block: u32 },
}

/// What a message came to that was not refused.
#[derive(Clone, Copy, Debug, PartialEq, Eq)]
pub enum Taken {
    /// It began an image, opened a block, or its word was kept.
    Accepted,
    /// It changed nothing.
    Ignored,
    /// A Block End whose block lacks so many words, and the lowest of their IDs; the block stays open.
    Missing { count: u64, lowest: u64 },
    /// A Block End whose block is complete: its words stand in the image.
    Done,
}

pub type Answer = Result<Taken, Refusal>;

#[derive(Clone, Debug, PartialEq, Eq)]
pub struct Receiver {
    /// The number of blocks that the last Start declared; 0 before any.
    pub count: u16,
    /// The words of a block.
    pub full: u16,
    /// The ID of the open block, and its own size in words; the size is 0 if no block is open.
    pub open: u16,
    pub size: u16,
    /// Which blocks are done.
    pub done: [bool; MARKS],
    /// Which words of the open block came, and the words.
    pub came: [bool; MARKS],
    pub words: [u32; MARKS],
}

/// Refuses an image with fewer than four bytes per declared word. The bytes of two numbers of 32 bits need 66 bits.
fn enough(image: &[u8], words: u64) -> Result<(), Refusal> {
    if (image.len() as u128) < 4 * u128::from(words) {
        return refuse(24, 0);
    }
    Ok(())
}

impl Receiver {
    /// The receiver that no Start has reached.
    pub fn empty() -> Receiver {
        Receiver {
            count: 0,
            full: 0,
            open: 0,
            size: 0,
            done: [false; MARKS],
            came: [false; MARKS],
            words: [0; MARKS],
        }
    }

    /// Takes any message.
    pub fn take(&mut self, image: &mut [u8], message: Message) -> Answer {
        match message {
            Message::Start { last_block, block_size } => self.start(image, last_block, block_size),
            Message::BlockStart { block, size } => self.block_start(image, block, size),
            Message::BlockData { block, word_id, word } => self.block_data(image, block, word_id, word),
            Message::BlockEnd { block } => self.block_end(image, block),
        }
    }

    pub fn start(&mut self, image: &[u8], last_block: u32, block_size: u32) -> Answer {
        let count = u64::from(last_block) + 1;
        let size = u64::from(block_size);
        enough(image, count * size)?;
        if count > MOST_BLOCKS || !(1..=MOST_SIZE).contains(&size) || count * size > MOST_WORDS {
            return refuse(25, 0);
        }
        *self = Receiver { count: count as u16, full: size as u16, ..Receiver::empty() };
        Ok(Taken::Accepted)
    }

    pub fn block_start(&mut self, image: &[u8], block: u32, size: u32) -> Answer {
        enough(image, self.declared())?;
        if self.count == 0 {
            return refuse(26, 0);
        }
        if block >= u32::from(self.count) {
            return refuse(27, 0);
        }
        if !self.fits(block, size) {
            return refuse(28, 0);
        }
        if self.is_done(block) {
            return Ok(Taken::Ignored);
        }
        self.open = block as u16;
        self.size = size as u16;
        self.came = [false; MARKS];
        Ok(Taken::Accepted)
    }

    pub fn block_data(&mut self, image: &[u8], block: u32, word_id: u32, word: u32) -> Answer {
        enough(image, self.declared())?;
        if !self.is_open(block) || word_id >= u32::from(self.size) || self.has_come(word_id) {
            return Ok(Taken::Ignored);
        }
        self.came[word_id as usize] = true;
        self.words[word_id as usize] = word;
        Ok(Taken::Accepted)
    }

    pub fn block_end(&mut self, image: &mut [u8], block: u32) -> Answer {
        enough(image, self.declared())?;
        if !self.is_open(block) {
            return refuse(29, 0);
        }
        let length = usize::from(self.size).min(MARKS);
        let missing: Vec<usize> = (0..length).filter(|word_id| !self.came[*word_id]).collect();
        if let Some(lowest) = missing.first() {
            return Ok(Taken::Missing { count: missing.len() as u64, lowest: *lowest as u64 });
        }
        let at = 4 * block as usize * usize::from(self.full);
        if let Some(to) = image.get_mut(at..at + 4 * length) {
            for (to, word) in to.chunks_mut(4).zip(&self.words) {
                to.copy_from_slice(&word.to_le_bytes());
            }
        }
        if let Some(done) = self.done.get_mut(block as usize) {
            *done = true;
        }
        self.open = 0;
        self.size = 0;
        Ok(Taken::Done)
    }

    /// The words that the last Start declared; 0 before any.
    pub fn declared(&self) -> u64 {
        u64::from(self.count) * u64::from(self.full)
    }

    /// Whether a block may have so many words: the full size, and the last one also fewer, but at least 1.
    fn fits(&self, block: u32, size: u32) -> bool {
        let full = u32::from(self.full);
        let last = block + 1 == u32::from(self.count);
        size >= 1 && (size == full || (last && size < full))
    }

    /// Whether a block is done. One without a mark counts as done.
    pub fn is_done(&self, block: u32) -> bool {
        self.done.get(block as usize).copied().unwrap_or(true)
    }

    pub fn is_open(&self, block: u32) -> bool {
        self.size > 0 && block == u32::from(self.open)
    }

    /// Whether a word of the open block came. One without a mark counts as come.
    fn has_come(&self, word_id: u32) -> bool {
        self.came.get(word_id as usize).copied().unwrap_or(true)
    }
}
