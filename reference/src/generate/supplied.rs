//! An image as another firm's packer may write it, before it is bytes: the pieces of the plan, the entries, and what stands behind
//! the end entry.

use super::parts::Part;
use super::plans::{lay_out, Draft};
use crate::aplx::{END, EXEC, FILL, RCOPY};
use crate::bytes::le32;
use crate::random::Random;

/// An entry before it is written. The offset of an RCOPY with `data` follows from where its data begin, counted from behind the
/// end entry on; without it the offset is as it stands.
#[derive(Clone, Debug)]
pub struct Entry {
    pub words: [u32; 4],
    pub data: Option<usize>,
    /// The piece of which it is the run or a part; 0 where it is an entry too many, also in a plan with no pieces.
    pub piece: usize,
}

/// A plan's pieces and an image of them.
#[derive(Clone, Debug)]
pub struct Supplied {
    pub pieces: Vec<Part>,
    /// Without the end.
    pub entries: Vec<Entry>,
    pub end: [u32; 4],
    pub behind: Vec<u8>,
    /// The slice is cut to so many bytes.
    pub cut: Option<usize>,
}

impl Supplied {
    /// How many bytes the entries have, with the end.
    pub fn header(&self) -> usize {
        16 * (self.entries.len() + 1)
    }

    pub fn image(&self) -> Vec<u8> {
        let mut words: Vec<u32> = Vec::new();
        for (index, entry) in self.entries.iter().enumerate() {
            let [command, address, second, third] = entry.words;
            let second = entry.data.map_or(second, |start| (self.header() + start - 16 * index) as u32);
            words.extend([command, address, second, third]);
        }
        words.extend(self.end);
        let mut image: Vec<u8> = words.iter().flat_map(|word| word.to_le_bytes()).collect();
        image.extend(&self.behind);
        image.truncate(self.cut.unwrap_or(usize::MAX));
        image
    }

    /// The bytes of the plan, in any layout in which nothing lies over its data.
    pub fn plan(&self, random: &mut Random) -> Vec<u8> {
        let mut data = Vec::new();
        let drafts: Vec<Draft> = self.pieces.iter().map(|part| part.draft(&mut data)).collect();
        loop {
            let plan = lay_out(random, &drafts, &data);
            if plan[le32(&plan, 8) as usize..].starts_with(&data) {
                return plan;
            }
        }
    }

    /// Adds the entries of a piece in parts of these lengths; addresses wrap.
    pub fn extend(&mut self, random: &mut Random, piece: usize, part: &Part, lengths: &[usize]) {
        if part.is_run() {
            let words = [EXEC, part.address(), unused(random), unused(random)];
            self.entries.push(Entry { words, data: None, piece });
        }
        let bytes = part.bytes();
        let mut done = 0;
        for length in lengths.iter().copied() {
            let address = part.address().wrapping_add(done as u32);
            let entry = match part {
                Part::Fill { word, .. } => {
                    Entry { words: [FILL, address, length as u32, *word], data: None, piece }
                }
                _ => {
                    let start = place(random, &mut self.behind, &bytes[done..done + length]);
                    Entry { words: [RCOPY, address, 0, length as u32], data: Some(start), piece }
                }
            };
            self.entries.push(entry);
            done += length;
        }
    }
}

/// A word that has no meaning.
pub fn unused(random: &mut Random) -> u32 {
    match random.below(4) {
        0 => END,
        1 => random.word(),
        _ => 0,
    }
}

/// Where bytes stand behind the end entry: where they are already, over the last ones that are the same, or anew behind a gap.
pub fn place(random: &mut Random, behind: &mut Vec<u8>, bytes: &[u8]) -> usize {
    let found: Vec<usize> = (0..behind.len()).step_by(4).filter(|at| behind[*at..].starts_with(bytes)).collect();
    if !found.is_empty() && random.percent(70) {
        return random.pick(&found);
    }
    let over = (0..behind.len()).step_by(4).find(|at| bytes.starts_with(&behind[*at..]));
    let start = match over {
        Some(at) if random.percent(70) => at,
        _ => {
            let gap = behind.len().next_multiple_of(4) - behind.len() + 4 * random.pick(&[0, 0, 0, 1, 3]);
            behind.extend(random.bytes(gap));
            behind.len()
        }
    };
    behind.truncate(start);
    behind.extend(bytes);
    start
}
