//! What a library is lent, between guards that must stay as they were: buffers of bytes, and the outcome.

use std::hint::black_box;

use crate::bytes::hex;
use crate::interface::Outcome;
use crate::random::Random;

const GUARD: usize = 64;

/// The guard byte at an index.
fn guard(index: usize) -> u8 {
    (index as u8).wrapping_mul(37) ^ 0xa5
}

/// A lent buffer between guards.
pub struct Guarded {
    bytes: Vec<u8>,
    start: usize,
    length: usize,
}

impl Guarded {
    /// The content begins at any alignment.
    pub fn new(content: &[u8], random: &mut Random) -> Guarded {
        let start = GUARD + random.below(16);
        let mut bytes: Vec<u8> = (0..start).map(guard).collect();
        bytes.extend(content);
        let end = bytes.len();
        bytes.extend((end..end + GUARD).map(guard));
        Guarded { bytes, start, length: content.len() }
    }

    pub fn lent(&mut self) -> &mut [u8] {
        &mut self.bytes[self.start..self.start + self.length]
    }

    pub fn read(&self) -> &[u8] {
        &self.bytes[self.start..self.start + self.length]
    }

    /// An error where a guard was changed, or the content is not what it must be.
    pub fn check(&self, name: &str, expected: &[u8]) -> Result<(), String> {
        let bytes = black_box(&self.bytes);
        let end = self.start + self.length;
        let outside = (0..self.start).chain(end..end + GUARD);
        for index in outside {
            if bytes[index] != guard(index) {
                let at = index as i64 - self.start as i64;
                return Err(format!("a byte outside {name} was changed, at {at} of {}", self.length));
            }
        }
        let content = &bytes[self.start..end];
        if content == expected {
            return Ok(());
        }
        let at = content.iter().zip(expected).position(|(got, want)| got != want).unwrap_or(0);
        Err(format!(
            "{name} differs at byte {at}: the library has {:02x}, the reference {:02x}\n\
             library   {}\nreference {}",
            content[at],
            expected[at],
            shown(content),
            shown(expected)
        ))
    }
}

/// The lent outcome between guards. Before the call it holds what no call may leave there.
pub struct Numbers {
    all: [u64; 24],
}

const POISON: u64 = 0xdead_beef_0bad_cafe;

impl Numbers {
    pub fn new() -> Numbers {
        Numbers { all: [POISON; 24] }
    }

    pub fn lent(&mut self) -> &mut Outcome {
        (&mut self.all[8..16]).try_into().expect("eight numbers")
    }

    pub fn check(&self, number: u32, expected: &Outcome) -> Result<(), String> {
        let all = black_box(&self.all);
        if all[..8].iter().chain(&all[16..]).any(|n| *n != POISON) {
            return Err("a number outside the outcome was changed".to_string());
        }
        if u64::from(number) != expected[0] || all[8..16] != expected[..] {
            return Err(format!(
                "the numbers differ\n  library   {number}: {:?}\n  reference {}: {expected:?}",
                &all[8..16],
                expected[0]
            ));
        }
        Ok(())
    }
}

/// Bytes in hex; only the front of very many.
pub fn shown(bytes: &[u8]) -> String {
    const MOST: usize = 16_384;
    if bytes.len() <= MOST {
        hex(bytes)
    } else {
        format!("{} .. ({} bytes in all)", hex(&bytes[..MOST]), bytes.len())
    }
}
