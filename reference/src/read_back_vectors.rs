//! The images that are read back among the stored vectors: each refusal, the order of the tests, and where data may lie.

use reference::generate::{case_of, Call, Case, Size};
use reference::random::Random;
use reference::read_back::pieces;

/// Random images, and the most bytes of an image and of an output.
const DRAWN: usize = 12;
const MOST_BYTES: usize = 300;

const END: [u32; 4] = [u32::MAX, 0, 0, 0];
const FILL: [u32; 4] = [3, 0x0040_0000, 32, 0x0403_0201];
const EXEC: [u32; 4] = [4, 0x101, 0, 0];

/// Entries, so many bytes behind them, and an output of so many bytes.
fn read(entries: &[[u32; 4]], behind: usize, output: usize) -> Case {
    let mut image: Vec<u8> = entries.iter().flatten().flat_map(|word| word.to_le_bytes()).collect();
    image.extend((1..=behind).map(|k| k as u8));
    Case::AplxRead { image, output: vec![0x77; output], packed: false }
}

/// Negative offsets.
fn back(bytes: u32) -> u32 {
    0u32.wrapping_sub(bytes)
}

/// The paper's pieces, bytes that have no meaning, and outputs that just fit or are too small.
fn plain() -> Vec<Case> {
    let put_and_run = [[2, 0, 48, 32], [4, 0, 0, 0], END];
    let three = [[2, 0x0040_0000, 64, 32], [3, 0x0040_0020, 32, 0x0102_0304], EXEC, END];
    vec![
        read(&[[3, 0x0040_0000, 32, 0], [4, 0, 0, 0], END], 0, 50),
        read(&put_and_run, 32, 80),
        read(&put_and_run, 32, 79),
        read(&put_and_run, 32, 0),
        read(&[END], 0, 16),
        read(&[END], 0, 15),
        read(&three, 32, 96),
        read(&[[4, 0x103, u32::MAX, 2], [u32::MAX, 1, 2, 3], [9, 9, 9, 9]], 3, 40),
        read(&[[3, 0xffff_fffc, 65_536, 3], END], 0, 32),
    ]
}

/// Entries that are refused, the second of the image, and good ones beside them.
fn refused() -> Vec<Case> {
    let second = |entry| read(&[FILL, entry, END], 64, 20);
    let mut cases: Vec<Case> = [
        [1, 0, 32, 32],
        [0, 0, 0, 0],
        [5, 1, 1, 0],
        [u32::MAX - 1, 0, 0, 0],
        [4, 2, 0, 0],
        [2, 1, 1, 0],
        [3, 1, 0, 0],
        [3, 0, 20, 0],
        [2, 1, 1, 33],
        [3, 0, 65_568, 0],
        [2, 0, 32, u32::MAX],
        [2, 2, 0x1000, 32],
        [3, 1, 32, 0],
        [2, 0, 0x1001, 32],
        // The slice has 112 bytes.
        [2, 0, 68, 32],
        [2, 0, back(20), 32],
        [2, 0, back(48), 32],
        [2, 0, 0x8000_0000, 32],
    ]
    .into_iter()
    .map(second)
    .collect();
    cases.push(read(&[], 0, 4));
    cases.push(read(&[FILL], 15, 4));
    cases.push(read(&[[2, 0, 32, 32], END], 31, 4));
    cases
}

/// Data over entries and before its own, shared, in part the same, and in another order than the puts.
fn data() -> Vec<Case> {
    vec![
        read(&[[2, 4, 0, 32], END], 0, 64),
        read(&[EXEC, FILL, [2, 4, back(32), 32], END], 0, 96),
        read(&[EXEC, FILL, [2, 4, back(4), 32], END], 0, 97),
        read(&[FILL, [2, 4, 64, 32], END], 64, 80),
        read(&[[2, 0, 64, 32], [2, 64, 48, 32], [2, 128, 48, 32], END], 48, 160),
        read(&[[2, 0x40, 96, 32], FILL, [2, 0x20, 32, 64], END], 96, 160),
    ]
}

/// 64 pieces, and what can stand behind them.
fn many() -> Vec<Case> {
    let mut cases = Vec::new();
    for last in [END, [1, 0, 0, 0], [3, 1, 0, 0], [4, 2, 0, 0]] {
        let mut entries = vec![[4, 0, 0, 0]; 64];
        entries.push(last);
        cases.push(read(&entries, 0, if last == END { 1_040 } else { 4 }));
    }
    cases.push(read(&[[4, 0, 0, 0]; 64], 15, 4));
    cases
}

/// Small random images; half of them are accepted.
fn drawn(random: &mut Random) -> Vec<Case> {
    let mut cases = Vec::new();
    while cases.len() < DRAWN {
        let case = case_of(Call::AplxRead, random, Size::Stored);
        let Case::AplxRead { image, output, .. } = &case else { continue };
        let small = !image.is_empty() && image.len() <= MOST_BYTES && output.len() <= MOST_BYTES;
        if small && (cases.len() % 2 == 0) == pieces(image).is_ok_and(|pieces| pieces.len() > 1) {
            cases.push(case);
        }
    }
    cases
}

pub fn all(random: &mut Random) -> Vec<Case> {
    [plain(), refused(), data(), many(), drawn(random)].concat()
}
