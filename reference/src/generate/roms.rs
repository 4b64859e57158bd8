//! Random SROM slices: blocks in a row with pads, with one thing wrong, cut, damaged, or random bytes.

use super::maps::{scene, Scene};
use super::{damage, Case, Size};
use crate::map::Right;
use crate::random::Random;
use crate::srom::{LONGEST_SLICE, PAD, START};

pub fn load(random: &mut Random, size: Size) -> Case {
    let scene = scene(random, size);
    let (mut rom, starts) = blocks(random, &scene, size);
    match random.below(100) {
        0..=7 => damage(random, &mut rom),
        8..=14 => rom.truncate(random.below(rom.len() + 1)),
        15..=17 => rom = noise(random),
        _ => {}
    }
    if size == Size::Free && random.once_in(6_000) {
        // At the slice's limit, and one past it.
        let tail = if random.once_in(2) { PAD } else { 0xff };
        rom.resize(LONGEST_SLICE + random.below(3), tail);
    }
    let offset = match random.below(40) {
        0..=24 => 0,
        25..=33 => random.pick(&starts),
        34..=36 => random.below(rom.len() + 3),
        37 => rom.len(),
        38 => rom.len().saturating_sub(1),
        _ => random.pick(&[usize::MAX, usize::MAX - 6, 1 << 32, (1 << 32) - 1, 16_777_216]),
    };
    Case::SromLoad { table: scene.table, memory: scene.memory, rom, offset }
}

/// Blocks, and the offsets at which they begin.
fn blocks(random: &mut Random, scene: &Scene, size: Size) -> (Vec<u8>, Vec<usize>) {
    let mut rom = vec![PAD; random.pick(&[0, 1, 1, 1, 2, 9])];
    let mut starts = vec![0];
    for _ in 0..random.between(0, 6) {
        starts.push(rom.len());
        block(random, scene, size, &mut rom);
        rom.extend(vec![PAD; random.pick(&[0, 0, 0, 1, 3])]);
    }
    if !random.once_in(12) {
        starts.push(rom.len());
        rom.push(random.pick(&[0xff, 0xff, 0xaa, 0x00, 0x54, 0x56, 0x3b, 0x39]));
        let tail = random.pick(&[0, 0, 1, 5]);
        rom.extend(random.bytes(tail));
    }
    (rom, starts)
}

fn block(random: &mut Random, scene: &Scene, size: Size, rom: &mut Vec<u8>) {
    if random.once_in(6) {
        rom.extend([START, 0, 0]);
        rom.extend(scene.run_address(random).to_be_bytes());
        return;
    }
    let words = match random.below(60) {
        0 if size == Size::Free => random.pick(&[65_535, 16_384, 256, 255]),
        1 => 64,
        2..=30 => random.between(1, 4),
        _ => random.between(1, 12),
    };
    let mut address = scene.address(random, Right::Write, 4 * words as u64);
    let mut named = words;
    if random.once_in(20) {
        match random.below(5) {
            0 => address = address.wrapping_add(random.between(1, 3) as u32),
            1 => address = scene.edge(random, 4 * words as u64),
            2 => address = random.word() & !3,
            3 => named += 1,
            _ => named = random.pick(&[65_535, 256, 512]),
        }
    }
    rom.push(START);
    rom.extend((named as u16).to_be_bytes());
    rom.extend(address.to_be_bytes());
    rom.extend(random.bytes(4 * words));
}

/// Random bytes, with many pads and start bytes.
fn noise(random: &mut Random) -> Vec<u8> {
    let length = random.below(60);
    (0..length)
        .map(|_| match random.below(4) {
            0 => START,
            1 => PAD,
            2 => 0,
            _ => random.byte(),
        })
        .collect()
}
