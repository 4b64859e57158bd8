//! Random APLX images in memory: entries of all kinds with copies that overlap, with one thing wrong, or damaged.

use super::maps::{scene, scene_of, Scene};
use super::{damage, Case, Size};
use crate::aplx::{rounded, ACOPY, END, EXEC, FILL, RCOPY};
use crate::bytes::share;
use crate::map::{Map, Region, Right, Rights};
use crate::random::Random;

pub fn load(random: &mut Random, size: Size) -> Case {
    let (scene, header) = image(random, size);
    Case::AplxLoad { table: scene.table, memory: scene.memory, header }
}

/// A scene with an image in its memory, and the image's address.
pub fn image(random: &mut Random, size: Size) -> (Scene, u32) {
    if size == Size::Free && random.once_in(60) {
        return long_image(random);
    }
    let mut scene = scene(random, size);
    let mut header = entries(random, &mut scene);
    match random.below(60) {
        0 => header = header.wrapping_add(random.between(1, 3) as u32),
        1 => header = random.word(),
        2 => header = scene.edge(random, 16) & !3,
        3 => header = header.wrapping_add(16),
        4 => header = random.pick(&[0xffff_fff0, 0xffff_ffec, 0xffff_ffe0, 0xffff_fffc]),
        _ => {}
    }
    if random.once_in(30) {
        damage(random, &mut scene.memory);
    }
    (scene, header)
}

fn entry(words: [u32; 4]) -> Vec<u8> {
    words.iter().flat_map(|word| word.to_le_bytes()).collect()
}

/// Writes entries into a readable region, and answers the header address.
fn entries(random: &mut Random, scene: &mut Scene) -> u32 {
    let most = match random.below(12) {
        0 => 0,
        1..=3 => 1,
        4..=9 => random.between(2, 6),
        _ => random.between(4, 14),
    };
    let longest = scene.map.regions.iter().map(|region| region.length as usize / 16).max().unwrap_or(0);
    let count = most.min(longest.saturating_sub(1));
    let read = 16 * (count as u64 + 1);
    let header = scene.address(random, Right::Read, read);
    for index in 0..count {
        let at = u64::from(header) + 16 * index as u64;
        let words = command(random, scene, header, read, at);
        scene.poke(at, &entry(words));
    }
    let at = u64::from(header) + 16 * count as u64;
    let rest = [0; 3].map(|_| random.word());
    let stop = match random.below(24) {
        0..=8 => [EXEC, scene.run_address(random), rest[0], rest[1]],
        9..=15 => [END, rest[0], rest[1], rest[2]],
        16..=20 => {
            let word = random.pick(&[0, 5, 0xffff_fffe, 0x0100_0001, 0x8000_0000]);
            [if random.once_in(3) { random.word() } else { word }, rest[0], rest[1], rest[2]]
        }
        21 => return header,
        _ => command(random, scene, header, read, at),
    };
    scene.poke(at, &entry(stop));
    header
}

/// A copy or fill whose destination mostly is permitted and leaves the entries alone.
fn command(random: &mut Random, scene: &Scene, header: u32, read: u64, at: u64) -> [u32; 4] {
    let mut length = match random.below(10) {
        0 => 1,
        1 => 33,
        2 => 31,
        3 => 64,
        4 => random.between(65, 200) as u32,
        5 if scene.memory.len() > 4_000 => {
            let longest = scene.map.regions.iter().map(|region| region.length as usize).max();
            random.between(1, longest.unwrap_or(32)) as u32
        }
        _ => random.between(1, 64) as u32,
    };
    let permitted = |right, start: u32, span| scene.map.lookup(right, u64::from(start), span).is_some();
    let mut span = rounded(length);
    let mut to = scene.address(random, Right::Write, span);
    for attempt in 0..24 {
        let clear = !share(u64::from(to), span, u64::from(header), read);
        if clear && permitted(Right::Write, to, span) {
            break;
        }
        if attempt == 12 {
            length = random.between(1, 32) as u32;
            span = 32;
        }
        to = scene.address(random, Right::Write, span);
    }
    let mut from = scene.address(random, Right::Read, span);
    for _ in 0..8 {
        if random.once_in(2) {
            // A source a few words below or above the destination.
            let shift = 4 * random.between(0, span as usize / 2) as u32;
            from = if random.once_in(3) { to.wrapping_add(shift) } else { to.wrapping_sub(shift) };
        }
        if permitted(Right::Read, from, span) {
            break;
        }
        from = scene.address(random, Right::Read, span);
    }
    if random.once_in(25) {
        match random.below(8) {
            0 => length = 0,
            1 => to = to.wrapping_add(random.between(1, 3) as u32),
            2 => from = from.wrapping_add(random.between(1, 3) as u32),
            3 => to = scene.edge(random, span) & !3,
            4 => from = scene.edge(random, span) & !3,
            5 => length = random.pick(&[u32::MAX, u32::MAX - 30, u32::MAX - 31, 0x8000_0000, 16_777_216]),
            _ => {
                // At the ends of the entries read: touching them, or sharing a word.
                let ends = [
                    i64::from(header) - span as i64,
                    i64::from(header) - span as i64 + 4,
                    i64::from(header) + read as i64,
                    i64::from(header) + read as i64 - 4,
                    i64::from(header),
                ];
                to = random.pick(&ends) as u32;
            }
        }
    }
    match random.below(5) {
        0 | 1 => [ACOPY, to, from, length],
        2 | 3 => [RCOPY, to, from.wrapping_sub(at as u32), length],
        _ => [FILL, to, length, random.word()],
    }
}

/// About 256 entries: the stop at the last that is read, or past it; the region may end with the entries.
fn long_image(random: &mut Random) -> (Scene, u32) {
    let count = random.between(253, 258);
    let header = random.pick(&[0u32, 0x7000_0000, 0xf500_0000]);
    let ends = random.once_in(3);
    let length = 16 * count as u32 + if ends { 0 } else { 16 };
    let (target, target_length) = (0x0040_0000u32, 4 * random.between(8, 40) as u32);
    let mut map = Map::empty();
    let rights = |number| Rights::from_number(number);
    let _ = map.add(Region { base: header, length, place: target_length, rights: rights(5) });
    let _ = map.add(Region { base: target, length: target_length, place: 0, rights: rights(7) });
    let memory = random.bytes((target_length + length) as usize);
    let mut scene = scene_of(random, map, memory);
    for index in 0..count as u32 {
        let span = 32 * random.between(1, target_length as usize / 32) as u32;
        let to = target + 4 * random.below((target_length - span) as usize / 4 + 1) as u32;
        let words = match random.below(3) {
            0 => [FILL, to, span, random.word()],
            1 => [ACOPY, to, target, span - random.below(32) as u32],
            _ => [RCOPY, to, target.wrapping_sub(header + 16 * index), span],
        };
        scene.poke(u64::from(header + 16 * index), &entry(words));
    }
    let stop = if random.once_in(2) { [END, 0, 0, 0] } else { [EXEC, header + 1, 0, 0] };
    scene.poke(u64::from(header) + 16 * count as u64, &entry(stop));
    (scene, header)
}
