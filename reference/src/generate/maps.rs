//! Random maps and memories: sound maps of 0 to 8 regions, near-sound ones with one rule broken, unsound ones.

use super::{damage, Case, Size};
use crate::bytes::{le32, put_le32};
use crate::interface::{table_of, TABLE};
use crate::map::{Map, Region, Right, Rights, LAST_END, LONGEST_REGION};
use crate::random::Random;

/// A memory and a table to go with it. `map` is the sound map from which the table was made.
pub struct Scene {
    pub map: Map,
    pub table: Vec<u8>,
    pub memory: Vec<u8>,
}

/// The length of a memory.
fn memory_length(random: &mut Random, size: Size) -> usize {
    match size {
        Size::Stored => match random.below(10) {
            0 => random.below(100),
            1..=3 => random.below(513),
            _ => random.between(200, 512),
        },
        Size::Free => match random.below(20_000) {
            0 => random.between(16_000_000, 36_000_000),
            1..=60 => random.between(6_000, 400_000),
            61..=800 => random.between(600, 6_000),
            801..=6_000 => random.below(601),
            _ => random.between(150, 600),
        },
    }
}

/// Bytes of a memory; a large one repeats a shorter pattern.
fn memory(random: &mut Random, length: usize) -> Vec<u8> {
    let pattern = random.bytes(length.min(8_191));
    let mut bytes = Vec::with_capacity(length);
    while bytes.len() < length {
        let part = pattern.len().min(length - bytes.len());
        bytes.extend(&pattern[..part]);
    }
    bytes
}

/// A scene whose map is mostly sound.
pub fn scene(random: &mut Random, size: Size) -> Scene {
    let length = memory_length(random, size);
    let map = sound_map(random, length);
    let memory = memory(random, length);
    scene_of(random, map, memory)
}

/// A scene whose map is sound, with so many bytes of memory.
pub fn sound_scene(random: &mut Random, length: usize) -> Scene {
    let map = sound_map(random, length);
    let memory = memory(random, length);
    let table = dressed(random, &map);
    Scene { map, table, memory }
}

/// A scene of a sound map. Mostly the table is its own; else one rule is broken, or the table is random.
pub fn scene_of(random: &mut Random, map: Map, mut memory: Vec<u8>) -> Scene {
    let mut table = dressed(random, &map);
    match random.below(100) {
        0..=5 => break_table(random, &mut table, &mut memory),
        6 => damage(random, &mut table),
        7 => table = random.bytes(TABLE),
        8 => {
            let length = random.pick(&[0, 4, 131, 133, 148]);
            table.resize(length, 0);
        }
        _ => {}
    }
    Scene { map, table, memory }
}

/// The table of a map; now and then with bytes past the count, which have no meaning.
fn dressed(random: &mut Random, map: &Map) -> Vec<u8> {
    let mut table = table_of(map);
    if random.once_in(5) {
        let past = 4 + 16 * map.regions.len();
        let junk = random.bytes(TABLE - past);
        table[past..].copy_from_slice(&junk);
    }
    table
}

/// A rights word that has a bit without a meaning.
fn unknown_rights(random: &mut Random, known: u32) -> u32 {
    match random.below(3) {
        0 => 8,
        1 => known | 8 << random.below(29),
        _ => known | random.word() | 0x100,
    }
}

/// A map that is sound for a buffer of so many bytes.
pub fn sound_map(random: &mut Random, buffer: usize) -> Map {
    let want = match random.below(10) {
        0 => random.below(9),
        1..=3 => 1,
        4..=6 => 2,
        _ => random.between(2, 8),
    };
    let mut places = places(random, buffer, want);
    random.shuffle(&mut places);
    let generous = random.percent(60);
    let mut map = Map::empty();
    for (place, length) in places {
        let rights = if generous || random.once_in(2) { 7 } else { random.below(8) as u32 };
        for _ in 0..8 {
            let base = base(random, &map, length);
            let region = Region { base, length, place, rights: Rights::from_number(rights) };
            if map.add(region).is_ok() {
                break;
            }
        }
    }
    map
}

/// Parts of a buffer that share no byte: place and length.
fn places(random: &mut Random, buffer: usize, want: usize) -> Vec<(u32, u32)> {
    let mut parts = Vec::new();
    let mut place = random.pick(&[0, 0, 1, 3, 4]);
    for left in (1..=want).rev() {
        if place + 4 > buffer {
            break;
        }
        let room = buffer - place;
        let share = if left == 1 && random.once_in(2) { room } else { (room / left).max(4) };
        let least = if random.once_in(4) { 1 } else { (share / 8).max(1) };
        let mut length = 4 * random.between(least.min(share / 4), share / 4);
        if left == 1 && random.once_in(2) {
            length = share / 4 * 4;
        }
        length = length.clamp(4, LONGEST_REGION as usize);
        parts.push((place as u32, length as u32));
        place += length + random.pick(&[0, 0, 0, 1, 2, 4, 5]);
    }
    parts
}

/// A base address for the next region: often behind or before an earlier one, or at the ends of what is allowed.
fn base(random: &mut Random, map: &Map, length: u32) -> u32 {
    if !map.regions.is_empty() && random.percent(55) {
        let other = random.pick(&map.regions);
        let gap = random.pick(&[0, 0, 4, 32]);
        let base = if random.once_in(3) {
            i64::from(other.base) - i64::from(length) - gap
        } else {
            other.end() as i64 + gap
        };
        return base.clamp(0, LAST_END as i64) as u32;
    }
    match random.below(7) {
        0 => 0,
        1 => 0x0040_0000,
        2 => 0xf500_0000,
        3 => 0x7000_0000,
        4 => (LAST_END - u64::from(length)) as u32,
        5 => 0xf500_8000 - length.min(0x8000),
        _ => random.word() & !3,
    }
}

/// Breaks one rule: of the table, or by a shorter memory.
fn break_table(random: &mut Random, table: &mut [u8], memory: &mut Vec<u8>) {
    let count = le32(table, 0).min(8) as usize;
    if count == 0 || random.once_in(8) {
        put_le32(table, 0, random.pick(&[9, 10, 255, 256, 0x0100_0000, u32::MAX]));
        return;
    }
    let at = 4 + 16 * random.below(count);
    let [base, length, place] = [0, 4, 8].map(|k| le32(table, at + k));
    match random.below(10) {
        8 | 9 => {
            let rights = unknown_rights(random, le32(table, at + 12));
            put_le32(table, at + 12, rights);
        }
        0 => put_le32(table, at, base.wrapping_add(random.between(1, 3) as u32)),
        1 => put_le32(table, at + 4, length + random.between(1, 3) as u32),
        2 => put_le32(table, at + 4, random.pick(&[0, LONGEST_REGION + 4, u32::MAX, u32::MAX - 3])),
        3 => put_le32(table, at, (LAST_END + 4 - u64::from(length)) as u32),
        4 => put_le32(table, at + 8, (memory.len() as u32 + 1).wrapping_sub(length)),
        5 => put_le32(table, at + 8, random.pick(&[u32::MAX, u32::MAX - 3, 0x8000_0000])),
        6 => {
            let longest = (0..count).map(|i| le32(table, 8 + 16 * i) + le32(table, 12 + 16 * i)).max();
            memory.truncate((longest.unwrap_or(1) as usize).saturating_sub(1));
        }
        _ => {
            // Two regions that share one word of addresses, or one byte of the buffer.
            let other = 4 + 16 * random.below(count);
            let [other_base, other_length, other_place] = [0, 4, 8].map(|k| le32(table, other + k));
            if random.once_in(2) {
                put_le32(table, at, (other_base + other_length).wrapping_sub(4));
            } else {
                put_le32(table, at + 8, (other_place + other_length).wrapping_sub(1).max(place));
            }
        }
    }
}

/// Additions to an empty, a growing, or a hand-made table.
pub fn additions(random: &mut Random) -> Case {
    let buffer = random.between(40, 2_000);
    let map = sound_map(random, buffer);
    let mut table = vec![0; TABLE];
    let mut memory = Vec::new();
    match random.below(20) {
        0..=9 => {}
        10..=15 => table = dressed(random, &map),
        16 => {
            table = dressed(random, &map);
            break_table(random, &mut table, &mut memory);
        }
        17 => table = random.bytes(TABLE),
        18 => {
            table = dressed(random, &map);
            damage(random, &mut table);
        }
        _ => {
            let length = random.pick(&[0, 3, 4, 131, 133, 200]);
            table = random.bytes(length);
        }
    }
    let count = random.between(1, 10);
    let additions = (0..count).map(|_| addition(random, &map)).collect();
    Case::MapAdd { table, additions }
}

/// A table beside a length of memory: where its regions end, one byte less or more, or far from it.
pub fn soundness(random: &mut Random, size: Size) -> Case {
    let Scene { map, table, memory } = scene(random, size);
    let end = map.regions.iter().map(Region::place_end).max().unwrap_or(0) as usize;
    let memory_length = match random.below(8) {
        0 => end,
        1 => end.saturating_sub(1),
        2 => end + 1,
        3 => random.pick(&[0, usize::MAX, 1 << 32, u32::MAX as usize]),
        _ => memory.len(),
    };
    Case::MapSound { table, memory_length }
}

/// One region: near those of a map, or at a limit, with one thing wrong now and then.
fn addition(random: &mut Random, map: &Map) -> [u32; 4] {
    let length = match random.below(8) {
        0 => 4,
        1 => LONGEST_REGION,
        2 => LONGEST_REGION - 4,
        _ => 4 * random.between(1, 100) as u32,
    };
    let mut region = [base(random, map, length), length, place(random, map, length), random.below(8) as u32];
    if !map.regions.is_empty() && random.once_in(2) {
        let old = random.pick(&map.regions);
        region = [old.base, old.length, old.place, old.rights.number()];
    }
    if random.once_in(8) {
        region[3] = unknown_rights(random, region[3]);
    }
    if random.once_in(3) {
        match random.below(9) {
            0 => region[0] = region[0].wrapping_add(random.between(1, 3) as u32),
            1 => region[1] = region[1].wrapping_add(random.between(1, 3) as u32),
            2 => region[1] = random.pick(&[0, LONGEST_REGION + 4, u32::MAX - 3, u32::MAX]),
            3 => region[0] = (LAST_END + 4 - u64::from(region[1].min(LONGEST_REGION))) as u32,
            4 => region[0] = random.pick(&[u32::MAX - 3, u32::MAX - 7, 0xffff_fff0, u32::MAX]),
            5 => region[2] = random.pick(&[u32::MAX, u32::MAX - 3, u32::MAX - 1_000]),
            6 => region[0] = region[0].wrapping_add(4),
            7 => region[2] = region[2].wrapping_add(1),
            _ => region = [0; 4].map(|_| random.word()),
        }
    }
    region
}

/// A buffer place behind an earlier region, or anywhere.
fn place(random: &mut Random, map: &Map, length: u32) -> u32 {
    if !map.regions.is_empty() && random.once_in(2) {
        let other = random.pick(&map.regions);
        return match random.below(4) {
            0 => other.place.wrapping_sub(length),
            1 => other.place + other.length - 1,
            _ => other.place + other.length,
        };
    }
    match random.below(4) {
        0 => random.word(),
        1 => u32::MAX - random.below(8) as u32,
        _ => random.below(100_000) as u32,
    }
}

impl Scene {
    /// The regions with a right, or all where none has it.
    fn regions_with(&self, right: Right) -> Vec<Region> {
        let with: Vec<Region> =
            self.map.regions.iter().filter(|region| region.rights.has(right)).copied().collect();
        if with.is_empty() { self.map.regions.clone() } else { with }
    }

    /// An address where so many bytes mostly lie in one region with the right; a multiple of 4 where bases are.
    pub fn address(&self, random: &mut Random, right: Right, length: u64) -> u32 {
        let with = if random.once_in(25) { self.map.regions.clone() } else { self.regions_with(right) };
        if with.is_empty() || random.once_in(200) {
            return random.word() & !3;
        }
        let fitting: Vec<Region> =
            with.iter().filter(|region| u64::from(region.length) >= length).copied().collect();
        let region = if fitting.is_empty() { random.pick(&with) } else { random.pick(&fitting) };
        let room = u64::from(region.length).saturating_sub(length) as usize / 4;
        let step = match random.below(8) {
            0 => 0,
            1 => room,
            _ => random.between(0, room),
        };
        region.base + 4 * step as u32
    }

    /// An address near an end of a region.
    pub fn edge(&self, random: &mut Random, length: u64) -> u32 {
        if self.map.regions.is_empty() {
            return random.word();
        }
        let region = random.pick(&self.map.regions);
        let shift = random.pick(&[-4i64, -1, 0, 1, 4]);
        let near = match random.below(3) {
            0 => i64::from(region.base),
            1 => region.end() as i64 - length as i64,
            _ => region.end() as i64,
        };
        (near + shift) as u32
    }

    /// A run address, mostly legal.
    pub fn run_address(&self, random: &mut Random) -> u32 {
        let address = self.address(random, Right::Run, 4);
        match random.below(20) {
            0 => address + 2,
            1 => random.word(),
            2 => self.edge(random, 0),
            3..=8 => address + 1,
            9..=10 => address + 3,
            _ => address,
        }
    }

    /// Writes bytes at an address as far as a region of the sound map holds them.
    pub fn poke(&mut self, address: u64, bytes: &[u8]) {
        for (k, byte) in bytes.iter().enumerate() {
            let here = address + k as u64;
            let region = self.map.regions.iter().find(|region| region.holds(here, 1));
            let place = region.map(|r| r.place as usize + (here - u64::from(r.base)) as usize);
            if let Some(cell) = place.and_then(|place| self.memory.get_mut(place)) {
                *cell = *byte;
            }
        }
    }
}
