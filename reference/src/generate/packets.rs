//! Random SCP packets: all commands, lengths and alignments near what is allowed, and ranges near a region's ends.

use super::images::image;
use super::maps::{scene, Scene};
use super::{damage, Case, Size};
use crate::map::Right;
use crate::random::Random;
use crate::scp::{APLX, LARGEST, READ, RUN, VER, WRITE};

pub fn answer(random: &mut Random, size: Size) -> Case {
    let command = match random.below(20) {
        0 | 1 => VER,
        2..=4 => RUN,
        5..=9 => READ,
        10..=14 => WRITE,
        15..=18 => APLX,
        _ => random.pick(&[5, 6, 0x0100, 0x0102, 0x0203, 0x0080, 0x8000, 0xffff]),
    };
    let (scene, header) = match command {
        APLX => image(random, size),
        _ => (scene(random, size), 0),
    };
    let mut packet = Vec::new();
    packet.extend(command.to_le_bytes());
    packet.extend(random.bytes(2));
    match command {
        RUN => packet.extend(scene.run_address(random).to_le_bytes()),
        APLX => packet.extend(header.to_le_bytes()),
        READ => transfer(random, &scene, &mut packet, false),
        WRITE => transfer(random, &scene, &mut packet, true),
        _ => {}
    }
    match random.below(30) {
        0 => packet.truncate(random.below(packet.len() + 1)),
        1 => packet.truncate(packet.len().saturating_sub(1)),
        2 => packet.push(random.byte()),
        3 => packet.extend(random.bytes_below(300)),
        4 => packet.resize(random.pick(&[LARGEST - 1, LARGEST, LARGEST + 1, 4, 3, 8, 16]), 0),
        5 => damage(random, &mut packet),
        6 => packet = random.bytes_below(300),
        7 if command != WRITE => packet.extend(random.bytes_below(30)),
        _ => {}
    }
    let length = match random.below(24) {
        0 => random.below(LARGEST),
        1 => random.pick(&[0, 4, 31, 260, LARGEST - 1]),
        2..=4 => LARGEST + random.below(60),
        _ => LARGEST,
    };
    let output = random.bytes(length);
    // Mostly numbers that their fields hold; else with bits that do not count.
    let fields = if random.once_in(3) { [u32::MAX; 5] } else { [0xffff, 0xff, 0xff, 0xffff, u32::MAX] };
    let identity = fields.map(|field| random.word() & field);
    Case::ScpAnswer { table: scene.table, memory: scene.memory, identity, packet, output }
}

/// Address, length and type of READ or WRITE, and WRITE's data.
fn transfer(random: &mut Random, scene: &Scene, packet: &mut Vec<u8>, write: bool) {
    let mut kind = random.below(3) as u32;
    let unit = 1 << kind;
    let mut length = unit
        * match random.below(12) {
            0 => 0,
            1 => 256 / unit,
            2 => 256 / unit + 1,
            3 => 256 / unit - 1,
            4..=6 => random.between(1, 256 / unit as usize) as u32,
            _ => random.between(1, 16) as u32,
        };
    let right = if write { Right::Write } else { Right::Read };
    let mut address = scene.address(random, right, u64::from(length));
    if random.once_in(4) {
        address = address.wrapping_add(unit * random.below(4) as u32);
    }
    if random.once_in(8) {
        match random.below(6) {
            0 => kind = random.pick(&[3, 4, 31, 32, 33, u32::MAX]),
            1 => length = random.pick(&[257, 258, 260, 0x0100_0000, u32::MAX, u32::MAX - 15]),
            2 => address = address.wrapping_add(1),
            3 => length += 1,
            4 => address = scene.edge(random, u64::from(length)),
            _ => address = random.word(),
        }
    }
    for word in [address, length, kind] {
        packet.extend(word.to_le_bytes());
    }
    if write {
        let data = match random.below(16) {
            0 => length.wrapping_add(1),
            1 => length.wrapping_sub(1),
            _ => length,
        };
        packet.extend(random.bytes(data.min(300) as usize));
    }
}
