//! Random plans: valid ones in any layout, near-valid ones for each refusal, damaged ones, random bytes;
//! and outputs that fit, just fit, or are too small.

use super::{damage, Case, Size};
use crate::pack;
use crate::plan::{self, Piece, LONGEST_PIECE};
use crate::random::Random;

/// A piece to be written into a plan.
#[derive(Clone, Copy, Debug)]
pub struct Draft {
    pub kind: u32,
    pub address: u32,
    pub length: u32,
    pub last: u32,
}

pub fn read(random: &mut Random, size: Size) -> Case {
    let target = match random.below(8) {
        0..=2 => 0,
        3..=5 => 1,
        6 => 2,
        _ => random.pick(&[3, 4, 32, 0x0100_0000, u32::MAX]),
    };
    let unit = match target {
        0 => 32,
        1 => 4,
        _ => 1,
    };
    Case::PlanRead { plan: plan(random, size, unit), target }
}

pub fn pack_srom(random: &mut Random, size: Size) -> Case {
    let plan = plan(random, size, plan::SROM_UNIT);
    let output = output(random, size, &plan, plan::SROM_UNIT, pack::srom_length);
    Case::PackSrom { plan, output }
}

pub fn pack_aplx(random: &mut Random, size: Size) -> Case {
    let plan = plan(random, size, plan::APLX_UNIT);
    let output = output(random, size, &plan, plan::APLX_UNIT, pack::aplx_length);
    Case::PackAplx { plan, output }
}

/// An output for a plan's image: exact, larger, one byte too small, or much too small.
fn output(
    random: &mut Random,
    size: Size,
    plan: &[u8],
    unit: u32,
    length: fn(&[Piece]) -> u64,
) -> Vec<u8> {
    let exact = plan::read(plan, unit).map_or(64, |pieces| length(&pieces));
    room(random, size, exact as usize)
}

/// An output for so many bytes.
pub fn room(random: &mut Random, size: Size, exact: usize) -> Vec<u8> {
    let most = if size == Size::Stored { 1_200 } else { usize::MAX };
    let room = match random.below(10) {
        0..=3 => exact,
        4..=6 => exact + random.between(1, 50),
        7 => exact.saturating_sub(1),
        8 => random.below(exact + 1),
        _ => 0,
    };
    random.bytes(room.min(most))
}

/// A plan whose lengths mostly are multiples of the unit.
pub fn plan(random: &mut Random, size: Size, unit: u32) -> Vec<u8> {
    match random.below(60) {
        0 => return random.bytes_below(40),
        1 => {
            // Random words that are small numbers.
            let count = random.below(40);
            return (0..count).flat_map(|_| (random.below(33) as u32).to_le_bytes()).collect();
        }
        _ => {}
    }
    let count = match random.below(60) {
        0 => 64,
        1 => random.between(30, 63),
        2..=5 => 0,
        _ => random.between(1, 7),
    };
    let count = if size == Size::Stored && count > 20 && !random.once_in(4) { 9 } else { count };
    let tight = size == Size::Stored;
    let mut data = if tight { random.bytes(64) } else { random.bytes_below(400) };
    let mut drafts: Vec<Draft> =
        (0..count).map(|_| draft(random, unit, tight || count > 20, &mut data)).collect();
    if random.once_in(4) && !drafts.is_empty() {
        let at = random.below(drafts.len());
        spoil(random, &mut drafts[at], data.len() as u32);
    }
    let mut plan = lay_out(random, &drafts, &data);
    match random.below(40) {
        0 | 1 => damage(random, &mut plan),
        2 => plan.truncate(random.below(plan.len() + 1)),
        3 => plan.truncate(plan.len().saturating_sub(1)),
        4 | 5 => spoil_header(random, &mut plan),
        _ => {}
    }
    plan
}

/// A valid piece; a put's data is drawn from, or added to, the data.
fn draft(random: &mut Random, unit: u32, short: bool, data: &mut Vec<u8>) -> Draft {
    let address = match random.below(8) {
        0 => random.pick(&[0, 0xf500_7fe0, 0x0040_0000, 0xffff_fffc, 0xffff_ffe0]),
        1 => 4 * random.below(100) as u32,
        _ => random.word() & !3,
    };
    if random.once_in(4) {
        let address = address | random.pick(&[0, 0, 1, 3]);
        return Draft { kind: 3, address, length: 0, last: 0 };
    }
    let units = match random.below(400) {
        0 if !short => LONGEST_PIECE / unit,
        1 if !short => random.between(1, (LONGEST_PIECE / unit) as usize) as u32,
        _ if short => random.between(1, if unit == 32 { 2 } else { 6 }) as u32,
        _ => random.between(1, 8) as u32,
    };
    let length = unit * units;
    if random.once_in(2) {
        return Draft { kind: 2, address, length, last: random.word() };
    }
    if (data.len() as u32) < length {
        let more = length as usize - data.len() + random.below(5);
        data.extend(random.bytes(more));
    }
    let last = match random.below(3) {
        0 => 0,
        1 => data.len() - length as usize,
        _ => random.below(data.len() - length as usize + 1),
    };
    Draft { kind: 1, address, length, last: last as u32 }
}

/// One thing wrong with a piece.
pub fn spoil(random: &mut Random, draft: &mut Draft, data: u32) {
    match random.below(11) {
        0 => draft.kind = random.pick(&[0, 4, 5, 0x0100_0001, u32::MAX]),
        1 => *draft = Draft { kind: 3, length: random.pick(&[1, 4, u32::MAX]), last: 0, ..*draft },
        2 => *draft = Draft { kind: 3, length: 0, last: random.pick(&[1, 0x0100_0000]), ..*draft },
        3 => *draft = Draft { kind: 3, address: draft.address & !3 | 2, length: 0, last: 0 },
        4 => draft.length = 0,
        5 => draft.length = random.pick(&[65_537, 65_540, 65_568, 0x8000_0000, u32::MAX, u32::MAX - 31]),
        6 => draft.address = draft.address & !3 | random.pick(&[1, 2, 3]),
        7 if draft.kind == 1 => draft.last = data - draft.length.min(data) + 1,
        7 | 8 => draft.last = random.pick(&[data, data + 1, u32::MAX, u32::MAX - 31]),
        9 => draft.length = draft.length.wrapping_add(random.pick(&[1, 2, 4, 8, 16])),
        _ => draft.length = draft.length.wrapping_sub(random.pick(&[1, 2, 4, 8, 16])),
    }
}

/// One thing wrong with the header.
pub fn spoil_header(random: &mut Random, plan: &mut Vec<u8>) {
    let size = plan.len() as u32;
    let (at, word) = match random.below(8) {
        0 => (0, random.pick(&[65, 66, 255, 256, 0x0100_0000, u32::MAX])),
        1 => (0, crate::bytes::le32(plan, 0) + 1),
        2 => (4, random.pick(&[size, size + 1, size - 15, u32::MAX, u32::MAX - 15])),
        3 => (8, random.pick(&[size, size + 1, u32::MAX])),
        4 => (12, random.pick(&[size, size + 1, u32::MAX, 0x8000_0000])),
        5 => return plan.truncate(random.pick(&[0, 1, 15])),
        6 => return plan.truncate(16),
        _ => (0, 64),
    };
    crate::bytes::put_le32(plan, at, word);
}

/// The bytes of a plan: header, table and data in some order, with gaps, or over each other.
pub fn lay_out(random: &mut Random, drafts: &[Draft], data: &[u8]) -> Vec<u8> {
    let table: Vec<u8> = drafts
        .iter()
        .flat_map(|d| [d.kind, d.address, d.length, d.last])
        .flat_map(|word| word.to_le_bytes())
        .collect();
    let gap = |random: &mut Random| if random.once_in(4) { random.bytes_below(9) } else { Vec::new() };
    let mut plan = vec![0; 16];
    plan.extend(gap(random));
    let style = random.below(8);
    let (table_at, data_at) = if style == 0 {
        let data_at = plan.len();
        plan.extend(data);
        plan.extend(gap(random));
        let table_at = plan.len();
        plan.extend(&table);
        (table_at, data_at)
    } else {
        let table_at = plan.len();
        plan.extend(&table);
        plan.extend(gap(random));
        let data_at = plan.len();
        plan.extend(data);
        (table_at, data_at)
    };
    plan.extend(gap(random));
    // Data may lie over table and header.
    let over = style == 1 && plan.len() >= data.len();
    let data_at = if over { random.below(plan.len() - data.len() + 1) } else { data_at };
    for (k, word) in [drafts.len(), table_at, data_at, data.len()].iter().enumerate() {
        crate::bytes::put_le32(&mut plan, 4 * k, *word as u32);
    }
    plan
}
