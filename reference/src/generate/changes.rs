//! Small changes to the pieces of a plan that is compared with the unchanged one. Some change nothing of what the plan means.

use super::parts::{part, run, store, Area, Part};
use crate::plan_difference::ADDRESSES;
use crate::random::Random;

/// One change: a piece more, less, in another order, over an earlier one or beside it, written otherwise, or altered.
pub fn change(random: &mut Random, parts: &mut Vec<Part>, areas: &[Area], whole: bool) {
    let index = random.below(parts.len() + 1);
    let Some(chosen) = parts.get(index).cloned() else {
        return parts.push(part(random, areas, whole));
    };
    match random.below(12) {
        0 => parts.insert(index, part(random, areas, whole)),
        1 => drop(parts.remove(index)),
        2 => {
            let other = random.below(parts.len());
            parts.swap(index, other);
        }
        3 => match parts.iter().position(Part::is_run) {
            Some(at) if random.once_in(2) => drop(parts.remove(at)),
            Some(at) => parts[at] = run(random),
            None => parts.insert(index, run(random)),
        },
        4 if !chosen.is_run() => {
            // A correction, listed later: over all of the piece, or its front.
            let length = random.between(1, chosen.bytes().len()) as u32;
            let correction = match random.below(3) {
                0 => chosen,
                1 => Part::Put { address: chosen.address(), bytes: chosen.bytes()[..length as usize].to_vec() },
                _ => store(random, chosen.address(), length),
            };
            let at = random.between(index + 1, parts.len());
            parts.insert(at, correction);
        }
        5 if chosen.end() % 4 == 0 && chosen.end() + 20 <= ADDRESSES => {
            // Begins where the piece ends.
            let length = random.between(1, 20) as u32;
            parts.push(store(random, chosen.end() as u32, length));
        }
        6 if chosen.address() >= 64 => {
            // Ends where the piece begins.
            let length = 4 * random.between(1, 5) as u32;
            parts.push(store(random, (chosen.address() & !3) - length, length));
        }
        7 if !chosen.is_run() => {
            let pieces = otherwise(random, &chosen);
            parts.splice(index..index + 1, pieces);
        }
        _ => parts[index] = altered(random, chosen),
    }
}

/// Other pieces that store the same: a put, or two of them.
fn otherwise(random: &mut Random, part: &Part) -> Vec<Part> {
    let (address, mut bytes) = (part.address(), part.bytes());
    let front = 4 * random.below(bytes.len().div_ceil(4));
    if front == 0 {
        return vec![Part::Put { address, bytes }];
    }
    let rest = bytes.split_off(front);
    vec![Part::Put { address: address.wrapping_add(front as u32), bytes: rest }, Part::Put { address, bytes }]
}

/// A piece with another byte, word, length or address.
fn altered(random: &mut Random, part: Part) -> Part {
    match (part, random.below(4)) {
        (Part::Run { address }, choice) => {
            let other = if choice == 0 { address ^ 4 } else { address ^ 1 };
            Part::Run { address: if other % 4 == 2 { address ^ 2 } else { other } }
        }
        (Part::Put { address, bytes }, 0) => Part::Put { address: moved(random, address), bytes },
        (Part::Put { address, mut bytes }, 1) => {
            let more = random.below(6);
            match more {
                0 | 1 => bytes.truncate(1.max(bytes.len() - 1)),
                2 => bytes.truncate(random.between(1, bytes.len())),
                _ => bytes.extend(random.bytes(more)),
            }
            Part::Put { address, bytes }
        }
        (Part::Put { address, mut bytes }, _) => {
            let at = random.below(bytes.len());
            bytes[at] ^= 1 << random.below(8);
            Part::Put { address, bytes }
        }
        (Part::Fill { address, length, word }, 0) => Part::Fill { address: moved(random, address), length, word },
        (Part::Fill { address, length, word }, 1) => {
            let length = if random.once_in(2) { length + random.between(1, 5) as u32 } else { 1.max(length - 1) };
            Part::Fill { address, length: length.min(65_536), word }
        }
        (Part::Fill { address, length, word }, _) => Part::Fill { address, length, word: word ^ 1 << random.below(32) },
    }
}

fn moved(random: &mut Random, address: u32) -> u32 {
    match random.below(3) {
        0 => address.saturating_sub(4),
        1 => address.checked_add(4).unwrap_or(address),
        _ => address ^ (4 << random.below(30)),
    }
}
