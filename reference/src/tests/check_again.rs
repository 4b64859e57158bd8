//! The check once more, by units of 32 bytes, beside the first one; and images whose answer follows from how they were made.

use super::check::{bytes, image, END};
use super::{map, plan, refused};
use crate::aplx;
use crate::bytes::le32;
use crate::check::check;
use crate::compare::compare;
use crate::generate::{case_of, Call, Case, Size, FAULTS};
use crate::interface::Reference;
use crate::outcome::Refusal;
use crate::plan::{self as plans, Piece, NO_UNIT};
use crate::random::Random;
use crate::tally::Tally;

/// What an entry does, cut into units; and what a piece asks for.
#[derive(Clone, Debug, PartialEq)]
enum Unit {
    Put(u64, Vec<u8>),
    Fill(u64, u32),
    Run(u32),
    /// Less than 32 bytes: no entry does it.
    Odd,
}

/// The units of a piece.
fn asked(plan: &[u8], piece: &Piece) -> Vec<Unit> {
    let starts = (0..piece.length()).step_by(32);
    let unit = |done: u64| {
        let address = u64::from(piece.address()) + done;
        match piece {
            _ if done + 32 > piece.length() => Unit::Odd,
            Piece::Put { data, .. } => Unit::Put(address, plan[data.clone()][done as usize..][..32].to_vec()),
            Piece::Fill { word, .. } => Unit::Fill(address, *word),
            Piece::Run { .. } => Unit::Odd,
        }
    };
    match piece {
        Piece::Run { address } => vec![Unit::Run(*address)],
        _ => starts.map(unit).collect(),
    }
}

/// The units of an entry that is not the end, in an image with its end at an entry; None where it is no entry that may stand there.
fn done(image: &[u8], index: usize, end: usize) -> Option<Vec<Unit>> {
    let [command, address, second, third] = [0, 4, 8, 12].map(|k| le32(image, 16 * index + k));
    if command == aplx::EXEC {
        return Some(vec![Unit::Run(address)]);
    }
    let length = if command == aplx::FILL { second } else { third };
    if length == 0 || length % 32 != 0 || length > 65_536 {
        return None;
    }
    let addresses = (0..u64::from(length)).step_by(32).map(|k| u64::from(address) + k);
    match command {
        aplx::FILL => Some(addresses.map(|address| Unit::Fill(address, third)).collect()),
        aplx::RCOPY => {
            let start = (16 * index as u64 + u64::from(second)) % (1 << 32);
            let behind = start.checked_sub(16 * (end as u64 + 1))? as usize;
            let data = image[16 * (end + 1)..].get(behind..)?.get(..length as usize)?;
            let aligned = start % 4 == 0;
            aligned.then(|| addresses.zip(data.chunks(32)).map(|(address, data)| Unit::Put(address, data.to_vec())).collect())
        }
        _ => None,
    }
}

fn check_again(plan: &[u8], image: &[u8]) -> Result<(), Refusal> {
    let pieces = plans::read(plan, NO_UNIT)?;
    let entries: Vec<&[u8]> = image.chunks_exact(16).take(256).collect();
    let Some(end) = entries.iter().position(|entry| entry.starts_with(&[0xff; 4])) else {
        return refused(30, entries.len() as u64);
    };
    let mut left: Vec<Vec<Unit>> = pieces.iter().rev().map(|piece| asked(plan, piece)).collect();
    for index in 0..end {
        let units = done(image, index, end).unwrap_or(vec![Unit::Odd]);
        let fits = left.last().is_some_and(|due| due.starts_with(&units)) && units[0] != Unit::Odd;
        if !fits {
            return refused(30, index as u64);
        }
        let due = left.pop().unwrap_or_default().split_off(units.len());
        if !due.is_empty() {
            left.push(due);
        }
    }
    if left.is_empty() { Ok(()) } else { refused(30, end as u64) }
}

#[test]
fn twice_the_same() {
    let mut accepted = 0;
    for number in 0..30_000 {
        let mut random = Random::of_case(20, number);
        let Case::AplxCheck { plan, image, made, .. } = case_of(Call::AplxCheck, &mut random, Size::Free) else {
            panic!("an image that is checked");
        };
        let answer = check(&plan, &image);
        assert_eq!(answer, check_again(&plan, &image), "case {number}, {made}");
        accepted += u32::from(answer.is_ok());
    }
    assert!((8_000..15_000).contains(&accepted));
}

/// Images as the differential test makes them: what was made wrong is what is refused.
#[test]
fn as_they_were_made() {
    let mut tally = Tally::default();
    for number in 0..30_000 {
        let mut random = Random::of_case(21, number);
        let call = if number % 10 == 0 { Call::SuppliedImage } else { Call::AplxCheck };
        let size = if number % 3 == 0 { Size::Stored } else { Size::Free };
        let case = case_of(call, &mut random, size);
        assert_eq!(compare(&case, &Reference, &mut random, &mut tally).err(), None, "case {number}");
    }
    for (name, _) in FAULTS {
        assert!(tally.of("aplx_check", &format!("made: {name}")) > 50, "{name}");
    }
    assert!(tally.of("series supplied", "stop run") > 100);
}

/// A put over two regions is not permitted, though each of its parts is: what the load leaves stands.
#[test]
fn parts_in_two_regions() {
    let two = plan(&[[1, 0x1000, 64, 0]], &bytes(1, 64));
    let whole = image(&[[2, 0x1000, 0, 64], END], &bytes(1, 64));
    let parts = image(&[[2, 0x1000, 0, 32], [2, 0x1020, 32, 32], END], &bytes(1, 64));
    let regions = map(&[[0x1000, 32, 0, 2], [0x1020, 32, 32, 2], [0x2000, 128, 64, 1]]);
    let load = |image: &[u8]| {
        assert_eq!(check(&two, image), Ok(()));
        let mut memory = [vec![0; 64], image.to_vec(), vec![0; 64]].concat();
        let answer = aplx::load(&regions, &mut memory, 0x2000);
        (answer.map(|loaded| loaded.stored), memory[..64].to_vec())
    };
    assert_eq!(load(&whole), (refused(4, 0), vec![0; 64]));
    assert_eq!(load(&parts), (Ok(64), bytes(1, 64)));
}
