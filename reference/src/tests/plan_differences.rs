//! Two plans compared: what a stretch is and what it tells, which pieces count, the runs, the last address, and random pairs.

use std::collections::{BTreeMap, BTreeSet};

use super::{plan, words};
use crate::compare::compare as compare_case;
use crate::generate::{case_of, Call, Case, Size};
use crate::interface::Reference;
use crate::plan::{read, Piece, NO_UNIT};
use crate::plan_difference::{compare, Compared, NEEDED, NOT_STORED};
use crate::random::Random;
use crate::tally::Tally;

const NONE: u32 = NOT_STORED as u32;

/// The stretches that two plans give, and whether the runs are the same. The output past them is as it was.
fn compared(old: &[u8], new: &[u8]) -> (Vec<[u32; 4]>, bool) {
    let mut output = vec![0xa5; NEEDED + 3];
    let Compared { stretches, same_run } = compare(old, new, &mut output).expect("two plans");
    let (listed, rest) = output.split_at(16 * stretches as usize);
    assert!(rest.iter().all(|byte| *byte == 0xa5));
    let word = |bytes: &[u8], k: usize| u32::from_le_bytes(bytes[k..k + 4].try_into().expect("a word"));
    let stretch = |bytes: &[u8]| [0, 4, 8, 12].map(|k| word(bytes, k));
    (listed.chunks_exact(16).map(stretch).collect(), same_run)
}

/// The stretches of two plans without runs, given as pieces and data.
fn stretches(old: (&[[u32; 4]], &[u8]), new: (&[[u32; 4]], &[u8])) -> Vec<[u32; 4]> {
    let (stretches, same_run) = compared(&plan(old.0, old.1), &plan(new.0, new.1));
    assert!(same_run);
    stretches
}

const EMPTY: (&[[u32; 4]], &[u8]) = (&[], &[]);

#[test]
fn addresses_that_one_plan_stores() {
    let put: (&[[u32; 4]], &[u8]) = (&[[1, 0x100, 5, 1]], &[9, 8, 7, 6, 5, 4]);
    assert_eq!(stretches(put, EMPTY), [[0x100, 0x104, 8, NONE]]);
    assert_eq!(stretches(EMPTY, put), [[0x100, 0x104, NONE, 8]]);
    assert_eq!(stretches(put, put), [[0; 4]; 0]);
    assert_eq!(stretches(EMPTY, EMPTY), [[0; 4]; 0]);
    let zero: (&[[u32; 4]], &[u8]) = (&[[2, 0x100, 4, 0]], &[]);
    assert_eq!(stretches(zero, EMPTY), [[0x100, 0x103, 0, NONE]], "a byte of 0 is stored");
}

#[test]
fn bytes_that_differ() {
    let old: (&[[u32; 4]], &[u8]) = (&[[1, 0x100, 8, 0]], &[0, 1, 2, 3, 4, 5, 6, 7]);
    let new: (&[[u32; 4]], &[u8]) = (&[[1, 0x100, 8, 0]], &[0, 9, 9, 3, 4, 9, 6, 9]);
    assert_eq!(stretches(old, new), [[0x101, 0x102, 1, 9], [0x105, 0x105, 5, 9], [0x107, 0x107, 7, 9]]);
}

/// A stretch is as long as it can be, whatever the kinds of its addresses.
#[test]
fn stretches_are_joined() {
    // Only old, then both with other bytes, then only new.
    let old: (&[[u32; 4]], &[u8]) = (&[[2, 0x100, 8, 0x0404_0404]], &[]);
    let new: (&[[u32; 4]], &[u8]) = (&[[2, 0x104, 8, 0x0505_0505]], &[]);
    assert_eq!(stretches(old, new), [[0x100, 0x10b, 4, NONE]]);
    assert_eq!(stretches(new, old), [[0x100, 0x10b, NONE, 4]]);
    // Pieces that end where the other plan's begin, also over a border of 256 and of 65,536 addresses.
    for border in [0x104, 0x200, 0x1_0000, 0x8000_0000] {
        let old = [[2, border - 4, 4, 1]];
        let new = [[2, border, 4, 2]];
        assert_eq!(stretches((&old, &[]), (&new, &[])), [[border - 4, border + 3, 1, NONE]]);
    }
    // One equal byte between them keeps two apart.
    let old: (&[[u32; 4]], &[u8]) = (&[[1, 0, 3, 0]], &[1, 2, 3]);
    let new: (&[[u32; 4]], &[u8]) = (&[[1, 0, 3, 0]], &[7, 2, 7]);
    assert_eq!(stretches(old, new), [[0, 0, 1, 7], [2, 2, 3, 7]]);
    // So does one address that neither stores.
    let apart = [[2, 0, 3, 0], [2, 4, 1, 0]];
    assert_eq!(stretches((&apart, &[]), EMPTY), [[0, 2, 0, NONE], [4, 4, 0, NONE]]);
}

#[test]
fn the_last_piece_decides() {
    let twice = [[2, 0x100, 8, 0x0101_0101], [2, 0x104, 4, 0x0202_0202]];
    let once: (&[[u32; 4]], &[u8]) = (&[[1, 0x100, 8, 0]], &[1, 1, 1, 1, 2, 2, 2, 2]);
    assert_eq!(stretches((&twice, &[]), once), [[0; 4]; 0], "a correction that is listed later");
    let other_order = [twice[1], twice[0]];
    assert_eq!(stretches((&twice, &[]), (&other_order, &[])), [[0x104, 0x107, 2, 1]]);
    // Stretches ascend, whatever the order of the pieces.
    let high_first = [[2, 0xf000_0000, 4, 3], [2, 0x10, 4, 4]];
    assert_eq!(stretches((&high_first, &[]), EMPTY), [[0x10, 0x13, 4, NONE], [0xf000_0000, 0xf000_0003, 3, NONE]]);
}

#[test]
fn fills_are_cut_and_little_endian() {
    let fill: (&[[u32; 4]], &[u8]) = (&[[2, 0x100, 7, 0x0403_0201]], &[]);
    let put: (&[[u32; 4]], &[u8]) = (&[[1, 0x100, 7, 0]], &[1, 2, 3, 4, 1, 2, 3]);
    assert_eq!(stretches(fill, put), [[0; 4]; 0]);
    let longer: (&[[u32; 4]], &[u8]) = (&[[2, 0x100, 9, 0x0403_0201]], &[]);
    assert_eq!(stretches(fill, longer), [[0x107, 0x108, NONE, 4]]);
}

#[test]
fn only_the_first_stretch_of_a_plan_counts() {
    let old = plan(&[[2, 0, 4, 1], [3, 0x101, 0, 0], [2, 0x100, 4, 1], [3, 0x200, 0, 0]], &[]);
    let new = plan(&[[2, 0, 4, 1], [3, 0x101, 0, 0], [2, 0, 4, 2]], &[]);
    assert_eq!(compared(&old, &new), (vec![], true));
    // Without its run the second plan goes to its end.
    let on = plan(&[[2, 0, 4, 1], [2, 0, 4, 2]], &[]);
    assert_eq!(compared(&old, &on), (vec![[0, 0, 1, 2]], false));
    // A run at the front leaves nothing to compare.
    let at_once = plan(&[[3, 0x101, 0, 0], [2, 0, 4, 1]], &[]);
    assert_eq!(compared(&at_once, &plan(&[], &[])), (vec![], false));
}

#[test]
fn runs() {
    let of = |run: Option<u32>| run.map_or(plan(&[], &[]), |address| plan(&[[3, address, 0, 0]], &[]));
    for (old, new, same) in [
        (None, None, true),
        (Some(0), Some(0), true),
        (Some(0x101), Some(0x101), true),
        (Some(0), None, false),
        (None, Some(0), false),
        (Some(0x100), Some(0x101), false),
        (Some(0x101), Some(0x103), false),
        (Some(4), Some(8), false),
    ] {
        assert_eq!(compared(&of(old), &of(new)), (vec![], same), "{old:x?} and {new:x?}");
    }
}

#[test]
fn the_last_address() {
    let old: (&[[u32; 4]], &[u8]) = (&[[2, 0xffff_fff8, 8, 1]], &[]);
    let new: (&[[u32; 4]], &[u8]) = (&[[1, 0xffff_fff8, 8, 0]], &[1, 0, 0, 0, 1, 0, 0, 5]);
    assert_eq!(stretches(old, new), [[u32::MAX, u32::MAX, 0, 5]]);
    assert_eq!(stretches(old, EMPTY), [[0xffff_fff8, u32::MAX, 1, NONE]]);
    let longest = [[2, 0xffff_0000, 65_536, 6]];
    assert_eq!(stretches(EMPTY, (&longest, &[])), [[0xffff_0000, u32::MAX, NONE, 6]]);
    // The first and the last address do not adjoin.
    let both = [[2, 0xffff_fffc, 4, 1], [2, 0, 4, 2]];
    assert_eq!(stretches((&both, &[]), EMPTY), [[0, 3, 2, NONE], [0xffff_fffc, u32::MAX, 1, NONE]]);
}

#[test]
fn the_longest_plans() {
    let data: Vec<u8> = (0..65_536u32).map(|k| (k % 251) as u8).collect();
    let pieces: Vec<[u32; 4]> = (0..64).map(|k| [1, 0xffc0_0000 + 65_536 * k, 65_536, 0]).collect();
    let all: (&[[u32; 4]], &[u8]) = (&pieces, &data);
    assert_eq!(stretches(all, EMPTY), [[0xffc0_0000, u32::MAX, 0, NONE]]);
    assert_eq!(stretches(all, (&pieces[1..], &data)), [[0xffc0_0000, 0xffc0_ffff, 0, NONE]]);
    assert_eq!(stretches((&pieces[..63], &data), all), [[0xffff_0000, u32::MAX, NONE, 0]]);
}

/// The output holds four words a stretch, Little Endian.
#[test]
fn the_bytes_of_a_stretch() {
    let mut output = [0xa5; NEEDED];
    let old = plan(&[[2, 0x0102_0304, 2, 0xfe]], &[]);
    let answer = compare(&old, &words(&[0, 0, 0, 0]), &mut output);
    assert_eq!(answer, Ok(Compared { stretches: 1, same_run: true }));
    assert_eq!(output[..16], [4, 3, 2, 1, 5, 3, 2, 1, 0xfe, 0, 0, 0, 0, 1, 0, 0]);
    assert_eq!(output[16..], [0xa5; NEEDED - 16]);
}

/// The last byte at each address that a plan stores, one by one; None where a piece is longer than this needs.
fn one_by_one(plan: &[u8]) -> Option<BTreeMap<u32, u8>> {
    let mut bytes = BTreeMap::new();
    for piece in read(plan, NO_UNIT).ok()? {
        match piece {
            _ if piece.length() > 10_000 => return None,
            Piece::Put { address, data } => {
                bytes.extend(plan[data].iter().enumerate().map(|(k, byte)| (address + k as u32, *byte)));
            }
            Piece::Fill { address, length, word } => {
                bytes.extend((0..length).map(|k| (address + k, (word >> (8 * (k % 4))) as u8)));
            }
            Piece::Run { .. } => break,
        }
    }
    Some(bytes)
}

/// Pairs as the differential test makes them; and the stretches beside those found address by address.
#[test]
fn random_pairs() {
    let mut tally = Tally::default();
    let mut listed = 0;
    for number in 0..3_000 {
        let mut random = Random::of_case(18, number);
        let case = case_of(Call::Compare, &mut random, Size::Free);
        assert_eq!(compare_case(&case, &Reference, &mut random, &mut tally).err(), None, "case {number}");
        let Case::Compare { old, new, .. } = case else { panic!("two plans") };
        if compare(&old, &new, &mut [0; NEEDED]).is_err() {
            continue;
        }
        let (Some(before), Some(after)) = (one_by_one(&old), one_by_one(&new)) else { continue };
        let byte = |bytes: &BTreeMap<u32, u8>, address| bytes.get(&address).map_or(NONE, |byte| u32::from(*byte));
        let addresses: BTreeSet<u32> = before.keys().chain(after.keys()).copied().collect();
        let mut expected: Vec<[u32; 4]> = Vec::new();
        for address in addresses.into_iter().filter(|address| before.get(address) != after.get(address)) {
            match expected.last_mut() {
                Some(stretch) if stretch[1] == address.wrapping_sub(1) => stretch[1] = address,
                _ => expected.push([address, address, byte(&before, address), byte(&after, address)]),
            }
        }
        listed += expected.len();
        assert_eq!(compared(&old, &new).0, expected, "case {number}");
    }
    assert!(listed > 10_000);
    assert!(tally.of("compare", "with its image read back") > 100);
}
