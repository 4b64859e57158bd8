//! What a supplier's packer may do wrong: each fault is refused with 30 and the entry that has it.

use super::check::{bytes, image, plan_of_four, END, RUN, WHOLE, WORD};
use super::{plan, refused};
use crate::check::check;

/// The place at which the entries of the plan of four pieces are refused.
fn place(entries: &[[u32; 4]]) -> Option<u64> {
    check(&plan_of_four(), &image(entries, &bytes(1, 96))).err().map(|refusal| {
        assert_eq!(refusal.number, 30);
        refusal.place
    })
}

/// The plan's image with one entry in another's place.
fn with(index: usize, entry: [u32; 4]) -> Option<u64> {
    let mut entries = WHOLE;
    entries[index] = entry;
    place(&entries)
}

const PARTS: [[u32; 4]; 6] = [[2, 0x1000, 0, 32], [2, 0x1020, 32, 64], WHOLE[1], WHOLE[2], WHOLE[3], END];

#[test]
fn without_a_fault() {
    assert_eq!(place(&WHOLE), None);
    assert_eq!(place(&PARTS), None);
    assert_eq!(with(2, [4, RUN, 5, 6]), None);
}

#[test]
fn pieces_in_another_order() {
    let [first, fill, run, last, end] = WHOLE;
    assert_eq!(place(&[first, fill, last, run, end]), Some(2));
    assert_eq!(place(&[fill, first, run, last, end]), Some(0));
    // Sorted by address: a correction that is listed last comes first.
    let correction = plan(&[[2, 0x2000, 64, 0], [2, 0x1000, 32, 0], [2, 0x2020, 32, 5]], &[]);
    let sorted = image(&[[3, 0x1000, 32, 0], [3, 0x2000, 64, 0], [3, 0x2020, 32, 5], END], &[]);
    assert_eq!(check(&correction, &sorted), refused(30, 0));
    assert_eq!(place(&[PARTS[1], PARTS[0], PARTS[2], PARTS[3], PARTS[4], end]), Some(0), "two parts exchanged");
}

#[test]
fn a_piece_that_is_padded_or_cut() {
    let twenty = plan(&[[3, RUN, 0, 0], [1, 0x1000, 20, 0]], &bytes(1, 20));
    let of = |length| check(&twenty, &image(&[[4, RUN, 0, 0], [2, 0x1000, 0, length], END], &[bytes(1, 20), vec![0; 12]].concat()));
    assert_eq!(of(32), refused(30, 1));
    assert_eq!(of(20), refused(30, 1));
    // 50 bytes: the first part is one, and no second part is.
    let fifty = plan(&[[2, 0x1000, 50, WORD]], &[]);
    let of = |second| check(&fifty, &image(&[[3, 0x1000, 32, WORD], second, END], &[]));
    assert_eq!(of([3, 0x1020, 32, WORD]), refused(30, 1));
    assert_eq!(of([3, 0x1020, 18, WORD]), refused(30, 1));
    assert_eq!(check(&fifty, &image(&[[3, 0x1000, 32, WORD], END], &[])), refused(30, 1));
    assert_eq!(check(&fifty, &image(&[[3, 0x1000, 64, WORD], END], &[])), refused(30, 0));
}

#[test]
fn a_part_past_the_end_or_over_the_next() {
    assert_eq!(with(1, [3, 0x2000, 96, WORD]), Some(1), "past the piece's end");
    assert_eq!(with(3, [2, 0x3000, 32, 64]), Some(3));
    assert_eq!(with(3, [2, 0x3000, 32, 0xffff_ffe0]), Some(3));
    let mut entries = PARTS;
    entries[0] = [2, 0x1000, 0, 64];
    assert_eq!(place(&entries), Some(1), "over the next part");
    // Two pieces side by side as one.
    let two = plan(&[[2, 0x1000, 32, 7], [2, 0x1020, 32, 7]], &[]);
    assert_eq!(check(&two, &image(&[[3, 0x1000, 64, 7], END], &[])), refused(30, 0));
}

#[test]
fn lengths() {
    for length in [0, 1, 4, 16, 31, 33, 63, 65] {
        assert_eq!(with(0, [2, 0x1000, 0, length]), Some(0));
        assert_eq!(with(1, [3, 0x2000, length, WORD]), Some(1));
    }
    // A part of no bytes beside the others.
    assert_eq!(place(&[PARTS[0], [2, 0x1020, 0, 0], PARTS[1], PARTS[2], PARTS[3], PARTS[4], END]), Some(1));
    // A shorter part leaves the rest to the next entry.
    assert_eq!(with(0, [2, 0x1000, 0, 64]), Some(1));
}

/// A word split between two parts, in two ways.
#[test]
fn a_fill_that_begins_again_in_mid_word() {
    let filled = |entries: [[u32; 4]; 2]| check(&plan(&[[2, 0x2000, 64, WORD]], &[]), &image(&[entries[0], entries[1], END], &[]));
    assert_eq!(filled([[3, 0x2000, 30, WORD], [3, 0x201e, 34, WORD]]), refused(30, 0));
    assert_eq!(filled([[3, 0x2000, 32, WORD], [3, 0x201e, 32, WORD.rotate_left(16)]]), refused(30, 1));
    assert_eq!(filled([[3, 0x2000, 32, WORD], [3, 0x2020, 32, WORD.rotate_left(16)]]), refused(30, 1));
    assert_eq!(filled([[3, 0x2000, 32, WORD], [3, 0x2020, 32, WORD]]), Ok(()));
}

#[test]
fn other_commands() {
    for command in [0, 1, 3, 4, 5, 0x0100_0002, u32::MAX - 1] {
        assert_eq!(with(0, [command, 0x1000, 80, 96]), Some(0), "a put as {command}");
    }
    for command in [0, 1, 2, 4, 5, 0x0100_0003] {
        assert_eq!(with(1, [command, 0x2000, 64, WORD]), Some(1), "a fill as {command}");
    }
    assert_eq!(with(1, [2, 0x2000, 0, 64]), Some(1));
    assert_eq!(with(2, [3, RUN, 0, 0]), Some(2));
    assert_eq!(with(2, [5, RUN, 0, 0]), Some(2));
    // The same effect, and yet another kind of entry.
    let even = plan(&[[1, 0x1000, 32, 0], [2, 0x2000, 32, 0x0707_0707]], &[7; 32]);
    let entries = |first, second| check(&even, &image(&[first, second, END], &[7; 32]));
    let (put, fill) = ([2, 0x1000, 0, 32], [3, 0x2000, 32, 0x0707_0707]);
    assert_eq!(entries(put, fill), Ok(()));
    assert_eq!(entries([3, 0x1000, 32, 0x0707_0707], fill), refused(30, 0));
    assert_eq!(entries(put, [2, 0x2000, 0, 32]), refused(30, 1));
}

#[test]
fn addresses_words_and_bytes() {
    for (index, entry) in WHOLE.iter().enumerate().take(4) {
        for change in [1, 2, 4, 0x0100_0000, 0x8000_0000] {
            let mut other = *entry;
            other[1] ^= change;
            assert_eq!(with(index, other), Some(index as u64), "another address");
        }
    }
    for bit in 0..32 {
        assert_eq!(with(1, [3, 0x2000, 64, WORD ^ 1 << bit]), Some(1), "another word");
    }
    // Bytes 32 to 63 are shared: the first put comes first.
    for at in 0..96 {
        let mut data = bytes(1, 96);
        data[at] ^= 0x10;
        assert_eq!(check(&plan_of_four(), &image(&WHOLE, &data)), refused(30, 0));
    }
    let mut data = [bytes(1, 96), bytes(33, 32)].concat();
    let mut entries = WHOLE;
    entries[3][2] = 96;
    assert_eq!(check(&plan_of_four(), &image(&entries, &data)), Ok(()));
    data[127] = 0;
    assert_eq!(check(&plan_of_four(), &image(&entries, &data)), refused(30, 3));
    assert_eq!(check(&plan_of_four(), &image(&entries, &data[..127])), refused(30, 3));
}

#[test]
fn entries_too_few_or_too_many() {
    let [first, fill, run, last, end] = WHOLE;
    assert_eq!(place(&[end]), Some(0), "the end too early");
    assert_eq!(place(&[first, fill, run, end, last, end]), Some(3));
    assert_eq!(place(&[PARTS[0], end]), Some(1), "a piece in the middle of its parts");
    for more in [first, fill, run, last, [1, 0, 0, 32], [0; 4], [3, 0x3020, 32, 0]] {
        assert_eq!(place(&[first, fill, run, last, more, end]), Some(4), "the end too late");
    }
    assert_eq!(place(&[first, run, last, end]), Some(1));
    assert_eq!(place(&[first, first, fill, run, last, end]), Some(1));
    assert_eq!(place(&[first, fill, run, run, last, end]), Some(3));
    assert_eq!(check(&plan(&[], &[]), &image(&[run, end], &[])), refused(30, 0));
    // A piece that is listed twice is due twice.
    let again = plan(&[[2, 0x2000, 64, WORD]; 2], &[]);
    assert_eq!(check(&again, &image(&[fill, fill, end], &[])), Ok(()));
    assert_eq!(check(&again, &image(&[fill, end], &[])), refused(30, 1));
}

/// No part begins past address 4,294,967,295, though the piece may go on past it.
#[test]
fn the_last_address() {
    let of = |address, parts: &[[u32; 4]]| {
        let entries: Vec<[u32; 4]> = parts.iter().copied().chain([END]).collect();
        check(&plan(&[[2, address, 96, 7]], &[]), &image(&entries, &[]))
    };
    assert_eq!(of(0xffff_ffe0, &[[3, 0xffff_ffe0, 96, 7]]), Ok(()));
    assert_eq!(of(0xffff_ffe0, &[[3, 0xffff_ffe0, 32, 7], [3, 0, 64, 7]]), refused(30, 1));
    assert_eq!(of(0xffff_ffdc, &[[3, 0xffff_ffdc, 32, 7], [3, 0xffff_fffc, 64, 7]]), Ok(()));
    assert_eq!(of(0xffff_ffdc, &[[3, 0xffff_ffdc, 32, 7], [3, 0xffff_fffc, 32, 7], [3, 0x1c, 32, 7]]), refused(30, 2));
    assert_eq!(of(0xffff_ffa0, &[[3, 0xffff_ffa0, 32, 7], [3, 0xffff_ffc0, 32, 7], [3, 0xffff_ffe0, 32, 7]]), Ok(()));
}
