//! Another firm's image checked: what is accepted, the numbers of a plan, the end word, the entries, and where data may lie.

use super::{plan, refused, words};
use crate::check::check;
use crate::interface::{Library, Reference};
use crate::outcome::Refusal;
use crate::pack::pack_aplx;

pub const END: [u32; 4] = [u32::MAX, 0, 0, 0];
pub const RUN: u32 = 0x101;
pub const WORD: u32 = 0x0403_0201;

/// Entries and what stands behind them. The offsets of RCOPY entries are given from behind the last entry on.
pub fn image(entries: &[[u32; 4]], behind: &[u8]) -> Vec<u8> {
    let mut bytes = Vec::new();
    for (index, [command, address, second, third]) in entries.iter().copied().enumerate() {
        let from = 16 * (entries.len() - index) as u32;
        let second = if command == 2 { second.wrapping_add(from) } else { second };
        bytes.extend(words(&[command, address, second, third]));
    }
    bytes.extend(behind);
    bytes
}

pub fn bytes(first: u8, count: u8) -> Vec<u8> {
    (first..first + count).collect()
}

/// Put 96 bytes at 0x1000, fill 64 at 0x2000, run, put 32 at 0x3000: bytes 32 to 63 of the first put.
pub fn plan_of_four() -> Vec<u8> {
    plan(&[[1, 0x1000, 96, 0], [2, 0x2000, 64, WORD], [3, RUN, 0, 0], [1, 0x3000, 32, 32]], &bytes(1, 96))
}

/// The entries of that plan, one for each piece.
pub const WHOLE: [[u32; 4]; 5] =
    [[2, 0x1000, 0, 96], [3, 0x2000, 64, WORD], [4, RUN, 0, 0], [2, 0x3000, 32, 32], END];

#[test]
fn one_entry_for_each_piece() {
    assert_eq!(check(&plan_of_four(), &image(&WHOLE, &bytes(1, 96))), Ok(()));
    let mut packed = vec![0; 500];
    let length = pack_aplx(&plan_of_four(), &mut packed).expect("a plan that is packed");
    assert_eq!(check(&plan_of_four(), &packed[..length as usize]), Ok(()));
    assert_eq!(check(&plan_of_four(), &packed), Ok(()), "bytes behind the image");
    assert_eq!(check(&plan(&[], &[]), &image(&[END], &[])), Ok(()));
    assert_eq!(check(&plan(&[], &[1, 2]), &image(&[[u32::MAX, 1, 2, 3], WHOLE[0]], &[9; 5])), Ok(()));
}

#[test]
fn in_parts() {
    // The parts of the first put lie in another order, one inside the bytes of another; unused words are any words.
    let entries = [
        [2, 0x1000, 68, 32],
        [2, 0x1020, 4, 64],
        [3, 0x2000, 32, WORD],
        [3, 0x2020, 32, WORD],
        [4, RUN, 7, u32::MAX],
        [2, 0x3000, 4, 32],
        [u32::MAX, 1, 2, 3],
    ];
    let mut behind = vec![0xee; 4];
    behind.extend(bytes(33, 64));
    behind.extend(bytes(1, 32));
    assert_eq!(check(&plan_of_four(), &image(&entries, &behind)), Ok(()));
    behind.extend([0xff; 33]);
    assert_eq!(check(&plan_of_four(), &image(&entries, &behind)), Ok(()), "end words behind the end");
    let other = [[2, 0x1000, 0, 64], [2, 0x1040, 64, 32], WHOLE[1], WHOLE[2], WHOLE[3], END];
    assert_eq!(check(&plan_of_four(), &image(&other, &bytes(1, 96))), Ok(()));
}

/// The numbers of a plan, whatever the image is.
#[test]
fn a_refused_plan() {
    let second = |piece| plan(&[[2, 0, 4, 0], piece], &[0; 64]);
    for (number, place, bad) in [
        (2, 0, vec![0; 15]),
        (2, 0, words(&[1, 16, 16, 0])),
        (2, 0, words(&[0, 16, 16, 1])),
        (11, 0, words(&[65, 0, 0, 0])),
        (11, 1, second([4, 0, 0, 0])),
        (11, 1, second([3, 0, 4, 0])),
        (9, 1, second([3, 2, 0, 0])),
        (5, 1, second([1, 0, 0, 0])),
        (11, 1, second([2, 0, 65_537, 0])),
        (3, 1, second([2, 1, 4, 0])),
        (2, 1, second([1, 0, 4, 61])),
    ] {
        for image in [vec![], image(&[END], &[]), image(&WHOLE, &bytes(1, 96)), vec![0; 5_000]] {
            assert_eq!(check(&bad, &image), refused(number, place));
        }
    }
}

/// 12 and 19 are not tested: such a plan is read, and has no image, or one whose entry goes past the last address.
#[test]
fn plans_that_are_read() {
    for length in [1, 20, 31, 33] {
        let odd = plan(&[[2, 0x100, length, 0]], &[]);
        assert_eq!(check(&odd, &image(&[[3, 0x100, 32, 0], END], &[])), refused(30, u64::from(length == 33)));
    }
    let past = plan(&[[2, 0xffff_ffe0, 64, 7]], &[]);
    assert_eq!(check(&past, &image(&[[3, 0xffff_ffe0, 64, 7], END], &[])), Ok(()));
}

#[test]
fn the_end_word() {
    let empty = plan(&[], &[]);
    let none = |length: usize| check(&empty, &vec![0; length]);
    for (length, whole) in [(0, 0), (15, 0), (16, 1), (31, 1), (32, 2), (4_095, 255), (4_096, 256), (4_112, 256), (9_000, 256)] {
        assert_eq!(none(length), refused(30, whole));
    }
    let at = |index: usize| {
        let mut image = vec![0; 16 * (index + 1)];
        image[16 * index..].fill(0xff);
        check(&empty, &image)
    };
    assert_eq!(at(0), Ok(()));
    assert_eq!(at(1), refused(30, 0), "an entry before the end");
    assert_eq!(at(255), refused(30, 0));
    assert_eq!(at(256), refused(30, 256), "the 257th entry is not looked at");
    // Cut inside the end entry, and end words that are no commands.
    let whole = image(&WHOLE, &bytes(1, 96));
    for length in 64..80 {
        assert_eq!(check(&plan_of_four(), &whole[..length]), refused(30, 4));
    }
    assert_eq!(check(&plan_of_four(), &whole[..63]), refused(30, 3));
    assert_eq!(check(&empty, &words(&[0, u32::MAX, u32::MAX, u32::MAX])), refused(30, 1));
    // The first end word is the end, also where another one is due.
    assert_eq!(check(&empty, &image(&[END, END], &[])), Ok(()));
    let twice = [WHOLE[0], END, WHOLE[1], WHOLE[2], WHOLE[3], END];
    assert_eq!(check(&plan_of_four(), &image(&twice, &bytes(1, 96))), refused(30, 1));
}

#[test]
fn how_many_entries() {
    let filled = |parts: u32| {
        let entries: Vec<[u32; 4]> = (0..parts).map(|k| [3, 0x100 + 32 * k, 32, WORD]).chain([END]).collect();
        check(&plan(&[[2, 0x100, 32 * parts, WORD]], &[]), &image(&entries, &[]))
    };
    assert_eq!(filled(1), Ok(()));
    assert_eq!(filled(254), Ok(()));
    assert_eq!(filled(255), Ok(()), "256 entries");
    assert_eq!(filled(256), refused(30, 256), "257 entries");
    assert_eq!(filled(257), refused(30, 256));
}

/// An RCOPY of 32 bytes at so many bytes from the image's start, in an image of so many; the bytes are those that are there.
fn data_at(start: u32, length: usize) -> Result<(), Refusal> {
    let entries = [[3, 0, 32, 0], [2, 0x100, start.wrapping_sub(48), 32], [u32::MAX, 5, 6, 7]];
    let mut whole = image(&entries, &[]);
    whole.extend((whole.len()..length).map(|k| k as u8));
    let here = whole.get(start as usize..).unwrap_or_default();
    let data: Vec<u8> = here.iter().copied().chain([0; 32]).take(32).collect();
    check(&plan(&[[2, 0, 32, 0], [1, 0x100, 32, 0]], &data), &whole)
}

#[test]
fn where_data_may_lie() {
    for start in [48, 52, 60, 64, 68] {
        assert_eq!(data_at(start, 100), Ok(()));
    }
    for start in [0, 16, 32, 36, 40, 44] {
        assert_eq!(data_at(start, 100), refused(30, 1), "over an entry: {start}");
    }
    for start in [72, 96, 100, 4_000, 0x8000_0000, 0xffff_fff0, 0xffff_ffe0, 0xffff_ffc0] {
        assert_eq!(data_at(start, 100), refused(30, 1), "past the slice: {start}");
    }
    for start in [49, 50, 51, 53, 65, 66, 67] {
        assert_eq!(data_at(start, 100), refused(30, 1), "no multiple of 4: {start}");
    }
    assert_eq!(data_at(48, 80), Ok(()));
    assert_eq!(data_at(48, 79), refused(30, 1));
    assert_eq!(data_at(68, 99), refused(30, 1));
}

/// The eight numbers: refusal, place, event, kind, address, resume, items, bytes.
#[test]
fn the_numbers_of_the_outcome() {
    let of = |plan: &[u8], image: &[u8]| {
        let mut numbers = [9; 8];
        let number = Reference.aplx_check(plan, image, &mut numbers);
        assert_eq!(u64::from(number), numbers[0]);
        numbers
    };
    let whole = image(&WHOLE, &bytes(1, 96));
    assert_eq!(of(&plan_of_four(), &whole), [0, 0, 15, 0, 0, 0, 0, 0]);
    assert_eq!(of(&plan_of_four(), &whole[..175]), [30, 0, 0, 0, 0, 0, 0, 0]);
    assert_eq!(of(&plan_of_four(), &whole[..70]), [30, 4, 0, 0, 0, 0, 0, 0]);
    assert_eq!(of(&plan(&[[3, 0, 0, 0], [2, 1, 4, 0]], &[]), &whole), [3, 1, 0, 0, 0, 0, 0, 0]);
}
