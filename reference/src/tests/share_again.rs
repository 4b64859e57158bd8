//! Images with shared data by what the request says of them, on random plans: their entries and length, the check, what is read back, the
//! plain image, and series of loads.

use std::collections::BTreeSet;

use super::read_back::said;
use super::share::{packed, plainly_packed};
use crate::aplx;
use crate::bytes::le32;
use crate::check::check;
use crate::compare::compare;
use crate::generate::{case_of, Call, Case, Size};
use crate::interface::{map_of, Reference};
use crate::plan::{read, Piece, APLX_UNIT};
use crate::random::Random;
use crate::read_back::read_back;
use crate::series::{granted, loads, meant, Medium};
use crate::tally::Tally;

/// So many random plans that can be packed, with their pieces.
fn plans(count: usize, mut each: impl FnMut(&[u8], &[Piece])) {
    let mut random = Random::new(23);
    let mut packed = 0;
    while packed < count {
        let size = if random.once_in(3) { Size::Stored } else { Size::Free };
        let Case::PackShared { plan, .. } = case_of(Call::PackShared, &mut random, size) else {
            panic!("a plan");
        };
        if let Ok(pieces) = read(&plan, APLX_UNIT) {
            each(&plan, &pieces);
            packed += 1;
        }
    }
}

/// Entry by entry, from the image to the plan: which copy an entry points to, and that the copies stand in a row without a gap.
#[test]
fn as_the_request_says() {
    let mut shared = 0;
    plans(3_000, |plan, pieces| {
        let image = packed(plan);
        let head = 16 * (pieces.len() + 1);
        let mut end = head;
        let mut earlier: Vec<(&[u8], usize)> = Vec::new();
        for (index, piece) in pieces.iter().enumerate() {
            let [command, address, second, third] = [0, 4, 8, 12].map(|k| le32(&image, 16 * index + k));
            match piece {
                Piece::Run { .. } => assert_eq!([command, second, third], [4, 0, 0]),
                Piece::Fill { length, word, .. } => assert_eq!([command, second, third], [3, *length, *word]),
                Piece::Put { data, .. } => {
                    let bytes = &plan[data.clone()];
                    let start = 16 * index + second as usize;
                    assert_eq!((command, third as usize), (2, bytes.len()));
                    assert_eq!(&image[start..start + bytes.len()], bytes);
                    match earlier.iter().find(|(other, _)| *other == bytes) {
                        Some((_, first)) => {
                            assert_eq!(start, *first, "the earliest copy");
                            shared += 1;
                        }
                        None => {
                            assert_eq!(start, end, "a new copy, behind the last one");
                            end += bytes.len();
                        }
                    }
                    earlier.push((bytes, start));
                }
            }
            assert_eq!(address, piece.address());
        }
        assert_eq!(image[head - 16..head], [[0xff; 4], [0; 4], [0; 4], [0; 4]].concat()[..]);
        assert_eq!(image.len(), end);
        let contents: BTreeSet<&[u8]> = earlier.iter().map(|(bytes, _)| *bytes).collect();
        assert_eq!(end, head + contents.iter().map(|bytes| bytes.len()).sum::<usize>());
    });
    assert!(shared > 4_000);
}

/// The check accepts the image; what is read back says what the plan says, and has the plan's plain image. Where nothing is shared, that is
/// the image.
#[test]
fn checked_and_read_back() {
    let mut alike = 0;
    plans(2_000, |plan, _| {
        let (image, plain) = (packed(plan), plainly_packed(plan));
        assert_eq!(check(plan, &image), Ok(()));
        let mut back = vec![0; plain.len()];
        assert_eq!(read_back(&image, &mut back), Ok(plain.len() as u64), "a plan is as long as its plain image");
        assert_eq!(said(&back), said(plan));
        assert_eq!(plainly_packed(&back), plain);
        assert_eq!(packed(&back), image);
        assert!(image.len() < plain.len() || image == plain);
        alike += u32::from(image == plain);
    });
    assert!((500..1_500).contains(&alike));
}

/// Demand 3 for shared images, by the reference's own loads.
#[test]
fn series_of_loads() {
    let mut random = Random::new(24);
    for _ in 0..4_000 {
        let Case::SharedImage { plan, table, memory, at, steps } = case_of(Call::SharedImage, &mut random, Size::Free) else {
            panic!("an image in memory");
        };
        let (map, medium) = (map_of(&table).expect("a map"), Medium::Aplx { image: at });
        let pieces = read(&plan, APLX_UNIT).expect("a plan");
        assert!(granted(medium, &pieces, &packed(&plan), &map, &memory, &steps));
        let trace = loads(medium, &pieces, memory.clone(), &steps, &mut |memory, start| aplx::load(&map, memory, start as u32));
        assert_eq!(trace, meant(medium, &plan, &pieces, &map, memory, &steps));
    }
}

/// Plans and images as the differential test makes them.
#[test]
fn as_they_are_compared() {
    let mut tally = Tally::default();
    for number in 0..10_000 {
        let mut random = Random::of_case(23, number);
        let call = if number % 4 == 0 { Call::SharedImage } else { Call::PackShared };
        let case = case_of(call, &mut random, Size::Free);
        assert_eq!(compare(&case, &Reference, &mut random, &mut tally).err(), None, "case {number}");
    }
    for word in ["nothing shared", "one shared", "several shared", "room between the two lengths", "another first byte"] {
        assert!(tally.of("pack_aplx_shared", word) > 100, "{word}");
    }
    assert!(tally.of("series shared", "something shared") > 500);
}
