//! Plans packed with equal data kept once: the room that an image needs, each refusal of a plan, and the numbers of the outcome.

use super::check::bytes;
use super::{plan, refused, words};
use crate::interface::{Library, Outcome, Reference};
use crate::pack::{pack_aplx, pack_srom};
use crate::share::pack_aplx_shared;

/// Three puts of the same 64 bytes, and a fill: 80 + 64 bytes, and 80 + 192 plain.
fn three_equal() -> Vec<u8> {
    plan(&[[1, 0, 64, 0], [2, 0x200, 32, 7], [1, 64, 64, 64], [1, 128, 64, 0]], &bytes(1, 64).repeat(2))
}

/// 10 goes by the length of the shared image, and leaves the output as it was.
#[test]
fn room() {
    let plan = three_equal();
    for room in [0, 1, 16, 79, 80, 112, 143] {
        let mut output = vec![0x77; room];
        assert_eq!(pack_aplx_shared(&plan, &mut output), refused(10, 4));
        assert_eq!(output, vec![0x77; room]);
    }
    for room in [144, 145, 160, 271] {
        assert_eq!(pack_aplx_shared(&plan, &mut vec![0; room]), Ok(144));
        assert_eq!(pack_aplx(&plan, &mut vec![0; room]), refused(10, 4), "too small for the plain image");
    }
    assert_eq!(pack_aplx_shared(&plan, &mut [0; 272]), Ok(144));
    assert_eq!(pack_aplx(&plan, &mut [0; 272]), Ok(272));
    let empty = super::plan(&[], &[]);
    assert_eq!(pack_aplx_shared(&empty, &mut [0; 16]), Ok(16));
    assert_eq!(pack_aplx_shared(&empty, &mut [0; 15]), refused(10, 0));
}

/// The numbers, places and order of a plan that is read for APLX; 10 comes last.
#[test]
fn refused_plans() {
    let second = |piece| plan(&[[1, 0, 32, 0], piece, [1, 0, 32, 0]], &[0; 64]);
    for (number, place, bad) in [
        (2, 0, vec![]),
        (2, 0, vec![0; 15]),
        (11, 0, words(&[65, 99, 99, 99])),
        (2, 0, words(&[1, 16, 16, 0])),
        (2, 0, words(&[0, 17, 16, 0])),
        (2, 0, words(&[0, 16, 16, 1])),
        (11, 1, second([0, 0, 0, 0])),
        (11, 1, second([4, 0, 32, 0])),
        (11, 1, second([3, 2, 1, 0])),
        (11, 1, second([3, 2, 0, 1])),
        (9, 1, second([3, 2, 0, 0])),
        (5, 1, second([1, 1, 0, 99])),
        (11, 1, second([1, 1, 65_537, 0])),
        (3, 1, second([1, 2, 33, 60])),
        (2, 1, second([1, 4, 33, 32])),
        (2, 1, second([1, 4, 32, 33])),
        (12, 1, second([1, 4, 20, 0])),
        (12, 1, second([1, 4, 33, 31])),
        (12, 1, second([2, 4, 16, 0])),
        (12, 0, plan(&[[1, 0, 20, 0], [1, 0, 20, 0]], &[0; 20])),
        (12, 0, plan(&[[1, 0, 20, 0], [9, 0, 0, 0]], &[0; 20])),
        (11, 1, plan(&[[1, 0, 32, 0], [9, 0, 0, 0]], &[0; 32])),
    ] {
        for room in [0, 15, 300] {
            let mut output = vec![0x77; room];
            assert_eq!(pack_aplx_shared(&bad, &mut output), refused(number, place));
            assert_eq!(pack_aplx(&bad, &mut output), refused(number, place));
            assert_eq!(output, vec![0x77; room]);
        }
    }
    // Lengths for a serial ROM are not lengths for APLX; a put past the last address can be packed.
    assert!(pack_srom(&plan(&[[1, 0, 20, 0]; 2], &[0; 20]), &mut [0; 64]).is_ok());
    let past = plan(&[[1, 0xffff_fffc, 32, 0], [1, 0, 32, 0]], &[5; 32]);
    assert_eq!(pack_aplx_shared(&past, &mut [0; 80]), Ok(80));
}

fn numbers(plan: &[u8], room: usize) -> Outcome {
    let mut numbers = [9; 8];
    let number = Reference.pack_aplx_shared(plan, &mut vec![0; room], &mut numbers);
    assert_eq!(u64::from(number), numbers[0]);
    numbers
}

/// The eight numbers: refusal, place, event, kind, address, resume, items, bytes.
#[test]
fn the_numbers_of_the_outcome() {
    assert_eq!(numbers(&three_equal(), 500), [0, 0, 8, 0, 0, 0, 0, 144]);
    assert_eq!(numbers(&three_equal(), 144), [0, 0, 8, 0, 0, 0, 0, 144]);
    assert_eq!(numbers(&three_equal(), 143), [10, 4, 0, 0, 0, 0, 0, 144]);
    assert_eq!(numbers(&three_equal(), 0), [10, 4, 0, 0, 0, 0, 0, 144]);
    assert_eq!(numbers(&plan(&[], &[]), 16), [0, 0, 8, 0, 0, 0, 0, 16]);
    assert_eq!(numbers(&plan(&[], &[]), 0), [10, 0, 0, 0, 0, 0, 0, 16]);
    assert_eq!(numbers(&plan(&[[1, 0, 32, 0], [1, 0, 20, 0]], &[0; 32]), 0), [12, 1, 0, 0, 0, 0, 0, 0]);
    let longest = plan(&[[1, 0, 65_536, 0]; 64], &vec![7; 65_536]);
    assert_eq!(numbers(&longest, 66_575), [10, 64, 0, 0, 0, 0, 0, 66_576]);
}
