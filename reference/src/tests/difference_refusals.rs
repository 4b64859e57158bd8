//! Two plans that are refused: which of them and why, the order of the tests, the last address, and how many stretches there may be.

use super::{plan, words};
use crate::interface::{Library, Reference};
use crate::outcome::Refusal;
use crate::plan_difference::{compare, Compared, Side, SideRefusal, NEEDED};

/// A plan that is accepted.
fn good() -> Vec<u8> {
    plan(&[[2, 0x100, 4, 1]], &[])
}

/// The number, the place and the plan of a refusal, which leaves the output as it was.
fn refused(old: &[u8], new: &[u8]) -> (u32, u64, Side) {
    let mut output = vec![0xa5; NEEDED];
    let SideRefusal { refusal: Refusal { number, place }, side } =
        compare(old, new, &mut output).expect_err("a refusal");
    assert_eq!(output, vec![0xa5; NEEDED]);
    (number, place, side)
}

/// A refused plan in either place.
fn of_each(bad: &[u8]) -> (u32, u64) {
    let (number, place, side) = refused(bad, &good());
    assert_eq!(side, Side::Old);
    assert_eq!(refused(&good(), bad), (number, place, Side::New));
    assert_eq!(refused(bad, bad), (number, place, Side::Old));
    (number, place)
}

/// A piece behind another one.
fn second(piece: [u32; 4]) -> (u32, u64) {
    of_each(&plan(&[[2, 0, 4, 0], piece], &[0; 64]))
}

#[test]
fn the_numbers_of_a_plan() {
    assert_eq!(of_each(&[]), (2, 0));
    assert_eq!(of_each(&[0; 15]), (2, 0));
    assert_eq!(of_each(&words(&[65, 0, 0, 0])), (11, 0));
    assert_eq!(of_each(&words(&[1, 16, 16, 0])), (2, 0));
    assert_eq!(of_each(&words(&[0, 16, 16, 1])), (2, 0));
    assert_eq!(second([4, 0, 0, 0]), (11, 1));
    assert_eq!(second([3, 0, 4, 0]), (11, 1));
    assert_eq!(second([3, 2, 0, 0]), (9, 1));
    assert_eq!(second([1, 0, 0, 0]), (5, 1));
    assert_eq!(second([2, 0, 65_537, 0]), (11, 1));
    assert_eq!(second([2, 1, 4, 0]), (3, 1));
    assert_eq!(second([1, 0, 4, 61]), (2, 1));
    assert_eq!(second([2, 0xffff_fffc, 5, 0]), (19, 1));
    assert_eq!(second([1, 0xffff_fffc, 5, 0]), (19, 1));
}

#[test]
fn lengths_are_not_tested() {
    let odd = plan(&[[2, 0, 1, 7], [1, 4, 3, 0]], &[7; 3]);
    assert_eq!(compare(&odd, &odd, &mut [0; NEEDED]), Ok(Compared { stretches: 0, same_run: true }));
}

#[test]
fn a_piece_past_the_last_address() {
    let to = |address, length| {
        let found = plan(&[[2, address, length, 0]], &[]);
        compare(&found, &good(), &mut [0; NEEDED]).map(|_| ()).map_err(|refused| refused.refusal.number)
    };
    assert_eq!(to(0xffff_fffc, 4), Ok(()));
    assert_eq!(to(0xffff_fffc, 5), Err(19));
    assert_eq!(to(0xffff_fffc, 65_536), Err(19));
    assert_eq!(to(0xffff_0000, 65_536), Ok(()));
    assert_eq!(to(0xffff_0004, 65_536), Err(19));
    assert_eq!(to(0xffff_0004, 65_532), Ok(()));
    assert_eq!(to(0xffff_0004, 65_533), Err(19));
    // A run has no end.
    let run = plan(&[[3, 0xffff_ffff, 0, 0]], &[]);
    assert!(compare(&run, &run, &mut [0; NEEDED]).is_ok());
}

/// 19 is the last test of its piece.
#[test]
fn the_order_of_a_plans_tests() {
    assert_eq!(second([2, 0xffff_fffd, 8, 0]), (3, 1), "3 before 19");
    assert_eq!(second([2, 0xffff_fffc, 65_537, 0]), (11, 1), "11 before 19");
    assert_eq!(second([1, 0xffff_fffc, 8, 57]), (2, 1), "2 before 19");
    let past = [2, 0xffff_fffc, 8, 0];
    assert_eq!(of_each(&plan(&[past, [9, 0, 0, 0]], &[])), (19, 0), "19 before a later piece's refusal");
    assert_eq!(of_each(&plan(&[[9, 0, 0, 0], past], &[])), (11, 0));
    assert_eq!(of_each(&plan(&[past, past], &[])), (19, 0));
    assert_eq!(of_each(&words(&[1, 16, 32, 1, 2, 0xffff_fffc, 8, 0])), (2, 0), "the header before all pieces");
    // Pieces behind the run are tested too.
    assert_eq!(of_each(&plan(&[[3, 0, 0, 0], past], &[])), (19, 1));
    assert_eq!(of_each(&plan(&[[3, 0, 0, 0], [2, 0, 0, 0]], &[])), (5, 1));
}

/// The whole old plan comes before the new one.
#[test]
fn the_old_plan_comes_first() {
    let past = plan(&[[2, 0, 4, 0], [2, 0xffff_fffc, 8, 0]], &[]);
    assert_eq!(refused(&past, &[]), (19, 1, Side::Old));
    assert_eq!(refused(&[], &past), (2, 0, Side::Old));
    let late = plan(&[[2, 0, 4, 0], [2, 0, 4, 0], [3, 2, 0, 0]], &[]);
    assert_eq!(refused(&late, &past), (9, 2, Side::Old));
    assert_eq!(refused(&past, &late), (19, 1, Side::Old));
}

/// Fills whose words differ in one byte: one stretch a word.
fn fills(count: u32) -> (Vec<u8>, Vec<u8>) {
    (plan(&[[2, 0x1000, 4 * count, 0]], &[]), plan(&[[2, 0x1000, 4 * count, 1]], &[]))
}

#[test]
fn how_many_stretches() {
    for count in [1, 511, 512] {
        let (old, new) = fills(count);
        let mut output = vec![0xa5; NEEDED];
        let answer = compare(&old, &new, &mut output);
        assert_eq!(answer, Ok(Compared { stretches: u64::from(count), same_run: true }));
        let last = 0x1000 + 4 * (count - 1);
        let listed = 16 * count as usize;
        assert_eq!(output[listed - 16..listed], words(&[last, last, 0, 1]));
        assert!(output[listed..].iter().all(|byte| *byte == 0xa5));
    }
    for count in [513, 514, 16_384] {
        let (old, new) = fills(count);
        assert_eq!(refused(&old, &new), (18, 512, Side::Neither));
    }
    // Equal plans may be as long as they like, and a refused one comes before 18.
    let (old, new) = fills(16_384);
    assert!(compare(&old, &old, &mut [0; NEEDED]).is_ok());
    assert_eq!(refused(&old, &new[..31]), (2, 0, Side::New));
}

#[test]
fn the_output_before_all() {
    for room in [0, 16, NEEDED - 16, NEEDED - 1] {
        let mut output = vec![0xa5; room];
        for (old, new) in [(good(), good()), (vec![], good()), (good(), vec![]), fills(513)] {
            let answer = compare(&old, &new, &mut output);
            let refusal = Refusal { number: 10, place: 0 };
            assert_eq!(answer, Err(SideRefusal { refusal, side: Side::Neither }));
        }
        assert_eq!(output, vec![0xa5; room]);
    }
    assert!(compare(&good(), &good(), &mut [0; NEEDED]).is_ok());
    assert!(compare(&good(), &good(), &mut [0; NEEDED + 1]).is_ok());
}

/// The eight numbers: refusal, place, event, kind, address, resume, items, bytes.
#[test]
fn the_numbers_of_the_outcome() {
    let of = |old: &[u8], new: &[u8], room: usize| {
        let mut numbers = [9; 8];
        let number = Reference.compare(old, new, &mut vec![0; room], &mut numbers);
        assert_eq!(u64::from(number), numbers[0]);
        numbers
    };
    let run = plan(&[[2, 0x100, 4, 1], [3, 0x101, 0, 0]], &[]);
    let nothing = plan(&[], &[]);
    let past = plan(&[[2, 0, 4, 0], [2, 0xffff_fffc, 8, 0]], &[]);
    assert_eq!(of(&good(), &good(), NEEDED), [0, 0, 13, 0, 0, 0, 0, 0]);
    assert_eq!(of(&good(), &nothing, NEEDED + 5), [0, 0, 13, 0, 0, 0, 1, 16]);
    assert_eq!(of(&good(), &run, NEEDED), [0, 0, 14, 0, 0, 0, 0, 0]);
    assert_eq!(of(&run, &nothing, NEEDED), [0, 0, 14, 0, 0, 0, 1, 16]);
    assert_eq!(of(&past, &good(), NEEDED), [19, 1, 0, 1, 0, 0, 0, 0]);
    assert_eq!(of(&good(), &past, NEEDED), [19, 1, 0, 2, 0, 0, 0, 0]);
    assert_eq!(of(&[], &past, NEEDED), [2, 0, 0, 1, 0, 0, 0, 0]);
    assert_eq!(of(&[], &past, NEEDED - 1), [10, 0, 0, 0, 0, 0, 0, 8192]);
    let (old, new) = fills(513);
    assert_eq!(of(&old, &new, NEEDED), [18, 512, 0, 0, 0, 0, 0, 0]);
    let (old, new) = fills(512);
    assert_eq!(of(&old, &new, NEEDED), [0, 0, 13, 0, 0, 0, 512, 8192]);
}
