//! The pairs of plans that are compared among the stored vectors: what stretches tell, the runs, each refusal of each plan, and
//! the order of the tests.

use reference::generate::{case_of, Call, Case, Size};
use reference::plan_difference::{compare, NEEDED};
use reference::random::Random;

/// Random pairs, and the most bytes of a plan.
const DRAWN: usize = 4;
const MOST_BYTES: usize = 120;

const PAST: [u32; 4] = [2, 0xffff_fffc, 5, 1];
const FILL: [u32; 4] = [2, 0x100, 4, 1];

/// A plan whose data counts up from 1.
fn plan(pieces: &[[u32; 4]], data: u32) -> Vec<u8> {
    let count = pieces.len() as u32;
    let header = [count, 16, 16 + 16 * count, data];
    let words = header.iter().chain(pieces.iter().flatten());
    words.flat_map(|word| word.to_le_bytes()).chain((1..=data).map(|byte| byte as u8)).collect()
}

fn pair(old: Vec<u8>, new: Vec<u8>) -> Case {
    Case::Compare { old, new, output: vec![0xa5; NEEDED] }
}

/// Two plans of so many bytes of data.
fn plans(old: &[[u32; 4]], new: &[[u32; 4]], data: u32) -> Case {
    pair(plan(old, data), plan(new, data))
}

fn stretches() -> Vec<Case> {
    let put = [1, 0x100, 7, 0];
    let twice = [[2, 0x100, 8, 0x0101_0101], [2, 0x104, 4, 0x0202_0202]];
    vec![
        plans(&[], &[], 0),
        plans(&[put], &[], 7),
        plans(&[], &[put], 7),
        // 1 2 3 4 5 6 7 beside 1 2 3 4 1 2 3 4 1.
        plans(&[put], &[[2, 0x100, 9, 0x0403_0201]], 7),
        plans(&[put], &[[2, 0x100, 7, 0x0405_0201]], 7),
        plans(&twice, &[[1, 0x100, 4, 0], [2, 0x100, 4, 0x0101_0101], [2, 0x104, 4, 0x0202_0202]], 4),
        plans(&twice, &[twice[1], twice[0]], 0),
        // Only the old one, both, only the new one; and a border at 2^31.
        plans(&[[2, 0x100, 8, 4]], &[[2, 0x104, 8, 5]], 0),
        plans(&[[2, 0x8000_0000, 4, 1], FILL], &[[2, 0x7fff_fffc, 4, 1]], 0),
        plans(&[[2, 0xffff_fff8, 8, 1]], &[[1, 0xffff_fff8, 5, 0], [2, 0xffff_fffc, 4, 0x0500_0001]], 5),
        plans(&[], &[[2, 0xffff_0000, 65_536, 6], [2, 0, 4, 7]], 0),
    ]
}

fn runs() -> Vec<Case> {
    let run = |address| [3, address, 0, 0];
    vec![
        plans(&[FILL, run(0x101), [2, 0, 4, 1]], &[FILL, run(0x101), [2, 0x100, 4, 2], run(4)], 0),
        plans(&[FILL, run(0x101)], &[FILL, run(0x100)], 0),
        plans(&[FILL, run(0)], &[FILL], 0),
        plans(&[run(0)], &[run(4), FILL], 0),
        plans(&[FILL, [2, 0x200, 1, 2]], &[FILL, run(0), [2, 0x200, 1, 2]], 0),
    ]
}

fn refused() -> Vec<Case> {
    let good = || plan(&[FILL], 0);
    let behind = |piece| plan(&[FILL, [3, 0x101, 0, 0], piece], 8);
    let mut cases: Vec<Case> = [
        [1, 0x200, 4, 5],
        // 2 and 3 before 19.
        [1, 0xffff_fffc, 6, 3],
        [2, 0xffff_fffd, 8, 0],
        [2, 0x201, 0, 0],
        [3, 0x202, 0, 0],
        [4, 0x201, 0, 0],
        PAST,
    ]
    .into_iter()
    .flat_map(|piece| [pair(behind(piece), good()), pair(good(), behind(piece))])
    .collect();
    cases.extend([
        pair(vec![0; 15], vec![]),
        pair(good(), [65u32, 0, 0, 0].iter().flat_map(|word| word.to_le_bytes()).collect()),
        // 19 before a later piece's refusal, and the old plan before the new one.
        plans(&[FILL, PAST, [9, 0, 0, 0]], &[[2, 0, 0, 0]], 0),
        Case::Compare { old: good(), new: good(), output: vec![0xa5; NEEDED - 1] },
        Case::Compare { old: plan(&[PAST], 0), new: vec![1], output: vec![] },
    ]);
    cases
}

/// One stretch more than 512, and far more.
fn many() -> Vec<Case> {
    [1_026, 65_536].map(|length| plans(&[[2, 0x1000, length, 0]], &[[2, 0x1000, length, 0x0001_0001]], 0)).to_vec()
}

/// Small random pairs with a few stretches.
fn drawn(random: &mut Random) -> Vec<Case> {
    let mut cases = Vec::new();
    while cases.len() < DRAWN {
        let Case::Compare { old, new, .. } = case_of(Call::Compare, random, Size::Stored) else { continue };
        let small = old.len() <= MOST_BYTES && new.len() <= MOST_BYTES;
        let found = compare(&old, &new, &mut vec![0; NEEDED]);
        if small && found.is_ok_and(|found| (2..=6).contains(&found.stretches)) {
            cases.push(pair(old, new));
        }
    }
    cases
}

pub fn all(random: &mut Random) -> Vec<Case> {
    [stretches(), runs(), refused(), many(), drawn(random)].concat()
}
