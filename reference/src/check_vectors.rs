//! The images of another firm's packer among the stored vectors: each way in which the differential test makes them wrong, valid ones,
//! refused plans, and the last addresses.

use std::collections::BTreeMap;

use reference::check_kinds::{kinds, made_kind};
use reference::generate::{case_of, Call, Case, Size};
use reference::interface::{at, Library, Reference};
use reference::random::Random;

/// Random images that are drawn, how many are kept of a kind, and the most bytes of a plan and of an image.
const DRAWN: usize = 20_000;
const ALIKE: usize = 2;
const MOST_BYTES: usize = 400;

const END: [u32; 4] = [u32::MAX, 0, 0, 0];

fn bytes(words: &[[u32; 4]]) -> Vec<u8> {
    words.iter().flatten().flat_map(|word| word.to_le_bytes()).collect()
}

/// A plan of fills and runs, and an image of these entries.
fn plain(pieces: &[[u32; 4]], entries: &[[u32; 4]]) -> Case {
    let count = pieces.len() as u32;
    let plan = [bytes(&[[count, 16, 16 + 16 * count, 0]]), bytes(pieces)].concat();
    Case::AplxCheck { plan, image: bytes(entries), made: "by hand", known: None }
}

/// Parts at the last addresses, and a piece that has no whole parts.
fn limits() -> Vec<Case> {
    let to_the_last = [[2, 0xffff_ffc0, 96, 7]];
    let cut = [[2, 0x100, 36, 7]];
    vec![
        plain(&to_the_last, &[[3, 0xffff_ffc0, 96, 7], END]),
        plain(&to_the_last, &[[3, 0xffff_ffc0, 32, 7], [3, 0xffff_ffe0, 64, 7], END]),
        plain(&to_the_last, &[[3, 0xffff_ffc0, 64, 7], [3, 0, 32, 7], END]),
        plain(&cut, &[[3, 0x100, 64, 7], END]),
        plain(&cut, &[[3, 0x100, 32, 7], [3, 0x120, 4, 7], END]),
        plain(&cut, &[[3, 0x100, 32, 7], END]),
        plain(&[[2, 0, 65_536, 7]], &[[3, 0, 65_536, 7], END]),
        plain(&[[3, 0, 0, 0]; 64], &[[4, 0, 0, 0]; 64]),
        plain(&[[3, 0, 0, 0]; 64], &[vec![[4, 0, 0, 0]; 64], vec![END]].concat()),
        plain(&[[3, 0, 0, 0]; 64], &[vec![[4, 0, 0, 0]; 65], vec![END]].concat()),
    ]
}

/// Small random images that bring something of which there is little yet. Most that are refused have a good entry first, so that the
/// place tells something.
fn drawn(random: &mut Random) -> Vec<Case> {
    let mut seen: BTreeMap<String, usize> = BTreeMap::new();
    let mut cases = Vec::new();
    for _ in 0..DRAWN {
        let case = case_of(Call::AplxCheck, random, Size::Stored);
        let Case::AplxCheck { plan, image, made, .. } = &case else { continue };
        let mut numbers = [0; 8];
        Reference.aplx_check(plan, image, &mut numbers);
        let kinds = [kinds(&numbers, plan, image), vec![made_kind(made)]].concat();
        let small = plan.len() <= MOST_BYTES && image.len() <= MOST_BYTES;
        let first = numbers[at::REFUSAL] == 30 && numbers[at::PLACE] == 0;
        let wanted = kinds.iter().any(|kind| seen.get(kind).is_none_or(|seen| *seen < ALIKE));
        if small && wanted && (!first || random.once_in(8)) {
            for kind in kinds {
                *seen.entry(kind).or_insert(0) += 1;
            }
            cases.push(case);
        }
    }
    cases
}

pub fn all(random: &mut Random) -> Vec<Case> {
    [limits(), drawn(random)].concat()
}
