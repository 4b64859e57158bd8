//! Random pairs of plans to be compared: equal, a little different, quite different, refused; with outputs that are just
//! large enough, larger, or too small.

use super::changes::change;
use super::parts::{areas, part, Part};
use super::plans::{lay_out, plan, spoil, spoil_header, Draft};
use super::rows::{long, rows};
use super::{damage, Case, Size};
use crate::plan_difference::NEEDED;
use crate::random::Random;

pub fn compare(random: &mut Random, size: Size) -> Case {
    if random.once_in(40) {
        return Case::Compare { old: plan(random, size, 1), new: plan(random, size, 1), output: output(random) };
    }
    let free = size == Size::Free;
    let (one, other) = match random.below(40) {
        0..=2 if free => rows(random),
        3 if free && random.once_in(40) => long(random),
        _ => near(random, free),
    };
    let (old, new) = if random.once_in(2) { (one, other) } else { (other, one) };
    let wrong = match random.below(24) {
        0 | 1 => [true, false],
        2 | 3 => [false, true],
        4 => [true, true],
        _ => [false, false],
    };
    Case::Compare {
        old: written(random, &old, wrong[0]),
        new: written(random, &new, wrong[1]),
        output: output(random),
    }
}

fn output(random: &mut Random) -> Vec<u8> {
    let length = match random.below(30) {
        0 => NEEDED - 1,
        1 => random.below(NEEDED),
        2 => random.pick(&[0, 16, 32]),
        3..=5 => NEEDED + 1,
        6..=9 => NEEDED + random.between(2, 300),
        _ => NEEDED,
    };
    random.bytes(length)
}

/// The pieces of two plans that have much in common.
fn near(random: &mut Random, free: bool) -> (Vec<Part>, Vec<Part>) {
    let areas = areas(random);
    let whole = random.once_in(6);
    let count = match random.below(100) {
        0 if free => 64,
        1 if free => random.between(20, 63),
        2..=6 => 0,
        _ => random.between(1, 6),
    };
    let old: Vec<Part> = (0..count).map(|_| part(random, &areas, whole)).collect();
    let mut new = old.clone();
    match random.below(12) {
        0 => new = (0..random.below(7)).map(|_| part(random, &areas, whole)).collect(),
        1 | 2 => {}
        _ => {
            for _ in 0..random.pick(&[1, 1, 1, 2, 3]) {
                change(random, &mut new, &areas, whole);
            }
        }
    }
    new.truncate(64);
    (old, new)
}

/// The bytes of a plan in any layout; something is wrong with it where `wrong` is set.
fn written(random: &mut Random, parts: &[Part], wrong: bool) -> Vec<u8> {
    let mut data = Vec::new();
    let mut drafts: Vec<Draft> = parts.iter().map(|part| part.draft(&mut data)).collect();
    let of_a_piece = !drafts.is_empty() && random.percent(75);
    if wrong && of_a_piece {
        for _ in 0..random.pick(&[1, 1, 2]) {
            let at = random.below(drafts.len());
            if random.once_in(3) {
                // Past the last address, and often something else too.
                let address = 0u32.wrapping_sub(4 * random.between(1, 4) as u32);
                drafts[at] = Draft { kind: random.pick(&[1, 2]), address, length: random.pick(&[5, 17, 20, 64]), last: 7 };
            }
            if random.percent(70) {
                spoil(random, &mut drafts[at], data.len() as u32);
            }
        }
    }
    let mut plan = lay_out(random, &drafts, &data);
    if wrong && !of_a_piece {
        match random.below(4) {
            0 => damage(random, &mut plan),
            1 => plan.truncate(random.below(plan.len() + 1)),
            _ => spoil_header(random, &mut plan),
        }
    }
    plan
}
