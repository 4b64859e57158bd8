//! Random plans that repeat the same data, and any plans, to be packed with equal data kept once; outputs about the lengths of the shared
//! and of the plain image.

use super::plans::{self, lay_out, spoil, spoil_header};
use super::repeats::{drafts, repeated};
use super::{damage, Case, Size};
use crate::pack::aplx_length;
use crate::plan::{self, APLX_UNIT};
use crate::random::Random;
use crate::share::shared_length;

pub fn pack_shared(random: &mut Random, size: Size) -> Case {
    let plan = if random.once_in(10) { plans::plan(random, size, APLX_UNIT) } else { of_repeats(random, size) };
    let output = output(random, size, &plan);
    Case::PackShared { plan, output }
}

/// A plan that repeats the same data; now and then with one thing wrong.
fn of_repeats(random: &mut Random, size: Size) -> Vec<u8> {
    let parts = repeated(random, size);
    let (mut drafts, data) = drafts(random, &parts);
    if random.once_in(6) && !drafts.is_empty() {
        let at = random.below(drafts.len());
        spoil(random, &mut drafts[at], data.len() as u32);
    }
    let mut plan = lay_out(random, &drafts, &data);
    match random.below(30) {
        0 => damage(random, &mut plan),
        1 => plan.truncate(plan.len() - 1),
        2 => spoil_header(random, &mut plan),
        _ => {}
    }
    plan
}

/// An output that just fits, is a byte too small, is too small for the plain image only, fits that too, or is any.
fn output(random: &mut Random, size: Size, plan: &[u8]) -> Vec<u8> {
    let Ok(pieces) = plan::read(plan, APLX_UNIT) else {
        return random.bytes_below(24);
    };
    let [shared, plain] = [shared_length(plan, &pieces), aplx_length(&pieces)].map(|length| length as usize);
    let room = match random.below(12) {
        0..=2 => shared,
        3 => shared + random.between(1, 50),
        4 | 5 => shared - 1,
        6 | 7 => random.between(shared, plain),
        8 => plain - 1,
        9 => plain + random.between(0, 20),
        10 => random.below(shared),
        _ => 0,
    };
    let most = if size == Size::Stored { 1_200 } else { usize::MAX };
    random.bytes(room.min(most))
}
