//! The plans that are packed with equal data kept once among the stored vectors: few and small ones that bring each kind.

use std::collections::BTreeSet;

use reference::generate::{case_of, Call, Case, Size};
use reference::interface::{Library, Reference};
use reference::random::Random;
use reference::share_kinds::kinds;

/// Random plans that are drawn, and the most bytes of a plan and of an output.
const DRAWN: usize = 20_000;
const MOST_PLAN: usize = 240;
const MOST_OUTPUT: usize = 150;

/// What takes more bytes; the sixteen channels are among the cases.
pub const BEYOND: [&str; 5] = [
    "64 pieces",
    "over 16 contents, one shared",
    "16 equal puts",
    "65536 bytes shared",
    "64 equal puts of 65536 bytes",
];

/// First those that bring many kinds, at last those that bring one more.
pub fn all(random: &mut Random) -> Vec<Case> {
    let mut drawn: Vec<(Case, BTreeSet<String>)> = Vec::new();
    for _ in 0..DRAWN {
        let case = case_of(Call::PackShared, random, Size::Stored);
        let Case::PackShared { plan, output } = &case else { continue };
        if plan.len() <= MOST_PLAN && output.len() <= MOST_OUTPUT {
            let mut numbers = [0; 8];
            Reference.pack_aplx_shared(plan, &mut output.clone(), &mut numbers);
            let kinds = kinds(&numbers, plan, output.len());
            drawn.push((case, kinds));
        }
    }
    let mut seen: BTreeSet<String> = BTreeSet::new();
    let mut cases = Vec::new();
    for least in (1..=10).rev() {
        for (case, kinds) in &drawn {
            if kinds.difference(&seen).count() >= least {
                seen.extend(kinds.iter().cloned());
                cases.push(case.clone());
            }
        }
    }
    cases
}
