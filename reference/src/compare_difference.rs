//! Two plans compared by a library: beside the reference, the other way round, each with itself, and a plan with what is
//! read back from its image.

use crate::bytes::{le32, put_le32};
use crate::compare_read_back::read_on_both;
use crate::compare_series::packed;
use crate::difference_kinds::kinds;
use crate::guarded::{shown, Guarded, Numbers};
use crate::interface::{at, event, Library, Outcome, Reference};
use crate::plan;
use crate::plan_difference::{NEEDED, STRETCH};
use crate::random::Random;
use crate::read_back::plan_length;
use crate::series::Medium;
use crate::tally::Tally;

/// Plans that store more than this are compared once, and not the other way round.
const MOST_STORED: u64 = 200_000;

/// Compares two plans with both. Answers how many calls were made.
pub fn compare_plans(
    library: &dyn Library,
    old: &[u8],
    new: &[u8],
    output: &[u8],
    random: &mut Random,
    tally: &mut Tally,
) -> Result<u64, String> {
    let (numbers, left) = on_both(library, old, new, output, random)?;
    let mut found = kinds(&numbers, old, new, output.len());
    found.sort();
    found.dedup();
    for kind in found {
        tally.count("compare", kind);
    }
    if output.len() < NEEDED || stored(old) + stored(new) > MOST_STORED {
        return Ok(1);
    }
    let refused = [with_itself(library, old, random)?, with_itself(library, new, random)?];
    let (other_numbers, other_left) = on_both(library, new, old, output, random)?;
    exchanged(&numbers, &left, &other_numbers, &other_left, refused)
        .map_err(|text| format!("the plans the other way round: {text}\n  {numbers:?}\n  {other_numbers:?}"))?;
    Ok(4 + through_an_image(library, old, random, tally)?)
}

/// How many bytes a plan stores.
fn stored(plan: &[u8]) -> u64 {
    plan::read(plan, plan::NO_UNIT).map_or(0, |pieces| pieces.iter().map(plan::Piece::length).sum())
}

/// The numbers of two plans compared, and the output that the library left; an error where it differs from the reference's.
fn on_both(
    library: &dyn Library,
    old: &[u8],
    new: &[u8],
    output: &[u8],
    random: &mut Random,
) -> Result<(Outcome, Vec<u8>), String> {
    let (before, after) = (Guarded::new(old, random), Guarded::new(new, random));
    let mut lent = Guarded::new(output, random);
    let (mut numbers, mut expected) = (Numbers::new(), [0; 8]);
    let number = library.compare(before.read(), after.read(), lent.lent(), numbers.lent());
    let mut own = output.to_vec();
    Reference.compare(old, new, &mut own, &mut expected);
    numbers.check(number, &expected)?;
    lent.check("the output", &own)?;
    before.check("the old plan", old)?;
    after.check("the new plan", new)?;
    Ok((*numbers.lent(), lent.read().to_vec()))
}

/// A plan and itself differ nowhere and run the same. Answers whether the plan is refused.
fn with_itself(library: &dyn Library, plan: &[u8], random: &mut Random) -> Result<bool, String> {
    let output = vec![random.byte(); NEEDED];
    let (numbers, left) = on_both(library, plan, plan, &output, random)?;
    let refused = numbers[at::REFUSAL] != 0;
    let as_it_must = if refused {
        numbers[at::KIND] == 1
    } else {
        numbers == [0, 0, event::SAME_RUN, 0, 0, 0, 0, 0]
    };
    if !as_it_must || left != output {
        return Err(format!("a plan differs from itself: {numbers:?}\n  plan {}", shown(plan)));
    }
    Ok(refused)
}

/// The plans the other way round: the same stretches with old and new exchanged; of a refusal, the other plan, unless both are refused.
fn exchanged(
    numbers: &Outcome,
    output: &[u8],
    other: &Outcome,
    other_output: &[u8],
    refused: [bool; 2],
) -> Result<(), &'static str> {
    let mut turned = *numbers;
    if numbers[at::KIND] != 0 {
        turned[at::KIND] = 3 - numbers[at::KIND];
    }
    if refused != [true, true] && turned != *other {
        return Err("other numbers");
    }
    if refused == [true, true] && [numbers[at::KIND], other[at::KIND]] != [1, 1] {
        return Err("the old plan comes first");
    }
    let mut bytes = output.to_vec();
    let listed = if numbers[at::REFUSAL] == 0 { numbers[at::BYTES] as usize } else { 0 };
    for stretch in bytes[..listed].chunks_exact_mut(STRETCH) {
        let [old, new] = [8, 12].map(|k| le32(stretch, k));
        put_le32(stretch, 8, new);
        put_le32(stretch, 12, old);
    }
    if bytes != other_output {
        return Err("other stretches");
    }
    Ok(())
}

/// Packs a plan that can be packed, reads the image back, and compares: the plan and what was read must not differ.
fn through_an_image(
    library: &dyn Library,
    plan: &[u8],
    random: &mut Random,
    tally: &mut Tally,
) -> Result<u64, String> {
    let Ok(pieces) = plan::read(plan, plan::APLX_UNIT) else { return Ok(0) };
    let image = packed(library, plan, &pieces, Medium::Aplx { image: 0 }, random)?;
    let read = read_on_both(library, &image, &vec![0x77; plan_length(&pieces) as usize], random)?.1;
    let (numbers, _) = on_both(library, plan, &read, &vec![0x55; NEEDED], random)?;
    match numbers {
        [0, 0, event::SAME_RUN, 0, 0, 0, 0, 0] => {
            tally.count("compare", "with its image read back".to_string());
            Ok(3)
        }
        [19, ..] => Ok(3),
        _ => Err(format!("a plan differs from its image read back: {numbers:?}\n  read {}", shown(&read))),
    }
}
