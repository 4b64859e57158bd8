//! Another firm's image checked by a library: beside the reference, and beside the answer that follows from how the image was made.

use crate::check_kinds::{kinds, made_kind};
use crate::guarded::{Guarded, Numbers};
use crate::interface::{check_numbers, Library, Outcome, Reference};
use crate::outcome::Refusal;
use crate::random::Random;
use crate::tally::Tally;

pub fn compare_check(
    library: &dyn Library,
    plan: &[u8],
    image: &[u8],
    made: &'static str,
    known: Option<Result<(), Refusal>>,
    random: &mut Random,
    tally: &mut Tally,
) -> Result<u64, String> {
    let numbers = check_on_both(library, plan, image, random)?;
    if let Some(answer) = known.map(check_numbers).filter(|answer| *answer != numbers) {
        return Err(format!("the image is made so: {made}\n  answer {numbers:?}\n  to be  {answer:?}"));
    }
    tally.count("aplx_check", made_kind(made));
    for kind in kinds(&numbers, plan, image) {
        tally.count("aplx_check", kind);
    }
    Ok(1)
}

/// The numbers of an image that is checked; an error where the library's differ from the reference's.
pub fn check_on_both(
    library: &dyn Library,
    plan: &[u8],
    image: &[u8],
    random: &mut Random,
) -> Result<Outcome, String> {
    let (given, checked) = (Guarded::new(plan, random), Guarded::new(image, random));
    let (mut numbers, mut expected) = (Numbers::new(), [0; 8]);
    let number = library.aplx_check(given.read(), checked.read(), numbers.lent());
    Reference.aplx_check(plan, image, &mut expected);
    numbers.check(number, &expected)?;
    given.check("the plan", plan)?;
    checked.check("the image", image)?;
    Ok(expected)
}
