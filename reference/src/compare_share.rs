//! A plan packed by a library with equal data kept once: beside the reference, and beside the library's own plain image, its check and what
//! it reads back; and a series of loads of such an image beside the plan's meaning.

use crate::compare_check::check_on_both;
use crate::compare_read_back::{packed_again, read_on_both};
use crate::compare_series::{follow, packed, Loads};
use crate::guarded::{shown, Guarded, Numbers};
use crate::interface::{at, event, Library, Outcome, Reference};
use crate::plan::{self, Piece, APLX_UNIT};
use crate::random::Random;
use crate::read_back::plan_length;
use crate::series::Medium;
use crate::share_kinds::{any_equal, kinds, sum};
use crate::tally::Tally;

/// Packs a plan with both. Answers how many calls were made.
pub fn compare_shared(
    library: &dyn Library,
    plan: &[u8],
    output: &[u8],
    random: &mut Random,
    tally: &mut Tally,
) -> Result<u64, String> {
    let (numbers, left) = pack_on_both(library, plan, output, random)?;
    for kind in kinds(&numbers, plan, output.len()) {
        tally.count("pack_aplx_shared", kind);
    }
    let bytes = numbers[at::BYTES] as usize;
    match numbers[at::REFUSAL] {
        0 => Ok(1 + of_an_image(library, plan, &left[..bytes], random)?),
        10 => Ok(1 + just_fits(library, plan, bytes, &numbers, random)?),
        _ => Ok(1),
    }
}

/// The numbers of a plan that is packed, and the output that the library left; an error where it differs from the reference's.
fn pack_on_both(
    library: &dyn Library,
    plan: &[u8],
    output: &[u8],
    random: &mut Random,
) -> Result<(Outcome, Vec<u8>), String> {
    let given = Guarded::new(plan, random);
    let mut lent = Guarded::new(output, random);
    let (mut numbers, mut expected) = (Numbers::new(), [0; 8]);
    let number = library.pack_aplx_shared(given.read(), lent.lent(), numbers.lent());
    let mut own = output.to_vec();
    Reference.pack_aplx_shared(plan, &mut own, &mut expected);
    numbers.check(number, &expected)?;
    lent.check("the output", &own)?;
    given.check("the plan", plan)?;
    Ok((*numbers.lent(), lent.read().to_vec()))
}

/// An image has the request's length; it is accepted by the check; what is read back from it has the plan's plain image, and again this
/// shared one; and where no two puts are equal it is the plain image.
fn of_an_image(library: &dyn Library, plan: &[u8], image: &[u8], random: &mut Random) -> Result<u64, String> {
    let pieces = plan::read(plan, APLX_UNIT).map_err(|refusal| format!("not readable: {refusal:?}"))?;
    let wrong = |what: &str| Err(format!("{what}\n  image {}", shown(image)));
    if image.len() as u64 != sum(plan, &pieces) {
        return wrong("the image has not the length that the request gives");
    }
    if check_on_both(library, plan, image, random)?[at::EVENT] != event::CHECKED {
        return wrong("the check refuses the image");
    }
    let plain = plain_image(library, plan, &pieces, random)?;
    if !any_equal(plan, &pieces) && image != plain {
        return wrong("nothing is shared, and the image is not the plain one");
    }
    let (numbers, read) = read_on_both(library, image, &vec![0x77; plan_length(&pieces) as usize], random)?;
    if numbers[at::REFUSAL] != 0 {
        return wrong("the image can't be read back");
    }
    if packed_again(library, &read, random)?.1 != plain {
        return wrong("what is read back has another plain image");
    }
    let again = pack_on_both(library, &read, &vec![0x55; image.len()], random)?.1;
    if again != image {
        return wrong("what is read back has another shared image");
    }
    Ok(5)
}

fn plain_image(library: &dyn Library, plan: &[u8], pieces: &[Piece], random: &mut Random) -> Result<Vec<u8>, String> {
    packed(library, plan, pieces, Medium::Aplx { image: 0 }, random)
}

/// The length that refusal 10 tells is just enough, and with a byte less the refusal is the same.
fn just_fits(
    library: &dyn Library,
    plan: &[u8],
    needed: usize,
    refused: &Outcome,
    random: &mut Random,
) -> Result<u64, String> {
    let (fits, _) = pack_on_both(library, plan, &vec![0x77; needed], random)?;
    let (less, _) = pack_on_both(library, plan, &vec![0x77; needed - 1], random)?;
    if fits[at::EVENT] != event::PACKED || less != *refused {
        return Err(format!("the length that is told is not just enough\n  {refused:?}\n  {fits:?}\n  {less:?}"));
    }
    Ok(2)
}

/// Packs the plan with the library, and compares a series of loads of its shared image with the plan's meaning.
pub fn compare_shared_series(
    library: &dyn Library,
    plan: &[u8],
    loads: &Loads,
    random: &mut Random,
    tally: &mut Tally,
) -> Result<u64, String> {
    let pieces = plan::read(plan, APLX_UNIT).map_err(|refusal| format!("not readable: {refusal:?}"))?;
    let length = sum(plan, &pieces) as usize;
    let image = pack_on_both(library, plan, &vec![0x77; length], random)?.1;
    let kind = if any_equal(plan, &pieces) { "something shared" } else { "nothing shared" };
    tally.count("series shared", kind.to_string());
    let made = follow(library, plan, &pieces, &image, loads, "series shared", random, tally)?;
    Ok(1 + made)
}
