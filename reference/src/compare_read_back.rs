//! Images read back by a library: beside the reference, through the packer again, and in memory beside the packed image.

use crate::compare_series::{follow, packed, Loads};
use crate::guarded::{shown, Guarded, Numbers};
use crate::interface::{at, Library, Outcome, Reference};
use crate::plan;
use crate::random::Random;
use crate::read_back;
use crate::series::{Medium, Step};
use crate::tally::{read_back_kinds, read_kinds, Tally};

/// Reads an image back with both. Where it is accepted, the library's packer must take the plan that the library wrote; and if
/// the packer wrote the image, it must write the same bytes again.
pub fn compare_read(
    library: &dyn Library,
    image: &[u8],
    output: &[u8],
    is_packed: bool,
    random: &mut Random,
    tally: &mut Tally,
) -> Result<u64, String> {
    let (numbers, left) = read_on_both(library, image, output, random)?;
    for kind in read_kinds(&numbers) {
        tally.count("aplx_read", kind);
    }
    if numbers[at::REFUSAL] != 0 {
        return Ok(1);
    }
    for kind in read_back::pieces(image).map_or(Vec::new(), |pieces| read_back_kinds(&pieces)) {
        tally.count("aplx_read", kind.to_string());
    }
    let again = packed_again(library, &left[..numbers[at::BYTES] as usize], random)?.1;
    if is_packed {
        if again != image {
            return Err(format!("packing what was read gives other bytes\n  image  {}\n  packed {}", shown(image), shown(&again)));
        }
        tally.count("aplx_read", "packed to the same bytes".to_string());
    }
    Ok(2)
}

/// The numbers of an image read back, and the output that the library left; an error where it differs from the reference's.
pub fn read_on_both(
    library: &dyn Library,
    image: &[u8],
    output: &[u8],
    random: &mut Random,
) -> Result<(Outcome, Vec<u8>), String> {
    let given = Guarded::new(image, random);
    let mut lent = Guarded::new(output, random);
    let (mut numbers, mut expected) = (Numbers::new(), [0; 8]);
    let number = library.aplx_read(given.read(), lent.lent(), numbers.lent());
    let mut own = output.to_vec();
    Reference.aplx_read(image, &mut own, &mut expected);
    numbers.check(number, &expected)?;
    lent.check("the output", &own)?;
    given.check("the image", image)?;
    Ok((expected, lent.read().to_vec()))
}

/// The pieces of a plan that was read, and its image by the library.
pub fn packed_again(
    library: &dyn Library,
    plan: &[u8],
    random: &mut Random,
) -> Result<(Vec<plan::Piece>, Vec<u8>), String> {
    let pieces = plan::read(plan, plan::APLX_UNIT)
        .map_err(|refusal| format!("the plan that was read can't be packed: {refusal:?}\n  plan {}", shown(plan)))?;
    let image = packed(library, plan, &pieces, Medium::Aplx { image: 0 }, random)?;
    Ok((pieces, image))
}

/// Reads back an image that lies in memory, beside the packed image of the plan that is read. Series of loads of either
/// must leave what the plan means, and so the same.
#[allow(clippy::too_many_arguments)]
pub fn compare_old_image(
    library: &dyn Library,
    image: &[u8],
    table: &[u8],
    memory: &[u8],
    places: [u32; 2],
    steps: &[Step],
    random: &mut Random,
    tally: &mut Tally,
) -> Result<u64, String> {
    let length = read_back::pieces(image).map_or(0, |pieces| read_back::plan_length(&pieces));
    let (numbers, plan) = read_on_both(library, image, &vec![0x77; length as usize], random)?;
    if numbers[at::REFUSAL] != 0 {
        return Err("an image in memory that can't be read back".to_string());
    }
    let (pieces, again) = packed_again(library, &plan, random)?;
    let mut made = 2;
    for (place, bytes, call) in
        [(places[0], image, "series old image"), (places[1], &again[..], "series packed again")]
    {
        let loads = Loads { table, memory, medium: Medium::Aplx { image: place }, steps };
        made += follow(library, &plan, &pieces, bytes, &loads, call, random, tally)
            .map_err(|text| format!("{call}: {text}"))?;
    }
    Ok(made)
}
