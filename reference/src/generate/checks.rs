//! Random plans with images to be checked: valid ones, our own packer's, with one thing wrong or several, and refused plans. Where
//! the construction tells the answer, it is given along.

use super::plans::{lay_out, plan, spoil, spoil_header, Draft};
use super::supplied::Supplied;
use super::supplies::{long, supplied};
use super::{damage, supplier_data, supplier_order, supplier_words, Case, Size};
use crate::check::NOT_DUE;
use crate::outcome::Refusal;
use crate::pack::aplx_image;
use crate::plan::{self as plans, APLX_UNIT};
use crate::random::Random;

/// Does one thing wrong; the entry that is to be refused.
type Fault = fn(&mut Random, &mut Supplied) -> Option<u64>;

pub const FAULTS: [(&str, Fault); 29] = [
    ("entries exchanged", supplier_order::exchanged),
    ("sorted by address", supplier_order::sorted),
    ("an entry missing", supplier_order::missing),
    ("the last piece missing", supplier_order::last_missing),
    ("an entry twice", supplier_order::twice),
    ("an end too early", supplier_order::end_too_early),
    ("an end too late", supplier_order::end_too_late),
    ("no end word", supplier_order::no_end_word),
    ("cut before the end", supplier_order::cut_before_the_end),
    ("two pieces as one", supplier_order::two_as_one),
    ("a piece padded", supplier_words::padded),
    ("the end of a piece left out", supplier_words::left_out),
    ("a part past its piece", supplier_words::past_its_piece),
    ("a part over the next", supplier_words::over_the_next),
    ("a length of no 32 bytes", supplier_words::no_multiple),
    ("a part of no bytes", supplier_words::no_bytes),
    ("another address", supplier_words::another_address),
    ("another fill word", supplier_words::another_word),
    ("an ACOPY", supplier_words::acopy),
    ("another command", supplier_words::another_command),
    ("a put as FILL", supplier_words::put_as_fill),
    ("a fill as RCOPY", supplier_words::fill_as_put),
    ("data over an entry", supplier_data::over_an_entry),
    ("data not aligned", supplier_data::not_aligned),
    ("another byte", supplier_data::another_byte),
    ("data cut off", supplier_data::cut_off),
    ("data far outside", supplier_data::far_outside),
    ("offset from the header", supplier_data::from_the_header),
    ("a part past 2^32", supplier_data::past_the_last_address),
];

/// The other ways in which images are made.
pub const OTHERS: [&str; 7] =
    ["valid", "our own", "256 entries", "257 entries", "several faults", "a spoiled plan", "damaged"];

fn refused<T>(place: u64) -> Result<T, Refusal> {
    Err(Refusal { number: NOT_DUE, place })
}

pub fn check(random: &mut Random, size: Size) -> Case {
    let free = size == Size::Free;
    match random.below(60) {
        0..=13 => {
            let made = supplied(random, free);
            of(random, &made, "valid", Some(Ok(())))
        }
        14..=18 => our_own(random, size),
        19 if free => {
            let entries = random.between(254, 256);
            let made = long(random, entries);
            of(random, &made, "256 entries", Some(Ok(())))
        }
        20 if free => {
            let entries = random.between(257, 259);
            let made = long(random, entries);
            of(random, &made, "257 entries", Some(refused(256)))
        }
        21..=23 => several(random, free),
        24..=29 => spoiled(random, free),
        30 | 31 => damaged(random, free),
        _ => faulty(random, free),
    }
}

fn of(random: &mut Random, supplied: &Supplied, made: &'static str, known: Option<Result<(), Refusal>>) -> Case {
    Case::AplxCheck { plan: supplied.plan(random), image: supplied.image(), made, known }
}

/// One thing wrong.
fn faulty(random: &mut Random, free: bool) -> Case {
    loop {
        let (name, fault) = random.pick(&FAULTS);
        let mut made = if free && random.once_in(40) { long(random, 256) } else { supplied(random, free) };
        if let Some(place) = fault(random, &mut made).filter(|_| made.entries.len() < 256) {
            return of(random, &made, name, Some(refused(place)));
        }
    }
}

/// Two or three things wrong, so that the first one shows.
fn several(random: &mut Random, free: bool) -> Case {
    let mut made = supplied(random, free);
    for _ in 0..random.between(2, 3) {
        let mut next = made.clone();
        // What was cut is cut for the last time.
        if made.cut.is_none() && random.pick(&FAULTS).1(random, &mut next).is_some() {
            made = next;
        }
    }
    of(random, &made, "several faults", None)
}

fn our_own(random: &mut Random, size: Size) -> Case {
    loop {
        let plan = plan(random, size, APLX_UNIT);
        if let Ok(pieces) = plans::read(&plan, APLX_UNIT) {
            let image = aplx_image(&plan, &pieces);
            return Case::AplxCheck { plan, image, made: "our own", known: Some(Ok(())) };
        }
    }
}

/// Something wrong with the plan, and often with the image too.
fn spoiled(random: &mut Random, free: bool) -> Case {
    let mut made = supplied(random, free);
    let mut data = Vec::new();
    let mut drafts: Vec<Draft> = made.pieces.iter().map(|part| part.draft(&mut data)).collect();
    let of_a_piece = !drafts.is_empty() && random.percent(75);
    if of_a_piece {
        for _ in 0..random.pick(&[1, 1, 2]) {
            let at = random.below(drafts.len());
            spoil(random, &mut drafts[at], data.len() as u32);
        }
    }
    let mut plan = lay_out(random, &drafts, &data);
    if !of_a_piece {
        spoil_header(random, &mut plan);
    }
    if random.once_in(2) {
        made.end[0] = 0;
    }
    Case::AplxCheck { plan, image: made.image(), made: "a spoiled plan", known: None }
}

/// Any bytes of the plan or of the image are others, or the image is any bytes.
fn damaged(random: &mut Random, free: bool) -> Case {
    let made = supplied(random, free);
    let (mut plan, mut image) = (made.plan(random), made.image());
    match random.below(5) {
        0 => damage(random, &mut plan),
        1 => image = random.bytes_below(80),
        2 => image.truncate(random.below(image.len() + 1)),
        _ => damage(random, &mut image),
    }
    Case::AplxCheck { plan, image, made: "damaged", known: None }
}
