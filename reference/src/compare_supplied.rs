//! Another firm's image in memory: a library that accepts it must load it as the plan means, stretch by stretch.

use crate::check::{end_entry, entry};
use crate::compare_check::check_on_both;
use crate::compare_series::Loads;
use crate::guarded::{shown, Guarded, Numbers};
use crate::interface::{at, load_numbers, load_of, map_of, Library};
use crate::outcome::{Answer, Stop};
use crate::plan::{self, Ending, Piece};
use crate::random::Random;
use crate::series::{self, Medium};
use crate::tally::Tally;

/// Checks the image, and compares the loads of a series from the first entry of each stretch with the plan's meaning. Where a piece of
/// a stretch is not permitted, what the load leaves stands.
pub fn compare_supplied(
    library: &dyn Library,
    plan: &[u8],
    image: &[u8],
    loads: &Loads,
    random: &mut Random,
    tally: &mut Tally,
) -> Result<u64, String> {
    let Loads { table, memory, medium: Medium::Aplx { image: place }, steps } = *loads else {
        return Err("the image lies in no memory".to_string());
    };
    let pieces = plan::read(plan, plan::NO_UNIT).map_err(|refusal| format!("not readable: {refusal:?}"))?;
    let map = map_of(table).ok_or("the table holds no map")?;
    if !series::granted(loads.medium, &pieces, image, &map, memory, steps) {
        return Err("the series does not keep what demand 3 grants".to_string());
    }
    if check_on_both(library, plan, image, random)?[at::REFUSAL] != 0 {
        return Err("an image in memory that is refused".to_string());
    }
    let firsts = first_entries(&pieces, image);
    let address = |piece: usize| u64::from(place) + 16 * firsts[piece];
    let (mut loaded, mut meant) = (memory.to_vec(), memory.to_vec());
    for step in steps {
        let answer = load(library, table, &mut loaded, address(step.index) as u32, random)?;
        let stop = match plan::meaning(plan, &pieces, &map, &mut meant, step.index) {
            Ending::Run { entry, address: run, piece } => {
                Some(Stop::Run { entry, address: run, resume: address(piece + 1) })
            }
            Ending::End => Some(Stop::End { place: firsts[pieces.len()] - firsts[step.index] }),
            Ending::Denied { .. } => None,
        };
        tally.count("series supplied", kind(&stop).to_string());
        if let Some(stop) = stop {
            if answer.ok().map(|loaded| loaded.stop) != Some(stop) || loaded != meant {
                return Err(format!(
                    "a load from piece {} is not what the plan means\nload    {answer:?}\nmeaning {stop:?}\n\
                     memory after the load {}\nmemory that is meant  {}",
                    step.index,
                    shown(&loaded),
                    shown(&meant)
                ));
            }
        }
        for (at, byte) in step.changes.iter().filter(|(at, _)| *at < memory.len()) {
            loaded[*at] = *byte;
        }
        meant.copy_from_slice(&loaded);
    }
    Ok(1 + steps.len() as u64)
}

/// The first entry of each piece, and then the end entry.
fn first_entries(pieces: &[Piece], image: &[u8]) -> Vec<u64> {
    let mut index = 0;
    let mut firsts = Vec::new();
    for piece in pieces {
        firsts.push(index);
        let mut done = 0;
        loop {
            let words = entry(image, index);
            index += 1;
            done += match piece {
                Piece::Put { .. } => u64::from(words[3]),
                Piece::Fill { .. } => u64::from(words[2]),
                Piece::Run { .. } => 0,
            };
            if done >= piece.length() {
                break;
            }
        }
    }
    firsts.push(end_entry(image).unwrap_or(index));
    firsts
}

/// A load by the library; an error where its numbers tell none.
fn load(
    library: &dyn Library,
    table: &[u8],
    memory: &mut [u8],
    header: u32,
    random: &mut Random,
) -> Result<Answer, String> {
    let mut lent = Guarded::new(memory, random);
    let mut numbers = Numbers::new();
    let number = library.aplx_load(table, lent.lent(), header, numbers.lent());
    memory.copy_from_slice(lent.read());
    let answer = load_of(numbers.lent()).ok_or("the numbers tell no load")?;
    numbers.check(number, &load_numbers(answer))?;
    lent.check("memory", memory)?;
    Ok(answer)
}

fn kind(stop: &Option<Stop>) -> &'static str {
    match stop {
        Some(Stop::Run { .. }) => "stop run",
        Some(_) => "stop end",
        None => "not permitted",
    }
}
