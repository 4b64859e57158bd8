//! A series of loads by a library beside the plan's meaning (demand 3). The image of a plan is the library's own.

use crate::guarded::{shown, Guarded, Numbers};
use crate::interface::{load_numbers, load_of, map_of, packed_numbers, Library};
use crate::outcome::{Answer, Entry, Refusal};
use crate::pack;
use crate::plan::{self, Piece};
use crate::random::Random;
use crate::series::{self, Medium, Report, Step};
use crate::tally::{number_kind, Tally};

/// A series of loads: a map, the first memory, where the image is, and the steps.
pub struct Loads<'a> {
    pub table: &'a [u8],
    pub memory: &'a [u8],
    pub medium: Medium,
    pub steps: &'a [Step],
}

/// Packs the plan with the library, and compares a series of its loads with the plan's meaning.
pub fn compare_series(
    library: &dyn Library,
    plan: &[u8],
    loads: &Loads,
    random: &mut Random,
    tally: &mut Tally,
) -> Result<u64, String> {
    let pieces = plan::read(plan, plan::NO_UNIT).map_err(|r| format!("not readable: {r:?}"))?;
    let image = packed(library, plan, &pieces, loads.medium, random)?;
    let call = if loads.medium == Medium::Srom { "series SROM" } else { "series APLX" };
    let made = follow(library, plan, &pieces, &image, loads, call, random, tally)?;
    Ok(1 + made)
}

/// The image that the library packs of a plan, with room enough; an error where it is not the reference's.
pub fn packed(
    library: &dyn Library,
    plan: &[u8],
    pieces: &[Piece],
    medium: Medium,
    random: &mut Random,
) -> Result<Vec<u8>, String> {
    let own_image = match medium {
        Medium::Srom => pack::srom_image(plan, pieces),
        Medium::Aplx { .. } => pack::aplx_image(plan, pieces),
    };
    let size = own_image.len() + random.pick(&[0, 0, 1, 40]);
    let room = random.bytes(size);
    let mut output = Guarded::new(&room, random);
    let mut numbers = Numbers::new();
    let number = match medium {
        Medium::Srom => library.pack_srom(plan, output.lent(), numbers.lent()),
        Medium::Aplx { .. } => library.pack_aplx(plan, output.lent(), numbers.lent()),
    };
    numbers.check(number, &packed_numbers(own_image.len() as u64))?;
    let mut packed = room.clone();
    packed[..own_image.len()].copy_from_slice(&own_image);
    output.check("the packed output", &packed)?;
    Ok(output.read()[..own_image.len()].to_vec())
}

/// Compares the library's loads of an image with the meaning of a plan. Answers how many loads were made.
#[allow(clippy::too_many_arguments)]
pub fn follow(
    library: &dyn Library,
    plan: &[u8],
    pieces: &[Piece],
    image: &[u8],
    loads: &Loads,
    call: &'static str,
    random: &mut Random,
    tally: &mut Tally,
) -> Result<u64, String> {
    let Loads { table, memory, medium, steps } = *loads;
    let map = map_of(table).ok_or("the table holds no map")?;
    if !series::granted(medium, pieces, image, &map, memory, steps) {
        return Err("the series does not keep what demand 3 grants".to_string());
    }
    let mut trouble = None;
    let mut loader = |memory: &mut [u8], start: u64| -> Answer {
        let mut lent = Guarded::new(memory, random);
        let mut numbers = Numbers::new();
        let number = match medium {
            Medium::Srom => {
                library.srom_load(table, lent.lent(), image, start as usize, numbers.lent())
            }
            Medium::Aplx { .. } => {
                library.aplx_load(table, lent.lent(), start as u32, numbers.lent())
            }
        };
        memory.copy_from_slice(lent.read());
        let told = *numbers.lent();
        let answer = load_of(&told).unwrap_or(Err(Refusal { number: u32::MAX, place: 0 }));
        let check = numbers.check(number, &load_numbers(answer)).and(lent.check("memory", memory));
        trouble = trouble.take().or(check.err());
        answer
    };
    let loads = series::loads(medium, pieces, memory.to_vec(), steps, &mut loader);
    if let Some(text) = trouble {
        return Err(text);
    }
    let meant = series::meant(medium, plan, pieces, &map, memory.to_vec(), steps);
    for (index, (load, meaning)) in loads.iter().zip(&meant).enumerate() {
        if load != meaning {
            return Err(format!(
                "load {index} differs from the plan's meaning\nload    {:?}\nmeaning {:?}\n\
                 memory after the load {}\nmemory that is meant  {}",
                load.report,
                meaning.report,
                shown(&load.memory),
                shown(&meaning.memory)
            ));
        }
        tally.count(call, report_kind(&meaning.report));
    }
    Ok(loads.len() as u64)
}

fn report_kind(report: &Report) -> String {
    match report {
        Report::Run { entry, .. } => {
            let name = if *entry == Entry::Arm { "ARM" } else { "Thumb" };
            format!("stop run {name}")
        }
        Report::End { .. } => "stop end".to_string(),
        Report::Unknown { .. } => "stop unknown".to_string(),
        Report::Refused { number, .. } => number_kind(u64::from(*number)),
    }
}
