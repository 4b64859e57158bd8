//! One input given to a library and to this second implementation: every number and every byte must be the same.
//! Each buffer that the library is lent lies between guard bytes that must stay as they were.

use crate::compare_check::compare_check;
use crate::compare_difference::compare_plans;
use crate::compare_flood::{compare_flood, describe_flood};
use crate::compare_read_back::{compare_old_image, compare_read};
use crate::compare_series::{compare_series, Loads};
use crate::compare_share::{compare_shared, compare_shared_series};
use crate::compare_supplied::compare_supplied;
use crate::generate::Case;
use crate::guarded::{shown, Guarded, Numbers};
use crate::interface::{Library, Outcome, Reference};
use crate::random::Random;
use crate::series::{Medium, Step};
use crate::tally::{
    identity_kind, load_kind, memory_kind, number_kind, reply_kind, rights_kind, table_kind, taken_kind, Tally,
};

/// Compares the library with the reference on one input. Answers how many calls were made, or the difference.
pub fn compare(
    case: &Case,
    library: &dyn Library,
    random: &mut Random,
    tally: &mut Tally,
) -> Result<u64, String> {
    let mut expected: Outcome = [0; 8];
    let mut numbers = Numbers::new();
    match case {
        Case::MapAdd { table, additions } => {
            let mut lent = Guarded::new(table, random);
            let mut own = table.clone();
            for [base, length, place, rights] in additions.iter().copied() {
                let got = library.map_add(lent.lent(), base, length, place, rights);
                let want = Reference.map_add(&mut own, base, length, place, rights);
                if got != want {
                    return Err(format!("the numbers differ: library {got}, reference {want}"));
                }
                lent.check("the table", &own)?;
                tally.count("map_add", number_kind(u64::from(want)));
                tally.count("map_add", rights_kind(want, rights));
            }
            return Ok(additions.len() as u64);
        }
        Case::MapSound { table, memory_length } => {
            let map = Guarded::new(table, random);
            let got = library.map_sound(map.read(), *memory_length);
            let want = Reference.map_sound(table, *memory_length);
            if got != want {
                return Err(format!("the numbers differ: library {got}, reference {want}"));
            }
            map.check("the table", table)?;
            tally.count("map_sound", number_kind(u64::from(want)));
            tally.count("map_sound", table_kind(want, table).to_string());
        }
        Case::SromLoad { table, memory, rom, offset } => {
            let (map, slice) = (Guarded::new(table, random), Guarded::new(rom, random));
            let mut lent = Guarded::new(memory, random);
            let number =
                library.srom_load(map.read(), lent.lent(), slice.read(), *offset, numbers.lent());
            let mut own = memory.clone();
            Reference.srom_load(table, &mut own, rom, *offset, &mut expected);
            numbers.check(number, &expected)?;
            lent.check("memory", &own)?;
            map.check("the table", table)?;
            slice.check("the slice", rom)?;
            count_load(tally, "srom_load", &expected, memory);
        }
        Case::AplxLoad { table, memory, header } => {
            let map = Guarded::new(table, random);
            let mut lent = Guarded::new(memory, random);
            let number = library.aplx_load(map.read(), lent.lent(), *header, numbers.lent());
            let mut own = memory.clone();
            Reference.aplx_load(table, &mut own, *header, &mut expected);
            numbers.check(number, &expected)?;
            lent.check("memory", &own)?;
            map.check("the table", table)?;
            count_load(tally, "aplx_load", &expected, memory);
        }
        Case::ScpAnswer { table, memory, identity, packet, output } => {
            let (map, sent) = (Guarded::new(table, random), Guarded::new(packet, random));
            let mut lent = Guarded::new(memory, random);
            let mut answered = Guarded::new(output, random);
            let number = library.scp_answer(
                map.read(),
                lent.lent(),
                identity,
                sent.read(),
                answered.lent(),
                numbers.lent(),
            );
            let (mut own, mut own_output) = (memory.clone(), output.clone());
            Reference.scp_answer(table, &mut own, identity, packet, &mut own_output, &mut expected);
            numbers.check(number, &expected)?;
            lent.check("memory", &own)?;
            answered.check("the output", &own_output)?;
            map.check("the table", table)?;
            sent.check("the packet", packet)?;
            tally.count("scp_answer", reply_kind(&expected, packet, &own_output));
            tally.count("scp_answer", memory_kind(memory.len()));
            tally.count("scp_answer", identity_kind(identity).to_string());
        }
        Case::PlanRead { plan, target } => {
            let given = Guarded::new(plan, random);
            let number = library.plan_read(given.read(), *target, numbers.lent());
            Reference.plan_read(plan, *target, &mut expected);
            numbers.check(number, &expected)?;
            given.check("the plan", plan)?;
            let call = match target {
                0 => "plan_read 0",
                1 => "plan_read 1",
                _ => "plan_read +",
            };
            tally.count(call, number_kind(expected[0]));
        }
        Case::PackSrom { plan, output } => {
            let given = Guarded::new(plan, random);
            let mut lent = Guarded::new(output, random);
            let number = library.pack_srom(given.read(), lent.lent(), numbers.lent());
            let mut own = output.clone();
            Reference.pack_srom(plan, &mut own, &mut expected);
            numbers.check(number, &expected)?;
            lent.check("the output", &own)?;
            given.check("the plan", plan)?;
            tally.count("pack_srom", number_kind(expected[0]));
        }
        Case::PackAplx { plan, output } => {
            let given = Guarded::new(plan, random);
            let mut lent = Guarded::new(output, random);
            let number = library.pack_aplx(given.read(), lent.lent(), numbers.lent());
            let mut own = output.clone();
            Reference.pack_aplx(plan, &mut own, &mut expected);
            numbers.check(number, &expected)?;
            lent.check("the output", &own)?;
            given.check("the plan", plan)?;
            tally.count("pack_aplx", number_kind(expected[0]));
        }
        Case::PackShared { plan, output } => {
            return compare_shared(library, plan, output, random, tally);
        }
        Case::Series { plan, table, memory, medium, steps } => {
            return compare_series(library, plan, &Loads { table, memory, medium: *medium, steps }, random, tally);
        }
        Case::AplxRead { image, output, packed } => {
            return compare_read(library, image, output, *packed, random, tally);
        }
        Case::OldImage { image, table, memory, old, new, steps } => {
            return compare_old_image(library, image, table, memory, [*old, *new], steps, random, tally);
        }
        Case::Compare { old, new, output } => {
            return compare_plans(library, old, new, output, random, tally);
        }
        Case::AplxCheck { plan, image, made, known } => {
            return compare_check(library, plan, image, made, *known, random, tally);
        }
        Case::SuppliedImage { plan, image, table, memory, at, steps } => {
            let loads = Loads { table, memory, medium: Medium::Aplx { image: *at }, steps };
            return compare_supplied(library, plan, image, &loads, random, tally);
        }
        Case::SharedImage { plan, table, memory, at, steps } => {
            let loads = Loads { table, memory, medium: Medium::Aplx { image: *at }, steps };
            return compare_shared_series(library, plan, &loads, random, tally);
        }
        Case::FloodFill(flood) => return compare_flood(flood, library, random, tally),
    }
    Ok(1)
}

fn count_load(tally: &mut Tally, call: &'static str, numbers: &Outcome, memory: &[u8]) {
    tally.count(call, load_kind(numbers));
    tally.count(call, memory_kind(memory.len()));
    if let Some(taken) = taken_kind(numbers) {
        tally.count(call, taken);
    }
}

/// An input as text, one argument a line, bytes in hex.
pub fn describe(case: &Case) -> String {
    match case {
        Case::MapAdd { table, additions } => {
            let mut text = format!("map_add\n  table {}\n", shown(table));
            for [base, length, place, rights] in additions {
                text.push_str(&format!(
                    "  base {base:#x} length {length:#x} place {place:#x} rights {rights:#x}\n"
                ));
            }
            text
        }
        Case::MapSound { table, memory_length } => {
            format!("map_sound\n  table {}\n  memory_length {memory_length}\n", shown(table))
        }
        Case::SromLoad { table, memory, rom, offset } => format!(
            "srom_load\n  table {}\n  memory {}\n  rom {}\n  offset {offset}\n",
            shown(table),
            shown(memory),
            shown(rom)
        ),
        Case::AplxLoad { table, memory, header } => format!(
            "aplx_load\n  table {}\n  memory {}\n  header {header:#x}\n",
            shown(table),
            shown(memory)
        ),
        Case::ScpAnswer { table, memory, identity, packet, output } => format!(
            "scp_answer\n  table {}\n  memory {}\n  identity {identity:x?}\n  packet {}\n  output {}\n",
            shown(table),
            shown(memory),
            shown(packet),
            shown(output)
        ),
        Case::PlanRead { plan, target } => {
            format!("plan_read\n  plan {}\n  target {target}\n", shown(plan))
        }
        Case::PackSrom { plan, output } => {
            format!("pack_srom\n  plan {}\n  output {}\n", shown(plan), shown(output))
        }
        Case::PackAplx { plan, output } => {
            format!("pack_aplx\n  plan {}\n  output {}\n", shown(plan), shown(output))
        }
        Case::PackShared { plan, output } => {
            format!("pack_aplx_shared\n  plan {}\n  output {}\n", shown(plan), shown(output))
        }
        Case::Series { plan, table, memory, medium, steps } => {
            let text = format!(
                "series on {medium:x?}\n  plan {}\n  table {}\n  memory {}\n",
                shown(plan),
                shown(table),
                shown(memory)
            );
            text + &steps_text(steps)
        }
        Case::AplxRead { image, output, packed } => {
            format!("aplx_read\n  image {}\n  output {}\n  packed {packed}\n", shown(image), shown(output))
        }
        Case::OldImage { image, table, memory, old, new, steps } => {
            format!(
                "old image at {old:#x}, the packed one at {new:#x}\n  image {}\n  table {}\n  memory {}\n{}",
                shown(image),
                shown(table),
                shown(memory),
                steps_text(steps)
            )
        }
        Case::Compare { old, new, output } => {
            format!("compare\n  old {}\n  new {}\n  output of {} bytes\n", shown(old), shown(new), output.len())
        }
        Case::AplxCheck { plan, image, made, known } => {
            format!("aplx_check\n  plan {}\n  image {}\n  made: {made}, {known:?}\n", shown(plan), shown(image))
        }
        Case::SuppliedImage { plan, image, table, memory, at, steps } => format!(
            "supplied image at {at:#x}\n  plan {}\n  image {}\n  table {}\n  memory {}\n{}",
            shown(plan),
            shown(image),
            shown(table),
            shown(memory),
            steps_text(steps)
        ),
        Case::SharedImage { plan, table, memory, at, steps } => format!(
            "shared image at {at:#x}\n  plan {}\n  table {}\n  memory {}\n{}",
            shown(plan),
            shown(table),
            shown(memory),
            steps_text(steps)
        ),
        Case::FloodFill(flood) => describe_flood(flood),
    }
}

fn steps_text(steps: &[Step]) -> String {
    let text = |step: &Step| format!("  load from piece {}, then {:x?}\n", step.index, step.changes);
    steps.iter().map(text).collect()
}
