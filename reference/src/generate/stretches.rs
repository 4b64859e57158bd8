//! Random series of loads for demand 3: a plan, a map, a memory with the image in it, and steps that keep what is
//! granted. Pieces are mostly permitted; the called code changes anything outside the image.

use super::maps::sound_scene;
use super::plans::{lay_out, Draft};
use super::Case;
use crate::bytes::share;
use crate::map::Right;
use crate::pack;
use crate::plan;
use crate::random::Random;
use crate::series::{granted, Medium, Step};

pub fn series(random: &mut Random) -> Case {
    loop {
        if let Some(case) = attempt(random) {
            return case;
        }
    }
}

/// None where the image finds no place.
fn attempt(random: &mut Random) -> Option<Case> {
    let on_srom = random.once_in(2);
    let unit = if on_srom { 4 } else { 32 };
    let length = random.between(200, 1_600);
    let mut scene = sound_scene(random, length);
    let count = if random.once_in(40) { random.between(20, 64) } else { random.between(0, 8) };
    let data = random.bytes(unit as usize * 4);
    let mut drafts: Vec<Draft> = (0..count)
        .map(|_| {
            let units = random.between(1, 3) as u32;
            match random.below(10) {
                0..=3 => {
                    let last = random.below(data.len() - (unit * units) as usize + 1) as u32;
                    Draft { kind: 1, address: 0, length: unit * units, last }
                }
                4..=6 => Draft { kind: 2, address: 0, length: unit * units, last: random.word() },
                _ => Draft { kind: 3, address: 0, length: 0, last: 0 },
            }
        })
        .collect();
    let puts: u32 = drafts.iter().filter(|d| d.kind == 1).map(|d| d.length).sum();
    let image_length = 16 * (u64::from(count as u32) + 1) + u64::from(puts);
    let image_at = scene.address(random, Right::Read, image_length);
    let flaws = random.once_in(2);
    for draft in &mut drafts {
        for _ in 0..20 {
            draft.address = if draft.kind == 3 {
                scene.run_address(random)
            } else if flaws && random.once_in(12) {
                scene.edge(random, u64::from(draft.length)) & !3
            } else {
                scene.address(random, Right::Write, u64::from(draft.length))
            };
            let met = share(
                u64::from(draft.address),
                u64::from(draft.length),
                u64::from(image_at),
                image_length,
            );
            let legal = draft.kind != 3 || (draft.address % 4 != 2);
            let permitted = draft.kind != 3 || flaws || scene.map.run_entry(draft.address).is_some();
            if legal && permitted && (on_srom || !met) {
                break;
            }
        }
        if draft.kind == 3 && draft.address % 4 == 2 {
            draft.address += 1;
        }
    }
    let plan = lay_out(random, &drafts, &data);
    let pieces = plan::read(&plan, unit).ok()?;
    let (medium, image) = if on_srom {
        (Medium::Srom, pack::srom_image(&plan, &pieces))
    } else {
        (Medium::Aplx { image: image_at }, pack::aplx_image(&plan, &pieces))
    };
    if !on_srom {
        scene.poke(u64::from(image_at), &image);
    }
    let kept = match medium {
        Medium::Srom => 0..0,
        Medium::Aplx { .. } => {
            let place = scene.map.lookup(Right::Read, u64::from(image_at), image.len() as u64)?;
            place..place + image.len()
        }
    };
    let mut steps = Vec::new();
    let mut next = 0;
    for _ in 0..random.between(1, 7) {
        // Often on from the last run, as a technician would.
        let index = if random.once_in(3) { random.below(pieces.len() + 1) } else { next };
        next = plan::stretch(&pieces, index).end;
        if next == pieces.len() && !random.once_in(4) {
            next = 0;
        }
        let changes = (0..random.pick(&[0, 1, 4, 30]))
            .map(|_| (random.below(scene.memory.len() + 2), random.byte()))
            .filter(|(at, _)| !kept.contains(at))
            .collect();
        steps.push(Step { index, changes });
    }
    granted(medium, &pieces, &image, &scene.map, &scene.memory, &steps).then_some(Case::Series {
        plan,
        table: scene.table,
        memory: scene.memory,
        medium,
        steps,
    })
}
