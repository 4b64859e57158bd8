//! Random images with shared data that lie in memory: a map, a memory with the image in it, and the steps of a series that keeps what
//! demand 3 grants.

use std::collections::BTreeSet;

use super::maps::sound_scene;
use super::old_images::address;
use super::parts::Part;
use super::plans::lay_out;
use super::repeats::{drafts, several};
use super::supplied_images::steps;
use super::Case;
use crate::map::Right;
use crate::plan::{self, Piece, APLX_UNIT};
use crate::random::Random;
use crate::series::{granted, Medium};
use crate::share::shared_image;

pub fn shared_image_in_memory(random: &mut Random) -> Case {
    loop {
        if let Some(case) = attempt(random) {
            return case;
        }
    }
}

/// None where the image finds no place.
fn attempt(random: &mut Random) -> Option<Case> {
    let length = random.between(400, 2_500);
    let mut scene = sound_scene(random, length);
    let count = if random.once_in(30) { random.between(17, 40) } else { random.between(0, 9) };
    let mut parts = several(random, count, 64);
    let puts = parts.iter().filter(|part| matches!(part, Part::Put { .. }));
    let contents: BTreeSet<Vec<u8>> = puts.map(Part::bytes).collect();
    let image_length = (16 * (count + 1) + contents.iter().map(Vec::len).sum::<usize>()) as u64;
    let at = u64::from(scene.address(random, Right::Read, image_length));
    let flaws = random.once_in(2);
    for part in &mut parts {
        let length = part.bytes().len() as u32;
        let like = if part.is_run() { Piece::Run { address: 0 } } else { Piece::Fill { address: 0, length, word: 0 } };
        let to = address(random, &scene, &like, flaws, [at; 2], [image_length; 2]);
        match part {
            Part::Put { address, .. } | Part::Fill { address, .. } | Part::Run { address } => *address = to,
        }
    }
    let (table, data) = drafts(random, &parts);
    let plan = lay_out(random, &table, &data);
    let pieces = plan::read(&plan, APLX_UNIT).ok()?;
    let image = shared_image(&plan, &pieces);
    scene.poke(at, &image);
    let place = scene.map.lookup(Right::Read, at, image.len() as u64)?;
    let steps = steps(random, &pieces, scene.memory.len(), place..place + image.len());
    let at = at as u32;
    let whole = granted(Medium::Aplx { image: at }, &pieces, &image, &scene.map, &scene.memory, &steps);
    whole.then_some(Case::SharedImage { plan, table: scene.table, memory: scene.memory, at, steps })
}
