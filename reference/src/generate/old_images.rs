//! Random images to be read back that lie in memory, beside what the packer writes of the plan that is read: a map, a memory
//! with both in it, and the steps of a series that keeps what demand 3 grants for both.

use super::maps::{sound_scene, Scene};
use super::slices::laid_out;
use super::Case;
use crate::bytes::{put_le32, share};
use crate::map::Right;
use crate::pack::{aplx_image, aplx_length};
use crate::plan::{self, stretch, Piece};
use crate::random::Random;
use crate::read_back::{pieces, plan_of};
use crate::series::{granted, Medium, Step};

pub fn old_image(random: &mut Random) -> Case {
    loop {
        if let Some(case) = attempt(random) {
            return case;
        }
    }
}

/// None where one of the two images finds no place.
fn attempt(random: &mut Random) -> Option<Case> {
    let length = random.between(500, 2_000);
    let mut scene = sound_scene(random, length);
    let count = if random.once_in(40) { random.between(8, 24) } else { random.between(0, 6) };
    let mut image = laid_out(random, count, true);
    let drafts = pieces(&image).ok()?;
    let lengths = [image.len() as u64, aplx_length(&drafts)];
    let places = lengths.map(|length| u64::from(scene.address(random, Right::Read, length)));
    if share(places[0], lengths[0], places[1], lengths[1]) {
        return None;
    }
    let flaws = random.once_in(2);
    for (index, piece) in drafts.iter().enumerate() {
        let address = address(random, &scene, piece, flaws, places, lengths);
        put_le32(&mut image, 16 * index + 4, address);
    }
    let found = pieces(&image).ok()?;
    let plan = plan_of(&image, &found);
    let packed = aplx_image(&plan, &plan::read(&plan, plan::APLX_UNIT).ok()?);
    let mut kept = Vec::new();
    for (place, bytes) in places.iter().zip([&image, &packed]) {
        scene.poke(*place, bytes);
        let at = scene.map.lookup(Right::Read, *place, bytes.len() as u64)?;
        kept.push(at..at + bytes.len());
    }
    let mut steps = Vec::new();
    let mut next = 0;
    for _ in 0..random.between(1, 3) {
        let index = if random.once_in(4) { random.below(found.len() + 1) } else { next };
        next = stretch(&found, index).end;
        let changes = (0..random.pick(&[0, 1, 20]))
            .map(|_| (random.below(scene.memory.len() + 2), random.byte()))
            .filter(|(at, _)| !kept.iter().any(|range| range.contains(at)))
            .collect();
        steps.push(Step { index, changes });
    }
    let places = places.map(|place| place as u32);
    let both = places.iter().zip([&image, &packed]).all(|(place, bytes)| {
        granted(Medium::Aplx { image: *place }, &found, bytes, &scene.map, &scene.memory, &steps)
    });
    let [old, new] = places;
    both.then_some(Case::OldImage { image, table: scene.table, memory: scene.memory, old, new, steps })
}

/// An address for a piece, that mostly is permitted and meets neither image.
pub fn address(
    random: &mut Random,
    scene: &Scene,
    piece: &Piece,
    flaws: bool,
    places: [u64; 2],
    lengths: [u64; 2],
) -> u32 {
    let length = piece.length();
    let mut address = 0;
    for _ in 0..20 {
        address = if piece.is_run() {
            scene.run_address(random)
        } else if flaws && random.once_in(12) {
            scene.edge(random, length) & !3
        } else {
            scene.address(random, Right::Write, length)
        };
        let met = (0..2).any(|k| share(u64::from(address), length, places[k], lengths[k]));
        let legal = !piece.is_run() || (address % 4 != 2 && (flaws || scene.map.run_entry(address).is_some()));
        if legal && !met {
            break;
        }
    }
    if piece.is_run() && address % 4 == 2 { address + 1 } else { address }
}
