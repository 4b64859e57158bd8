//! Random images of another firm's packer that lie in memory: a map, a memory with the image in it, and the steps of a series that
//! keeps what demand 3 grants.

use std::ops::Range;

use super::old_images::address;
use super::parts::Part;
use super::supplied::Supplied;
use super::supplies::supplied;
use super::Case;
use crate::check::check;
use crate::map::Right;
use crate::plan::{self, stretch, Piece};
use crate::random::Random;
use crate::series::{granted, Medium, Step};

const MOST_BYTES: u64 = 1_200;

pub fn supplied_image(random: &mut Random) -> Case {
    loop {
        if let Some(case) = attempt(random) {
            return case;
        }
    }
}

/// None where the image finds no place.
fn attempt(random: &mut Random) -> Option<Case> {
    let length = random.between(500, 3_000);
    let mut scene = super::maps::sound_scene(random, length);
    let mut made = supplied(random, true);
    let length = made.image().len() as u64;
    if length > MOST_BYTES {
        return None;
    }
    let at = u64::from(scene.address(random, Right::Read, length));
    let flaws = random.once_in(2);
    for piece in 0..made.pieces.len() {
        let length = made.pieces[piece].bytes().len() as u32;
        let like = if length == 0 { Piece::Run { address: 0 } } else { Piece::Fill { address: 0, length, word: 0 } };
        let address = address(random, &scene, &like, flaws, [at; 2], [u64::from(made.image().len() as u32); 2]);
        move_to(&mut made, piece, address);
    }
    let (plan, image) = (made.plan(random), made.image());
    check(&plan, &image).ok()?;
    let pieces = plan::read(&plan, plan::NO_UNIT).ok()?;
    scene.poke(at, &image);
    let place = scene.map.lookup(Right::Read, at, image.len() as u64)?;
    let steps = steps(random, &pieces, scene.memory.len(), place..place + image.len());
    let at = at as u32;
    let whole = granted(Medium::Aplx { image: at }, &pieces, &image, &scene.map, &scene.memory, &steps);
    whole.then_some(Case::SuppliedImage { plan, image, table: scene.table, memory: scene.memory, at, steps })
}

/// Loads of an image, often on from the last run, in a memory of so many bytes; what changes after a load is not the image, which is kept.
pub fn steps(random: &mut Random, pieces: &[Piece], memory: usize, kept: Range<usize>) -> Vec<Step> {
    let mut next = 0;
    let mut steps = Vec::new();
    for _ in 0..random.between(1, 5) {
        let index = if random.once_in(3) { random.below(pieces.len() + 1) } else { next };
        next = stretch(pieces, index).end;
        let changes = (0..random.pick(&[0, 1, 20]))
            .map(|_| (random.below(memory + 2), random.byte()))
            .filter(|(at, _)| !kept.contains(at))
            .collect();
        steps.push(Step { index, changes });
    }
    steps
}

/// Another address for a piece and its entries.
fn move_to(made: &mut Supplied, piece: usize, to: u32) {
    let from = made.pieces[piece].address();
    match &mut made.pieces[piece] {
        Part::Put { address, .. } | Part::Fill { address, .. } | Part::Run { address } => *address = to,
    }
    for entry in made.entries.iter_mut().filter(|entry| entry.piece == piece) {
        entry.words[1] = entry.words[1].wrapping_sub(from).wrapping_add(to);
    }
}
