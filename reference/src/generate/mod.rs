//! Random inputs of every call: valid ones, near-valid ones with one thing wrong, damaged ones, and random bytes.

mod changes;
mod checks;
mod flood_damage;
mod floods;
mod images;
mod maps;
mod old_images;
mod packets;
mod pairs;
mod parts;
mod pictures;
mod plans;
mod receivers;
mod repeats;
mod roms;
mod rows;
mod shared_images;
mod shares;
mod slices;
mod stretches;
mod supplied;
mod supplied_images;
mod supplier_data;
mod supplier_order;
mod supplier_words;
mod supplies;

pub use checks::{FAULTS, OTHERS};
pub use floods::{lent_whole, Flood, Sent, Whole};
pub use maps::Scene;

use crate::interface::Numbers;
use crate::outcome::Refusal;
use crate::random::Random;
use crate::series::{Medium, Step};

/// One input.
#[derive(Clone, Debug, PartialEq, Eq)]
pub enum Case {
    /// Additions one after the other to one table: base, length, place, rights.
    MapAdd { table: Vec<u8>, additions: Vec<[u32; 4]> },
    MapSound { table: Vec<u8>, memory_length: usize },
    SromLoad { table: Vec<u8>, memory: Vec<u8>, rom: Vec<u8>, offset: usize },
    AplxLoad { table: Vec<u8>, memory: Vec<u8>, header: u32 },
    ScpAnswer { table: Vec<u8>, memory: Vec<u8>, identity: Numbers, packet: Vec<u8>, output: Vec<u8> },
    PlanRead { plan: Vec<u8>, target: u32 },
    PackSrom { plan: Vec<u8>, output: Vec<u8> },
    PackAplx { plan: Vec<u8>, output: Vec<u8> },
    PackShared { plan: Vec<u8>, output: Vec<u8> },
    /// `packed`: the image is just what the packer writes of a plan.
    AplxRead { image: Vec<u8>, output: Vec<u8>, packed: bool },
    Compare { old: Vec<u8>, new: Vec<u8>, output: Vec<u8> },
    /// `made`: how the image was made; `known`: the answer that follows from it.
    AplxCheck { plan: Vec<u8>, image: Vec<u8>, made: &'static str, known: Option<Result<(), Refusal>> },
    Series { plan: Vec<u8>, table: Vec<u8>, memory: Vec<u8>, medium: Medium, steps: Vec<Step> },
    /// An image in memory at `old`, and the packed image of the plan that is read from it at `new`.
    OldImage { image: Vec<u8>, table: Vec<u8>, memory: Vec<u8>, old: u32, new: u32, steps: Vec<Step> },
    /// An image of another firm's packer in memory at an address.
    SuppliedImage { plan: Vec<u8>, image: Vec<u8>, table: Vec<u8>, memory: Vec<u8>, at: u32, steps: Vec<Step> },
    /// The image with shared data of a plan in memory at an address.
    SharedImage { plan: Vec<u8>, table: Vec<u8>, memory: Vec<u8>, at: u32, steps: Vec<Step> },
    FloodFill(Flood),
}

/// How large inputs may be.
#[derive(Clone, Copy, Debug, PartialEq, Eq)]
pub enum Size {
    /// For stored vectors: memory of at most 512 bytes, other slices of at most 1,200, flood-fill images of few words.
    Stored,
    /// Mostly small; now and then many MB.
    Free,
}

#[derive(Clone, Copy, Debug, PartialEq, Eq)]
pub enum Call {
    MapAdd,
    MapSound,
    SromLoad,
    AplxLoad,
    ScpAnswer,
    PlanRead,
    PackSrom,
    PackAplx,
    PackShared,
    AplxRead,
    Compare,
    AplxCheck,
    Series,
    OldImage,
    SuppliedImage,
    SharedImage,
    FloodFill,
}

/// An input of one call.
pub fn case_of(call: Call, random: &mut Random, size: Size) -> Case {
    match call {
        Call::MapAdd => maps::additions(random),
        Call::MapSound => maps::soundness(random, size),
        Call::SromLoad => roms::load(random, size),
        Call::AplxLoad => images::load(random, size),
        Call::ScpAnswer => packets::answer(random, size),
        Call::PlanRead => plans::read(random, size),
        Call::PackSrom => plans::pack_srom(random, size),
        Call::PackAplx => plans::pack_aplx(random, size),
        Call::PackShared => shares::pack_shared(random, size),
        Call::AplxRead => slices::read(random, size),
        Call::Compare => pairs::compare(random, size),
        Call::AplxCheck => checks::check(random, size),
        Call::Series => stretches::series(random),
        Call::OldImage => old_images::old_image(random),
        Call::SuppliedImage => supplied_images::supplied_image(random),
        Call::SharedImage => shared_images::shared_image_in_memory(random),
        Call::FloodFill => Case::FloodFill(floods::flood(random, size)),
    }
}

/// An input of any call.
pub fn case(random: &mut Random) -> Case {
    let call = match random.below(158) {
        0..=8 => Call::MapAdd,
        9..=12 => Call::MapSound,
        13..=27 => Call::SromLoad,
        28..=47 => Call::AplxLoad,
        48..=67 => Call::ScpAnswer,
        68..=75 => Call::PlanRead,
        76..=84 => Call::PackSrom,
        85..=93 => Call::PackAplx,
        94..=99 => Call::Series,
        100..=105 => Call::FloodFill,
        106..=114 => Call::AplxRead,
        115..=124 => Call::Compare,
        125..=136 => Call::AplxCheck,
        137..=140 => Call::SuppliedImage,
        141..=150 => Call::PackShared,
        151..=154 => Call::SharedImage,
        _ => Call::OldImage,
    };
    case_of(call, random, Size::Free)
}

/// Changes one to three bytes.
fn damage(random: &mut Random, bytes: &mut [u8]) {
    if bytes.is_empty() {
        return;
    }
    for _ in 0..random.between(1, 3) {
        let at = random.below(bytes.len());
        bytes[at] = match random.below(3) {
            0 => bytes[at] ^ (1 << random.below(8)),
            1 => random.pick(&[0, 1, 2, 3, 4, 0x3a, 0x55, 0xff]),
            _ => random.byte(),
        };
    }
}
