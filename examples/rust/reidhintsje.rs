//! The library over slices. A slice has its length, and what a call may write is lent to it alone, so that a caller of this module needs no
//! `unsafe`. include/reidhintsje.h says what each call takes and answers.
#![allow(dead_code)]

mod linked {
    extern "C" {
        pub fn reidhintsje_map_add(
            map: *mut u8, map_length: usize, base: u32, length: u32, place: u32, rights: u32,
        ) -> u32;
        pub fn reidhintsje_map_sound(map: *const u8, map_length: usize, memory_length: usize) -> u32;
        pub fn reidhintsje_srom_load(
            map: *const u8, map_length: usize, memory: *mut u8, memory_length: usize,
            rom: *const u8, rom_length: usize, offset: usize, outcome: *mut u64,
        ) -> u32;
        pub fn reidhintsje_aplx_load(
            map: *const u8, map_length: usize, memory: *mut u8, memory_length: usize,
            header: u32, outcome: *mut u64,
        ) -> u32;
        pub fn reidhintsje_scp_answer(
            map: *const u8, map_length: usize, memory: *mut u8, memory_length: usize, identity: *const u32,
            packet: *const u8, packet_length: usize, output: *mut u8, output_length: usize, outcome: *mut u64,
        ) -> u32;
        pub fn reidhintsje_plan_read(plan: *const u8, plan_length: usize, target: u32, outcome: *mut u64) -> u32;
        pub fn reidhintsje_pack_srom(
            plan: *const u8, plan_length: usize, output: *mut u8, output_length: usize, outcome: *mut u64,
        ) -> u32;
        pub fn reidhintsje_pack_aplx(
            plan: *const u8, plan_length: usize, output: *mut u8, output_length: usize, outcome: *mut u64,
        ) -> u32;
        pub fn reidhintsje_pack_aplx_shared(
            plan: *const u8, plan_length: usize, output: *mut u8, output_length: usize, outcome: *mut u64,
        ) -> u32;
        pub fn reidhintsje_aplx_read(
            image: *const u8, image_length: usize, output: *mut u8, output_length: usize, outcome: *mut u64,
        ) -> u32;
        pub fn reidhintsje_compare(
            old_plan: *const u8, old_length: usize, new_plan: *const u8, new_length: usize,
            output: *mut u8, output_length: usize, outcome: *mut u64,
        ) -> u32;
        pub fn reidhintsje_aplx_check(
            plan: *const u8, plan_length: usize, image: *const u8, image_length: usize, outcome: *mut u64,
        ) -> u32;
        pub fn reidhintsje_flood_fill_start(
            receiver: *mut u8, image: *const u8, image_length: usize, last_block: u32, block_size: u32,
            outcome: *mut u64,
        ) -> u32;
        pub fn reidhintsje_flood_fill_block_start(
            receiver: *mut u8, image: *const u8, image_length: usize, block: u32, size: u32, outcome: *mut u64,
        ) -> u32;
        pub fn reidhintsje_flood_fill_block_data(
            receiver: *mut u8, image: *const u8, image_length: usize, block: u32, word_id: u32, word: u32,
            outcome: *mut u64,
        ) -> u32;
        pub fn reidhintsje_flood_fill_block_end(
            receiver: *mut u8, image: *mut u8, image_length: usize, block: u32, outcome: *mut u64,
        ) -> u32;
    }
}

pub const MAP_BYTES: usize = 132;
pub const SCP_OUTPUT_BYTES: usize = 272;
pub const RECEIVER_BYTES: usize = 1544;
pub const STRETCH_BYTES: usize = 16;
pub const MOST_STRETCHES: usize = 512;
pub const COMPARE_OUTPUT_BYTES: usize = STRETCH_BYTES * MOST_STRETCHES;

/// A flood-fill receiver; all zeros is the empty one.
pub type Receiver = [u8; RECEIVER_BYTES];

/// The refusal whose bytes() is the length that the output has to have.
pub const OUTPUT_TOO_SMALL: u32 = 10;

/// Rights of a region; add up those that are given.
pub const MAY_READ: u32 = 1;
pub const MAY_WRITE: u32 = 2;
pub const MAY_RUN: u32 = 4;

/// What happened in a call.
#[derive(Clone, Copy, Debug, PartialEq, Eq)]
pub enum Event {
    Refused,
    End,
    Unknown,
    Run,
    Start,
    Response,
    Silent,
    Read,
    Packed,
    Accepted,
    Ignored,
    Missing,
    Done,
    SameRun,
    OtherRun,
    Checked,
}

/// What code a run enters.
#[derive(Clone, Copy, Debug, PartialEq, Eq)]
pub enum Kind {
    Arm,
    Thumb,
}

/// The plan that a refused comparison is about.
#[derive(Clone, Copy, Debug, PartialEq, Eq)]
pub enum Which {
    Old,
    New,
}

/// Addresses in a row at which two plans differ, and the bytes that they leave at the first; None where it is not stored.
#[derive(Clone, Copy, Debug, PartialEq, Eq)]
pub struct Stretch {
    pub first: u32,
    pub last: u32,
    pub old: Option<u8>,
    pub new: Option<u8>,
}

/// What plans are read for.
#[derive(Clone, Copy, Debug, PartialEq, Eq)]
pub enum Target {
    Aplx = 0,
    Srom = 1,
    Any = 2,
}

/// What a VER packet is told.
#[derive(Clone, Copy, Debug, PartialEq, Eq)]
pub struct Identity {
    pub point_to_point: u16,
    pub physical_cpu: u8,
    pub virtual_cpu: u8,
    pub version: u16,
    pub date: u32,
}

/// The eight numbers of a call.
#[derive(Clone, Copy, Debug, PartialEq, Eq)]
pub struct Outcome {
    pub numbers: [u64; 8],
}

impl Outcome {
    /// The refusal's number, or 0.
    pub fn refusal(&self) -> u32 {
        self.numbers[0] as u32
    }

    /// Where it was; of missing words, the lowest.
    pub fn place(&self) -> u64 {
        self.numbers[1]
    }

    pub fn event(&self) -> Event {
        match self.numbers[2] {
            0 => Event::Refused,
            1 => Event::End,
            2 => Event::Unknown,
            3 => Event::Run,
            4 => Event::Start,
            5 => Event::Response,
            6 => Event::Silent,
            7 => Event::Read,
            8 => Event::Packed,
            9 => Event::Accepted,
            10 => Event::Ignored,
            11 => Event::Missing,
            12 => Event::Done,
            13 => Event::SameRun,
            14 => Event::OtherRun,
            15 => Event::Checked,
            other => unreachable!("event {other}"),
        }
    }

    /// The kind of a run; None where there was none.
    pub fn kind(&self) -> Option<Kind> {
        match (self.refusal(), self.numbers[3]) {
            (0, 1) => Some(Kind::Arm),
            (0, 2) => Some(Kind::Thumb),
            _ => None,
        }
    }

    /// The plan that a comparison refused; None where it was neither.
    pub fn which(&self) -> Option<Which> {
        match (self.refusal(), self.numbers[3]) {
            (0, _) => None,
            (_, 1) => Some(Which::Old),
            (_, 2) => Some(Which::New),
            _ => None,
        }
    }

    pub fn address(&self) -> u32 {
        self.numbers[4] as u32
    }

    /// Where the next load goes on: an offset, or a header address.
    pub fn resume(&self) -> u32 {
        self.numbers[5] as u32
    }

    /// How many entries, blocks, pieces or stretches; or missing words.
    pub fn items(&self) -> u64 {
        self.numbers[6]
    }

    pub fn bytes(&self) -> usize {
        self.numbers[7] as usize
    }
}

/// Calls with a lent array for the numbers.
fn call(library: impl FnOnce(*mut u64) -> u32) -> Outcome {
    let mut numbers = [0; 8];
    let returned = library(numbers.as_mut_ptr());
    debug_assert_eq!(u64::from(returned), numbers[0]);
    Outcome { numbers }
}

/// Whether the region was added; else the table is as it was.
pub fn map_add(map: &mut [u8], base: u32, length: u32, place: u32, rights: u32) -> bool {
    unsafe { linked::reidhintsje_map_add(map.as_mut_ptr(), map.len(), base, length, place, rights) == 0 }
}

/// Whether the map is sound for a memory of so many bytes.
pub fn map_sound(map: &[u8], memory_length: usize) -> bool {
    unsafe { linked::reidhintsje_map_sound(map.as_ptr(), map.len(), memory_length) == 0 }
}

pub fn srom_load(map: &[u8], memory: &mut [u8], rom: &[u8], offset: usize) -> Outcome {
    let (at, length) = (memory.as_mut_ptr(), memory.len());
    call(|outcome| unsafe {
        linked::reidhintsje_srom_load(map.as_ptr(), map.len(), at, length, rom.as_ptr(), rom.len(), offset, outcome)
    })
}

pub fn aplx_load(map: &[u8], memory: &mut [u8], header: u32) -> Outcome {
    let (at, length) = (memory.as_mut_ptr(), memory.len());
    call(|outcome| unsafe { linked::reidhintsje_aplx_load(map.as_ptr(), map.len(), at, length, header, outcome) })
}

pub fn scp_answer(map: &[u8], memory: &mut [u8], identity: Identity, packet: &[u8], output: &mut [u8]) -> Outcome {
    let Identity { point_to_point, physical_cpu, virtual_cpu, version, date } = identity;
    let numbers: [u32; 5] =
        [point_to_point.into(), physical_cpu.into(), virtual_cpu.into(), version.into(), date];
    call(|outcome| unsafe {
        linked::reidhintsje_scp_answer(
            map.as_ptr(), map.len(), memory.as_mut_ptr(), memory.len(), numbers.as_ptr(),
            packet.as_ptr(), packet.len(), output.as_mut_ptr(), output.len(), outcome,
        )
    })
}

pub fn plan_read(plan: &[u8], target: Target) -> Outcome {
    call(|outcome| unsafe { linked::reidhintsje_plan_read(plan.as_ptr(), plan.len(), target as u32, outcome) })
}

pub fn pack_srom(plan: &[u8], output: &mut [u8]) -> Outcome {
    call(|outcome| unsafe {
        linked::reidhintsje_pack_srom(plan.as_ptr(), plan.len(), output.as_mut_ptr(), output.len(), outcome)
    })
}

pub fn pack_aplx(plan: &[u8], output: &mut [u8]) -> Outcome {
    call(|outcome| unsafe {
        linked::reidhintsje_pack_aplx(plan.as_ptr(), plan.len(), output.as_mut_ptr(), output.len(), outcome)
    })
}

/// Packs a plan as an APLX image that keeps one copy of equal data.
pub fn pack_aplx_shared(plan: &[u8], output: &mut [u8]) -> Outcome {
    call(|outcome| unsafe {
        linked::reidhintsje_pack_aplx_shared(plan.as_ptr(), plan.len(), output.as_mut_ptr(), output.len(), outcome)
    })
}

/// An APLX image read back as a plan, at the output's front.
pub fn aplx_read(image: &[u8], output: &mut [u8]) -> Outcome {
    call(|outcome| unsafe {
        linked::reidhintsje_aplx_read(image.as_ptr(), image.len(), output.as_mut_ptr(), output.len(), outcome)
    })
}

/// Compares two plans. The stretches in which they differ stand at the output's front, which stretches() reads.
pub fn compare(old: &[u8], new: &[u8], output: &mut [u8]) -> Outcome {
    let (at, length) = (output.as_mut_ptr(), output.len());
    call(|outcome| unsafe {
        linked::reidhintsje_compare(old.as_ptr(), old.len(), new.as_ptr(), new.len(), at, length, outcome)
    })
}

/// The stretches that a comparison left in its output; none where it was refused.
pub fn stretches(outcome: Outcome, output: &[u8]) -> impl Iterator<Item = Stretch> + '_ {
    let count = if outcome.refusal() == 0 { outcome.items() as usize } else { 0 };
    output.chunks_exact(STRETCH_BYTES).take(count).map(|bytes| {
        let word = |i: usize| u32::from_le_bytes(bytes[4 * i..4 * i + 4].try_into().unwrap());
        Stretch { first: word(0), last: word(1), old: u8::try_from(word(2)).ok(), new: u8::try_from(word(3)).ok() }
    })
}

/// Checks an APLX image that another firm's packer wrote of a plan: Event::Checked where it follows the plan.
pub fn aplx_check(plan: &[u8], image: &[u8]) -> Outcome {
    call(|outcome| unsafe {
        linked::reidhintsje_aplx_check(plan.as_ptr(), plan.len(), image.as_ptr(), image.len(), outcome)
    })
}

/// Start: the number of blocks less 1, and the full size of a block in words. Begins afresh.
pub fn flood_fill_start(receiver: &mut Receiver, image: &[u8], last_block: u32, block_size: u32) -> Outcome {
    let at = receiver.as_mut_ptr();
    call(|outcome| unsafe {
        linked::reidhintsje_flood_fill_start(at, image.as_ptr(), image.len(), last_block, block_size, outcome)
    })
}

/// Block Start: opens a block of so many words.
pub fn flood_fill_block_start(receiver: &mut Receiver, image: &[u8], block: u32, size: u32) -> Outcome {
    let at = receiver.as_mut_ptr();
    call(|outcome| unsafe {
        linked::reidhintsje_flood_fill_block_start(at, image.as_ptr(), image.len(), block, size, outcome)
    })
}

/// Block Data: a word of a block.
pub fn flood_fill_block_data(
    receiver: &mut Receiver, image: &[u8], block: u32, word_id: u32, word: u32,
) -> Outcome {
    let at = receiver.as_mut_ptr();
    call(|outcome| unsafe {
        linked::reidhintsje_flood_fill_block_data(at, image.as_ptr(), image.len(), block, word_id, word, outcome)
    })
}

/// Block End: the words of a complete block go into the image.
pub fn flood_fill_block_end(receiver: &mut Receiver, image: &mut [u8], block: u32) -> Outcome {
    let (at, image_at, length) = (receiver.as_mut_ptr(), image.as_mut_ptr(), image.len());
    call(|outcome| unsafe { linked::reidhintsje_flood_fill_block_end(at, image_at, length, block, outcome) })
}
