//! The library's interface for C and Rust, as include/reidhintsje.h says it: a map is a lent table of 132 bytes, a
//! receiver 1,544 lent bytes, an answer is a number and eight outcome numbers. `Library` is that interface; `Reference` gives it over this second implementation.

use crate::aplx;
use crate::bytes::{le32, put_le32};
use crate::check;
use crate::flood_fill::{self, Receiver, Taken};
use crate::map::{Map, Region, Rights, MOST_REGIONS};
use crate::outcome::{Answer, Entry, Loaded, Refusal, Stop};
use crate::pack;
use crate::plan;
use crate::plan_difference::{self, Compared, Side, SideRefusal};
use crate::read_back;
use crate::receiver::{receiver_of, write_receiver, ReceiverBytes, DONE};
use crate::scp::{self, Identity, Reply};
use crate::share;
use crate::srom;

pub const TABLE: usize = 132;

pub type Outcome = [u64; 8];

/// The five numbers of an identity.
pub type Numbers = [u32; 5];

/// All rights; a rights word over this has a bit without a meaning.
const ALL_RIGHTS: u32 = 7;

pub trait Library {
    fn map_add(&self, map: &mut [u8], base: u32, length: u32, place: u32, rights: u32) -> u32;
    fn map_sound(&self, map: &[u8], memory_length: usize) -> u32;
    fn srom_load(
        &self,
        map: &[u8],
        memory: &mut [u8],
        rom: &[u8],
        offset: usize,
        outcome: &mut Outcome,
    ) -> u32;
    fn aplx_load(&self, map: &[u8], memory: &mut [u8], header: u32, outcome: &mut Outcome) -> u32;
    fn scp_answer(
        &self,
        map: &[u8],
        memory: &mut [u8],
        identity: &Numbers,
        packet: &[u8],
        output: &mut [u8],
        outcome: &mut Outcome,
    ) -> u32;
    fn plan_read(&self, plan: &[u8], target: u32, outcome: &mut Outcome) -> u32;
    fn pack_srom(&self, plan: &[u8], output: &mut [u8], outcome: &mut Outcome) -> u32;
    fn pack_aplx(&self, plan: &[u8], output: &mut [u8], outcome: &mut Outcome) -> u32;
    fn pack_aplx_shared(&self, plan: &[u8], output: &mut [u8], outcome: &mut Outcome) -> u32;
    fn aplx_read(&self, image: &[u8], output: &mut [u8], outcome: &mut Outcome) -> u32;
    fn compare(&self, old: &[u8], new: &[u8], output: &mut [u8], outcome: &mut Outcome) -> u32;
    fn aplx_check(&self, plan: &[u8], image: &[u8], outcome: &mut Outcome) -> u32;
    fn flood_fill_start(
        &self,
        receiver: &mut ReceiverBytes,
        image: &[u8],
        last_block: u32,
        block_size: u32,
        outcome: &mut Outcome,
    ) -> u32;
    fn flood_fill_block_start(
        &self,
        receiver: &mut ReceiverBytes,
        image: &[u8],
        block: u32,
        size: u32,
        outcome: &mut Outcome,
    ) -> u32;
    fn flood_fill_block_data(
        &self,
        receiver: &mut ReceiverBytes,
        image: &[u8],
        block: u32,
        word_id: u32,
        word: u32,
        outcome: &mut Outcome,
    ) -> u32;
    fn flood_fill_block_end(
        &self,
        receiver: &mut ReceiverBytes,
        image: &mut [u8],
        block: u32,
        outcome: &mut Outcome,
    ) -> u32;
}

/// The map that a table holds. None: not 132 bytes, more regions than a map has, or a region in use with a rights
/// word over 7. Such a table is no sound map.
pub fn map_of(table: &[u8]) -> Option<Map> {
    if table.len() != TABLE || le32(table, 0) as usize > MOST_REGIONS {
        return None;
    }
    let mut regions = Vec::new();
    for index in 0..le32(table, 0) as usize {
        let [base, length, place, rights] = [0, 4, 8, 12].map(|k| le32(table, 4 + 16 * index + k));
        if rights > ALL_RIGHTS {
            return None;
        }
        regions.push(Region { base, length, place, rights: Rights::from_number(rights) });
    }
    Some(Map { regions })
}

/// The table of a map of at most 8 regions, with zeros past the last one.
pub fn table_of(map: &Map) -> Vec<u8> {
    let mut table = vec![0; TABLE];
    write_map(&mut table, map);
    table
}

/// Writes a map over a table. A region past the count keeps its words, but of the rights the three bits that have a
/// meaning.
fn write_map(table: &mut [u8], map: &Map) {
    put_le32(table, 0, map.regions.len() as u32);
    for (index, region) in map.regions.iter().enumerate() {
        let words = [region.base, region.length, region.place, region.rights.number()];
        for (k, word) in words.iter().enumerate() {
            put_le32(table, 4 + 16 * index + 4 * k, *word);
        }
    }
    for index in map.regions.len()..MOST_REGIONS {
        let rights = 16 + 16 * index;
        let word = le32(table, rights) & 7;
        put_le32(table, rights, word);
    }
}

/// What happened, by the header's numbers.
pub mod event {
    pub const REFUSED: u64 = 0;
    pub const END: u64 = 1;
    pub const UNKNOWN: u64 = 2;
    pub const RUN: u64 = 3;
    pub const START: u64 = 4;
    pub const RESPONSE: u64 = 5;
    pub const SILENT: u64 = 6;
    pub const READ: u64 = 7;
    pub const PACKED: u64 = 8;
    pub const ACCEPTED: u64 = 9;
    pub const IGNORED: u64 = 10;
    pub const MISSING: u64 = 11;
    pub const DONE: u64 = 12;
    pub const SAME_RUN: u64 = 13;
    pub const OTHER_RUN: u64 = 14;
    pub const CHECKED: u64 = 15;
}

/// Where each number stands in the outcome, by the header.
pub mod at {
    pub const REFUSAL: usize = 0;
    pub const PLACE: usize = 1;
    pub const EVENT: usize = 2;
    pub const KIND: usize = 3;
    pub const ADDRESS: usize = 4;
    pub const RESUME: usize = 5;
    pub const ITEMS: usize = 6;
    pub const BYTES: usize = 7;
}

/// The outcome of an event; the named numbers are set, and all others are 0.
fn outcome_of(event: u64, named: &[(usize, u64)]) -> Outcome {
    let mut numbers = [0; 8];
    numbers[at::EVENT] = event;
    for (index, number) in named {
        numbers[*index] = *number;
    }
    numbers
}

fn kind_number(entry: Entry) -> u64 {
    match entry {
        Entry::Arm => 1,
        Entry::Thumb => 2,
    }
}

fn refusal_numbers(refusal: Refusal) -> Outcome {
    outcome_of(event::REFUSED, &[(at::REFUSAL, u64::from(refusal.number)), (at::PLACE, refusal.place)])
}

/// A refusal by a call that needs an output of so many bytes.
fn output_refusal(refusal: Refusal, needed: u64) -> Outcome {
    let mut numbers = refusal_numbers(refusal);
    if refusal.number == 10 {
        numbers[at::BYTES] = needed;
    }
    numbers
}

fn run_numbers(event: u64, entry: Entry, address: u32, resume: u64) -> Outcome {
    let kind = (at::KIND, kind_number(entry));
    outcome_of(event, &[kind, (at::ADDRESS, u64::from(address)), (at::RESUME, resume)])
}

/// The outcome numbers of a load.
pub fn load_numbers(answer: Answer) -> Outcome {
    let Loaded { stop, taken, stored } = match answer {
        Err(refusal) => return refusal_numbers(refusal),
        Ok(loaded) => loaded,
    };
    let mut numbers = match stop {
        Stop::End { place } => outcome_of(event::END, &[(at::PLACE, place)]),
        Stop::Unknown { command, place } => {
            outcome_of(event::UNKNOWN, &[(at::PLACE, place), (at::ADDRESS, u64::from(command))])
        }
        Stop::Run { entry, address, resume } => run_numbers(event::RUN, entry, address, resume),
    };
    numbers[at::ITEMS] = taken;
    numbers[at::BYTES] = stored;
    numbers
}

/// The load that outcome numbers tell; None where they tell none.
pub fn load_of(numbers: &Outcome) -> Option<Answer> {
    let [number, place, event, kind, address, resume, taken, stored] = *numbers;
    let stop = match event {
        event::REFUSED => return Some(Err(Refusal { number: number as u32, place })),
        event::END => Stop::End { place },
        event::UNKNOWN => Stop::Unknown { command: address as u32, place },
        event::RUN => {
            let entry = if kind == 1 { Entry::Arm } else { Entry::Thumb };
            Stop::Run { entry, address: address as u32, resume }
        }
        _ => return None,
    };
    let answer = Ok(Loaded { stop, taken, stored });
    (load_numbers(answer) == *numbers).then_some(answer)
}

fn reply_numbers(reply: Result<Reply, Refusal>) -> Outcome {
    match reply {
        Err(refusal) => output_refusal(refusal, scp::LARGEST as u64),
        Ok(Reply::Silence) => outcome_of(event::SILENT, &[]),
        Ok(Reply::Response(length)) => outcome_of(event::RESPONSE, &[(at::BYTES, length as u64)]),
        Ok(Reply::Run { entry, address }) => run_numbers(event::START, entry, address, 0),
        Ok(Reply::LoadedRun { entry, address, resume }) => run_numbers(event::RUN, entry, address, resume),
    }
}

fn read_numbers(count: Result<u64, Refusal>) -> Outcome {
    match count {
        Err(refusal) => refusal_numbers(refusal),
        Ok(count) => outcome_of(event::READ, &[(at::ITEMS, count)]),
    }
}

/// The outcome numbers of a plan that was packed as an image of so many bytes, or of an image that was read back as such a plan.
pub fn packed_numbers(size: u64) -> Outcome {
    outcome_of(event::PACKED, &[(at::BYTES, size)])
}

/// Of a plan that was packed or an image that was read back, or refused; `needed` is the length of what is written, asked only where it
/// did not fit.
fn pack_numbers(size: Result<u64, Refusal>, needed: impl FnOnce() -> u64) -> Outcome {
    match size {
        Ok(size) => packed_numbers(size),
        Err(refusal) if refusal.number == 10 => output_refusal(refusal, needed()),
        Err(refusal) => refusal_numbers(refusal),
    }
}

/// The outcome numbers of two plans that were compared, or refused.
fn difference_numbers(answer: Result<Compared, SideRefusal>) -> Outcome {
    match answer {
        Ok(Compared { stretches, same_run }) => {
            let event = if same_run { event::SAME_RUN } else { event::OTHER_RUN };
            let bytes = plan_difference::STRETCH as u64 * stretches;
            outcome_of(event, &[(at::ITEMS, stretches), (at::BYTES, bytes)])
        }
        Err(SideRefusal { refusal, side }) => {
            let mut numbers = output_refusal(refusal, plan_difference::NEEDED as u64);
            numbers[at::KIND] = match side {
                Side::Neither => 0,
                Side::Old => 1,
                Side::New => 2,
            };
            numbers
        }
    }
}

/// The outcome numbers of an image that was checked against a plan, or refused.
pub fn check_numbers(answer: Result<(), Refusal>) -> Outcome {
    match answer {
        Ok(()) => outcome_of(event::CHECKED, &[]),
        Err(refusal) => refusal_numbers(refusal),
    }
}

/// The outcome numbers of a flood-fill message.
pub fn flood_numbers(answer: flood_fill::Answer) -> Outcome {
    match answer {
        Err(refusal) => refusal_numbers(refusal),
        Ok(Taken::Accepted) => outcome_of(event::ACCEPTED, &[]),
        Ok(Taken::Ignored) => outcome_of(event::IGNORED, &[]),
        Ok(Taken::Missing { count, lowest }) => {
            outcome_of(event::MISSING, &[(at::PLACE, lowest), (at::ITEMS, count)])
        }
        Ok(Taken::Done) => outcome_of(event::DONE, &[]),
    }
}

/// Gives a message to the receiver that the bytes are, and writes what it left over them. The byte of a completed block becomes 1,
/// whatever it was.
fn flood(
    bytes: &mut ReceiverBytes,
    outcome: &mut Outcome,
    message: impl FnOnce(&mut Receiver) -> flood_fill::Answer,
) -> u32 {
    let mut receiver = receiver_of(bytes);
    let open = usize::from(receiver.open);
    let answer = message(&mut receiver);
    write_receiver(bytes, &receiver);
    if answer == Ok(Taken::Done) && receiver.done.get(open) == Some(&true) {
        bytes[DONE + open] = 1;
    }
    give(outcome, flood_numbers(answer))
}

/// Fills the lent outcome, and returns the refusal number.
fn give(outcome: &mut Outcome, numbers: Outcome) -> u32 {
    *outcome = numbers;
    numbers[at::REFUSAL] as u32
}

/// The identity of five numbers: of each only as many bits count as its field has.
pub fn identity_of(numbers: &Numbers) -> Identity {
    let [point_to_point, physical, virtual_cpu, version, date] = *numbers;
    Identity {
        point_to_point: point_to_point as u16,
        physical: physical as u8,
        virtual_cpu: virtual_cpu as u8,
        version: version as u16,
        date,
    }
}

const NO_MAP: Refusal = Refusal { number: 1, place: 0 };

/// This second implementation behind the interface.
pub struct Reference;

impl Library for Reference {
    fn map_add(&self, table: &mut [u8], base: u32, length: u32, place: u32, rights: u32) -> u32 {
        if rights > ALL_RIGHTS {
            return 1;
        }
        let Some(mut map) = map_of(table) else { return 1 };
        let region = Region { base, length, place, rights: Rights::from_number(rights) };
        match map.add(region) {
            Ok(()) => {
                write_map(table, &map);
                0
            }
            Err(refusal) => refusal.number,
        }
    }

    fn map_sound(&self, map: &[u8], memory_length: usize) -> u32 {
        u32::from(!map_of(map).is_some_and(|map| map.sound(memory_length)))
    }

    fn srom_load(
        &self,
        map: &[u8],
        memory: &mut [u8],
        rom: &[u8],
        offset: usize,
        outcome: &mut Outcome,
    ) -> u32 {
        let answer = match map_of(map) {
            Some(map) => srom::load(&map, memory, rom, offset),
            None => Err(NO_MAP),
        };
        give(outcome, load_numbers(answer))
    }

    fn aplx_load(&self, map: &[u8], memory: &mut [u8], header: u32, outcome: &mut Outcome) -> u32 {
        let answer = match map_of(map) {
            Some(map) => aplx::load(&map, memory, header),
            None => Err(NO_MAP),
        };
        give(outcome, load_numbers(answer))
    }

    fn scp_answer(
        &self,
        map: &[u8],
        memory: &mut [u8],
        identity: &Numbers,
        packet: &[u8],
        output: &mut [u8],
        outcome: &mut Outcome,
    ) -> u32 {
        let reply = match map_of(map) {
            Some(map) => scp::answer(&map, memory, identity_of(identity), packet, output),
            // 10 is tested before the map.
            None if output.len() < scp::LARGEST => Err(Refusal { number: 10, place: 0 }),
            None => Err(NO_MAP),
        };
        give(outcome, reply_numbers(reply))
    }

    fn plan_read(&self, plan: &[u8], target: u32, outcome: &mut Outcome) -> u32 {
        let unit = match target {
            0 => plan::APLX_UNIT,
            1 => plan::SROM_UNIT,
            _ => plan::NO_UNIT,
        };
        let count = plan::read(plan, unit).map(|pieces| pieces.len() as u64);
        give(outcome, read_numbers(count))
    }

    fn pack_srom(&self, plan: &[u8], output: &mut [u8], outcome: &mut Outcome) -> u32 {
        let needed = || plan::read(plan, plan::SROM_UNIT).map_or(0, |pieces| pack::srom_length(&pieces));
        give(outcome, pack_numbers(pack::pack_srom(plan, output), needed))
    }

    fn pack_aplx(&self, plan: &[u8], output: &mut [u8], outcome: &mut Outcome) -> u32 {
        let needed = || plan::read(plan, plan::APLX_UNIT).map_or(0, |pieces| pack::aplx_length(&pieces));
        give(outcome, pack_numbers(pack::pack_aplx(plan, output), needed))
    }

    fn pack_aplx_shared(&self, plan: &[u8], output: &mut [u8], outcome: &mut Outcome) -> u32 {
        let needed = || plan::read(plan, plan::APLX_UNIT).map_or(0, |pieces| share::shared_length(plan, &pieces));
        give(outcome, pack_numbers(share::pack_aplx_shared(plan, output), needed))
    }

    fn aplx_read(&self, image: &[u8], output: &mut [u8], outcome: &mut Outcome) -> u32 {
        let needed = || read_back::pieces(image).map_or(0, |pieces| read_back::plan_length(&pieces));
        give(outcome, pack_numbers(read_back::read_back(image, output), needed))
    }

    fn compare(&self, old: &[u8], new: &[u8], output: &mut [u8], outcome: &mut Outcome) -> u32 {
        give(outcome, difference_numbers(plan_difference::compare(old, new, output)))
    }

    fn aplx_check(&self, plan: &[u8], image: &[u8], outcome: &mut Outcome) -> u32 {
        give(outcome, check_numbers(check::check(plan, image)))
    }

    fn flood_fill_start(
        &self,
        receiver: &mut ReceiverBytes,
        image: &[u8],
        last_block: u32,
        block_size: u32,
        outcome: &mut Outcome,
    ) -> u32 {
        flood(receiver, outcome, |receiver| receiver.start(image, last_block, block_size))
    }

    fn flood_fill_block_start(
        &self,
        receiver: &mut ReceiverBytes,
        image: &[u8],
        block: u32,
        size: u32,
        outcome: &mut Outcome,
    ) -> u32 {
        flood(receiver, outcome, |receiver| receiver.block_start(image, block, size))
    }

    fn flood_fill_block_data(
        &self,
        receiver: &mut ReceiverBytes,
        image: &[u8],
        block: u32,
        word_id: u32,
        word: u32,
        outcome: &mut Outcome,
    ) -> u32 {
        flood(receiver, outcome, |receiver| receiver.block_data(image, block, word_id, word))
    }

    fn flood_fill_block_end(
        &self,
        receiver: &mut ReceiverBytes,
        image: &mut [u8],
        block: u32,
        outcome: &mut Outcome,
    ) -> u32 {
        flood(receiver, outcome, |receiver| receiver.block_end(image, block))
    }
}
