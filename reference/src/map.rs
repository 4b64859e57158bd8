//! The memory map (paper 01, "Memory map"): regions, their rules, addition, soundness, lookup, run addresses.
//! All sums are whole numbers: addresses and lengths are widened before they are added.

use crate::bytes::share;
use crate::outcome::{refuse, Entry, Refusal};

pub const MOST_REGIONS: usize = 8;
pub const LONGEST_REGION: u32 = 16_777_216;
/// No region ends past this address.
pub const LAST_END: u64 = 4_294_967_280;

#[derive(Clone, Copy, Debug, PartialEq, Eq)]
pub struct Rights {
    pub read: bool,
    pub write: bool,
    pub run: bool,
}

#[derive(Clone, Copy, Debug, PartialEq, Eq)]
pub enum Right {
    Read,
    Write,
    Run,
}

impl Rights {
    /// 1 is read, 2 write, 4 run; a number over 7 is refused before.
    pub fn from_number(number: u32) -> Rights {
        Rights { read: number & 1 != 0, write: number & 2 != 0, run: number & 4 != 0 }
    }

    pub fn number(self) -> u32 {
        u32::from(self.read) + 2 * u32::from(self.write) + 4 * u32::from(self.run)
    }

    pub fn has(self, right: Right) -> bool {
        match right {
            Right::Read => self.read,
            Right::Write => self.write,
            Right::Run => self.run,
        }
    }
}

#[derive(Clone, Copy, Debug, PartialEq, Eq)]
pub struct Region {
    pub base: u32,
    pub length: u32,
    pub place: u32,
    pub rights: Rights,
}

impl Region {
    /// The rules for one region by itself.
    fn lawful(&self) -> bool {
        self.base % 4 == 0
            && self.length % 4 == 0
            && (4..=LONGEST_REGION).contains(&self.length)
            && self.end() <= LAST_END
    }

    /// Whether two regions share an address or a buffer byte.
    fn meets(&self, other: &Region) -> bool {
        let (length, other_length) = (u64::from(self.length), u64::from(other.length));
        share(u64::from(self.base), length, u64::from(other.base), other_length)
            || share(u64::from(self.place), length, u64::from(other.place), other_length)
    }

    /// The address behind the region.
    pub fn end(&self) -> u64 {
        u64::from(self.base) + u64::from(self.length)
    }

    /// The buffer place behind the region.
    pub fn place_end(&self) -> u64 {
        u64::from(self.place) + u64::from(self.length)
    }

    pub fn holds(&self, start: u64, length: u64) -> bool {
        u64::from(self.base) <= start && start + length <= self.end()
    }
}

#[derive(Clone, Debug, Default, PartialEq, Eq)]
pub struct Map {
    pub regions: Vec<Region>,
}

impl Map {
    pub fn empty() -> Map {
        Map::default()
    }

    /// Every rule that needs no buffer.
    pub fn lawful(&self) -> bool {
        self.regions.len() <= MOST_REGIONS
            && self.regions.iter().all(Region::lawful)
            && self
                .regions
                .iter()
                .enumerate()
                .all(|(i, region)| self.regions[..i].iter().all(|earlier| !region.meets(earlier)))
    }

    /// Adds a region at the end, or leaves the map as it was (1).
    pub fn add(&mut self, region: Region) -> Result<(), Refusal> {
        self.regions.push(region);
        if self.lawful() {
            Ok(())
        } else {
            self.regions.pop();
            refuse(1, 0)
        }
    }

    /// Whether the map is sound for a buffer of so many bytes.
    pub fn sound(&self, buffer: usize) -> bool {
        self.lawful() && self.regions.iter().all(|region| region.place_end() <= buffer as u64)
    }

    /// The buffer place of a range that lies wholly inside one region with the right.
    /// An empty range is never found.
    pub fn lookup(&self, right: Right, start: u64, length: u64) -> Option<usize> {
        if length == 0 {
            return None;
        }
        self.regions
            .iter()
            .find(|region| region.rights.has(right) && region.holds(start, length))
            .map(|region| region.place as usize + (start - u64::from(region.base)) as usize)
    }

    /// How a run address is entered, or None where it is not legal.
    pub fn run_entry(&self, address: u32) -> Option<Entry> {
        let (entry, first) = match address % 4 {
            0 => (Entry::Arm, address),
            1 | 3 => (Entry::Thumb, address - 1),
            _ => return None,
        };
        self.lookup(Right::Run, u64::from(first), 1).map(|_| entry)
    }
}
