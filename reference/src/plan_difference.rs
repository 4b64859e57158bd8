//! Two plans compared (paper 02, C-18): the byte addresses that only one of them stores, or that they leave with
//! different bytes. A plan is taken from index 0 through its first run, or to its end.

use std::collections::{BTreeMap, BTreeSet};

use crate::outcome::Refusal;
use crate::plan::{self, Piece, NO_UNIT};

pub const MOST_STRETCHES: usize = 512;
/// The bytes of a stretch in the output: first address, last address, old byte, new byte, a word each.
pub const STRETCH: usize = 16;
/// The bytes that the output must have.
pub const NEEDED: usize = STRETCH * MOST_STRETCHES;
/// What stands for a byte where a plan does not store the address.
pub const NOT_STORED: u16 = 256;
/// How many addresses there are.
pub const ADDRESSES: u64 = 1 << 32;

/// Which plan a refusal is about.
#[derive(Clone, Copy, Debug, PartialEq, Eq)]
pub enum Side {
    Neither,
    Old,
    New,
}

#[derive(Clone, Copy, Debug, PartialEq, Eq)]
pub struct SideRefusal {
    pub refusal: Refusal,
    pub side: Side,
}

/// Addresses one after the other that differ; the bytes are those at the first.
#[derive(Clone, Copy, Debug, PartialEq, Eq)]
pub struct Stretch {
    pub first: u32,
    pub last: u32,
    pub old: u16,
    pub new: u16,
}

#[derive(Clone, Copy, Debug, PartialEq, Eq)]
pub struct Compared {
    /// How many stretches stand at the output's front.
    pub stretches: u64,
    pub same_run: bool,
}

fn refuse<T>(number: u32, place: u64) -> Result<T, SideRefusal> {
    Err(SideRefusal { refusal: Refusal { number, place }, side: Side::Neither })
}

/// Writes the stretches in which two plans differ to the output's front.
pub fn compare(old: &[u8], new: &[u8], output: &mut [u8]) -> Result<Compared, SideRefusal> {
    if output.len() < NEEDED {
        return refuse(10, 0);
    }
    let before = left(old).map_err(|refusal| SideRefusal { refusal, side: Side::Old })?;
    let after = left(new).map_err(|refusal| SideRefusal { refusal, side: Side::New })?;
    let stretches = differences(&before, &after);
    if stretches.len() > MOST_STRETCHES {
        return refuse(18, MOST_STRETCHES as u64);
    }
    for (stretch, bytes) in stretches.iter().zip(output.chunks_exact_mut(STRETCH)) {
        bytes.copy_from_slice(&stretch_bytes(stretch));
    }
    Ok(Compared { stretches: stretches.len() as u64, same_run: before.run == after.run })
}

fn stretch_bytes(stretch: &Stretch) -> Vec<u8> {
    let words = [stretch.first, stretch.last, u32::from(stretch.old), u32::from(stretch.new)];
    words.iter().flat_map(|word| word.to_le_bytes()).collect()
}

/// The pieces of a plan of any lengths; a put or fill has all its addresses (else 19).
pub fn pieces(plan: &[u8]) -> Result<Vec<Piece>, Refusal> {
    plan::read_tested(plan, NO_UNIT, |piece| if end(piece) > ADDRESSES { Err(19) } else { Ok(()) })
}

/// The address after a piece's last one.
pub fn end(piece: &Piece) -> u64 {
    u64::from(piece.address()) + piece.length()
}

const PAGE: usize = 256;

/// The last byte at each address of a page, or NOT_STORED.
type Page = [u16; PAGE];

const EMPTY: Page = [NOT_STORED; PAGE];

/// What a plan leaves: the pages in which it stores something, by number, and the address of its run as written.
#[derive(Default)]
pub struct Left {
    pages: BTreeMap<usize, Page>,
    pub run: Option<u32>,
}

impl Left {
    /// Stores bytes upwards from an address, over what is there.
    fn store(&mut self, address: u32, bytes: &[u8]) {
        let mut at = address as usize;
        let mut rest = bytes;
        while !rest.is_empty() {
            let offset = at % PAGE;
            let (now, later) = rest.split_at(rest.len().min(PAGE - offset));
            let page = self.pages.entry(at / PAGE).or_insert(EMPTY);
            for (place, byte) in page[offset..].iter_mut().zip(now) {
                *place = u16::from(*byte);
            }
            at += now.len();
            rest = later;
        }
    }

    fn page(&self, number: usize) -> &Page {
        self.pages.get(&number).unwrap_or(&EMPTY)
    }

    /// The byte at an address, or NOT_STORED.
    pub fn at(&self, address: u32) -> u16 {
        self.page(address as usize / PAGE)[address as usize % PAGE]
    }
}

/// What the stretch from index 0 of a plan leaves.
pub fn left(plan: &[u8]) -> Result<Left, Refusal> {
    let pieces = pieces(plan)?;
    let mut left = Left::default();
    for piece in &pieces[plan::stretch(&pieces, 0)] {
        match piece {
            Piece::Put { address, data } => left.store(*address, &plan[data.clone()]),
            Piece::Fill { address, length, word } => {
                let bytes: Vec<u8> = word.to_le_bytes().into_iter().cycle().take(*length as usize).collect();
                left.store(*address, &bytes);
            }
            Piece::Run { address } => left.run = Some(*address),
        }
    }
    Ok(left)
}

/// All stretches, ascending, each as long as possible.
pub fn differences(old: &Left, new: &Left) -> Vec<Stretch> {
    let numbers: BTreeSet<usize> = old.pages.keys().chain(new.pages.keys()).copied().collect();
    let mut stretches: Vec<Stretch> = Vec::new();
    for number in numbers {
        let (before, after) = (old.page(number), new.page(number));
        for offset in 0..PAGE {
            let (old, new) = (before[offset], after[offset]);
            if old == new {
                continue;
            }
            let address = (PAGE * number + offset) as u32;
            match stretches.last_mut() {
                Some(stretch) if stretch.last + 1 == address => stretch.last = address,
                _ => stretches.push(Stretch { first: address, last: address, old, new }),
            }
        }
    }
    stretches
}
