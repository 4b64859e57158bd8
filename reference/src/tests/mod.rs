//! Tests of the reference: the paper's pieces with known weight, the slips seen on the bench, each refusal number,
//! the series of demand 3, two plans compared, another firm's images checked, equal data shared, the flood-fill receiver,
//! and calls as text.

mod check;
mod check_again;
mod check_faults;
mod difference_refusals;
mod flood_series;
mod floods;
mod loads;
mod maps;
mod outcomes;
mod plan_differences;
mod plans;
mod read_back;
mod receivers;
mod share;
mod share_again;
mod share_refusals;
mod slips;
mod text;
mod weighed;

use crate::map::{Map, Region, Rights};
use crate::outcome::{Answer, Loaded, Refusal, Stop};

/// A map of regions given by base, length, place and rights.
fn map(regions: &[[u32; 4]]) -> Map {
    let mut map = Map::empty();
    for [base, length, place, rights] in regions.iter().copied() {
        let added = map.add(Region { base, length, place, rights: Rights::from_number(rights) });
        assert_eq!(added, Ok(()), "a region of a test's map");
    }
    map
}

fn words(list: &[u32]) -> Vec<u8> {
    list.iter().flat_map(|word| word.to_le_bytes()).collect()
}

/// A plan with its table at 16 and its data behind it.
fn plan(pieces: &[[u32; 4]], data: &[u8]) -> Vec<u8> {
    let count = pieces.len() as u32;
    let mut bytes = words(&[count, 16, 16 + 16 * count, data.len() as u32]);
    bytes.extend(pieces.iter().flat_map(|piece| words(piece)));
    bytes.extend(data);
    bytes
}

fn refused<T>(number: u32, place: u64) -> Result<T, Refusal> {
    Err(Refusal { number, place })
}

fn ended(place: u64, taken: u64, stored: u64) -> Answer {
    Ok(Loaded { stop: Stop::End { place }, taken, stored })
}
