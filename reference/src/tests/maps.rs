//! The map's rules, lookup, run addresses, and the table of the library's interface.

use super::map;
use crate::interface::{map_of, table_of, Library, Reference};
use crate::map::{Map, Region, Right, Rights};
use crate::outcome::Entry;

fn region(base: u32, length: u32, place: u32) -> Region {
    Region { base, length, place, rights: Rights::from_number(0) }
}

#[test]
fn additions_keep_the_rules() {
    let refused = |map: &Map, region| {
        let mut copy = map.clone();
        copy.add(region).is_err() && copy == *map
    };
    let empty = Map::empty();
    for broken in [
        region(1, 4, 0),
        region(0, 6, 0),
        region(0, 0, 0),
        region(0, 16_777_220, 0),
        region(0xffff_ffec, 8, 0),
        region(0xffff_fffc, 4, 0),
    ] {
        assert!(refused(&empty, broken), "{broken:?}");
    }
    let map = map(&[[0x100, 0x100, 1_000, 7]]);
    assert!(refused(&map, region(0x1fc, 4, 0)));
    assert!(refused(&map, region(0xfc, 8, 0)));
    assert!(refused(&map, region(0, 4, 1_255)));
    assert!(refused(&map, region(0, 4, 997)));
    for good in [region(0x200, 4, 1_256), region(0xfc, 4, 996), region(0, 4, u32::MAX)] {
        assert!(map.clone().add(good).is_ok(), "{good:?}");
    }
    assert!(Map::empty().add(region(0, 16_777_216, 0)).is_ok());
}

#[test]
fn there_are_at_most_eight() {
    let mut map = Map::empty();
    for k in 0..8 {
        assert!(map.add(region(4 * k, 4, 4 * k)).is_ok());
    }
    assert!(map.add(region(64, 4, 64)).is_err());
    assert!(map.sound(32) && !map.sound(31));
    map.regions.push(region(64, 4, 64));
    assert!(!map.sound(1_000), "nine regions");
    assert!(Map::empty().sound(0));
}

#[test]
fn a_broken_map_takes_no_region() {
    let mut map = Map { regions: vec![region(1, 4, 0)] };
    assert!(map.add(region(64, 4, 64)).is_err());
}

#[test]
fn lookup_wants_one_region() {
    let map = map(&[[0x100, 8, 40, 3], [0x108, 8, 20, 1]]);
    assert_eq!(map.lookup(Right::Read, 0x104, 4), Some(44));
    assert_eq!(map.lookup(Right::Read, 0x108, 8), Some(20));
    assert_eq!(map.lookup(Right::Read, 0x104, 8), None, "over two regions");
    assert_eq!(map.lookup(Right::Write, 0x108, 4), None);
    assert_eq!(map.lookup(Right::Read, 0x10c, 5), None);
    assert_eq!(map.lookup(Right::Read, 0xff, 1), None);
    assert_eq!(map.lookup(Right::Read, 0x100, 0), None, "an empty range");
    assert_eq!(map.lookup(Right::Read, 0x100, 1 << 32), None);
}

#[test]
fn run_addresses() {
    let map = map(&[[0x100, 8, 0, 4], [0x200, 8, 8, 3]]);
    let kinds = [0x100u32, 0x101, 0x102, 0x103, 0x107, 0x108, 0x109, 0x200, 0, 0xffff_ffff];
    let entries = [
        Some(Entry::Arm),
        Some(Entry::Thumb),
        None,
        Some(Entry::Thumb),
        Some(Entry::Thumb),
        None,
        None,
        None,
        None,
        None,
    ];
    assert_eq!(kinds.map(|address| map.run_entry(address)), entries);
}

#[test]
fn the_table() {
    let mut table = vec![0; 132];
    assert_eq!(map_of(&table), Some(Map::empty()));
    assert_eq!(Reference.map_sound(&table, 0), 0);
    table[116..].fill(0xee);
    let before = table.clone();
    for rights in [8, 11, 0xffff_fffb] {
        assert_eq!(Reference.map_add(&mut table, 0x100, 8, 5, rights), 1);
    }
    assert_eq!(table, before, "a bit without a meaning");
    assert_eq!(Reference.map_add(&mut table, 0x100, 8, 5, 3), 0);
    assert_eq!(table[..20], [1, 0, 0, 0, 0, 1, 0, 0, 8, 0, 0, 0, 5, 0, 0, 0, 3, 0, 0, 0]);
    assert_eq!(table[116..128], [0xee; 12]);
    assert_eq!(table[128..], [6, 0, 0, 0], "past the count the three low bits of the rights are left");
    assert_eq!((Reference.map_sound(&table, 13), Reference.map_sound(&table, 12)), (0, 1));
    let before = table.clone();
    assert_eq!(Reference.map_add(&mut table, 0x104, 8, 50, 7), 1);
    assert_eq!(table, before);
    table[17] = 1;
    assert_eq!(map_of(&table), None, "a region in use with rights over 7");
    assert_eq!(Reference.map_sound(&table, 13), 1);
    assert_eq!(Reference.map_add(&mut table, 0x200, 8, 50, 7), 1);
    table[17] = 0;
    table[33] = 1;
    assert_eq!(Reference.map_sound(&table, 13), 0, "past the count they say nothing");
    assert_eq!(Reference.map_add(&mut table, 0x200, 8, 50, 7), 0);
    table[0] = 9;
    assert_eq!(map_of(&table), None);
    assert_eq!(Reference.map_add(&mut table, 0x300, 8, 100, 7), 1);
    assert_eq!(map_of(&[0; 131]), None);
    let map = map(&[[0, 4, 0, 7], [8, 4, 4, 2]]);
    assert_eq!(map_of(&table_of(&map)), Some(map));
}
