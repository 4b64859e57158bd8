//! Paper 01, "Bench pieces with known weight".

use super::{ended, map, plan, refused, words};
use crate::aplx;
use crate::bytes::{le16, unhex};
use crate::map::{Map, Region, Rights};
use crate::outcome::{Loaded, Stop};
use crate::pack::{pack_aplx, pack_srom};
use crate::plan as plans;
use crate::scp::{self, Identity, Reply};
use crate::srom;

const SECOND_DUMP: &str = "
    55 3a 00 08 f5 00 7f e0 00 00 80 81 0e 3e 00 a4
    88 c1 58 82 fa c0 58 82 00 00 ff ff 00 00 45 e5
    00 00 00 00 00 00 00 00 00 aa";

#[test]
fn the_second_dump_of_document_004() {
    let map = map(&[[0xf500_0000, 0x8000, 0, 7]]);
    let mut memory = vec![0xee; 0x8000];
    let answer = srom::load(&map, &mut memory, &unhex(SECOND_DUMP), 0);
    assert_eq!(answer, ended(40, 1, 32));
    let block = &memory[0x7fe0..];
    assert_eq!(le16(block, 0), 0x8081, "flags");
    assert_eq!(block[2..8], [0x00, 0x00, 0xa4, 0x00, 0x3e, 0x0e], "MAC address");
    assert_eq!(block[8..12], [0x82, 0x58, 0xc1, 0x88], "IP address");
    assert_eq!(block[12..16], [130, 88, 192, 250], "gateway");
    assert_eq!(block[16..20], [255, 255, 0, 0], "net mask");
    assert_eq!(le16(block, 20), 17893, "port");
    assert!(memory[..0x7fe0].iter().all(|byte| *byte == 0xee));
}

#[test]
fn the_first_dump_of_document_004() {
    let map = map(&[[0xf500_7fe0, 32, 0, 2], [0x7fe0, 4, 32, 4]]);
    let mut rom = unhex("55 3a 0007 f5007fe0");
    rom.extend((0..28).collect::<Vec<u8>>());
    rom.extend(unhex("55 3a 0000 00007fe0 ff"));
    let mut memory = vec![0; 36];
    let answer = srom::load(&map, &mut memory, &rom, 0);
    let entry = map.run_entry(0x7fe0).expect("a legal run");
    let stop = Stop::Run { entry, address: 0x7fe0, resume: 44 };
    assert_eq!(answer, Ok(Loaded { stop, taken: 1, stored: 28 }));
    assert_eq!(memory[..8], [3, 2, 1, 0, 7, 6, 5, 4]);
    assert_eq!(srom::load(&map, &mut memory, &rom, 44), ended(44, 0, 0));
}

#[test]
fn a_fill_and_a_run_for_aplx() {
    let plan = plan(&[[2, 0x0040_0000, 32, 0], [3, 0, 0, 0]], &[]);
    let mut output = [0x77; 50];
    assert_eq!(pack_aplx(&plan, &mut output), Ok(48));
    let image = unhex(
        "03000000 00004000 20000000 00000000 04000000 00000000 00000000 00000000
         ffffffff 00000000 00000000 00000000",
    );
    assert_eq!(output[..48], image[..]);
    assert_eq!(output[48..], [0x77; 2]);
}

#[test]
fn a_put_and_a_run_for_aplx() {
    let data: Vec<u8> = (1..=32).collect();
    let plan = plan(&[[1, 0, 32, 0], [3, 0, 0, 0]], &data);
    let mut output = [0; 80];
    assert_eq!(pack_aplx(&plan, &mut output), Ok(80));
    assert_eq!(output[..16], unhex("02000000 00000000 30000000 20000000")[..]);
    assert_eq!(output[48..], data[..]);
    assert_eq!(pack_aplx(&plan, &mut [0; 79]), refused(10, 2));
}

#[test]
fn a_fill_for_srom() {
    let plan = plan(&[[2, 0xf500_7fe0, 4, 0x0102_0304]], &[]);
    let mut output = [0; 13];
    assert_eq!(pack_srom(&plan, &mut output), Ok(13));
    assert_eq!(output[..], unhex("55 3a 00 01 f5 00 7f e0 01 02 03 04 ff")[..]);
    let mut memory = [0; 4];
    let map = map(&[[0xf500_7fe0, 4, 0, 2]]);
    assert_eq!(srom::load(&map, &mut memory, &output, 0), ended(12, 1, 4));
    assert_eq!(memory, [4, 3, 2, 1]);
}

#[test]
fn the_empty_plan() {
    let empty = plan(&[], &[]);
    let mut output = [0; 16];
    assert_eq!(pack_aplx(&empty, &mut output), Ok(16));
    assert_eq!(output[..], unhex("ffffffff 00000000 00000000 00000000")[..]);
    assert_eq!(pack_srom(&empty, &mut output), Ok(2));
    assert_eq!(output[..2], [0x55, 0xff]);
    assert_eq!(pack_srom(&empty, &mut [0; 1]), refused(10, 0));
}

#[test]
fn aplx_lengths_round_up() {
    let map = map(&[[0, 48, 0, 1], [0x1000, 96, 48, 3]]);
    for (length, stored) in [(1, 32), (32, 32), (33, 64), (64, 64), (65, 96)] {
        let mut memory = words(&[3, 0x1000, length, 0xabab_abab, aplx::END, 0, 0, 0, 0, 0, 0, 0]);
        memory.resize(144, 0);
        assert_eq!(aplx::load(&map, &mut memory, 0), ended(1, 1, stored));
        let changed = memory[48..].iter().filter(|byte| **byte == 0xab).count() as u64;
        assert_eq!(changed, stored);
    }
    let mut memory = words(&[3, 0x1000, 0, 1, aplx::END, 0, 0, 0]);
    memory.resize(144, 0);
    assert_eq!(aplx::load(&map, &mut memory, 0), refused(5, 0));
    assert_eq!(aplx::rounded(u32::MAX), 1 << 32);
}

#[test]
fn an_end_and_nothing_for_srom() {
    let mut memory = [9; 4];
    assert_eq!(srom::load(&Map::empty(), &mut memory, &[0xff], 0), ended(0, 0, 0));
    assert_eq!(srom::load(&Map::empty(), &mut memory, &[], 0), refused(2, 0));
    assert_eq!(memory, [9; 4]);
}

#[test]
fn scp_read_of_256_and_257() {
    let map = map(&[[0, 300, 0, 1]]);
    let mut memory: Vec<u8> = (0..300).map(|k| k as u8).collect();
    let identity = Identity { point_to_point: 0, physical: 0, virtual_cpu: 0, version: 0, date: 0 };
    for (length, reply, code) in [(256, 260, 0x80), (257, 4, 0x84)] {
        let mut packet = vec![2, 0, 7, 8];
        packet.extend(words(&[0, length, 0]));
        let mut output = [0x77; 272];
        let answer = scp::answer(&map, &mut memory, identity, &packet, &mut output);
        assert_eq!(answer, Ok(Reply::Response(reply)));
        assert_eq!(output[..4], [code, 0, 7, 8]);
        assert_eq!(output[4..reply], memory[..reply - 4]);
        assert!(output[reply..].iter().all(|byte| *byte == 0x77));
    }
}

#[test]
fn the_stop_at_the_256th_and_at_the_257th_entry() {
    let map = map(&[[0, 16 * 257, 32, 1], [0x1000_0000, 32, 0, 2]]);
    for (before, answer) in [(255, ended(255, 255, 255 * 32)), (256, refused(7, 256))] {
        let mut memory = vec![0; 32];
        for _ in 0..before {
            memory.extend(words(&[3, 0x1000_0000, 32, 5]));
        }
        memory.extend(words(&[aplx::END, 0, 0, 0]));
        memory.resize(32 + 16 * 257, 0);
        assert_eq!(aplx::load(&map, &mut memory, 0), answer);
    }
}

#[test]
fn the_last_address_of_a_region() {
    let region = |base| Region { base, length: 4, place: 0, rights: Rights::from_number(7) };
    assert_eq!(Map::empty().add(region(4_294_967_276)), Ok(()));
    assert_eq!(Map::empty().add(region(4_294_967_280)), refused(1, 0));
}

#[test]
fn a_plan_of_64_and_of_65_pieces() {
    let runs = |count| plan(&vec![[3, 0, 0, 0]; count], &[]);
    assert_eq!(plans::read(&runs(64), 1).map(|pieces| pieces.len()), Ok(64));
    assert_eq!(plans::read(&runs(65), 1), refused(11, 0));
}
