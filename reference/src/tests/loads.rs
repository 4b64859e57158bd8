//! Each refusal number of the loaders and of SCP, the stops, and the replies.

use super::{ended, map, refused, words};
use crate::aplx::{self, ACOPY, END, EXEC, FILL, RCOPY};
use crate::bytes::unhex;
use crate::map::Map;
use crate::outcome::{Answer, Entry, Loaded, Stop};
use crate::scp::{self, Identity, Reply};
use crate::srom;

const MAP: [[u32; 4]; 3] = [[0x100, 128, 0, 7], [0x180, 64, 128, 1], [0x1000, 64, 192, 6]];

fn srom_load(hex: &str, offset: usize) -> Answer {
    let mut memory = vec![0xee; 256];
    let answer = srom::load(&map(&MAP), &mut memory, &unhex(hex), offset);
    assert!(answer.is_ok() || memory == [0xee; 256], "a refused load stores nothing");
    answer
}

#[test]
fn srom_refusals() {
    let mut memory = [0; 255];
    assert_eq!(srom::load(&map(&MAP), &mut memory, &[], 0), refused(1, 0));
    let mut rom = vec![0x55; 16_777_216];
    rom[16_777_215] = 0xff;
    assert_eq!(srom::load(&Map::empty(), &mut memory, &rom, 0), ended(16_777_215, 0, 0));
    rom.push(0xff);
    assert_eq!(srom::load(&Map::empty(), &mut memory, &rom, 0), refused(13, 0));

    assert_eq!(srom_load("55 55", 0), refused(2, 2));
    assert_eq!(srom_load("55 ff", 2), refused(2, 2));
    assert_eq!(srom_load("55 ff", usize::MAX), refused(2, 2));
    assert_eq!(srom_load("55 3a 0001 00001000 01020304 55", 0), refused(2, 13));
    assert_eq!(srom_load("55 3a 0001 000010", 0), refused(2, 1));
    assert_eq!(srom_load("55 3a 0001 00001000 010203", 0), refused(2, 1));
    assert_eq!(srom_load("55 3a 0001 00001001 010203", 0), refused(3, 1));
    assert_eq!(srom_load("3a 0001 00000180 01020304 ff", 0), refused(4, 0));
    assert_eq!(srom_load("3a 0002 0000103c 01020304 01020304 ff", 0), refused(4, 0));
    assert_eq!(srom_load("55 3a 0000 00001002", 0), refused(9, 1));
    assert_eq!(srom_load("55 3a 0000 00000180", 0), refused(9, 1));
    assert_eq!(srom_load("55 3a 0001 00001000 01020304 3a 0000 00002000", 0), refused(9, 12));
    assert_eq!(srom_load("00", 0), ended(0, 0, 0));
}

fn aplx_load(entries: &[u32], header: u32) -> Answer {
    let mut memory = words(entries);
    memory.resize(256, 0xee);
    let before = memory.clone();
    let answer = aplx::load(&map(&MAP), &mut memory, header);
    assert!(answer.is_ok() || memory == before, "a refused load stores nothing");
    answer
}

#[test]
fn aplx_refusals() {
    assert_eq!(aplx::load(&map(&MAP), &mut [0; 255], 1), refused(1, 0));
    assert_eq!(aplx_load(&[END, 0, 0, 0], 0x102), refused(3, 0));
    assert_eq!(aplx_load(&[END, 0, 0, 0], 0x1000), refused(6, 0), "not readable");
    assert_eq!(aplx_load(&[END, 0, 0, 0], 0x1f4), refused(6, 0), "past the region");
    assert_eq!(aplx_load(&[END, 0, 0, 0], 0xffff_fff0), refused(6, 0), "no wrap");
    let fill = [FILL, 0x1000, 32, 0];
    let mut eight = fill.repeat(8);
    eight.resize(64, 0xffff_ffff);
    // The 9th entry begins another readable region, and is read there.
    assert_eq!(aplx_load(&eight, 0x100), ended(8, 8, 256));
    assert_eq!(aplx_load(&[ACOPY, 0x1001, 0x101, 0], 0x100), refused(5, 0));
    assert_eq!(aplx_load(&[ACOPY, 0x1002, 0x100, 32], 0x100), refused(3, 0));
    assert_eq!(aplx_load(&[ACOPY, 0x1000, 0x101, 32], 0x100), refused(3, 0));
    assert_eq!(aplx_load(&[RCOPY, 0x1000, 1, 32], 0x100), refused(3, 0));
    assert_eq!(aplx_load(&[ACOPY, 0x180, 0x100, 32], 0x100), refused(4, 0));
    assert_eq!(aplx_load(&[ACOPY, 0x1000, 0x1000, 32], 0x100), refused(4, 0));
    assert_eq!(aplx_load(&[FILL, 0x1024, 1, 0], 0x100), refused(4, 0));
    assert_eq!(aplx_load(&[FILL, 0x1000, u32::MAX, 0], 0x100), refused(4, 0));
    let exec = |address| [FILL, 0x1000, 64, 0, EXEC, address, 5, 6];
    assert_eq!(aplx_load(&exec(0x1002), 0x100), refused(9, 1));
    assert_eq!(aplx_load(&exec(0x180), 0x100), refused(9, 1));
    let stop = Stop::Run { entry: Entry::Thumb, address: 0x1001, resume: 0x120 };
    assert_eq!(aplx_load(&exec(0x1001), 0x100), Ok(Loaded { stop, taken: 1, stored: 64 }));
}

#[test]
fn a_destination_over_the_header() {
    let load = |to| aplx_load(&[FILL, 0x1000, 32, 0, FILL, to, 1, 0, 7, 0, 0, 0], 0x104 - 4);
    assert_eq!(load(0x12c), refused(8, 1), "the stop's last word");
    let stop = Stop::Unknown { command: 7, place: 2 };
    assert_eq!(load(0x130), Ok(Loaded { stop, taken: 2, stored: 64 }));
    // Walk before header: the stop's 9 comes before 8.
    assert_eq!(aplx_load(&[FILL, 0x100, 32, 0, EXEC, 2, 0, 0], 0x100), refused(9, 1));
    let both = [FILL, 0x100, 32, 0, FILL, 0x100, 32, 0, END, 0, 0, 0];
    assert_eq!(aplx_load(&both, 0x100), refused(8, 0), "the first such entry");
}

const WHO: Identity =
    Identity { point_to_point: 0x0102, physical: 3, virtual_cpu: 4, version: 129, date: 0x4ed2_0000 };

/// The reply, the output's front, and memory.
fn packet(head: [u16; 2], arguments: &[u32], data: &[u8]) -> (Reply, Vec<u8>, Vec<u8>) {
    let mut bytes: Vec<u8> = head.iter().flat_map(|half| half.to_le_bytes()).collect();
    bytes.extend(words(arguments));
    bytes.extend(data);
    let mut memory = words(&[FILL, 0x1000, 32, 0x0a0b_0c0d, EXEC, 0x103, 0, 0, END, 0, 0, 0]);
    memory.resize(256, 0xee);
    let mut output = vec![0x77; 300];
    let reply = scp::answer(&map(&MAP), &mut memory, WHO, &bytes, &mut output).expect("a reply");
    let length = if let Reply::Response(length) = reply { length } else { 0 };
    assert!(output[length..].iter().all(|byte| *byte == 0x77), "past the response");
    output.truncate(length);
    (reply, output, memory)
}

fn code(head: [u16; 2], arguments: &[u32], data: &[u8]) -> u8 {
    let (reply, output, _) = packet(head, arguments, data);
    assert_eq!(reply, Reply::Response(4), "a plain answer");
    assert_eq!(output[1..], [0, head[1].to_le_bytes()[0], head[1].to_le_bytes()[1]]);
    output[0]
}

#[test]
fn scp_refusals() {
    let mut output = [0; 272];
    let sound = map(&MAP);
    assert_eq!(scp::answer(&sound, &mut [], WHO, &[], &mut output[..271]), refused(10, 0));
    assert_eq!(scp::answer(&sound, &mut [0; 255], WHO, &[0; 4], &mut output), refused(1, 0));
    assert_eq!(output, [0; 272]);
    let short = scp::answer(&sound, &mut [0; 256], WHO, &[0; 3], &mut output);
    assert_eq!(short, Ok(Reply::Silence));
    assert_eq!(output, [0; 272]);
}

#[test]
fn scp_version() {
    let (reply, output, _) = packet([0, 0x0605], &[], &[]);
    assert_eq!(reply, Reply::Response(31));
    let mut expected = unhex("80 00 05 06 04 03 02 01 00 01 81 00 00 00 d2 4e");
    expected.extend(b"SARK/SpiNNaker\0");
    assert_eq!(output, expected);
}

#[test]
fn scp_orders() {
    assert_eq!(code([9, 1], &[], &[0; 269]), 0x81, "over 272, whatever the command");
    assert_eq!(code([5, 1], &[], &[]), 0x83);
    assert_eq!(code([0x0100, 1], &[], &[]), 0x83, "the command is all 16 bits");
    assert_eq!(code([1, 1], &[], &[0; 3]), 0x81);
    assert_eq!(code([4, 1], &[], &[0; 3]), 0x81);
    assert_eq!(code([2, 1], &[0, 0], &[0; 3]), 0x81);
    assert_eq!(code([3, 1], &[0, 0], &[0; 3]), 0x81);
    assert_eq!(code([3, 1], &[0x1000, 257, 0], &[]), 0x84, "ARG before LEN");
    assert_eq!(code([3, 1], &[0x1000, 4, 3], &[]), 0x84, "ARG before LEN");
    assert_eq!(code([3, 1], &[0x1001, 4, 2], &[0; 3]), 0x81, "LEN before alignment");
    assert_eq!(code([3, 1], &[0x1001, 4, 2], &[0; 4]), 0x84);
    assert_eq!(code([2, 1], &[0x100, 3, 1], &[]), 0x84);
    assert_eq!(code([2, 1], &[0x1000, 4, 2], &[]), 0x84, "not readable");
    assert_eq!(code([2, 1], &[0x17e, 4, 1], &[]), 0x84, "over two regions");
    assert_eq!(code([2, 1], &[0xffff_fffc, 0, 2], &[]), 0x80, "empty at any address");
    assert_eq!(code([2, 1], &[0xffff_fffd, 0, 1], &[]), 0x84, "once aligned");
    assert_eq!(code([3, 1], &[0xffff_ffff, 0, 0], &[]), 0x80);
    assert_eq!(code([3, 1], &[0xffff_ffff, 0, 0], &[1]), 0x81);
    assert_eq!(code([1, 1], &[0x1002], &[]), 0x84);
    assert_eq!(code([4, 1], &[0x101], &[]), 0x84);
    assert_eq!(code([4, 1], &[0x120], &[9; 50]), 0x80);
}

#[test]
fn scp_acts() {
    let (_, _, memory) = packet([3, 1], &[0x1004, 8, 2], &[1, 2, 3, 4, 5, 6, 7, 8]);
    assert_eq!(memory[192..208], [0xee, 0xee, 0xee, 0xee, 1, 2, 3, 4, 5, 6, 7, 8, 0xee, 0xee, 0xee, 0xee]);
    let run = Reply::Run { entry: Entry::Thumb, address: 0x1003 };
    assert_eq!(packet([1, 1], &[0x1003], &[]).0, run);
    let (reply, _, memory) = packet([4, 1], &[0x100], &[]);
    let run = Reply::LoadedRun { entry: Entry::Thumb, address: 0x103, resume: 0x120 };
    assert_eq!(reply, run);
    assert_eq!(memory[192..196], [0x0d, 0x0c, 0x0b, 0x0a]);
}
