//! The steps of examples/c/example.c from Rust: one region of memory; a plan packed as an APLX image into it; the image loaded; the same by
//! way of a serial ROM; packets answered. Then the flood-fill messages of docs/FORMATS.md. Each call is shown with its event and its eight
//! numbers, in hex.

mod reidhintsje;

use reidhintsje::{Event, Identity, Outcome, Receiver, Target};
use reidhintsje::{MAP_BYTES, MAY_READ, MAY_RUN, MAY_WRITE, RECEIVER_BYTES, SCP_OUTPUT_BYTES};

/// The region's first address, which is memory[0]; and where the image is put in memory.
const BASE: u32 = 0xf500_0000;
const IMAGE: usize = 512;

fn tell(what: &str, outcome: Outcome) -> Outcome {
    println!("{what}: {:?} {:x?}", outcome.event(), outcome.numbers);
    outcome
}

fn show(what: &str, bytes: &[u8]) {
    let hex: String = bytes.iter().map(|byte| format!(" {byte:02x}")).collect();
    println!("{what}:{hex}");
}

/// The plan: header, three pieces at 16, 32 bytes of data at 64. A piece is 1 put, 2 fill, 3 run; address; length; data offset or word.
fn plan() -> Vec<u8> {
    let header = [3, 16, 64, 32];
    let pieces = [[1, BASE, 32, 0], [2, BASE + 32, 32, 0x0102_0304], [3, BASE + 1, 0, 0]];
    let words = header.iter().chain(pieces.iter().flatten());
    words.flat_map(|word: &u32| word.to_le_bytes()).chain(0xa0..0xc0).collect()
}

fn main() {
    let mut map = [0; MAP_BYTES];
    let mut memory = [0; 1024];

    // The map: one region with every right, one that shares its addresses, and one with rights that have no meaning.
    let every = MAY_READ | MAY_WRITE | MAY_RUN;
    println!("region: {}", reidhintsje::map_add(&mut map, BASE, memory.len() as u32, 0, every));
    println!("region again: {}", reidhintsje::map_add(&mut map, BASE + 4, 64, 2048, MAY_READ));
    println!("region with other rights: {}", reidhintsje::map_add(&mut map, BASE + 4096, 64, 2048, 8));
    println!("sound: {}", reidhintsje::map_sound(&map, memory.len()));
    println!("sound for less: {}", reidhintsje::map_sound(&map, memory.len() - 1));
    show("map", &map[..20]);

    // The image: first into no room at all, to learn its length.
    let plan = plan();
    tell("read", reidhintsje::plan_read(&plan, Target::Aplx));
    let needed = tell("pack", reidhintsje::pack_aplx(&plan, &mut [])).bytes();
    tell("pack", reidhintsje::pack_aplx(&plan, &mut memory[IMAGE..IMAGE + needed]));

    // The loads: up to the run, and from there to the end.
    let mut header = BASE + IMAGE as u32;
    loop {
        let outcome = tell("load", reidhintsje::aplx_load(&map, &mut memory, header));
        if outcome.event() != Event::Run {
            break;
        }
        println!("run {:?} at {:x}", outcome.kind(), outcome.address());
        header = outcome.resume();
    }
    show("memory", &memory[..40]);

    // The same plan by way of a serial ROM.
    let mut rom = [0; 128];
    let length = tell("pack", reidhintsje::pack_srom(&plan, &mut rom)).bytes();
    memory.fill(0);
    tell("load", reidhintsje::srom_load(&map, &mut memory, &rom[..length], 0));
    show("memory", &memory[..40]);

    // A table that is one byte short is no map.
    tell("load", reidhintsje::srom_load(&map[..MAP_BYTES - 1], &mut memory, &rom[..length], 0));

    // What board is this (VER), with sequence number 0x0102; a packet of 3 bytes; an output of 271 bytes; start at BASE (RUN).
    let identity =
        Identity { point_to_point: 0x0305, physical_cpu: 7, virtual_cpu: 9, version: 0x0064, date: 0x5f00_0000 };
    let mut output = [0; SCP_OUTPUT_BYTES];
    let packet = [0, 0, 2, 1];
    let length = tell("answer", reidhintsje::scp_answer(&map, &mut memory, identity, &packet, &mut output)).bytes();
    show("response", &output[..length]);
    tell("answer", reidhintsje::scp_answer(&map, &mut memory, identity, &packet[..3], &mut output));
    tell("answer", reidhintsje::scp_answer(&map, &mut memory, identity, &packet, &mut output[..SCP_OUTPUT_BYTES - 1]));
    let start = [1, 0, 3, 1, 0, 0, 0, 0xf5];
    tell("answer", reidhintsje::scp_answer(&map, &mut memory, identity, &start, &mut output));

    // An image in two blocks of two words, the last with one word. It needs 16 bytes. One word comes twice, one late; an end comes twice.
    let mut receiver: Receiver = [0; RECEIVER_BYTES];
    let mut image = [0xee; 16];
    tell("start", reidhintsje::flood_fill_start(&mut receiver, &image[..15], 1, 2));
    tell("start", reidhintsje::flood_fill_start(&mut receiver, &image, 1, 2));
    tell("block start", reidhintsje::flood_fill_block_start(&mut receiver, &image, 0, 2));
    tell("block data", reidhintsje::flood_fill_block_data(&mut receiver, &image, 0, 0, 0x0403_0201));
    tell("block data", reidhintsje::flood_fill_block_data(&mut receiver, &image, 0, 0, 0x0403_0201));
    let end = tell("block end", reidhintsje::flood_fill_block_end(&mut receiver, &mut image, 0));
    println!("missing {}, the lowest {}", end.items(), end.place());
    tell("block data", reidhintsje::flood_fill_block_data(&mut receiver, &image, 0, 1, 0x0807_0605));
    tell("block end", reidhintsje::flood_fill_block_end(&mut receiver, &mut image, 0));
    tell("block start", reidhintsje::flood_fill_block_start(&mut receiver, &image, 1, 1));
    tell("block data", reidhintsje::flood_fill_block_data(&mut receiver, &image, 1, 0, 0x0c0b_0a09));
    tell("block end", reidhintsje::flood_fill_block_end(&mut receiver, &mut image, 1));
    tell("block end", reidhintsje::flood_fill_block_end(&mut receiver, &mut image, 1));
    show("image", &image);
}
