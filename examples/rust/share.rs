//! The steps of examples/c/share.c from Rust: a plan packed plain and with one copy of equal data; where the entries point; the image with
//! one copy checked against the plan, read back and packed again; both images loaded; an output that is too small; a plan that is refused.
//! Each call is shown with its event and its eight numbers, in hex.

mod reidhintsje;

use reidhintsje::{Outcome, MAP_BYTES, MAY_READ, MAY_RUN, MAY_WRITE, OUTPUT_TOO_SMALL};

/// The address of the tables, one for each channel; the bytes of the tables and what follows them.
const TABLES: u32 = 0x0040_0000;
const CHANNELS: u32 = 16;
const STORED: usize = 1088;

/// Where an image lies to be loaded, and the bytes of its region.
const HEADER: u32 = 0xf500_0000;
const ROOM: usize = 2048;

/// A table of sixteen words.
const TABLE: [u32; 16] =
    [1000, 1010, 1019, 1025, 1029, 1032, 1033, 1034, 1034, 1033, 1032, 1029, 1025, 1019, 1010, 1000];

/// The calibration's number.
const NUMBER: [u32; 8] = [3, 0, 0, 0, 0, 0, 0, 0];

/// Words as they stand in plans, images and memory.
fn bytes<'a>(words: impl IntoIterator<Item = &'a u32>) -> Vec<u8> {
    words.into_iter().flat_map(|word| word.to_le_bytes()).collect()
}

/// examples/sixteen_channels.plan.hex; the table stands in its data twice. The length is that of the last put.
fn plan(length: u32) -> Vec<u8> {
    let mut rows = vec![[CHANNELS + 3, 16, 16 * (CHANNELS + 4), 160], [2, TABLES, STORED as u32, 0]];
    rows.extend((0..CHANNELS).map(|i| [1, TABLES + 64 * i, 64, if i < 8 { 0 } else { 64 }]));
    rows.push([1, TABLES + 64 * CHANNELS, length, 128]);
    rows.push([3, 0, 0, 0]);
    bytes(rows.iter().flatten().chain(&TABLE).chain(&TABLE).chain(&NUMBER))
}

fn tell(what: &str, outcome: Outcome) -> Outcome {
    println!("{what}: {:?} {:x?}", outcome.event(), outcome.numbers);
    outcome
}

fn compare(what: &str, a: &[u8], b: &[u8]) {
    println!("{what}: {}", if a == b { "the same" } else { "other bytes" });
}

/// What a call writes, in two steps: with no output, which answers the length that is needed, and with that many bytes. Or its refusal.
fn written(what: &str, call: impl Fn(&mut [u8]) -> Outcome) -> Result<Vec<u8>, Outcome> {
    let asked = call(&mut []);
    if asked.refusal() != OUTPUT_TOO_SMALL {
        return Err(asked);
    }
    let mut output = vec![0; asked.bytes()];
    tell(what, call(&mut output));
    Ok(output)
}

fn plain(plan: &[u8]) -> Result<Vec<u8>, Outcome> {
    written("plain", |output| reidhintsje::pack_aplx(plan, output))
}

fn shared(plan: &[u8]) -> Result<Vec<u8>, Outcome> {
    written("shared", |output| reidhintsje::pack_aplx_shared(plan, output))
}

/// Where the data of an entry lies in an image; its offset counts from the entry.
fn data_at(image: &[u8], entry: usize) -> usize {
    let at = 16 * entry;
    at + u32::from_le_bytes(image[at + 8..at + 12].try_into().unwrap()) as usize
}

/// Loads an image from its first entry on. Memory has three regions: code, the tables, the image. What the tables' then has.
fn load(what: &str, image: &[u8]) -> Vec<u8> {
    let mut map = [0; MAP_BYTES];
    let mut memory = [0xee; 64 + STORED + ROOM];
    reidhintsje::map_add(&mut map, 0, 64, 0, MAY_RUN);
    reidhintsje::map_add(&mut map, TABLES, STORED as u32, 64, MAY_WRITE);
    reidhintsje::map_add(&mut map, HEADER, ROOM as u32, 64 + STORED as u32, MAY_READ);
    memory[64 + STORED..][..image.len()].copy_from_slice(image);
    tell(what, reidhintsje::aplx_load(&map, &mut memory, HEADER));
    memory[64..][..STORED].to_vec()
}

fn refused(outcome: Outcome) {
    println!("refused {} at {}, needs {} bytes", outcome.refusal(), outcome.place(), outcome.bytes());
}

fn main() -> Result<(), Outcome> {
    let first = plan(32);
    println!("-- packed");
    let own = plain(&first)?;
    let one = shared(&first)?;
    println!("plain {} bytes, shared {} bytes", own.len(), one.len());

    println!("-- where the data of an entry lies");
    for entry in [1, 2, 16, 17] {
        println!("entry {entry}: plain at {}, shared at {}", data_at(&own, entry), data_at(&one, entry));
    }

    println!("-- checked");
    tell("shared", reidhintsje::aplx_check(&first, &one));

    // Each put of the plan that is read has a copy of its own.
    println!("-- read back and packed again");
    let back = written("read back", |output| reidhintsje::aplx_read(&one, output))?;
    let own_again = plain(&back)?;
    let one_again = shared(&back)?;
    compare("plain", &own_again, &own);
    compare("shared", &one_again, &one);

    // What the plan says: the table for each channel, the calibration's number, zeros.
    println!("-- loaded");
    let mut wanted = bytes((0..CHANNELS).flat_map(|_| &TABLE).chain(&NUMBER));
    wanted.resize(STORED, 0);
    let from_own = load("plain", &own);
    let from_one = load("shared", &one);
    compare("what both leave", &from_own, &from_one);
    compare("and what the plan says", &from_one, &wanted);

    // 10 at 19, the count of pieces; the last number is the length that is needed.
    println!("-- too small");
    let mut output = vec![0xee; one.len()];
    refused(tell("shared, a byte short", reidhintsje::pack_aplx_shared(&first, &mut output[1..])));
    refused(tell("plain, in as many bytes as shared", reidhintsje::pack_aplx(&first, &mut output)));
    compare("the output and what it was", &output, &vec![0xee; one.len()]);

    // The last put has 20 bytes: both refuse it.
    println!("-- refused");
    let odd = plan(20);
    tell("plain", reidhintsje::pack_aplx(&odd, &mut output));
    tell("shared", reidhintsje::pack_aplx_shared(&odd, &mut output));
    Ok(())
}
