//! The steps of examples/c/read_back.c from Rust: a plan packed, read back and packed again; an old image that our packer did not
//! write, with shared data and an offset that leads backward; an image that is refused. Each call is shown with its event and its eight
//! numbers, in hex.

mod reidhintsje;

use reidhintsje::{Outcome, MAP_BYTES, MAY_READ, MAY_RUN, MAY_WRITE, OUTPUT_TOO_SMALL};

/// The region's first address, which is memory[0]; and where an image is put in memory to be loaded.
const BASE: u32 = 0xf500_0000;
const IMAGE: usize = 512;

fn tell(what: &str, outcome: Outcome) -> Outcome {
    println!("{what}: {:?} {:x?}", outcome.event(), outcome.numbers);
    outcome
}

fn show(what: &str, bytes: &[u8]) {
    println!("{what}:");
    for line in bytes.chunks(16) {
        println!("{}", line.iter().map(|byte| format!("{byte:02x}")).collect::<Vec<_>>().join(" "));
    }
}

fn compare(what: &str, a: &[u8], b: &[u8]) {
    println!("{what}: {}", if a == b { "the same" } else { "other bytes" });
}

/// What a call writes, in two steps: with no output, which answers the length that is needed, and with that many bytes. Or its refusal.
fn written(what: &str, call: impl Fn(&mut [u8]) -> Outcome) -> Result<Vec<u8>, Outcome> {
    let asked = tell("ask", call(&mut []));
    if asked.refusal() != OUTPUT_TOO_SMALL {
        return Err(asked);
    }
    let mut output = vec![0; asked.bytes()];
    tell(what, call(&mut output));
    Ok(output)
}

fn read_back(image: &[u8]) -> Result<Vec<u8>, Outcome> {
    written("read back", |output| reidhintsje::aplx_read(image, output))
}

fn pack(plan: &[u8]) -> Result<Vec<u8>, Outcome> {
    written("pack", |output| reidhintsje::pack_aplx(plan, output))
}

/// Loads an image from its first entry on, in a memory that is otherwise zero. The 128 bytes from BASE on.
fn load(image: &[u8]) -> Vec<u8> {
    let mut map = [0; MAP_BYTES];
    let mut memory = [0; 1024];
    reidhintsje::map_add(&mut map, BASE, memory.len() as u32, 0, MAY_READ | MAY_WRITE | MAY_RUN);
    memory[IMAGE..][..image.len()].copy_from_slice(image);
    tell("load", reidhintsje::aplx_load(&map, &mut memory, BASE + IMAGE as u32));
    memory[..128].to_vec()
}

/// Words, four in a row, and data behind them.
fn bytes(words: &[[u32; 4]], data: impl IntoIterator<Item = u8>) -> Vec<u8> {
    words.iter().flatten().flat_map(|word| word.to_le_bytes()).chain(data).collect()
}

fn main() -> Result<(), Outcome> {
    // A plan of a put, a fill and a run, whose data stands behind a gap.
    let rows = [[3, 16, 68, 32], [1, BASE, 32, 0], [2, BASE + 32, 32, 0x0102_0304], [3, BASE + 1, 0, 0]];
    let first = bytes(&rows, [7; 4].into_iter().chain(0xa0..0xc0));
    println!("-- there and back");
    let image = pack(&first)?;
    let plan = read_back(&image)?;
    compare("its plan and the first one", &plan, &first); // the gap is lost
    compare("its image and the first one", &pack(&plan)?, &image);

    // An old image: two puts share the data at 80; the third stores entries 0 and 1, 32 bytes before its own; a run with an unused word.
    println!("-- an old image");
    let mut entries = [
        [2, BASE, 80, 32],
        [2, BASE + 32, 64, 32],
        [2, BASE + 64, 0xffff_ffe0, 32],
        [4, BASE + 1, 7, 0],
        [0xffff_ffff, 0, 0, 0],
    ];
    let old = bytes(&entries, 0xa0..0xc0);
    let plan = read_back(&old)?;
    show("plan", &plan);
    let packed = pack(&plan)?;
    compare("its image and the old one", &packed, &old); // each put has data of its own, 7 is 0
    compare("its plan and the last one", &read_back(&packed)?, &plan);
    compare("what both leave", &load(&old), &load(&packed));

    // The second entry becomes an ACOPY, which no plan can say: 20 at 1, and no byte of the output changes.
    println!("-- refused");
    entries[1] = [1, BASE + 32, BASE, 32];
    let mut output = [0xee; 16];
    let refused = tell("read back", reidhintsje::aplx_read(&bytes(&entries, 0xa0..0xc0), &mut output));
    println!("refused {} at {}", refused.refusal(), refused.place());
    show("output", &output);
    Ok(())
}
