//! The steps of examples/c/check.c from Rust: the image that our packer writes; one that another firm's packer wrote, in parts, with shared
//! data; what such a packer may get wrong; a plan that is refused. Each call is shown with its event and its eight numbers, in hex.

mod reidhintsje;

use reidhintsje::{Event, Outcome, OUTPUT_TOO_SMALL};

/// The address of the coefficients; a channel has eight words.
const TABLE: u32 = 0x0040_0000;

const ACOPY: u32 = 1;
const RCOPY: u32 = 2;
const FILL: u32 = 3;
const EXEC: u32 = 4;
const END: u32 = 0xffff_ffff;

/// Rows of four words and then these bytes, as they stand in plans and images.
fn bytes(rows: &[[u32; 4]], rest: impl IntoIterator<Item = u8>) -> Vec<u8> {
    rows.iter().flatten().flat_map(|word| word.to_le_bytes()).chain(rest).collect()
}

/// A channel's eight words: so much at first, and then a little more each time.
fn channel(first: u32) -> impl Iterator<Item = u8> {
    [0, 10, 19, 25, 29, 32, 33, 34].into_iter().flat_map(move |more| (first + more).to_le_bytes())
}

/// examples/channels.plan.hex: a fill over the table, channels 0 and 1, channel 2 with the coefficients of channel 0, the run. The length
/// is that of the first put.
fn plan(length: u32) -> Vec<u8> {
    let rows = [[4, 16, 80, 96], [2, TABLE, 128, 0], [1, TABLE, length, 0], [1, TABLE + 64, 32, 64], [3, 0, 0, 0]];
    bytes(&rows, channel(1000).chain(channel(2000)).chain(channel(1000)))
}

/// The entries of examples/supplier.aplx.hex.
const ENTRIES: [[u32; 4]; 7] = [
    [FILL, TABLE, 96, 0],
    [FILL, TABLE + 96, 32, 0],
    [RCOPY, TABLE, 116, 32],
    [RCOPY, TABLE + 32, 68, 32],
    [RCOPY, TABLE + 64, 84, 32],
    [EXEC, 0, 7, 0],
    [END, END, END, END],
];

/// These entries, a mark of 4 bytes, the data of channel 1, and that of channels 0 and 2.
fn image(entries: &[[u32; 4]]) -> Vec<u8> {
    bytes(entries, b"v1.4".iter().copied().chain(channel(2000)).chain(channel(1000)))
}

fn tell(what: &str, outcome: Outcome) -> Outcome {
    println!("{what}: {:?} {:x?}", outcome.event(), outcome.numbers);
    outcome
}

/// Checks an image against a plan and shows the verdict.
fn check(what: &str, plan: &[u8], image: &[u8]) {
    let outcome = tell(what, reidhintsje::aplx_check(plan, image));
    match outcome.event() {
        Event::Checked => println!("accepted"),
        _ => println!("refused {} at {}", outcome.refusal(), outcome.place()),
    }
}

/// The image of a plan; or the refusal.
fn pack(plan: &[u8]) -> Result<Vec<u8>, Outcome> {
    let asked = reidhintsje::pack_aplx(plan, &mut []);
    if asked.refusal() != OUTPUT_TOO_SMALL {
        return Err(asked);
    }
    let mut output = vec![0; asked.bytes()];
    tell("pack", reidhintsje::pack_aplx(plan, &mut output));
    Ok(output)
}

fn main() -> Result<(), Outcome> {
    let ours = plan(64);
    let theirs = image(&ENTRIES);
    println!("-- accepted");
    check("our image", &ours, &pack(&ours)?);
    check("the other firm's", &ours, &theirs);

    // The other firm's image, but with these words in an entry.
    let with_entry = |what: &str, entry: usize, words: [u32; 4]| {
        let mut entries = ENTRIES;
        entries[entry] = words;
        check(what, &ours, &image(&entries));
    };
    println!("-- its entries");
    with_entry("a part of 80 bytes", 0, [FILL, TABLE, 80, 0]);
    with_entry("a part that leaves a gap", 1, [FILL, TABLE + 100, 32, 0]);
    with_entry("another fill word", 1, [FILL, TABLE + 96, 32, 1]);
    with_entry("a put as ACOPY", 3, [ACOPY, TABLE + 32, TABLE, 32]);
    with_entry("a part past the piece's end", 3, [RCOPY, TABLE + 32, 68, 64]);
    with_entry("a Thumb run for an ARM run", 5, [EXEC, 1, 0, 0]);
    with_entry("an end before the run", 5, [END, 0, 0, 0]);
    with_entry("no end", 6, [0; 4]);
    let mut entries = ENTRIES;
    entries[3] = [RCOPY, TABLE + 64, 100, 32];
    entries[4] = [RCOPY, TABLE + 32, 52, 32];
    check("channels 1 and 2 exchanged", &ours, &image(&entries));

    println!("-- its data");
    with_entry("at no multiple of 4", 3, [RCOPY, TABLE + 32, 66, 32]);
    with_entry("over the end entry", 3, [RCOPY, TABLE + 32, 60, 32]);
    check("cut short by a byte", &ours, &theirs[..theirs.len() - 1]);
    let mut changed = theirs.clone();
    changed[116 + 4] ^= 1;
    check("another bit in channel 1", &ours, &changed);

    // A fault of the plan comes before all those of the image.
    println!("-- the plan");
    check("a put of no bytes", &plan(0), &changed);
    Ok(())
}
