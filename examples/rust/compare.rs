//! The steps of examples/c/compare.c from Rust: the drift coefficients of two channels before and after a recalibration; a plan and another
//! that leaves the same bytes by other pieces; a plan that is refused; two packed images, which are read back as plans. Each call is shown
//! with its event and its eight numbers, in hex.

mod reidhintsje;

use reidhintsje::{stretches, Event, Outcome, COMPARE_OUTPUT_BYTES, OUTPUT_TOO_SMALL};

/// The address of the coefficients; a channel has eight words.
const TABLE: u32 = 0x0040_0000;

/// A piece of a plan: address and words; address, length and word; address.
enum Piece {
    Put(u32, Vec<u32>),
    Fill(u32, u32, u32),
    Run(u32),
}

/// The bytes of a plan: header, table, the data of the puts in order.
fn plan(pieces: &[Piece]) -> Vec<u8> {
    let mut data = Vec::new();
    let mut rows = Vec::new();
    for piece in pieces {
        rows.push(match piece {
            Piece::Put(address, words) => {
                let from = data.len() as u32;
                data.extend(words.iter().flat_map(|word| word.to_le_bytes()));
                [1, *address, 4 * words.len() as u32, from]
            }
            Piece::Fill(address, length, word) => [2, *address, *length, *word],
            Piece::Run(address) => [3, *address, 0, 0],
        });
    }
    let count = rows.len() as u32;
    rows.insert(0, [count, 16, 16 + 16 * count, data.len() as u32]);
    rows.iter().flatten().flat_map(|word| word.to_le_bytes()).chain(data).collect()
}

/// A put of a channel's eight words: so much at first, and then a little more each time; and the same with another word.
fn channel(number: u32, first: u32) -> Piece {
    Piece::Put(TABLE + 32 * number, [0, 10, 19, 25, 29, 32, 33, 34].map(|more| first + more).to_vec())
}

fn channel_with(number: u32, first: u32, index: usize, word: u32) -> Piece {
    let mut piece = channel(number, first);
    if let Piece::Put(_, words) = &mut piece {
        words[index] = word;
    }
    piece
}

fn tell(what: &str, outcome: Outcome) -> Outcome {
    println!("{what}: {:?} {:x?}", outcome.event(), outcome.numbers);
    outcome
}

fn shown(byte: Option<u8>) -> String {
    byte.map_or("--".to_string(), |byte| format!("{byte:02x}"))
}

/// Compares two plans and shows the stretches and whether the runs are the same; or which plan is refused, for what, and where.
fn compare(old: &[u8], new: &[u8], output: &mut [u8]) {
    let outcome = tell("compare", reidhintsje::compare(old, new, output));
    for stretch in stretches(outcome, output) {
        println!("{:08x} {:08x} {} {}", stretch.first, stretch.last, shown(stretch.old), shown(stretch.new));
    }
    match outcome.event() {
        Event::SameRun => println!("same run"),
        Event::OtherRun => println!("other run"),
        _ => println!("{:?}: refused {} at {}", outcome.which(), outcome.refusal(), outcome.place()),
    }
}

/// What a call writes, in two steps: with no output, which answers the length that is needed, and with that many bytes. Or its refusal.
fn written(what: &str, call: impl Fn(&mut [u8]) -> Outcome) -> Result<Vec<u8>, Outcome> {
    let asked = call(&mut []);
    if asked.refusal() != OUTPUT_TOO_SMALL {
        return Err(asked);
    }
    let mut output = vec![0; asked.bytes()];
    tell(what, call(&mut output));
    Ok(output)
}

fn main() -> Result<(), Outcome> {
    let mut output = vec![0; COMPARE_OUTPUT_BYTES];

    // Channel 0; channel 1 as first measured; its correction, listed later, so that it stays; the run.
    let old = plan(&[channel(0, 1000), channel(1, 2000), channel(1, 2002), Piece::Run(0)]);

    // The same but for one coefficient of channel 0, channel 1 as first measured, which its correction hides, and one word of that
    // correction; a mark behind the table; and something behind the run, which is not compared.
    let new = plan(&[
        channel_with(0, 1000, 4, 1030),
        channel(1, 2001),
        channel_with(1, 2002, 2, 2049),
        Piece::Fill(TABLE + 64, 32, 2),
        Piece::Run(0),
        Piece::Fill(TABLE, 32, 0),
    ]);
    println!("-- before and after");
    compare(&old, &new, &mut output);

    // The old plan's bytes by other pieces: its correction alone, channel 0 last over a fill. There is no run.
    println!("-- other pieces");
    compare(&old, &plan(&[channel(1, 2002), Piece::Fill(TABLE, 32, 0), channel(0, 1000)]), &mut output);

    // A fill of 32 bytes from the last word on has no addresses for 28 of them: 19, and no byte of the output changes.
    println!("-- refused");
    let past = plan(&[channel(1, 2002), Piece::Fill(TABLE, 32, 0), channel(0, 1000), Piece::Fill(0xffff_fffc, 32, 0)]);
    output.fill(0xee);
    compare(&old, &past, &mut output);
    println!("output: {}", if output.iter().all(|byte| *byte == 0xee) { "as it was" } else { "changed" });
    compare(&old, &new, &mut output[1..]);

    // The images of the first two plans.
    println!("-- two images");
    let old_image = written("pack", |output| reidhintsje::pack_aplx(&old, output))?;
    let new_image = written("pack", |output| reidhintsje::pack_aplx(&new, output))?;
    let old_read = written("read back", |output| reidhintsje::aplx_read(&old_image, output))?;
    let new_read = written("read back", |output| reidhintsje::aplx_read(&new_image, output))?;
    compare(&old_read, &new_read, &mut output);
    Ok(())
}
