//! Replays files of calls through the reference: `replay FILE..` writes what it answers, one file after the other.
//! The head of crates/replay/data/cases says how a call is written and what is written for it.

use std::fs;
use std::process::exit;

use reference::bytes::hex;
use reference::interface::{map_of, Library, Outcome, Reference};
use reference::map::{Map, Right};
use reference::outcome::Entry;
use reference::text::{read_call, shortened, Buffers};

/// The longest range that a map can be asked for, so that no sum of an address and a length wraps.
const WHOLE: u64 = 1 << 32;

/// The numbers of the answer to a call, and the buffers that it may change; None where it is no call.
fn call<'a>(name: &str, n: &[u64], buffers: &'a mut Buffers) -> Option<(Vec<u64>, Vec<&'a [u8]>)> {
    let Buffers { table, memory, output, input } = buffers;
    let mut outcome: Outcome = [0; 8];
    let (number, changed): (u32, Vec<&[u8]>) = match name {
        "map_add" => {
            let number = Reference.map_add(table, n[0] as u32, n[1] as u32, n[2] as u32, n[3] as u32);
            return Some((vec![u64::from(number)], vec![table]));
        }
        "map_sound" => {
            let number = Reference.map_sound(table, n[0] as usize);
            return Some((vec![u64::from(number)], vec![]));
        }
        "lookup" => return Some((lookup(&map_of(table).unwrap_or_default(), n)?, vec![])),
        "run_entry" => {
            let answer = match map_of(table).unwrap_or_default().run_entry(n[0] as u32) {
                Some(Entry::Arm) => vec![0, 1, n[0]],
                Some(Entry::Thumb) => vec![0, 2, n[0]],
                None => vec![9, 0, 0],
            };
            return Some((answer, vec![]));
        }
        "srom_load" => {
            let number = Reference.srom_load(table, memory, input, n[0] as usize, &mut outcome);
            (number, vec![memory])
        }
        "aplx_load" => {
            let number = Reference.aplx_load(table, memory, n[0] as u32, &mut outcome);
            (number, vec![memory])
        }
        "scp_answer" => {
            let identity = [0, 1, 2, 3, 4].map(|k| n[k] as u32);
            let number = Reference.scp_answer(table, memory, &identity, input, output, &mut outcome);
            (number, vec![memory, output])
        }
        "plan_read" => (Reference.plan_read(input, n[0] as u32, &mut outcome), vec![]),
        "pack_srom" => (Reference.pack_srom(input, output, &mut outcome), vec![output]),
        "pack_aplx" => (Reference.pack_aplx(input, output, &mut outcome), vec![output]),
        "pack_aplx_shared" => (Reference.pack_aplx_shared(input, output, &mut outcome), vec![output]),
        "aplx_read" => (Reference.aplx_read(input, output, &mut outcome), vec![output]),
        "compare" => (Reference.compare(memory, input, output, &mut outcome), vec![output]),
        "aplx_check" => (Reference.aplx_check(memory, input, &mut outcome), vec![]),
        "flood_fill_start" => {
            let receiver = table.as_mut_slice().try_into().ok()?;
            let number = Reference.flood_fill_start(receiver, memory, n[0] as u32, n[1] as u32, &mut outcome);
            (number, vec![table])
        }
        "flood_fill_block_start" => {
            let receiver = table.as_mut_slice().try_into().ok()?;
            let number =
                Reference.flood_fill_block_start(receiver, memory, n[0] as u32, n[1] as u32, &mut outcome);
            (number, vec![table])
        }
        "flood_fill_block_data" => {
            let receiver = table.as_mut_slice().try_into().ok()?;
            let [block, word_id, word] = [0, 1, 2].map(|k| n[k] as u32);
            let number = Reference.flood_fill_block_data(receiver, memory, block, word_id, word, &mut outcome);
            (number, vec![table])
        }
        "flood_fill_block_end" => {
            let receiver = table.as_mut_slice().try_into().ok()?;
            let number = Reference.flood_fill_block_end(receiver, memory, n[0] as u32, &mut outcome);
            (number, vec![table, memory])
        }
        _ => return None,
    };
    let mut numbers = vec![u64::from(number)];
    numbers.extend(outcome);
    Some((numbers, changed))
}

fn lookup(map: &Map, n: &[u64]) -> Option<Vec<u64>> {
    let right = match n[0] {
        1 => Right::Read,
        2 => Right::Write,
        4 => Right::Run,
        _ => return None,
    };
    let found = if n[2] > WHOLE { None } else { map.lookup(right, n[1], n[2]) };
    Some(found.map_or(vec![4, 0], |place| vec![0, place as u64]))
}

/// What is written for a text, and whether every line was one.
fn replay(text: &str) -> (String, bool) {
    let mut buffers = Buffers::default();
    let mut written = String::new();
    for (index, line) in text.split('\n').enumerate() {
        if line.is_empty() || line.starts_with('#') {
            continue;
        }
        if let Some(name) = line.strip_prefix(": ") {
            written += &format!("{name}: ");
            continue;
        }
        let answer = read_call(line, &mut buffers)
            .and_then(|(name, numbers)| call(name, &numbers, &mut buffers).map(|answer| (name, answer)));
        let Some((name, (numbers, changed))) = answer else {
            written += &format!("not a call: line {}\n", index + 1);
            return (written, false);
        };
        let numbers: Vec<String> = numbers.iter().map(u64::to_string).collect();
        written += &format!("{name}\n{}\n", numbers.join(" "));
        for buffer in changed {
            let text = if name == "compare" { shortened(buffer) } else { hex(buffer) };
            written += &format!("{text}\n");
        }
    }
    (written, true)
}

fn main() {
    for file in std::env::args().skip(1) {
        let text = fs::read_to_string(&file).unwrap_or_else(|error| {
            eprintln!("{file}: {error}");
            exit(2)
        });
        let (written, whole) = replay(&text);
        print!("{written}");
        if !whole {
            eprintln!("{file}: {}", written.lines().last().unwrap_or_default());
            exit(1);
        }
    }
}
