//! Calls as text: the two files of crates/replay/data. The head of its file `cases` says how a call is written.
//! A byte string is written with `*N` where a byte stands 8 times in a row or more.

use crate::bytes::hex;
use crate::receiver::RECEIVER;

/// The most bytes of a buffer, and the most times of a part.
const LONGEST: usize = 8192;
const MOST_TIMES: usize = 65536;
/// So many like bytes in a row are written as one part.
const ROW: usize = 8;

/// What an argument is: a buffer, or a number with its largest value.
#[derive(Clone, Copy)]
pub enum Kind {
    Table,
    /// A table that has the length of a flood-fill receiver.
    Receiver,
    Memory,
    Output,
    Input,
    Number(u64),
}

use Kind::{Input, Memory, Number, Output, Receiver, Table};

const WORD: Kind = Number(u32::MAX as u64);
const LONG: Kind = Number(u64::MAX);

/// The arguments of a call; None where there is no such call.
fn kinds(name: &str) -> Option<&'static [Kind]> {
    Some(match name {
        "map_add" => &[Table, WORD, WORD, WORD, WORD],
        "srom_load" => &[Table, Memory, Input, LONG],
        "aplx_load" => &[Table, Memory, WORD],
        "scp_answer" => &[Table, Memory, WORD, WORD, WORD, WORD, WORD, Input, Output],
        "plan_read" => &[Input, WORD],
        "pack_srom" | "pack_aplx" | "pack_aplx_shared" | "aplx_read" => &[Input, Output],
        "compare" => &[Memory, Input, Output],
        "aplx_check" => &[Memory, Input],
        "map_sound" => &[Table, LONG],
        "lookup" => &[Table, Number(4), WORD, LONG],
        "run_entry" => &[Table, WORD],
        "flood_fill_start" | "flood_fill_block_start" => &[Receiver, Memory, WORD, WORD],
        "flood_fill_block_data" => &[Receiver, Memory, WORD, WORD, WORD],
        "flood_fill_block_end" => &[Receiver, Memory, WORD],
        _ => return None,
    })
}

/// The buffers as the last call left them. A rom, a packet, a plan and an image that is read back or checked are inputs; a receiver
/// is a table; an image that is received, the old one of two plans that are compared, and the plan of an image that is checked are
/// memories.
#[derive(Default)]
pub struct Buffers {
    pub table: Vec<u8>,
    pub memory: Vec<u8>,
    pub output: Vec<u8>,
    pub input: Vec<u8>,
}

/// The numbers of the call that a line is, its byte strings put into the buffers; None where it is no call.
pub fn read_call<'a>(line: &'a str, buffers: &mut Buffers) -> Option<(&'a str, Vec<u64>)> {
    let mut words = line.split(' ');
    let name = words.next()?;
    let mut numbers = Vec::new();
    for kind in kinds(name)? {
        let word = words.next()?;
        let buffer = match kind {
            Table | Receiver => &mut buffers.table,
            Memory => &mut buffers.memory,
            Output => &mut buffers.output,
            Input => &mut buffers.input,
            Number(most) => {
                numbers.push(read_number(word).filter(|number| number <= most)?);
                continue;
            }
        };
        if word != "=" {
            *buffer = read_bytes(word)?;
        }
        if matches!(kind, Receiver) && buffer.len() != RECEIVER {
            return None;
        }
    }
    words.next().is_none().then_some((name, numbers))
}

fn read_number(text: &str) -> Option<u64> {
    text.bytes().all(|byte| byte.is_ascii_digit()).then(|| text.parse().ok())?
}

fn read_bytes(text: &str) -> Option<Vec<u8>> {
    let mut bytes = Vec::new();
    for part in text.split('+') {
        let (digits, times) = match part.split_once('*') {
            Some((digits, times)) => (digits, read_number(times)? as usize),
            None => (part, 1),
        };
        if !(1..=MOST_TIMES).contains(&times) {
            return None;
        }
        let once = read_pairs(digits.strip_prefix('x')?)?;
        bytes.extend(once.repeat(times));
    }
    (bytes.len() <= LONGEST).then_some(bytes)
}

fn read_pairs(digits: &str) -> Option<Vec<u8>> {
    let value = |digit: u8| match digit {
        b'0'..=b'9' => Some(digit - b'0'),
        b'a'..=b'f' => Some(digit - b'a' + 10),
        _ => None,
    };
    let pair = |pair: &[u8]| match pair {
        [high, low] => Some(16 * value(*high)? + value(*low)?),
        _ => None,
    };
    digits.as_bytes().chunks(2).map(pair).collect()
}

/// A buffer as it is written for `compare`: the equal bytes at its end as one of them and their number.
pub fn shortened(bytes: &[u8]) -> String {
    let Some(last) = bytes.last() else { return String::new() };
    let front = bytes.iter().rposition(|byte| byte != last).map_or(0, |at| at + 1);
    format!("{}+{last:02x}*{}", hex(&bytes[..front]), bytes.len() - front)
}

/// The text of a byte string.
pub fn write_bytes(bytes: &[u8]) -> String {
    let mut parts: Vec<String> = Vec::new();
    let mut rest = bytes;
    let mut plain = String::new();
    while let Some(first) = rest.first() {
        let row = rest.iter().take_while(|byte| *byte == first).count();
        if row < ROW {
            plain.push_str(&hex(&rest[..row]));
        } else {
            if !plain.is_empty() {
                parts.push(format!("x{plain}"));
                plain.clear();
            }
            parts.push(format!("x{first:02x}*{row}"));
        }
        rest = &rest[row..];
    }
    if !plain.is_empty() || parts.is_empty() {
        parts.push(format!("x{plain}"));
    }
    parts.join("+")
}
