//! Counts of what occurred: each refusal number, stop and reply of each call, and those that must occur.

use std::collections::BTreeMap;

use crate::bytes::{le16, le32, share};
use crate::check_kinds;
use crate::difference_kinds;
use crate::flood_fill::{Message, Receiver};
use crate::interface::{at, event, map_of, Numbers, Outcome, TABLE};
use crate::plan::Piece;
use crate::receiver::ReceiverBytes;
use crate::scp;
use crate::share_kinds;

#[derive(Default)]
pub struct Tally {
    counts: BTreeMap<(&'static str, String), u64>,
}

impl Tally {
    pub fn count(&mut self, call: &'static str, what: String) {
        *self.counts.entry((call, what)).or_insert(0) += 1;
    }

    pub fn of(&self, call: &'static str, what: &str) -> u64 {
        self.counts.get(&(call, what.to_string())).copied().unwrap_or(0)
    }

    /// The table as text; what is required and did not occur stands in it with 0.
    pub fn table(&self, required: &[(&'static str, String)]) -> String {
        let mut rows = self.counts.clone();
        for key in required {
            rows.entry(key.clone()).or_insert(0);
        }
        rows.iter()
            .map(|((call, what), count)| format!("{call:<22} {what:<28} {count:>10}\n"))
            .collect()
    }

    /// What is required and did not occur.
    pub fn missing(&self, required: &[(&'static str, String)]) -> Vec<(&'static str, String)> {
        required.iter().filter(|(call, what)| self.of(call, what) == 0).cloned().collect()
    }
}

/// The kind of a run.
fn entry(numbers: &Outcome) -> &'static str {
    match numbers[at::KIND] {
        1 => "ARM",
        2 => "Thumb",
        _ => "?",
    }
}

/// What a load came to.
pub fn load_kind(numbers: &Outcome) -> String {
    match numbers[at::EVENT] {
        event::REFUSED => refused(numbers[at::REFUSAL]),
        event::END => "stop end".to_string(),
        event::UNKNOWN => "stop unknown".to_string(),
        event::RUN => format!("stop run {}", entry(numbers)),
        other => format!("event {other}"),
    }
}

/// How many entries or blocks an accepted load took.
pub fn taken_kind(numbers: &Outcome) -> Option<String> {
    if numbers[at::EVENT] == event::REFUSED {
        return None;
    }
    Some(match numbers[at::ITEMS] {
        few @ (0 | 1) => format!("taken {few}"),
        255 => "taken 255".to_string(),
        _ => "taken 2 or more".to_string(),
    })
}

/// Memories in classes.
pub fn memory_kind(length: usize) -> String {
    let class = match length {
        0..=600 => "to 600 bytes",
        601..=65_535 => "to 64 KiB",
        65_536..=1_048_575 => "to 1 MiB",
        _ => "over 1 MiB",
    };
    format!("memory {class}")
}

/// What an SCP packet came to, with the command's name and the response's code.
pub fn reply_kind(numbers: &Outcome, packet: &[u8], output: &[u8]) -> String {
    match numbers[at::EVENT] {
        event::REFUSED => refused(numbers[at::REFUSAL]),
        event::SILENT => "no response".to_string(),
        event::RESPONSE => {
            let command = match le16(packet, 0) {
                scp::VER => "VER",
                scp::RUN => "RUN",
                scp::READ => "READ",
                scp::WRITE => "WRITE",
                scp::APLX => "APLX",
                _ => "other",
            };
            let code = match le16(output, 0) {
                scp::OK => "OK",
                scp::LEN => "LEN",
                scp::CMD => "CMD",
                scp::ARG => "ARG",
                _ => "?",
            };
            format!("response {command} {code}")
        }
        event::START => format!("run by RUN {}", entry(numbers)),
        event::RUN => format!("run by APLX {}", entry(numbers)),
        other => format!("event {other}"),
    }
}

/// Whether an identity has bits that do not count.
pub fn identity_kind(identity: &Numbers) -> &'static str {
    let [point_to_point, physical, virtual_cpu, version, _] = *identity;
    if point_to_point > 0xffff || physical > 0xff || virtual_cpu > 0xff || version > 0xffff {
        "identity over its fields"
    } else {
        "identity in its fields"
    }
}

/// The rights of a region that is added.
pub fn rights_kind(number: u32, rights: u32) -> String {
    let class = if rights > 7 { "rights over 7" } else { "rights to 7" };
    format!("{class}, {}", number_kind(u64::from(number)))
}

/// Why a table is no sound map, or that it is one.
pub fn table_kind(number: u32, table: &[u8]) -> &'static str {
    let unknown = |mut regions: std::ops::Range<usize>| {
        table.len() == TABLE && regions.any(|index| le32(table, 16 + 16 * index) > 7)
    };
    let count = if table.len() == TABLE { le32(table, 0).min(8) as usize } else { 0 };
    match number {
        0 if unknown(count..8) => "sound, rights over 7 unused",
        0 => "sound",
        _ if table.len() != TABLE => "another length",
        _ if le32(table, 0) > 8 => "over 8 regions",
        _ if unknown(0..count) => "rights over 7 in use",
        _ if map_of(table).is_some_and(|map| map.lawful()) => "ends past memory",
        _ => "another rule",
    }
}

/// The call of a flood-fill message.
pub fn call_of(message: Message) -> &'static str {
    match message {
        Message::Start { .. } => "flood_fill_start",
        Message::BlockStart { .. } => "flood_fill_block_start",
        Message::BlockData { .. } => "flood_fill_block_data",
        Message::BlockEnd { .. } => "flood_fill_block_end",
    }
}

/// What a flood-fill message came to.
pub fn flood_kind(numbers: &Outcome) -> String {
    match numbers[at::EVENT] {
        event::REFUSED => refused(numbers[at::REFUSAL]),
        event::ACCEPTED => "accepted".to_string(),
        event::IGNORED => "ignored".to_string(),
        event::MISSING => "missing".to_string(),
        event::DONE => "done".to_string(),
        other => format!("event {other}"),
    }
}

/// The receiver from which a series begins.
pub fn receiver_kind(bytes: &ReceiverBytes) -> String {
    let empty = bytes.iter().all(|byte| *byte == 0);
    if empty { "from the empty receiver" } else { "from any receiver" }.to_string()
}

/// What is special in a block that was completed: the receiver before its end, and the length of the image.
pub fn block_kind(receiver: &Receiver, image: usize, numbers: &Outcome) -> Option<&'static str> {
    let [open, full, size] = [receiver.open, receiver.full, receiver.size].map(usize::from);
    match numbers[at::EVENT] {
        event::DONE if 4 * open * full + 4 * size.min(256) > image => Some("done, does not fit"),
        event::DONE if open > 255 => Some("done, block over 255"),
        event::DONE if size > 256 => Some("done, over 256 words"),
        event::DONE if size == 256 => Some("done, 256 words"),
        event::DONE if open == 255 => Some("done, block 255"),
        event::DONE if size < full => Some("done, a shorter block"),
        _ => None,
    }
}

/// What reading an image back came to; the 65th entry by itself too.
pub fn read_kinds(numbers: &Outcome) -> Vec<String> {
    let kind = number_kind(numbers[at::REFUSAL]);
    let last = numbers[at::REFUSAL] != 10 && numbers[at::PLACE] == 64;
    let of_last = last.then(|| format!("{kind}, entry 64"));
    [kind].into_iter().chain(of_last).collect()
}

/// What is special in the pieces of an image that was read back.
pub fn read_back_kinds(pieces: &[Piece]) -> Vec<&'static str> {
    let puts: Vec<(usize, usize, usize)> = pieces
        .iter()
        .enumerate()
        .filter_map(|(index, piece)| match piece {
            Piece::Put { data, .. } => Some((index, data.start, data.len())),
            _ => None,
        })
        .collect();
    let meet = |k: usize| {
        let (_, start, length) = puts[k];
        puts[..k].iter().any(|put| share(start as u64, length as u64, put.1 as u64, put.2 as u64))
    };
    let equal = |k: usize| puts[..k].iter().any(|put| put.1 == puts[k].1);
    let longest = |piece: &Piece| piece.length() == 65_536;
    [
        (pieces.is_empty(), "no pieces"),
        (pieces.len() == 64, "64 pieces"),
        (!pieces.is_empty() && puts.is_empty(), "no puts"),
        ((0..puts.len()).any(equal), "shared data"),
        ((0..puts.len()).any(|k| meet(k) && !equal(k)), "overlapping data"),
        (puts.windows(2).any(|pair| pair[1].1 < pair[0].1), "data in another order"),
        (puts.iter().any(|put| put.1 < 16 * put.0), "backward offset"),
        (puts.iter().any(|put| put.1 < 16 * (pieces.len() + 1)), "data over entries"),
        (pieces.iter().any(|piece| longest(piece) && piece.put_length() > 0), "a put of 65536 bytes"),
        (pieces.iter().any(|piece| longest(piece) && piece.put_length() == 0), "a fill of 65536 bytes"),
    ]
    .into_iter()
    .filter_map(|(holds, kind)| holds.then_some(kind))
    .collect()
}

/// What reading or packing a plan, or adding a region, came to.
pub fn number_kind(number: u64) -> String {
    match number {
        0 => "accepted".to_string(),
        _ => refused(number),
    }
}

fn refused(number: u64) -> String {
    format!("refused {number:>2}")
}

/// Everything that can occur in a call.
pub fn required() -> Vec<(&'static str, String)> {
    let mut all: Vec<(&'static str, String)> =
        difference_kinds::required().into_iter().map(|what| ("compare", what)).collect();
    all.extend(check_kinds::required().into_iter().map(|what| ("aplx_check", what)));
    all.extend(share_kinds::required().into_iter().map(|what| ("pack_aplx_shared", what)));
    let mut numbers = |call, list: &[u64]| {
        all.extend(list.iter().map(|number| (call, number_kind(*number))));
    };
    numbers("map_add", &[0, 1]);
    numbers("map_sound", &[0, 1]);
    numbers("srom_load", &[1, 2, 3, 4, 9, 13]);
    numbers("aplx_load", &[1, 3, 4, 5, 6, 7, 8, 9]);
    numbers("scp_answer", &[1, 10]);
    numbers("plan_read 0", &[0, 2, 3, 5, 9, 11, 12]);
    numbers("plan_read 1", &[0, 2, 3, 5, 9, 11, 12]);
    numbers("plan_read +", &[0, 2, 3, 5, 9, 11]);
    numbers("pack_srom", &[0, 2, 3, 5, 9, 10, 11, 12]);
    numbers("pack_aplx", &[0, 2, 3, 5, 9, 10, 11, 12]);
    numbers("aplx_read", &[0, 2, 3, 5, 9, 10, 20, 21, 22, 23]);
    numbers("flood_fill_start", &[0, 24, 25]);
    numbers("flood_fill_block_start", &[0, 24, 26, 27, 28]);
    numbers("flood_fill_block_data", &[0, 24]);
    numbers("flood_fill_block_end", &[24, 29]);
    numbers("series SROM", &[4, 9]);
    numbers("series APLX", &[4, 9]);
    numbers("series shared", &[4, 9]);
    numbers("series old image", &[4, 9]);
    numbers("series packed again", &[4, 9]);
    let mut words = |call, list: &[&str]| {
        all.extend(list.iter().map(|what| (call, what.to_string())));
    };
    words("map_add", &["rights over 7, refused  1", "rights to 7, accepted", "rights to 7, refused  1"]);
    words("map_sound", &["sound", "sound, rights over 7 unused", "another length", "over 8 regions"]);
    words("map_sound", &["rights over 7 in use", "ends past memory", "another rule"]);
    words("scp_answer", &["identity in its fields", "identity over its fields"]);
    words("srom_load", &["stop end", "stop run ARM", "stop run Thumb"]);
    words("aplx_load", &["stop end", "stop unknown", "stop run ARM", "stop run Thumb"]);
    for taken in ["taken 0", "taken 1", "taken 2 or more"] {
        words("srom_load", &[taken]);
        words("aplx_load", &[taken]);
    }
    words("aplx_load", &["taken 255"]);
    for memory in [0, 601, 65_536, 1_048_576] {
        words("srom_load", &[&memory_kind(memory)]);
        words("aplx_load", &[&memory_kind(memory)]);
        words("scp_answer", &[&memory_kind(memory)]);
    }
    words("series SROM", &["stop end", "stop run ARM", "stop run Thumb"]);
    words("series APLX", &["stop end", "stop run ARM", "stop run Thumb"]);
    words("series shared", &["something shared", "nothing shared", "stop end", "stop run ARM", "stop run Thumb"]);
    words("series old image", &["stop end", "stop run ARM", "stop run Thumb"]);
    words("series packed again", &["stop end", "stop run ARM", "stop run Thumb"]);
    words("series supplied", &["stop end", "stop run", "not permitted"]);
    words("aplx_read", &["no pieces", "64 pieces", "no puts", "packed to the same bytes"]);
    words("aplx_read", &["shared data", "overlapping data", "data in another order"]);
    words("aplx_read", &["backward offset", "data over entries"]);
    words("aplx_read", &["a put of 65536 bytes", "a fill of 65536 bytes"]);
    words("aplx_read", &["refused  2, entry 64", "refused 20, entry 64", "refused 21, entry 64"]);
    words("flood_fill_block_start", &["ignored"]);
    words("flood_fill_block_data", &["ignored"]);
    words("flood_fill_block_end", &["missing", "done"]);
    words("flood_fill", &["from the empty receiver", "from any receiver", "image whole"]);
    words("flood_fill", &["done, 256 words", "done, block 255", "done, a shorter block"]);
    words("flood_fill", &["done, does not fit", "done, block over 255", "done, over 256 words"]);
    words("scp_answer", &["no response", "run by RUN ARM", "run by RUN Thumb"]);
    words("scp_answer", &["run by APLX ARM", "run by APLX Thumb"]);
    for reply in [
        "VER OK", "VER LEN", "RUN LEN", "RUN ARG", "READ OK", "READ LEN", "READ ARG", "WRITE OK",
        "WRITE LEN", "WRITE ARG", "APLX OK", "APLX LEN", "APLX ARG", "other CMD", "other LEN",
    ] {
        words("scp_answer", &[&format!("response {reply}")]);
    }
    all
}
