//! What checking another firm's image came to, and what is special in the image; all of it must occur.

use crate::aplx::{END, ENTRY, EXEC, FILL, RCOPY};
use crate::bytes::share;
use crate::check::{end_entry, entry, NOT_DUE};
use crate::generate::{FAULTS, OTHERS};
use crate::interface::{at, event, Outcome};
use crate::plan::{self, Piece, LONGEST_PIECE, MOST_PIECES, NO_UNIT};
use crate::tally::number_kind;

/// The numbers of a plan.
const OF_A_PLAN: [u64; 5] = [2, 3, 5, 9, 11];

/// What else must occur.
const WORDS: [&str; 24] = [
    "accepted",
    "refused plan, no end word too",
    "refused 30, no end word",
    "refused 30, no end word in 256",
    "refused 30, no whole entry",
    "refused 30, an entry",
    "refused 30, the end entry",
    "refused 30, the first entry",
    "refused 30, entry 255",
    "no pieces",
    "64 pieces",
    "256 entries",
    "a put in parts",
    "a fill in parts",
    "shared data",
    "overlapping data",
    "data in another order",
    "a gap before the data",
    "bytes behind the data",
    "unused words",
    "an end word behind the end",
    "a part to past the last address",
    "a put of 65536 bytes",
    "a fill of 65536 bytes",
];

pub fn required() -> Vec<String> {
    let numbers = OF_A_PLAN.iter().map(|number| number_kind(*number));
    let made = FAULTS.iter().map(|(name, _)| *name).chain(OTHERS).map(made_kind);
    numbers.chain(made).chain(WORDS.iter().map(|word| word.to_string())).collect()
}

/// How an image was made.
pub fn made_kind(made: &str) -> String {
    format!("made: {made}")
}

/// The words that hold.
fn those(words: &[(bool, &'static str)]) -> Vec<String> {
    words.iter().filter_map(|(holds, word)| holds.then(|| word.to_string())).collect()
}

/// What checking came to.
pub fn kinds(numbers: &Outcome, plan: &[u8], image: &[u8]) -> Vec<String> {
    let (number, place) = (numbers[at::REFUSAL], numbers[at::PLACE]);
    match (number, end_entry(image)) {
        (0, Ok(end)) if numbers[at::EVENT] == event::CHECKED => accepted(plan, image, end),
        (_, Err(_)) if number == u64::from(NOT_DUE) => those(&[
            (true, "refused 30, no end word"),
            (place == 256, "refused 30, no end word in 256"),
            (place == 0, "refused 30, no whole entry"),
        ]),
        (_, Ok(end)) if number == u64::from(NOT_DUE) => those(&[
            (place != end, "refused 30, an entry"),
            (place == end, "refused 30, the end entry"),
            (place == 0, "refused 30, the first entry"),
            (place == 255, "refused 30, entry 255"),
        ]),
        (_, end) => {
            let mut kinds = vec![number_kind(number)];
            kinds.extend(those(&[(end.is_err(), "refused plan, no end word too")]));
            kinds
        }
    }
}

/// What is special in an image that was accepted.
fn accepted(plan: &[u8], image: &[u8], end: u64) -> Vec<String> {
    let pieces = plan::read(plan, NO_UNIT).unwrap_or_default();
    let entries: Vec<[u32; 4]> = (0..=end).map(|index| entry(image, index)).collect();
    let count = |command| entries.iter().filter(|words| words[0] == command).count();
    let puts = pieces.iter().filter(|piece| piece.put_length() > 0).count();
    let runs = pieces.iter().filter(|piece| piece.is_run()).count();
    let data: Vec<(u64, u64)> = entries
        .iter()
        .enumerate()
        .filter(|(_, words)| words[0] == RCOPY)
        .map(|(index, words)| (ENTRY * index as u64 + u64::from(words[2]), u64::from(words[3])))
        .collect();
    let meet = |k: usize, equal: bool| {
        data[..k].iter().any(|other| share(data[k].0, data[k].1, other.0, other.1) && (data[k].0 == other.0) == equal)
    };
    let first = data.iter().map(|data| data.0).min();
    let last = data.iter().map(|data| data.0 + data.1).max();
    let past = |words: &[u32; 4]| {
        let length = if words[0] == FILL { words[2] } else { words[3] };
        matches!(words[0], RCOPY | FILL) && u64::from(words[1]) + u64::from(length) > 1 << 32
    };
    let part_of = |words: &[u32; 4]| pieces.iter().all(|piece| piece.address() != words[1]);
    let longest = |piece: &Piece| piece.length() == u64::from(LONGEST_PIECE);
    let behind = &image[(ENTRY * (end + 1)) as usize..];
    those(&[
        (true, "accepted"),
        (pieces.is_empty(), "no pieces"),
        (pieces.len() == MOST_PIECES as usize, "64 pieces"),
        (end == 255, "256 entries"),
        (count(RCOPY) > puts, "a put in parts"),
        (count(FILL) > pieces.len() - puts - runs, "a fill in parts"),
        ((0..data.len()).any(|k| meet(k, true)), "shared data"),
        ((0..data.len()).any(|k| meet(k, false)), "overlapping data"),
        (data.windows(2).any(|pair| pair[1].0 < pair[0].0), "data in another order"),
        (first.is_some_and(|first| first > ENTRY * (end + 1)), "a gap before the data"),
        (last.is_some_and(|last| last < image.len() as u64), "bytes behind the data"),
        (entries.iter().any(|words| matches!(words[0], EXEC | END) && words[2..] != [0, 0]), "unused words"),
        (behind.chunks_exact(16).any(|words| words[..4] == [0xff; 4]), "an end word behind the end"),
        (entries.iter().any(|words| past(words) && part_of(words)), "a part to past the last address"),
        (pieces.iter().any(|piece| longest(piece) && piece.put_length() > 0), "a put of 65536 bytes"),
        (pieces.iter().any(|piece| longest(piece) && piece.put_length() == 0), "a fill of 65536 bytes"),
    ])
}
