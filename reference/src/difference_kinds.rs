//! What comparing two plans came to, and what is special in the plans; all of it must occur.

use crate::bytes::{le32, share};
use crate::interface::{event, Outcome};
use crate::plan::{self, Piece, HEADER, LONGEST_PIECE, MOST_PIECES, NO_UNIT, PIECE};
use crate::plan_difference::{
    differences, end, left, pieces, Left, Stretch, ADDRESSES, MOST_STRETCHES, NEEDED, NOT_STORED,
};

/// The refusals that name a plan.
const OF_A_PLAN: [u64; 6] = [2, 3, 5, 9, 11, 19];

/// What else must occur.
const WORDS: [&str; 39] = [
    "refused 10",
    "refused 10, 8191 bytes",
    "refused 10, a plan too",
    "refused 18",
    "refused 18, 513 stretches",
    "refused 18, over 10000",
    "refused old, new too",
    "refused  2, past the end too",
    "refused  3, past the end too",
    "refused 19, a later one too",
    "refused behind the run",
    "refused 19 behind the run",
    "output of 8192 bytes",
    "output of more bytes",
    "same run, no stretch",
    "same run, stretches",
    "other run, no stretch",
    "other run, stretches",
    "both run one address",
    "neither runs",
    "only old runs",
    "only new runs",
    "runs differ in bit 0",
    "511 stretches",
    "512 stretches",
    "begins, old not stored",
    "begins, new not stored",
    "begins with two bytes",
    "ends at the last address",
    "on both sides of 2^31",
    "a stretch of two kinds",
    "no stretch, other pieces",
    "a piece over an earlier one",
    "a piece behind the run",
    "a piece to the last address",
    "a length of no whole words",
    "64 pieces",
    "a piece of 65536 bytes",
    "with its image read back",
];

pub fn required() -> Vec<String> {
    let sides = OF_A_PLAN.iter().flat_map(|number| [refused(*number, 1), refused(*number, 2)]);
    sides.chain(WORDS.iter().map(|word| word.to_string())).collect()
}

/// A refusal that names a plan.
fn refused(number: u64, side: u64) -> String {
    format!("refused {number:>2}, {}", if side == 1 { "old" } else { "new" })
}

/// The words that hold.
fn those(words: &[(bool, &'static str)]) -> Vec<String> {
    words.iter().filter_map(|(holds, word)| holds.then(|| word.to_string())).collect()
}

/// What comparing came to, with an output of so many bytes.
pub fn kinds(numbers: &Outcome, old: &[u8], new: &[u8], output: usize) -> Vec<String> {
    let [number, place, event, side, ..] = *numbers;
    match (number, left(old), left(new)) {
        (0, Ok(before), Ok(after)) => {
            let mut kinds = accepted(event, &before, &after, output);
            kinds.extend(of_runs(before.run, after.run));
            let of_both = [pieces(old).unwrap_or_default(), pieces(new).unwrap_or_default()];
            let other = differences(&before, &after).is_empty() && shape(&of_both[0]) != shape(&of_both[1]);
            kinds.extend(those(&[(other, "no stretch, other pieces")]));
            kinds.extend(of_both.iter().flat_map(|pieces| of_pieces(pieces)));
            kinds
        }
        (10, before, after) => those(&[
            (true, "refused 10"),
            (output == NEEDED - 1, "refused 10, 8191 bytes"),
            (before.is_err() || after.is_err(), "refused 10, a plan too"),
        ]),
        (18, Ok(before), Ok(after)) => {
            let count = differences(&before, &after).len();
            those(&[
                (true, "refused 18"),
                (count == MOST_STRETCHES + 1, "refused 18, 513 stretches"),
                (count > 10_000, "refused 18, over 10000"),
            ])
        }
        (_, _, after) => {
            let mut kinds = vec![refused(number, side)];
            kinds.extend(those(&[(side == 1 && after.is_err(), "refused old, new too")]));
            kinds.extend(of_a_piece(number, place as usize, if side == 1 { old } else { new }));
            kinds
        }
    }
}

fn accepted(event: u64, before: &Left, after: &Left, output: usize) -> Vec<String> {
    let stretches = differences(before, after);
    let (same, some) = (event == event::SAME_RUN, !stretches.is_empty());
    let any = |holds: fn(&Stretch) -> bool| stretches.iter().any(holds);
    let low = stretches.first().is_some_and(|stretch| stretch.first < 1 << 31);
    let high = stretches.last().is_some_and(|stretch| stretch.last >= 1 << 31);
    // Which of the plans store an address; the first addresses of a stretch are enough to see both kinds.
    let stored = |address| [before, after].map(|left| left.at(address) < NOT_STORED);
    let two_kinds = |stretch: &Stretch| {
        let last = stretch.last.min(stretch.first.saturating_add(1_000));
        (stretch.first..=last).any(|address| stored(address) != stored(stretch.first))
    };
    those(&[
        (output == NEEDED, "output of 8192 bytes"),
        (output > NEEDED, "output of more bytes"),
        (same && !some, "same run, no stretch"),
        (same && some, "same run, stretches"),
        (!same && !some, "other run, no stretch"),
        (!same && some, "other run, stretches"),
        (stretches.len() == MOST_STRETCHES - 1, "511 stretches"),
        (stretches.len() == MOST_STRETCHES, "512 stretches"),
        (any(|stretch| stretch.old == NOT_STORED), "begins, old not stored"),
        (any(|stretch| stretch.new == NOT_STORED), "begins, new not stored"),
        (any(|stretch| stretch.old < NOT_STORED && stretch.new < NOT_STORED), "begins with two bytes"),
        (any(|stretch| stretch.last == u32::MAX), "ends at the last address"),
        (low && high, "on both sides of 2^31"),
        (stretches.iter().any(two_kinds), "a stretch of two kinds"),
    ])
}

fn of_runs(old: Option<u32>, new: Option<u32>) -> Vec<String> {
    those(&[
        (old.is_some() && old == new, "both run one address"),
        (old.is_none() && new.is_none(), "neither runs"),
        (old.is_some() && new.is_none(), "only old runs"),
        (old.is_none() && new.is_some(), "only new runs"),
        (old != new && old.map(|run| run | 1) == new.map(|run| run | 1), "runs differ in bit 0"),
    ])
}

/// Addresses and lengths.
fn shape(pieces: &[Piece]) -> Vec<(u32, u64, bool)> {
    pieces.iter().map(|piece| (piece.address(), piece.length(), piece.put_length() > 0)).collect()
}

fn of_pieces(pieces: &[Piece]) -> Vec<String> {
    let stretch = &pieces[plan::stretch(pieces, 0)];
    let range = |piece: &Piece| (u64::from(piece.address()), piece.length());
    let over = |k: usize| {
        let (start, length) = range(&stretch[k]);
        stretch[..k].iter().map(range).any(|(other, other_length)| share(start, length, other, other_length))
    };
    let behind = &pieces[stretch.len()..];
    those(&[
        ((0..stretch.len()).any(over), "a piece over an earlier one"),
        (behind.iter().any(|piece| !piece.is_run()), "a piece behind the run"),
        (stretch.iter().any(|piece| end(piece) == ADDRESSES), "a piece to the last address"),
        (stretch.iter().any(|piece| piece.length() % 4 != 0), "a length of no whole words"),
        (pieces.len() == MOST_PIECES as usize, "64 pieces"),
        (stretch.iter().any(|piece| piece.length() == u64::from(LONGEST_PIECE)), "a piece of 65536 bytes"),
    ])
}

/// What else is wrong where a plan is refused, and whether a run stands before the piece.
fn of_a_piece(number: u64, place: usize, plan: &[u8]) -> Vec<String> {
    if plan.len() < HEADER {
        return Vec::new();
    }
    let table = plan.get(le32(plan, 4) as usize..).unwrap_or_default();
    let words: Vec<[u32; 3]> =
        table.chunks_exact(PIECE as usize).map(|piece| [0, 4, 8].map(|k| le32(piece, k))).collect();
    let past = words.get(place).is_some_and(|[_, address, length]| {
        u64::from(*address) + u64::from(*length) > ADDRESSES
    });
    let behind = words.iter().take(place).any(|[kind, ..]| *kind == 3);
    those(&[
        // Place 0 may be that of the header.
        (number == 2 && place > 0 && past, "refused  2, past the end too"),
        (number == 3 && past, "refused  3, past the end too"),
        (number == 19 && plan::read(plan, NO_UNIT).is_err(), "refused 19, a later one too"),
        (number < 19 && behind, "refused behind the run"),
        (number == 19 && behind, "refused 19 behind the run"),
    ])
}
