//! What packing a plan with equal data kept once came to, and what is special in the plan; all of it must occur.

use std::collections::BTreeSet;
use std::ops::Range;

use crate::bytes::share;
use crate::interface::{at, Outcome};
use crate::pack::aplx_length;
use crate::plan::{self, Piece, APLX_UNIT, LONGEST_PIECE, MOST_PIECES};
use crate::tally::number_kind;

const NUMBERS: [u64; 8] = [0, 2, 3, 5, 9, 10, 11, 12];

/// What else must occur.
const WORDS: [&str; 36] = [
    "refused plan, no room too",
    "refused 10, no room",
    "refused 10, a byte too small",
    "refused 10, something shared",
    "room of just the length",
    "more room",
    "room between the two lengths",
    "no pieces",
    "64 pieces",
    "no puts",
    "nothing shared",
    "one shared",
    "several shared",
    "all puts equal",
    "over 16 contents, one shared",
    "three equal puts",
    "16 equal puts",
    "a piece twice",
    "shared, not with the first put",
    "shared over another put",
    "shared over a fill",
    "shared over a run",
    "equal, the same plan bytes",
    "equal, two places in the plan",
    "equal, overlapping in the plan",
    "other bytes, overlapping in the plan",
    "equal lengths, other bytes",
    "another first byte",
    "another last byte",
    "another byte between",
    "the same bytes in another order",
    "the front of another put",
    "the end of another put",
    "a put with a fill's bytes",
    "65536 bytes shared",
    "64 equal puts of 65536 bytes",
];

pub fn required() -> Vec<String> {
    let numbers = NUMBERS.iter().map(|number| number_kind(*number));
    numbers.chain(WORDS.iter().map(|word| word.to_string())).collect()
}

/// A put: its index, where its bytes stand in the plan, and the bytes.
struct Put<'a> {
    index: usize,
    range: Range<usize>,
    bytes: &'a [u8],
}

fn puts<'a>(plan: &'a [u8], pieces: &[Piece]) -> Vec<Put<'a>> {
    let put = |(index, piece): (usize, &Piece)| match piece {
        Piece::Put { data, .. } => Some(Put { index, range: data.clone(), bytes: &plan[data.clone()] }),
        _ => None,
    };
    pieces.iter().enumerate().filter_map(put).collect()
}

/// Whether two puts of the pieces have equal bytes.
pub fn any_equal(plan: &[u8], pieces: &[Piece]) -> bool {
    let puts = puts(plan, pieces);
    puts.iter().enumerate().any(|(k, put)| puts[..k].iter().any(|earlier| earlier.bytes == put.bytes))
}

/// The request's sum: 16 x (count + 1), and the lengths of the different put contents.
pub fn sum(plan: &[u8], pieces: &[Piece]) -> u64 {
    let contents: BTreeSet<&[u8]> = puts(plan, pieces).iter().map(|put| put.bytes).collect();
    16 * (pieces.len() as u64 + 1) + contents.iter().map(|content| content.len() as u64).sum::<u64>()
}

/// What packing with so much room came to, each word once.
pub fn kinds(numbers: &Outcome, plan: &[u8], room: usize) -> BTreeSet<String> {
    let number = numbers[at::REFUSAL];
    let mut found = BTreeSet::from([number_kind(number)]);
    let mut note = |holds: bool, word: &str| {
        if holds {
            found.insert(word.to_string());
        }
    };
    let Ok(pieces) = plan::read(plan, APLX_UNIT) else {
        note(room < 16, "refused plan, no room too");
        return found;
    };
    let (room, shared, plain) = (room as u64, sum(plan, &pieces), aplx_length(&pieces));
    if number == 10 {
        note(room == 0, "refused 10, no room");
        note(room + 1 == shared, "refused 10, a byte too small");
        note(shared < plain, "refused 10, something shared");
        return found;
    }
    note(room == shared, "room of just the length");
    note(room > shared, "more room");
    note(shared <= room && room < plain, "room between the two lengths");
    of_pieces(plan, &pieces, &mut note);
    found
}

/// What is special in the pieces of a plan that was packed.
fn of_pieces(plan: &[u8], pieces: &[Piece], note: &mut dyn FnMut(bool, &str)) {
    let puts = puts(plan, pieces);
    let contents: BTreeSet<&[u8]> = puts.iter().map(|put| put.bytes).collect();
    let shared = puts.len() - contents.len();
    note(pieces.is_empty(), "no pieces");
    note(pieces.len() == MOST_PIECES as usize, "64 pieces");
    note(!pieces.is_empty() && puts.is_empty(), "no puts");
    note(puts.len() > 1 && shared == 0, "nothing shared");
    note(shared == 1, "one shared");
    note(shared > 1, "several shared");
    note(shared > 0 && contents.len() == 1, "all puts equal");
    note(contents.len() > 16 && shared > 0, "over 16 contents, one shared");
    note(pieces.windows(2).any(|pair| pair[0] == pair[1] && pair[0].put_length() > 0), "a piece twice");
    for (k, put) in puts.iter().enumerate() {
        let equal: Vec<&Put> = puts[..k].iter().filter(|earlier| earlier.bytes == put.bytes).collect();
        note(equal.len() >= 2, "three equal puts");
        note(equal.len() >= 15, "16 equal puts");
        if let (Some(first), Some(last)) = (equal.first(), equal.last()) {
            let between = &pieces[last.index + 1..put.index];
            note(first.index != puts[0].index, "shared, not with the first put");
            note(between.iter().any(|piece| piece.put_length() > 0), "shared over another put");
            note(between.iter().any(|piece| matches!(piece, Piece::Fill { .. })), "shared over a fill");
            note(between.iter().any(Piece::is_run), "shared over a run");
            let longest = put.bytes.len() == LONGEST_PIECE as usize;
            note(longest, "65536 bytes shared");
            note(longest && equal.len() == 63, "64 equal puts of 65536 bytes");
        }
        for earlier in &puts[..k] {
            of_two(earlier, put, note);
        }
        let filled = |piece: &Piece| matches!(piece, Piece::Fill { length, word, .. }
            if *length as usize == put.bytes.len() && put.bytes.chunks(4).all(|four| four == word.to_le_bytes()));
        note(pieces.iter().any(filled), "a put with a fill's bytes");
    }
}

/// What is special in two puts.
fn of_two(earlier: &Put, put: &Put, note: &mut dyn FnMut(bool, &str)) {
    let [(start, length), (other, other_length)] =
        [earlier, put].map(|put| (put.range.start as u64, put.range.len() as u64));
    let meet = share(start, length, other, other_length);
    if earlier.bytes == put.bytes {
        note(start == other, "equal, the same plan bytes");
        note(!meet, "equal, two places in the plan");
        note(meet && start != other, "equal, overlapping in the plan");
        return;
    }
    note(meet, "other bytes, overlapping in the plan");
    let (short, long) = if length < other_length { (earlier.bytes, put.bytes) } else { (put.bytes, earlier.bytes) };
    if short.len() < long.len() {
        note(long.starts_with(short), "the front of another put");
        note(long.ends_with(short), "the end of another put");
        return;
    }
    note(true, "equal lengths, other bytes");
    let unequal: Vec<usize> = (0..short.len()).filter(|k| short[*k] != long[*k]).take(3).collect();
    let last = short.len() - 1;
    note(unequal == [0], "another first byte");
    note(unequal == [last], "another last byte");
    note(unequal.len() == 1 && unequal[0] > 0 && unequal[0] < last, "another byte between");
    if let [one, two] = unequal[..] {
        note((short[one], short[two]) == (long[two], long[one]), "the same bytes in another order");
    }
}
