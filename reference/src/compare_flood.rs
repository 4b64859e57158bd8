//! A series of flood-fill messages given to a library and to the reference, each of which hands its receiver and its
//! image on from message to message. After every message all numbers and all bytes must be the same.

use crate::flood_fill::Message;
use crate::generate::{Flood, Sent, Whole};
use crate::guarded::{shown, Guarded, Numbers};
use crate::interface::{Library, Outcome, Reference};
use crate::random::Random;
use crate::receiver::{receiver_of, ReceiverBytes};
use crate::tally::{block_kind, call_of, flood_kind, receiver_kind, Tally};

/// Makes the call of a message.
pub fn call(
    library: &dyn Library,
    receiver: &mut ReceiverBytes,
    image: &mut [u8],
    message: Message,
    outcome: &mut Outcome,
) -> u32 {
    match message {
        Message::Start { last_block, block_size } => {
            library.flood_fill_start(receiver, image, last_block, block_size, outcome)
        }
        Message::BlockStart { block, size } => {
            library.flood_fill_block_start(receiver, image, block, size, outcome)
        }
        Message::BlockData { block, word_id, word } => {
            library.flood_fill_block_data(receiver, image, block, word_id, word, outcome)
        }
        Message::BlockEnd { block } => library.flood_fill_block_end(receiver, image, block, outcome),
    }
}

pub fn compare_flood(
    flood: &Flood,
    library: &dyn Library,
    random: &mut Random,
    tally: &mut Tally,
) -> Result<u64, String> {
    let mut receiver = Guarded::new(&flood.receiver[..], random);
    let mut image = Guarded::new(&flood.image, random);
    let mut own = *flood.receiver;
    let mut own_image = flood.image.clone();
    let mut at_start = Vec::new();
    tally.count("flood_fill", receiver_kind(&own));
    for (index, Sent { message, lent }) in flood.sent.iter().copied().enumerate() {
        if flood.whole.as_ref().is_some_and(|whole| whole.start == index) {
            at_start = own_image.clone();
        }
        let before = receiver_of(&own);
        let (mut numbers, mut expected) = (Numbers::new(), [0; 8]);
        let bytes = receiver.lent().try_into().expect("the bytes of a receiver");
        let number = call(library, bytes, &mut image.lent()[..lent], message, numbers.lent());
        call(&Reference, &mut own, &mut own_image[..lent], message, &mut expected);
        numbers
            .check(number, &expected)
            .and_then(|()| receiver.check("the receiver", &own))
            .and_then(|()| image.check("the image", &own_image))
            .map_err(|text| format!("message {index}, {message:?} with {lent} bytes of the image: {text}"))?;
        tally.count(call_of(message), flood_kind(&expected));
        if let Some(kind) = block_kind(&before, lent, &expected) {
            tally.count("flood_fill", kind.to_string());
        }
    }
    if let Some(whole) = &flood.whole {
        check_whole(whole, &at_start, image.read())?;
        tally.count("flood_fill", "image whole".to_string());
    }
    Ok(flood.sent.len() as u64)
}

/// An error where the image is not whole in front, or a byte behind it is not as the image's Start found it.
fn check_whole(whole: &Whole, at_start: &[u8], image: &[u8]) -> Result<(), String> {
    let (front, rest) = image.split_at(whole.bytes.len());
    if front != whole.bytes {
        return Err(format!("the image is not whole\n  has  {}\n  sent {}", shown(front), shown(&whole.bytes)));
    }
    if rest != &at_start[front.len()..] {
        return Err(format!(
            "bytes behind the image were changed\n  has {}\n  had {}",
            shown(rest),
            shown(&at_start[front.len()..])
        ));
    }
    Ok(())
}

/// A series as text.
pub fn describe_flood(flood: &Flood) -> String {
    let mut text =
        format!("flood_fill\n  receiver {}\n  image {}\n", shown(&flood.receiver[..]), shown(&flood.image));
    for (index, Sent { message, lent }) in flood.sent.iter().enumerate() {
        text.push_str(&format!("  {index}: {message:x?} with {lent} bytes of the image\n"));
    }
    text
}
