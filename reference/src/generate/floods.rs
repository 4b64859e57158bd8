//! Random series of flood-fill messages of an image: valid, lossy, out of order, with repeats, and damaged.

use super::flood_damage::{damage_messages, limits, shorten};
use super::pictures::Picture;
use super::receivers;
use super::Size;
use crate::flood_fill::{Message, Receiver};
use crate::random::Random;
use crate::receiver::{receiver_of, ReceiverBytes, RECEIVER};

/// A series of messages from a receiver on, which is handed on as each call leaves it, and so is the image.
#[derive(Clone, Debug, PartialEq, Eq)]
pub struct Flood {
    pub receiver: Box<ReceiverBytes>,
    pub image: Vec<u8>,
    pub sent: Vec<Sent>,
    pub whole: Option<Whole>,
}

/// A message, and how many bytes of the image's front are lent with it.
#[derive(Clone, Copy, Debug, PartialEq, Eq)]
pub struct Sent {
    pub message: Message,
    pub lent: usize,
}

/// What a series leaves: these bytes at the image's front, and all behind them as the Start at this index found it.
#[derive(Clone, Debug, PartialEq, Eq)]
pub struct Whole {
    pub start: usize,
    pub bytes: Vec<u8>,
}

/// A series whose messages are all lent the whole image.
pub fn lent_whole(receiver: Box<ReceiverBytes>, image: Vec<u8>, messages: &[Message]) -> Flood {
    let lent = image.len();
    let sent = messages.iter().map(|message| Sent { message: *message, lent }).collect();
    Flood { receiver, image, sent, whole: None }
}

pub fn flood(random: &mut Random, size: Size) -> Flood {
    match random.below(20) {
        0..=5 => receivers::flood(random, size),
        6 => limits(random),
        _ => series(random, size),
    }
}

fn series(random: &mut Random, size: Size) -> Flood {
    let picture = Picture::any(random, size);
    let length = picture.declared() + random.pick(&[0, 0, 0, 1, 3, 4, 40]);
    let image = if random.once_in(3) { vec![0x77; length] } else { random.bytes(length) };
    let receiver = match random.below(6) {
        0 => receivers::any(random, size),
        _ => Box::new([0; RECEIVER]),
    };
    let mut messages = Vec::new();
    if random.once_in(6) {
        messages.extend(before(random));
    }
    let start = messages.len();
    messages.push(picture.start());
    for _ in 0..random.pick(if picture.small() { &[0, 0, 1, 1, 2, 3] } else { &[0, 1] }) {
        messages.extend(round(random, &picture));
    }
    if random.once_in(3) {
        messages.extend(last_pass(random, &picture, &receiver, length, &messages));
        damage_messages(random, &picture, &mut messages);
        let mut flood = lent_whole(receiver, image, &messages);
        shorten(random, &picture, &mut flood.sent);
        return flood;
    }
    messages.extend(last_pass(random, &picture, &receiver, length, &messages));
    let mut flood = lent_whole(receiver, image, &messages);
    flood.whole = Some(Whole { start, bytes: picture.bytes() });
    flood
}

/// What came before the image's Start: messages without a Start, or another image's.
fn before(random: &mut Random) -> Vec<Message> {
    let other = Picture::few(random);
    let mut messages = if random.once_in(2) { vec![other.start()] } else { Vec::new() };
    messages.extend(round(random, &other));
    if random.once_in(2) {
        damage_messages(random, &other, &mut messages);
    }
    messages
}

/// One time round the blocks of an image. Messages are lost, come twice, or change places.
fn round(random: &mut Random, picture: &Picture) -> Vec<Message> {
    let (lost, twice) = (random.pick(&[0, 0, 3, 15, 50]), random.pick(&[0, 0, 10, 40]));
    let mut messages = Vec::new();
    for block in picture.order(random) {
        let mut all = picture.block(block);
        if random.once_in(3) {
            let words = all.len() - 1;
            random.shuffle(&mut all[1..words]);
        }
        for message in all {
            if !random.percent(lost) {
                messages.push(message);
            }
            if random.percent(twice) {
                messages.push(message);
            }
        }
    }
    match random.below(8) {
        0 => random.shuffle(&mut messages),
        1 | 2 => {
            // Each message is late by a few.
            for first in 0..messages.len() {
                let last = (first + random.below(4)).min(messages.len() - 1);
                messages[first..=last].rotate_left(1);
            }
        }
        3 => messages.insert(random.below(messages.len() + 1), picture.start()),
        _ => {}
    }
    messages
}

/// A pass over all blocks that are not done: each is started, gets only data of the image with every word of its own,
/// and is ended. What is between two blocks' passes is any of the image's messages but a Start.
fn last_pass(
    random: &mut Random,
    picture: &Picture,
    receiver: &ReceiverBytes,
    length: usize,
    messages: &[Message],
) -> Vec<Message> {
    let mut receiver: Receiver = receiver_of(receiver);
    let mut image = vec![0; length];
    for message in messages {
        let _ = receiver.take(&mut image, *message);
    }
    let also_done = random.once_in(2);
    let strays = random.once_in(2);
    let mut pass = Vec::new();
    for block in picture.order(random) {
        if receiver.is_done(block) && !also_done {
            continue;
        }
        let mut all = picture.block(block);
        let end = all.pop().expect("a Block End");
        let mut data = all.split_off(1);
        if strays {
            for _ in 0..random.below(4) {
                data.push(picture.data(random));
            }
            random.shuffle(&mut data);
        }
        pass.extend(all);
        pass.extend(data);
        pass.push(end);
        if strays && random.once_in(3) {
            pass.push(picture.message(random));
        }
    }
    pass
}
