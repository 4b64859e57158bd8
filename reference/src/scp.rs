//! The SCP answerer (paper 01, "SCP"; AppNote 5).

use crate::aplx;
use crate::bytes::{le16, le32};
use crate::map::{Map, Right};
use crate::outcome::{refuse, Entry, Refusal, Stop};

pub const VER: u16 = 0;
pub const RUN: u16 = 1;
pub const READ: u16 = 2;
pub const WRITE: u16 = 3;
pub const APLX: u16 = 4;

pub const OK: u16 = 0x80;
pub const LEN: u16 = 0x81;
pub const CMD: u16 = 0x83;
pub const ARG: u16 = 0x84;

/// A longest packet, and the room that a response may need.
pub const LARGEST: usize = 272;
pub const MOST_DATA: u32 = 256;
const NAME: &[u8; 15] = b"SARK/SpiNNaker\0";

#[derive(Clone, Copy, Debug, PartialEq, Eq)]
pub struct Identity {
    pub point_to_point: u16,
    pub physical: u8,
    pub virtual_cpu: u8,
    pub version: u16,
    pub date: u32,
}

#[derive(Clone, Copy, Debug, PartialEq, Eq)]
pub enum Reply {
    /// No response is owed, and nothing was done.
    Silence,
    /// A response of so many bytes at the output's front.
    Response(usize),
    /// RUN: a run to start.
    Run { entry: Entry, address: u32 },
    /// An APLX load that stopped at a run.
    LoadedRun { entry: Entry, address: u32, resume: u64 },
}

pub fn answer(
    map: &Map,
    memory: &mut [u8],
    identity: Identity,
    packet: &[u8],
    output: &mut [u8],
) -> Result<Reply, Refusal> {
    if output.len() < LARGEST {
        return refuse(10, 0);
    }
    if !map.sound(memory.len()) {
        return refuse(1, 0);
    }
    if packet.len() < 4 {
        return Ok(Reply::Silence);
    }
    let sequence = [packet[2], packet[3]];
    match act(map, memory, identity, packet) {
        Done::Respond { code, body } => {
            output[..2].copy_from_slice(&code.to_le_bytes());
            output[2..4].copy_from_slice(&sequence);
            output[4..4 + body.len()].copy_from_slice(&body);
            Ok(Reply::Response(4 + body.len()))
        }
        Done::Start(reply) => Ok(reply),
    }
}

/// What a packet of at least 4 bytes comes to.
enum Done {
    Respond { code: u16, body: Vec<u8> },
    Start(Reply),
}

fn plain(code: u16) -> Done {
    Done::Respond { code, body: Vec::new() }
}

fn act(map: &Map, memory: &mut [u8], identity: Identity, packet: &[u8]) -> Done {
    if packet.len() > LARGEST {
        return plain(LEN);
    }
    let command = le16(packet, 0);
    let needed = match command {
        VER => 4,
        RUN | APLX => 8,
        READ | WRITE => 16,
        _ => return plain(CMD),
    };
    if packet.len() < needed {
        return plain(LEN);
    }
    match command {
        VER => version(identity),
        RUN => {
            let address = le32(packet, 4);
            match map.run_entry(address) {
                Some(entry) => Done::Start(Reply::Run { entry, address }),
                None => plain(ARG),
            }
        }
        APLX => match aplx::load(map, memory, le32(packet, 4)) {
            Err(_) => plain(ARG),
            Ok(loaded) => match loaded.stop {
                Stop::Run { entry, address, resume } => {
                    Done::Start(Reply::LoadedRun { entry, address, resume })
                }
                Stop::End { .. } | Stop::Unknown { .. } => plain(OK),
            },
        },
        _ => transfer(map, memory, packet, command == WRITE),
    }
}

fn version(identity: Identity) -> Done {
    let mut body = vec![identity.virtual_cpu, identity.physical];
    body.extend(identity.point_to_point.to_le_bytes());
    body.extend((MOST_DATA as u16).to_le_bytes());
    body.extend(identity.version.to_le_bytes());
    body.extend(identity.date.to_le_bytes());
    body.extend(NAME);
    Done::Respond { code: OK, body }
}

/// READ and WRITE of a packet of at least 16 bytes.
fn transfer(map: &Map, memory: &mut [u8], packet: &[u8], write: bool) -> Done {
    let [address, length, kind] = [4, 8, 12].map(|at| le32(packet, at));
    if length > MOST_DATA || kind > 2 {
        return plain(ARG);
    }
    if write && packet.len() != 16 + length as usize {
        return plain(LEN);
    }
    let unit = 1 << kind;
    if address % unit != 0 || length % unit != 0 {
        return plain(ARG);
    }
    if length == 0 {
        return plain(OK);
    }
    let right = if write { Right::Write } else { Right::Read };
    let Some(place) = map.lookup(right, u64::from(address), u64::from(length)) else {
        return plain(ARG);
    };
    let range = place..place + length as usize;
    if write {
        memory[range].copy_from_slice(&packet[16..]);
        plain(OK)
    } else {
        Done::Respond { code: OK, body: memory[range].to_vec() }
    }
}
