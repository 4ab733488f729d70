//! Calls and what they give as octets, for a driver of another implementation.
//!
//! `docs/COMPARISON.md` has the format. It names states and modes by number; nothing here leans
//! on the order in which the enumerations are declared.

use std::io::{self, Read};

use crate::call::{Bench, Buffer, Call, Record};
use crate::gateway::State;
use crate::message::{Body, Intervals, Kind, Message};
use crate::neighbour::{Mode, Neighbour, NeighbourState, Seconds};
use crate::update::{Row, MOST_ROWS};

/// Octets of the head of a record and of an answer.
pub const RECORD_HEAD: usize = 32;
pub const ANSWER_HEAD: usize = 16;
/// Octets of a state block: the settings, then eight slots.
pub const STATE_BLOCK: usize = 12 + 8 * 49;
/// Octets of a message's meaning.
pub const MEANING: usize = 24;
/// What reading alone is lent: the meaning, then the numbers of 128 rows.
pub const READING: usize = MEANING + 4 * 3 * MOST_ROWS;

/// The numbers of the kinds of records.
mod kind {
    pub const FRESH: u8 = 0;
    pub const ADD: u8 = 1;
    pub const REMOVE: u8 = 2;
    pub const START: u8 = 3;
    pub const STOP: u8 = 4;
    pub const TICK: u8 = 5;
    pub const MESSAGE: u8 = 6;
    pub const LISTING: u8 = 7;
    pub const READ: u8 = 8;
    pub const WRITE: u8 = 9;
    pub const HAND_STATE: u8 = 10;
    pub const HAND_TABLE: u8 = 11;
}

/// The plain arguments of a record; what a call has not is 0.
#[derive(Default)]
struct Head {
    kind: u8,
    /// The capability, or the octet that fills the buffer.
    octet: u8,
    as_number: u16,
    address: u32,
    net: u32,
    /// Octets lent as the buffer.
    room: usize,
    quiet: u8,
}

impl Head {
    fn about(kind: u8, address: u32) -> Head {
        Head {
            kind,
            address,
            ..Head::default()
        }
    }

    fn lent(self, buffer: Buffer) -> Head {
        Head {
            octet: buffer.fill,
            room: buffer.length,
            ..self
        }
    }

    fn record(&self, times: u32, octets: &[u8], numbers: &[u32]) -> Vec<u8> {
        let mut record = vec![self.kind, self.octet];
        record.extend(self.as_number.to_be_bytes());
        record.extend(self.address.to_be_bytes());
        record.extend(self.net.to_be_bytes());
        record.extend((self.room as u32).to_be_bytes());
        record.extend(times.to_be_bytes());
        record.extend((octets.len() as u32).to_be_bytes());
        record.extend((numbers.len() as u32).to_be_bytes());
        record.extend([0, 0, 0, self.quiet]);
        record.extend(octets);
        for number in numbers {
            record.extend(number.to_be_bytes());
        }
        record
    }
}

/// The record of a call that is made `times` times, each time from the same state.
pub fn encode(call: &Call, times: u32) -> Vec<u8> {
    match call {
        Call::HandState(state) => {
            Head::about(kind::HAND_STATE, 0).record(times, &state_block(state), &[])
        }
        Call::HandTable(table) => Head::about(kind::HAND_TABLE, 0).record(times, &[], table),
        Call::Fresh {
            as_number,
            address,
            capability,
            net,
            quiet,
        } => Head {
            octet: *capability,
            as_number: *as_number,
            net: *net,
            quiet: *quiet,
            ..Head::about(kind::FRESH, *address)
        }
        .record(times, &[], &[]),
        Call::Add { address, as_number } => Head {
            as_number: *as_number,
            ..Head::about(kind::ADD, *address)
        }
        .record(times, &[], &[]),
        Call::Remove { address } => Head::about(kind::REMOVE, *address).record(times, &[], &[]),
        Call::Start { address, reply } => event(kind::START, *address, *reply, times),
        Call::Stop { address, reply } => event(kind::STOP, *address, *reply, times),
        Call::Tick { address, reply } => event(kind::TICK, *address, *reply, times),
        Call::Message {
            address,
            octets,
            home,
            reply,
        } => Head::about(kind::MESSAGE, *address)
            .lent(*reply)
            .record(times, octets, home),
        Call::Listing { buffer } => event(kind::LISTING, 0, *buffer, times),
        Call::Read { octets, net } => Head {
            net: *net,
            room: READING,
            ..Head::about(kind::READ, 0)
        }
        .record(times, octets, &[]),
        Call::Write {
            message,
            loose,
            buffer,
        } => {
            let mut numbers: Vec<u32> = rows(message).iter().flat_map(Row::numbers).collect();
            numbers.extend(loose);
            Head::about(kind::WRITE, 0)
                .lent(*buffer)
                .record(times, &meaning(message), &numbers)
        }
    }
}

fn event(kind: u8, address: u32, buffer: Buffer, times: u32) -> Vec<u8> {
    Head::about(kind, address)
        .lent(buffer)
        .record(times, &[], &[])
}

/// The rows of a meaning; only an Update has any.
pub fn rows(message: &Message) -> &[Row] {
    match &message.body {
        Body::Update { rows, .. } => rows,
        _ => &[],
    }
}

/// The state in 404 octets.
pub fn state_block(state: &State) -> Vec<u8> {
    let mut block = Vec::with_capacity(STATE_BLOCK);
    block.extend(state.as_number.to_be_bytes());
    block.extend(state.address.to_be_bytes());
    block.push(state.capability);
    block.extend(state.net.to_be_bytes());
    // "Later fields end their part in the order named, in as few octets as they need."
    block.push(state.quiet);
    for neighbour in &state.neighbours {
        slot_block(neighbour, &mut block);
    }
    block
}

fn slot_block(neighbour: &Neighbour, block: &mut Vec<u8>) {
    let n = neighbour;
    block.extend(n.address.to_be_bytes());
    for number in [
        n.as_number,
        n.send_sequence,
        n.receive_sequence,
        n.hello_interval,
        n.poll_interval,
        n.t1,
        n.t2,
        n.t3,
        n.row_count,
    ] {
        block.extend(number.to_be_bytes());
    }
    let state = match n.state {
        NeighbourState::Idle => 0,
        NeighbourState::Acquisition => 1,
        NeighbourState::Down => 2,
        NeighbourState::Up => 3,
        NeighbourState::Cease => 4,
    };
    let mode = match n.mode {
        Mode::None => 0,
        Mode::Active => 1,
        Mode::Passive => 2,
    };
    block.extend([state, mode, n.register, n.heard, n.cause]);
    block.extend([n.since_hello, n.since_poll]);
    let Seconds {
        idle,
        acquisition,
        down,
        up,
        cease,
    } = n.seconds;
    for count in [idle, acquisition, down, up, cease] {
        block.extend(count.to_be_bytes());
    }
}

/// The number of a kind in a meaning.
pub fn kind_number(kind: Kind) -> u8 {
    match kind {
        Kind::Request => 0,
        Kind::Confirm => 1,
        Kind::Refuse => 2,
        Kind::Cease => 3,
        Kind::CeaseAck => 4,
        Kind::Hello => 5,
        Kind::IHeardYou => 6,
        Kind::Poll => 7,
        Kind::Update => 8,
        Kind::Error => 9,
    }
}

/// A message's meaning in 24 octets; an Update's rows stand outside.
pub fn meaning(message: &Message) -> [u8; MEANING] {
    let mut octets = [0; MEANING];
    octets[0] = kind_number(message.kind());
    octets[1] = message.status;
    octets[2..4].copy_from_slice(&message.as_number.to_be_bytes());
    octets[4..6].copy_from_slice(&message.sequence.to_be_bytes());
    match &message.body {
        Body::Request(Intervals { hello, poll }) | Body::Confirm(Intervals { hello, poll }) => {
            octets[6..8].copy_from_slice(&hello.to_be_bytes());
            octets[8..10].copy_from_slice(&poll.to_be_bytes());
        }
        Body::Refuse | Body::Cease | Body::CeaseAck | Body::Hello | Body::IHeardYou => {}
        Body::Poll { net } | Body::Update { net, .. } => {
            octets[12..16].copy_from_slice(&net.to_be_bytes());
        }
        Body::Error { reason, header } => {
            octets[6..8].copy_from_slice(&reason.to_be_bytes());
            octets[12..24].copy_from_slice(header);
        }
    }
    octets
}

/// What a driver writes after a call.
#[derive(Clone, Debug, PartialEq, Eq)]
pub struct Given {
    pub answer: u16,
    pub lengths: (u16, u16),
    pub state: Vec<u8>,
    pub buffer: Vec<u8>,
    pub table: Vec<u32>,
}

impl Given {
    /// What the reference gives for a call, from its record and the bench as the call left it.
    pub fn expected(call: &Call, record: &Record, bench: &Bench) -> Given {
        let mut given = Given {
            answer: u16::from(record.answer.number()),
            lengths: (record.lengths.0 as u16, record.lengths.1 as u16),
            state: state_block(&bench.state),
            buffer: record.buffer.clone(),
            table: bench.table.clone(),
        };
        if let Call::Read { .. } = call {
            given.buffer = vec![0; READING];
            if let Some(message) = &record.reading {
                given.lengths.0 = rows(message).len() as u16;
                given.buffer[..MEANING].copy_from_slice(&meaning(message));
                let numbers = rows(message).iter().flat_map(Row::numbers);
                for (place, number) in given.buffer[MEANING..].chunks_mut(4).zip(numbers) {
                    place.copy_from_slice(&number.to_be_bytes());
                }
            }
        }
        given
    }

    /// The answer as a driver writes it.
    pub fn encode(&self) -> Vec<u8> {
        let mut octets = Vec::with_capacity(ANSWER_HEAD + STATE_BLOCK + 16_384);
        octets.extend(self.answer.to_be_bytes());
        octets.extend(self.lengths.0.to_be_bytes());
        octets.extend(self.lengths.1.to_be_bytes());
        octets.extend([0; 2]);
        octets.extend((self.buffer.len() as u32).to_be_bytes());
        octets.extend((self.table.len() as u32).to_be_bytes());
        octets.extend(&self.state);
        octets.extend(&self.buffer);
        for number in &self.table {
            octets.extend(number.to_be_bytes());
        }
        octets
    }

    /// Reads the next answer.
    pub fn decode(from: &mut impl Read) -> io::Result<Given> {
        let mut head = [0; ANSWER_HEAD + STATE_BLOCK];
        from.read_exact(&mut head)?;
        let mut buffer = vec![0; number32(&head, 8) as usize];
        from.read_exact(&mut buffer)?;
        let mut table = vec![0; 4 * number32(&head, 12) as usize];
        from.read_exact(&mut table)?;
        Ok(Given {
            answer: number16(&head, 0),
            lengths: (number16(&head, 2), number16(&head, 4)),
            state: head[ANSWER_HEAD..].to_vec(),
            buffer,
            table: table.chunks(4).map(|octets| number32(octets, 0)).collect(),
        })
    }

    /// The first thing in which two answers differ, in words.
    pub fn difference(&self, other: &Given) -> Option<String> {
        if self.answer != other.answer {
            return Some(format!("answer {} and {}", self.answer, other.answer));
        }
        if self.lengths != other.lengths {
            return Some(format!(
                "lengths {:?} and {:?}",
                self.lengths, other.lengths
            ));
        }
        differing("state block, octet", &self.state, &other.state)
            .or_else(|| differing("buffer, octet", &self.buffer, &other.buffer))
            .or_else(|| differing("table, number", &self.table, &other.table))
    }
}

fn differing<T: PartialEq + std::fmt::Debug>(
    what: &str,
    ours: &[T],
    theirs: &[T],
) -> Option<String> {
    if ours == theirs {
        return None;
    }
    let at = ours
        .iter()
        .zip(theirs)
        .position(|(our, their)| our != their);
    Some(match at {
        Some(at) => format!("{what} {at}: {:?} and {:?}", ours[at], theirs[at]),
        None => format!("{what}s: {} and {} of them", ours.len(), theirs.len()),
    })
}

fn number16(octets: &[u8], at: usize) -> u16 {
    u16::from_be_bytes([octets[at], octets[at + 1]])
}

fn number32(octets: &[u8], at: usize) -> u32 {
    u32::from_be_bytes([octets[at], octets[at + 1], octets[at + 2], octets[at + 3]])
}
