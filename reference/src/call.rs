//! One call with all its raw arguments, and a bench that runs it.
//!
//! The state and the table are the host's between calls: the bench keeps them as the last call
//! left them. [`Call::HandState`] and [`Call::HandTable`] put others in their place, whatever
//! they hold; they are no calls of the gateway.

use crate::answer::Answer;
use crate::gateway::{self, Outcome, State, TABLE_NUMBERS};
use crate::listing;
use crate::message::{self, Message};

/// A buffer as it is lent: so many octets, all the same.
#[derive(Clone, Copy, Debug, PartialEq, Eq)]
pub struct Buffer {
    pub length: usize,
    pub fill: u8,
}

impl Buffer {
    pub fn octets(self) -> Vec<u8> {
        vec![self.fill; self.length]
    }
}

/// One call.
#[derive(Clone, Debug, PartialEq, Eq)]
pub enum Call {
    /// The host hands in another state from here on.
    HandState(Box<State>),
    /// The host lends another table from here on, of any length.
    HandTable(Vec<u32>),
    Fresh {
        as_number: u16,
        address: u32,
        capability: u8,
        net: u32,
        quiet: u8,
    },
    Add {
        address: u32,
        as_number: u16,
    },
    Remove {
        address: u32,
    },
    Start {
        address: u32,
        reply: Buffer,
    },
    Stop {
        address: u32,
        reply: Buffer,
    },
    Tick {
        address: u32,
        reply: Buffer,
    },
    Message {
        address: u32,
        octets: Vec<u8>,
        home: Vec<u32>,
        reply: Buffer,
    },
    Listing {
        buffer: Buffer,
    },
    /// Reading alone.
    Read {
        octets: Vec<u8>,
        net: u32,
    },
    /// Writing. Numbers that are no rows are loose: any beside a kind without rows, one or two
    /// after the rows of an Update.
    Write {
        message: Message,
        loose: Vec<u32>,
        buffer: Buffer,
    },
}

/// The calls of the gateway by name.
#[derive(Clone, Copy, Debug, PartialEq, Eq, PartialOrd, Ord, Hash)]
pub enum CallKind {
    Fresh,
    Add,
    Remove,
    Start,
    Stop,
    Tick,
    Message,
    Listing,
    Read,
    Write,
}

impl CallKind {
    pub const ALL: [CallKind; 10] = [
        CallKind::Fresh,
        CallKind::Add,
        CallKind::Remove,
        CallKind::Start,
        CallKind::Stop,
        CallKind::Tick,
        CallKind::Message,
        CallKind::Listing,
        CallKind::Read,
        CallKind::Write,
    ];

    /// "Each call makes only the checks that concern it": the answers it can give.
    pub fn answers(self) -> &'static [u8] {
        match self {
            CallKind::Fresh => &[0, 16],
            CallKind::Add => &[0, 1, 16, 17],
            CallKind::Remove => &[0, 1, 5, 18],
            CallKind::Start | CallKind::Stop => &[0, 1, 2, 3, 5],
            CallKind::Tick => &[0, 1, 2, 3, 5, 22],
            CallKind::Message => &[0, 1, 2, 3, 4, 5, 6, 7, 8, 9, 10, 11, 12, 13, 14, 15, 21],
            CallKind::Listing => &[0, 1, 2, 3],
            CallKind::Read => &[0, 6, 7, 8, 10, 11, 12, 14, 15],
            CallKind::Write => &[0, 3, 16],
        }
    }
}

impl Call {
    /// The gateway's call this is; none for what the host does by itself.
    pub fn kind(&self) -> Option<CallKind> {
        match self {
            Call::HandState(_) | Call::HandTable(_) => None,
            Call::Fresh { .. } => Some(CallKind::Fresh),
            Call::Add { .. } => Some(CallKind::Add),
            Call::Remove { .. } => Some(CallKind::Remove),
            Call::Start { .. } => Some(CallKind::Start),
            Call::Stop { .. } => Some(CallKind::Stop),
            Call::Tick { .. } => Some(CallKind::Tick),
            Call::Message { .. } => Some(CallKind::Message),
            Call::Listing { .. } => Some(CallKind::Listing),
            Call::Read { .. } => Some(CallKind::Read),
            Call::Write { .. } => Some(CallKind::Write),
        }
    }

    /// The neighbour that a call of a recording is about.
    pub fn about(&self) -> Option<u32> {
        match self {
            Call::Add { address, .. } | Call::Remove { address } => Some(*address),
            _ => self.event_address(),
        }
    }

    /// The neighbour an event call is about.
    pub fn event_address(&self) -> Option<u32> {
        match self {
            Call::Start { address, .. }
            | Call::Stop { address, .. }
            | Call::Tick { address, .. }
            | Call::Message { address, .. } => Some(*address),
            _ => None,
        }
    }

    /// The buffer lent to the call.
    pub fn buffer(&self) -> Option<Buffer> {
        match self {
            Call::Start { reply, .. }
            | Call::Stop { reply, .. }
            | Call::Tick { reply, .. }
            | Call::Message { reply, .. } => Some(*reply),
            Call::Listing { buffer } | Call::Write { buffer, .. } => Some(*buffer),
            _ => None,
        }
    }
}

/// What a call gave: beside state and table, everything there is to compare.
#[derive(Clone, Debug, PartialEq, Eq)]
pub struct Record {
    pub answer: Answer,
    pub lengths: (usize, usize),
    /// The whole lent buffer after the call; empty where none was lent.
    pub buffer: Vec<u8>,
    /// What reading alone gave.
    pub reading: Option<Message>,
}

impl Record {
    /// The messages (or the listing) in the buffer.
    pub fn written(&self) -> [&[u8]; 2] {
        let (first, second) = self.lengths;
        [&self.buffer[..first], &self.buffer[first..first + second]]
    }
}

/// The host's side: state and table from call to call.
#[derive(Clone, Debug, PartialEq, Eq)]
pub struct Bench {
    pub state: State,
    pub table: Vec<u32>,
}

impl Default for Bench {
    fn default() -> Bench {
        Bench {
            state: State::default(),
            table: vec![0; TABLE_NUMBERS],
        }
    }
}

impl Bench {
    /// Runs a call on the state and table at hand and keeps what it leaves.
    pub fn run(&mut self, call: &Call) -> Record {
        let mut buffer = call.buffer().map(Buffer::octets).unwrap_or_default();
        let (state, table) = (&self.state, &mut self.table);
        let outcome = match call {
            Call::HandState(state) => Outcome {
                answer: Answer::Done,
                lengths: (0, 0),
                state: **state,
            },
            Call::HandTable(table) => {
                self.table.clone_from(table);
                Outcome {
                    answer: Answer::Done,
                    lengths: (0, 0),
                    state: *state,
                }
            }
            Call::Fresh {
                as_number,
                address,
                capability,
                net,
                quiet,
            } => gateway::fresh(*as_number, *address, *capability, *net, *quiet),
            Call::Add { address, as_number } => gateway::add(state, *address, *as_number),
            Call::Remove { address } => gateway::remove(state, *address),
            Call::Start { address, .. } => gateway::start(state, table, &mut buffer, *address),
            Call::Stop { address, .. } => gateway::stop(state, table, &mut buffer, *address),
            Call::Tick { address, .. } => gateway::tick(state, table, &mut buffer, *address),
            Call::Message {
                address,
                octets,
                home,
                ..
            } => gateway::message(state, table, &mut buffer, home, *address, octets),
            Call::Listing { .. } => listing::listing(state, table, &mut buffer),
            Call::Read { octets, net } => return self.read(octets, *net),
            Call::Write { message, loose, .. } => return self.write(message, loose, buffer),
        };
        self.state = outcome.state;
        Record {
            answer: outcome.answer,
            lengths: outcome.lengths,
            buffer,
            reading: None,
        }
    }

    fn read(&self, octets: &[u8], net: u32) -> Record {
        let (answer, reading) = match message::read(octets, net) {
            Ok(message) => (Answer::Done, Some(message)),
            Err(answer) => (answer, None),
        };
        Record {
            answer,
            lengths: (0, 0),
            buffer: Vec::new(),
            reading,
        }
    }

    fn write(&self, message: &Message, loose: &[u32], mut buffer: Vec<u8>) -> Record {
        let (answer, length) = match message::write(message, loose, &mut buffer) {
            Ok(length) => (Answer::Done, length),
            Err(answer) => (answer, 0),
        };
        Record {
            answer,
            lengths: (length, 0),
            buffer,
            reading: None,
        }
    }
}
