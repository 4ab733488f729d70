//! The setup most cases start from: own AS 9, own address 128.9.0.1, capability 1 (active), net
//! 128.9.0.0, not quiet; neighbour N is 128.9.0.5, AS 7, in slot 0; P is 128.9.0.6, AS 7, in slot 1.

#![allow(dead_code)]

use reference::answer::Answer;
use reference::call::{Bench, Buffer, Call, Record};
use reference::checksum;
use reference::gateway::{self, State, TABLE_NUMBERS};
use reference::neighbour::{Mode, Neighbour, NeighbourState, Seconds};
use reference::net::address;
use reference::update::Row;

pub use reference::neighbour::NeighbourState::{Acquisition, Cease, Down, Idle, Up};

pub const OWN_AS: u16 = 9;
pub const OWN: u32 = address(128, 9, 0, 1);
pub const NET: u32 = address(128, 9, 0, 0);
pub const N: u32 = address(128, 9, 0, 5);
pub const P: u32 = address(128, 9, 0, 6);
pub const PEER_AS: u16 = 7;

/// What lent buffers hold before a call.
pub const FILL: u8 = 0xA5;

pub const REQUEST: (u8, u8) = (3, 0);
pub const CONFIRM: (u8, u8) = (3, 1);
pub const REFUSE: (u8, u8) = (3, 2);
pub const CEASE: (u8, u8) = (3, 3);
pub const CEASE_ACK: (u8, u8) = (3, 4);
pub const HELLO: (u8, u8) = (5, 0);
pub const I_H_U: (u8, u8) = (5, 1);
pub const POLL: (u8, u8) = (2, 0);
pub const UPDATE: (u8, u8) = (1, 0);
pub const ERROR: (u8, u8) = (8, 0);

/// Case U of the bench sheet.
pub const CASE_U: &str =
    "02 01 00 01 B3 D7 00 07 00 01 01 00 80 09 00 00 00 05 01 00 02 0A C0 05 06";

pub fn hex(text: &str) -> Vec<u8> {
    text.split_whitespace()
        .map(|pair| u8::from_str_radix(pair, 16).expect("two hex digits"))
        .collect()
}

/// A message with a right checksum, octet by octet.
pub fn raw(pair: (u8, u8), status: u8, as_number: u16, sequence: u16, rest: &[u8]) -> Vec<u8> {
    let mut octets = vec![2, pair.0, pair.1, status, 0, 0];
    octets.extend(as_number.to_be_bytes());
    octets.extend(sequence.to_be_bytes());
    octets.extend(rest);
    checksum::seal(&mut octets);
    octets
}

/// The same octets with the checksum made right.
pub fn sealed(mut octets: Vec<u8>) -> Vec<u8> {
    checksum::seal(&mut octets);
    octets
}

/// From the neighbour's AS.
pub fn peer(pair: (u8, u8), status: u8, sequence: u16, rest: &[u8]) -> Vec<u8> {
    raw(pair, status, PEER_AS, sequence, rest)
}

/// From us.
pub fn ours(pair: (u8, u8), status: u8, sequence: u16, rest: &[u8]) -> Vec<u8> {
    raw(pair, status, OWN_AS, sequence, rest)
}

pub fn intervals(hello: u16, poll: u16) -> Vec<u8> {
    let mut rest = hello.to_be_bytes().to_vec();
    rest.extend(poll.to_be_bytes());
    rest
}

pub fn request(status: u8, sequence: u16, hello: u16, poll: u16) -> Vec<u8> {
    peer(REQUEST, status, sequence, &intervals(hello, poll))
}

pub fn confirm(status: u8, sequence: u16, hello: u16, poll: u16) -> Vec<u8> {
    peer(CONFIRM, status, sequence, &intervals(hello, poll))
}

pub fn poll(status: u8, sequence: u16, net: u32) -> Vec<u8> {
    let mut rest = vec![0, 0];
    rest.extend(net.to_be_bytes());
    peer(POLL, status, sequence, &rest)
}

/// An Update on the common net from its counts and blocks.
pub fn update(status: u8, sequence: u16, internal: u8, external: u8, blocks: &[u8]) -> Vec<u8> {
    let mut rest = vec![internal, external];
    rest.extend(NET.to_be_bytes());
    rest.extend(blocks);
    peer(UPDATE, status, sequence, &rest)
}

/// What we send on Confirm and Request after the header: 30 and 120.
pub fn our_intervals() -> Vec<u8> {
    intervals(30, 120)
}

pub fn our_hello(status: u8, sequence: u16) -> Vec<u8> {
    ours(HELLO, status, sequence, &[])
}

pub fn our_request(capability: u8, sequence: u16) -> Vec<u8> {
    ours(REQUEST, capability, sequence, &our_intervals())
}

pub fn our_confirm(capability: u8, sequence: u16) -> Vec<u8> {
    ours(CONFIRM, capability, sequence, &our_intervals())
}

pub fn our_poll(sequence: u16) -> Vec<u8> {
    let mut rest = vec![0, 0];
    rest.extend(NET.to_be_bytes());
    ours(POLL, 1, sequence, &rest)
}

/// What a stray message draws in Idle, unless we are quiet.
pub fn stray_cease() -> Vec<u8> {
    ours(CEASE, 7, 0, &[])
}

/// Our Error about these octets.
pub fn our_error(status: u8, sequence: u16, reason: u16, about: &[u8]) -> Vec<u8> {
    let mut rest = reason.to_be_bytes().to_vec();
    let mut quote = about.to_vec();
    quote.resize(about.len().max(12), 0);
    rest.extend(&quote[..12]);
    ours(ERROR, status, sequence, &rest)
}

/// Ticks since the last Hello and Poll of [`in_state`]: the next of either may come.
pub const SINCE_HELLO: u8 = 40;
pub const SINCE_POLL: u8 = 120;

/// Seconds of [`in_state`], which no event but a tick changes.
pub const SECONDS: Seconds = Seconds {
    idle: 11,
    acquisition: 12,
    down: 13,
    up: 14,
    cease: 15,
};

/// A neighbour in this state as an ordinary list would leave it: S 4, R 5.
pub fn in_state(state: NeighbourState, mode: Mode) -> Neighbour {
    let idle = Neighbour {
        seconds: SECONDS,
        ..Neighbour::idle(N, PEER_AS)
    };
    let running = Neighbour {
        state,
        send_sequence: 4,
        receive_sequence: 5,
        t1: 20,
        t3: 100,
        since_hello: SINCE_HELLO,
        since_poll: SINCE_POLL,
        ..idle
    };
    let acquired = Neighbour {
        hello_interval: 32,
        poll_interval: 122,
        mode,
        register: 0b0101,
        ..running
    };
    match state {
        Idle => idle,
        Acquisition => running,
        Down => acquired,
        Up => Neighbour {
            t2: 60,
            row_count: 2,
            ..acquired
        },
        Cease => Neighbour {
            cause: 6,
            ..running
        },
    }
}

/// The rows a neighbour in Up holds in these cases.
pub fn held_rows() -> [Row; 2] {
    [
        Row {
            net: address(11, 0, 0, 0),
            gateway: N,
            distance: 3,
        },
        Row {
            net: address(192, 1, 2, 0),
            gateway: N,
            distance: 256 + 4,
        },
    ]
}

/// A gateway under test: state and table, and what the last call gave.
#[derive(Clone)]
pub struct Gateway {
    pub bench: Bench,
    pub home: Vec<u32>,
}

/// What a call gave, for comparing.
#[derive(Clone, Debug, PartialEq, Eq)]
pub struct Got {
    pub answer: u8,
    pub sent: Vec<Vec<u8>>,
}

pub fn got(answer: u8, sent: &[Vec<u8>]) -> Got {
    Got {
        answer,
        sent: sent.to_vec(),
    }
}

impl Gateway {
    /// Fresh, then N and P added.
    pub fn new(capability: u8) -> Gateway {
        let fresh = gateway::fresh(OWN_AS, OWN, capability, NET, 0);
        assert_eq!(fresh.answer, Answer::Done);
        let with_n = gateway::add(&fresh.state, N, PEER_AS);
        assert_eq!(with_n.answer, Answer::Done);
        let with_p = gateway::add(&with_n.state, P, PEER_AS);
        assert_eq!(with_p.answer, Answer::Done);
        Gateway {
            bench: Bench {
                state: with_p.state,
                table: vec![0; TABLE_NUMBERS],
            },
            home: Vec::new(),
        }
    }

    /// The same where `quiet` was 1 when the state was fresh.
    pub fn quiet(mut self) -> Gateway {
        self.bench.state.quiet = 1;
        self
    }

    /// Active only, N as given, rows in the table where it has some.
    pub fn with(neighbour: Neighbour) -> Gateway {
        let mut gateway = Gateway::new(1);
        gateway.put(neighbour);
        gateway
    }

    pub fn put(&mut self, neighbour: Neighbour) {
        self.bench.state.neighbours[0] = neighbour;
        for (index, row) in held_rows().iter().enumerate() {
            if index < usize::from(neighbour.row_count) {
                self.bench.table[3 * index..][..3].copy_from_slice(&row.numbers());
            }
        }
        assert!(self.bench.state.is_well_formed());
    }

    pub fn n(&self) -> Neighbour {
        self.bench.state.neighbours[0]
    }

    pub fn state(&self) -> &State {
        &self.bench.state
    }

    /// The slot's 384 numbers.
    pub fn area(&self, slot: usize) -> &[u32] {
        &self.bench.table[384 * slot..][..384]
    }

    /// Runs a call; whatever it is, the octets past its lengths must be kept, and a refusal must
    /// keep state and table.
    pub fn run(&mut self, call: Call) -> Record {
        let before = self.bench.clone();
        let record = self.bench.run(&call);
        let (first, second) = record.lengths;
        assert!(record.buffer[first + second..]
            .iter()
            .all(|octet| *octet == FILL));
        if record.answer.is_refusal() && !matches!(call, Call::Fresh { .. }) {
            assert_eq!(self.bench, before);
        }
        record
    }

    fn replies(&mut self, call: Call) -> Got {
        let record = self.run(call);
        let sent = record
            .written()
            .into_iter()
            .filter(|octets| !octets.is_empty())
            .map(<[u8]>::to_vec)
            .collect();
        Got {
            answer: record.answer.number(),
            sent,
        }
    }

    pub fn message_from(&mut self, address: u32, octets: &[u8]) -> Got {
        let home = self.home.clone();
        self.replies(Call::Message {
            address,
            octets: octets.to_vec(),
            home,
            reply: reply_buffer(),
        })
    }

    pub fn message(&mut self, octets: &[u8]) -> Got {
        self.message_from(N, octets)
    }

    pub fn start(&mut self) -> Got {
        self.replies(Call::Start {
            address: N,
            reply: reply_buffer(),
        })
    }

    pub fn stop(&mut self) -> Got {
        self.replies(Call::Stop {
            address: N,
            reply: reply_buffer(),
        })
    }

    pub fn tick(&mut self) -> Got {
        self.replies(Call::Tick {
            address: N,
            reply: reply_buffer(),
        })
    }

    /// The listing as text, or the answer of a refusal.
    pub fn listing(&mut self) -> Result<String, u8> {
        let record = self.run(Call::Listing {
            buffer: Buffer {
                length: 65_536,
                fill: FILL,
            },
        });
        match record.answer {
            Answer::Done => Ok(String::from_utf8(record.written()[0].to_vec()).expect("text")),
            refusal => Err(refusal.number()),
        }
    }
}

pub fn reply_buffer() -> Buffer {
    Buffer {
        length: 2048,
        fill: FILL,
    }
}
