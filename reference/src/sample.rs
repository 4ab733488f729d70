//! A short stored list: cases of the bench sheet, a stray message, the last second that is counted
//! and a refusal or two, for a driver's own test.

use crate::call::{Bench, Buffer, Call};
use crate::gateway::{self, State, TABLE_NUMBERS};
use crate::message::{self, Body, Message, REPLY_BUFFER};
use crate::neighbour::Seconds;
use crate::net::address;
use crate::record::{self, Given};
use crate::update::Row;

const OWN: u32 = address(128, 9, 0, 1);
const NET: u32 = address(128, 9, 0, 0);
const PEER: u32 = address(128, 9, 0, 5);

const CASE_H: &[u8] = b"\x02\x05\x00\x02\xFD\xF0\x00\x07\x00\x01";
const CASE_Z_WRONG: &[u8] = b"\x02\x05\x00\x02\xFF\xFF\xFD\xF8\x00\x00";
const CASE_Q: &[u8] = b"\x02\x03\x00\x00\xFD\x5F\x00\x07\x00\x00\x00\x1E\x00\x78";
const CASE_U: &[u8] = b"\x02\x01\x00\x01\xB3\xD7\x00\x07\x00\x01\x01\x00\x80\x09\x00\x00\
    \x00\x05\x01\x00\x02\x0A\xC0\x05\x06";

fn calls() -> Vec<Call> {
    let reply = Buffer {
        length: REPLY_BUFFER,
        fill: 0xA5,
    };
    let read = |octets: &[u8]| Call::Read {
        octets: octets.to_vec(),
        net: NET,
    };
    let row = |net| Row {
        net,
        gateway: PEER,
        distance: 0,
    };
    let fresh = |quiet| Call::Fresh {
        as_number: 9,
        address: OWN,
        capability: 1,
        net: NET,
        quiet,
    };
    let stray = Call::Message {
        address: PEER,
        octets: message::encode(&Message {
            status: 1,
            as_number: 7,
            sequence: 9,
            body: Body::Hello,
        }),
        home: Vec::new(),
        reply,
    };
    let tick = || Call::Tick {
        address: PEER,
        reply,
    };
    let message = |octets: &[u8]| Call::Message {
        address: PEER,
        octets: octets.to_vec(),
        home: vec![NET, OWN, 0],
        reply,
    };
    vec![
        Call::HandTable(vec![1, 2, 3, 4, 5, 0xFFFF_FFFF]),
        read(CASE_H),
        read(CASE_Z_WRONG),
        read(CASE_U),
        Call::Write {
            message: Message {
                status: 1,
                as_number: 7,
                sequence: 1,
                body: Body::Update {
                    net: NET,
                    rows: vec![row(address(10, 0, 0, 0)), row(address(192, 5, 6, 0))],
                },
            },
            loose: Vec::new(),
            buffer: reply,
        },
        fresh(2),
        fresh(1),
        fresh(0),
        Call::Add {
            address: PEER,
            as_number: 7,
        },
        Call::Add {
            address: PEER,
            as_number: 8,
        },
        Call::Start {
            address: PEER,
            reply,
        },
        Call::HandTable(vec![0; TABLE_NUMBERS]),
        stray,
        message(CASE_Q),
        tick(),
        Call::Listing {
            buffer: Buffer {
                length: 100,
                fill: 7,
            },
        },
        Call::HandState(Box::new(nearly_full())),
        tick(),
        tick(),
    ]
}

/// The neighbour in Idle with room for one second more.
fn nearly_full() -> State {
    let mut state = gateway::fresh(9, OWN, 1, NET, 0).state;
    state = gateway::add(&state, PEER, 7).state;
    let seconds = &mut state.neighbours[0].seconds;
    *seconds = Seconds {
        idle: 0x0102_0304,
        acquisition: 0x0506_0708,
        down: 0x090A_0B0C,
        up: 0x0D0E_0F10,
        cease: 0,
    };
    seconds.cease = (Seconds::MOST - 1 - seconds.sum()) as u32;
    state
}

/// The list as records.
pub fn records() -> Vec<u8> {
    let calls = calls();
    calls
        .iter()
        .flat_map(|call| record::encode(call, 1))
        .collect()
}

/// What a driver must write for it.
pub fn answers() -> Vec<u8> {
    let mut bench = Bench::default();
    let mut octets = Vec::new();
    for call in calls() {
        let given = bench.run(&call);
        octets.extend(Given::expected(&call, &given, &bench).encode());
    }
    octets
}
