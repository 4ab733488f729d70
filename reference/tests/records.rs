//! Calls as octets: the stored list of the driver, and what is read back of an answer.

mod common;

use common::*;
use reference::call::{Bench, Buffer, Call};
use reference::compare;
use reference::generate::Generator;
use reference::message::{Body, Message};
use reference::neighbour::Seconds;
use reference::record::{self, Given, ANSWER_HEAD, MEANING, READING, RECORD_HEAD, STATE_BLOCK};
use reference::sample;
use reference::update::Row;

#[test]
fn the_stored_list_is_the_sample() {
    // Too long to be printed where they differ.
    assert!(sample::records() == include_bytes!("../../crates/program_driver/stdin"));
    assert!(sample::answers() == include_bytes!("../../crates/program_driver/stdout"));
}

#[test]
fn answers_are_read_back() {
    let mut bench = Bench::default();
    for step in Generator::new(5).take(2000) {
        let record = bench.run(&step.call);
        let given = Given::expected(&step.call, &record, &bench);
        let octets = given.encode();
        let lent = match step.call {
            Call::Read { .. } => READING,
            _ => record.buffer.len(),
        };
        let length = ANSWER_HEAD + STATE_BLOCK + lent + 4 * bench.table.len();
        assert_eq!(octets.len(), length);
        let mut rest = octets.as_slice();
        assert_eq!(Given::decode(&mut rest).expect("a whole answer"), given);
        assert!(rest.is_empty());
    }
}

#[test]
fn a_record_has_its_fields_where_the_format_says() {
    let call = Call::Message {
        address: N,
        octets: vec![1, 2, 3],
        home: vec![NET, OWN],
        reply: Buffer {
            length: 2048,
            fill: 7,
        },
    };
    let octets = record::encode(&call, 5);
    let head = hex("06 07 00 00 80 09 00 05 00 00 00 00 00 00 08 00 00 00 00 05 00 00 00 03 00 00 00 02 00 00 00 00");
    assert_eq!(octets[..RECORD_HEAD], head);
    assert_eq!(
        octets[RECORD_HEAD..],
        hex("01 02 03 80 09 00 00 80 09 00 01")
    );
    let fresh = Call::Fresh {
        as_number: 9,
        address: OWN,
        capability: 2,
        net: NET,
        quiet: 1,
    };
    let head = hex("00 02 00 09 80 09 00 01 80 09 00 00 00 00 00 00 00 00 00 01 00 00 00 00 00 00 00 00 00 00 00 01");
    assert_eq!(record::encode(&fresh, 1), head);
}

#[test]
fn loose_numbers_follow_the_rows() {
    let row = Row {
        net: NET,
        gateway: N,
        distance: 1,
    };
    let call = Call::Write {
        message: Message {
            status: 1,
            as_number: 7,
            sequence: 1,
            body: Body::Update {
                net: NET,
                rows: vec![row],
            },
        },
        loose: vec![5],
        buffer: reply_buffer(),
    };
    let octets = record::encode(&call, 1);
    assert_eq!(octets[24..28], [0, 0, 0, 4]);
    assert_eq!(
        octets[RECORD_HEAD + MEANING..],
        hex("80 09 00 00 80 09 00 05 00 00 00 01 00 00 00 05")
    );
}

#[test]
fn a_state_has_its_fields_where_the_format_says() {
    let mut gateway = Gateway::new(1);
    gateway.message(&request(0, 0x0102, 30, 120));
    let block = record::state_block(&gateway.bench.state);
    assert_eq!(block.len(), STATE_BLOCK);
    assert_eq!(block.len(), 404);
    assert_eq!(block[..12], hex("00 09 80 09 00 01 01 80 09 00 00 00"));
    let quiet = record::state_block(&gateway.clone().quiet().bench.state);
    assert_eq!((quiet[11], &quiet[12..]), (1, &block[12..]));
    // N is in Down and active: S 0, R 0102, T1 32, T2 122, t1 32, t2 0, t3 120, no rows.
    assert_eq!(
        block[12..39],
        hex("80 09 00 05 00 07 00 00 01 02 00 20 00 7A 00 20 00 00 00 78 00 00 02 01 00 00 00")
    );
    // As many ticks since Hello and Poll as are counted; a Hello and 10 ticks later, 10 since it.
    assert_eq!(block[39..41], [120, 120]);
    gateway.message(&peer(HELLO, 1, 3, &[]));
    for _ in 0..10 {
        gateway.tick();
    }
    let block = record::state_block(&gateway.bench.state);
    assert_eq!(block[39..41], [10, 120]);
    // Ten seconds in Down, and the other neighbour behind them.
    assert_eq!(
        block[41..65],
        hex("00 00 00 00 00 00 00 00 00 00 00 0A 00 00 00 00 00 00 00 00 80 09 00 06")
    );
    gateway.bench.state.neighbours[1].seconds = Seconds {
        idle: 0x0102_0304,
        acquisition: 0x0506_0708,
        down: 0x090A_0B0C,
        up: 0x0D0E_0F10,
        cease: 0x1112_1314,
    };
    let block = record::state_block(&gateway.bench.state);
    let counts: Vec<u8> = (1..=20).collect();
    assert_eq!(block[12 + 49 + 29..12 + 2 * 49], counts);
}

#[test]
fn a_difference_is_found_where_it_is() {
    let mut bench = Bench::default();
    let call = Call::Fresh {
        as_number: 9,
        address: OWN,
        capability: 1,
        net: NET,
        quiet: 0,
    };
    let record = bench.run(&call);
    let given = Given::expected(&call, &record, &bench);
    assert_eq!(given.difference(&given), None);
    let mut other = given.clone();
    other.table[3071] = 1;
    let words = given.difference(&other).expect("a difference");
    assert_eq!(words, "table, number 3071: 0 and 1");
}

#[test]
fn a_case_is_three_records() {
    let octets = compare::case(1, 40);
    assert!(octets.len() > 3 * RECORD_HEAD + STATE_BLOCK);
    assert_eq!(octets[0], 10);
    assert_eq!(octets[RECORD_HEAD + STATE_BLOCK], 11);
}
