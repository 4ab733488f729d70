//! The bench sheet: H, Z, Q, U, V, W, X, Y, K, M.

mod common;

use common::*;
use reference::checksum::checksum;
use reference::message::{self, Body, Intervals, Message};
use reference::neighbour::{terms, Mode, Neighbour, Terms};
use reference::net::address;
use reference::update::Row;

#[test]
fn case_h() {
    let octets = hex("02 05 00 02 FD F0 00 07 00 01");
    let hello = Message {
        status: 2,
        as_number: 7,
        sequence: 1,
        body: Body::Hello,
    };
    assert_eq!(message::read(&octets, NET), Ok(hello.clone()));
    assert_eq!(message::encode(&hello), octets);
}

#[test]
fn case_z_both_ways() {
    let right = hex("02 05 00 02 00 00 FD F8 00 00");
    let hello = Message {
        status: 2,
        as_number: 0xFDF8,
        sequence: 0,
        body: Body::Hello,
    };
    assert_eq!(message::read(&right, NET), Ok(hello.clone()));
    assert_eq!(message::encode(&hello), right);
    let wrong = hex("02 05 00 02 FF FF FD F8 00 00");
    let answer = message::read(&wrong, NET).map_err(|answer| answer.number());
    assert_eq!(answer, Err(8));
}

#[test]
fn case_q() {
    let octets = hex("02 03 00 00 FD 5F 00 07 00 00 00 1E 00 78");
    let intervals = Intervals {
        hello: 30,
        poll: 120,
    };
    let request = Message {
        status: 0,
        as_number: 7,
        sequence: 0,
        body: Body::Request(intervals),
    };
    assert_eq!(message::read(&octets, NET), Ok(request));
    let mut gateway = Gateway::new(1);
    assert_eq!(gateway.message(&octets).answer, 0);
    assert_eq!(
        (gateway.n().hello_interval, gateway.n().poll_interval),
        (32, 122)
    );
}

#[test]
fn case_u() {
    let octets = hex(CASE_U);
    assert_eq!(octets.len(), 25);
    let row = |net| Row {
        net,
        gateway: N,
        distance: 0,
    };
    let update = Message {
        status: 1,
        as_number: 7,
        sequence: 1,
        body: Body::Update {
            net: NET,
            rows: vec![row(address(10, 0, 0, 0)), row(address(192, 5, 6, 0))],
        },
    };
    assert_eq!(message::read(&octets, NET), Ok(update.clone()));
    assert_eq!(message::encode(&update), octets);
}

#[test]
fn case_v() {
    let mut octets = hex(CASE_U);
    octets.pop();
    assert_eq!(checksum(&octets), 0xB9D7);
    let octets = sealed(octets);
    assert_eq!(octets[4..6], [0xB9, 0xD7]);
    assert_eq!(octets.len(), 24);
    let answer = message::read(&octets, NET).map_err(|answer| answer.number());
    assert_eq!(answer, Err(14));
    let mut gateway = Gateway::with(Neighbour {
        send_sequence: 1,
        ..in_state(Up, Mode::Active)
    });
    let error = our_error(1, 5, 2, &octets);
    assert_eq!(gateway.message(&octets), got(14, &[error]));
}

#[test]
fn case_w_at_120_and_121() {
    let at = |hello| terms(9, 1, 7, 0, Intervals { hello, poll: 120 });
    assert_eq!(
        at(120),
        Some(Terms {
            hello_interval: 122,
            poll_interval: 122,
            mode: Mode::Active,
        })
    );
    assert_eq!(at(121), None);
    let mut gateway = Gateway::new(1);
    let refuse = ours(REFUSE, 6, 9, &[]);
    assert_eq!(gateway.message(&request(0, 9, 121, 120)), got(0, &[refuse]));
    assert_eq!(gateway.message(&request(0, 9, 120, 120)).answer, 0);
    assert_eq!(gateway.n().hello_interval, 122);
}

#[test]
fn case_x() {
    let mut gateway = Gateway::with(Neighbour {
        register: 0b0011,
        heard: 1,
        t1: 1,
        ..in_state(Down, Mode::Active)
    });
    gateway.tick();
    assert_eq!((gateway.n().state, gateway.n().register), (Up, 0b0111));
}

#[test]
fn case_y() {
    let mut gateway = Gateway::with(Neighbour {
        register: 0b1000,
        heard: 0,
        t1: 1,
        ..in_state(Up, Mode::Passive)
    });
    gateway.tick();
    assert_eq!((gateway.n().state, gateway.n().register), (Down, 0));
}

#[test]
fn case_k() {
    let mut gateway = Gateway::with(Neighbour {
        send_sequence: 65_535,
        t2: 1,
        ..in_state(Up, Mode::Active)
    });
    assert_eq!(gateway.tick(), got(0, &[our_poll(0)]));
    assert_eq!(gateway.n().send_sequence, 0);
}

#[test]
fn case_m() {
    let intervals = Intervals {
        hello: 30,
        poll: 120,
    };
    let mode = |own, peer| terms(own, 0, peer, 0, intervals).map(|terms| terms.mode);
    assert_eq!(mode(7, 9), Some(Mode::Active));
    assert_eq!(mode(9, 7), Some(Mode::Passive));
}
