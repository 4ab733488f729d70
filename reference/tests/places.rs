//! Places: each is reached by a call made for it, and by none that lacks one thing.

mod common;

use common::*;
use reference::call::{Buffer, Call};
use reference::coverage::{self, Moment};
use reference::gateway::TABLE_NUMBERS;
use reference::generate::{material, Origin, Step};
use reference::listing::LISTING_BUFFER;
use reference::message::{Body, Intervals, Kind, Message};
use reference::neighbour::{Mode, Neighbour, NeighbourState, Seconds, STRAYS};
use reference::net::address;
use reference::places::{self, Seen};
use reference::random::Random;
use reference::update::Row;

/// The answer to a call on a state that the host handed in, and the places it reaches.
fn reached(gateway: &Gateway, call: Call) -> (u8, Vec<String>) {
    let mut bench = gateway.bench.clone();
    let record = bench.run(&call);
    let step = Step {
        call,
        aim: "a test",
        origin: Origin::HandedIn,
    };
    let seen = Seen {
        step: &step,
        before: &Moment::of(&gateway.bench),
        record: &record,
    };
    let places = places::all();
    let held = places.iter().filter(|place| place.holds(&seen));
    let names = held.map(|place| place.name.clone()).collect();
    (record.answer.number(), names)
}

fn reaches(gateway: &Gateway, call: Call, name: &str) -> bool {
    assert!(places::all().iter().any(|place| place.name == name));
    reached(gateway, call).1.iter().any(|place| place == name)
}

fn message(octets: Vec<u8>) -> Call {
    message_with(octets, Vec::new())
}

fn message_with(octets: Vec<u8>, home: Vec<u32>) -> Call {
    Call::Message {
        address: N,
        octets,
        home,
        reply: reply_buffer(),
    }
}

fn tick() -> Call {
    Call::Tick {
        address: N,
        reply: reply_buffer(),
    }
}

/// An Update of one group for N in Up that fails these checks, 6 to 15.
fn update_failing(checks: &[u8]) -> Vec<u8> {
    let fails = |check: u8| checks.contains(&check);
    let mut nets = vec![10; if fails(15) { 129 } else { 1 }];
    if fails(14) {
        nets.push(0);
    }
    let mut octets = vec![if fails(7) { 3 } else { 2 }];
    octets.extend(if fails(10) { [4, 0] } else { [1, 0] });
    octets.extend([if fails(11) { 64 } else { 1 }, 0, 0, 0]);
    octets.push(if fails(9) { 8 } else { 7 });
    octets.extend([0, if fails(13) { 5 } else { 4 }]);
    octets.extend([1, 0, 128, 9, 0, 0, 0, 5, 1, 0]);
    octets.push(if fails(15) { 129 } else { 1 });
    octets.extend(nets);
    if fails(12) {
        octets.truncate(15);
    }
    let mut octets = sealed(octets);
    if fails(8) {
        octets[5] ^= 1;
    }
    if fails(6) {
        octets.truncate(9);
    }
    octets
}

/// A gateway and a call with these checks failing: N is in Up, P in Idle, six slots are free.
fn failing(call: &str, checks: &[u8]) -> (Gateway, Call) {
    let fails = |check: u8| checks.contains(&check);
    let mut gateway = Gateway::with(in_state(Up, Mode::Active));
    let state = &mut gateway.bench.state;
    if fails(1) {
        state.neighbours[1].as_number = 0;
    }
    if fails(22) {
        state.neighbours[0].seconds.up = u32::MAX - 51;
    }
    if fails(17) {
        for (slot, neighbour) in state.neighbours.iter_mut().enumerate().skip(2) {
            *neighbour = Neighbour::idle(P + slot as u32, PEER_AS);
        }
    }
    if fails(2) {
        gateway.bench.table.pop();
    }
    let unknown = P + 99;
    let address = if fails(5) { unknown } else { N };
    let reply = Buffer {
        length: if fails(3) { 2047 } else { 2048 },
        fill: FILL,
    };
    let call = match call {
        "Message" => Call::Message {
            address,
            octets: update_failing(checks),
            home: vec![NET; if fails(4) { 1 } else { 0 }],
            reply,
        },
        "Start" => Call::Start { address, reply },
        "Stop" => Call::Stop { address, reply },
        "Tick" => Call::Tick { address, reply },
        "Listing" => Call::Listing {
            buffer: Buffer {
                length: LISTING_BUFFER - usize::from(fails(3)),
                fill: FILL,
            },
        },
        "Add" => Call::Add {
            address: unknown,
            as_number: if fails(16) { 0 } else { PEER_AS },
        },
        "Remove" => Call::Remove {
            address: match checks {
                [.., 5] => unknown,
                [.., 18] => N,
                _ => P,
            },
        },
        _ => Call::Write {
            message: hello(if fails(16) { 3 } else { 1 }),
            loose: Vec::new(),
            buffer: reply,
        },
    };
    (gateway, call)
}

fn hello(status: u8) -> Message {
    Message {
        status,
        as_number: PEER_AS,
        sequence: 1,
        body: Body::Hello,
    }
}

#[test]
fn two_checks_fail_at_once() {
    let mut pairs: Vec<(&str, u8, u8)> = (1..15).map(|no| ("Message", no, no + 1)).collect();
    for call in ["Start", "Stop", "Tick"] {
        pairs.extend([(call, 1, 2), (call, 2, 3), (call, 3, 5)]);
    }
    pairs.extend([("Tick", 1, 22), ("Tick", 2, 22), ("Tick", 3, 22)]);
    pairs.extend([("Listing", 1, 2), ("Listing", 2, 3)]);
    pairs.extend([("Add", 1, 16), ("Add", 16, 17)]);
    pairs.extend([("Remove", 1, 5), ("Remove", 1, 18), ("Write", 3, 16)]);
    for (call, first, second) in pairs {
        let name = format!("{call}: {first} before {second}");
        let (gateway, both) = failing(call, &[first, second]);
        assert!(reaches(&gateway, both.clone(), &name), "{name}");
        assert_eq!(reached(&gateway, both).0, first, "{name}");
        for check in [first, second] {
            let (gateway, one) = failing(call, &[check]);
            assert_eq!(reached(&gateway, one.clone()).0, check, "{name}");
            assert!(!reaches(&gateway, one, &name), "{name}");
        }
    }
}

#[test]
fn a_row_and_a_bad_state() {
    let name = "Listing: 1 before 2, for a row";
    let (mut gateway, list) = failing("Listing", &[1]);
    assert!(!reaches(&gateway, list.clone(), name));
    gateway.bench.table[2] = 512;
    assert!(reaches(&gateway, list.clone(), name));
    gateway.bench.table.pop();
    assert!(!reaches(&gateway, list, name));
}

#[test]
fn a_row_and_a_short_buffer() {
    let (mut gateway, short) = failing("Listing", &[3]);
    let name = "Listing: 2 before 3, for a row";
    assert!(!reaches(&gateway, short.clone(), name));
    gateway.bench.table[2] = 512;
    assert!(reaches(&gateway, short.clone(), name));
    assert!(!reaches(&gateway, failing("Listing", &[]).1, name));
    gateway.bench.table.pop();
    assert_eq!(gateway.bench.table.len(), TABLE_NUMBERS - 1);
    assert!(!reaches(&gateway, short, name));
}

#[test]
fn an_idle_record_with_one_1() {
    type Change = fn(&mut Neighbour);
    let changes: [(&str, Change); 14] = [
        ("S", |n| n.send_sequence += 1),
        ("R", |n| n.receive_sequence += 1),
        ("T1", |n| n.hello_interval += 1),
        ("T2", |n| n.poll_interval += 1),
        ("mode", |n| n.mode = Mode::Active),
        ("t1", |n| n.t1 += 1),
        ("t2", |n| n.t2 += 1),
        ("t3", |n| n.t3 += 1),
        ("register", |n| n.register += 1),
        ("heard", |n| n.heard += 1),
        ("cause", |n| n.cause += 1),
        ("row count", |n| n.row_count += 1),
        ("since Hello", |n| n.since_hello += 1),
        ("since Poll", |n| n.since_poll += 1),
    ];
    for (name, change) in changes {
        let mut gateway = Gateway::new(1);
        change(&mut gateway.bench.state.neighbours[1]);
        let (answer, places) = reached(&gateway, tick());
        assert_eq!(
            (answer, places),
            (1, vec![format!("state: Idle, {name} 1")])
        );
        // Not alone any more.
        gateway.bench.state.capability = 3;
        assert_eq!(reached(&gateway, tick()), (1, vec![]), "{name}");
    }
}

#[test]
fn a_free_slot_with_one_field() {
    let name = "state: free slot, one field not 0";
    let free = Neighbour::default();
    let mut one = Gateway::new(1);
    one.bench.state.neighbours[7].heard = 1;
    assert!(reaches(&one, tick(), name));
    one.bench.state.neighbours[7].register = 1;
    assert!(!reaches(&one, tick(), name));
    one.bench.state.neighbours[7] = Neighbour { state: Up, ..free };
    assert!(reaches(&one, tick(), name));
    one.bench.state.neighbours[7] = free;
    assert!(!reaches(&one, tick(), name));
    for (kind, since_hello, since_poll) in [("Hello", 1, 0), ("Poll", 0, 1)] {
        let alone = format!("state: free slot, since {kind} alone");
        assert!(!reaches(&one, tick(), &alone));
        one.bench.state.neighbours[7] = Neighbour {
            since_hello,
            since_poll,
            ..free
        };
        assert!(reaches(&one, tick(), &alone));
        assert!(reaches(&one, tick(), name));
    }
}

#[test]
fn sizes_of_messages() {
    let gateway = Gateway::new(1);
    for (length, number) in [(9, 6), (10, 8), (2048, 8), (2049, 6)] {
        let name = format!("message: {length} octets");
        let (answer, places) = reached(&gateway, message(vec![2; length]));
        assert_eq!(answer, number);
        assert!(places.contains(&name), "{name}");
    }
}

#[test]
fn numbers_at_their_limits() {
    type Change = fn(&mut Neighbour, u16);
    let changes: [(&str, Change, &[u16], &[u16]); 11] = [
        (
            "T1",
            |n, value| n.hello_interval = value,
            &[32, 122],
            &[31, 123],
        ),
        (
            "T2",
            |n, value| n.poll_interval = value,
            &[122, 482],
            &[121, 483],
        ),
        ("t1", |n, value| n.t1 = value, &[1, 122], &[0, 123]),
        ("t2", |n, value| n.t2 = value, &[1, 482], &[0, 483]),
        ("t3", |n, value| n.t3 = value, &[1, 3600], &[0, 3601]),
        (
            "register",
            |n, value| n.register = value as u8,
            &[15],
            &[16],
        ),
        ("heard", |n, value| n.heard = value as u8, &[1], &[2]),
        ("cause", |n, value| n.cause = value as u8, &[5, 6], &[4, 7]),
        ("row count", |n, value| n.row_count = value, &[128], &[129]),
        (
            "since Hello",
            |n, value| n.since_hello = value as u8,
            &[120],
            &[121],
        ),
        (
            "since Poll",
            |n, value| n.since_poll = value as u8,
            &[120],
            &[121],
        ),
    ];
    for (name, change, good, bad) in changes {
        let state = if name == "cause" { Cease } else { Up };
        for &value in good.iter().chain(bad) {
            let mut gateway = Gateway::with(in_state(state, Mode::Active));
            change(&mut gateway.bench.state.neighbours[0], value);
            let place = format!("state: {name} {value}");
            assert!(reaches(&gateway, tick(), &place), "{place}");
            assert_eq!(reached(&gateway, tick()).0 == 1, bad.contains(&value));
            // A second thing wrong hides the first.
            gateway.bench.state.capability = 3;
            assert!(!reaches(&gateway, tick(), &place), "{place}");
        }
    }
}

#[test]
fn a_message_from_another_as() {
    let stranger = |pair, status, octets: usize| raw(pair, status, 8, 1, &vec![0; octets]);
    let idle = Gateway::new(1);
    for (octets, name) in [
        (stranger(REQUEST, 2, 4), "Request in Idle, Refuse 4"),
        (stranger(HELLO, 1, 4), "other kind in Idle"),
        (stranger(REQUEST, 3, 4), "Request of status 3 in Idle"),
        (stranger(REQUEST, 0, 3), "Request of other length in Idle"),
    ] {
        let (answer, places) = reached(&idle, message(octets));
        let good_list = String::from("home list: good, rows 0");
        assert_eq!(answer, 9);
        assert_eq!(places, [format!("other AS: {name}"), good_list]);
    }
    for state in [Acquisition, Down, Up, Cease] {
        let gateway = Gateway::with(in_state(state, Mode::Active));
        let name = format!("other AS: Request in {state:?}");
        let request = message(stranger(REQUEST, 0, 4));
        assert!(reaches(&gateway, request, &name));
        let confirm = message(stranger(CONFIRM, 0, 4));
        assert!(!reaches(&gateway, confirm, &name));
    }
}

#[test]
fn bodies_that_are_not_looked_at() {
    for state in [Acquisition, Down, Cease] {
        let gateway = Gateway::with(in_state(state, Mode::Active));
        let name = format!("Update with a bad body in {state:?}");
        assert!(reaches(&gateway, message(update_failing(&[14])), &name));
        assert!(!reaches(&gateway, message(update_failing(&[])), &name));
    }
    let up = Gateway::with(in_state(Up, Mode::Active));
    let name = "Update of 129 rows, then a defect";
    assert!(reaches(&up, message(update_failing(&[14, 15])), name));
    assert!(!reaches(&up, message(update_failing(&[15])), name));
    assert!(!reaches(&up, message(update_failing(&[14])), name));
}

/// The same Update with another status.
fn of_status(mut octets: Vec<u8>, status: u8) -> Call {
    octets[3] = status;
    message(sealed(octets))
}

#[test]
fn updates_of_every_status_to_an_unheard_neighbour() {
    for state in [Down, Up] {
        for mode in [Mode::Active, Mode::Passive] {
            let unheard = Gateway::with(in_state(state, mode));
            for status in [0, 1, 2, 128, 129, 130] {
                let name = format!("unheard, {mode:?} in {state:?}: Update {status}");
                let good = of_status(update_failing(&[]), status);
                assert!(reaches(&unheard, good.clone(), &name));
                let mut heard = unheard.clone();
                heard.bench.state.neighbours[0].heard = 1;
                assert!(!reaches(&heard, good.clone(), &name));
                let mut at_its_limit = unheard.clone();
                at_its_limit.bench.state.neighbours[0].t3 = 3600;
                assert!(!reaches(&at_its_limit, good, &name));
                let late = of_status(update_failing(&[13]), status);
                assert!(!reaches(&unheard, late, &name));
            }
        }
    }
}

#[test]
fn updates_that_say_up_to_an_unheard_neighbour() {
    for (state, failing, name) in [
        (Down, 14, "Passive in Down: bad Update 1 or 129"),
        (Down, 13, "Passive in Down: Update 1 or 129, 13"),
        (Up, 13, "Passive in Up: Update 1 or 129, 13"),
        (Up, 14, "Passive in Up: Update 1 or 129, 14"),
        (Up, 15, "Passive in Up: Update 1 or 129, 15"),
        (Idle, 0, "Idle: Update 1 or 129"),
        (Acquisition, 0, "Acquisition: Update 1 or 129"),
        (Cease, 0, "Cease: Update 1 or 129"),
    ] {
        let name = format!("unheard, {name}");
        let octets = || update_failing(&[failing]);
        let passive = Gateway::with(in_state(state, Mode::Passive));
        for status in [0, 1, 2, 128, 129, 130] {
            let says_up = status == 1 || status == 129;
            let reached = reaches(&passive, of_status(octets(), status), &name);
            assert_eq!(reached, says_up, "{name}, {status}");
        }
        if failing != 0 {
            let active = Gateway::with(in_state(state, Mode::Active));
            assert!(!reaches(&active, of_status(octets(), 1), &name), "{name}");
            let good = of_status(update_failing(&[]), 1);
            assert!(!reaches(&passive, good, &name), "{name}");
        }
    }
}

/// N in this state, so many ticks after its last Hello and Poll.
fn counted(state: NeighbourState, mode: Mode, hello: u8, poll: u8) -> Gateway {
    Gateway::with(Neighbour {
        since_hello: hello,
        since_poll: poll,
        ..in_state(state, mode)
    })
}

fn hello_call() -> Call {
    message(peer(HELLO, 1, 9, &[]))
}

fn poll_call(net: u32) -> Call {
    message(poll(1, 9, net))
}

#[test]
fn a_hello_or_poll_near_its_rate() {
    let modes = [Mode::Active, Mode::Passive];
    for (state, mode) in [Down, Up].into_iter().flat_map(|s| modes.map(|m| (s, m))) {
        for count in 28..=31 {
            let name = format!("Hello at {count}, {mode:?} in {state:?}");
            let near = counted(state, mode, count, 119);
            assert!(reaches(&near, hello_call(), &name), "{name}");
            assert!(!reaches(&near, poll_call(NET), &name), "{name}");
            let other = counted(state, mode, count ^ 4, 119);
            assert!(!reaches(&other, hello_call(), &name), "{name}");
        }
        for count in 118..=120 {
            let name = format!("Poll at {count}, {mode:?} in {state:?}");
            let near = counted(state, mode, 29, count);
            assert!(reaches(&near, poll_call(NET), &name), "{name}");
            assert!(!reaches(&near, hello_call(), &name), "{name}");
            let other = counted(state, mode, 29, count - 1);
            assert!(!reaches(&other, poll_call(NET), &name), "{name}");
        }
    }
    for state in [Acquisition, Cease] {
        for count in 28..=31 {
            let name = format!("Hello at {count} in {state:?}");
            let near = counted(state, Mode::None, count, 0);
            assert!(reaches(&near, hello_call(), &name), "{name}");
        }
        for count in 118..=120 {
            let name = format!("Poll at {count} in {state:?}");
            let near = counted(state, Mode::None, 0, count);
            assert!(reaches(&near, poll_call(NET), &name), "{name}");
        }
    }
}

/// A message of each kind that draws a Cease in Idle, with this AS, status and sequence number, and
/// so many octets behind what its kind has.
fn stray(kind: Kind, as_number: u16, status: u8, sequence: u16, more: usize) -> Call {
    let rest = match kind {
        Kind::Confirm => 4,
        Kind::Poll => 6,
        // As long as it may not be.
        Kind::Update if more > 0 => 5,
        Kind::Update => 6,
        _ => 0,
    };
    let more = if kind == Kind::Update { 0 } else { more };
    let pair = kind.type_and_code();
    message(raw(
        pair,
        status,
        as_number,
        sequence,
        &vec![0; rest + more],
    ))
}

#[test]
fn strays_good_and_nearly_so() {
    for quiet in [0, 1] {
        let mut idle = Gateway::new(1);
        idle.bench.state.quiet = quiet;
        let mut other = idle.clone();
        other.bench.state.quiet = 1 - quiet;
        let mut acquired = idle.clone();
        acquired.put(in_state(Down, Mode::Active));
        for kind in STRAYS {
            for (what, call) in [
                ("", stray(kind, PEER_AS, 0, 9, 0)),
                (" of another AS", stray(kind, 8, 0, 9, 0)),
                (" of a wrong status", stray(kind, PEER_AS, 127, 9, 0)),
                (" of a wrong length", stray(kind, PEER_AS, 0, 9, 1)),
            ] {
                let name = format!("{kind:?}{what} in Idle, quiet {quiet}");
                assert!(reaches(&idle, call.clone(), &name), "{name}");
                assert!(!reaches(&other, call.clone(), &name), "{name}");
                assert!(!reaches(&acquired, call, &name), "{name}");
            }
            // With 0 of its own it says nothing of the Cease's number.
            let name = format!("{kind:?} in Idle, quiet {quiet}");
            let zero = stray(kind, PEER_AS, 0, 0, 0);
            assert!(!reaches(&idle, zero, &name), "{name}");
            // Two things wrong.
            let name = format!("{kind:?} of another AS in Idle, quiet {quiet}");
            assert!(!reaches(&idle, stray(kind, 8, 127, 9, 0), &name));
            assert!(!reaches(&idle, stray(kind, 8, 0, 9, 1), &name));
            let name = format!("{kind:?} of a wrong status in Idle, quiet {quiet}");
            assert!(!reaches(&idle, stray(kind, PEER_AS, 127, 9, 1), &name));
        }
        let name = format!("Update with a bad body in Idle, quiet {quiet}");
        assert!(reaches(&idle, message(update_failing(&[14])), &name));
        assert!(!reaches(&idle, message(update_failing(&[])), &name));
        assert!(!reaches(&other, message(update_failing(&[14])), &name));
        for (kind, octets) in [
            (Kind::Request, request(1, 9, 30, 120)),
            (Kind::Cease, peer(CEASE, 0, 9, &[])),
            (Kind::CeaseAck, peer(CEASE_ACK, 0, 9, &[])),
            (Kind::Error, peer(ERROR, 0, 9, &[0; 14])),
        ] {
            let name = format!("{kind:?} in Idle, quiet {quiet}");
            assert!(reaches(&idle, message(octets.clone()), &name), "{name}");
            assert!(!reaches(&other, message(octets), &name), "{name}");
        }
    }
}

#[test]
fn values_of_quiet() {
    for value in 1..=2 {
        let mut gateway = Gateway::new(1);
        let name = format!("state: quiet {value}");
        assert!(!reaches(&gateway, tick(), &name));
        gateway.bench.state.quiet = value;
        assert!(reaches(&gateway, tick(), &name));
        // A second thing wrong hides it.
        gateway.bench.state.capability = 3;
        assert!(!reaches(&gateway, tick(), &name));
    }
    for value in 0..=2 {
        let fresh = |capability| Call::Fresh {
            as_number: OWN_AS,
            address: OWN,
            capability,
            net: NET,
            quiet: value,
        };
        let name = format!("Fresh: quiet {value}");
        assert!(reaches(&Gateway::new(1), fresh(2), &name));
        assert!(!reaches(&Gateway::new(1), fresh(3), &name));
    }
}

#[test]
fn polls_for_another_net_near_their_rate() {
    for state in [Down, Up] {
        for count in [119, 120] {
            let name = format!("Poll for another net at {count} in {state:?}");
            let near = counted(state, Mode::Active, 120, count);
            assert!(reaches(&near, poll_call(NET + 1), &name), "{name}");
            assert!(!reaches(&near, poll_call(NET), &name), "{name}");
        }
    }
}

#[test]
fn a_too_quick_message_that_would_be_heard() {
    for state in [Down, Up] {
        for (kind, call) in [("Hello", hello_call()), ("Poll", poll_call(NET))] {
            let name = format!("{kind} 1 too quick, unheard, other R, Passive in {state:?}");
            let quick = counted(state, Mode::Passive, 1, 1);
            assert!(reaches(&quick, call.clone(), &name), "{name}");
            let may = counted(state, Mode::Passive, 30, 120);
            assert!(!reaches(&may, call.clone(), &name), "{name}");
            let changes: [fn(&mut Neighbour); 4] = [
                |n| n.mode = Mode::Active,
                |n| n.heard = 1,
                |n| n.t3 = 3600,
                |n| n.receive_sequence = 9,
            ];
            for change in changes {
                let mut other = quick.clone();
                change(&mut other.bench.state.neighbours[0]);
                assert!(!reaches(&other, call.clone(), &name), "{name}");
            }
        }
    }
}

#[test]
fn each_kind_goes_by_its_own_count() {
    for (name, hello, poll, call) in [
        ("Hello below 30, Poll at 120", 29, 120, hello_call()),
        ("Hello from 30 on, Poll below 30", 30, 29, hello_call()),
        ("Poll below 120, Hello at 120", 120, 119, poll_call(NET)),
        ("Poll at 120, Hello below 30", 29, 120, poll_call(NET)),
    ] {
        assert!(reaches(
            &counted(Up, Mode::Active, hello, poll),
            call.clone(),
            name
        ));
        // The same count for both.
        assert!(!reaches(&counted(Up, Mode::Active, 60, 60), call, name));
    }
}

#[test]
fn a_length_that_comes_too_quick() {
    let name = "Message: 12 before 21";
    let octets = || message(peer(HELLO, 1, 9, &[0]));
    let quick = counted(Up, Mode::Active, 0, 0);
    assert!(reaches(&quick, octets(), name));
    assert!(!reaches(&quick, hello_call(), name));
    let may = counted(Up, Mode::Active, 30, 0);
    assert!(!reaches(&may, octets(), name));
    let elsewhere = counted(Cease, Mode::None, 0, 0);
    assert!(!reaches(&elsewhere, octets(), name));
}

#[test]
fn ticks_that_are_counted() {
    for state in [Acquisition, Down, Up, Cease] {
        for count in [119, 120] {
            let of_hello = format!("tick in {state:?}, since Hello {count}");
            let of_poll = format!("tick in {state:?}, since Poll {count}");
            let hello = counted(state, Mode::Active, count, 5);
            assert!(reaches(&hello, tick(), &of_hello));
            assert!(!reaches(&hello, tick(), &of_poll));
            let mut poll = counted(state, Mode::Active, 5, count);
            assert!(reaches(&poll, tick(), &of_poll));
            assert!(!reaches(&poll, tick(), &of_hello));
            poll.bench.state.neighbours[0].t3 = 1;
            assert!(!reaches(&poll, tick(), &of_poll));
        }
        let name = format!("tick that ends t3 in {state:?}, counts between");
        let mut last = counted(state, Mode::Active, 1, 119);
        assert!(!reaches(&last, tick(), &name));
        last.bench.state.neighbours[0].t3 = 1;
        assert!(reaches(&last, tick(), &name));
        last.bench.state.neighbours[0].since_poll = 120;
        assert!(!reaches(&last, tick(), &name));
    }
    for (from, to, register) in [(Down, "Up", 0b0111), (Up, "Down", 0b1000)] {
        let name = format!("tick from {from:?} to {to}, counts between");
        let mut turning = counted(from, Mode::Active, 1, 119);
        let n = &mut turning.bench.state.neighbours[0];
        (n.t1, n.register) = (1, register);
        assert!(reaches(&turning, tick(), &name));
        turning.bench.state.neighbours[0].register = 0b0011;
        assert!(!reaches(&turning, tick(), &name));
    }
}

#[test]
fn what_becomes_of_the_counts() {
    let start = Call::Start {
        address: N,
        reply: reply_buffer(),
    };
    let stop = Call::Stop {
        address: N,
        reply: reply_buffer(),
    };
    let good = message(request(1, 9, 30, 120));
    let bad = message(request(1, 9, 121, 120));
    let cases = [
        ("kept", "Start", start, vec![Acquisition, Down, Up, Cease]),
        ("kept", "Stop", stop.clone(), vec![Down, Up]),
        ("zeroed", "Stop", stop, vec![Acquisition, Cease]),
        ("kept", "Request, acceptable", good.clone(), vec![Cease]),
        (
            "set",
            "Request, acceptable",
            good,
            vec![Acquisition, Down, Up],
        ),
        (
            "kept",
            "Request, unacceptable",
            bad.clone(),
            vec![Down, Up, Cease],
        ),
        ("zeroed", "Request, unacceptable", bad, vec![Acquisition]),
        (
            "set",
            "Confirm, acceptable",
            message(confirm(1, 4, 30, 120)),
            vec![Acquisition],
        ),
        (
            "zeroed",
            "Confirm, unacceptable",
            message(confirm(1, 4, 121, 120)),
            vec![Acquisition],
        ),
        (
            "zeroed",
            "Cease",
            message(peer(CEASE, 5, 9, &[])),
            vec![Acquisition, Down, Up, Cease],
        ),
        (
            "zeroed",
            "Refuse",
            message(peer(REFUSE, 0, 4, &[])),
            vec![Acquisition],
        ),
        (
            "zeroed",
            "Cease-ack",
            message(peer(CEASE_ACK, 0, 4, &[])),
            vec![Cease],
        ),
    ];
    for (what, event, call, states) in cases {
        for state in states {
            let name = format!("counts {what}: {event} in {state:?}");
            let between = counted(state, Mode::Active, 29, 119);
            assert!(reaches(&between, call.clone(), &name), "{name}");
            // As the name says.
            let mut after = between.bench.clone();
            after.run(&call);
            let n = after.state.neighbours[0];
            let expected = match what {
                "kept" => (29, 119),
                "set" => (120, 120),
                _ => (0, 0),
            };
            assert_eq!((n.since_hello, n.since_poll), expected, "{name}");
            for (hello, poll) in [(0, 119), (29, 120)] {
                let at_its_limit = counted(state, Mode::Active, hello, poll);
                assert!(!reaches(&at_its_limit, call.clone(), &name), "{name}");
            }
        }
    }
}

/// N in this state with these seconds.
fn with_seconds(state: NeighbourState, seconds: Seconds) -> Gateway {
    let mut gateway = Gateway::with(in_state(state, Mode::Active));
    gateway.bench.state.neighbours[0].seconds = seconds;
    gateway
}

const STATES: [NeighbourState; 5] = [Idle, Acquisition, Down, Up, Cease];

fn all_in(state: NeighbourState, count: u32) -> Seconds {
    let mut seconds = Seconds::default();
    *seconds.of_mut(state) = count;
    seconds
}

/// All five, that of Idle being what is left of the sum.
fn of_sum(sum: u64) -> Seconds {
    Seconds {
        idle: (sum - 50) as u32,
        acquisition: 11,
        down: 12,
        up: 13,
        cease: 14,
    }
}

const MOST: u64 = 4_294_967_295;

#[test]
fn seconds_of_states_handed_in() {
    let mut gateway = Gateway::new(1);
    for only in STATES {
        let name = format!("state: Idle, seconds in {only:?} alone");
        for (state, seconds, is_reached) in [
            (Idle, all_in(only, 1), true),
            (Idle, SECONDS, false),
            (Idle, Seconds::default(), false),
            (Down, all_in(only, 1), false),
        ] {
            let gateway = with_seconds(state, seconds);
            assert_eq!(reaches(&gateway, tick(), &name), is_reached, "{name}");
        }
        let name = format!("state: free slot, seconds in {only:?} alone");
        for count in [1, 256, u32::MAX] {
            gateway.bench.state.neighbours[7].seconds = all_in(only, count);
            assert!(reaches(&gateway, tick(), &name), "{name}");
        }
        gateway.bench.state.neighbours[7].seconds = SECONDS;
        assert!(!reaches(&gateway, tick(), &name), "{name}");
        gateway.bench.state.neighbours[7] = Neighbour::default();
        assert!(!reaches(&gateway, tick(), &name), "{name}");
    }
    for state in STATES {
        let full = format!("state: {state:?}, sum 4,294,967,295");
        let more = format!("state: {state:?}, sum 4,294,967,296 of all five");
        for (sum, name) in [
            (MOST - 1, None),
            (MOST, Some(&full)),
            (MOST + 1, Some(&more)),
        ] {
            let gateway = with_seconds(state, of_sum(sum));
            for place in [&full, &more] {
                assert_eq!(
                    reaches(&gateway, tick(), place),
                    Some(place) == name,
                    "{place}"
                );
            }
        }
    }
    let mut wrapped = all_in(Up, u32::MAX);
    wrapped.cease = 1;
    let every = Seconds {
        idle: u32::MAX,
        acquisition: u32::MAX,
        down: u32::MAX,
        up: u32::MAX,
        cease: u32::MAX,
    };
    for (seconds, name) in [
        (wrapped, "state: seconds 4,294,967,295 and 1"),
        (every, "state: every count 4,294,967,295"),
    ] {
        let mut gateway = with_seconds(Down, seconds);
        let list = || failing("Listing", &[]).1;
        assert_eq!(reached(&gateway, list()), (1, vec![name.to_string()]));
        gateway.bench.state.capability = 3;
        assert_eq!(reached(&gateway, list()), (1, vec![]));
    }
}

#[test]
fn a_tick_and_the_state_it_belongs_to() {
    type Change = fn(&mut Neighbour);
    let changed = |state, change: Change| {
        let mut gateway = Gateway::with(in_state(state, Mode::Active));
        change(&mut gateway.bench.state.neighbours[0]);
        gateway
    };
    let three_heard = |n: &mut Neighbour| (n.t1, n.register, n.heard) = (1, 0b0011, 1);
    let silent = |n: &mut Neighbour| (n.t1, n.register) = (1, 0b0100);
    let ends: Change = |n| n.t3 = 1;
    let turns: [(NeighbourState, Change, NeighbourState); 6] = [
        (Acquisition, ends, Idle),
        (Down, three_heard, Up),
        (Up, silent, Down),
        (Down, ends, Cease),
        (Up, ends, Cease),
        (Cease, ends, Idle),
    ];
    let stays = STATES.map(|state| -> (_, Change, _) { (state, |_| {}, state) });
    for (from, change, to) in stays.into_iter().chain(turns) {
        let name = match from == to {
            true => format!("tick in {from:?}, seconds apart"),
            false => format!("tick from {from:?} to {to:?}, seconds apart"),
        };
        let mut gateway = changed(from, change);
        assert!(reaches(&gateway, tick(), &name), "{name}");
        let mut after = gateway.bench.clone();
        after.run(&tick());
        assert_eq!(after.state.neighbours[0].state, to, "{name}");
        // No other of them.
        let of_turns =
            |name: &&String| name.starts_with("tick ") && name.ends_with("seconds apart");
        let (_, places) = reached(&gateway, tick());
        assert_eq!(places.iter().filter(of_turns).count(), 1, "{name}");
        gateway.bench.state.neighbours[0].seconds.down = SECONDS.up;
        assert!(!reaches(&gateway, tick(), &name), "{name}");
        gateway.bench.state.neighbours[0].seconds.down = 0;
        assert!(!reaches(&gateway, tick(), &name), "{name}");
    }
    for state in STATES {
        for (count, name) in [(255, "FF"), (65_535, "FFFF"), (16_777_215, "FFFFFF")] {
            let name = format!("tick in {state:?}, seconds {name} there");
            let there = with_seconds(state, all_in(state, count));
            assert!(reaches(&there, tick(), &name), "{name}");
            let elsewhere = if state == Up { Down } else { Up };
            for other in [all_in(state, count + 1), all_in(elsewhere, count)] {
                assert!(
                    !reaches(&with_seconds(state, other), tick(), &name),
                    "{name}"
                );
            }
        }
    }
    for number in [2, 3] {
        let name = format!("tick refused {number}, seconds apart");
        let (gateway, call) = failing("Tick", &[number]);
        assert!(reaches(&gateway, call, &name));
        assert!(!reaches(&gateway, tick(), &name) || number == 2);
        let (mut gateway, call) = failing("Tick", &[number]);
        gateway.bench.state.neighbours[0].seconds.idle = 0;
        assert!(!reaches(&gateway, call, &name));
    }
}

#[test]
fn a_tick_near_the_sum() {
    for state in STATES {
        for (sum, number) in [(MOST - 1, 0), (MOST, 22)] {
            let of_all = format!("tick in {state:?}, sum {sum} of all five");
            let there = format!("tick in {state:?}, all {sum} there");
            let five = with_seconds(state, of_sum(sum));
            let one = with_seconds(state, all_in(state, sum as u32));
            let elsewhere = if state == Up { Down } else { Up };
            let other = with_seconds(state, all_in(elsewhere, sum as u32));
            for (gateway, wanted) in [(five, Some(&of_all)), (one, Some(&there)), (other, None)] {
                assert_eq!(reached(&gateway, tick()).0, number);
                for place in [&of_all, &there] {
                    assert_eq!(reaches(&gateway, tick(), place), Some(place) == wanted);
                }
            }
            let less = with_seconds(state, of_sum(sum - 1));
            assert!(!reaches(&less, tick(), &of_all));
        }
    }
    type Change = fn(&mut Neighbour);
    let timers: [(&str, Change); 3] = [
        ("t1", |n| n.t1 = 1),
        ("t2", |n| n.t2 = 1),
        ("t3", |n| n.t3 = 1),
    ];
    for (name, change) in timers {
        let name = format!("tick refused 22, {name} 1");
        let mut gateway = with_seconds(Up, of_sum(MOST));
        assert!(!reaches(&gateway, tick(), &name));
        change(&mut gateway.bench.state.neighbours[0]);
        assert!(reaches(&gateway, tick(), &name));
        gateway.bench.state.neighbours[0].seconds = SECONDS;
        assert!(!reaches(&gateway, tick(), &name));
    }
}

/// Seconds are each neighbour's own, and only ticks are refused for them.
#[test]
fn a_full_sum_of_another_and_other_calls() {
    let another = "tick, another's sum 4,294,967,295";
    let nobody = "tick for nobody, a sum 4,294,967,295";
    let at = |address| Call::Tick {
        address,
        reply: reply_buffer(),
    };
    let full = with_seconds(Up, of_sum(MOST));
    let nearly = with_seconds(Up, of_sum(MOST - 1));
    assert!(reaches(&full, at(P), another) && !reaches(&full, at(N), another));
    assert!(!reaches(&nearly, at(P), another));
    assert!(reaches(&full, at(P + 1), nobody) && !reaches(&full, at(P), nobody));
    assert!(!reaches(&nearly, at(P + 1), nobody));
    for state in STATES {
        let (address, reply) = (N, reply_buffer());
        for (name, call) in [
            ("Start", Call::Start { address, reply }),
            ("Stop", Call::Stop { address, reply }),
            ("Message", message(peer(ERROR, 1, 4, &[0; 14]))),
        ] {
            let name = format!("{name} in {state:?}, sum 4,294,967,295");
            let full = with_seconds(state, of_sum(MOST));
            assert!(reaches(&full, call.clone(), &name), "{name}");
            let nearly = with_seconds(state, of_sum(MOST - 1));
            assert!(!reaches(&nearly, call, &name), "{name}");
        }
    }
}

#[test]
fn what_keeps_the_seconds() {
    let (address, reply) = (N, reply_buffer());
    for (event, call, states) in [
        ("Start", Call::Start { address, reply }, STATES.to_vec()),
        ("Stop", Call::Stop { address, reply }, STATES.to_vec()),
        ("Cease", message(peer(CEASE, 5, 9, &[])), STATES.to_vec()),
        (
            "Cease-ack",
            message(peer(CEASE_ACK, 0, 4, &[])),
            vec![Cease],
        ),
        (
            "Refuse",
            message(peer(REFUSE, 0, 4, &[])),
            vec![Acquisition],
        ),
        (
            "Request, acceptable",
            message(request(1, 9, 30, 120)),
            vec![Idle, Acquisition, Down, Up],
        ),
        (
            "Request, unacceptable",
            message(request(1, 9, 121, 120)),
            vec![Acquisition, Down, Up],
        ),
        (
            "Confirm, acceptable",
            message(confirm(1, 4, 30, 120)),
            vec![Acquisition],
        ),
        (
            "Confirm, unacceptable",
            message(confirm(1, 4, 121, 120)),
            vec![Acquisition],
        ),
        ("Hello", hello_call(), vec![Idle, Down, Up]),
        ("I-H-U", message(peer(I_H_U, 1, 4, &[])), vec![Down, Up]),
        ("Poll", poll_call(NET), vec![Down, Up]),
        ("Update", message(update_failing(&[])), vec![Idle, Down, Up]),
    ] {
        for state in states {
            let name = format!("seconds kept: {event} in {state:?}");
            let gateway = with_seconds(state, SECONDS);
            assert!(reaches(&gateway, call.clone(), &name), "{name}");
            let mut after = gateway.bench.clone();
            after.run(&call);
            assert_eq!(after.state.neighbours[0].seconds, SECONDS, "{name}");
            let none = with_seconds(state, Seconds::default());
            assert!(!reaches(&none, call.clone(), &name), "{name}");
        }
    }
    let gone = "seconds gone: Remove";
    let remove = Call::Remove { address: N };
    assert!(reaches(&with_seconds(Idle, SECONDS), remove.clone(), gone));
    assert!(!reaches(&with_seconds(Down, SECONDS), remove.clone(), gone));
    assert!(!reaches(&with_seconds(Idle, all_in(Up, 9)), remove, gone));
}

#[test]
fn listings_of_seconds() {
    let list = || failing("Listing", &[]).1;
    for count in [0, 9, 10, 999_999_999, 1_000_000_000, 4_294_967_295] {
        let name = format!("listing: seconds {count}");
        for state in STATES {
            assert!(reaches(
                &with_seconds(Up, all_in(state, count)),
                list(),
                &name
            ));
        }
        // P has none.
        let other = with_seconds(Up, SECONDS);
        assert_eq!(reaches(&other, list(), &name), count == 0);
        assert!(!reaches(
            &with_seconds(Up, all_in(Up, count)),
            tick(),
            &name
        ));
    }
    for state in STATES {
        let name = format!("listing: all 4,294,967,295 in {state:?}");
        assert!(reaches(
            &with_seconds(Up, all_in(state, u32::MAX)),
            list(),
            &name
        ));
        assert!(!reaches(
            &with_seconds(Up, all_in(state, u32::MAX - 1)),
            list(),
            &name
        ));
    }
    let name = "listing: seconds apart, with rows";
    assert!(reaches(&with_seconds(Up, SECONDS), list(), name));
    assert!(!reaches(&with_seconds(Down, SECONDS), list(), name));
    assert!(!reaches(&with_seconds(Up, all_in(Up, 9)), list(), name));
    let mut random = Random::new(1);
    for _ in 0..20 {
        let (state, table) = material::longest(&mut random);
        let mut gateway = Gateway::new(1);
        (gateway.bench.state, gateway.bench.table) = (state, table);
        assert!(reaches(&gateway, list(), "listing: 59,581 octets"));
        gateway.bench.table[2] = 99;
        assert!(!reaches(&gateway, list(), "listing: 59,581 octets"));
    }
}

#[test]
fn home_lists_bad_in_one_way() {
    let gateway = Gateway::new(1);
    let net = address(10, 0, 0, 0);
    let row = [net, N, 255];
    let list = |first: [u32; 3], rest: &[u32]| [&first[..], rest].concat();
    let ours = [net, OWN, 0];
    let long = [ours, row].concat().repeat(64);
    let check = |home: Vec<u32>, name: &str, number: u8| {
        let (answer, places) = reached(&gateway, message_with(our_hello(1, 1), home));
        // Our own Hello comes from another AS.
        assert_eq!(answer, number, "{name}");
        let of_lists = places.iter().filter(|place| place.starts_with("home"));
        assert!(of_lists.eq([&format!("home list: {name}")]), "{places:?}");
    };
    check(vec![], "good, rows 0", 9);
    check(ours.to_vec(), "good, rows 1", 9);
    check(long.clone(), "good, rows 128", 9);
    check(vec![net], "not whole rows", 4);
    check([&long[..], &ours[..2]].concat(), "not whole rows", 4);
    check([&long[..], &ours[..]].concat(), "129 rows", 4);
    check(list(ours, &[224 << 24, N, 0]), "net of no class", 4);
    check(list(ours, &[net + 1, N, 0]), "net not left justified", 4);
    check(
        list(ours, &[net, N + (1 << 16), 0]),
        "gateway off the net",
        4,
    );
    check(list(ours, &[net, N, 256]), "number 256", 4);
    check(list(row, &ours), "first gateway not ours", 4);
    // Bad in two ways.
    let twice = message_with(our_hello(1, 1), list(row, &[net, N, 256]));
    assert_eq!(reached(&gateway, twice), (4, vec![]));
}

#[test]
fn reading_with_a_bad_net() {
    let gateway = Gateway::new(1);
    let on = |net: u32, blocks: &[u8]| {
        let mut rest = vec![u8::from(!blocks.is_empty()), 0];
        rest.extend(net.to_be_bytes());
        rest.extend(blocks);
        peer(UPDATE, 1, 1, &rest)
    };
    let read = |octets: Vec<u8>, net: u32| reached(&gateway, Call::Read { octets, net });
    let unjustified = NET + 1;
    let classless = 224 << 24;
    let blocks = [0, 5, 1, 0, 1, 10];
    for (octets, net, number, name) in [
        (
            on(unjustified, &blocks),
            unjustified,
            14,
            "Update on a net not left justified",
        ),
        (
            on(classless, &[]),
            classless,
            14,
            "Update on a net of no class",
        ),
        (
            our_hello(1, 1),
            unjustified,
            0,
            "other kind, net not left justified",
        ),
        (our_hello(1, 1), classless, 0, "other kind, net of no class"),
    ] {
        assert_eq!(read(octets, net), (number, vec![format!("Read: {name}")]));
    }
    // Wrong anyhow.
    assert_eq!(read(on(NET, &blocks), unjustified), (14, vec![]));
    assert_eq!(read(on(classless, &blocks), classless), (14, vec![]));
    assert_eq!(read(on(NET, &blocks), NET), (0, vec![]));
}

#[test]
fn writing_what_the_reader_never_gives() {
    let gateway = Gateway::new(1);
    let intervals = Intervals { hello: 0, poll: 0 };
    let row = Row {
        net: NET,
        gateway: N,
        distance: 0,
    };
    let update = Body::Update {
        net: NET,
        rows: vec![row],
    };
    let error = Body::Error {
        reason: 0,
        header: [0; 12],
    };
    let write = |status: u8, body: &Body, loose: &[u32]| {
        let call = Call::Write {
            message: Message {
                body: body.clone(),
                ..hello(status)
            },
            loose: loose.to_vec(),
            buffer: reply_buffer(),
        };
        reached(&gateway, call)
    };
    let at = |name: &str| (16, vec![format!("Write: {name}")]);
    for body in [Body::Hello, Body::Request(intervals), error.clone()] {
        let rows = at("rows beside a kind without rows");
        let numbers = at("numbers beside a kind without rows");
        assert_eq!(write(0, &body, &row.numbers()), rows);
        assert_eq!(write(0, &body, &[0, 0, 0]), rows);
        assert_eq!(write(0, &body, &[0]), numbers);
        assert_eq!(write(0, &body, &[]), (0, vec![]));
    }
    let after = at("numbers after the rows of an Update");
    assert_eq!(write(0, &update, &[NET, N]), after);
    for body in [update, error] {
        assert_eq!(write(255, &body, &[]), at("status 255, Update or Error"));
    }
    assert_eq!(write(255, &Body::Hello, &[]), at("status 255, other kind"));
    assert_eq!(write(254, &Body::Hello, &[]), (16, vec![]));
}

/// What the gate compares, but for its fifth seed, which is the date.
#[test]
fn lists_reach_every_place() {
    let survey = coverage::survey_places(&[1, 2, 3, 4], 100_000);
    assert_eq!(survey.missed_places(), [] as [&str; 0]);
}
