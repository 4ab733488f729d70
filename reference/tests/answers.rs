//! Every row of the answer table, the order of the checks, and well-formedness.

mod common;

use common::*;
use reference::answer::Answer;
use reference::call::{Bench, Buffer, Call};
use reference::gateway::{self, State};
use reference::listing;
use reference::neighbour::{Mode, Neighbour, NeighbourState, Seconds};
use reference::net::address;

fn buffer(length: usize) -> Buffer {
    Buffer { length, fill: FILL }
}

fn answer(bench: &Bench, call: Call) -> u8 {
    let mut bench = bench.clone();
    let before = bench.clone();
    let record = bench.run(&call);
    if record.answer.is_refusal() && !matches!(call, Call::Fresh { .. }) {
        assert_eq!(bench, before, "a refusal keeps state and table");
    }
    record.answer.number()
}

fn hello_call(address: u32, home: &[u32], length: usize) -> Call {
    Call::Message {
        address,
        octets: peer(HELLO, 1, 9, &[]),
        home: home.to_vec(),
        reply: buffer(length),
    }
}

/// Start, Stop, tick and a Hello from this address with this buffer.
fn event_calls(address: u32, length: usize) -> [Call; 4] {
    let reply = buffer(length);
    [
        Call::Start { address, reply },
        Call::Stop { address, reply },
        Call::Tick { address, reply },
        hello_call(address, &[], length),
    ]
}

#[test]
fn answer_0_even_if_nothing_changes() {
    let mut gateway = Gateway::new(1).quiet();
    assert_eq!(gateway.tick(), got(0, &[]));
    let before = gateway.bench.clone();
    assert_eq!(gateway.stop(), got(0, &[]));
    assert_eq!(gateway.message(&peer(HELLO, 1, 9, &[])), got(0, &[]));
    assert_eq!(gateway.bench, before);
}

#[test]
fn answer_1_for_every_call_and_before_everything() {
    let mut bench = Gateway::new(1).bench;
    bench.state.neighbours[0].heard = 1;
    bench.table = vec![7; 5];
    for call in event_calls(0, 0) {
        assert_eq!(answer(&bench, call), 1);
    }
    let add = Call::Add {
        address: 0,
        as_number: 0,
    };
    assert_eq!(answer(&bench, add), 1);
    assert_eq!(answer(&bench, Call::Remove { address: 0 }), 1);
    let listing = Call::Listing { buffer: buffer(0) };
    assert_eq!(answer(&bench, listing), 1);
    assert_eq!(answer(&bench, hello_call(N, &[1], 0)), 1);
}

#[test]
fn answer_1_for_the_all_zero_state() {
    let bench = Bench::default();
    for call in event_calls(N, 2048) {
        assert_eq!(answer(&bench, call), 1);
    }
}

#[test]
fn answer_2_for_any_other_table_length() {
    let mut bench = Gateway::new(1).bench;
    for length in [0, 1, 384, 3069, 3071, 3073, 6144] {
        bench.table = vec![7; length];
        // Before 3, 4 and 5 too.
        for call in event_calls(0, 0) {
            assert_eq!(answer(&bench, call), 2);
        }
        assert_eq!(answer(&bench, hello_call(0, &[1], 0)), 2);
        assert_eq!(answer(&bench, Call::Listing { buffer: buffer(0) }), 2);
    }
}

#[test]
fn answer_2_in_a_listing_for_a_used_rows_third_number() {
    let mut gateway = Gateway::with(in_state(Up, Mode::Active));
    let listing = |gateway: &Gateway| {
        let call = Call::Listing {
            buffer: buffer(65_536),
        };
        answer(&gateway.bench, call)
    };
    gateway.bench.table[5] = 511;
    assert_eq!(listing(&gateway), 0);
    gateway.bench.table[5] = 512;
    assert_eq!(listing(&gateway), 2);
    gateway.bench.table[5] = u32::MAX;
    assert_eq!(listing(&gateway), 2);
    // A row that is not used may hold anything, and so may the other numbers of used ones.
    gateway.bench.table[5] = 0;
    gateway.bench.table[8] = 512;
    gateway.bench.table[0] = u32::MAX;
    gateway.bench.table[384 + 2] = 512;
    assert_eq!(listing(&gateway), 0);
    // Other calls do not look.
    gateway.bench.table[5] = 512;
    assert_eq!(gateway.tick().answer, 0);
}

#[test]
fn answer_3_for_short_buffers() {
    let bench = Gateway::new(1).bench;
    for length in [0, 10, 2047] {
        // Before 4 and 5.
        for call in event_calls(0, length) {
            assert_eq!(answer(&bench, call), 3);
        }
        assert_eq!(answer(&bench, hello_call(0, &[1], length)), 3);
    }
    for length in [0, 2048, 65_535] {
        let call = Call::Listing {
            buffer: buffer(length),
        };
        assert_eq!(answer(&bench, call), 3);
    }
    for length in [2048, 2049, 70_000] {
        for call in event_calls(N, length) {
            assert_eq!(answer(&bench, call), 0);
        }
    }
}

#[test]
fn answer_4_for_every_bad_home_list() {
    let bench = Gateway::new(1).bench;
    let a = address(10, 0, 0, 0);
    let good: [&[u32]; 5] = [
        &[],
        &[a, OWN, 0],
        &[a, OWN, 255],
        &[a, OWN, 0, a, N, 1],
        &[
            NET,
            OWN,
            0,
            address(192, 1, 2, 0),
            address(128, 9, 255, 255),
            9,
        ],
    ];
    for home in good {
        assert_eq!(answer(&bench, hello_call(N, home, 2048)), 0);
    }
    let bad: [&[u32]; 11] = [
        &[a],
        &[a, OWN],
        &[a, OWN, 0, a],
        &[a, N, 0],
        &[a, OWN, 256],
        &[a, OWN, u32::MAX],
        &[a + 1, OWN, 0],
        &[address(224, 0, 0, 0), OWN, 0],
        &[a, address(128, 8, 0, 1), 0],
        &[a, OWN, 0, a, address(128, 8, 0, 1), 0],
        &[a, OWN, 0, address(128, 9, 1, 0), OWN, 0],
    ];
    for home in bad {
        assert_eq!(answer(&bench, hello_call(N, home, 2048)), 4, "{home:?}");
        // Before 5, and whatever the message is.
        assert_eq!(answer(&bench, hello_call(0, home, 2048)), 4);
        let call = Call::Message {
            address: N,
            octets: vec![],
            home: home.to_vec(),
            reply: buffer(2048),
        };
        assert_eq!(answer(&bench, call), 4);
    }
    let row = [a, OWN, 0];
    assert_eq!(answer(&bench, hello_call(N, &row.repeat(128), 2048)), 0);
    assert_eq!(answer(&bench, hello_call(N, &row.repeat(129), 2048)), 4);
}

#[test]
fn answer_5_for_an_unknown_address() {
    let bench = Gateway::new(1).bench;
    for unknown in [0, OWN, address(128, 9, 0, 7), u32::MAX] {
        for call in event_calls(unknown, 2048) {
            assert_eq!(answer(&bench, call), 5);
        }
        assert_eq!(answer(&bench, Call::Remove { address: unknown }), 5);
        // Before 6.
        let call = Call::Message {
            address: unknown,
            octets: vec![],
            home: vec![],
            reply: buffer(2048),
        };
        assert_eq!(answer(&bench, call), 5);
    }
}

#[test]
fn answer_6_for_the_size() {
    for state in [Idle, Acquisition, Down, Up, Cease] {
        let mut gateway = Gateway::with(in_state(state, Mode::Active));
        assert_eq!(gateway.message(&[]), got(6, &[]));
        assert_eq!(gateway.message(&[2; 9]), got(6, &[]));
        assert_eq!(gateway.message(&[2; 2049]), got(6, &[]));
        assert_eq!(gateway.message(&[0; 2048]), got(7, &[]));
    }
}

#[test]
fn answer_7_for_the_version() {
    let mut gateway = Gateway::with(in_state(Up, Mode::Active));
    for version in [0, 1, 3, 255] {
        let mut octets = peer(HELLO, 1, 9, &[]);
        octets[0] = version;
        assert_eq!(gateway.message(&sealed(octets.clone())), got(7, &[]));
        assert_eq!(gateway.message(&octets), got(7, &[]));
    }
}

#[test]
fn answer_8_for_the_checksum() {
    let mut gateway = Gateway::with(in_state(Up, Mode::Active));
    let right = peer(HELLO, 1, 9, &[]);
    for bit in 0..16 {
        let mut octets = right.clone();
        octets[4 + bit / 8] ^= 1 << (bit % 8);
        assert_eq!(gateway.message(&octets), got(8, &[]));
    }
    // Before 9.
    let mut stranger = raw(HELLO, 1, 12, 9, &[]);
    stranger[5] ^= 1;
    assert_eq!(gateway.message(&stranger), got(8, &[]));
}

#[test]
fn answer_9_and_its_refuse() {
    let stranger = |pair, status, rest: &[u8]| raw(pair, status, 12, 9, rest);
    let refuse = [ours(REFUSE, 4, 9, &[])];
    let mut idle = Gateway::with(in_state(Idle, Mode::None));
    for status in 0..=2 {
        let octets = stranger(REQUEST, status, &intervals(30, 120));
        assert_eq!(idle.message(&octets), got(9, &refuse));
        // Unacceptable intervals make no difference.
        let octets = stranger(REQUEST, status, &intervals(121, 65_535));
        assert_eq!(idle.message(&octets), got(9, &refuse));
    }
    for silent in [
        stranger(REQUEST, 3, &intervals(30, 120)),
        stranger(REQUEST, 0, &[]),
        stranger(REQUEST, 0, &[0; 5]),
        stranger(CONFIRM, 0, &intervals(30, 120)),
        stranger(CEASE, 0, &[]),
        stranger(HELLO, 1, &[]),
        stranger((4, 0), 0, &[]),
    ] {
        assert_eq!(idle.message(&silent), got(9, &[]));
    }
    for state in [Acquisition, Down, Up, Cease] {
        let mut gateway = Gateway::with(in_state(state, Mode::Active));
        let octets = stranger(REQUEST, 0, &intervals(30, 120));
        assert_eq!(gateway.message(&octets), got(9, &[]));
        assert_eq!(gateway.message(&stranger((4, 0), 99, &[])), got(9, &[]));
    }
}

/// Messages that answer 10, 11 and 12.
fn bad_headers() -> [(u8, Vec<u8>); 3] {
    [
        (10, peer((4, 0), 0, 9, &[])),
        (11, peer(HELLO, 3, 9, &[])),
        (12, peer(HELLO, 1, 9, &[0xEE])),
    ]
}

#[test]
fn answers_10_to_12_with_error_1_in_down_and_up() {
    for (number, octets) in bad_headers() {
        for state in [Idle, Acquisition, Cease] {
            let mut gateway = Gateway::with(in_state(state, Mode::Active));
            assert_eq!(gateway.message(&octets), got(number, &[]));
        }
        for (state, status) in [(Down, 2), (Up, 1)] {
            let mut gateway = Gateway::with(in_state(state, Mode::Active));
            // R as it was, not the message's number.
            let error = our_error(status, 5, 1, &octets);
            assert_eq!(error.len(), 24);
            assert_eq!(gateway.message(&octets), got(number, &[error]));
        }
    }
}

#[test]
fn no_error_to_a_message_of_type_8() {
    for state in [Down, Up] {
        let mut gateway = Gateway::with(in_state(state, Mode::Active));
        assert_eq!(gateway.message(&peer((8, 1), 0, 9, &[0; 14])), got(10, &[]));
        assert_eq!(gateway.message(&peer(ERROR, 3, 9, &[0; 14])), got(11, &[]));
        assert_eq!(gateway.message(&peer(ERROR, 0, 9, &[0; 13])), got(12, &[]));
    }
}

#[test]
fn error_quotes_twelve_octets_zero_filled() {
    let mut gateway = Gateway::with(in_state(Down, Mode::Active));
    for length in [10, 11, 12, 13, 30] {
        let octets = peer((4, 4), 0, 0x0A0B, &vec![0xEE; length - 10]);
        let answer = gateway.message(&octets);
        let sent = &answer.sent[0];
        let kept = length.min(12);
        assert_eq!(sent[12..12 + kept], octets[..kept]);
        assert!(sent[12 + kept..24].iter().all(|octet| *octet == 0));
        assert_eq!(sent[10..12], [0, 1]);
    }
}

#[test]
fn answer_13_outside_idle_for_five_kinds() {
    let responses = |sequence| {
        [
            confirm(0, sequence, 30, 120),
            peer(REFUSE, 0, sequence, &[]),
            peer(CEASE_ACK, 0, sequence, &[]),
            peer(I_H_U, 1, sequence, &[]),
            update(1, sequence, 0, 0, &[]),
        ]
    };
    for state in [Acquisition, Down, Up, Cease] {
        for sequence in [0, 3, 5, 65_535] {
            for octets in responses(sequence) {
                let mut gateway = Gateway::with(in_state(state, Mode::Active));
                assert_eq!(gateway.message(&octets), got(13, &[]));
                assert_eq!(gateway.n().heard, 0);
            }
        }
        for octets in responses(4) {
            let mut gateway = Gateway::with(in_state(state, Mode::Active));
            assert_eq!(gateway.message(&octets).answer, 0);
        }
    }
    for octets in responses(77) {
        let mut gateway = Gateway::with(in_state(Idle, Mode::None)).quiet();
        assert_eq!(gateway.message(&octets), got(0, &[]));
        assert_eq!(gateway.n(), in_state(Idle, Mode::None));
    }
}

/// What comes too soon, and with what is counted since the last: a Hello below 30, a Poll below
/// 120, about whatever net.
fn too_quick() -> [(Vec<u8>, Neighbour); 6] {
    let counted = |hello, poll| Neighbour {
        since_hello: hello,
        since_poll: poll,
        ..Neighbour::default()
    };
    [
        (peer(HELLO, 1, 9, &[]), counted(29, 120)),
        (peer(HELLO, 2, 9, &[]), counted(0, 30)),
        (poll(1, 9, NET), counted(120, 119)),
        (poll(0, 9, NET), counted(30, 30)),
        (poll(1, 9, address(10, 0, 0, 0)), counted(120, 119)),
        (poll(2, 9, NET + 1), counted(120, 0)),
    ]
}

/// 02, L5: "Refusals: 21, after 13, reply Error 4." [`Gateway::run`] sees to it that nothing changes.
#[test]
fn answer_21_in_down_and_up_with_error_4() {
    for (octets, counted) in too_quick() {
        for mode in [Mode::Active, Mode::Passive] {
            for (state, status) in [(Down, 2), (Up, 1)] {
                let mut gateway = Gateway::with(Neighbour {
                    since_hello: counted.since_hello,
                    since_poll: counted.since_poll,
                    ..in_state(state, mode)
                });
                // R as it was, not the message's number.
                let error = our_error(status, 5, 4, &octets);
                assert_eq!(gateway.message(&octets), got(21, &[error]));
                // One tick more, or as many as it takes.
                gateway.bench.state.neighbours[0].since_hello = counted.since_hello.max(30);
                gateway.bench.state.neighbours[0].since_poll = counted.since_poll.max(120);
                assert_eq!(gateway.message(&octets).answer, 0);
                assert_eq!(gateway.n().receive_sequence, 9);
            }
        }
    }
}

#[test]
fn nothing_is_too_quick_in_other_states() {
    for (octets, counted) in too_quick() {
        for state in [Acquisition, Cease] {
            let before = Neighbour {
                since_hello: counted.since_hello,
                since_poll: counted.since_poll,
                ..in_state(state, Mode::None)
            };
            let mut gateway = Gateway::with(before);
            assert_eq!(gateway.message(&octets), got(0, &[]));
            let after = Neighbour {
                receive_sequence: 9,
                ..before
            };
            assert_eq!(gateway.n(), after);
        }
        let mut idle = Gateway::new(1).quiet();
        assert_eq!(idle.message(&octets), got(0, &[]));
        assert_eq!(idle.n(), Neighbour::idle(N, PEER_AS));
    }
}

#[test]
fn answers_10_to_12_come_before_21() {
    let quick = Neighbour {
        since_hello: 0,
        since_poll: 0,
        ..in_state(Down, Mode::Active)
    };
    for (number, octets) in bad_headers() {
        let mut gateway = Gateway::with(quick);
        let error = our_error(2, 5, 1, &octets);
        assert_eq!(gateway.message(&octets), got(number, &[error]));
    }
}

/// 02, L6: checks 9 to 12 come first in Idle too, with the replies that 01 names.
#[test]
fn a_stray_is_checked_first() {
    for mut gateway in [Gateway::new(1), Gateway::new(1).quiet()] {
        for (pair, rest) in [
            (CONFIRM, 4),
            (REFUSE, 0),
            (HELLO, 0),
            (I_H_U, 0),
            (POLL, 6),
            (UPDATE, 6),
        ] {
            let rest = vec![0; rest];
            let good = peer(pair, 0, 9, &rest);
            let answer = gateway.message(&good);
            assert_eq!(answer.answer, 0);
            let drawn = answer.sent;
            let mut damaged = good.clone();
            damaged[4] ^= 1;
            assert_eq!(gateway.message(&damaged), got(8, &[]));
            assert_eq!(gateway.message(&raw(pair, 0, 12, 9, &rest)), got(9, &[]));
            for status in [8, 127, 131, 255] {
                let bad_status = peer(pair, status, 9, &rest);
                assert_eq!(gateway.message(&bad_status), got(11, &[]));
            }
            let bad_length = peer(pair, 0, 9, &[&rest[..], &[0]].concat());
            let answer = gateway.message(&bad_length);
            match pair {
                // Which may have any body, as long as its net is there.
                UPDATE => assert_eq!(answer, got(0, &drawn)),
                _ => assert_eq!(answer, got(12, &[])),
            }
            if !rest.is_empty() {
                let short = peer(pair, 0, 9, &rest[1..]);
                assert_eq!(gateway.message(&short), got(12, &[]));
            }
            assert_eq!(gateway.n(), Neighbour::idle(N, PEER_AS));
        }
        // 10, and a stranger's Request, which has a reply with either setting.
        assert_eq!(gateway.message(&peer((5, 2), 0, 9, &[])), got(10, &[]));
        let stranger = raw(REQUEST, 0, 12, 9, &intervals(30, 120));
        let refuse = [ours(REFUSE, 4, 9, &[])];
        assert_eq!(gateway.message(&stranger), got(9, &refuse));
    }
}

#[test]
fn answer_14_in_up_with_error_2() {
    let mut other_net = vec![0, 0];
    other_net.extend(address(128, 10, 0, 0).to_be_bytes());
    let bad = [
        update(1, 4, 1, 0, &[0]),
        update(1, 4, 0, 0, &[0]),
        update(1, 4, 1, 0, &[0, 5, 1, 0, 1, 224]),
        peer(UPDATE, 1, 4, &other_net),
    ];
    for octets in bad {
        let mut gateway = Gateway::with(in_state(Up, Mode::Active));
        let error = our_error(1, 5, 2, &octets);
        assert_eq!(gateway.message(&octets), got(14, &[error]));
        assert_eq!(gateway.n().heard, 0);
        for state in [Idle, Acquisition, Down, Cease] {
            let mut gateway = Gateway::with(in_state(state, Mode::Passive)).quiet();
            assert_eq!(gateway.message(&octets), got(0, &[]));
        }
    }
}

#[test]
fn answer_15_in_up_with_error_0() {
    let mut blocks = vec![0, 5, 1, 0, 129];
    blocks.extend([10; 129]);
    let octets = update(1, 4, 1, 0, &blocks);
    let mut gateway = Gateway::with(in_state(Up, Mode::Active));
    let error = our_error(1, 5, 0, &octets);
    assert_eq!(gateway.message(&octets), got(15, &[error]));
    blocks.push(0);
    let octets = update(1, 4, 1, 0, &blocks);
    assert_eq!(gateway.message(&octets).answer, 14);
    let mut gateway = Gateway::with(in_state(Down, Mode::Active));
    assert_eq!(gateway.message(&octets), got(0, &[]));
}

#[test]
fn answer_16_from_fresh() {
    let refused = |outcome: gateway::Outcome| {
        assert_eq!(outcome.answer, Answer::BadSetting);
        assert_eq!(outcome.lengths, (0, 0));
        assert_eq!(outcome.state, State::default());
        assert!(!outcome.state.is_well_formed());
    };
    refused(gateway::fresh(0, OWN, 0, NET, 0));
    refused(gateway::fresh(9, OWN, 3, NET, 0));
    refused(gateway::fresh(9, OWN, 255, NET, 0));
    refused(gateway::fresh(9, OWN, 0, OWN, 0));
    refused(gateway::fresh(9, OWN, 0, address(128, 10, 0, 0), 0));
    refused(gateway::fresh(
        9,
        address(224, 0, 0, 1),
        0,
        address(224, 0, 0, 0),
        0,
    ));
    refused(gateway::fresh(9, address(128, 8, 0, 1), 0, NET, 0));
    for quiet in [2, 3, 128, 255] {
        refused(gateway::fresh(9, OWN, 0, NET, quiet));
    }
    for (capability, quiet) in (0..=2).flat_map(|capability| [(capability, 0), (capability, 1)]) {
        let good = gateway::fresh(9, OWN, capability, NET, quiet);
        assert_eq!(good.answer, Answer::Done);
        assert!(good.state.is_well_formed());
        assert_eq!(good.state.neighbours, [Neighbour::default(); 8]);
        let own = (good.state.as_number, good.state.address, good.state.net);
        assert_eq!(own, (9, OWN, NET));
        assert_eq!(
            (good.state.capability, good.state.quiet),
            (capability, quiet)
        );
    }
}

#[test]
fn answer_16_from_add() {
    let bench = Gateway::new(1).bench;
    let new = address(128, 9, 0, 8);
    for (address, as_number) in [(new, 0), (new, OWN_AS), (0, 7), (OWN, 7), (N, 7), (P, 8)] {
        let call = Call::Add { address, as_number };
        assert_eq!(answer(&bench, call), 16);
    }
}

#[test]
fn answer_17_when_all_slots_are_used() {
    let mut state = gateway::fresh(OWN_AS, OWN, 0, NET, 0).state;
    for slot in 0..8 {
        let outcome = gateway::add(&state, N + slot, PEER_AS);
        assert_eq!(outcome.answer, Answer::Done);
        state = outcome.state;
        assert_eq!(
            state.neighbours[slot as usize],
            Neighbour::idle(N + slot, PEER_AS)
        );
    }
    let full = gateway::add(&state, N + 8, PEER_AS);
    assert_eq!(full.answer, Answer::NoFreeSlot);
    assert_eq!(full.state, state);
    // 16 stands before 17.
    assert_eq!(gateway::add(&state, N, 8).answer, Answer::BadSetting);
    // A removed slot is free again, and the lowest free one is taken.
    state = gateway::remove(&state, N + 5).state;
    state = gateway::remove(&state, N + 2).state;
    assert_eq!(state.neighbours[2], Neighbour::default());
    state = gateway::add(&state, N + 8, 3).state;
    assert_eq!(state.neighbours[2], Neighbour::idle(N + 8, 3));
    assert_eq!(state.neighbours[5], Neighbour::default());
}

#[test]
fn answer_18_unless_idle() {
    for state in [Acquisition, Down, Up, Cease] {
        let gateway = Gateway::with(in_state(state, Mode::Active));
        assert_eq!(answer(&gateway.bench, Call::Remove { address: N }), 18);
    }
    let mut gateway = Gateway::new(1);
    let call = Call::Remove { address: N };
    assert_eq!(gateway.run(call).answer, Answer::Done);
    assert_eq!(gateway.n(), Neighbour::default());
    assert_eq!(gateway.state().neighbours[1], Neighbour::idle(P, PEER_AS));
}

/// Five counts that add up to this.
fn seconds_of(sum: u64) -> Seconds {
    Seconds {
        idle: (sum - 3_000_000_010) as u32,
        acquisition: 1_000_000_000,
        down: 10,
        up: 2_000_000_000,
        cease: 0,
    }
}

/// N in this state with all its timers about to run out, and these seconds.
fn last_second(state: NeighbourState, seconds: Seconds) -> Gateway {
    let neighbour = in_state(state, Mode::Active);
    Gateway::with(Neighbour {
        t1: neighbour.t1.min(1),
        t2: neighbour.t2.min(1),
        t3: neighbour.t3.min(1),
        seconds,
        ..neighbour
    })
}

/// 02, L7: "22, a tick when the sum is 4,294,967,295". [`Gateway::run`] sees to it that nothing
/// changes.
#[test]
fn answer_22_for_a_tick_at_the_full_sum() {
    for state in [Idle, Acquisition, Down, Up, Cease] {
        let mut gateway = last_second(state, seconds_of(4_294_967_295));
        assert_eq!(gateway.tick(), got(22, &[]));
        assert_eq!(gateway.tick(), got(22, &[]));
        // Whatever count the seconds are in.
        for only in [Idle, Acquisition, Down, Up, Cease] {
            let mut seconds = Seconds::default();
            *seconds.of_mut(only) = u32::MAX;
            assert_eq!(last_second(state, seconds).tick(), got(22, &[]));
            *seconds.of_mut(only) = u32::MAX - 1;
            let mut gateway = Gateway::with(Neighbour {
                seconds,
                ..in_state(state, Mode::Active)
            });
            assert_eq!(gateway.tick(), got(0, &[]));
            *seconds.of_mut(state) += 1;
            assert_eq!(gateway.n().seconds, seconds);
            assert_eq!(gateway.tick(), got(22, &[]));
        }
    }
}

/// "After 5", so after 1, 2 and 3 too; of nobody there are no seconds.
#[test]
fn answer_22_comes_last() {
    let bench = last_second(Up, seconds_of(4_294_967_295)).bench;
    let tick = |address, length| Call::Tick {
        address,
        reply: buffer(length),
    };
    assert_eq!(answer(&bench, tick(N, 2048)), 22);
    assert_eq!(answer(&bench, tick(N, 2047)), 3);
    for unknown in [0, OWN, P + 1] {
        assert_eq!(answer(&bench, tick(unknown, 2048)), 5);
    }
    // Another neighbour has seconds of its own.
    assert_eq!(answer(&bench, tick(P, 2048)), 0);
    let mut wrong = bench.clone();
    wrong.table.pop();
    assert_eq!(answer(&wrong, tick(N, 2048)), 2);
    wrong.state.neighbours[1].heard = 1;
    assert_eq!(answer(&wrong, tick(N, 2048)), 1);
}

/// What is no tick is carried out as ever, and counts nothing.
#[test]
fn only_ticks_are_refused_22() {
    let full = seconds_of(4_294_967_295);
    for state in [Idle, Acquisition, Down, Up, Cease] {
        let before = Neighbour {
            seconds: full,
            ..in_state(state, Mode::Active)
        };
        let octets = [
            request(0, 9, 30, 120),
            request(0, 9, 121, 120),
            confirm(0, 4, 30, 120),
            peer(REFUSE, 0, 4, &[]),
            peer(CEASE, 0, 9, &[]),
            peer(CEASE_ACK, 0, 4, &[]),
            peer(HELLO, 1, 9, &[]),
            peer(I_H_U, 1, 4, &[]),
            poll(1, 9, NET),
            update(1, 4, 1, 0, &[0, 5, 1, 0, 1, 10]),
            peer(ERROR, 1, 9, &[0; 14]),
        ];
        for octets in octets {
            let mut gateway = Gateway::with(before);
            assert_eq!(gateway.message(&octets).answer, 0);
            assert_eq!(gateway.n().seconds, full);
        }
        let mut gateway = Gateway::with(before);
        assert_eq!(gateway.start().answer, 0);
        assert_eq!(gateway.n().seconds, full);
        let mut gateway = Gateway::with(before);
        assert_eq!(gateway.stop().answer, 0);
        assert_eq!(gateway.n().seconds, full);
        assert!(gateway.listing().is_ok());
        // Even a refused message is not refused for the seconds.
        assert_eq!(gateway.message(&[0; 9]), got(6, &[]));
    }
    let mut gateway = last_second(Idle, full);
    assert_eq!(
        gateway.run(Call::Remove { address: N }).answer,
        Answer::Done
    );
    assert_eq!(gateway.n(), Neighbour::default());
}

#[test]
fn listing_makes_2_before_3() {
    let mut gateway = Gateway::with(in_state(Up, Mode::Active));
    gateway.bench.table[2] = 600;
    let mut short = vec![FILL; 10];
    let outcome = listing::listing(gateway.state(), &gateway.bench.table, &mut short);
    assert_eq!(outcome.answer, Answer::BadTable);
    assert_eq!(short, vec![FILL; 10]);
}

/// Whether the state with N so changed is well formed.
fn well_formed(neighbour: Neighbour, change: impl Fn(&mut Neighbour)) -> bool {
    let mut state = *Gateway::new(1).state();
    state.neighbours[0] = neighbour;
    assert!(state.is_well_formed());
    change(&mut state.neighbours[0]);
    state.is_well_formed()
}

#[test]
fn well_formed_own_values() {
    let good = *Gateway::new(1).state();
    let with = |change: &dyn Fn(&mut State)| {
        let mut state = good;
        change(&mut state);
        state.is_well_formed()
    };
    assert!(with(&|_| {}));
    assert!(!with(&|state| state.as_number = 0));
    assert!(!with(&|state| state.as_number = PEER_AS));
    assert!(!with(&|state| state.capability = 3));
    assert!(with(&|state| state.capability = 2));
    assert!(with(&|state| state.quiet = 1));
    assert!(!with(&|state| state.quiet = 2));
    assert!(!with(&|state| state.quiet = 255));
    assert!(!with(&|state| state.net = OWN));
    assert!(!with(&|state| state.net = address(10, 0, 0, 0)));
    assert!(!with(&|state| state.address = address(128, 8, 0, 1)));
    assert!(!with(&|state| state.address = N));
    assert!(!with(&|state| state.neighbours[7] = Neighbour::idle(N, 8)));
    assert!(with(
        &|state| state.neighbours[7] = Neighbour::idle(OWN + 1, 7)
    ));
    assert!(!with(&|state| state.neighbours[0].as_number = 0));
    assert!(!with(&|state| state.neighbours[7].as_number = 1));
    assert!(!with(&|state| state.neighbours[7].row_count = 1));
    assert!(!with(&|state| state.neighbours[7].since_hello = 1));
    assert!(!with(&|state| state.neighbours[7].since_poll = 1));
    for only in [Idle, Acquisition, Down, Up, Cease] {
        for count in [1, 1 << 8, 1 << 16, 1 << 24, u32::MAX] {
            assert!(!with(&|state| {
                *state.neighbours[7].seconds.of_mut(only) = count;
            }));
        }
    }
    // Holes are allowed.
    assert!(with(&|state| state.neighbours[0] = Neighbour::default()));
}

#[test]
fn well_formed_in_idle_is_bare() {
    let idle = in_state(Idle, Mode::None);
    type Change = fn(&mut Neighbour);
    let changes: [Change; 15] = [
        |n| n.send_sequence = 1,
        |n| n.receive_sequence = 1,
        |n| n.hello_interval = 32,
        |n| n.poll_interval = 122,
        |n| n.mode = Mode::Active,
        |n| n.t1 = 1,
        |n| n.t2 = 1,
        |n| n.t3 = 1,
        |n| n.register = 1,
        |n| n.heard = 1,
        |n| n.cause = 5,
        |n| n.row_count = 1,
        |n| n.since_hello = 1,
        |n| n.since_poll = 1,
        |n| n.state = Cease,
    ];
    for change in changes {
        assert!(!well_formed(idle, change));
    }
}

/// 02, L7: "well formed now allows it, with a sum of at most 4,294,967,295".
#[test]
fn well_formed_seconds() {
    for state in [Idle, Acquisition, Down, Up, Cease] {
        let neighbour = in_state(state, Mode::Active);
        let with = |seconds: Seconds| well_formed(neighbour, |n| n.seconds = seconds);
        assert!(with(Seconds::default()));
        assert!(with(seconds_of(4_294_967_294)));
        assert!(with(seconds_of(4_294_967_295)));
        assert!(!with(seconds_of(4_294_967_296)));
        for only in [Idle, Acquisition, Down, Up, Cease] {
            let mut seconds = Seconds::default();
            *seconds.of_mut(only) = u32::MAX;
            assert!(with(seconds));
            for other in [Idle, Acquisition, Down, Up, Cease] {
                // In 32 bits they would add up to 0.
                let mut seconds = seconds;
                *seconds.of_mut(other) = seconds.of(other).wrapping_add(1).max(1);
                assert_eq!(with(seconds), only == other);
            }
        }
        let every = |count| Seconds {
            idle: count,
            acquisition: count,
            down: count,
            up: count,
            cease: count,
        };
        assert!(with(every(858_993_459)));
        assert!(!with(every(858_993_460)));
        assert!(!with(every(u32::MAX)));
    }
}

#[test]
fn well_formed_timers() {
    for state in [Acquisition, Down, Up, Cease] {
        let neighbour = in_state(state, Mode::Passive);
        assert!(well_formed(neighbour, |n| n.t1 = 122));
        assert!(!well_formed(neighbour, |n| n.t1 = 123));
        assert!(well_formed(neighbour, |n| n.t1 = 1));
        assert!(!well_formed(neighbour, |n| n.t1 = 0));
        assert!(well_formed(neighbour, |n| n.t3 = 3600));
        assert!(!well_formed(neighbour, |n| n.t3 = 3601));
        assert!(!well_formed(neighbour, |n| n.t3 = 0));
        let up = state == Up;
        assert_eq!(well_formed(neighbour, |n| n.t2 = 0), !up);
        assert_eq!(well_formed(neighbour, |n| n.t2 = 1), up);
        assert_eq!(well_formed(neighbour, |n| n.t2 = 482), up);
        assert!(!well_formed(neighbour, |n| n.t2 = 483));
        // Ticks since the last Hello and Poll.
        for (count, good) in [(0, true), (120, true), (121, false), (255, false)] {
            assert_eq!(well_formed(neighbour, |n| n.since_hello = count), good);
            assert_eq!(well_formed(neighbour, |n| n.since_poll = count), good);
        }
        // Sequence numbers are any 16 bits.
        assert!(well_formed(neighbour, |n| n.send_sequence = 65_535));
        assert!(well_formed(neighbour, |n| n.receive_sequence = 65_535));
        // Rows in Up only.
        assert!(well_formed(neighbour, |n| n.row_count = 0));
        assert_eq!(well_formed(neighbour, |n| n.row_count = 128), up);
        assert!(!well_formed(neighbour, |n| n.row_count = 129));
    }
}

#[test]
fn well_formed_reachability_and_terms() {
    for state in [Acquisition, Down, Up, Cease] {
        let neighbour = in_state(state, Mode::Active);
        let acquired = state == Down || state == Up;
        assert!(well_formed(neighbour, |n| n.register = 0));
        assert_eq!(well_formed(neighbour, |n| n.register = 15), acquired);
        assert!(!well_formed(neighbour, |n| n.register = 16));
        assert_eq!(well_formed(neighbour, |n| n.heard = 1), acquired);
        assert!(!well_formed(neighbour, |n| n.heard = 2));
        for (value, inside) in [
            (0, false),
            (31, false),
            (32, true),
            (122, true),
            (123, false),
        ] {
            let expected = if acquired { inside } else { value == 0 };
            assert_eq!(
                well_formed(neighbour, |n| n.hello_interval = value),
                expected
            );
        }
        for (value, inside) in [
            (0, false),
            (121, false),
            (122, true),
            (482, true),
            (483, false),
        ] {
            let expected = if acquired { inside } else { value == 0 };
            assert_eq!(
                well_formed(neighbour, |n| n.poll_interval = value),
                expected
            );
        }
        assert_eq!(well_formed(neighbour, |n| n.mode = Mode::None), !acquired);
        assert_eq!(well_formed(neighbour, |n| n.mode = Mode::Passive), acquired);
        for cause in [0, 4, 5, 6, 7] {
            let expected = match state {
                Cease => cause == 5 || cause == 6,
                _ => cause == 0,
            };
            assert_eq!(well_formed(neighbour, |n| n.cause = cause), expected);
        }
    }
}
