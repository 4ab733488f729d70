//! The places the papers leave open, as they are read: one case for each that names an input. The
//! number in a test's name is the reading's.

mod common;

use common::*;
use reference::answer::Answer;
use reference::call::{Buffer, Call};
use reference::gateway;
use reference::message::{self, Body, Message};
use reference::neighbour::{Mode, Neighbour, Seconds};
use reference::net::address;
use reference::update::Row;

const OTHER_NET: u32 = address(10, 0, 0, 0);

fn changed(neighbour: Neighbour, change: impl FnOnce(&mut Neighbour)) -> Neighbour {
    let mut after = neighbour;
    change(&mut after);
    after
}

/// N in this state with its variables changed, own capability 1.
fn gateway_with(
    state: reference::neighbour::NeighbourState,
    mode: Mode,
    change: impl FnOnce(&mut Neighbour),
) -> Gateway {
    Gateway::with(changed(in_state(state, mode), change))
}

fn read(octets: &[u8], net: u32) -> Result<Message, u8> {
    message::read(octets, net).map_err(Answer::number)
}

fn write(message: &Message) -> Result<Vec<u8>, u8> {
    let mut buffer = vec![0; 2048];
    message::write(message, &[], &mut buffer)
        .map(|length| buffer[..length].to_vec())
        .map_err(Answer::number)
}

fn update_meaning(net: u32, rows: Vec<Row>) -> Message {
    Message {
        status: 1,
        as_number: 7,
        sequence: 1,
        body: Body::Update { net, rows },
    }
}

fn row(net: u32, gateway: u32, distance: u32) -> Row {
    Row {
        net,
        gateway,
        distance,
    }
}

// Sequence numbers.

#[test]
fn b01_a_refused_command_does_not_set_r() {
    let mut gateway = gateway_with(Down, Mode::Active, |_| {});
    let octets = hex("02 05 00 03 FD E7 00 07 00 09");
    let error = our_error(2, 5, 1, &octets);
    assert_eq!(gateway.message(&octets), got(11, &[error]));
    assert_eq!(gateway.n().receive_sequence, 5);
}

#[test]
fn b02_a_command_without_effect_still_sets_r() {
    let octets = hex("02 05 00 01 FD E9 00 07 00 09");
    let mut gateway = gateway_with(Acquisition, Mode::None, |n| n.receive_sequence = 0);
    let before = gateway.n();
    assert_eq!(gateway.message(&octets), got(0, &[]));
    assert_eq!(gateway.n(), changed(before, |n| n.receive_sequence = 9));
    let mut gateway = gateway_with(Cease, Mode::None, |_| {});
    assert_eq!(gateway.message(&octets), got(0, &[]));
    assert_eq!(gateway.n().receive_sequence, 9);
    for state in [Acquisition, Down, Cease] {
        let mut gateway = gateway_with(state, Mode::Active, |_| {});
        assert_eq!(gateway.message(&poll(0, 9, NET)), got(0, &[]));
        assert_eq!(gateway.n().receive_sequence, 9);
    }
}

#[test]
fn b03_a_poll_for_another_net_is_carried_out() {
    let octets = hex("02 02 00 01 F3 EC 00 07 00 09 00 00 0A 00 00 00");
    let mut gateway = gateway_with(Up, Mode::Passive, |_| {});
    let error = our_error(1, 9, 3, &octets);
    assert_eq!(gateway.message(&octets), got(0, &[error]));
    let n = gateway.n();
    assert_eq!((n.receive_sequence, n.heard, n.t3), (9, 1, 3600));
    assert_eq!((n.since_hello, n.since_poll), (SINCE_HELLO, 0));
}

#[test]
fn b04_r_is_set_before_cease_6() {
    let octets = hex("02 03 00 00 FC FB 00 07 00 09 00 79 00 78");
    let mut gateway = gateway_with(Down, Mode::Active, |_| {});
    let cease = ours(CEASE, 6, 4, &[]);
    assert_eq!(gateway.message(&octets), got(0, &[cease]));
    assert_eq!(
        (gateway.n().state, gateway.n().receive_sequence),
        (Cease, 9)
    );
}

#[test]
fn b05_a_request_in_up_keeps_s() {
    let mut gateway = gateway_with(Up, Mode::Active, |_| {});
    let sent = [our_confirm(1, 9), our_hello(2, 4)];
    assert_eq!(gateway.message(&request(0, 9, 30, 120)), got(0, &sent));
    assert_eq!(gateway.n().send_sequence, 4);
}

#[test]
fn b06_start_in_up_keeps_s_and_r() {
    let mut gateway = gateway_with(Up, Mode::Active, |_| {});
    assert_eq!(gateway.start(), got(0, &[our_request(1, 4)]));
    assert_eq!(gateway.n().receive_sequence, 5);
    assert_eq!(gateway.message(&confirm(0, 0, 30, 120)), got(13, &[]));
    assert_eq!(gateway.message(&confirm(0, 4, 30, 120)).answer, 0);
}

#[test]
fn b07_in_idle_responses_carry_the_commands_number() {
    let mut gateway = Gateway::new(1);
    let refuse = ours(REFUSE, 6, 9, &[]);
    assert_eq!(gateway.message(&request(0, 9, 121, 120)), got(0, &[refuse]));
    assert_eq!(gateway.n(), Neighbour::idle(N, PEER_AS));
    let ack = ours(CEASE_ACK, 0, 9, &[]);
    assert_eq!(gateway.message(&peer(CEASE, 0, 9, &[])), got(0, &[ack]));
    assert_eq!(gateway.n(), Neighbour::idle(N, PEER_AS));
}

#[test]
fn b08_the_refuse_of_check_9() {
    let mut gateway = Gateway::new(1);
    let octets = hex("02 03 00 00 FD 51 00 0C 00 09 00 1E 00 78");
    let refuse = ours(REFUSE, 4, 9, &[]);
    assert_eq!(gateway.message(&octets), got(9, &[refuse]));
}

#[test]
fn b09_cease_sends_its_cause_and_keeps_its_timers() {
    let mut gateway = gateway_with(Cease, Mode::None, |n| {
        n.t1 = 12;
        n.t3 = 50;
    });
    let before = gateway.n();
    let cease = ours(CEASE, 6, 4, &[]);
    assert_eq!(gateway.message(&request(0, 9, 30, 120)), got(0, &[cease]));
    assert_eq!(gateway.n(), changed(before, |n| n.receive_sequence = 9));
}

#[test]
fn b10_out_of_sequence_everywhere_but_idle() {
    let octets = hex("02 05 01 01 FC ED 00 07 00 05");
    let mut gateway = gateway_with(Acquisition, Mode::None, |n| n.send_sequence = 0);
    assert_eq!(gateway.message(&octets), got(13, &[]));
    let mut gateway = gateway_with(Up, Mode::Active, |_| {});
    assert_eq!(gateway.message(&peer(REFUSE, 0, 5, &[])), got(13, &[]));
}

#[test]
fn b11_an_unsolicited_update_must_carry_s_too() {
    let octets = hex("02 01 00 81 7D 69 00 07 00 04 00 00 80 09 00 00");
    let mut gateway = gateway_with(Up, Mode::Active, |n| n.send_sequence = 3);
    assert_eq!(gateway.message(&octets), got(13, &[]));
}

#[test]
fn b12_an_error_is_never_out_of_sequence() {
    let mut octets = hex("02 08 00 01 FD A0 00 07 00 4D 00 02");
    octets.extend([0; 12]);
    let mut gateway = gateway_with(Down, Mode::Active, |n| n.send_sequence = 0);
    let before = gateway.bench.clone();
    assert_eq!(gateway.message(&octets), got(0, &[]));
    assert_eq!(gateway.bench, before);
}

#[test]
fn b13_s_rises_between_hello_and_poll() {
    let mut gateway = gateway_with(Down, Mode::Active, |n| {
        n.send_sequence = 0;
        n.register = 0b0011;
        n.heard = 1;
        n.t1 = 1;
    });
    let sent = [our_hello(1, 0), our_poll(1)];
    assert_eq!(gateway.tick(), got(0, &sent));
    // So the answer to that Hello is out of sequence.
    assert_eq!(gateway.message(&peer(I_H_U, 1, 0, &[])), got(13, &[]));
}

#[test]
fn b14_s_turns_to_0_and_responses_must_carry_it() {
    let mut gateway = gateway_with(Up, Mode::Active, |n| {
        n.send_sequence = 65_535;
        n.t2 = 1;
    });
    assert_eq!(gateway.tick(), got(0, &[our_poll(0)]));
    assert_eq!(gateway.message(&peer(I_H_U, 1, 65_535, &[])), got(13, &[]));
    assert_eq!(gateway.message(&peer(I_H_U, 1, 0, &[])), got(0, &[]));
}

// Order of checks.

#[test]
fn b15_the_as_is_looked_at_before_the_kind() {
    let octets = hex("02 04 00 00 FD E6 00 0C 00 09");
    let mut gateway = Gateway::new(1);
    assert_eq!(gateway.message(&octets), got(9, &[]));
    let short = raw(REQUEST, 0, 12, 9, &[]);
    assert_eq!(gateway.message(&short), got(9, &[]));
}

#[test]
fn b16_a_strangers_unacceptable_request_gets_refuse_4() {
    let octets = hex("02 03 00 00 FC F6 00 0C 00 09 00 79 00 78");
    let mut gateway = Gateway::new(1);
    let refuse = ours(REFUSE, 4, 9, &[]);
    assert_eq!(gateway.message(&octets), got(9, &[refuse]));
}

#[test]
fn b17_sequence_before_body() {
    let octets = hex("02 01 00 01 7C E8 00 07 00 05 01 00 80 09 00 00 00");
    let mut gateway = gateway_with(Up, Mode::Active, |n| n.send_sequence = 1);
    assert_eq!(gateway.message(&octets), got(13, &[]));
}

#[test]
fn b18_a_bad_body_in_down_is_carried_out() {
    let octets = hex("02 01 00 01 7C ED 00 07 00 00 01 00 80 09 00 00 00");
    let mut gateway = gateway_with(Down, Mode::Active, |n| n.send_sequence = 0);
    assert_eq!(gateway.message(&octets), got(0, &[]));
    assert_eq!((gateway.n().heard, gateway.n().t3), (1, 3600));
}

#[test]
fn b19_a_defect_after_row_129() {
    let mut blocks = vec![0, 5, 2, 0, 129];
    blocks.extend([10; 129]);
    blocks.extend([1, 1]);
    let octets = update(1, 4, 1, 0, &blocks);
    assert_eq!(octets.len(), 152);
    let mut gateway = gateway_with(Up, Mode::Active, |_| {});
    assert_eq!(gateway.message(&octets).answer, 14);
    assert_eq!(read(&octets, NET), Err(14));
}

#[test]
fn b20_the_home_list_comes_before_the_address() {
    let mut gateway = Gateway::new(1);
    gateway.home = vec![OTHER_NET];
    let hello = peer(HELLO, 1, 9, &[]);
    assert_eq!(gateway.message_from(77, &hello), got(4, &[]));
    assert_eq!(gateway.message(&hello), got(4, &[]));
}

#[test]
fn b21_address_0_is_no_neighbour() {
    let state = gateway::fresh(OWN_AS, OWN, 1, NET, 0).state;
    let mut table = vec![0; 3072];
    let mut reply = vec![0; 2048];
    let hello = peer(HELLO, 1, 9, &[]);
    let answers = [
        gateway::message(&state, &mut table, &mut reply, &[], 0, &hello),
        gateway::tick(&state, &mut table, &mut reply, 0),
        gateway::start(&state, &mut table, &mut reply, 0),
        gateway::stop(&state, &mut table, &mut reply, 0),
        gateway::remove(&state, 0),
    ];
    for outcome in answers {
        assert_eq!(outcome.answer.number(), 5);
        assert_eq!(outcome.state, state);
    }
}

#[test]
fn b22_the_buffer_is_asked_for_even_if_nothing_is_sent() {
    let mut gateway = Gateway::new(1);
    let reply = Buffer {
        length: 10,
        fill: FILL,
    };
    let record = gateway.run(Call::Tick { address: N, reply });
    assert_eq!(record.answer.number(), 3);
}

#[test]
fn b23_the_writer_asks_for_the_whole_buffer() {
    let hello = Message {
        status: 1,
        as_number: 7,
        sequence: 1,
        body: Body::Hello,
    };
    let mut buffer = vec![FILL; 100];
    let answer = message::write(&hello, &[], &mut buffer).map_err(Answer::number);
    assert_eq!(answer, Err(3));
    assert_eq!(buffer, vec![FILL; 100]);
}

#[test]
fn b24_reading_needs_no_buffer() {
    assert!(read(&hex(CASE_U), NET).is_ok());
}

#[test]
fn b25_a_bad_net_is_found_after_12_and_in_updates_only() {
    let bad = address(224, 0, 0, 0);
    assert_eq!(read(&peer(UPDATE, 1, 1, &[0, 0]), bad), Err(12));
    assert!(read(&peer(HELLO, 1, 1, &[]), bad).is_ok());
    let mut rest = vec![0, 0];
    rest.extend(bad.to_be_bytes());
    assert_eq!(read(&peer(UPDATE, 1, 1, &rest), bad), Err(14));
}

#[test]
fn b26_no_error_to_any_message_of_type_8() {
    let octets = hex("02 08 01 00 FC E7 00 07 00 09");
    let mut gateway = gateway_with(Down, Mode::Active, |_| {});
    assert_eq!(gateway.message(&octets), got(10, &[]));
}

#[test]
fn b27_no_error_outside_down_and_up() {
    let octets = peer(HELLO, 1, 9, &[0]);
    let mut gateway = gateway_with(Acquisition, Mode::None, |_| {});
    assert_eq!(gateway.message(&octets), got(12, &[]));
}

#[test]
fn b28_a_refused_fresh_gives_the_all_zero_state() {
    let outcome = gateway::fresh(0, OWN, 1, NET, 0);
    assert_eq!(outcome.answer.number(), 16);
    assert_eq!(outcome.state, gateway::State::default());
}

#[test]
fn b29_add_makes_16_before_17() {
    let mut state = gateway::fresh(OWN_AS, OWN, 1, NET, 0).state;
    for host in 0..8 {
        state = gateway::add(&state, N + host, PEER_AS).state;
    }
    assert_eq!(gateway::add(&state, N, PEER_AS).answer.number(), 16);
    assert_eq!(gateway::add(&state, N + 8, PEER_AS).answer.number(), 17);
}

#[test]
fn b30_a_used_row_is_one_below_the_count() {
    let mut gateway = gateway_with(Up, Mode::Active, |n| n.row_count = 0);
    gateway.bench.table[2] = 9999;
    assert!(gateway.listing().is_ok());
}

#[test]
fn b31_a_listing_makes_2_before_3() {
    let mut gateway = gateway_with(Up, Mode::Active, |_| {});
    gateway.bench.table[2] = 600;
    let buffer = Buffer {
        length: 10,
        fill: FILL,
    };
    let record = gateway.run(Call::Listing { buffer });
    assert_eq!(record.answer.number(), 2);
}

// Octets and nets.

#[test]
fn b32_net_0_and_address_0_are_good() {
    let outcome = gateway::fresh(OWN_AS, 0, 0, 0, 0);
    assert_eq!(outcome.answer.number(), 0);
    let mut state = gateway::add(&outcome.state, N, PEER_AS).state;
    state.neighbours[0] = changed(in_state(Up, Mode::Active), |n| {
        n.send_sequence = 1;
        n.row_count = 0;
    });
    assert!(state.is_well_formed());
    let octets = hex("02 01 00 01 FC F3 00 07 00 01 01 00 00 00 00 00 00 00 00 01 00 01 00");
    let mut table = vec![0; 3072];
    table[0] = 5;
    let mut reply = vec![0; 2048];
    let outcome = gateway::message(&state, &mut table, &mut reply, &[], N, &octets);
    assert_eq!(outcome.answer.number(), 0);
    assert_eq!(outcome.state.neighbours[0].row_count, 1);
    assert_eq!(table, vec![0; 3072]);
}

#[test]
fn b33_any_host_part_is_allowed() {
    assert_eq!(gateway::fresh(OWN_AS, NET, 1, NET, 0).answer.number(), 0);
    let ones = address(128, 9, 255, 255);
    assert_eq!(gateway::fresh(OWN_AS, ones, 1, NET, 0).answer.number(), 0);
    let loopback = address(127, 0, 0, 0);
    assert_eq!(
        gateway::fresh(9, loopback + 1, 1, loopback, 0)
            .answer
            .number(),
        0
    );
}

#[test]
fn b34_a_neighbour_may_be_anywhere() {
    let state = gateway::fresh(OWN_AS, OWN, 1, NET, 0).state;
    let outcome = gateway::add(&state, address(224, 0, 0, 1), PEER_AS);
    assert_eq!(outcome.answer.number(), 0);
    assert!(outcome.state.is_well_formed());
}

#[test]
fn b35_cease_does_not_know_status_1_and_2() {
    let mut gateway = Gateway::new(1);
    for status in [1, 2, 8] {
        assert_eq!(gateway.message(&peer(CEASE, status, 9, &[])), got(11, &[]));
    }
}

#[test]
fn b36_ffff_is_not_0000() {
    let wrong = hex("02 05 00 02 FF FF FD F8 00 00");
    assert_eq!(read(&wrong, NET), Err(8));
}

#[test]
fn b37_the_odd_octet_is_a_high_half() {
    let octets = sealed(hex(CASE_U));
    assert_eq!(octets[4..6], [0xB3, 0xD7]);
}

#[test]
fn b38_gateway_counts_follow_from_the_rows() {
    let rows = vec![row(OTHER_NET, N, 0)];
    let octets = write(&update_meaning(NET, rows.clone())).expect("written");
    assert_eq!(octets[10..12], [1, 0]);
    assert_eq!(read(&octets, NET), Ok(update_meaning(NET, rows)));
}

#[test]
fn b39_octets_come_back_where_grouped() {
    let two_blocks = update(1, 1, 2, 0, &[0, 5, 1, 0, 1, 10, 0, 5, 1, 0, 1, 11]);
    let message = read(&two_blocks, NET).expect("good");
    let one_block = update(1, 1, 1, 0, &[0, 5, 1, 0, 2, 10, 11]);
    assert_eq!(write(&message), Ok(one_block.clone()));
    assert_eq!(read(&one_block, NET), Ok(message));
    let empty_block = update(1, 1, 1, 0, &[0, 5, 0]);
    let message = read(&empty_block, NET).expect("good");
    assert_eq!(write(&message), Ok(update(1, 1, 0, 0, &[])));
}

#[test]
fn b40_the_writer_refuses_only_what_reading_cannot_give() {
    let hello = Message {
        status: 1,
        as_number: 0,
        sequence: 1,
        body: Body::Hello,
    };
    assert!(write(&hello).is_ok());
    let unsolicited = Message {
        status: 129,
        ..update_meaning(NET, vec![])
    };
    assert!(write(&unsolicited).is_ok());
    let far = update_meaning(NET, vec![row(OTHER_NET, N, 512)]);
    assert_eq!(write(&far), Err(16));
}

#[test]
fn b41_a_gateway_is_on_the_updates_own_net() {
    let off = update_meaning(OTHER_NET, vec![row(OTHER_NET, N, 0)]);
    assert_eq!(write(&off), Err(16));
}

#[test]
fn b42_only_consecutive_gateways_make_a_block() {
    let rows = vec![
        row(OTHER_NET, N, 0),
        row(OTHER_NET, P, 0),
        row(OTHER_NET, N, 0),
    ];
    let octets = write(&update_meaning(NET, rows)).expect("written");
    assert_eq!(octets[10], 3);
}

#[test]
fn b43_the_longest_answer_to_a_poll() {
    let outcome = gateway::fresh(OWN_AS, OTHER_NET + 1, 1, OTHER_NET, 0);
    let mut state = gateway::add(&outcome.state, N, PEER_AS).state;
    state.neighbours[0] = in_state(Up, Mode::Active);
    let home: Vec<u32> = (0..128)
        .flat_map(|host| [address(192, 1, 1, 0), OTHER_NET + 1 + host, host])
        .collect();
    let mut table = vec![0; 3072];
    let mut reply = vec![FILL; 2048];
    let octets = poll(1, 9, OTHER_NET);
    let outcome = gateway::message(&state, &mut table, &mut reply, &home, N, &octets);
    assert_eq!(outcome.answer.number(), 0);
    assert_eq!(outcome.lengths, (1168, 0));
    let sent = read(&reply[..1168], OTHER_NET).expect("good");
    let Body::Update { rows, .. } = sent.body else {
        panic!("an Update");
    };
    let numbers: Vec<u32> = rows.iter().flat_map(Row::numbers).collect();
    assert_eq!(numbers, home);
}

#[test]
fn b44_an_error_quotes_the_message_as_received() {
    let octets = peer(HELLO, 3, 9, &[]);
    let mut gateway = gateway_with(Down, Mode::Active, |_| {});
    let answer = gateway.message(&octets);
    let quote = hex("02 05 00 03 FD E7 00 07 00 09 00 00");
    assert_eq!(answer.sent[0][12..], quote);
}

#[test]
fn b45_home_rows_are_internal() {
    let mut gateway = Gateway::new(1).quiet();
    gateway.home = vec![OTHER_NET, OWN, 256];
    assert_eq!(gateway.message(&peer(HELLO, 1, 9, &[])), got(4, &[]));
    gateway.home = vec![OTHER_NET, OWN, 255];
    assert_eq!(gateway.message(&peer(HELLO, 1, 9, &[])), got(0, &[]));
}

// The machine.

#[test]
fn b46_an_unacceptable_request_in_acquisition_is_silent() {
    let mut gateway = gateway_with(Acquisition, Mode::None, |_| {});
    assert_eq!(gateway.message(&request(0, 9, 121, 120)), got(0, &[]));
    assert_eq!(gateway.n(), in_state(Idle, Mode::None));
}

#[test]
fn b47_a_confirm_in_down_only_indicates() {
    let octets = hex("02 03 01 00 FA 89 00 07 00 00 01 F4 00 78");
    let mut gateway = gateway_with(Down, Mode::Active, |n| n.send_sequence = 0);
    let before = gateway.n();
    assert_eq!(gateway.message(&octets), got(0, &[]));
    let after = changed(before, |n| {
        n.heard = 1;
        n.t3 = 3600;
    });
    assert_eq!(gateway.n(), after);
}

#[test]
fn b48_both_passive_only_by_a_confirm() {
    let mut gateway = Gateway::new(2);
    gateway.start();
    assert_eq!(gateway.message(&confirm(2, 0, 30, 120)), got(0, &[]));
    assert_eq!(gateway.n(), Neighbour::idle(N, PEER_AS));
}

#[test]
fn b49_the_smaller_as_is_active() {
    let mut gateway = Gateway::new(0);
    gateway.message(&request(0, 9, 30, 120));
    assert_eq!(gateway.n().mode, Mode::Passive);
}

#[test]
fn b50_the_confirm_that_acquires_is_no_indication() {
    let mut gateway = gateway_with(Acquisition, Mode::None, |_| {});
    gateway.message(&confirm(0, 4, 30, 120));
    assert_eq!((gateway.n().t3, gateway.n().heard), (120, 0));
}

#[test]
fn b51_a_request_is_no_indication() {
    let mut gateway = Gateway::new(2);
    gateway.put(changed(in_state(Up, Mode::Passive), |n| n.heard = 1));
    gateway.message(&request(1, 9, 30, 120));
    assert_eq!((gateway.n().heard, gateway.n().t3), (0, 120));
}

#[test]
fn b52_any_status_indicates_in_active_mode() {
    for octets in [peer(I_H_U, 2, 4, &[]), update(2, 4, 0, 0, &[])] {
        let mut gateway = gateway_with(Up, Mode::Active, |_| {});
        assert_eq!(gateway.message(&octets), got(0, &[]));
        assert_eq!(gateway.n().heard, 1);
    }
}

#[test]
fn b53_every_update_in_sequence_replaces() {
    let mut gateway = gateway_with(Up, Mode::Active, |_| {});
    gateway.message(&update(1, 4, 1, 0, &[0, 5, 1, 0, 2, 10, 11]));
    gateway.message(&update(2, 4, 1, 0, &[0, 6, 1, 7, 1, 12]));
    assert_eq!(gateway.n().row_count, 1);
    assert_eq!(gateway.area(0)[..6], [address(12, 0, 0, 0), P, 7, 0, 0, 0]);
}

#[test]
fn b54_a_poll_in_down_indicates_in_passive_mode() {
    let mut gateway = gateway_with(Down, Mode::Passive, |_| {});
    assert_eq!(gateway.message(&poll(1, 9, NET)), got(0, &[]));
    let n = gateway.n();
    assert_eq!((n.heard, n.t3, n.receive_sequence), (1, 3600, 9));
}

#[test]
fn b55_going_up_leaves_t3() {
    let mut gateway = gateway_with(Down, Mode::Active, |n| {
        n.t3 = 3000;
        n.t1 = 1;
        n.register = 0b0111;
    });
    gateway.tick();
    assert_eq!((gateway.n().state, gateway.n().t3), (Up, 2999));
}

#[test]
fn b56_heard_is_shifted_when_t1_runs_out() {
    let mut gateway = gateway_with(Down, Mode::Active, |n| {
        n.heard = 1;
        n.t1 = 5;
    });
    gateway.tick();
    assert_eq!((gateway.n().register, gateway.n().heard), (0b0101, 1));
}

#[test]
fn b57_the_newest_bit_is_the_lowest() {
    let mut gateway = gateway_with(Down, Mode::Active, |n| {
        n.register = 0b1011;
        n.heard = 0;
        n.t1 = 1;
    });
    gateway.tick();
    assert_eq!((gateway.n().state, gateway.n().register), (Down, 0b0110));
}

#[test]
fn b58_entering_up_takes_nothing_from_t2() {
    let mut gateway = gateway_with(Down, Mode::Passive, |n| {
        n.heard = 1;
        n.t1 = 1;
    });
    gateway.tick();
    assert_eq!((gateway.n().state, gateway.n().t2), (Up, 122));
    gateway.tick();
    assert_eq!(gateway.n().t2, 121);
}

#[test]
fn b59_t1_and_t2_may_both_run_out() {
    let mut gateway = gateway_with(Up, Mode::Active, |n| {
        n.t1 = 1;
        n.t2 = 1;
        n.register = 0b1111;
    });
    let answer = gateway.tick();
    let lengths: Vec<usize> = answer.sent.iter().map(Vec::len).collect();
    assert_eq!(lengths, [10, 16]);
}

#[test]
fn b60_going_down_sends_no_poll() {
    let mut gateway = gateway_with(Up, Mode::Active, |n| {
        n.t1 = 1;
        n.t2 = 1;
        n.register = 0b0001;
        n.heard = 0;
    });
    assert_eq!(gateway.tick(), got(0, &[our_hello(2, 4)]));
    assert_eq!((gateway.n().state, gateway.n().t2), (Down, 0));
}

#[test]
fn b61_t3_alone_when_t1_runs_out_too() {
    let mut gateway = gateway_with(Acquisition, Mode::None, |n| {
        n.t1 = 1;
        n.t3 = 1;
    });
    assert_eq!(gateway.tick(), got(0, &[]));
    let idle = in_state(Idle, Mode::None);
    assert_eq!(gateway.n(), changed(idle, |n| n.seconds.acquisition += 1));
}

#[test]
fn b62_leaving_up_zeroes_all_of_the_slots_rows() {
    let mut gateway = gateway_with(Up, Mode::Active, |n| n.row_count = 0);
    gateway.bench.table[0] = 7;
    gateway.bench.table[383] = 7;
    gateway.bench.table[384] = 7;
    gateway.stop();
    assert_eq!(gateway.bench.table[0], 0);
    assert_eq!(gateway.bench.table[383], 0);
    assert_eq!(gateway.bench.table[384], 7);
}

#[test]
fn b63_leaving_another_state_leaves_the_table() {
    let mut gateway = gateway_with(Down, Mode::Active, |_| {});
    gateway.bench.table[0] = 7;
    gateway.stop();
    assert_eq!(gateway.bench.table[0], 7);
}

#[test]
fn b64_the_count_is_the_number_of_rows() {
    let mut gateway = gateway_with(Up, Mode::Active, |_| {});
    gateway.message(&update(1, 4, 2, 0, &[0, 5, 0, 0, 6, 2, 1, 0, 2, 1, 12]));
    assert_eq!(gateway.n().row_count, 1);
}

#[test]
fn b65_passive_goes_down_at_no_ones_only() {
    let mut gateway = gateway_with(Up, Mode::Passive, |n| {
        n.register = 0b0100;
        n.t1 = 1;
    });
    gateway.tick();
    assert_eq!((gateway.n().state, gateway.n().register), (Up, 0b1000));
}

#[test]
fn b66_events_without_effect_answer_0() {
    let mut gateway = gateway_with(Cease, Mode::None, |_| {});
    let before = gateway.n();
    assert_eq!(gateway.start(), got(0, &[]));
    assert_eq!(gateway.n(), before);
    assert_eq!(gateway.stop(), got(0, &[]));
    assert_eq!(gateway.n(), in_state(Idle, Mode::None));
    assert_eq!(gateway.stop(), got(0, &[]));
}

#[test]
fn b67_idle_stays_silent_if_quiet() {
    let mut gateway = Gateway::new(1).quiet();
    for octets in [
        confirm(0, 9, 30, 120),
        peer(REFUSE, 0, 9, &[]),
        peer(HELLO, 1, 9, &[]),
        peer(I_H_U, 1, 9, &[]),
        poll(1, 9, NET),
        update(1, 9, 0, 0, &[]),
    ] {
        assert_eq!(gateway.message(&octets), got(0, &[]));
        assert_eq!(gateway.n(), Neighbour::idle(N, PEER_AS));
    }
}

#[test]
fn b68_a_tick_is_of_one_neighbour() {
    let mut gateway = gateway_with(Down, Mode::Active, |_| {});
    gateway.bench.state.neighbours[1] = changed(in_state(Down, Mode::Active), |n| n.address = P);
    let other = gateway.state().neighbours[1];
    gateway.tick();
    assert_eq!(gateway.n().t1, 19);
    assert_eq!(gateway.state().neighbours[1], other);
}

#[test]
fn b69_states_no_list_reaches_get_the_listed_result() {
    let mut gateway = gateway_with(Down, Mode::Passive, |n| {
        n.register = 0b0001;
        n.heard = 0;
        n.t1 = 1;
    });
    assert_eq!(gateway.tick(), got(0, &[our_poll(5)]));
    assert_eq!((gateway.n().state, gateway.n().register), (Up, 0b0010));
    // Up with t3 about to run out.
    let mut gateway = gateway_with(Up, Mode::Active, |n| n.t3 = 1);
    assert_eq!(gateway.tick(), got(0, &[ours(CEASE, 5, 4, &[])]));
    // Down whose t1 is above T1.
    let mut gateway = gateway_with(Down, Mode::Active, |n| n.t1 = 122);
    assert_eq!(gateway.tick(), got(0, &[]));
    assert_eq!(gateway.n().t1, 121);
}

#[test]
fn b70_the_hello_of_entering_down_says_down() {
    let mut gateway = gateway_with(Up, Mode::Active, |_| {});
    let answer = gateway.message(&request(0, 9, 30, 120));
    assert_eq!(answer.sent[1], our_hello(2, 4));
}

// Lists of calls, and late additions.

#[test]
fn b71_a_neighbour_added_again_is_new() {
    let mut gateway = gateway_with(Up, Mode::Active, |_| {});
    gateway.message(&peer(CEASE, 5, 9, &[]));
    assert_eq!(gateway.n().seconds, SECONDS);
    gateway.run(Call::Remove { address: N });
    gateway.run(Call::Add {
        address: N,
        as_number: PEER_AS,
    });
    assert_eq!(gateway.n(), Neighbour::idle(N, PEER_AS));
    assert!(gateway.bench.table.iter().all(|number| *number == 0));
}

#[test]
fn b72_rows_do_not_survive_a_second_entry_into_up() {
    let mut gateway = Gateway::new(2);
    gateway.put(changed(in_state(Up, Mode::Passive), |n| {
        n.send_sequence = 1
    }));
    assert_eq!(gateway.message(&hex(CASE_U)).answer, 0);
    gateway.message(&request(1, 9, 30, 120));
    gateway.message(&peer(HELLO, 1, 10, &[]));
    for _ in 0..32 {
        gateway.tick();
    }
    assert_eq!((gateway.n().state, gateway.n().row_count), (Up, 0));
    assert!(gateway.bench.table.iter().all(|number| *number == 0));
}

#[test]
fn b75_closing_one_neighbour_leaves_anothers_rows() {
    let mut gateway = gateway_with(Up, Mode::Active, |_| {});
    gateway.bench.state.neighbours[1] = changed(in_state(Up, Mode::Active), |n| n.address = P);
    let same = update(1, 4, 1, 0, &[0, 5, 1, 0, 1, 10]);
    assert_eq!(gateway.message(&same).answer, 0);
    assert_eq!(gateway.message_from(P, &same).answer, 0);
    gateway.stop();
    assert!(gateway.area(0).iter().all(|number| *number == 0));
    assert_eq!(gateway.area(1)[..3], [OTHER_NET, N, 0]);
    assert_eq!(gateway.state().neighbours[1].row_count, 1);
}

#[test]
fn b86_error_4_carries_the_old_r() {
    let octets = peer(HELLO, 1, 9, &[]);
    let mut gateway = gateway_with(Down, Mode::Passive, |n| n.since_hello = 1);
    let error = our_error(2, 5, 4, &octets);
    assert_eq!(gateway.message(&octets), got(21, &[error]));
    let n = gateway.n();
    assert_eq!((n.receive_sequence, n.heard, n.since_hello), (5, 0, 1));
}

#[test]
fn b87_a_poll_in_down_and_one_for_another_net() {
    let mut gateway = gateway_with(Down, Mode::Active, |n| n.since_poll = 50);
    let octets = poll(1, 9, NET);
    let error = our_error(2, 5, 4, &octets);
    assert_eq!(gateway.message(&octets), got(21, &[error]));
    let mut gateway = gateway_with(Down, Mode::Active, |_| {});
    assert_eq!(gateway.message(&octets), got(0, &[]));
    assert_eq!(gateway.n().since_poll, 0);
    let mut gateway = gateway_with(Up, Mode::Active, |_| {});
    let octets = poll(1, 9, OTHER_NET);
    let error = our_error(1, 9, 3, &octets);
    assert_eq!(gateway.message(&octets), got(0, &[error]));
    let error = our_error(1, 9, 4, &octets);
    assert_eq!(gateway.message(&octets), got(21, &[error]));
}

#[test]
fn b88_ticks_are_counted_outside_idle() {
    let mut gateway = gateway_with(Down, Mode::Active, |n| {
        n.t3 = 1;
        n.since_hello = 29;
    });
    gateway.tick();
    assert_eq!((gateway.n().state, gateway.n().since_hello), (Cease, 30));
    gateway.tick();
    assert_eq!(gateway.n().since_hello, 31);
    let mut gateway = Gateway::new(1);
    gateway.start();
    for _ in 0..20 {
        gateway.tick();
    }
    assert_eq!((gateway.n().since_hello, gateway.n().since_poll), (20, 20));
    // A neighbour that initialises has been silent as long as is counted.
    gateway.message(&confirm(0, 0, 30, 120));
    let n = gateway.n();
    assert_eq!((n.since_hello, n.since_poll), (120, 120));
}

#[test]
fn b89_after_29_and_30_ticks() {
    let hello = peer(HELLO, 1, 9, &[]);
    let mut gateway = gateway_with(Up, Mode::Active, |_| {});
    assert_eq!(gateway.message(&hello).answer, 0);
    for _ in 0..29 {
        gateway.tick();
        assert_eq!(gateway.message(&hello).answer, 21);
    }
    gateway.tick();
    assert_eq!(gateway.message(&hello).answer, 0);
}

#[test]
fn b90_a_stray_update_of_any_body_and_number() {
    let mut gateway = Gateway::new(1);
    for sequence in [0, 1, 65_535] {
        for octets in [
            update(1, sequence, 1, 0, &[]),
            update(129, sequence, 255, 255, &[9; 2032]),
            peer(UPDATE, 0, sequence, &[0, 0, 10, 0, 0, 0]),
        ] {
            assert_eq!(gateway.message(&octets), got(0, &[stray_cease()]));
        }
        // 10 to 12 refuse first.
        let short = peer(UPDATE, 0, sequence, &[0; 5]);
        assert_eq!(gateway.message(&short), got(12, &[]));
    }
}

#[test]
fn b91_cease_ack_and_error_draw_none() {
    let mut gateway = Gateway::new(1);
    assert_eq!(gateway.message(&peer(CEASE_ACK, 0, 9, &[])), got(0, &[]));
    assert_eq!(gateway.message(&peer(ERROR, 0, 9, &[0; 14])), got(0, &[]));
}

#[test]
fn b93_the_sum_is_taken_in_64_bits() {
    // In 32 bits these would add up to 0, and to what no tick is refused for.
    for (idle, up) in [(4_294_967_295, 1), (1 << 31, 1 << 31), (u32::MAX, u32::MAX)] {
        let mut gateway = gateway_with(Up, Mode::Active, |_| {});
        gateway.bench.state.neighbours[0].seconds = Seconds {
            idle,
            up,
            ..Seconds::default()
        };
        assert_eq!(gateway.tick(), got(1, &[]));
        assert_eq!(gateway.listing(), Err(1));
    }
    let full = |n: &mut Neighbour| {
        n.seconds = Seconds {
            idle: 4_294_967_294,
            up: 1,
            ..Seconds::default()
        };
    };
    assert_eq!(gateway_with(Up, Mode::Active, full).tick(), got(22, &[]));
}

#[test]
fn b94_of_all_counts_the_seconds_alone_survive_idle() {
    let mut gateway = gateway_with(Up, Mode::Active, |_| {});
    gateway.message(&peer(CEASE, 5, 9, &[]));
    let n = gateway.n();
    assert_eq!((n.state, n.since_hello, n.since_poll), (Idle, 0, 0));
    assert_eq!(n.seconds, SECONDS);
    let bare = Neighbour {
        seconds: Seconds::default(),
        ..n
    };
    assert_eq!(bare, Neighbour::idle(N, PEER_AS));
    assert!(gateway.state().is_well_formed());
    gateway.bench.state.neighbours[0].since_hello = 1;
    assert!(!gateway.state().is_well_formed());
}

#[test]
fn b117_capability_is_a_number() {
    assert_eq!(gateway::fresh(OWN_AS, OWN, 3, NET, 0).answer.number(), 16);
}

#[test]
fn b120_a_refused_update_is_no_indication() {
    let mut gateway = gateway_with(Up, Mode::Passive, |_| {});
    let before = gateway.n();
    assert_eq!(gateway.message(&update(1, 4, 0, 1, &[])).answer, 14);
    assert_eq!(gateway.n(), before);
    // In Down any body will do.
    let mut gateway = gateway_with(Down, Mode::Passive, |_| {});
    assert_eq!(gateway.message(&update(1, 4, 0, 1, &[])), got(0, &[]));
    assert_eq!((gateway.n().heard, gateway.n().t3), (1, 3600));
}

#[test]
fn b121_a_refused_tick_is_not_counted() {
    for state in [Idle, Acquisition, Down, Up, Cease] {
        let mut gateway = gateway_with(state, Mode::Active, |_| {});
        let before = gateway.n();
        let short = Buffer {
            length: 2047,
            fill: FILL,
        };
        let tick = Call::Tick {
            address: N,
            reply: short,
        };
        assert_eq!(gateway.run(tick.clone()).answer.number(), 3);
        let table = std::mem::take(&mut gateway.bench.table);
        assert_eq!(gateway.run(tick).answer.number(), 2);
        gateway.bench.table = table;
        assert_eq!(gateway.n(), before);
        gateway.tick();
        assert_eq!(gateway.n().seconds.sum(), SECONDS.sum() + 1);
    }
}

#[test]
fn b122_status_7_is_never_a_cause() {
    let mut gateway = Gateway::new(1);
    assert_eq!(gateway.message(&peer(HELLO, 1, 9, &[])).sent[0][3], 7);
    assert_eq!(gateway.n(), Neighbour::idle(N, PEER_AS));
    assert!(gateway.state().is_well_formed());
}

#[test]
fn b123_an_update_of_status_down_replaces_rows() {
    let mut gateway = gateway_with(Up, Mode::Passive, |_| {});
    assert_eq!(gateway.message(&update(2, 4, 0, 0, &[])), got(0, &[]));
    assert_eq!((gateway.n().row_count, gateway.n().heard), (0, 0));
}

#[test]
fn b124_a_request_in_down_zeroes_the_register() {
    let mut gateway = gateway_with(Down, Mode::Active, |n| {
        n.register = 0b0111;
        n.heard = 1;
    });
    gateway.message(&request(0, 9, 30, 120));
    assert_eq!((gateway.n().register, gateway.n().heard), (0, 0));
}
