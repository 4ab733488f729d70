//! Every cell of the machine's table (01, "One neighbour"; 02, L3, L5 to L7).
//!
//! The neighbour starts with S 4 and R 5, and with seconds in each state, which stay; in Up it holds
//! two rows. Each case compares the whole neighbour after the event, every octet sent, and the rows.

mod common;

use common::*;
use reference::neighbour::{Mode, Neighbour, NeighbourState};
use reference::net::address;

const MODES: [Mode; 2] = [Mode::Active, Mode::Passive];
const OUTSIDE_IDLE: [NeighbourState; 4] = [Acquisition, Down, Up, Cease];

/// Runs the event on N in this state and expects this neighbour and these messages. The rows of
/// the slot must be gone if it left Up and be as they were if not.
fn check(
    before: Neighbour,
    capability: u8,
    event: impl Fn(&mut Gateway) -> Got,
    after: Neighbour,
    sent: &[Vec<u8>],
) {
    check_on(Gateway::new(capability), before, event, after, sent);
}

/// The same on this gateway.
fn check_on(
    mut gateway: Gateway,
    before: Neighbour,
    event: impl Fn(&mut Gateway) -> Got,
    after: Neighbour,
    sent: &[Vec<u8>],
) {
    gateway.put(before);
    // What is in rows not used, or of a neighbour not Up, shows who writes there.
    gateway.bench.table[383] = 77;
    gateway.bench.table[384] = 78;
    let table = gateway.bench.table.clone();
    let other = gateway.state().neighbours[1];
    assert_eq!(event(&mut gateway), got(0, sent), "{before:?}");
    assert_eq!(gateway.n(), after, "{before:?}");
    assert_eq!(gateway.state().neighbours[1], other);
    let mut expected = table;
    if before.state == Up && after.state != Up {
        expected[..384].fill(0);
    }
    assert_eq!(gateway.bench.table, expected);
    assert!(gateway.state().is_well_formed());
}

fn message(octets: Vec<u8>) -> impl Fn(&mut Gateway) -> Got {
    move |gateway| gateway.message(&octets)
}

fn idle() -> Neighbour {
    in_state(Idle, Mode::None)
}

/// Idle answers this message with Cease, or with nothing if we are quiet; either way nothing else
/// happens.
fn check_stray(octets: &[u8]) {
    let octets = || message(octets.to_vec());
    for capability in 0..=2 {
        check(idle(), capability, octets(), idle(), &[stray_cease()]);
        let quiet = Gateway::new(capability).quiet();
        check_on(quiet, idle(), octets(), idle(), &[]);
    }
}

/// Whatever the setting, Idle does this.
fn check_idle(octets: &[u8], sent: &[Vec<u8>]) {
    for gateway in [Gateway::new(1), Gateway::new(1).quiet()] {
        check_on(gateway, idle(), message(octets.to_vec()), idle(), sent);
    }
}

/// After A or B with T1 32 and T2 122.
fn just_down(mode: Mode, s: u16, r: u16) -> Neighbour {
    Neighbour {
        state: Down,
        send_sequence: s,
        receive_sequence: r,
        hello_interval: 32,
        poll_interval: 122,
        mode,
        t1: 32,
        t3: 120,
        since_hello: 120,
        since_poll: 120,
        ..idle()
    }
}

/// After entering Acquisition from Idle, where no ticks are counted.
fn just_acquiring(s: u16, r: u16) -> Neighbour {
    Neighbour {
        state: Acquisition,
        send_sequence: s,
        receive_sequence: r,
        t1: 30,
        t3: 120,
        ..idle()
    }
}

/// After entering Acquisition from another state: the counts of ticks stay.
fn acquiring_again(s: u16, r: u16) -> Neighbour {
    Neighbour {
        since_hello: SINCE_HELLO,
        since_poll: SINCE_POLL,
        ..just_acquiring(s, r)
    }
}

/// After entering Cease.
fn just_ceasing(s: u16, r: u16, cause: u8) -> Neighbour {
    Neighbour {
        state: Cease,
        cause,
        ..acquiring_again(s, r)
    }
}

/// After a Hello that was carried out in Down or Up, and after a Poll.
fn with_hello(neighbour: Neighbour) -> Neighbour {
    Neighbour {
        since_hello: 0,
        ..neighbour
    }
}

fn with_poll(neighbour: Neighbour) -> Neighbour {
    Neighbour {
        since_poll: 0,
        ..neighbour
    }
}

fn with_r(neighbour: Neighbour, r: u16) -> Neighbour {
    Neighbour {
        receive_sequence: r,
        ..neighbour
    }
}

fn heard(neighbour: Neighbour) -> Neighbour {
    Neighbour {
        heard: 1,
        t3: 3600,
        ..neighbour
    }
}

#[test]
fn request_acceptable() {
    let octets = || message(request(0, 9, 30, 120));
    let sent = [our_confirm(1, 9), our_hello(2, 0)];
    check(idle(), 1, octets(), just_down(Mode::Active, 0, 9), &sent);
    let passive = [our_confirm(2, 9)];
    check(
        idle(),
        2,
        octets(),
        just_down(Mode::Passive, 0, 9),
        &passive,
    );
    for state in [Acquisition, Down, Up] {
        for mode in MODES {
            let before = in_state(state, mode);
            let sent = [our_confirm(1, 9), our_hello(2, 4)];
            check(before, 1, octets(), just_down(Mode::Active, 4, 9), &sent);
            check(
                before,
                2,
                octets(),
                just_down(Mode::Passive, 4, 9),
                &passive,
            );
        }
    }
    let ceasing = in_state(Cease, Mode::None);
    let cease = [ours(CEASE, 6, 4, &[])];
    check(ceasing, 1, octets(), with_r(ceasing, 9), &cease);
}

#[test]
fn request_unacceptable() {
    for octets in [request(0, 9, 121, 120), request(1, 9, 30, 481)] {
        let octets = || message(octets.clone());
        check(idle(), 1, octets(), idle(), &[ours(REFUSE, 6, 9, &[])]);
        check(in_state(Acquisition, Mode::None), 1, octets(), idle(), &[]);
        for state in [Down, Up] {
            for mode in MODES {
                let sent = [ours(CEASE, 6, 4, &[])];
                let before = in_state(state, mode);
                check(before, 1, octets(), just_ceasing(4, 9, 6), &sent);
            }
        }
        let ceasing = Neighbour {
            cause: 5,
            ..in_state(Cease, Mode::None)
        };
        let cease = [ours(CEASE, 5, 4, &[])];
        check(ceasing, 1, octets(), with_r(ceasing, 9), &cease);
    }
}

#[test]
fn request_when_both_are_passive_only() {
    let octets = || message(request(2, 9, 30, 120));
    check(idle(), 2, octets(), idle(), &[ours(REFUSE, 6, 9, &[])]);
    check(
        in_state(Up, Mode::Passive),
        2,
        octets(),
        just_ceasing(4, 9, 6),
        &[ours(CEASE, 6, 4, &[])],
    );
}

#[test]
fn confirm() {
    let octets = || message(common::confirm(0, 4, 30, 120));
    let unacceptable = || message(common::confirm(0, 4, 121, 120));
    let acquiring = in_state(Acquisition, Mode::None);
    check(
        acquiring,
        1,
        octets(),
        just_down(Mode::Active, 4, 5),
        &[our_hello(2, 4)],
    );
    check(acquiring, 2, octets(), just_down(Mode::Passive, 4, 5), &[]);
    check(acquiring, 1, unacceptable(), idle(), &[]);
    for octets in [
        common::confirm(0, 4, 30, 120),
        common::confirm(0, 4, 121, 500),
    ] {
        check_stray(&octets);
        let ceasing = in_state(Cease, Mode::None);
        check(ceasing, 1, message(octets.clone()), ceasing, &[]);
        for state in [Down, Up] {
            let active = in_state(state, Mode::Active);
            check(active, 1, message(octets.clone()), heard(active), &[]);
            let passive = in_state(state, Mode::Passive);
            check(passive, 1, message(octets.clone()), passive, &[]);
        }
    }
}

#[test]
fn refuse() {
    let octets = || message(peer(REFUSE, 6, 4, &[]));
    check_stray(&peer(REFUSE, 6, 4, &[]));
    check(in_state(Acquisition, Mode::None), 1, octets(), idle(), &[]);
    for state in [Down, Up, Cease] {
        for mode in MODES {
            let before = in_state(state, mode);
            check(before, 1, octets(), before, &[]);
        }
    }
}

#[test]
fn cease() {
    for state in NeighbourState::ALL {
        for mode in MODES {
            let octets = message(peer(CEASE, 7, 9, &[]));
            let sent = [ours(CEASE_ACK, 0, 9, &[])];
            check(in_state(state, mode), 1, octets, idle(), &sent);
        }
    }
}

#[test]
fn cease_ack() {
    let octets = || message(peer(CEASE_ACK, 0, 4, &[]));
    check_idle(&peer(CEASE_ACK, 0, 4, &[]), &[]);
    for state in [Acquisition, Down, Up] {
        for mode in MODES {
            let before = in_state(state, mode);
            check(before, 1, octets(), before, &[]);
        }
    }
    check(in_state(Cease, Mode::None), 1, octets(), idle(), &[]);
}

#[test]
fn hello() {
    for status in 0..=2 {
        let octets = || message(peer(HELLO, status, 9, &[]));
        check_stray(&peer(HELLO, status, 9, &[]));
        for state in [Acquisition, Cease] {
            let before = in_state(state, Mode::None);
            check(before, 1, octets(), with_r(before, 9), &[]);
        }
        for (state, ours_status) in [(Down, 2), (Up, 1)] {
            let sent = [ours(I_H_U, ours_status, 9, &[])];
            let active = in_state(state, Mode::Active);
            let after = with_hello(with_r(active, 9));
            check(active, 1, octets(), after, &sent);
            let passive = in_state(state, Mode::Passive);
            let after = with_hello(with_r(passive, 9));
            let after = if status == 1 { heard(after) } else { after };
            check(passive, 1, octets(), after, &sent);
        }
    }
}

#[test]
fn i_h_u() {
    for status in 0..=2 {
        let octets = || message(peer(I_H_U, status, 4, &[]));
        check_stray(&peer(I_H_U, status, 4, &[]));
        for state in OUTSIDE_IDLE {
            let active = in_state(state, Mode::Active);
            let after = if state == Down || state == Up {
                heard(active)
            } else {
                active
            };
            check(active, 1, octets(), after, &[]);
            let passive = in_state(state, Mode::Passive);
            check(passive, 1, octets(), passive, &[]);
        }
    }
}

#[test]
fn poll() {
    for status in 0..=2 {
        for net in [NET, address(128, 10, 0, 0), NET + 1] {
            let octets = common::poll(status, 9, net);
            check_stray(&octets);
            for state in [Acquisition, Cease] {
                let before = in_state(state, Mode::None);
                let after = with_r(before, 9);
                check(before, 1, message(octets.clone()), after, &[]);
            }
            for mode in MODES {
                let noted = |neighbour: Neighbour| {
                    let after = with_poll(with_r(neighbour, 9));
                    if mode == Mode::Passive && status == 1 {
                        heard(after)
                    } else {
                        after
                    }
                };
                let down = in_state(Down, mode);
                check(down, 1, message(octets.clone()), noted(down), &[]);
                let up = in_state(Up, mode);
                let reply = if net == NET {
                    let mut rest = vec![0, 0];
                    rest.extend(NET.to_be_bytes());
                    ours(UPDATE, 1, 9, &rest)
                } else {
                    our_error(1, 9, 3, &octets)
                };
                check(up, 1, message(octets.clone()), noted(up), &[reply]);
            }
        }
    }
}

#[test]
fn poll_is_answered_from_the_home_list() {
    let mut gateway = Gateway::with(in_state(Up, Mode::Active));
    let a = address(10, 0, 0, 0);
    gateway.home = vec![a, OWN, 0, address(192, 5, 6, 0), OWN, 0, a, N, 255];
    let mut rest = vec![2, 0];
    rest.extend(NET.to_be_bytes());
    rest.extend([0, 1, 1, 0, 2, 10, 192, 5, 6]);
    rest.extend([0, 5, 1, 255, 1, 10]);
    let answer = gateway.message(&common::poll(0, 65_535, NET));
    assert_eq!(answer, got(0, &[ours(UPDATE, 1, 65_535, &rest)]));
    assert_eq!(gateway.n().receive_sequence, 65_535);
}

#[test]
fn update_outside_up() {
    // Good or bad, the body is not looked at.
    for octets in [
        hex(CASE_U),
        common::update(129, 1, 1, 1, &[9, 9]),
        common::update(0, 1, 0, 0, &[]),
    ] {
        check_stray(&octets);
        let s1 = |state, mode| Neighbour {
            send_sequence: 1,
            ..in_state(state, mode)
        };
        for state in [Acquisition, Cease] {
            let before = s1(state, Mode::None);
            check(before, 1, message(octets.clone()), before, &[]);
        }
        let active = s1(Down, Mode::Active);
        check(active, 1, message(octets.clone()), heard(active), &[]);
        let passive = s1(Down, Mode::Passive);
        let after = if octets[3] == 0 {
            passive
        } else {
            heard(passive)
        };
        check(passive, 1, message(octets.clone()), after, &[]);
    }
}

#[test]
fn update_in_up_replaces_rows() {
    for mode in MODES {
        let before = Neighbour {
            send_sequence: 1,
            ..in_state(Up, mode)
        };
        // The first of them, of status 1, is an indication in both modes.
        let after = |rows: u16| {
            heard(Neighbour {
                row_count: rows,
                ..before
            })
        };
        let mut gateway = Gateway::with(before);
        gateway.bench.table[383] = 77;
        gateway.bench.table[384] = 78;
        assert_eq!(gateway.message(&hex(CASE_U)), got(0, &[]));
        assert_eq!(gateway.n(), after(2));
        let rows = [address(10, 0, 0, 0), N, 0, address(192, 5, 6, 0), N, 0];
        assert_eq!(gateway.area(0)[..6], rows);
        // The rest of the slot's rows are zero, other slots' are left.
        assert!(gateway.area(0)[6..].iter().all(|number| *number == 0));
        assert_eq!(gateway.area(1)[0], 78);
        // External rows, then none at all.
        let external = common::update(130, 1, 0, 1, &[0, 6, 1, 9, 1, 11]);
        assert_eq!(gateway.message(&external), got(0, &[]));
        assert_eq!(
            gateway.area(0)[..6],
            [address(11, 0, 0, 0), P, 265, 0, 0, 0]
        );
        assert_eq!(gateway.n(), after(1));
        assert_eq!(
            gateway.message(&common::update(0, 1, 0, 0, &[])),
            got(0, &[])
        );
        assert_eq!(gateway.n(), after(0));
        assert!(gateway.area(0).iter().all(|number| *number == 0));
    }
}

/// What an Update that carries S leaves of an unheard neighbour, beside its answer.
fn after_update(before: Neighbour, status: u8, blocks: Blocks) -> (u8, Neighbour) {
    let Blocks(internal, octets) = blocks;
    let s = before.send_sequence;
    let mut gateway = Gateway::with(before);
    let answer = gateway.message(&common::update(status, s, internal, 0, &octets));
    (answer.answer, gateway.n())
}

/// How many internal gateways an Update names, and its octets from 16 on.
struct Blocks(u8, Vec<u8>);

fn one_row() -> Blocks {
    Blocks(1, vec![0, 5, 1, 0, 1, 10])
}

fn octet_left_over() -> Blocks {
    Blocks(1, vec![0, 5, 1, 0, 1, 10, 0])
}

fn rows_129() -> Blocks {
    Blocks(1, [vec![0, 5, 1, 0, 129], vec![10; 129]].concat())
}

const UPDATE_STATUSES: [u8; 6] = [0, 1, 2, 128, 129, 130];

/// 02, L3: "in passive mode, an Update carried out in Down or Up whose status without the
/// unsolicited bit is 1 is an indication too. Active mode stays as it was."
#[test]
fn update_is_an_indication_by_mode_and_status() {
    for status in UPDATE_STATUSES {
        for mode in MODES {
            let noted = |neighbour: Neighbour| {
                if mode == Mode::Active || [1, 129].contains(&status) {
                    heard(neighbour)
                } else {
                    neighbour
                }
            };
            let down = in_state(Down, mode);
            let after = after_update(down, status, one_row());
            assert_eq!(after, (0, noted(down)), "{mode:?} {status}");
            let up = in_state(Up, mode);
            let one = Neighbour { row_count: 1, ..up };
            let after = after_update(up, status, one_row());
            assert_eq!(after, (0, noted(one)), "{mode:?} {status}");
        }
    }
}

#[test]
fn update_with_a_bad_body_in_down_is_an_indication() {
    let down = in_state(Down, Mode::Passive);
    for body in [octet_left_over, rows_129] {
        assert_eq!(after_update(down, 1, body()), (0, heard(down)));
        assert_eq!(after_update(down, 129, body()), (0, heard(down)));
        assert_eq!(after_update(down, 2, body()), (0, down));
    }
}

#[test]
fn refused_updates_are_no_indications() {
    for status in [1, 129] {
        for mode in MODES {
            for before in [in_state(Down, mode), in_state(Up, mode)] {
                for s in [3, 5] {
                    let mut gateway = Gateway::with(before);
                    let octets = common::update(status, s, 0, 0, &[]);
                    assert_eq!(gateway.message(&octets), got(13, &[]));
                    assert_eq!(gateway.n(), before);
                }
            }
            let up = in_state(Up, mode);
            assert_eq!(after_update(up, status, octet_left_over()), (14, up));
            assert_eq!(after_update(up, status, rows_129()), (15, up));
        }
    }
}

#[test]
fn updates_outside_down_and_up_are_no_indications() {
    for status in UPDATE_STATUSES {
        for state in [Idle, Acquisition, Cease] {
            let before = in_state(state, Mode::None);
            assert_eq!(after_update(before, status, one_row()), (0, before));
        }
    }
}

#[test]
fn update_of_128_rows() {
    let mut gateway = Gateway::with(in_state(Up, Mode::Active));
    let mut blocks = vec![0, 5, 1, 2, 128];
    blocks.extend(0..128);
    assert_eq!(
        gateway.message(&common::update(1, 4, 1, 0, &blocks)),
        got(0, &[])
    );
    assert_eq!(gateway.n().row_count, 128);
    for (index, numbers) in gateway.area(0).chunks(3).enumerate() {
        assert_eq!(numbers, [address(index as u8, 0, 0, 0), N, 2]);
    }
}

#[test]
fn error_received() {
    for state in NeighbourState::ALL {
        for mode in MODES {
            let before = in_state(state, mode);
            for status in [0, 1, 2, 128, 129, 130] {
                let octets = message(peer(ERROR, status, 77, &[0xFF; 14]));
                check(before, 1, octets, before, &[]);
            }
        }
    }
    check_idle(&peer(ERROR, 0, 77, &[0xFF; 14]), &[]);
}

/// Messages of the six kinds, each with this sequence number and of every status that it can have.
fn strays(sequence: u16) -> Vec<Vec<u8>> {
    let mut all = Vec::new();
    for status in 0..=2 {
        all.push(common::confirm(status, sequence, 30, 120));
        all.push(common::confirm(status, sequence, 65_535, 65_535));
        all.push(peer(HELLO, status, sequence, &[]));
        all.push(peer(I_H_U, status, sequence, &[]));
        all.push(common::poll(status, sequence, NET));
        all.push(common::poll(status, sequence, 0));
    }
    for status in [0, 3, 4, 5, 6, 7] {
        all.push(peer(REFUSE, status, sequence, &[]));
    }
    for status in UPDATE_STATUSES {
        for Blocks(internal, blocks) in [one_row(), octet_left_over(), rows_129()] {
            all.push(common::update(status, sequence, internal, 0, &blocks));
        }
        // About another net, and of no octets at all behind it.
        all.push(peer(UPDATE, status, sequence, &[9, 9, 0, 0, 0, 0]));
    }
    all
}

/// 02, L6: status 7, sequence 0 whatever number the message has, and nothing is kept of it.
#[test]
fn strays_in_idle_draw_cease() {
    assert_eq!(stray_cease(), hex("02 03 03 07 FA EC 00 09 00 00"));
    for sequence in [0, 1, 9, 65_535] {
        strays(sequence)
            .iter()
            .for_each(|octets| check_stray(octets));
    }
}

/// They are answered as ever, with either setting.
#[test]
fn requests_and_ceases_in_idle_are_no_strays() {
    check_idle(&peer(CEASE, 7, 9, &[]), &[ours(CEASE_ACK, 0, 9, &[])]);
    check_idle(&request(0, 9, 121, 120), &[ours(REFUSE, 6, 9, &[])]);
    for gateway in [Gateway::new(1), Gateway::new(1).quiet()] {
        let acquired = just_down(Mode::Active, 0, 9);
        let sent = [our_confirm(1, 9), our_hello(2, 0)];
        let octets = message(request(0, 9, 30, 120));
        check_on(gateway, idle(), octets, acquired, &sent);
    }
}

/// A Cease that was drawn is not repeated, and a Cease-ack to it changes nothing.
#[test]
fn a_stray_starts_nothing() {
    let mut gateway = Gateway::new(1);
    assert_eq!(gateway.message(&peer(HELLO, 1, 9, &[])).sent.len(), 1);
    for _ in 0..130 {
        assert_eq!(gateway.tick(), got(0, &[]));
    }
    assert_eq!(gateway.message(&peer(CEASE_ACK, 0, 0, &[])), got(0, &[]));
    assert_eq!(gateway.n().in_idle(), gateway.n());
    assert_eq!(gateway.n().seconds.all(), [130, 0, 0, 0, 0]);
    assert_eq!(gateway.start(), got(0, &[our_request(1, 0)]));
}

/// Outside Idle both settings are the same.
#[test]
fn quiet_is_about_idle_only() {
    for state in OUTSIDE_IDLE {
        for octets in strays(4) {
            let gateway = Gateway::with(in_state(state, Mode::Active));
            let answers = [gateway.clone(), gateway.quiet()].map(|mut gateway| {
                let answer = gateway.message(&octets);
                (answer, gateway.n(), gateway.bench.table)
            });
            assert_eq!(answers[0], answers[1]);
        }
    }
}

#[test]
fn start() {
    for capability in 0..=2 {
        let event = |gateway: &mut Gateway| gateway.start();
        let first = [our_request(capability, 0)];
        check(idle(), capability, event, just_acquiring(0, 0), &first);
        for state in [Acquisition, Down, Up] {
            for mode in MODES {
                let again = [our_request(capability, 4)];
                let before = in_state(state, mode);
                check(before, capability, event, acquiring_again(4, 5), &again);
            }
        }
        let ceasing = in_state(Cease, Mode::None);
        check(ceasing, capability, event, ceasing, &[]);
    }
}

#[test]
fn stop() {
    let event = |gateway: &mut Gateway| gateway.stop();
    check(idle(), 1, event, idle(), &[]);
    check(in_state(Acquisition, Mode::None), 1, event, idle(), &[]);
    for state in [Down, Up] {
        for mode in MODES {
            let sent = [ours(CEASE, 5, 4, &[])];
            check(
                in_state(state, mode),
                1,
                event,
                just_ceasing(4, 5, 5),
                &sent,
            );
        }
    }
    check(in_state(Cease, Mode::None), 1, event, idle(), &[]);
}

#[test]
fn intervals_and_their_limits() {
    for (hello, poll, t1, t2) in [
        (0, 0, 32, 122),
        (30, 120, 32, 122),
        (31, 121, 33, 123),
        (120, 480, 122, 482),
    ] {
        let after = Neighbour {
            hello_interval: t1,
            poll_interval: t2,
            t1,
            ..just_down(Mode::Active, 0, 9)
        };
        let sent = [our_confirm(1, 9), our_hello(2, 0)];
        check(idle(), 1, message(request(0, 9, hello, poll)), after, &sent);
    }
    for (hello, poll) in [(121, 0), (0, 481), (65_535, 65_535)] {
        let sent = [ours(REFUSE, 6, 9, &[])];
        check(
            idle(),
            1,
            message(request(0, 9, hello, poll)),
            idle(),
            &sent,
        );
    }
}

#[test]
fn modes_by_capability_status_and_as() {
    let mode = |capability: u8, status: u8, peer_as: u16| {
        let mut gateway = Gateway::new(capability);
        gateway.put(Neighbour::idle(N, peer_as));
        let octets = raw(REQUEST, status, peer_as, 9, &intervals(30, 120));
        assert_eq!(gateway.message(&octets).answer, 0);
        gateway.n().mode
    };
    for peer_as in [7, 12] {
        for status in 0..=2 {
            assert_eq!(mode(1, status, peer_as), Mode::Active);
        }
        assert_eq!(mode(2, 0, peer_as), Mode::Passive);
        assert_eq!(mode(2, 1, peer_as), Mode::Passive);
        // Both passive only: refused, so still none.
        assert_eq!(mode(2, 2, peer_as), Mode::None);
        assert_eq!(mode(0, 1, peer_as), Mode::Passive);
        assert_eq!(mode(0, 2, peer_as), Mode::Active);
    }
    assert_eq!(mode(0, 0, 7), Mode::Passive);
    assert_eq!(mode(0, 0, 12), Mode::Active);
}
