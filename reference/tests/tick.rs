//! The tick, rule by rule (01, "One neighbour"; 02, L5 and L7).

mod common;

use common::*;
use reference::neighbour::{Mode, Neighbour, NeighbourState, Seconds};

/// Ticks N once and gives the neighbour after it and what was sent.
fn tick(before: Neighbour) -> (Neighbour, Vec<Vec<u8>>) {
    let mut gateway = Gateway::with(before);
    let other = gateway.state().neighbours[1];
    let answer = gateway.tick();
    assert_eq!(answer.answer, 0);
    assert_eq!(gateway.state().neighbours[1], other);
    assert!(gateway.state().is_well_formed());
    let rows_left = gateway.area(0).iter().any(|number| *number != 0);
    assert_eq!(rows_left, gateway.n().row_count > 0);
    (gateway.n(), answer.sent)
}

fn later(before: Neighbour) -> Neighbour {
    Neighbour {
        t1: before.t1 - 1,
        t3: before.t3 - 1,
        t2: before.t2.saturating_sub(1),
        since_hello: (before.since_hello + 1).min(120),
        since_poll: (before.since_poll + 1).min(120),
        seconds: one_more(before.state),
        ..before
    }
}

/// The seconds of [`in_state`] and one in this state.
fn one_more(state: NeighbourState) -> Seconds {
    let mut seconds = SECONDS;
    *seconds.of_mut(state) += 1;
    seconds
}

fn with(before: Neighbour, change: impl FnOnce(&mut Neighbour)) -> Neighbour {
    let mut after = before;
    change(&mut after);
    after
}

#[test]
fn idle_only_counts_the_second() {
    let idle = in_state(Idle, Mode::None);
    let after = with(idle, |n| n.seconds = one_more(Idle));
    assert_eq!(after.seconds.all(), [12, 12, 13, 14, 15]);
    assert_eq!(tick(idle), (after, vec![]));
}

#[test]
fn an_ordinary_second_takes_one_from_each_timer() {
    for state in [Acquisition, Down, Up, Cease] {
        for mode in [Mode::Active, Mode::Passive] {
            for heard in [0, 1] {
                let acquired = state == Down || state == Up;
                let before = with(in_state(state, mode), |n| {
                    n.heard = if acquired { heard } else { 0 };
                });
                assert_eq!(tick(before), (later(before), vec![]));
            }
        }
    }
}

#[test]
fn t3_is_stop_and_ends_the_tick() {
    let idle = in_state(Idle, Mode::None);
    let expiring = |state, mode| {
        with(in_state(state, mode), |n| {
            n.t3 = 1;
            n.t1 = 1;
            if state == Up {
                n.t2 = 1;
            }
        })
    };
    for state in [Acquisition, Cease] {
        let after = with(idle, |n| n.seconds = one_more(state));
        assert_eq!(tick(expiring(state, Mode::None)), (after, vec![]));
    }
    for state in [Down, Up] {
        for mode in [Mode::Active, Mode::Passive] {
            let ceasing = Neighbour {
                state: Cease,
                send_sequence: 4,
                receive_sequence: 5,
                t1: 30,
                t3: 120,
                cause: 5,
                since_hello: SINCE_HELLO + 1,
                since_poll: SINCE_POLL,
                seconds: one_more(state),
                ..idle
            };
            let sent = vec![ours(CEASE, 5, 4, &[])];
            assert_eq!(tick(expiring(state, mode)), (ceasing, sent));
        }
    }
}

/// "Holding at 120", each by itself.
#[test]
fn ticks_are_counted_up_to_120() {
    for state in [Acquisition, Down, Up, Cease] {
        for (hello, poll) in [
            (0, 119),
            (29, 0),
            (119, 118),
            (119, 120),
            (120, 7),
            (120, 120),
        ] {
            let before = with(in_state(state, Mode::Passive), |n| {
                n.since_hello = hello;
                n.since_poll = poll;
            });
            let (after, _) = tick(before);
            assert_eq!(after, later(before));
            assert!(after.since_hello <= 120 && after.since_poll <= 120);
        }
    }
}

/// A tick that t3 ends is carried out, so it is counted; Idle has no counts.
#[test]
fn the_tick_that_ends_t3_is_counted_in_cease() {
    for state in [Acquisition, Down, Up, Cease] {
        for mode in [Mode::Active, Mode::Passive] {
            let before = with(in_state(state, mode), |n| {
                n.t3 = 1;
                n.since_hello = 29;
                n.since_poll = 119;
            });
            let (after, _) = tick(before);
            let counts = (after.state, after.since_hello, after.since_poll);
            let is_acquired = state == Down || state == Up;
            let expected = if is_acquired {
                (Cease, 30, 120)
            } else {
                (Idle, 0, 0)
            };
            assert_eq!(counts, expected);
        }
    }
}

#[test]
fn t1_repeats_request_and_cease() {
    let before = with(in_state(Acquisition, Mode::None), |n| n.t1 = 1);
    let after = with(later(before), |n| n.t1 = 30);
    assert_eq!(tick(before), (after, vec![our_request(1, 4)]));
    for cause in [5, 6] {
        let before = with(in_state(Cease, Mode::None), |n| {
            n.t1 = 1;
            n.cause = cause;
        });
        let after = with(later(before), |n| n.t1 = 30);
        assert_eq!(tick(before), (after, vec![ours(CEASE, cause, 4, &[])]));
    }
}

/// Every register, heard bit and mode in Down and Up, t1 running out and t2 not.
#[test]
fn reachability_for_every_register() {
    for state in [Down, Up] {
        for mode in [Mode::Active, Mode::Passive] {
            for register in 0..16u8 {
                for heard in 0..2u8 {
                    let before = with(in_state(state, mode), |n| {
                        n.t1 = 1;
                        n.register = register;
                        n.heard = heard;
                    });
                    let shifted = (register * 2 + heard) % 16;
                    let ones = shifted.count_ones();
                    let next = expected_state(state, mode, ones);
                    let mut sent = Vec::new();
                    if mode == Mode::Active {
                        let status = if next == Up { 1 } else { 2 };
                        sent.push(our_hello(status, 4));
                    }
                    let after = with(later(before), |n| {
                        n.state = next;
                        n.t1 = 32;
                        n.register = shifted;
                        n.heard = 0;
                        if state == Down && next == Up {
                            n.send_sequence = 5;
                            n.t2 = 122;
                            sent.push(our_poll(5));
                        }
                        if state == Up && next == Down {
                            n.t2 = 0;
                            n.row_count = 0;
                        }
                    });
                    assert_eq!(tick(before), (after, sent));
                }
            }
        }
    }
}

fn expected_state(state: NeighbourState, mode: Mode, ones: u32) -> NeighbourState {
    match (state, mode) {
        (Down, Mode::Active) if ones >= 3 => Up,
        (Up, Mode::Active) if ones <= 1 => Down,
        (Down, Mode::Passive) if ones >= 1 => Up,
        (Up, Mode::Passive) if ones == 0 => Down,
        _ => state,
    }
}

#[test]
fn t2_sends_poll() {
    for mode in [Mode::Active, Mode::Passive] {
        let before = with(in_state(Up, mode), |n| n.t2 = 1);
        let after = with(later(before), |n| {
            n.t2 = 122;
            n.send_sequence = 5;
        });
        assert_eq!(tick(before), (after, vec![our_poll(5)]));
    }
}

#[test]
fn t1_and_t2_at_once() {
    let both = |mode, register| {
        with(in_state(Up, mode), |n| {
            n.t1 = 1;
            n.t2 = 1;
            n.register = register;
        })
    };
    let stays = |before: Neighbour| {
        with(later(before), |n| {
            n.t1 = 32;
            n.t2 = 122;
            n.send_sequence = 5;
            n.register = 0b1110;
        })
    };
    let before = both(Mode::Active, 0b1111);
    let sent = vec![our_hello(1, 4), our_poll(5)];
    assert_eq!(sent[0].len(), 10);
    assert_eq!(sent[1].len(), 16);
    assert_eq!(tick(before), (stays(before), sent));
    let before = both(Mode::Passive, 0b1111);
    assert_eq!(tick(before), (stays(before), vec![our_poll(5)]));
    // Going Down, t2 is zeroed and sends nothing.
    let before = both(Mode::Active, 0b0001);
    let after = with(later(before), |n| {
        n.state = Down;
        n.t1 = 32;
        n.t2 = 0;
        n.register = 0b0010;
        n.row_count = 0;
    });
    assert_eq!(tick(before), (after, vec![our_hello(2, 4)]));
}

#[test]
fn t1_is_set_to_the_neighbours_own_interval() {
    let before = with(in_state(Down, Mode::Passive), |n| {
        n.t1 = 1;
        n.hello_interval = 122;
        n.register = 0;
    });
    assert_eq!(tick(before).0.t1, 122);
    let before = with(in_state(Up, Mode::Passive), |n| {
        n.t2 = 1;
        n.poll_interval = 482;
    });
    assert_eq!(tick(before).0.t2, 482);
}

/// A neighbour that answers comes up after three intervals, one that is silent goes down, and
/// Cease ends it.
#[test]
fn a_life_in_active_mode() {
    let mut gateway = Gateway::new(1);
    assert_eq!(gateway.start(), got(0, &[our_request(1, 0)]));
    let answer = gateway.message(&confirm(2, 0, 30, 120));
    assert_eq!(answer, got(0, &[our_hello(2, 0)]));
    for interval in 1..=3 {
        assert_eq!(gateway.message(&peer(I_H_U, 2, 0, &[])), got(0, &[]));
        for _ in 0..31 {
            assert_eq!(gateway.tick(), got(0, &[]));
        }
        let sent = if interval == 3 {
            vec![our_hello(1, 0), our_poll(1)]
        } else {
            vec![our_hello(2, 0)]
        };
        assert_eq!(gateway.tick(), got(0, &sent));
    }
    assert_eq!(gateway.n().state, Up);
    assert_eq!(gateway.n().t2, 122);
    assert_eq!(gateway.n().t3, 3600 - 32);
    assert_eq!(gateway.message(&hex(CASE_U)), got(0, &[]));
    assert_eq!(gateway.n().row_count, 2);
    // The Update was heard: 1111; then silence: 1110, 1100, 1000.
    let mut hellos = Vec::new();
    for _ in 0..4 * 32 {
        hellos.extend(gateway.tick().sent);
    }
    let expected = vec![
        our_hello(1, 1),
        our_hello(1, 1),
        our_hello(1, 1),
        our_poll(2),
        our_hello(2, 2),
    ];
    assert_eq!(hellos, expected);
    assert_eq!(gateway.n().state, Down);
    assert_eq!(gateway.n().register, 0b1000);
    assert!(gateway.area(0).iter().all(|number| *number == 0));
    let answer = gateway.message(&peer(CEASE, 5, 3, &[]));
    assert_eq!(answer, got(0, &[ours(CEASE_ACK, 0, 3, &[])]));
    // 96 seconds to come up, 128 to go down; they are known in Idle too.
    let after = with(Neighbour::idle(N, PEER_AS), |n| {
        n.seconds.down = 96;
        n.seconds.up = 128;
    });
    assert_eq!(gateway.n(), after);
    gateway.tick();
    assert_eq!(gateway.n().seconds.all(), [1, 0, 96, 128, 0]);
}

/// 02, L7: "a tick carried out belongs to the state before it", whatever it does.
#[test]
fn a_tick_belongs_to_the_state_before_it() {
    let turned = |state, change: fn(&mut Neighbour)| {
        let before = with(in_state(state, Mode::Active), change);
        let (after, _) = tick(before);
        assert_eq!(after.seconds, one_more(state));
        after.state
    };
    assert_eq!(turned(Idle, |_| {}), Idle);
    for state in [Acquisition, Down, Up, Cease] {
        assert_eq!(turned(state, |_| {}), state);
        assert_eq!(turned(state, |n| n.t1 = 1), state);
    }
    assert_eq!(turned(Up, |n| n.t2 = 1), Up);
    assert_eq!(turned(Acquisition, |n| n.t3 = 1), Idle);
    assert_eq!(turned(Cease, |n| n.t3 = 1), Idle);
    assert_eq!(turned(Down, |n| n.t3 = 1), Cease);
    assert_eq!(turned(Up, |n| n.t3 = 1), Cease);
    let three_heard = |n: &mut Neighbour| (n.t1, n.register, n.heard) = (1, 0b0011, 1);
    assert_eq!(turned(Down, three_heard), Up);
    let silent = |n: &mut Neighbour| (n.t1, n.register) = (1, 0b0100);
    assert_eq!(turned(Up, silent), Down);
}

/// "Their sum is the number of ticks carried out since the neighbour was added."
#[test]
fn seconds_of_a_life_in_every_state() {
    let mut gateway = Gateway::new(1);
    let mut ticks = 0;
    let mut pass = |gateway: &mut Gateway, count: u64| {
        for _ in 0..count {
            assert_eq!(gateway.tick().answer, 0);
        }
        ticks += count;
        assert_eq!(gateway.n().seconds.sum(), ticks);
        gateway.n().seconds.all()
    };
    assert_eq!(pass(&mut gateway, 7), [7, 0, 0, 0, 0]);
    gateway.start();
    assert_eq!(pass(&mut gateway, 40), [7, 40, 0, 0, 0]);
    gateway.message(&confirm(2, 0, 30, 120));
    for interval in 1..=3 {
        gateway.message(&peer(I_H_U, 2, 0, &[]));
        assert_eq!(pass(&mut gateway, 32), [7, 40, 32 * interval, 0, 0]);
    }
    assert_eq!(gateway.n().state, Up);
    assert_eq!(pass(&mut gateway, 20), [7, 40, 96, 20, 0]);
    gateway.stop();
    assert_eq!(pass(&mut gateway, 119), [7, 40, 96, 20, 119]);
    assert_eq!(gateway.n().state, Cease);
    assert_eq!(pass(&mut gateway, 1), [7, 40, 96, 20, 120]);
    assert_eq!(gateway.n().state, Idle);
    assert_eq!(pass(&mut gateway, 3), [10, 40, 96, 20, 120]);
    // The other neighbour's seconds are its own.
    assert_eq!(gateway.state().neighbours[1], Neighbour::idle(P, PEER_AS));
}

#[test]
fn a_life_in_passive_mode() {
    let mut gateway = Gateway::new(2);
    let answer = gateway.message(&request(1, 50, 30, 120));
    assert_eq!(answer, got(0, &[our_confirm(2, 50)]));
    let answer = gateway.message(&peer(HELLO, 1, 51, &[]));
    assert_eq!(answer, got(0, &[ours(I_H_U, 2, 51, &[])]));
    for _ in 0..31 {
        assert_eq!(gateway.tick(), got(0, &[]));
    }
    assert_eq!(gateway.tick(), got(0, &[our_poll(1)]));
    assert_eq!(gateway.n().state, Up);
    // Four silent intervals bring it down; the Poll at t2 comes between.
    let mut polls = Vec::new();
    for _ in 0..4 * 32 - 1 {
        polls.extend(gateway.tick().sent);
    }
    assert_eq!(gateway.n().state, Up);
    assert_eq!(polls, vec![our_poll(2)]);
    assert_eq!(gateway.tick(), got(0, &[]));
    assert_eq!(gateway.n().state, Down);
    assert_eq!(gateway.n().register, 0);
}

/// 02, L3: "a site with slow Polls from its peer lost its rows". Updates alone keep it up if no
/// four intervals, 128 seconds, go by without one.
#[test]
fn updates_keep_a_passive_site_up() {
    let falls_after = |every: u32, status: u8| {
        let mut gateway = Gateway::new(2);
        gateway.message(&request(1, 50, 30, 480));
        gateway.message(&poll(1, 51, NET));
        for _ in 0..32 {
            gateway.tick();
        }
        assert_eq!(gateway.n().state, Up);
        (1..=1200).find(|second| {
            gateway.tick();
            if second % every == 0 {
                let s = gateway.n().send_sequence;
                gateway.message(&update(status, s, 1, 0, &[0, 5, 1, 0, 1, 10]));
            }
            gateway.n().state == Down
        })
    };
    for status in [1, 129] {
        assert_eq!(falls_after(122, status), None);
        assert_eq!(falls_after(128, status), Some(128));
    }
    for status in [0, 2, 128, 130] {
        assert_eq!(falls_after(1, status), Some(128));
    }
}

#[test]
fn without_a_sign_of_life_acquisition_and_cease_end_at_t3() {
    let mut gateway = Gateway::new(0);
    gateway.start();
    let mut sent = Vec::new();
    for _ in 0..120 {
        sent.extend(gateway.tick().sent);
    }
    assert_eq!(sent, vec![our_request(0, 0); 3]);
    assert_eq!(gateway.n().state, Idle);

    gateway.message(&request(2, 9, 30, 120));
    let mut sent = Vec::new();
    for _ in 0..240 {
        sent.extend(gateway.tick().sent);
    }
    let mut expected = vec![our_hello(2, 0); 3];
    expected.extend(vec![ours(CEASE, 5, 0, &[]); 4]);
    assert_eq!(sent, expected);
    assert_eq!(gateway.n().state, Idle);
}
