//! Broken material: each named fault breaks what it names, and the nearest wrong numbers come up.

use std::collections::BTreeSet;

use reference::answer::Answer;
use reference::gateway;
use reference::generate::faults::{self, Sender};
use reference::generate::material;
use reference::message::{self, Kind};
use reference::neighbour::NeighbourState;
use reference::random::Random;
use reference::update::{walk, MOST_ROWS};

const TRIES: usize = 20_000;

/// A random neighbour's message, broken in this way.
fn broken(random: &mut Random, fault: &str) -> (Sender, Vec<u8>) {
    let sender = Sender {
        as_number: material::as_number(random),
        sequence: material::sequence(random),
        net: material::net(random),
    };
    (sender, faults::message(random, sender, fault))
}

#[test]
fn broken_states_are_not_well_formed() {
    let mut random = Random::new(1);
    let mut made = BTreeSet::new();
    for _ in 0..TRIES {
        let mut state = material::state(&mut random);
        assert!(state.is_well_formed());
        let fault = faults::break_state(&mut random, &mut state);
        assert!(!state.is_well_formed(), "{fault}: {state:?}");
        made.insert(fault);
    }
    assert_eq!(made, BTreeSet::from(faults::STATE_FAULTS));
}

/// "In Idle only address and AS may be non-zero", and the seconds: a fault of that name leaves a used
/// Idle slot that has something else.
#[test]
fn idle_faults_leave_the_neighbour_idle() {
    let mut random = Random::new(2);
    for _ in 0..TRIES {
        let mut state = material::state(&mut random);
        let fault = faults::break_state(&mut random, &mut state);
        if !fault.starts_with("Idle with") {
            continue;
        }
        let not_bare = state.neighbours.iter().filter(|neighbour| {
            neighbour.is_used()
                && neighbour.state == NeighbourState::Idle
                && **neighbour != neighbour.in_idle()
        });
        assert_eq!(not_bare.count(), 1, "{fault}");
    }
}

#[test]
fn broken_home_lists_are_refused() {
    let mut random = Random::new(3);
    let mut made = BTreeSet::new();
    for _ in 0..TRIES {
        let state = material::state(&mut random);
        let good = material::home_list(&mut random, state.address, state.net);
        assert!(gateway::home_rows(&state, &good).is_some());
        let (home, fault) = faults::home_list(&mut random, state.address, state.net);
        assert!(gateway::home_rows(&state, &home).is_none(), "{fault}");
        made.insert(fault);
    }
    assert_eq!(made, BTreeSet::from(faults::HOME_FAULTS));
}

#[test]
fn broken_meanings_are_refused() {
    let mut random = Random::new(4);
    let mut made = BTreeSet::new();
    for _ in 0..TRIES {
        let (message, loose, fault) = faults::meaning(&mut random);
        // More loose numbers would be rows of an Update.
        assert!(loose.len() < 3 || message.kind() != Kind::Update);
        let answer = message::write(&message, &loose, &mut vec![0; 2048]);
        if fault != "meaning: any status" {
            assert_eq!(answer, Err(Answer::BadSetting), "{fault}: {message:?}");
        }
        made.insert(fault);
    }
    let named = faults::MEANING_FAULTS.map(|(_, fault)| fault);
    assert_eq!(made, BTreeSet::from(named));
}

#[test]
fn two_faults_of_a_message_answer_the_first() {
    let mut random = Random::new(5);
    for (fault, answer) in [
        ("size and version", Answer::MessageSize),
        ("checksum and AS", Answer::WrongChecksum),
        ("kind and status", Answer::UnknownKind),
        ("length and sequence", Answer::WrongLength),
        ("sequence and body", Answer::BadUpdate),
    ] {
        for _ in 0..TRIES / 10 {
            let (sender, octets) = broken(&mut random, fault);
            let reading = message::read(&octets, sender.net);
            assert_eq!(reading, Err(answer), "{fault}: {octets:?}");
            match fault {
                "size and version" => assert_ne!(octets[0], 2),
                "checksum and AS" => assert_ne!(message::as_number(&octets), sender.as_number),
                "kind and status" => {
                    assert!(Kind::ALL.iter().all(|kind| !kind.allows_status(octets[3])))
                }
                _ => assert_ne!(message::sequence(&octets), sender.sequence),
            }
        }
    }
}

#[test]
fn a_body_fault_is_a_bad_body() {
    let mut random = Random::new(6);
    for fault in faults::BODY_FAULTS {
        for _ in 0..TRIES / 10 {
            let (sender, octets) = broken(&mut random, fault);
            assert_eq!(message::sequence(&octets), sender.sequence);
            let reading = message::read(&octets, sender.net);
            assert_eq!(reading, Err(Answer::BadUpdate), "{fault}: {octets:?}");
        }
    }
}

#[test]
fn messages_from_another_as() {
    let mut random = Random::new(7);
    let shape = |octets: &[u8]| ((octets[1], octets[2]), octets[3] <= 2, octets.len() == 14);
    let mut nearly = BTreeSet::new();
    for _ in 0..TRIES {
        let (sender, request) = broken(&mut random, "wrong AS on a Request");
        assert_ne!(message::as_number(&request), sender.as_number);
        assert_eq!(shape(&request), ((3, 0), true, true));
        let (sender, other) = broken(&mut random, "wrong AS near a Request");
        assert_ne!(message::as_number(&other), sender.as_number);
        assert_ne!(shape(&other), ((3, 0), true, true));
        nearly.insert(shape(&other));
    }
    for shape in [
        ((3, 1), true, true),
        ((3, 0), false, true),
        ((3, 0), true, false),
        ((5, 0), true, true),
    ] {
        assert!(nearly.contains(&shape), "{shape:?}");
    }
}

/// A few have their defect in the last of the rows.
#[test]
fn an_update_of_129_rows_has_its_defect_behind_them() {
    let mut random = Random::new(8);
    let mut behind = 0;
    for _ in 0..TRIES {
        let (sender, octets) = broken(&mut random, "Update of 129 rows and a defect");
        let (part, net) = (&octets[16..], sender.net);
        let mut rows = Vec::new();
        assert_eq!(walk(part, octets[10], octets[11], net, &mut rows), None);
        assert!(rows.len() == MOST_ROWS || rows.len() == MOST_ROWS + 1);
        behind += rows.len() - MOST_ROWS;
    }
    assert!(behind > TRIES / 2);
}
