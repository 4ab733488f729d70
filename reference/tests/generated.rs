//! Generated lists: the same for the same seed, wide, deep, and with no law broken.

use reference::answer::Answer;
use reference::call::{Bench, Call};
use reference::coverage;
use reference::gateway::{State, SLOTS, SLOT_NUMBERS};
use reference::generate::{Generator, Origin};
use reference::message::{self, Body};
use reference::neighbour::NeighbourState;
use reference::update::Row;

#[test]
fn a_seed_names_a_list() {
    let calls = |seed: u64| -> Vec<Call> {
        Generator::new(seed)
            .take(3000)
            .map(|step| step.call)
            .collect()
    };
    assert_eq!(calls(7), calls(7));
    assert_ne!(calls(7), calls(8));
}

#[test]
fn no_law_is_broken() {
    let survey = coverage::survey(1, 40_000);
    assert_eq!(survey.breaches(), &[] as &[String]);
}

#[test]
fn rows_are_really_reached() {
    let mut bench = Bench::default();
    let mut with_rows = 0;
    for step in Generator::new(3).take(20_000) {
        bench.run(&step.call);
        let held = bench
            .state
            .neighbours
            .iter()
            .any(|neighbour| neighbour.state == NeighbourState::Up && neighbour.row_count > 0);
        if held && step.origin == Origin::Reached {
            with_rows += 1;
        }
    }
    assert!(with_rows > 1000);
}

/// 02, L7: the five counts are the ticks carried out in each state since the neighbour was added, or
/// since the host handed in others.
#[test]
fn seconds_are_the_ticks_of_each_state() {
    let mut bench = Bench::default();
    let mut seconds = [[0; 5]; SLOTS];
    let mut counted = [0; 5];
    for step in Generator::new(5).take(60_000) {
        let before = bench.state;
        let record = bench.run(&step.call);
        let is_done = record.answer == Answer::Done;
        let slot_of = |state: &State, address| state.find(address).expect("a known neighbour");
        match step.call {
            Call::HandState(_) => seconds = bench.state.neighbours.map(|n| n.seconds.all()),
            Call::Fresh { .. } => seconds = [[0; 5]; SLOTS],
            Call::Add { address, .. } if is_done => {
                seconds[slot_of(&bench.state, address)] = [0; 5];
            }
            Call::Remove { address } if is_done => seconds[slot_of(&before, address)] = [0; 5],
            Call::Tick { address, .. } if is_done => {
                let slot = slot_of(&before, address);
                let state = before.neighbours[slot].state;
                let index = NeighbourState::ALL.iter().position(|other| *other == state);
                let index = index.expect("one of five");
                seconds[slot][index] += 1;
                counted[index] += 1;
            }
            _ => {}
        }
        assert_eq!(bench.state.neighbours.map(|n| n.seconds.all()), seconds);
    }
    assert!(counted.iter().all(|ticks| *ticks > 100), "{counted:?}");
}

/// "Rows of the last accepted Update since it last entered Up": in a list that began with fresh
/// and a zeroed table, the table is exactly that, number for number.
#[test]
fn the_table_holds_the_last_accepted_updates() {
    let mut bench = Bench::default();
    let mut rows: [Vec<Row>; SLOTS] = Default::default();
    let mut accepted = 0;
    for step in Generator::new(5).take(60_000) {
        let before = bench.state;
        let record = bench.run(&step.call);
        if step.origin == Origin::HandedIn || step.call.kind().is_none() {
            continue;
        }
        if let (
            Call::Message {
                address, octets, ..
            },
            Answer::Done,
        ) = (&step.call, record.answer)
        {
            let slot = before.find(*address).expect("a known neighbour");
            if before.neighbours[slot].state == NeighbourState::Up {
                if let Ok(Body::Update { rows: reported, .. }) =
                    message::read(octets, before.net).map(|message| message.body)
                {
                    rows[slot] = reported;
                    accepted += 1;
                }
            }
        }
        for (slot, kept) in rows.iter_mut().enumerate() {
            if bench.state.neighbours[slot].state != NeighbourState::Up {
                kept.clear();
            }
            let mut numbers: Vec<u32> = kept.iter().flat_map(Row::numbers).collect();
            assert_eq!(
                usize::from(bench.state.neighbours[slot].row_count),
                kept.len()
            );
            numbers.resize(SLOT_NUMBERS, 0);
            assert_eq!(bench.table[slot * SLOT_NUMBERS..][..SLOT_NUMBERS], numbers);
        }
    }
    assert!(accepted > 100);
}
