//! A host's generated calls: the same for the same seed, the lists' own results among them, every
//! place reached; and a fuzzer's inputs.

use std::collections::BTreeSet;

use reference::answer::Answer;
use reference::call::{Call, CallKind};
use reference::fuzz;
use reference::generate::hosts::{Case, Hosts};
use reference::generate::Generator;
use reference::host::{self, Part};
use reference::host_places::HostSurvey;
use reference::random::Random;
use reference::record::{self, Given};

#[test]
fn a_seed_names_a_list() {
    let calls = |seed: u64| -> Vec<_> {
        let cases = Hosts::new(seed).take(500);
        cases.map(|case| (case.call, case.result)).collect()
    };
    assert!(calls(7) == calls(7));
    assert!(calls(7) != calls(8));
}

#[test]
fn the_lists_are_those_of_the_other_comparisons() {
    let steps = Hosts::new(9).take(4_000).flat_map(|case| {
        let listed = case.listed.into_iter();
        listed.flat_map(|listed| listed.handed.into_iter().chain([listed.step]))
    });
    for (ours, theirs) in steps.zip(Generator::new(9)) {
        assert!(ours.call == theirs.call);
    }
}

/// What a list's call gives in octets is what it gives in numbers.
fn assert_as_listed(case: &Case) {
    let Some(listed) = &case.listed else {
        return;
    };
    let call = &listed.step.call;
    let mut given = Given::expected(call, &listed.record, &listed.after);
    if let Call::Read { .. } = call {
        let rows = 12 * given.lengths.0;
        given.lengths = match listed.record.answer {
            Answer::Done => (24, rows),
            _ => (0, 0),
        };
        let written = usize::from(given.lengths.0 + given.lengths.1);
        assert_eq!(case.after.buffer[..written], given.buffer[..written]);
        assert_eq!(
            case.after.buffer[written..],
            case.call.lent.buffer[written..]
        );
    }
    let lengths = u64::from(given.lengths.1) << 32 | u64::from(given.lengths.0) << 16;
    assert_eq!(case.result, lengths | u64::from(given.answer), "{call:?}");
    let is_refused_fresh = case.call.kind == CallKind::Fresh && given.answer != 0;
    if host::takes(case.call.kind, Part::Block) && !is_refused_fresh {
        assert_eq!(case.after.block, given.state);
    }
    if host::takes(case.call.kind, Part::Table) {
        assert_eq!(case.after.table, host::octets_of(&given.table));
    }
    let (first, second) = given.lengths;
    let written = usize::from(first) + usize::from(second);
    if call.buffer().is_some() {
        assert_eq!(case.after.buffer[..written], given.buffer[..written]);
    }
    assert!(case.after.buffer.get(written..) == case.call.lent.buffer.get(written..));
}

#[test]
fn the_lists_give_in_octets_what_they_give_in_numbers() {
    for case in Hosts::new(3).take(5_000) {
        assert_as_listed(&case);
    }
}

#[test]
fn a_refusal_leaves_block_and_table() {
    for case in Hosts::new(4).take(5_000) {
        if case.answer() != 0 {
            assert_eq!(case.after.block, case.call.lent.block);
            assert_eq!(case.after.table, case.call.lent.table);
        }
        let lengths = case.result >> 16;
        if case.answer() != 0 && case.call.kind != CallKind::Message {
            assert_eq!(lengths, 0);
            assert_eq!(case.after.buffer, case.call.lent.buffer);
        }
    }
}

#[test]
fn every_place_is_reached() {
    let mut survey = HostSurvey::default();
    for case in Hosts::new(1).take(40_000) {
        survey.observe(&case);
    }
    assert_eq!(survey.reached_below(1), Vec::<String>::new());
    assert_eq!(survey.breaches(), &[] as &[String]);
}

#[test]
fn an_input_stands_for_its_call() {
    let mut kinds = BTreeSet::new();
    for case in Hosts::new(2).take(3_000) {
        if let Some(input) = fuzz::input_of(&case.call) {
            assert!(fuzz::call_of(&input) == case.call);
            kinds.insert(case.call.kind);
        }
    }
    assert_eq!(kinds.len(), CallKind::ALL.len());
}

#[test]
fn a_made_block_is_well_formed() {
    let mut random = Random::new(5);
    let mut answers = BTreeSet::new();
    for _ in 0..3_000 {
        let mut input: Vec<u8> = (0..random.below(900)).map(|_| random.octet()).collect();
        if input.len() > 2 {
            // The block made, everything fitted, all lengths right.
            input[1] |= 127;
            input[2] = 0;
        }
        let call = fuzz::call_of(&input);
        if let Ok(state) = host::read_block(&call.lent.block) {
            assert!(input.len() <= 2 || state.is_well_formed());
            assert_eq!(record::state_block(&state), call.lent.block);
        }
        answers.insert(host::answer(call.make().0));
    }
    assert!(answers.contains(&0) && !answers.contains(&20));
}

#[test]
fn there_is_an_input_to_start_from_for_each_answer() {
    let seeds = fuzz::seeds(1, 20_000);
    for kind in CallKind::ALL {
        let name = format!("{kind:?}").to_lowercase();
        for answer in kind.answers() {
            assert!(
                seeds.contains_key(&format!("{name}-{answer}")),
                "{name} {answer}"
            );
        }
    }
    let messages = seeds.keys().filter(|name| name.starts_with("message-of-"));
    assert_eq!(messages.count(), 10);
}
