//! Generated recordings: the same for the same seed, wide, deep, and damaged in every way.

use std::collections::BTreeMap;

use reference::answer::Answer;
use reference::call::Bench;
use reference::compare_recordings::difference;
use reference::gateway::SLOTS;
use reference::generate::day;
use reference::generate::line_faults::{Sound, LINE_FAULTS};
use reference::generate::recordings::recording;
use reference::neighbour::{Mode, NeighbourState};
use reference::net::address;
use reference::playback;
use reference::random::Random;
use reference::recording::{self as lines, LINE_END};

#[test]
fn a_seed_names_a_recording() {
    assert_eq!(recording(7, 200), recording(7, 200));
    assert_ne!(recording(7, 200), recording(8, 200));
}

/// Good lines of every kind to damage, the longest among them.
fn sounds(random: &mut Random) -> Vec<Sound> {
    let address = address(128, 9, random.octet(), 5);
    let text = reference::net::dotted(address);
    let message = vec![0xAB; 10];
    let hex = "0205".repeat(512);
    [
        format!("add={text}/7"),
        format!("remove={text}"),
        format!("start={text}"),
        format!("stop={text}"),
        format!("tick={text}/30"),
        format!("rx={text}/"),
        format!("rx={text}/{hex}{hex}00"),
    ]
    .into_iter()
    .map(|line| Sound {
        line,
        address,
        message: message.clone(),
    })
    .collect()
}

#[test]
fn every_damaged_line_is_bad() {
    let mut random = Random::new(1);
    for _ in 0..200 {
        for sound in sounds(&mut random) {
            assert!(lines::event(format!("{}\n", sound.line).as_bytes()).is_ok());
            for (fault, damage) in LINE_FAULTS {
                let mut line = damage(&mut random, &sound);
                assert!(!line.contains(&LINE_END), "{fault}");
                line.push(LINE_END);
                let shown = line.escape_ascii();
                assert_eq!(
                    lines::event(&line),
                    Err(Answer::BadLine),
                    "{fault}: {shown}"
                );
            }
        }
    }
}

/// What the outputs of many recordings hold.
#[test]
fn recordings_are_meaningful() {
    let outputs: Vec<String> = (0..600)
        .map(|seed| String::from_utf8(playback::play(&recording(seed, 200))).expect("text"))
        .collect();
    let with = |text: &str| {
        outputs
            .iter()
            .filter(|output| output.contains(text))
            .count()
    };
    let lines = |key: &str| -> usize {
        let lines = outputs.iter().flat_map(|output| output.lines());
        lines.filter(|line| line.starts_with(key)).count()
    };
    assert!(lines("tx=") > 10_000);
    assert!(lines("bad=") > 5_000);
    assert!(lines("net=") > 5_000);
    for word in ["idle", "acquisition", "down", "up", "cease"] {
        assert!(with(&format!("state={word}\n")) >= 4, "{word}");
    }
    assert!(with("mode=active\n") > 30 && with("mode=passive\n") > 30);
    assert!(with("rows=128\n") > 30 && with("side=ext\n") > 30);
    // Seconds in each state, and more of Idle than 16 bits hold.
    for name in ["sidle", "sacq", "sdown", "sup", "scease"] {
        let none = lines(&format!("{name}=0"));
        assert!(lines(&format!("{name}=")) > none + 100, "{name}");
    }
    let idle = outputs.iter().flat_map(|output| output.lines());
    let idle = idle.filter_map(|line| line.strip_prefix("sidle=")?.parse().ok());
    assert!(idle.filter(|seconds: &u32| *seconds > 65_536).count() > 10);
    // Errors of reason 4, to a Hello and to a Poll.
    let too_quick = |kind: &str| {
        let lines = outputs.iter().flat_map(|output| output.lines());
        let errors = lines.filter(|line| line.starts_with("tx=") && line.contains("/0208"));
        errors
            .filter(|line| {
                line.split('/')
                    .next_back()
                    .is_some_and(|hex| hex[20..28] == *kind)
            })
            .count()
    };
    assert!(too_quick("00040205") > 100 && too_quick("00040202") > 100);
}

/// Few heads are damaged: many short recordings have every line of them bad.
#[test]
fn every_line_of_a_head_is_bad_somewhere() {
    let outputs: Vec<Vec<u8>> = (0..2000)
        .map(|seed| playback::play(&recording(seed, 8)))
        .collect();
    for number in 1..=4 {
        let alone = format!("bad={number}\n").into_bytes();
        let bare = outputs.iter().filter(|output| **output == alone).count();
        assert!(bare > 5, "{number}: {bare}");
    }
}

/// `quiet` lines of every sort: such as set something and such as set nothing, and in front of what
/// fresh refuses.
#[test]
fn quiet_lines_of_every_sort_come_up() {
    let mut counts: BTreeMap<&str, usize> = BTreeMap::new();
    for seed in 0..2000 {
        let recording = recording(seed, 12);
        let all: Vec<&[u8]> = lines::lines(&recording).collect();
        let fifth = all.get(4).copied().unwrap_or_default();
        let has_quiet = |line: &[u8]| line.starts_with(b"quiet");
        let refused = playback::play(&recording) == b"bad=4\n" && lines::head(&all).is_ok();
        let is_good = lines::quiet(fifth).is_some();
        let mut note = |what, is_so| *counts.entry(what).or_default() += usize::from(is_so);
        note("quiet=0", fifth == b"quiet=0\n");
        note("quiet=1", fifth == b"quiet=1\n");
        note("quiet=1, not ended", fifth == b"quiet=1");
        note(
            "bad",
            has_quiet(fifth) && !is_good && fifth.ends_with(b"\n"),
        );
        note("none", !has_quiet(fifth));
        note(
            "second",
            is_good && all[5..].iter().any(|line| has_quiet(line)),
        );
        let late = all.get(5).is_some_and(|line| lines::quiet(line).is_some());
        note("quiet=0 or 1 on line 6 alone", late && !is_good);
        note("good, fresh refuses", refused && is_good);
        note(
            "bad, fresh refuses",
            refused && has_quiet(fifth) && !is_good,
        );
        note("none, fresh refuses", refused && !has_quiet(fifth));
    }
    for (what, count) in counts {
        assert!(count >= 4, "{what}: {count}");
    }
}

/// Both settings are tried by what draws a Cease: one of status 7 comes where the recording is not
/// quiet, and none where it is.
#[test]
fn strays_come_up_with_either_setting() {
    let mut answered = [0; 2];
    let mut silent = 0;
    for seed in 0..400 {
        let recording = recording(seed, 150);
        let all: Vec<&[u8]> = lines::lines(&recording).collect();
        let Ok((mut bench, taken)) = playback::begin(&all) else {
            continue;
        };
        let quiet = bench.state.quiet;
        for line in &all[taken..] {
            let (before, mut output) = (bench.clone(), Vec::new());
            playback::play_line(&mut bench, 0, line, &mut output);
            let output = String::from_utf8(output).expect("text");
            answered[usize::from(quiet)] += output.matches("/02030307").count();
            let is_message = line.starts_with(b"rx=") && output.is_empty();
            silent += usize::from(quiet == 1 && is_message && before == bench);
        }
    }
    assert!(answered[0] > 100 && silent > 100, "{answered:?} {silent}");
    assert_eq!(answered[1], 0);
}

#[test]
fn lines_are_as_many_as_asked_for() {
    for asked in [0, 1, 3, 4, 5, 77, 300] {
        let counts: Vec<usize> = (0..40)
            .map(|seed| lines::lines(&recording(seed, asked)).count())
            .collect();
        let exact = counts.iter().filter(|count| **count == asked).count();
        assert!(exact >= 25, "{asked}: {counts:?}");
    }
}

#[test]
fn some_last_lines_are_not_ended() {
    let unended = (0..200)
        .filter(|seed| !recording(*seed, 50).ends_with(b"\n"))
        .count();
    assert!((10..80).contains(&unended));
}

/// The state after each line of two hours.
#[test]
fn a_day_keeps_all_eight_neighbours_up() {
    let text = day::recording(1, 7200);
    let mut all = text.lines().map(|line| format!("{line}\n"));
    let head: Vec<String> = all.by_ref().take(lines::HEAD_LINES).collect();
    let head: Vec<&[u8]> = head.iter().map(String::as_bytes).collect();
    let (mut bench, _): (Bench, usize) = playback::begin(&head).expect("a good head");
    let mut output = Vec::new();
    let (mut seconds, mut modes) = (0, [0; 2]);
    for line in all {
        if let Some(count) = line.strip_prefix("tick=128.9.0.5/") {
            seconds += count.trim_end().parse::<u32>().expect("a count");
        }
        playback::play_line(&mut bench, 0, line.as_bytes(), &mut output);
        let neighbours = &bench.state.neighbours;
        if seconds > 300 {
            assert!(neighbours.iter().all(|n| n.state == NeighbourState::Up));
            assert!(neighbours.iter().all(|n| n.row_count > 0));
            let active = neighbours.iter().filter(|n| n.mode == Mode::Active).count();
            modes = [active, SLOTS - active];
        }
    }
    assert_eq!(seconds, 7200);
    assert_eq!(modes, [4, 4]);
    assert!(!output.starts_with(b"bad=") && output.len() > 50_000);
    // Nobody is too quick, and nothing else is wrong.
    let output = String::from_utf8(output).expect("text");
    assert!(!output.contains("/0208"));
}

#[test]
fn the_first_difference_is_found_where_it_is() {
    assert_eq!(difference(b"a\nb\n", b"a\nb\n"), None);
    let found = difference(b"tx=1\nbad=5\nx\n", b"tx=1\nbad=6\nx\n").expect("a difference");
    assert_eq!((found.octet, found.line), (9, 2));
    assert_eq!(found.ours, b"bad=5\n");
    assert_eq!(found.theirs, b"bad=6\n");
    let cut = difference(b"tx=1\nbad=5\n", b"tx=1\n").expect("a difference");
    assert_eq!((cut.octet, cut.line), (5, 2));
    assert_eq!(
        (cut.ours.as_slice(), cut.theirs.as_slice()),
        (&b"bad=5\n"[..], &b""[..])
    );
}
