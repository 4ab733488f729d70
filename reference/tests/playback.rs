//! Playing a recording back (02, L1, L6 and L7). The number in a test's name is the reading's.

mod common;

use common::*;
use reference::call::Bench;
use reference::generate::recordings;
use reference::message::Kind;
use reference::neighbour::STRAYS;
use reference::net::dotted;
use reference::playback;
use reference::recording;
use reference::site;

const HEAD: &str = "ownas=9\nown=128.9.0.1\ncap=1\nnet=128.9.0.0\n";
const NOBODY: &str = "neighbours=0\n";
const N_IDLE: &str = "neighbours=1\nslot=0\naddr=128.9.0.5\nas=7\nstate=idle\nmode=none\nrows=0\n\
    sidle=0\nsacq=0\nsdown=0\nsup=0\nscease=0\n";

fn play(recording: &str) -> String {
    String::from_utf8(playback::play(recording.as_bytes())).expect("text")
}

/// What these event lines write behind a good head.
fn after_head(lines: &[&str]) -> String {
    let lines: String = lines.iter().map(|line| format!("{line}\n")).collect();
    play(&format!("{HEAD}{lines}"))
}

fn rx(address: u32, octets: &[u8]) -> String {
    format!("rx={}/{}", dotted(address), recording::hex(octets))
}

fn tx(address: u32, octets: &[u8]) -> String {
    format!("tx={}/{}\n", dotted(address), recording::hex(octets))
}

/// N added, acquired and heard until it is Up, S 1.
fn up() -> Vec<String> {
    let heard = rx(N, &peer(I_H_U, 1, 0, &[]));
    let mut lines = vec![
        "add=128.9.0.5/7".to_string(),
        rx(N, &request(0, 0, 30, 120)),
    ];
    for _ in 0..3 {
        lines.push(heard.clone());
        lines.push("tick=128.9.0.5/32".to_string());
    }
    lines
}

/// What is sent on the way there.
fn sent_on_the_way_up() -> String {
    [
        our_confirm(1, 0),
        our_hello(2, 0),
        our_hello(2, 0),
        our_hello(2, 0),
        our_hello(1, 0),
        our_poll(1),
    ]
    .map(|octets| tx(N, &octets))
    .concat()
}

/// The lines up to Up and these, without what is sent on the way and without the listing.
fn then(lines: &[String]) -> String {
    let all = [up(), lines.to_vec()].concat();
    let all: Vec<&str> = all.iter().map(String::as_str).collect();
    let output = after_head(&all);
    let rest = output.strip_prefix(&sent_on_the_way_up()).expect("Up");
    let listing = rest.find("neighbours=").expect("a listing");
    rest[..listing].to_string()
}

#[test]
fn case_u_played() {
    let update = rx(N, &hex(CASE_U));
    let lines = [up(), vec![update]].concat();
    let lines: Vec<&str> = lines.iter().map(String::as_str).collect();
    let rows = "net=10.0.0.0\ngw=128.9.0.5\ndist=0\nside=int\n\
        net=192.5.6.0\ngw=128.9.0.5\ndist=0\nside=int\n";
    let listing = "neighbours=1\nslot=0\naddr=128.9.0.5\nas=7\nstate=up\nmode=active\nrows=2\n\
        sidle=0\nsacq=0\nsdown=96\nsup=0\nscease=0\n";
    assert_eq!(
        after_head(&lines),
        format!("{}{listing}{rows}", sent_on_the_way_up())
    );
}

#[test]
fn nothing_but_a_head() {
    assert_eq!(play(HEAD), NOBODY);
}

#[test]
fn two_messages_of_one_call_are_two_lines() {
    let request = rx(N, &request(0, 9, 30, 120));
    let output = after_head(&["add=128.9.0.5/7", &request]);
    let expected = tx(N, &our_confirm(1, 9)) + &tx(N, &our_hello(2, 0));
    assert!(output.starts_with(&(expected + "neighbours=1\n")));
}

#[test]
fn refused_messages_are_answered_as_their_refusal_says() {
    let bad_status = peer(HELLO, 3, 9, &[]);
    let error = our_error(1, 0, 1, &bad_status);
    assert_eq!(then(&[rx(N, &bad_status)]), tx(N, &error));
    let bad_body = peer(UPDATE, 1, 1, &[1, 0, 128, 9, 0, 0, 0]);
    assert_eq!(
        then(&[rx(N, &bad_body)]),
        tx(N, &our_error(1, 0, 2, &bad_body))
    );
    // AS 12 is not the neighbour's: Refuse 4 in Idle, nothing in Up.
    let stranger = raw(REQUEST, 0, 12, 9, &intervals(30, 120));
    assert_eq!(then(&[rx(N, &stranger)]), "");
    let idle = after_head(&["add=128.9.0.5/7", &rx(N, &stranger)]);
    assert_eq!(idle, tx(N, &ours(REFUSE, 4, 9, &[])) + N_IDLE);
}

#[test]
fn the_home_list_is_empty() {
    let answer = ours(UPDATE, 1, 9, &[0, 0, 128, 9, 0, 0]);
    assert_eq!(then(&[rx(N, &poll(1, 9, NET))]), tx(N, &answer));
}

#[test]
fn refused_calls_print_nothing_else() {
    let hello = rx(P, &peer(HELLO, 1, 1, &[]));
    let lines = [
        "add=128.9.0.5/7",
        "add=128.9.0.5/7",
        "add=128.9.0.1/7",
        "add=128.9.0.6/9",
        "add=0.0.0.0/7",
        "remove=128.9.0.6",
        "start=128.9.0.6",
        "stop=0.0.0.0",
        "tick=128.9.0.6/86400",
        &hello,
        "rx=128.9.0.5/0205",
    ];
    assert_eq!(after_head(&lines), N_IDLE);
}

#[test]
fn a_ninth_neighbour_is_refused() {
    let lines: Vec<String> = (1..=9)
        .map(|last| format!("add=128.9.1.{last}/7"))
        .collect();
    let lines: Vec<&str> = lines.iter().map(String::as_str).collect();
    let output = after_head(&lines);
    assert!(output.starts_with("neighbours=8\n"));
    assert!(!output.contains("128.9.1.9"));
}

#[test]
fn ticks_are_calls_one_by_one() {
    let output = after_head(&["add=128.9.0.5/7", "start=128.9.0.5", "tick=128.9.0.5/120"]);
    // A Request by Start, one every 30 seconds, and Idle when t3 has run out.
    let listing = N_IDLE.replace("sacq=0", "sacq=120");
    let expected = tx(N, &our_request(1, 0)).repeat(4) + &listing;
    assert_eq!(output, expected);
    let one_less = after_head(&["add=128.9.0.5/7", "start=128.9.0.5", "tick=128.9.0.5/119"]);
    assert!(one_less.contains("state=acquisition\n"));
}

#[test]
fn b77_empty_and_odd_hex() {
    assert_eq!(after_head(&["add=128.9.0.5/7", "rx=128.9.0.5/"]), N_IDLE);
    assert_eq!(after_head(&["rx=128.9.0.5/"]), NOBODY);
    for line in ["rx=128.9.0.5/020", "rx=128.9.0.5/0a", "rx=128.9.0.5/A"] {
        assert_eq!(after_head(&[line]), format!("bad=5\n{NOBODY}"));
    }
}

#[test]
fn b78_refused_is_not_bad() {
    assert_eq!(after_head(&["add=128.9.0.5/0"]), NOBODY);
    for (line, refused) in [
        ("ownas=9", "ownas=0"),
        ("cap=1", "cap=3"),
        ("cap=1", "cap=255"),
    ] {
        assert_eq!(play(&HEAD.replace(line, refused)), "bad=4\n");
    }
    for (line, bad) in [("cap=1", "cap=256"), ("cap=1", "cap=01")] {
        assert_eq!(play(&HEAD.replace(line, bad)), "bad=3\n");
    }
    assert_eq!(play(&HEAD.replace("ownas=9", "ownas=65536")), "bad=1\n");
    for (line, refused) in [
        ("net=128.9.0.0", "net=128.9.0.1"),
        ("net=128.9.0.0", "net=224.0.0.0"),
        ("net=128.9.0.0", "net=10.0.0.0"),
        ("own=128.9.0.1", "own=128.10.0.1"),
    ] {
        let recording = HEAD.replace(line, refused);
        assert_eq!(play(&(recording + "add=128.9.0.5/7\n")), "bad=4\n");
    }
}

#[test]
fn b79_a_long_line_is_bad_once() {
    let long = format!("rx=128.9.0.5/{}", "0".repeat(10_000));
    assert_eq!(after_head(&[&long]), format!("bad=5\n{NOBODY}"));
    let octets_2050 = format!("rx=128.9.0.5/{}", "00".repeat(2050));
    let octets_2049 = format!("rx=128.9.0.5/{}", "00".repeat(2049));
    assert_eq!(
        after_head(&[&octets_2050, &octets_2049, "add=128.9.0.5/7", &octets_2050]),
        format!("bad=5\nbad=8\n{N_IDLE}")
    );
    // What is left of it is no line of its own.
    let hidden = format!("{}add=128.9.0.5/7", " ".repeat(4096));
    assert_eq!(after_head(&[&hidden]), format!("bad=5\n{NOBODY}"));
}

#[test]
fn b80_ticks_go_on_whatever_one_answers() {
    // All of them refused, then none.
    let lines = [
        "tick=128.9.0.5/40",
        "add=128.9.0.5/7",
        "start=128.9.0.5",
        "tick=128.9.0.5/30",
    ];
    let output = after_head(&lines);
    assert!(output.starts_with(&(tx(N, &our_request(1, 0)).repeat(2) + "neighbours=1\n")));
    let idle = after_head(&["add=128.9.0.5/7", "start=128.9.0.5", "tick=128.9.0.5/86400"]);
    let listing = N_IDLE.replace("sidle=0\nsacq=0", "sidle=86280\nsacq=120");
    assert_eq!(idle, tx(N, &our_request(1, 0)).repeat(4) + &listing);
}

/// 02, L7: those that are refused for the seconds end no line, and what follows is played.
#[test]
fn b80_ticks_go_on_behind_the_last_that_is_counted() {
    let lines: Vec<&[u8]> = HEAD
        .as_bytes()
        .split_inclusive(|octet| *octet == 10)
        .collect();
    let (mut bench, _) = playback::begin(&lines).expect("a good head");
    let mut output = Vec::new();
    let mut play = |bench: &mut Bench, line: &str| {
        playback::play_line(bench, 9, format!("{line}\n").as_bytes(), &mut output);
    };
    play(&mut bench, "add=128.9.0.5/7");
    play(&mut bench, "start=128.9.0.5");
    bench.state.neighbours[0].seconds.down = u32::MAX - 31;
    play(&mut bench, "tick=128.9.0.5/86400");
    let n = bench.state.neighbours[0];
    assert_eq!((n.seconds.acquisition, n.t1), (31, 29));
    assert_eq!(n.seconds.sum(), 4_294_967_295);
    play(&mut bench, "stop=128.9.0.5");
    play(&mut bench, "tick=128.9.0.5/1");
    play(&mut bench, "remove=128.9.0.5");
    play(&mut bench, "add=128.9.0.5/7");
    play(&mut bench, "tick=128.9.0.5/2");
    let n = bench.state.neighbours[0];
    assert_eq!(n.seconds.all(), [2, 0, 0, 0, 0]);
    // Start's Request, and the one that the 30th tick repeats: no line is bad.
    let expected = tx(N, &our_request(1, 0)).repeat(2);
    assert_eq!(String::from_utf8(output).expect("text"), expected);
}

#[test]
fn b81_heads_that_are_cut_short() {
    assert_eq!(play(""), "bad=1\n");
    assert_eq!(play("\n"), "bad=1\n");
    assert_eq!(play("ownas=9"), "bad=1\n");
    assert_eq!(play("ownas=9\n"), "bad=2\n");
    assert_eq!(play("ownas=9\nown=128.9.0.1\n"), "bad=3\n");
    assert_eq!(play("ownas=9\nown=128.9.0.1\ncap=1\n"), "bad=4\n");
    assert_eq!(
        play("ownas=9\nown=128.9.0.1\ncap=1\nnet=128.9.0.0"),
        "bad=4\n"
    );
    assert_eq!(play(&HEAD.replace('\n', "\r\n")), "bad=1\n");
    assert_eq!(play(&format!("\n{HEAD}")), "bad=1\n");
}

#[test]
fn b81_blank_lines_and_line_ends() {
    assert_eq!(
        after_head(&["", "add=128.9.0.5/7\r", ""]),
        format!("bad=5\nbad=6\nbad=7\n{NOBODY}")
    );
}

#[test]
fn an_unended_last_line_is_bad_whatever_it_says() {
    for last in ["add=128.9.0.5/7", "start=128.9.0.5", "x", "\r", "cap=1"] {
        assert_eq!(play(&format!("{HEAD}{last}")), format!("bad=5\n{NOBODY}"));
    }
    assert_eq!(
        play(&format!("{HEAD}add=128.9.0.5/7\nstart=128.9.0.5")),
        format!("bad=6\n{N_IDLE}")
    );
}

#[test]
fn a_bad_head_is_reported_alone() {
    let events = "add=128.9.0.5/7\nstart=128.9.0.5\nnonsense\n";
    for (number, line) in HEAD.lines().enumerate() {
        let recording = HEAD.replacen(line, "nonsense", 1) + events;
        assert_eq!(play(&recording), format!("bad={}\n", number + 1));
        let without = HEAD.replacen(&format!("{line}\n"), "", 1) + events;
        assert_eq!(play(&without), format!("bad={}\n", number + 1));
    }
    // The first of several.
    assert_eq!(
        play("ownas=9\nown=128.9.0\ncap=256\nnet=128.9.0.0\n"),
        "bad=2\n"
    );
    // A bad fourth line, though fresh would refuse the others.
    assert_eq!(
        play("ownas=0\nown=128.9.0.1\ncap=7\nnet=128.9.0\n"),
        "bad=4\n"
    );
    // A bad third line, though fresh would refuse the first.
    assert_eq!(
        play("ownas=0\nown=128.9.0.1\ncap=256\nnet=128.9.0.0\n"),
        "bad=3\n"
    );
}

#[test]
fn bad_lines_are_reported_in_their_places() {
    let output = after_head(&[
        "nonsense",
        "add=128.9.0.5/7",
        "",
        "start=128.9.0.5",
        "tick=128.9.0.5/0",
        "tick=128.9.0.5/30",
        "own=128.9.0.1",
    ]);
    let sent = tx(N, &our_request(1, 0));
    let expected = format!("bad=5\nbad=7\n{sent}bad=9\n{sent}bad=11\nneighbours=1\n");
    assert!(output.starts_with(&expected));
}

#[test]
fn line_numbers_have_as_many_digits_as_they_need() {
    let output = play(&format!("{HEAD}{}", "\n".repeat(100_000)));
    assert!(output.ends_with(&format!("bad=100003\nbad=100004\n{NOBODY}")));
}

/// "Refusals: 19, bad line, before all others": a line that is bad is reported, whatever else
/// would be refused, and nothing of it is done.
#[test]
fn bad_line_comes_before_all_others() {
    let bad_after = |before: &[String], line: &str| {
        let lines = [before, &[line.to_string()]].concat();
        let with: Vec<&str> = lines.iter().map(String::as_str).collect();
        let without = after_head(&with[..with.len() - 1]);
        let (sent, listing) = without.split_at(without.find("neighbours=").expect("a listing"));
        let number = 4 + with.len();
        assert_eq!(
            after_head(&with),
            format!("{sent}bad={number}\n{listing}"),
            "{line}"
        );
    };
    let wrong_checksum = "02050001FFFF00070001";
    for line in [
        // 5, nobody has this address.
        "start=128.9.0.9 ",
        "tick=128.9.0.9/86401",
        "rx=128.9.0.9/2",
        // 6, above 2,048 octets.
        &format!("rx=128.9.0.5/{}", "00".repeat(2050)),
        // 6, below 10 octets.
        "rx=128.9.0.5/0",
        // 7 and 8.
        "rx=128.9.0.5/03050001FDF000070001 ",
        &format!("rx=128.9.0.5/{wrong_checksum}\r"),
        // 16: present, ours, AS 0.
        "add=128.9.0.5/65536",
        "add=128.9.0.1/07",
        "add=128.9.0.6/00",
        // 18, not Idle.
        "remove=128.9.0.5/",
        // Not refused if they were good.
        "stop=128.9.0.5 ",
        "stop=128.9.0.5\r",
        "tick=128.9.0.5/032",
        "rx=128.9.0.5/02030300FAF500070001f",
    ] {
        bad_after(&up(), line);
    }
    let eight: Vec<String> = (1..=8)
        .map(|last| format!("add=128.9.1.{last}/7"))
        .collect();
    // 17, no free slot.
    bad_after(&eight, "add=128.9.1.9/7/");
}

/// N in Idle says Hello, behind these lines.
fn hello_behind(lines: &[&str]) -> String {
    let hello = rx(N, &peer(HELLO, 1, 9, &[]));
    after_head(&[lines, &["add=128.9.0.5/7", &hello]].concat())
}

/// 02, L6: without a setting it is 0.
#[test]
fn a_stray_draws_cease_unless_quiet() {
    let cease = tx(N, &stray_cease()) + N_IDLE;
    assert_eq!(hello_behind(&[]), cease);
    assert_eq!(hello_behind(&["quiet=0"]), cease);
    assert_eq!(hello_behind(&["quiet=1"]), N_IDLE);
}

#[test]
fn lines_are_counted_with_quiet_too() {
    for quiet in ["quiet=0", "quiet=1"] {
        assert_eq!(after_head(&[quiet]), NOBODY);
        let output = after_head(&[quiet, "nonsense", "add=128.9.0.5/7", ""]);
        assert_eq!(output, format!("bad=6\nbad=8\n{N_IDLE}"));
    }
}

#[test]
fn b92_any_other_quiet_line_is_bad_and_sets_nothing() {
    let cease = tx(N, &stray_cease()) + N_IDLE;
    for line in [
        "quiet=2",
        "quiet=01",
        "quiet=",
        "quiet",
        "quiet=1\r",
        "Quiet=1",
    ] {
        assert_eq!(hello_behind(&[line]), format!("bad=5\n{cease}"), "{line:?}");
        // Behind a good one, which stands.
        let behind = hello_behind(&["quiet=1", line]);
        assert_eq!(behind, format!("bad=6\n{N_IDLE}"), "{line:?}");
    }
    // At line 6, behind an event, a bad line, or a bad one of its own.
    for before in ["remove=128.9.0.5", "", "quiet=2"] {
        let is_bad = event_is_bad(before);
        let bad = if is_bad { "bad=5\nbad=6\n" } else { "bad=6\n" };
        assert_eq!(hello_behind(&[before, "quiet=1"]), format!("{bad}{cease}"));
    }
    // A second one sets nothing.
    assert_eq!(
        hello_behind(&["quiet=0", "quiet=1"]),
        format!("bad=6\n{cease}")
    );
    assert_eq!(
        hello_behind(&["quiet=1", "quiet=0"]),
        format!("bad=6\n{N_IDLE}")
    );
    assert_eq!(
        hello_behind(&["quiet=1", "quiet=1"]),
        format!("bad=6\n{N_IDLE}")
    );
    // An unended one is bad, as any last line is.
    for last in ["quiet=0", "quiet=1", "quiet="] {
        assert_eq!(play(&format!("{HEAD}{last}")), format!("bad=5\n{NOBODY}"));
        let second = play(&format!("{HEAD}quiet=1\n{last}"));
        assert_eq!(second, format!("bad=6\n{NOBODY}"));
    }
}

fn event_is_bad(line: &str) -> bool {
    recording::event(format!("{line}\n").as_bytes()).is_err()
}

/// The fifth line changes nothing of how a bad head, or one that fresh refuses, is told of.
#[test]
fn a_head_without_its_fifth_line_is_reported_alone() {
    let fifths = [
        "",
        "quiet=0\n",
        "quiet=1\n",
        "quiet=2\n",
        "quiet=1",
        "quiet=01\nstart=",
        "\n",
    ];
    for fifth in fifths {
        for refused in ["net=128.9.0.1", "net=224.0.0.0", "net=10.0.0.0"] {
            let recording = HEAD.replace("net=128.9.0.0", refused) + fifth;
            assert_eq!(play(&recording), "bad=4\n", "{fifth:?}");
        }
        for (number, line) in HEAD.lines().enumerate() {
            let recording = HEAD.replacen(line, "quiet=1", 1) + fifth;
            assert_eq!(play(&recording), format!("bad={}\n", number + 1));
        }
    }
}

/// The head and the lines of a generated recording with a good head and ended lines.
fn generated(seed: u64) -> Option<(Vec<String>, String)> {
    let recording = recordings::recording(seed, 150);
    let output = String::from_utf8(playback::play(&recording)).expect("text");
    let is_whole = recording.ends_with(b"\n") && output.contains("neighbours=");
    is_whole.then(|| {
        let lines = recording::lines(&recording)
            .map(|line| String::from_utf8_lossy(line).into_owned())
            .collect();
        (lines, output)
    })
}

fn without_bad_lines(output: &str) -> String {
    let kept = output.lines().filter(|line| !line.starts_with("bad="));
    kept.map(|line| format!("{line}\n")).collect()
}

/// "Skipped whole": without its bad lines a recording plays the same.
#[test]
fn bad_lines_change_nothing() {
    let mut bad_lines = 0;
    for (lines, output) in (1..=60).filter_map(generated) {
        let is_bad = |number: usize| output.contains(&format!("bad={number}\n"));
        let (bad, good): (Vec<_>, Vec<_>) = lines
            .iter()
            .zip(1..)
            .partition(|(_, number)| is_bad(*number));
        bad_lines += bad.len();
        let good: String = good.into_iter().map(|(line, _)| line.as_str()).collect();
        assert_eq!(play(&good), without_bad_lines(&output));
    }
    assert!(bad_lines > 300);
}

/// A line of ticks is as many lines of one tick.
#[test]
fn ticks_in_lines_of_their_own() {
    let single = |line: &String| match line.trim_end().split_once('/') {
        Some((tick, count)) if tick.starts_with("tick=") => {
            format!("{tick}/1\n").repeat(count.parse().unwrap_or(1))
        }
        _ => line.clone(),
    };
    for (lines, output) in (100..=130).filter_map(generated) {
        let is_bad = |number: usize| output.contains(&format!("bad={number}\n"));
        let good = lines.iter().zip(1..).filter(|(_, number)| !is_bad(*number));
        let seconds: String = good.map(|(line, _)| single(line)).collect();
        assert_eq!(play(&seconds), without_bad_lines(&output));
    }
}

#[test]
fn the_stored_example_is_the_site() {
    let stored = include_str!("../../examples/site.rec");
    assert_eq!(site::recording(), stored);
    assert_eq!(play(stored), include_str!("../../examples/site.out"));
}

#[test]
fn the_example_shows_what_it_is_for() {
    let stored = include_str!("../../examples/site.rec");
    let shared = format!("net={}\n", dotted(site::SHARED));
    let (before, _) = stored.split_once("stop=").expect("a Stop");
    let before = play(before);
    assert!(before.matches("bad=").count() >= 1);
    assert_eq!(before.matches("rows=2\n").count(), 2);
    assert_eq!(before.matches(&shared).count(), 2);
    // The row of the other neighbour stays.
    let after = play(stored);
    assert!(after.contains("addr=128.9.0.5\nas=7\nstate=idle\nmode=none\nrows=0\n"));
    assert!(after.contains(&format!("scease=0\n{shared}gw=128.9.0.6\n")));
    assert_eq!(after.matches(&shared).count(), 1);
}

/// 02, L7: the seconds are those of the recordings' ticks, the last of which before Up is Down's; they
/// outlast the Cease-ack.
#[test]
fn the_examples_count_every_second() {
    let seconds = |recording: &str| -> Vec<String> {
        let output = play(recording);
        let lines = output.lines().filter(|line| line.starts_with('s'));
        let lines = lines.filter(|line| {
            !["slot=", "state=", "side="]
                .iter()
                .any(|key| line.starts_with(key))
        });
        lines.map(str::to_string).collect()
    };
    let of = |idle: u32, down: u32, up: u32| {
        vec![
            format!("sidle={idle}"),
            "sacq=0".to_string(),
            format!("sdown={down}"),
            format!("sup={up}"),
            "scease=0".to_string(),
        ]
    };
    let site = include_str!("../../examples/site.rec");
    assert_eq!(seconds(site), [of(0, 96, 10), of(0, 96, 32)].concat());
    let stray = include_str!("../../examples/stray.rec");
    assert_eq!(seconds(stray), of(30, 0, 0));
    let passive = include_str!("../../examples/passive.rec");
    let ticks = passive
        .lines()
        .filter_map(|line| line.strip_prefix("tick=128.9.0.5/"));
    let ticks: u32 = ticks
        .map(|count| count.parse::<u32>().expect("a number"))
        .sum();
    assert_eq!(seconds(passive), of(0, 32, ticks - 32));
}

/// 02, L5: a Hello and a Poll of the example come ten seconds after the last. Each draws Error 4 and
/// nothing else: the rest is as it would be without them.
#[test]
fn the_example_shows_a_too_quick_neighbour() {
    let stored = include_str!("../../examples/site.rec");
    let hello = raw(HELLO, 1, 8, 4, &[]);
    let poll = raw(POLL, 1, 8, 5, &[0, 0, 128, 9, 0, 0]);
    let mut without = stored.to_string();
    let mut expected = play(stored);
    for quick in [hello, poll] {
        // It carries the number of the last command that was carried out.
        let error = tx(P, &our_error(1, 3, 4, &quick));
        assert_eq!(expected.matches(&error).count(), 1);
        expected = expected.replace(&error, "");
        let line = format!("{}\n", rx(P, &quick));
        assert_eq!(without.matches(&line).count(), 1);
        without = without.replace(&line, "");
    }
    assert_eq!(play(&without), expected);
}

/// 02, L3: from our first Poll on the site is up after every line, though its peer says so by a
/// Poll in eight minutes and by its Updates only.
#[test]
fn the_passive_example_stays_up() {
    let stored = include_str!("../../examples/passive.rec");
    assert_eq!(play(stored), include_str!("../../examples/passive.out"));
    let comes_up = "tick=128.9.0.5/23\n";
    let (before, after) = stored.split_once(comes_up).expect("seconds");
    let mut played = format!("{before}{comes_up}");
    assert!(play(&played).contains("state=up\nmode=passive\nrows=0\nsidle=0\nsacq=0\nsdown=32\n"));
    for line in after.split_inclusive('\n') {
        played.push_str(line);
        let output = play(&played);
        assert!(output.contains("state=up\nmode=passive\nrows=2\n"));
        assert!(!output.contains("bad="));
    }
}

/// The messages that the stray example has from its neighbour, in order, each with what comes of it.
fn stray_example(recording: &str) -> Vec<(Vec<u8>, String)> {
    let lines: Vec<&str> = recording.lines().collect();
    let played = |count: usize| {
        let lines: String = lines[..count]
            .iter()
            .map(|line| format!("{line}\n"))
            .collect();
        let output = play(&lines);
        let listing = output.find("neighbours=").expect("a listing");
        output[..listing].to_string()
    };
    let octets = |line: &str| {
        let (_, digits) = line.strip_prefix("rx=")?.split_once('/')?;
        let pairs = digits.as_bytes().chunks(2);
        let text: Vec<&str> = pairs.flat_map(std::str::from_utf8).collect();
        Some(hex(&text.join(" ")))
    };
    let messages = lines.iter().enumerate();
    messages
        .filter_map(|(index, line)| {
            let before = played(index.max(4));
            let after = || played(index + 1)[before.len()..].to_string();
            Some((octets(line)?, after()))
        })
        .collect()
}

/// 02, L6: each of the six kinds draws the Cease, a Cease-ack, an Error and what is refused draw
/// nothing, and the Request acquires.
#[test]
fn the_stray_example_is_told() {
    let stored = include_str!("../../examples/stray.rec");
    assert_eq!(play(stored), include_str!("../../examples/stray.out"));
    let cease = tx(N, &stray_cease());
    let messages = stray_example(stored);
    let of = |kind: Kind| {
        let pair = kind.type_and_code();
        messages
            .iter()
            .filter(move |(octets, _)| (octets[1], octets[2]) == pair)
    };
    for kind in STRAYS {
        assert!(of(kind).any(|(_, drawn)| *drawn == cease), "{kind:?}");
        assert!(of(kind).all(|(_, drawn)| drawn.is_empty() || *drawn == cease));
    }
    for kind in [Kind::CeaseAck, Kind::Error] {
        assert!(of(kind).count() == 1 && of(kind).all(|(_, drawn)| drawn.is_empty()));
    }
    let refused = of(Kind::Hello).chain(of(Kind::Poll));
    assert_eq!(refused.filter(|(_, drawn)| drawn.is_empty()).count(), 3);
    let acquired = tx(N, &our_confirm(1, 16)) + &tx(N, &our_hello(2, 0));
    assert!(of(Kind::Request).all(|(_, drawn)| *drawn == acquired));
    // With the old silence it is that alone.
    let quiet = stored.replacen("net=128.9.0.0\n", "net=128.9.0.0\nquiet=1\n", 1);
    assert_eq!(play(&quiet), play(stored).replace(&cease, ""));
    assert!(play(&quiet).starts_with(&acquired));
}

/// The other examples have no stray messages: they play the same with either setting.
#[test]
fn the_older_examples_do_not_lean_on_silence() {
    for stored in [
        include_str!("../../examples/site.rec"),
        include_str!("../../examples/passive.rec"),
    ] {
        let (head, events) = stored.split_once("add=").expect("events");
        let numbers = |text: String| without_bad_lines(&text);
        let quiet = play(&format!("{head}quiet=1\nadd={events}"));
        assert_eq!(numbers(quiet), numbers(play(stored)));
    }
}
