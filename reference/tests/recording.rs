//! The lines of a recording (02, L1 and L6): what each good one asks for, and what is bad.

mod common;

use common::*;
use reference::answer::Answer;
use reference::call::Call;
use reference::net::address;
use reference::recording::{self, Event, Head};

fn event(line: &str) -> Result<Event, Answer> {
    recording::event(format!("{line}\n").as_bytes())
}

fn good(line: &str) -> Call {
    let event = event(line).unwrap_or_else(|_| panic!("{line:?} is good"));
    assert_eq!(event.times, 1, "{line:?}");
    event.call
}

fn assert_bad(line: impl AsRef<[u8]>) {
    let mut octets = line.as_ref().to_vec();
    octets.push(10);
    let shown = line.as_ref().escape_ascii();
    assert_eq!(
        recording::event(&octets),
        Err(Answer::BadLine),
        "{shown} is bad"
    );
}

fn assert_all_bad(lines: &[&str]) {
    lines.iter().for_each(assert_bad);
}

/// The settings of these lines, or the line to report.
fn whole_head(lines: &[&str]) -> Result<Head, usize> {
    let text: String = lines.iter().map(|line| format!("{line}\n")).collect();
    let lines: Vec<&[u8]> = recording::lines(text.as_bytes()).collect();
    recording::head(&lines)
}

/// The same where no fifth line is a setting.
fn head(lines: &[&str]) -> Result<Call, usize> {
    let head = whole_head(lines)?;
    assert_eq!(head.lines, 4);
    Ok(head.fresh)
}

const HEAD: [&str; 4] = ["ownas=9", "own=128.9.0.1", "cap=1", "net=128.9.0.0"];

/// The good head with one line changed.
fn head_with(number: usize, line: &str) -> Result<Call, usize> {
    let mut lines = HEAD;
    lines[number - 1] = line;
    head(&lines)
}

#[test]
fn a_good_line_of_each_kind() {
    let (address, as_number) = (N, 7);
    assert_eq!(good("add=128.9.0.5/7"), Call::Add { address, as_number });
    assert_eq!(good("remove=128.9.0.5"), Call::Remove { address });
    assert_eq!(good("start=128.9.0.5"), recording::start(N));
    assert_eq!(good("stop=128.9.0.5"), recording::stop(N));
    assert_eq!(good("tick=128.9.0.5/1"), recording::tick(N));
    assert_eq!(
        good("rx=128.9.0.5/0123456789ABCDEF"),
        recording::received(N, hex("01 23 45 67 89 AB CD EF"))
    );
}

#[test]
fn what_a_call_is_lent() {
    let Call::Message { home, reply, .. } = good("rx=128.9.0.5/02") else {
        panic!("a message");
    };
    assert_eq!((home, reply.length, reply.fill), (vec![], 2048, 0));
}

#[test]
fn numbers_at_their_edges() {
    for as_number in [0, 1, 9, 10, 65_535] {
        let call = good(&format!("add=128.9.0.5/{as_number}"));
        let address = N;
        assert_eq!(call, Call::Add { address, as_number });
    }
    for times in [1, 2, 10, 65_535, 65_536, 86_399, 86_400] {
        let call = recording::tick(N);
        let line = format!("tick=128.9.0.5/{times}");
        assert_eq!(event(&line), Ok(Event { call, times }));
    }
    for (text, address) in [
        ("0.0.0.0", 0),
        ("255.255.255.255", u32::MAX),
        ("10.0.100.9", address(10, 0, 100, 9)),
    ] {
        assert_eq!(good(&format!("remove={text}")), Call::Remove { address });
    }
}

#[test]
fn hex_of_any_length_up_to_2049_octets() {
    for length in [0, 1, 9, 10, 2047, 2048, 2049] {
        let line = format!("rx=128.9.0.5/{}", "A5".repeat(length));
        assert_eq!(good(&line), recording::received(N, vec![0xA5; length]));
    }
    for length in [2050, 2051, 4098, 5000] {
        assert_bad(format!("rx=128.9.0.5/{}", "A5".repeat(length)));
    }
    assert_bad(format!("rx=128.9.0.5/{}0", "A5".repeat(2049)));
    assert_bad(format!("rx=128.9.0.5/{}", "0".repeat(10_000)));
}

#[test]
fn bad_hex() {
    assert_all_bad(&[
        "rx=128.9.0.5/0",
        "rx=128.9.0.5/020",
        "rx=128.9.0.5/0a",
        "rx=128.9.0.5/fF",
        "rx=128.9.0.5/0G",
        "rx=128.9.0.5/0g",
        "rx=128.9.0.5/0/",
        "rx=128.9.0.5/0:",
        "rx=128.9.0.5/0@",
        "rx=128.9.0.5/0`",
        "rx=128.9.0.5/02 05",
        "rx=128.9.0.5/0x02",
        "rx=128.9.0.5//02",
        "rx=128.9.0.5",
        "rx=128.9.0.502",
        "rx=/02",
        "rx=",
    ]);
}

#[test]
fn bad_numbers() {
    let numbers = [
        "",
        "00",
        "07",
        "+7",
        "-7",
        "7.",
        "7.0",
        " 7",
        "7 ",
        "7/",
        "/7",
        "0x7",
        "7A",
        "1,000",
        "1e3",
        "\u{0667}",
        ":",
        "99999999999999999999999999",
    ];
    for number in numbers {
        assert_bad(format!("add=128.9.0.5/{number}"));
        assert_bad(format!("tick=128.9.0.5/{number}"));
    }
    // A count of 16, 32 or 64 bits would take these for 7.
    for number in ["65543", "4294967303", "18446744073709551623"] {
        assert_bad(format!("add=128.9.0.5/{number}"));
    }
    assert_bad("add=128.9.0.5/65536");
    for count in ["0", "86401", "4294967297", "18446744073709551617"] {
        assert_bad(format!("tick=128.9.0.5/{count}"));
    }
    assert_all_bad(&["add=128.9.0.5", "tick=128.9.0.5", "add=7", "tick=7"]);
}

#[test]
fn bad_addresses() {
    let addresses = [
        "",
        ".",
        "...",
        "128",
        "128.9",
        "128.9.0",
        "128.9.0.",
        ".128.9.0",
        "128.9.0.5.",
        "128.9.0.5.1",
        "128..0.5",
        "128.9.0.256",
        "256.9.0.5",
        "128.9.0.1000",
        "128.9.0.261",
        "128.9.00.5",
        "128.9.0.05",
        "0128.9.0.5",
        "+128.9.0.5",
        "-1.9.0.5",
        "128.9.0.x",
        "128.9.0.5 ",
        " 128.9.0.5",
        "128,9,0,5",
        "2148073477",
        "0x80.9.0.5",
        "128.9.0.4294967301",
    ];
    for text in addresses {
        for key in ["remove", "start", "stop"] {
            assert_bad(format!("{key}={text}"));
        }
        for (key, rest) in [("add", "7"), ("tick", "1"), ("rx", "02")] {
            assert_bad(format!("{key}={text}/{rest}"));
        }
    }
    assert_all_bad(&["start=128.9.0.5/", "stop=128.9.0.5/1", "remove=128.9.0.5/7"]);
}

#[test]
fn bad_keys() {
    assert_all_bad(&[
        "",
        " ",
        "=",
        "=128.9.0.5",
        "start",
        "start128.9.0.5",
        "start:128.9.0.5",
        "start==128.9.0.5",
        "start =128.9.0.5",
        "start= 128.9.0.5",
        " start=128.9.0.5",
        "Start=128.9.0.5",
        "START=128.9.0.5",
        "starts=128.9.0.5",
        "star=128.9.0.5",
        "drop=128.9.0.5",
        "tx=128.9.0.5/02",
        "bad=3",
        "neighbours=0",
        "# start=128.9.0.5",
    ]);
    HEAD.iter().for_each(assert_bad);
}

#[test]
fn nothing_else_may_stand_on_a_line() {
    let lines = [
        "add=128.9.0.5/7",
        "remove=128.9.0.5",
        "start=128.9.0.5",
        "stop=128.9.0.5",
        "tick=128.9.0.5/1",
        "rx=128.9.0.5/02",
        "rx=128.9.0.5/",
    ];
    for line in lines {
        assert!(event(line).is_ok());
        for octet in [0, 9, 11, 13, 32, 127, 128, 160, 255] {
            let octets = line.as_bytes();
            assert_bad([octets, &[octet]].concat());
            assert_bad([&[octet], octets].concat());
            let high: Vec<u8> = octets.iter().map(|octet| octet | 0x80).collect();
            assert_bad(high);
        }
        assert_eq!(recording::event(line.as_bytes()), Err(Answer::BadLine));
    }
}

#[test]
fn lines_end_in_octet_10() {
    let lines = |octets| -> Vec<&[u8]> { recording::lines(octets).collect() };
    assert_eq!(lines(b""), [b""; 0]);
    assert_eq!(lines(b"\n"), [b"\n"]);
    assert_eq!(lines(b"a\n\nb"), [&b"a\n"[..], b"\n", b"b"]);
    assert_eq!(lines(b"a\r\nb\n"), [&b"a\r\n"[..], b"b\n"]);
}

#[test]
fn a_good_head() {
    let fresh = |as_number, capability| Call::Fresh {
        as_number,
        address: OWN,
        capability,
        net: NET,
        quiet: 0,
    };
    assert_eq!(head(&HEAD), Ok(fresh(9, 1)));
    assert_eq!(head_with(1, "ownas=65535"), Ok(fresh(65_535, 1)));
    assert_eq!(head_with(3, "cap=255"), Ok(fresh(9, 255)));
    // What fresh is to refuse is good to read.
    assert_eq!(head_with(1, "ownas=0"), Ok(fresh(0, 1)));
    assert_eq!(head_with(3, "cap=3"), Ok(fresh(9, 3)));
    assert!(head_with(2, "own=1.2.3.4").is_ok());
    assert!(head_with(4, "net=224.0.0.0").is_ok());
}

/// What the fifth line, with its end, makes of the good head: the setting, and how many lines the
/// settings take.
fn with_fifth(line: &[u8]) -> (u8, usize) {
    let four: Vec<Vec<u8>> = HEAD.map(|line| format!("{line}\n").into()).to_vec();
    let mut lines: Vec<&[u8]> = four.iter().map(Vec::as_slice).collect();
    lines.push(line);
    let Ok(Head {
        fresh: Call::Fresh { quiet, .. },
        lines,
    }) = recording::head(&lines)
    else {
        panic!("a good head");
    };
    (quiet, lines)
}

/// 02, L6: two lines are settings there, and no other `quiet` line is one anywhere.
#[test]
fn quiet_right_after_net() {
    assert_eq!(with_fifth(b"quiet=0\n"), (0, 5));
    assert_eq!(with_fifth(b"quiet=1\n"), (1, 5));
    // An event, and what is none.
    assert_eq!(with_fifth(b"add=128.9.0.5/7\n"), (0, 4));
    assert_eq!(with_fifth(b"\n"), (0, 4));
    for line in NO_QUIET {
        assert_eq!(
            with_fifth(format!("{line}\n").as_bytes()),
            (0, 4),
            "{line:?}"
        );
    }
    // Not ended.
    assert_eq!(with_fifth(b"quiet=1"), (0, 4));
    assert_eq!(with_fifth(b"quiet=0"), (0, 4));
}

const NO_QUIET: [&str; 24] = [
    "quiet=2",
    "quiet=3",
    "quiet=10",
    "quiet=255",
    "quiet=256",
    "quiet=257",
    "quiet=4294967297",
    "quiet=18446744073709551617",
    "quiet=00",
    "quiet=01",
    "quiet=",
    "quiet",
    "quiet=+1",
    "quiet=-1",
    "quiet=1 ",
    "quiet= 1",
    " quiet=1",
    "quiet=1\r",
    "quiet==1",
    "quiet=1=",
    "quiet=1/",
    "Quiet=1",
    "quiets=1",
    "quiet=\u{0661}",
];

#[test]
fn quiet_anywhere_else_is_bad() {
    assert_all_bad(&["quiet=0", "quiet=1"]);
    assert_all_bad(&NO_QUIET);
    for number in 1..=4 {
        assert_eq!(head_with(number, "quiet=1"), Err(number));
    }
    // Right before `net`, or a second one.
    let [as_number, own, cap, net] = HEAD;
    assert_eq!(head(&[as_number, own, cap, "quiet=1", net]), Err(4));
    let twice = whole_head(&[as_number, own, cap, net, "quiet=1", "quiet=0"]);
    assert_eq!(twice.map(|head| head.lines), Ok(5));
}

#[test]
fn a_bad_head() {
    for line in [
        "ownas=65536",
        "ownas=09",
        "ownas=",
        "own=9",
        "",
        "ownas=9 ",
        "ownas=-1",
    ] {
        assert_eq!(head_with(1, line), Err(1), "{line:?}");
    }
    for line in [
        "own=128.9.0",
        "own=128.9.0.01",
        "net=128.9.0.0",
        "own=128.9.0.1\r",
    ] {
        assert_eq!(head_with(2, line), Err(2), "{line:?}");
    }
    for line in [
        "cap=256",
        "cap=257",
        "cap=00",
        "cap=",
        "CAP=1",
        "cap=1=",
        "start=128.9.0.5",
    ] {
        assert_eq!(head_with(3, line), Err(3), "{line:?}");
    }
    for line in [
        "net=128.9.0.0.0",
        "net=256.0.0.0",
        "own=128.9.0.1",
        "net=128.9.0.0 ",
    ] {
        assert_eq!(head_with(4, line), Err(4), "{line:?}");
    }
}

#[test]
fn the_first_bad_or_missing_line_of_a_head() {
    for given in 0..4 {
        assert_eq!(head(&HEAD[..given]), Err(given + 1));
    }
    assert_eq!(
        head(&["ownas=9", "cap=1", "own=128.9.0.1", "net=128.9.0.0"]),
        Err(2)
    );
    assert_eq!(
        head(&["ownas=9", "own=128.9.0.1", "cap=256", "net="]),
        Err(3)
    );
    assert_eq!(
        head(&["ownas=9", "", "own=128.9.0.1", "cap=1", "net=128.9.0.0"]),
        Err(2)
    );
    assert_eq!(head(&["cap=256"]), Err(1));
}

#[test]
fn lines_are_written_as_they_are_read() {
    let fresh = head(&HEAD).expect("a good head");
    assert_eq!(recording::head_lines(&fresh).expect("lines"), HEAD);
    let quiet = [&HEAD[..], &["quiet=1"]].concat();
    let head = whole_head(&quiet).expect("a good head");
    assert_eq!(recording::head_lines(&head.fresh).expect("lines"), quiet);
    assert_eq!(recording::event_line(&fresh, 1), None);
    let add = good("add=0.0.0.0/65535");
    assert_eq!(recording::head_lines(&add), None);
    for line in [
        "add=0.0.0.0/65535",
        "remove=128.9.0.5",
        "start=255.255.255.255",
        "stop=128.9.0.5",
        "tick=128.9.0.5/86400",
        "rx=128.9.0.5/00FFA5",
        "rx=128.9.0.5/",
    ] {
        let Event { call, times } = event(line).expect("a good line");
        assert_eq!(recording::event_line(&call, times).as_deref(), Some(line));
    }
}

/// The lines shown in the tables of the technicians' page, from one heading to the next.
fn shown_in(heading: &str, column: usize) -> Vec<String> {
    let page = include_str!("../../docs/RECORDING.md");
    let (_, section) = page.split_once(heading).expect("the heading");
    let section = section.split("\n## ").next().unwrap_or_default();
    let cells = section
        .lines()
        .filter_map(|row| row.strip_prefix("| ")?.split(" | ").nth(column));
    cells
        .flat_map(|cell| cell.split('`').skip(1).step_by(2))
        .map(str::to_string)
        .collect()
}

#[test]
fn the_page_for_technicians_shows_good_and_bad_lines() {
    let good_lines = shown_in("## Lines", 1);
    let (settings, events) = good_lines.split_at(HEAD.len() + 1);
    assert_eq!(settings, [&HEAD[..], &["quiet=1"]].concat());
    assert_eq!(events.len(), 6);
    assert!(events.iter().all(|line| event(line).is_ok()));
    let bad_lines = shown_in("## Bad lines", 0);
    assert!(bad_lines.len() > 15);
    bad_lines.iter().for_each(assert_bad);
}
