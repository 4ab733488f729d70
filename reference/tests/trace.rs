//! The trace of a recording (`docs/RECORDING.md`, "The trace"), most of it by whole lines.

mod common;

use std::collections::BTreeMap;

use common::*;
use reference::compare_traces::Tally;
use reference::generate::recordings;
use reference::neighbour::NeighbourState;
use reference::net::dotted;
use reference::playback;
use reference::recording::{self, LINE_END};
use reference::trace::{self, Tracer};

const HEAD: &str = "ownas=9\nown=128.9.0.1\ncap=1\nnet=128.9.0.0\n";

fn trace(recording: &[u8]) -> String {
    String::from_utf8(trace::trace(recording)).expect("text")
}

/// What these event lines, the first of them line 5, are told as, without the listing.
fn told(lines: &[String]) -> Vec<String> {
    let lines: String = lines.iter().map(|line| format!("{line}\n")).collect();
    let output = trace(format!("{HEAD}{lines}").as_bytes());
    let listing = output.find("neighbours=").expect("a listing");
    output[..listing].lines().map(str::to_string).collect()
}

fn rx(octets: &[u8]) -> String {
    format!("rx={}/{}", dotted(N), recording::hex(octets))
}

/// Lines that lead N to this state: one in Idle, two in Acquisition and Down, three in Cease, eight
/// in Up.
fn until(state: NeighbourState) -> Vec<String> {
    let acquired = rx(&request(2, 3, 30, 120));
    let mut lines = vec!["add=128.9.0.5/7".to_string()];
    match state {
        Idle => {}
        Acquisition => lines.push("start=128.9.0.5".to_string()),
        Down => lines.push(acquired),
        Up => {
            lines.push(acquired);
            for _ in 0..3 {
                lines.push(rx(&peer(I_H_U, 1, 0, &[])));
                lines.push("tick=128.9.0.5/32".to_string());
            }
        }
        Cease => lines.extend([acquired, "stop=128.9.0.5".to_string()]),
    }
    lines
}

/// What a line is told as, behind those that lead N to this state.
fn then(state: NeighbourState, line: &str) -> Vec<String> {
    let before = until(state);
    let known = told(&before).len();
    let all = [before, vec![line.to_string()]].concat();
    told(&all)[known..].to_vec()
}

/// The messages that a line tells of, of one received in this state.
fn messages(state: NeighbourState, octets: &[u8]) -> String {
    let told = then(state, &rx(octets));
    assert_eq!(told.len(), 1);
    let begin = told[0].find(" received=").expect("a message");
    told[0][begin + 1..].to_string()
}

#[test]
fn add() {
    let lines = [
        "add=128.9.0.5/7".to_string(),
        "add=128.9.0.5/8".to_string(),
        "add=128.9.0.6/9".to_string(),
    ];
    assert_eq!(
        told(&lines),
        [
            "line=5 neighbour=128.9.0.5 event=add second=0 answer=0 before=none after=idle \
             mode=none quiet=0 rowsbefore=0 rowsafter=0 registerbefore=0 registerafter=0 peer=7 \
             S=0 R=0 T1=0 T2=0 t1=0 t2=0 t3=0 heard=0 cause=0 sincehello=0 sincepoll=0",
            "line=6 neighbour=128.9.0.5 event=add second=0 answer=16 before=idle after=idle \
             mode=none quiet=0 rowsbefore=0 rowsafter=0 registerbefore=0 registerafter=0 peer=7 \
             S=0 R=0 T1=0 T2=0 t1=0 t2=0 t3=0 heard=0 cause=0 sincehello=0 sincepoll=0",
            "line=7 neighbour=128.9.0.6 event=add second=0 answer=16 before=none after=none \
             mode=none quiet=0 rowsbefore=0 rowsafter=0 registerbefore=0 registerafter=0 peer=0 \
             S=0 R=0 T1=0 T2=0 t1=0 t2=0 t3=0 heard=0 cause=0 sincehello=0 sincepoll=0",
        ]
    );
}

/// AS and seconds are those that the neighbour had.
#[test]
fn remove() {
    let lines = [
        "add=128.9.0.5/7".to_string(),
        "tick=128.9.0.5/5".to_string(),
        "remove=128.9.0.5".to_string(),
        "remove=128.9.0.5".to_string(),
    ];
    assert_eq!(
        told(&lines)[2..],
        [
            "line=7 neighbour=128.9.0.5 event=remove second=5 answer=0 before=idle after=none \
             mode=none quiet=0 rowsbefore=0 rowsafter=0 registerbefore=0 registerafter=0 peer=7 \
             S=0 R=0 T1=0 T2=0 t1=0 t2=0 t3=0 heard=0 cause=0 sincehello=0 sincepoll=0",
            "line=8 neighbour=128.9.0.5 event=remove second=0 answer=5 before=none after=none \
             mode=none quiet=0 rowsbefore=0 rowsafter=0 registerbefore=0 registerafter=0 peer=0 \
             S=0 R=0 T1=0 T2=0 t1=0 t2=0 t3=0 heard=0 cause=0 sincehello=0 sincepoll=0",
        ]
    );
    assert_eq!(
        then(Down, "remove=128.9.0.5"),
        [
            "line=7 neighbour=128.9.0.5 event=remove second=0 answer=18 before=down after=down \
             mode=active quiet=0 rowsbefore=0 rowsafter=0 registerbefore=0 registerafter=0 peer=7 \
             S=0 R=3 T1=32 T2=122 t1=32 t2=0 t3=120 heard=0 cause=0 sincehello=120 sincepoll=120"
        ]
    );
}

#[test]
fn start_sends_a_request() {
    assert_eq!(
        then(Idle, "start=128.9.0.5"),
        [
            "line=6 neighbour=128.9.0.5 event=start second=0 answer=0 before=idle \
             after=acquisition mode=none quiet=0 rowsbefore=0 rowsafter=0 registerbefore=0 \
             registerafter=0 peer=7 S=0 R=0 T1=0 T2=0 t1=30 t2=0 t3=120 heard=0 cause=0 \
             sincehello=0 sincepoll=0 \
             sent=request reading=0 octets=14 status=1 checksum=64860 right=64860 as=9 sequence=0 \
             rows=0 hello=30 poll=120 hex=02030001FD5C00090000001E0078"
        ]
    );
}

#[test]
fn stop_sends_a_cease() {
    assert_eq!(
        then(Up, "stop=128.9.0.5"),
        [
            "line=13 neighbour=128.9.0.5 event=stop second=96 answer=0 before=up after=cease \
             mode=none quiet=0 rowsbefore=0 rowsafter=0 registerbefore=7 registerafter=0 peer=7 \
             S=1 R=3 T1=0 T2=0 t1=30 t2=0 t3=120 heard=0 cause=5 sincehello=120 sincepoll=120 \
             sent=cease reading=0 octets=10 status=5 checksum=64237 right=64237 as=9 sequence=1 \
             rows=0 hex=02030305FAED00090001"
        ]
    );
}

#[test]
fn a_quiet_line_of_ticks_shows_by_its_last() {
    assert_eq!(
        then(Idle, "tick=128.9.0.5/5"),
        [
            "line=6 neighbour=128.9.0.5 event=tick second=5 answer=0 before=idle after=idle \
             mode=none quiet=4 rowsbefore=0 rowsafter=0 registerbefore=0 registerafter=0 peer=7 \
             S=0 R=0 T1=0 T2=0 t1=0 t2=0 t3=0 heard=0 cause=0 sincehello=0 sincepoll=0"
        ]
    );
    let one = then(Idle, "tick=128.9.0.5/1");
    assert_eq!(one.len(), 1);
    assert!(one[0].contains(" second=1 ") && one[0].contains(" quiet=0 "));
}

/// A Request is repeated in the 30th second; two quiet seconds follow.
#[test]
fn quiet_ticks_behind_one_that_is_told() {
    assert_eq!(
        then(Acquisition, "tick=128.9.0.5/32"),
        [
            "line=7 neighbour=128.9.0.5 event=tick second=30 answer=0 before=acquisition \
             after=acquisition mode=none quiet=29 rowsbefore=0 rowsafter=0 registerbefore=0 \
             registerafter=0 peer=7 S=0 R=0 T1=0 T2=0 t1=30 t2=0 t3=90 heard=0 cause=0 \
             sincehello=30 sincepoll=30 \
             sent=request reading=0 octets=14 status=1 checksum=64860 right=64860 as=9 sequence=0 \
             rows=0 hello=30 poll=120 hex=02030001FD5C00090000001E0078",
            "line=7 neighbour=128.9.0.5 event=tick second=32 answer=0 before=acquisition \
             after=acquisition mode=none quiet=1 rowsbefore=0 rowsafter=0 registerbefore=0 \
             registerafter=0 peer=7 S=0 R=0 T1=0 T2=0 t1=28 t2=0 t3=88 heard=0 cause=0 \
             sincehello=32 sincepoll=32",
        ]
    );
    // If the last second has something to tell, there is no other line for it.
    assert_eq!(then(Acquisition, "tick=128.9.0.5/30").len(), 1);
    assert_eq!(then(Acquisition, "tick=128.9.0.5/60").len(), 2);
}

/// The tick that brings N up sends a Hello and a Poll.
#[test]
fn a_tick_that_sends_two_messages() {
    let before = until(Up);
    assert_eq!(
        told(&before).last().map(String::as_str),
        Some(
            "line=12 neighbour=128.9.0.5 event=tick second=96 answer=0 before=down after=up \
             mode=active quiet=31 rowsbefore=0 rowsafter=0 registerbefore=3 registerafter=7 \
             peer=7 S=1 R=3 T1=32 T2=122 t1=32 t2=122 t3=3568 heard=0 cause=0 sincehello=120 \
             sincepoll=120 \
             sent=hello reading=0 octets=10 status=1 checksum=65008 right=65008 as=9 sequence=0 \
             rows=0 hex=02050001FDF000090000 \
             sent=poll reading=0 octets=16 status=1 checksum=32233 right=32233 as=9 sequence=1 \
             rows=0 net=128.9.0.0 hex=020200017DE900090001000080090000"
        )
    );
}

/// In passive mode the register alone may change, and nothing is sent.
#[test]
fn a_tick_that_changes_the_register_alone() {
    let lines = [
        "add=128.9.0.5/7".to_string(),
        rx(&request(1, 3, 30, 120)),
        "tick=128.9.0.5/40".to_string(),
        rx(&peer(HELLO, 1, 4, &[])),
        "tick=128.9.0.5/86".to_string(),
    ];
    let all: String = lines.iter().map(|line| format!("{line}\n")).collect();
    let output = trace(format!("{}{all}", HEAD.replace("cap=1", "cap=2")).as_bytes());
    let ticks: Vec<&str> = output
        .lines()
        .filter(|line| line.starts_with("line=9 "))
        .collect();
    let shown = |line: &str| {
        let keys = ["second=", "after=", "quiet=", "registerafter="];
        let fields = line.split(' ');
        let fields = fields.filter(|field| keys.iter().any(|key| field.starts_with(key)));
        fields.collect::<Vec<_>>().join(" ")
    };
    let shown: Vec<String> = ticks.into_iter().map(shown).collect();
    assert_eq!(
        shown,
        [
            "second=64 after=up quiet=23 registerafter=1",
            "second=96 after=up quiet=31 registerafter=2",
            "second=126 after=up quiet=29 registerafter=2",
        ]
    );
}

#[test]
fn refused_ticks_are_quiet() {
    assert_eq!(
        then(Up, "tick=128.9.0.6/86400"),
        [
            "line=13 neighbour=128.9.0.6 event=tick second=0 answer=5 before=none after=none \
             mode=none quiet=86399 rowsbefore=0 rowsafter=0 registerbefore=0 registerafter=0 \
             peer=0 S=0 R=0 T1=0 T2=0 t1=0 t2=0 t3=0 heard=0 cause=0 sincehello=0 sincepoll=0"
        ]
    );
}

/// No recording is so long: the seconds are moved.
#[test]
fn ticks_refused_for_the_seconds_are_quiet() {
    let lines: Vec<&[u8]> = HEAD
        .as_bytes()
        .split_inclusive(|octet| *octet == LINE_END)
        .collect();
    let (mut bench, _) = playback::begin(&lines).expect("a good head");
    let (mut teller, mut output) = (Tracer::default(), Vec::new());
    playback::play_line_to(
        &mut teller,
        &mut bench,
        5,
        b"add=128.9.0.5/7\n",
        &mut output,
    );
    bench.state.neighbours[0].seconds.up = u32::MAX - 2;
    output.clear();
    let ticks = b"tick=128.9.0.5/10\n";
    playback::play_line_to(&mut teller, &mut bench, 6, ticks, &mut output);
    assert_eq!(
        String::from_utf8(output).expect("text"),
        "line=6 neighbour=128.9.0.5 event=tick second=4294967295 answer=22 before=idle after=idle \
         mode=none quiet=9 rowsbefore=0 rowsafter=0 registerbefore=0 registerafter=0 peer=7 S=0 \
         R=0 T1=0 T2=0 t1=0 t2=0 t3=0 heard=0 cause=0 sincehello=0 sincepoll=0\n"
    );
}

#[test]
fn a_message_of_an_unknown_neighbour() {
    assert_eq!(
        then(Up, "rx=128.9.0.6/02050002FDF000070001"),
        [
            "line=13 neighbour=128.9.0.6 event=rx second=0 answer=5 before=none after=none \
             mode=none quiet=0 rowsbefore=0 rowsafter=0 registerbefore=0 registerafter=0 peer=0 \
             S=0 R=0 T1=0 T2=0 t1=0 t2=0 t3=0 heard=0 cause=0 sincehello=0 sincepoll=0 \
             received=hello reading=0 octets=10 status=2 checksum=65008 right=65008 as=7 \
             sequence=1 rows=0 hex=02050002FDF000070001"
        ]
    );
}

#[test]
fn a_request_draws_two_messages() {
    assert_eq!(
        then(Idle, &rx(&request(2, 3, 30, 120))),
        [
            "line=6 neighbour=128.9.0.5 event=rx second=0 answer=0 before=idle after=down \
             mode=active quiet=0 rowsbefore=0 rowsafter=0 registerbefore=0 registerafter=0 peer=7 \
             S=0 R=3 T1=32 T2=122 t1=32 t2=0 t3=120 heard=0 cause=0 sincehello=120 sincepoll=120 \
             received=request reading=0 octets=14 status=2 checksum=64858 right=64858 as=7 \
             sequence=3 rows=0 hello=30 poll=120 hex=02030002FD5A00070003001E0078 \
             sent=confirm reading=0 octets=14 status=1 checksum=64601 right=64601 as=9 sequence=3 \
             rows=0 hello=30 poll=120 hex=02030101FC5900090003001E0078 \
             sent=hello reading=0 octets=10 status=2 checksum=65007 right=65007 as=9 sequence=0 \
             rows=0 hex=02050002FDEF00090000"
        ]
    );
}

#[test]
fn confirm_and_refuse() {
    assert_eq!(
        messages(Acquisition, &confirm(0, 0, 60, 240)),
        "received=confirm reading=0 octets=14 status=0 checksum=64457 right=64457 as=7 sequence=0 \
         rows=0 hello=60 poll=240 hex=02030100FBC900070000003C00F0 \
         sent=hello reading=0 octets=10 status=2 checksum=65007 right=65007 as=9 sequence=0 rows=0 \
         hex=02050002FDEF00090000"
    );
    assert_eq!(
        messages(Acquisition, &peer(REFUSE, 3, 0, &[])),
        "received=refuse reading=0 octets=10 status=3 checksum=64498 right=64498 as=7 sequence=0 \
         rows=0 hex=02030203FBF200070000"
    );
    // An unacceptable Request.
    assert_eq!(
        messages(Idle, &request(1, 9, 121, 120)),
        "received=request reading=0 octets=14 status=1 checksum=64762 right=64762 as=7 sequence=9 \
         rows=0 hello=121 poll=120 hex=02030001FCFA0007000900790078 \
         sent=refuse reading=0 octets=10 status=6 checksum=64484 right=64484 as=9 sequence=9 \
         rows=0 hex=02030206FBE400090009"
    );
}

#[test]
fn cease_and_cease_ack() {
    assert_eq!(
        messages(Down, &peer(CEASE, 5, 4, &[])),
        "received=cease reading=0 octets=10 status=5 checksum=64236 right=64236 as=7 sequence=4 \
         rows=0 hex=02030305FAEC00070004 \
         sent=cease-ack reading=0 octets=10 status=0 checksum=63983 right=63983 as=9 sequence=4 \
         rows=0 hex=02030400F9EF00090004"
    );
    assert_eq!(
        messages(Cease, &peer(CEASE_ACK, 0, 0, &[])),
        "received=cease-ack reading=0 octets=10 status=0 checksum=63989 right=63989 as=7 \
         sequence=0 rows=0 hex=02030400F9F500070000"
    );
    // A stray Update, which is read though in Idle no body is.
    assert_eq!(
        messages(Idle, &update(129, 9, 0, 0, &[])),
        "received=update reading=0 octets=16 status=129 checksum=32100 right=32100 as=7 sequence=9 \
         rows=0 net=128.9.0.0 hex=020100817D6400070009000080090000 \
         sent=cease reading=0 octets=10 status=7 checksum=64236 right=64236 as=9 sequence=0 rows=0 \
         hex=02030307FAEC00090000"
    );
}

#[test]
fn hello_and_i_h_u() {
    assert_eq!(
        messages(Down, &peer(HELLO, 1, 4, &[])),
        "received=hello reading=0 octets=10 status=1 checksum=65006 right=65006 as=7 sequence=4 \
         rows=0 hex=02050001FDEE00070004 \
         sent=i-h-u reading=0 octets=10 status=2 checksum=64747 right=64747 as=9 sequence=4 rows=0 \
         hex=02050102FCEB00090004"
    );
    assert_eq!(
        then(Down, &rx(&peer(I_H_U, 2, 0, &[]))),
        [
            "line=7 neighbour=128.9.0.5 event=rx second=0 answer=0 before=down after=down \
             mode=active quiet=0 rowsbefore=0 rowsafter=0 registerbefore=0 registerafter=0 peer=7 \
             S=0 R=3 T1=32 T2=122 t1=32 t2=0 t3=3600 heard=1 cause=0 sincehello=120 sincepoll=120 \
             received=i-h-u reading=0 octets=10 status=2 checksum=64753 right=64753 as=7 \
             sequence=0 rows=0 hex=02050102FCF100070000"
        ]
    );
}

#[test]
fn a_poll_is_answered_with_an_update_or_an_error() {
    assert_eq!(
        messages(Up, &poll(1, 4, NET)),
        "received=poll reading=0 octets=16 status=1 checksum=32232 right=32232 as=7 sequence=4 \
         rows=0 net=128.9.0.0 hex=020200017DE800070004000080090000 \
         sent=update reading=0 octets=16 status=1 checksum=32231 right=32231 as=9 sequence=4 \
         rows=0 net=128.9.0.0 hex=020100017DE700090004000080090000"
    );
    assert_eq!(
        messages(Up, &poll(1, 4, NET + 256)),
        "received=poll reading=0 octets=16 status=1 checksum=31976 right=31976 as=7 sequence=4 \
         rows=0 net=128.9.1.0 hex=020200017CE800070004000080090100 \
         sent=error reading=0 octets=24 status=1 checksum=32496 right=32496 as=9 sequence=4 rows=0 \
         reason=3 word1=33685505 word2=2095579143 word3=262144 \
         hex=020800017EF0000900040003020200017CE8000700040000"
    );
}

#[test]
fn rows_internal_and_external() {
    let blocks = [0, 5, 2, 0, 1, 10, 3, 1, 192, 5, 6, 1, 0, 1, 255, 1, 128, 10];
    assert_eq!(
        then(Up, &rx(&update(1, 1, 1, 1, &blocks))),
        [
            "line=13 neighbour=128.9.0.5 event=rx second=96 answer=0 before=up after=up \
             mode=active quiet=0 rowsbefore=0 rowsafter=3 registerbefore=7 registerafter=7 peer=7 \
             S=1 R=3 T1=32 T2=122 t1=32 t2=122 t3=3600 heard=1 cause=0 sincehello=120 \
             sincepoll=120 \
             received=update reading=0 octets=34 status=1 checksum=12743 right=12743 as=7 \
             sequence=1 rows=3 net=128.9.0.0 \
             row=10.0.0.0 gw=128.9.0.5 dist=0 side=int \
             row=192.5.6.0 gw=128.9.0.5 dist=3 side=int \
             row=128.10.0.0 gw=128.9.1.0 dist=255 side=ext \
             hex=0201000131C70007000101018009000000050200010A0301C00506010001FF01800A"
        ]
    );
}

/// Down looks at no body, reading alone does.
#[test]
fn an_update_that_reading_alone_refuses() {
    assert_eq!(
        then(Down, &rx(&update(1, 0, 1, 0, &[0]))),
        [
            "line=7 neighbour=128.9.0.5 event=rx second=0 answer=0 before=down after=down \
             mode=active quiet=0 rowsbefore=0 rowsafter=0 registerbefore=0 registerafter=0 peer=7 \
             S=0 R=3 T1=32 T2=122 t1=32 t2=0 t3=3600 heard=1 cause=0 sincehello=120 sincepoll=120 \
             received=refused reading=14 octets=17 status=1 checksum=31981 right=31981 as=7 \
             sequence=0 rows=0 hex=020100017CED0007000001008009000000"
        ]
    );
    assert_eq!(
        messages(Up, &update(1, 1, 1, 0, &[0])),
        "received=refused reading=14 octets=17 status=1 checksum=31980 right=31980 as=7 sequence=1 \
         rows=0 hex=020100017CEC0007000101008009000000 \
         sent=error reading=0 octets=24 status=1 checksum=32242 right=32242 as=9 sequence=3 rows=0 \
         reason=2 word1=33619969 word2=2095841287 word3=65792 \
         hex=020800017DF2000900030002020100017CEC000700010100"
    );
}

#[test]
fn an_error_received() {
    assert_eq!(
        messages(
            Up,
            &peer(
                ERROR,
                130,
                9,
                &[1, 2, 3, 4, 5, 6, 7, 8, 9, 10, 11, 12, 13, 14]
            )
        ),
        "received=error reading=0 octets=24 status=130 checksum=52269 right=52269 as=7 sequence=9 \
         rows=0 reason=258 word1=50595078 word2=117967114 word3=185339150 \
         hex=02080082CC2D000700090102030405060708090A0B0C0D0E"
    );
}

/// An Error of ours quotes what it is about, zero-filled.
#[test]
fn an_error_sent() {
    assert_eq!(
        then(Up, &rx(&peer(HELLO, 3, 9, &[]))),
        [
            "line=13 neighbour=128.9.0.5 event=rx second=96 answer=11 before=up after=up \
             mode=active quiet=0 rowsbefore=0 rowsafter=0 registerbefore=7 registerafter=7 peer=7 \
             S=1 R=3 T1=32 T2=122 t1=32 t2=122 t3=3568 heard=0 cause=0 sincehello=120 \
             sincepoll=120 \
             received=refused reading=11 octets=10 status=3 checksum=64999 right=64999 as=7 \
             sequence=9 rows=0 hex=02050003FDE700070009 \
             sent=error reading=0 octets=24 status=1 checksum=65001 right=65001 as=9 sequence=3 \
             rows=0 reason=1 word1=33882115 word2=4259774471 word3=589824 \
             hex=02080001FDE900090003000102050003FDE7000700090000"
        ]
    );
}

/// Reading alone knows no neighbour, so that another AS is no matter to it.
#[test]
fn a_good_message_of_another_as() {
    let stranger = raw(REQUEST, 1, 12, 9, &intervals(30, 120));
    assert!(then(Idle, &rx(&stranger))[0].contains(" answer=9 "));
    assert_eq!(
        messages(Idle, &stranger),
        "received=request reading=0 octets=14 status=1 checksum=64848 right=64848 as=12 sequence=9 \
         rows=0 hello=30 poll=120 hex=02030001FD50000C0009001E0078 \
         sent=refuse reading=0 octets=10 status=4 checksum=64486 right=64486 as=9 sequence=9 \
         rows=0 hex=02030204FBE600090009"
    );
}

/// What is missing counts as 0, and what is there shows.
#[test]
fn messages_that_are_too_short() {
    assert_eq!(
        then(Idle, "rx=128.9.0.5/"),
        [
            "line=6 neighbour=128.9.0.5 event=rx second=0 answer=6 before=idle after=idle \
             mode=none quiet=0 rowsbefore=0 rowsafter=0 registerbefore=0 registerafter=0 peer=7 \
             S=0 R=0 T1=0 T2=0 t1=0 t2=0 t3=0 heard=0 cause=0 sincehello=0 sincepoll=0 \
             received=refused reading=6 octets=0 status=0 checksum=0 right=65535 as=0 sequence=0 \
             rows=0 hex="
        ]
    );
    // Nine octets: the sequence number's second is missing.
    assert_eq!(
        messages(Idle, &hex("02 05 00 02 01 02 03 04 05")),
        "received=refused reading=6 octets=9 status=2 checksum=258 right=62964 as=772 \
         sequence=1280 rows=0 hex=020500020102030405"
    );
}

#[test]
fn a_wrong_checksum() {
    assert_eq!(
        then(Idle, "rx=128.9.0.5/0205000200000007000102"),
        [
            "line=6 neighbour=128.9.0.5 event=rx second=0 answer=8 before=idle after=idle \
             mode=none quiet=0 rowsbefore=0 rowsafter=0 registerbefore=0 registerafter=0 peer=7 \
             S=0 R=0 T1=0 T2=0 t1=0 t2=0 t3=0 heard=0 cause=0 sincehello=0 sincepoll=0 \
             received=refused reading=8 octets=11 status=2 checksum=0 right=64496 as=7 sequence=1 \
             rows=0 hex=0205000200000007000102"
        ]
    );
}

#[test]
fn bad_lines_and_heads_are_as_in_playing() {
    let lines = [
        "start=128.9.0.5/".to_string(),
        "add=128.9.0.5/7".to_string(),
    ];
    let told = told(&lines);
    assert_eq!(told[0], "bad=5");
    assert!(told[1].starts_with("line=6 "));
    assert_eq!(trace(b"ownas=9\nown=128.9.0\n"), "bad=2\n");
    assert_eq!(trace(b""), "bad=1\n");
    let refused = HEAD.replace("cap=1", "cap=3");
    assert_eq!(
        trace(format!("{refused}add=128.9.0.5/7\n").as_bytes()),
        "bad=4\n"
    );
}

/// Whatever else a trace has, it has what playing writes: bad lines, replies, listing, in this order.
#[test]
fn a_trace_has_all_that_playing_writes() {
    for seed in 0..60 {
        let recording = recordings::recording(seed, 200);
        let played = String::from_utf8(playback::play(&recording)).expect("text");
        let mut replies = String::new();
        for line in trace(&recording).lines() {
            let fields: Vec<(&str, &str)> = line
                .split(' ')
                .filter_map(|field| field.split_once('='))
                .collect();
            if fields[0].0 != "line" {
                replies += &format!("{line}\n");
                continue;
            }
            let is_way = |key: &str| key == "sent" || key == "received";
            let mut way = "";
            for (key, value) in &fields {
                way = if is_way(key) { key } else { way };
                if (way, *key) == ("sent", "hex") {
                    replies += &format!("tx={}/{value}\n", fields[1].1);
                }
            }
        }
        assert_eq!(replies, played, "{seed}");
    }
}

/// The ticks of a line, those passed over with them, are as many as it asks for.
#[test]
fn every_tick_is_counted_once() {
    for seed in 0..60 {
        let recording = recordings::recording(seed, 200);
        let output = trace(&recording);
        let mut counted: BTreeMap<usize, u32> = BTreeMap::new();
        for line in output.lines().filter(|line| line.contains(" event=tick ")) {
            let number = |key: &str| {
                let field = line.split(' ').find_map(|field| field.strip_prefix(key));
                field.and_then(|value| value.parse().ok()).unwrap_or(0)
            };
            *counted.entry(number("line=") as usize).or_default() += number("quiet=") + 1;
        }
        let all = recording::lines(&recording).zip(1..);
        let all = all.filter(|(_, number)| *number > recording::HEAD_LINES);
        for (line, number) in all {
            let asked = match recording::event(line) {
                Ok(event) if line.starts_with(b"tick=") => Some(event.times),
                _ => None,
            };
            let is_played = output.contains("neighbours=");
            let asked = asked.filter(|_| is_played);
            assert_eq!(counted.get(&number).copied(), asked, "{seed}: {number}");
        }
    }
}

#[test]
fn a_tally_says_what_was_never_met() {
    let missed = Tally::default().missed();
    for what in [
        "events: remove",
        "received: refused",
        "sent: error",
        "answers of rx: 21",
        "readings of these: 15",
        "states before and after tick: down to up",
        "places: message of no octets",
    ] {
        assert!(missed.iter().any(|missed| missed == what), "{what}");
    }
    let mut tally = Tally::default();
    for seed in 0..500 {
        let recording = recordings::recording(seed, 200);
        tally.add(&recording, &trace::trace(&recording));
    }
    assert_eq!(tally.missed(), Vec::<String>::new());
}
