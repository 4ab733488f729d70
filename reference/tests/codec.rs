//! Reading alone and writing (01, "Octets"; "Answer numbers").

mod common;

use common::*;
use reference::answer::Answer;
use reference::message::{self, Body, Intervals, Kind, Message};
use reference::net::address;
use reference::update::Row;

fn answer_of(octets: &[u8], net: u32) -> u8 {
    match message::read(octets, net) {
        Ok(_) => 0,
        Err(answer) => answer.number(),
    }
}

fn rows_of(octets: &[u8], net: u32) -> Vec<[u32; 3]> {
    match message::read(octets, net).expect("a good Update").body {
        Body::Update { rows, .. } => rows.iter().map(Row::numbers).collect(),
        other => panic!("an Update, not {other:?}"),
    }
}

fn written(message: &Message) -> Result<Vec<u8>, u8> {
    let mut buffer = vec![FILL; 2048];
    let answer = message::write(message, &[], &mut buffer);
    let length = *answer.as_ref().unwrap_or(&0);
    assert!(buffer[length..].iter().all(|octet| *octet == FILL));
    match answer {
        Ok(length) => Ok(buffer[..length].to_vec()),
        Err(refusal) => Err(refusal.number()),
    }
}

fn meaning(status: u8, body: Body) -> Message {
    Message {
        status,
        as_number: PEER_AS,
        sequence: 1,
        body,
    }
}

fn row(net: u32, gateway: u32, distance: u32) -> Row {
    Row {
        net,
        gateway,
        distance,
    }
}

fn bodies() -> Vec<(Kind, Vec<u8>)> {
    let mut error = vec![0, 2];
    error.extend([9; 12]);
    let mut poll = vec![0, 0];
    poll.extend(NET.to_be_bytes());
    let mut update = vec![0, 0];
    update.extend(NET.to_be_bytes());
    vec![
        (Kind::Request, intervals(30, 120)),
        (Kind::Confirm, intervals(30, 120)),
        (Kind::Refuse, vec![]),
        (Kind::Cease, vec![]),
        (Kind::CeaseAck, vec![]),
        (Kind::Hello, vec![]),
        (Kind::IHeardYou, vec![]),
        (Kind::Poll, poll),
        (Kind::Update, update),
        (Kind::Error, error),
    ]
}

#[test]
fn size_6() {
    for length in 0..10 {
        assert_eq!(answer_of(&vec![2; length], NET), 6);
    }
    assert_eq!(answer_of(&vec![0; 2049], NET), 6);
    assert_eq!(answer_of(&vec![0; 70_000], NET), 6);
    // 10 and 2,048 themselves pass: the version is looked at next.
    assert_eq!(answer_of(&[0; 10], NET), 7);
    assert_eq!(answer_of(&[0; 2048], NET), 7);
}

#[test]
fn version_7_before_checksum_8() {
    let mut octets = peer(HELLO, 1, 1, &[]);
    octets[0] = 1;
    assert_eq!(answer_of(&octets, NET), 7);
    assert_eq!(answer_of(&sealed(octets), NET), 7);
}

#[test]
fn checksum_8_before_the_rest() {
    let mut octets = raw((77, 77), 99, 0, 0, &[]);
    assert_eq!(answer_of(&octets, NET), 10);
    octets[4] ^= 1;
    assert_eq!(answer_of(&octets, NET), 8);
}

#[test]
fn exactly_ten_kinds_are_known() {
    let mut known = 0;
    for message_type in 0..=255 {
        for code in 0..=255 {
            let octets = raw((message_type, code), 0, PEER_AS, 0, &[]);
            if answer_of(&octets, NET) == 10 {
                assert_eq!(Kind::from_type_and_code((message_type, code)), None);
            } else {
                known += 1;
            }
        }
    }
    assert_eq!(known, 10);
}

#[test]
fn statuses_of_every_kind() {
    for (kind, rest) in bodies() {
        let allowed: &[u8] = match kind {
            Kind::Refuse | Kind::Cease | Kind::CeaseAck => &[0, 3, 4, 5, 6, 7],
            Kind::Update | Kind::Error => &[0, 1, 2, 128, 129, 130],
            _ => &[0, 1, 2],
        };
        for status in 0..=255 {
            let octets = peer(kind.type_and_code(), status, 1, &rest);
            let expected = if allowed.contains(&status) { 0 } else { 11 };
            assert_eq!(answer_of(&octets, NET), expected, "{kind:?} {status}");
        }
    }
}

#[test]
fn lengths_of_every_kind() {
    for (kind, _) in bodies() {
        for length in 10..=40 {
            let rest = vec![0; length - 10];
            let octets = peer(kind.type_and_code(), 0, 1, &rest);
            let right = match kind {
                Kind::Request | Kind::Confirm => length == 14,
                Kind::Poll => length == 16,
                Kind::Update => length >= 16,
                Kind::Error => length == 24,
                _ => length == 10,
            };
            let answer = answer_of(&octets, NET);
            if right {
                assert_ne!(answer, 12, "{kind:?} {length}");
            } else {
                assert_eq!(answer, 12, "{kind:?} {length}");
            }
        }
    }
}

#[test]
fn kind_then_status_then_length() {
    assert_eq!(answer_of(&raw((4, 0), 9, PEER_AS, 0, &[0]), NET), 10);
    assert_eq!(answer_of(&peer(HELLO, 9, 0, &[0]), NET), 11);
    assert_eq!(answer_of(&peer(HELLO, 1, 0, &[0]), NET), 12);
}

#[test]
fn fields_are_read() {
    let read = |octets: &[u8]| message::read(octets, NET).expect("good");
    let request = read(&request(2, 0x0102, 0x0304, 0x0506));
    assert_eq!(
        request,
        Message {
            status: 2,
            as_number: 7,
            sequence: 0x0102,
            body: Body::Request(Intervals {
                hello: 0x0304,
                poll: 0x0506
            }),
        }
    );
    // Reserved octets are ignored, any net is read.
    let mut poll = vec![0xAB, 0xCD];
    poll.extend([240, 1, 2, 3]);
    assert_eq!(
        read(&peer(POLL, 0, 3, &poll)).body,
        Body::Poll {
            net: address(240, 1, 2, 3)
        }
    );
    // Any reason is read, and all twelve octets.
    let mut error = vec![0xFE, 0xDC];
    error.extend(1..=12);
    assert_eq!(
        read(&peer(ERROR, 130, 3, &error)).body,
        Body::Error {
            reason: 0xFEDC,
            header: [1, 2, 3, 4, 5, 6, 7, 8, 9, 10, 11, 12]
        }
    );
}

#[test]
fn rows_on_each_class_of_common_net() {
    // Class A: a gateway takes three octets; class B: two; class C: one.
    let on = |net: u32, host: &[u8]| {
        let mut rest = vec![1, 1];
        rest.extend(net.to_be_bytes());
        rest.extend(host);
        rest.extend([1, 7, 3, 10, 128, 9, 192, 5, 6]);
        rest.extend(host);
        rest.extend([1, 255, 1, 11]);
        peer(UPDATE, 1, 1, &rest)
    };
    let expect = |net: u32, gateway: u32| {
        vec![
            [address(10, 0, 0, 0), gateway, 7],
            [address(128, 9, 0, 0), gateway, 7],
            [address(192, 5, 6, 0), gateway, 7],
            [address(11, 0, 0, 0), gateway, 511],
        ]
        .into_iter()
        .inspect(move |_| assert!(reference::net::is_on(gateway, net)))
        .collect::<Vec<_>>()
    };
    for (net, host, gateway) in [
        (address(10, 0, 0, 0), &[1, 2, 3][..], address(10, 1, 2, 3)),
        (address(128, 9, 0, 0), &[2, 3][..], address(128, 9, 2, 3)),
        (address(192, 5, 6, 0), &[3][..], address(192, 5, 6, 3)),
    ] {
        assert_eq!(rows_of(&on(net, host), net), expect(net, gateway));
    }
}

#[test]
fn any_count_may_be_zero() {
    assert_eq!(
        rows_of(&update(1, 1, 0, 0, &[]), NET),
        Vec::<[u32; 3]>::new()
    );
    // A gateway without distances, a distance without nets.
    assert_eq!(answer_of(&update(1, 1, 1, 0, &[0, 5, 0]), NET), 0);
    assert_eq!(answer_of(&update(1, 1, 0, 1, &[0, 5, 1, 9, 0]), NET), 0);
}

#[test]
fn repeats_stay_in_message_order() {
    let blocks = [0, 5, 2, 9, 2, 12, 11, 3, 1, 12];
    let net = |first| address(first, 0, 0, 0);
    assert_eq!(
        rows_of(&update(1, 1, 1, 0, &blocks), NET),
        vec![[net(12), N, 9], [net(11), N, 9], [net(12), N, 3]]
    );
}

#[test]
fn nothing_missing_nothing_left_over_14() {
    let good = hex(CASE_U);
    for length in 16..good.len() {
        assert_eq!(answer_of(&sealed(good[..length].to_vec()), NET), 14);
    }
    let mut longer = good.clone();
    longer.push(0);
    assert_eq!(answer_of(&sealed(longer), NET), 14);
    // Counts that promise more than there is, or less.
    for (place, value) in [(10, 2), (11, 1), (18, 2), (20, 3), (20, 1)] {
        let mut octets = good.clone();
        octets[place] = value;
        assert_eq!(answer_of(&sealed(octets), NET), 14, "octet {place}");
    }
}

#[test]
fn a_net_of_no_class_14() {
    for first in [224, 240, 255] {
        let mut octets = hex(CASE_U);
        octets[21] = first;
        assert_eq!(answer_of(&sealed(octets), NET), 14);
    }
}

#[test]
fn another_net_14() {
    for net in [NET ^ 1, address(128, 10, 0, 0), 0] {
        assert_eq!(answer_of(&hex(CASE_U), net), 14);
    }
}

#[test]
fn a_bad_common_net_14_for_updates_only() {
    let bad = address(224, 0, 0, 0);
    let mut rest = vec![0, 0];
    rest.extend(bad.to_be_bytes());
    assert_eq!(answer_of(&peer(UPDATE, 1, 1, &rest), bad), 14);
    // Not left justified is bad too, even where the Update names the same.
    let crooked = address(128, 9, 0, 1);
    let mut rest = vec![0, 0];
    rest.extend(crooked.to_be_bytes());
    assert_eq!(answer_of(&peer(UPDATE, 1, 1, &rest), crooked), 14);
    assert_eq!(answer_of(&peer(HELLO, 1, 1, &[]), bad), 0);
    assert_eq!(answer_of(&poll(1, 1, bad), bad), 0);
}

/// One internal gateway with these many class A nets at each of several distances.
fn groups(counts: &[u8]) -> Vec<u8> {
    let mut blocks = vec![0, 5, counts.len() as u8];
    for (distance, count) in counts.iter().enumerate() {
        blocks.extend([distance as u8, *count]);
        blocks.extend(vec![10; usize::from(*count)]);
    }
    blocks
}

#[test]
fn more_than_128_rows_15() {
    assert_eq!(answer_of(&update(1, 1, 1, 0, &groups(&[128])), NET), 0);
    assert_eq!(answer_of(&update(1, 1, 1, 0, &groups(&[129])), NET), 15);
    assert_eq!(answer_of(&update(1, 1, 1, 0, &groups(&[64, 65])), NET), 15);
    assert_eq!(answer_of(&update(1, 1, 1, 0, &groups(&[255; 7])), NET), 15);
    // A defect after row 129 is still a defect.
    let mut blocks = groups(&[129]);
    blocks.push(0);
    assert_eq!(answer_of(&update(1, 1, 1, 0, &blocks), NET), 14);
    let mut blocks = groups(&[64, 66]);
    blocks.pop();
    assert_eq!(answer_of(&update(1, 1, 1, 0, &blocks), NET), 14);
}

#[test]
fn writing_gives_these_octets() {
    let net = NET;
    let header = [1, 2, 3, 4, 5, 6, 7, 8, 9, 10, 11, 12];
    let spans = Intervals {
        hello: 30,
        poll: 120,
    };
    let mut error_rest = vec![0, 77];
    error_rest.extend(header);
    let cases = [
        (2, Body::Request(spans), request(2, 1, 30, 120)),
        (1, Body::Confirm(spans), confirm(1, 1, 30, 120)),
        (7, Body::Refuse, peer(REFUSE, 7, 1, &[])),
        (3, Body::Cease, peer(CEASE, 3, 1, &[])),
        (0, Body::CeaseAck, peer(CEASE_ACK, 0, 1, &[])),
        (2, Body::Hello, hex("02 05 00 02 FD F0 00 07 00 01")),
        (0, Body::IHeardYou, peer(I_H_U, 0, 1, &[])),
        (1, Body::Poll { net: 0xF1F2_F3F4 }, poll(1, 1, 0xF1F2_F3F4)),
        (
            1,
            Body::Update {
                net,
                rows: vec![row(0x0A00_0000, N, 0), row(0xC005_0600, N, 0)],
            },
            hex(CASE_U),
        ),
        (
            129,
            Body::Error { reason: 77, header },
            peer(ERROR, 129, 1, &error_rest),
        ),
    ];
    for (status, body, octets) in cases {
        let message = meaning(status, body);
        assert_eq!(written(&message), Ok(octets.clone()));
        assert_eq!(message::read(&octets, NET), Ok(message));
    }
}

#[test]
fn writing_groups_by_side_gateway_and_distance() {
    let a = address(10, 0, 0, 0);
    let other = address(128, 9, 1, 6);
    let rows = vec![
        row(a, N, 1),
        row(a, N, 1),
        row(a, N, 2),
        row(a, other, 2),
        row(a, N, 2),
        // The same gateway ends one side and begins the other: two blocks.
        row(a, N, 256 + 2),
        row(a, N, 256 + 2),
    ];
    let octets = written(&meaning(
        1,
        Body::Update {
            net: NET,
            rows: rows.clone(),
        },
    ))
    .expect("good");
    let blocks = [
        0, 5, 2, 1, 2, 10, 10, 2, 1, 10, //
        1, 6, 1, 2, 1, 10, //
        0, 5, 1, 2, 1, 10, //
        0, 5, 1, 2, 2, 10, 10,
    ];
    assert_eq!(octets, update(1, 1, 3, 1, &blocks));
    let numbers: Vec<[u32; 3]> = rows.iter().map(Row::numbers).collect();
    assert_eq!(rows_of(&octets, NET), numbers);
}

#[test]
fn no_rows_take_16_octets() {
    let octets = written(&meaning(
        0,
        Body::Update {
            net: NET,
            rows: vec![],
        },
    ));
    assert_eq!(octets, Ok(update(0, 1, 0, 0, &[])));
    assert_eq!(octets.map(|octets| octets.len()), Ok(16));
}

#[test]
fn the_longest_update_that_can_be_written() {
    let net = address(10, 0, 0, 0);
    let rows = (0..128)
        .map(|host| row(address(192, 1, 1, 0), net + host, host))
        .collect();
    let octets = written(&meaning(1, Body::Update { net, rows })).expect("good");
    assert_eq!(octets.len(), 1168);
    assert_eq!(octets[10], 128);
}

#[test]
fn short_buffer_3_before_bad_meaning_16() {
    let mut short = vec![FILL; 2047];
    let hello = meaning(1, Body::Hello);
    assert_eq!(
        message::write(&hello, &[], &mut short),
        Err(Answer::ShortBuffer)
    );
    let bad = meaning(3, Body::Hello);
    assert_eq!(
        message::write(&bad, &[], &mut short),
        Err(Answer::ShortBuffer)
    );
    assert!(short.iter().all(|octet| *octet == FILL));
    assert_eq!(written(&bad), Err(16));
}

#[test]
fn writer_refuses_statuses_the_reader_refuses() {
    for (kind, rest) in bodies() {
        let octets = peer(kind.type_and_code(), 0, 1, &rest);
        let good = message::read(&octets, NET).expect("good");
        for status in 0..=255 {
            let message = Message {
                status,
                ..good.clone()
            };
            let allowed = answer_of(&peer(kind.type_and_code(), status, 1, &rest), NET) == 0;
            assert_eq!(written(&message).is_ok(), allowed, "{kind:?} {status}");
        }
    }
}

#[test]
fn writer_refuses_bad_updates_16() {
    let a = address(10, 0, 0, 0);
    let update = |net: u32, rows: Vec<Row>| written(&meaning(1, Body::Update { net, rows }));
    assert!(update(NET, vec![row(a, N, 511)]).is_ok());
    assert!(update(NET, vec![row(a, N, 0); 128]).is_ok());
    assert_eq!(update(address(128, 9, 0, 1), vec![]), Err(16));
    assert_eq!(update(address(224, 0, 0, 0), vec![]), Err(16));
    assert_eq!(update(NET, vec![row(a + 1, N, 0)]), Err(16));
    assert_eq!(update(NET, vec![row(address(224, 0, 0, 0), N, 0)]), Err(16));
    assert_eq!(update(NET, vec![row(a, address(128, 8, 0, 5), 0)]), Err(16));
    assert_eq!(update(NET, vec![row(a, N, 512)]), Err(16));
    assert_eq!(update(NET, vec![row(a, N, 0); 129]), Err(16));
    assert_eq!(update(NET, vec![row(a, N, 256), row(a, N, 255)]), Err(16));
}

#[test]
fn writer_refuses_numbers_that_are_no_rows_16() {
    let write = |message: &Message, loose: &[u32]| {
        let mut buffer = vec![FILL; 2048];
        let answer = message::write(message, loose, &mut buffer).map_err(Answer::number);
        assert!(answer.is_ok() || buffer.iter().all(|octet| *octet == FILL));
        answer
    };
    for (kind, rest) in bodies() {
        let octets = peer(kind.type_and_code(), 0, 1, &rest);
        let good = message::read(&octets, NET).expect("good");
        assert_eq!(write(&good, &[]), Ok(octets.len()));
        for loose in [&[0][..], &[NET, N]] {
            assert_eq!(write(&good, loose), Err(16), "{kind:?}");
        }
        if kind != Kind::Update {
            assert_eq!(write(&good, &[NET, N, 0]), Err(16), "{kind:?}");
        }
    }
}

#[test]
fn octets_come_back_only_where_grouped() {
    let again = |octets: &[u8]| {
        let message = message::read(octets, NET).expect("good");
        written(&message).expect("good")
    };
    let grouped = hex(CASE_U);
    assert_eq!(again(&grouped), grouped);
    for blocks in [
        // Two blocks of one gateway, two groups of one distance.
        (2, &[0, 5, 1, 0, 1, 10, 0, 5, 1, 0, 1, 11][..]),
        (1, &[0, 5, 2, 0, 1, 10, 0, 1, 11][..]),
        // Empty block, empty group.
        (1, &[0, 5, 0][..]),
        (1, &[0, 5, 1, 0, 0][..]),
    ] {
        let octets = update(1, 1, blocks.0, 0, blocks.1);
        assert_ne!(again(&octets), octets);
    }
    let mut reserved = poll(1, 1, NET);
    assert_eq!(again(&reserved), reserved);
    reserved[11] = 1;
    assert_ne!(again(&sealed(reserved.clone())), sealed(reserved));
}
