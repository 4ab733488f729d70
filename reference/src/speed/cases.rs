//! The calls that are timed: the state and table that each starts from, and its arguments.
//!
//! Every call here leaves the table as it found it, so that each round does the same work.

use crate::call::{Bench, Buffer, Call};
use crate::checksum;
use crate::gateway::{self, SLOTS, SLOT_NUMBERS, TABLE_NUMBERS};
use crate::listing::LISTING_BUFFER;
use crate::message::{self, Body, Message, LONGEST, REPLY_BUFFER};
use crate::neighbour::{
    Mode, Neighbour, NeighbourState, Seconds, HELLO_TICKS, MOST_TICKS, STATUS_UP,
};
use crate::net::address;
use crate::record;
use crate::update::{Row, MOST_ROWS};

const OWN_AS: u16 = 9;
const OWN: u32 = address(128, 9, 0, 1);
const NET: u32 = address(128, 9, 0, 0);
const PEER_AS: u16 = 7;

/// One call, and what it starts from.
#[derive(Clone)]
pub struct Case {
    pub name: String,
    pub bench: Bench,
    pub call: Call,
    /// The answer it gets.
    pub answer: u8,
}

/// A kind that no record has: a driver calls nothing and answers with it.
const NO_KIND: u8 = 255;

impl Case {
    /// No call: what a program's loop takes around it.
    pub fn the_loop() -> Case {
        Case {
            name: "(the loop alone)".to_string(),
            call: Call::HandTable(Vec::new()),
            answer: NO_KIND,
            ..Case::full("", tick)
        }
    }

    /// The record of its call, made so many times.
    pub fn record(&self, times: u32) -> Vec<u8> {
        let mut record = record::encode(&self.call, times);
        if self.is_the_loop() {
            record[0] = NO_KIND;
        }
        record
    }

    pub fn is_the_loop(&self) -> bool {
        self.answer == NO_KIND
    }

    /// `used` neighbours in Up with `rows` rows each; the call is about the last of them.
    fn new(name: &str, used: usize, rows: usize, call: impl Fn(u32) -> Call) -> Case {
        Case::of(name, used, rows, |_| {}, call)
    }

    /// Eight neighbours with 128 rows each.
    fn full(name: &str, call: impl Fn(u32) -> Call) -> Case {
        Case::new(name, SLOTS, MOST_ROWS, call)
    }

    /// The same, with the last neighbour's record changed.
    fn of(
        name: &str,
        used: usize,
        rows: usize,
        change: impl Fn(&mut Neighbour),
        call: impl Fn(u32) -> Call,
    ) -> Case {
        let mut state = gateway::fresh(OWN_AS, OWN, 1, NET, 0).state;
        let mut table = vec![0; TABLE_NUMBERS];
        for slot in 0..used {
            state.neighbours[slot] = neighbour(slot, rows);
            let area = &mut table[slot * SLOT_NUMBERS..];
            for (place, row) in area.chunks_mut(3).zip(class_c(peer(slot), rows)) {
                place.copy_from_slice(&row.numbers());
            }
        }
        change(&mut state.neighbours[used - 1]);
        let call = call(peer(used - 1));
        let mut bench = Bench { state, table };
        // The table that the call leaves, under the state it starts from.
        let answer = bench.run(&call).answer.number();
        bench.state = state;
        Case {
            name: name.to_string(),
            bench,
            call,
            answer,
        }
    }
}

fn peer(slot: usize) -> u32 {
    address(128, 9, 0, 5 + slot as u8)
}

fn neighbour(slot: usize, rows: usize) -> Neighbour {
    Neighbour {
        address: peer(slot),
        as_number: PEER_AS,
        state: NeighbourState::Up,
        send_sequence: 1,
        receive_sequence: 1,
        hello_interval: 32,
        poll_interval: 122,
        mode: Mode::Active,
        t1: 20,
        t2: 100,
        t3: 3000,
        register: 15,
        heard: 0,
        cause: 0,
        row_count: rows as u16,
        since_hello: MOST_TICKS,
        since_poll: MOST_TICKS,
        // A year, most of it in Up.
        seconds: Seconds {
            idle: 900,
            acquisition: 30,
            down: 96,
            up: 31_534_884,
            cease: 90,
        },
    }
}

/// Rows of these nets behind one gateway, in groups of 16 distances.
fn behind(gateway: u32, count: usize, net: fn(u8) -> u32) -> Vec<Row> {
    (0..count)
        .map(|index| Row {
            net: net(index as u8),
            gateway,
            distance: (index / 16) as u32,
        })
        .collect()
}

fn class_c(gateway: u32, count: usize) -> Vec<Row> {
    behind(gateway, count, |index| address(192, 5, index, 0))
}

/// Nets of one octet each: most rows to an octet.
fn class_a(gateway: u32, count: usize) -> Vec<Row> {
    behind(gateway, count, |index| address(index % 128, 0, 0, 0))
}

/// Rows of class C nets, each behind a gateway of its own; the first is the one given.
fn one_each(gateway: u32, count: usize) -> Vec<Row> {
    (0..count)
        .map(|index| Row {
            net: address(192, 5, index as u8, 0),
            gateway: gateway + 256 * index as u32,
            distance: 0,
        })
        .collect()
}

fn lent(length: usize) -> Buffer {
    Buffer { length, fill: 0 }
}

fn received(address: u32, octets: Vec<u8>, home: Vec<u32>) -> Call {
    Call::Message {
        address,
        octets,
        home,
        reply: lent(REPLY_BUFFER),
    }
}

fn octets_of(body: Body) -> Vec<u8> {
    message::encode(&Message {
        status: STATUS_UP,
        as_number: PEER_AS,
        sequence: 1,
        body,
    })
}

fn hello(address: u32) -> Call {
    received(address, octets_of(Body::Hello), Vec::new())
}

fn i_heard_you(address: u32) -> Call {
    received(address, octets_of(Body::IHeardYou), Vec::new())
}

fn tick(address: u32) -> Call {
    Call::Tick {
        address,
        reply: lent(REPLY_BUFFER),
    }
}

fn start(address: u32) -> Call {
    Call::Start {
        address,
        reply: lent(REPLY_BUFFER),
    }
}

fn stop(address: u32) -> Call {
    Call::Stop {
        address,
        reply: lent(REPLY_BUFFER),
    }
}

fn update(address: u32, rows: Vec<Row>) -> Call {
    let octets = octets_of(Body::Update { net: NET, rows });
    received(address, octets, Vec::new())
}

fn poll(address: u32, home: Vec<Row>) -> Call {
    let home = home.iter().flat_map(Row::numbers).collect();
    received(address, octets_of(Body::Poll { net: NET }), home)
}

fn listing(_: u32) -> Call {
    Call::Listing {
        buffer: lent(LISTING_BUFFER),
    }
}

/// An Update with these gateway counts and blocks, as long as they make it.
fn raw_update(internal: u8, external: u8, blocks: &[u8]) -> Vec<u8> {
    let mut octets = octets_of(Body::Update {
        net: NET,
        rows: Vec::new(),
    });
    octets[10] = internal;
    octets[11] = external;
    octets.extend(blocks);
    checksum::seal(&mut octets);
    octets
}

/// A good Update of 2,048 octets: 128 gateways of one class C net and 336 of none.
fn longest_update() -> Vec<u8> {
    let mut blocks = Vec::new();
    for gateway in 0..MOST_ROWS as u8 {
        blocks.extend([1, gateway, 1, 0, 1, 192, 5, gateway]);
    }
    let empty = (LONGEST - 16 - blocks.len()) / 3;
    for gateway in 0..empty {
        blocks.extend([2, gateway as u8, 0]);
    }
    raw_update(255, (MOST_ROWS + empty - 255) as u8, &blocks)
}

/// An Update of 2,048 octets with as many rows as fit, 2,013 of class A nets; it is good but for
/// their number.
fn most_rows() -> Vec<u8> {
    let mut blocks = vec![0, 5, 8];
    for distance in 0..8 {
        let left = LONGEST - 16 - blocks.len() - 2;
        let nets = left.min(255) as u8;
        blocks.extend([distance, nets]);
        blocks.extend((0..nets).map(|net| net % 128));
    }
    raw_update(1, 0, &blocks)
}

/// The Update of most rows with one octet changed, the checksum right again.
fn changed(place: usize, octet: u8) -> Vec<u8> {
    let mut octets = most_rows();
    octets[place] = octet;
    checksum::seal(&mut octets);
    octets
}

/// The Update of most rows whose last three octets would be one net if they had a class: nothing
/// else is wrong before the number of rows.
fn without_class() -> Vec<u8> {
    let mut octets = most_rows();
    // The last distance has 228 nets, behind the octet that says so.
    octets[LONGEST - 228 - 1] -= 2;
    octets[LONGEST - 3] = 224;
    checksum::seal(&mut octets);
    octets
}

/// A message of 2,048 octets, one more for 6, that is refused with this number: each check before
/// it passes.
fn refused(number: u8) -> Vec<u8> {
    let mut octets = most_rows();
    match number {
        6 => octets.push(0),
        7 => octets = changed(0, 3),
        8 => octets[4] ^= 1,
        9 => octets = changed(7, PEER_AS as u8 + 1),
        10 => octets = changed(2, 1),
        11 => octets = changed(3, 3),
        12 => octets = changed(1, 5),
        13 => octets = changed(9, 2),
        14 => octets = without_class(),
        _ => {}
    }
    octets
}

/// What each refusal is for.
const REFUSALS: [(u8, &str); 10] = [
    (6, "2,049 octets"),
    (7, "version"),
    (8, "checksum"),
    (9, "AS"),
    (10, "type and code"),
    (11, "status"),
    (12, "length"),
    (13, "sequence"),
    (14, "the 2,011th net"),
    (15, "2,013 rows"),
];

/// The calls of a day in Up, then the worst cases, then the loop.
pub fn all() -> Vec<Case> {
    let mut cases = vec![
        Case::full("tick in Up", tick),
        Case::full("Hello in Up", hello),
        Case::full("I-H-U in Up", i_heard_you),
        Case::full("Update of 128 rows", |at| {
            update(at, class_c(at, MOST_ROWS))
        }),
        Case::full("Poll answered with 128 rows", |at| {
            poll(at, class_c(OWN, MOST_ROWS))
        }),
        Case::full("listing of eight full neighbours", listing),
        Case::full("Start in Up, rows cleared", start),
        Case::full("Stop in Up, rows cleared", stop),
        Case::of(
            "tick that sends Hello and Poll",
            SLOTS,
            MOST_ROWS,
            |neighbour| {
                neighbour.t1 = 1;
                neighbour.t2 = 1;
            },
            tick,
        ),
        Case::full("Update of 128 class A rows", |at| {
            update(at, class_a(at, MOST_ROWS))
        }),
        Case::full("Update of 128 gateways of one row", |at| {
            update(at, one_each(at, MOST_ROWS))
        }),
        Case::full("Update of 2,048 octets, 464 gateways", |at| {
            received(at, longest_update(), Vec::new())
        }),
        Case::full("Poll answered with 128 class A rows", |at| {
            poll(at, class_a(OWN, MOST_ROWS))
        }),
        Case::full("Poll answered with 128 gateways", |at| {
            poll(at, one_each(OWN, MOST_ROWS))
        }),
    ];
    for (number, why) in REFUSALS {
        let name = format!("2,048 octets refused {number}: {why}");
        cases.push(Case::full(&name, |at| {
            received(at, refused(number), Vec::new())
        }));
    }
    // As many of these as a neighbour cares to send.
    cases.push(Case::of(
        "Hello in Up refused 21: 29 ticks",
        SLOTS,
        MOST_ROWS,
        |neighbour| neighbour.since_hello = HELLO_TICKS - 1,
        hello,
    ));
    cases.push(Case::of(
        "stray Hello in Idle, answered with Cease",
        SLOTS,
        MOST_ROWS,
        |neighbour| *neighbour = neighbour.in_idle(),
        hello,
    ));
    cases.push(Case::the_loop());
    cases
}

/// How many rows the growth is measured at.
pub const ROW_STEPS: [usize; 17] = [
    1, 8, 16, 24, 32, 40, 48, 56, 64, 72, 80, 88, 96, 104, 112, 120, 128,
];

/// One neighbour with so many rows: an Update of them, a Poll answered with them, their listing.
pub fn by_rows(rows: usize) -> [Case; 3] {
    [
        Case::new("Update", 1, rows, |at| update(at, class_c(at, rows))),
        Case::new("Poll", 1, 0, |at| poll(at, class_c(OWN, rows))),
        Case::new("listing", 1, rows, listing),
    ]
}

/// So many full neighbours: a tick and a Hello of the last, the listing of all.
pub fn by_neighbours(used: usize) -> [Case; 3] {
    [
        Case::new("tick", used, MOST_ROWS, tick),
        Case::new("Hello", used, MOST_ROWS, hello),
        Case::new("listing", used, MOST_ROWS, listing),
    ]
}

#[cfg(test)]
mod tests {
    use super::*;
    use crate::answer::Answer;

    #[test]
    fn cases_are_what_they_are_called() {
        for case in all().iter().filter(|case| !case.is_the_loop()) {
            let wanted = REFUSALS
                .iter()
                .map(|(number, _)| *number)
                .chain([Answer::TooQuick.number()])
                .find(|number| case.name.contains(&format!("refused {number}:")))
                .unwrap_or(0);
            assert_eq!(case.answer, wanted, "{}", case.name);
        }
    }

    #[test]
    fn long_messages_are_as_long_as_they_can_be() {
        assert_eq!(longest_update().len(), LONGEST);
        assert_eq!(most_rows().len(), LONGEST);
        let rows = most_rows().len() - 16 - 3 - 8 * 2;
        assert_eq!(rows, 2013);
        let mut with_class = without_class();
        with_class[LONGEST - 3] = 223;
        checksum::seal(&mut with_class);
        let read = message::read(&with_class, NET);
        assert_eq!(read.err(), Some(Answer::TooManyRows));
    }

    #[test]
    fn a_case_leaves_the_table_as_it_was() {
        for case in all().iter().filter(|case| !case.is_the_loop()) {
            let mut bench = case.bench.clone();
            bench.run(&case.call);
            assert_eq!(bench.table, case.bench.table, "{}", case.name);
        }
    }
}
