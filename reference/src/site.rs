//! The technicians' example, a short recording: two neighbours report one net, one of them is too
//! quick, and the other is closed. It is stored as `examples/site.rec`, and what playing it writes as
//! `examples/site.out`.

use crate::call::Call;
use crate::message::{self, Body, Intervals, Message};
use crate::neighbour::{ACTIVE_ONLY, PASSIVE_ONLY, STATUS_DOWN, STATUS_UP};
use crate::net::address;
use crate::playback;
use crate::recording;
use crate::update::Row;

const NET: u32 = address(128, 9, 0, 0);
const OTHER_NET: u32 = address(192, 5, 9, 0);
/// The net that both neighbours report.
pub const SHARED: u32 = address(10, 0, 0, 0);

const INTERVALS: Intervals = Intervals {
    hello: 30,
    poll: 120,
};

/// A neighbour: its address and its AS.
#[derive(Clone, Copy)]
struct Peer(u32, u16);

const CLOSED: Peer = Peer(address(128, 9, 0, 5), 7);
const KEPT: Peer = Peer(address(128, 9, 0, 6), 8);

impl Peer {
    fn add(self) -> String {
        line(&Call::Add {
            address: self.0,
            as_number: self.1,
        })
    }

    fn start(self) -> String {
        line(&recording::start(self.0))
    }

    fn stop(self) -> String {
        line(&recording::stop(self.0))
    }

    fn seconds(self, count: u32) -> String {
        recording::event_line(&recording::tick(self.0), count).unwrap_or_default()
    }

    fn sends(self, status: u8, sequence: u16, body: Body) -> String {
        let octets = message::encode(&Message {
            status,
            as_number: self.1,
            sequence,
            body,
        });
        line(&recording::received(self.0, octets))
    }

    /// An Update with these nets and distances behind the neighbour itself.
    fn reports(self, nets: [(u32, u32); 2]) -> String {
        let rows = nets.map(|(net, distance)| Row {
            net,
            gateway: self.0,
            distance,
        });
        let body = Body::Update {
            net: NET,
            rows: rows.to_vec(),
        };
        self.sends(STATUS_UP, 1, body)
    }
}

fn line(call: &Call) -> String {
    recording::event_line(call, 1).unwrap_or_default()
}

/// One neighbour is acquired by us, the other acquires us.
fn acquisition() -> Vec<String> {
    vec![
        CLOSED.add(),
        KEPT.add(),
        CLOSED.start(),
        CLOSED.sends(PASSIVE_ONLY, 0, Body::Confirm(INTERVALS)),
        KEPT.sends(PASSIVE_ONLY, 1, Body::Request(INTERVALS)),
    ]
}

/// One interval in which both are heard.
fn heard() -> Vec<String> {
    vec![
        CLOSED.sends(STATUS_DOWN, 0, Body::IHeardYou),
        KEPT.sends(STATUS_DOWN, 0, Body::IHeardYou),
        CLOSED.seconds(32),
        KEPT.seconds(32),
    ]
}

/// Both report nets; a bad line, a Hello, Polls, and a count that no line may have.
fn reports() -> Vec<String> {
    let hello = KEPT.sends(STATUS_UP, 2, Body::Hello);
    vec![
        CLOSED.reports([(SHARED, 0), (address(192, 5, 6, 0), 1)]),
        KEPT.reports([(SHARED, 1), (address(192, 5, 7, 0), 0)]),
        hello.to_lowercase(),
        hello,
        CLOSED.sends(STATUS_UP, 1, Body::Poll { net: NET }),
        KEPT.sends(STATUS_UP, 3, Body::Poll { net: OTHER_NET }),
        CLOSED.seconds(0),
        CLOSED.seconds(10),
        KEPT.seconds(10),
    ]
}

/// Ten seconds after its Hello and its Poll one of them sends the next of each: too quick.
fn too_quick() -> Vec<String> {
    vec![
        KEPT.sends(STATUS_UP, 4, Body::Hello),
        KEPT.sends(STATUS_UP, 5, Body::Poll { net: NET }),
    ]
}

/// One of them is stopped; adding it again is refused, which is no bad line. A Hello of the other
/// comes when it may.
fn closing() -> Vec<String> {
    vec![
        CLOSED.stop(),
        CLOSED.sends(0, 1, Body::CeaseAck),
        CLOSED.add(),
        KEPT.sends(STATUS_UP, 1, Body::IHeardYou),
        KEPT.seconds(22),
        KEPT.sends(STATUS_UP, 6, Body::Hello),
    ]
}

/// The example's recording.
pub fn recording() -> String {
    let head = recording::head_lines(&Call::Fresh {
        as_number: 9,
        address: address(128, 9, 0, 1),
        capability: ACTIVE_ONLY,
        net: NET,
        quiet: 0,
    });
    let lines = [
        head.into_iter().flatten().collect(),
        acquisition(),
        heard(),
        heard(),
        heard(),
        reports(),
        too_quick(),
        closing(),
    ]
    .concat();
    lines.iter().map(|line| format!("{line}\n")).collect()
}

/// What playing it writes.
pub fn output() -> Vec<u8> {
    playback::play(recording().as_bytes())
}
