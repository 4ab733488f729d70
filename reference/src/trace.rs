//! The trace of a recording: playing it, with a line for each call in place of what was sent
//! (`docs/RECORDING.md`, "The trace").

use std::fmt::{Display, Write};

use crate::call::Call;
use crate::checksum;
use crate::listing::{mode_word, side_word, state_word};
use crate::message::{self, Body, Kind};
use crate::neighbour::Neighbour;
use crate::net::dotted;
use crate::playback::{self, Made, Teller};
use crate::recording::hex;
use crate::update::EXTERNAL;

/// What tracing a recording writes.
pub fn trace(recording: &[u8]) -> Vec<u8> {
    playback::play_to(&mut Tracer::default(), recording)
}

/// Tells every call but quiet ticks. The last tick of a line is told in any case, so that none is
/// left over from the line before.
#[derive(Default)]
pub struct Tracer {
    /// Quiet ticks of this line since the last that was told.
    passed_over: u32,
}

impl Teller for Tracer {
    fn tell(&mut self, made: &Made, output: &mut Vec<u8>) {
        let Some(about) = About::of(made) else {
            return;
        };
        if about.is_quiet_tick(made) && made.left > 0 {
            self.passed_over += 1;
            return;
        }
        let mut line = Line::default();
        about.write(made, std::mem::take(&mut self.passed_over), &mut line);
        if let Call::Message { octets, .. } = made.call {
            write_message(&mut line, "received", octets, made.after.net);
        }
        for octets in made.sent() {
            write_message(&mut line, "sent", octets, made.after.net);
        }
        line.0.push('\n');
        output.extend(line.0.as_bytes());
    }
}

/// Fields with a blank between them.
#[derive(Default)]
struct Line(String);

impl Line {
    fn field(&mut self, key: &str, value: impl Display) {
        if !self.0.is_empty() {
            self.0.push(' ');
        }
        write!(self.0, "{key}={value}").expect("a string takes what is written");
    }
}

/// The neighbour that a call is about: its address, and itself before the call and after it, if
/// there is such a neighbour then.
struct About {
    event: &'static str,
    address: u32,
    before: Option<Neighbour>,
    after: Option<Neighbour>,
}

impl About {
    fn of(made: &Made) -> Option<About> {
        let (event, address) = (event_word(made.call)?, made.call.about()?);
        let [before, after] = [made.before, made.after]
            .map(|state| state.find(address).map(|slot| state.neighbours[slot]));
        Some(About {
            event,
            address,
            before,
            after,
        })
    }

    /// "Nothing was sent and neither the neighbour's state nor its register nor its number of rows
    /// changed, refused ticks with them."
    fn is_quiet_tick(&self, made: &Made) -> bool {
        let shown = |n: Option<Neighbour>| n.map(|n| (n.state, n.register, n.row_count));
        matches!(made.call, Call::Tick { .. })
            && made.sent().next().is_none()
            && shown(self.before) == shown(self.after)
    }

    fn write(&self, made: &Made, passed_over: u32, line: &mut Line) {
        let before = self.before.unwrap_or_default();
        let after = self.after.unwrap_or_default();
        // "Of a neighbour that was removed, those that it had"; all 0 of none.
        let n = self.after.or(self.before).unwrap_or_default();
        let word = |neighbour: Option<Neighbour>| neighbour.map_or("none", |n| state_word(n.state));
        line.field("line", made.line);
        line.field("neighbour", dotted(self.address));
        line.field("event", self.event);
        line.field("second", n.seconds.sum());
        line.field("answer", made.record.answer.number());
        line.field("before", word(self.before));
        line.field("after", word(self.after));
        line.field("mode", mode_word(n.mode));
        line.field("quiet", passed_over);
        line.field("rowsbefore", before.row_count);
        line.field("rowsafter", after.row_count);
        line.field("registerbefore", before.register);
        line.field("registerafter", after.register);
        line.field("peer", n.as_number);
        line.field("S", n.send_sequence);
        line.field("R", n.receive_sequence);
        line.field("T1", n.hello_interval);
        line.field("T2", n.poll_interval);
        line.field("t1", n.t1);
        line.field("t2", n.t2);
        line.field("t3", n.t3);
        line.field("heard", n.heard);
        line.field("cause", n.cause);
        line.field("sincehello", n.since_hello);
        line.field("sincepoll", n.since_poll);
    }
}

/// A message received or sent: what stands in its octets, then what reading alone makes of it.
fn write_message(line: &mut Line, way: &str, octets: &[u8], net: u32) {
    let (kind, reading, body) = match message::read(octets, net) {
        Ok(message) => (kind_word(message.kind()), 0, Some(message.body)),
        Err(answer) => (REFUSED, answer.number(), None),
    };
    line.field(way, kind);
    line.field("reading", reading);
    line.field("octets", octets.len());
    line.field("status", octet(octets, 3));
    line.field("checksum", pair(octets, 4));
    line.field("right", checksum::checksum(octets));
    line.field("as", pair(octets, 6));
    line.field("sequence", pair(octets, 8));
    let rows = match &body {
        Some(Body::Update { rows, .. }) => rows.len(),
        _ => 0,
    };
    line.field("rows", rows);
    if let Some(body) = body {
        write_body(line, &body);
    }
    line.field("hex", hex(octets));
}

/// The fields of a kind's own.
fn write_body(line: &mut Line, body: &Body) {
    match body {
        Body::Request(intervals) | Body::Confirm(intervals) => {
            line.field("hello", intervals.hello);
            line.field("poll", intervals.poll);
        }
        Body::Poll { net } => line.field("net", dotted(*net)),
        Body::Update { net, rows } => {
            line.field("net", dotted(*net));
            for row in rows {
                line.field("row", dotted(row.net));
                line.field("gw", dotted(row.gateway));
                line.field("dist", row.distance % EXTERNAL);
                line.field("side", side_word(row));
            }
        }
        Body::Error { reason, header } => {
            line.field("reason", reason);
            for (key, four) in ["word1", "word2", "word3"].iter().zip(header.chunks(4)) {
                let number = u32::from_be_bytes([four[0], four[1], four[2], four[3]]);
                line.field(key, number);
            }
        }
        Body::Refuse | Body::Cease | Body::CeaseAck | Body::Hello | Body::IHeardYou => {}
    }
}

/// The octet at this place; "what is missing counts as 0".
fn octet(octets: &[u8], at: usize) -> u8 {
    octets.get(at).copied().unwrap_or(0)
}

fn pair(octets: &[u8], at: usize) -> u16 {
    u16::from_be_bytes([octet(octets, at), octet(octets, at + 1)])
}

/// The key of the line that asks for the call; none if no line does.
fn event_word(call: &Call) -> Option<&'static str> {
    Some(match call {
        Call::Add { .. } => "add",
        Call::Remove { .. } => "remove",
        Call::Start { .. } => "start",
        Call::Stop { .. } => "stop",
        Call::Tick { .. } => "tick",
        Call::Message { .. } => "rx",
        _ => return None,
    })
}

/// In place of the kind of a message that reading alone refuses.
pub const REFUSED: &str = "refused";

pub fn kind_word(kind: Kind) -> &'static str {
    match kind {
        Kind::Request => "request",
        Kind::Confirm => "confirm",
        Kind::Refuse => "refuse",
        Kind::Cease => "cease",
        Kind::CeaseAck => "cease-ack",
        Kind::Hello => "hello",
        Kind::IHeardYou => "i-h-u",
        Kind::Poll => "poll",
        Kind::Update => "update",
        Kind::Error => "error",
    }
}
