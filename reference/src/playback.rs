//! Plays a recording back (02, L1 and L6): "playing a recording must equal making the calls of its good
//! lines one by one, from a zeroed table and with an empty home list".
//!
//! The lines and their calls are gone through once, whatever is to be written of a call: a [`Teller`]
//! writes that.

use crate::call::{Bench, Buffer, Call, Record};
use crate::gateway::State;
use crate::listing::LISTING_BUFFER;
use crate::net::dotted;
use crate::recording::{self, Event, Head, HEAD_LINES};

/// A call that a good line asks for, made.
pub struct Made<'a> {
    /// The number of its line.
    pub line: usize,
    pub call: &'a Call,
    /// How many more times the line asks for it.
    pub left: u32,
    pub before: &'a State,
    pub after: &'a State,
    pub record: &'a Record,
}

impl Made<'_> {
    /// The messages sent: none, one or two.
    pub fn sent(&self) -> impl Iterator<Item = &[u8]> {
        let written = self.record.written().into_iter();
        written.filter(|message| !message.is_empty())
    }
}

/// Writes what is told of each call.
pub trait Teller {
    fn tell(&mut self, made: &Made, output: &mut Vec<u8>);
}

/// What playing a recording writes.
pub fn play(recording: &[u8]) -> Vec<u8> {
    play_to(&mut Replies, recording)
}

/// What playing a recording writes if the teller is told of its calls: bad lines and the listing are
/// the same whoever tells.
pub fn play_to(teller: &mut impl Teller, recording: &[u8]) -> Vec<u8> {
    let mut output = Vec::new();
    let lines: Vec<&[u8]> = recording::lines(recording).collect();
    match begin(&lines) {
        Ok((mut bench, taken)) => {
            for (index, line) in lines.iter().enumerate().skip(taken) {
                play_line_to(teller, &mut bench, index + 1, line, &mut output);
            }
            write_listing(&mut bench, &mut output);
        }
        Err(number) => write_bad(number, &mut output),
    }
    output
}

/// Fresh by the settings, over a zeroed table, and how many lines these take; otherwise the line to
/// report, "the fourth for fresh", whatever the fifth is.
pub fn begin(lines: &[&[u8]]) -> Result<(Bench, usize), usize> {
    let Head { fresh, lines } = recording::head(lines)?;
    let mut bench = Bench::default();
    if bench.run(&fresh).answer.is_refusal() {
        return Err(HEAD_LINES);
    }
    Ok((bench, lines))
}

/// Plays one event line.
pub fn play_line(bench: &mut Bench, number: usize, line: &[u8], output: &mut Vec<u8>) {
    play_line_to(&mut Replies, bench, number, line, output);
}

/// "A bad event line is reported in its place ... and skipped whole."
pub fn play_line_to(
    teller: &mut impl Teller,
    bench: &mut Bench,
    number: usize,
    line: &[u8],
    output: &mut Vec<u8>,
) {
    match recording::event(line) {
        Ok(event) => make_calls(teller, bench, number, &event, output),
        Err(_) => write_bad(number, output),
    }
}

/// Makes the calls of a line, each by its own rule, whatever the one before answered.
fn make_calls(
    teller: &mut impl Teller,
    bench: &mut Bench,
    line: usize,
    event: &Event,
    output: &mut Vec<u8>,
) {
    for left in (0..event.times).rev() {
        let before = bench.state;
        let record = bench.run(&event.call);
        let made = Made {
            line,
            call: &event.call,
            left,
            before: &before,
            after: &bench.state,
            record: &record,
        };
        teller.tell(&made, output);
    }
}

/// Tells what is sent: "the tool writes each reply message as a `tx` line (address, slash, hex)".
struct Replies;

impl Teller for Replies {
    fn tell(&mut self, made: &Made, output: &mut Vec<u8>) {
        let Some(address) = made.call.event_address() else {
            return;
        };
        for message in made.sent() {
            let line = format!("tx={}/{}\n", dotted(address), recording::hex(message));
            output.extend(line.as_bytes());
        }
    }
}

fn write_bad(number: usize, output: &mut Vec<u8>) {
    output.extend(format!("bad={number}\n").as_bytes());
}

/// "And the listing at the end."
fn write_listing(bench: &mut Bench, output: &mut Vec<u8>) {
    let record = bench.run(&Call::Listing {
        buffer: Buffer {
            length: LISTING_BUFFER,
            fill: 0,
        },
    });
    output.extend(record.written()[0]);
}
