//! The lines of a recording (02, L1 and L6): four settings and maybe a fifth, then events.
//!
//! A line is `key=value` and ends in octet 10. Numbers and addresses are as in the listing; what
//! is not exactly so makes a bad line (19), whatever it may have been meant to be.

use crate::answer::Answer;
use crate::call::{Buffer, Call};
use crate::message::REPLY_BUFFER;
use crate::net::{self, dotted};

/// The octet that ends a line.
pub const LINE_END: u8 = 10;
/// "Count 1 to 86,400."
pub const MOST_TICKS: u32 = 86_400;
/// "Hex is capitals, at most 2,049 octets."
pub const MOST_OCTETS: usize = 2049;
/// How many lines the settings take that every recording has.
pub const HEAD_LINES: usize = 4;

/// What is lent to a call of a recording.
pub const REPLY: Buffer = Buffer {
    length: REPLY_BUFFER,
    fill: 0,
};

/// What a good event line asks for: a call, and how many times it is made.
#[derive(Clone, Debug, PartialEq, Eq)]
pub struct Event {
    pub call: Call,
    pub times: u32,
}

/// The lines with their ends; only the last can lack its own, and no octets are no line.
pub fn lines(recording: &[u8]) -> impl Iterator<Item = &[u8]> {
    recording.split_inclusive(|octet| *octet == LINE_END)
}

/// The settings with which a recording begins.
#[derive(Clone, Debug, PartialEq, Eq)]
pub struct Head {
    pub fresh: Call,
    /// How many lines they take; the next is the first event.
    pub lines: usize,
}

/// The settings of these lines; otherwise the number of the first of the four that is bad or
/// missing. A fifth line that is no good `quiet` is an event's, and sets nothing.
pub fn head(lines: &[&[u8]]) -> Result<Head, usize> {
    let line = |number: usize| lines.get(number - 1).copied();
    let as_number = setting(line(1), "ownas", number).ok_or(1_usize)?;
    let address = setting(line(2), "own", quad).ok_or(2_usize)?;
    let capability = setting(line(3), "cap", number).ok_or(3_usize)?;
    let net = setting(line(4), "net", quad).ok_or(4_usize)?;
    let quiet = line(5).and_then(quiet);
    Ok(Head {
        fresh: Call::Fresh {
            as_number,
            address,
            capability,
            net,
            quiet: quiet.unwrap_or(0),
        },
        lines: HEAD_LINES + usize::from(quiet.is_some()),
    })
}

/// What a line right after `net`, with its end, sets: 0 or 1 if it is a good `quiet`.
pub fn quiet(line: &[u8]) -> Option<u8> {
    setting(Some(line), "quiet", number).filter(|quiet| *quiet <= 1)
}

/// One setting of the head, if its line is there and good.
fn setting<'a, T>(
    line: Option<&'a [u8]>,
    key: &str,
    read: impl Fn(&'a [u8]) -> Option<T>,
) -> Option<T> {
    let (name, value) = halves(ended(line?)?, b'=')?;
    if name == key.as_bytes() {
        read(value)
    } else {
        None
    }
}

/// What an event line, with its end, asks for.
pub fn event(line: &[u8]) -> Result<Event, Answer> {
    ended(line).and_then(good_event).ok_or(Answer::BadLine)
}

/// A line without its end; "an unended last line is bad".
fn ended(line: &[u8]) -> Option<&[u8]> {
    line.strip_suffix(&[LINE_END])
}

fn good_event(line: &[u8]) -> Option<Event> {
    let (key, value) = halves(line, b'=')?;
    let (call, times) = match key {
        b"tick" => {
            let (address, count) = address_and(value)?;
            (tick(address), ticks(count)?)
        }
        _ => (single_call(key, value)?, 1),
    };
    Some(Event { call, times })
}

/// The events that are one call.
fn single_call(key: &[u8], value: &[u8]) -> Option<Call> {
    Some(match key {
        b"add" => {
            let (address, as_number) = address_and(value)?;
            let as_number = number(as_number)?;
            Call::Add { address, as_number }
        }
        b"remove" => Call::Remove {
            address: quad(value)?,
        },
        b"start" => start(quad(value)?),
        b"stop" => stop(quad(value)?),
        b"rx" => {
            let (address, digits) = address_and(value)?;
            received(address, octets(digits)?)
        }
        _ => return None,
    })
}

pub fn start(address: u32) -> Call {
    Call::Start {
        address,
        reply: REPLY,
    }
}

pub fn stop(address: u32) -> Call {
    Call::Stop {
        address,
        reply: REPLY,
    }
}

pub fn tick(address: u32) -> Call {
    Call::Tick {
        address,
        reply: REPLY,
    }
}

/// A message from a neighbour, "with an empty home list".
pub fn received(address: u32, octets: Vec<u8>) -> Call {
    Call::Message {
        address,
        octets,
        home: Vec::new(),
        reply: REPLY,
    }
}

/// What stands before and after the first `mark`.
fn halves(text: &[u8], mark: u8) -> Option<(&[u8], &[u8])> {
    let place = text.iter().position(|octet| *octet == mark)?;
    Some((&text[..place], &text[place + 1..]))
}

/// "Address, slash" and what follows.
fn address_and(value: &[u8]) -> Option<(u32, &[u8])> {
    let (address, rest) = halves(value, b'/')?;
    Some((quad(address)?, rest))
}

/// A decimal number without leading zeros that the type has room for.
fn number<T: TryFrom<u64>>(text: &[u8]) -> Option<T> {
    let leading_zero = text.len() > 1 && text[0] == b'0';
    // The library's own reading would take a sign.
    if leading_zero || !text.iter().all(u8::is_ascii_digit) {
        return None;
    }
    let value: u64 = std::str::from_utf8(text).ok()?.parse().ok()?;
    T::try_from(value).ok()
}

fn ticks(text: &[u8]) -> Option<u32> {
    number(text).filter(|count| (1..=MOST_TICKS).contains(count))
}

/// A dotted quad: four numbers up to 255.
fn quad(text: &[u8]) -> Option<u32> {
    let parts: Vec<&[u8]> = text.split(|octet| *octet == b'.').collect();
    let &[a, b, c, d] = parts.as_slice() else {
        return None;
    };
    Some(net::address(number(a)?, number(b)?, number(c)?, number(d)?))
}

/// Octets of two capital hex digits each, none to 2,049 of them.
fn octets(digits: &[u8]) -> Option<Vec<u8>> {
    let pairs = digits.chunks_exact(2);
    if !pairs.remainder().is_empty() || pairs.len() > MOST_OCTETS {
        return None;
    }
    pairs
        .map(|pair| Some(16 * digit(pair[0])? + digit(pair[1])?))
        .collect()
}

fn digit(octet: u8) -> Option<u8> {
    match octet {
        b'0'..=b'9' => Some(octet - b'0'),
        b'A'..=b'F' => Some(octet - b'A' + 10),
        _ => None,
    }
}

/// Octets as a recording has them.
pub fn hex(octets: &[u8]) -> String {
    octets.iter().map(|octet| format!("{octet:02X}")).collect()
}

/// The lines of these settings, without their ends: four, and a fifth where the setting is not the
/// default. None for another call.
pub fn head_lines(fresh: &Call) -> Option<Vec<String>> {
    let Call::Fresh {
        as_number,
        address,
        capability,
        net,
        quiet,
    } = fresh
    else {
        return None;
    };
    let mut lines = vec![
        format!("ownas={as_number}"),
        format!("own={}", dotted(*address)),
        format!("cap={capability}"),
        format!("net={}", dotted(*net)),
    ];
    if *quiet != 0 {
        lines.push(format!("quiet={quiet}"));
    }
    Some(lines)
}

/// The event line of a call made so many times, without its end; none for a call that no event
/// asks for.
pub fn event_line(call: &Call, times: u32) -> Option<String> {
    Some(match call {
        Call::Add { address, as_number } => format!("add={}/{as_number}", dotted(*address)),
        Call::Remove { address } => format!("remove={}", dotted(*address)),
        Call::Start { address, .. } => format!("start={}", dotted(*address)),
        Call::Stop { address, .. } => format!("stop={}", dotted(*address)),
        Call::Tick { address, .. } => format!("tick={}/{times}", dotted(*address)),
        Call::Message {
            address, octets, ..
        } => format!("rx={}/{}", dotted(*address), hex(octets)),
        _ => return None,
    })
}
