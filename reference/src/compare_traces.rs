//! Traces generated recordings with another implementation's program and with the reference, up to
//! the first octet in which what they write differs, and counts what the traces tell of.

use std::collections::BTreeSet;
use std::fmt;

use crate::call::CallKind;
use crate::compare_recordings::{self, Stop};
use crate::message::Kind;
use crate::recording;
use crate::trace::{self, kind_word, REFUSED};

/// The words for events, with the calls that they are.
const EVENTS: [(&str, CallKind); 6] = [
    ("add", CallKind::Add),
    ("remove", CallKind::Remove),
    ("start", CallKind::Start),
    ("stop", CallKind::Stop),
    ("tick", CallKind::Tick),
    ("rx", CallKind::Message),
];

/// Answers that no recording draws: all that is lent to its calls is good, and 22 takes 136 years of
/// ticks.
const OUT_OF_REACH: [u8; 5] = [1, 2, 3, 4, 22];

/// States before and after an event that must be met; add and remove that are refused for a neighbour
/// that is there seldom are. A tick never leads from Up to Cease: without a sign of life the neighbour
/// is Down long before t3 runs out.
const CHANGES: [(&str, &[(&str, &str)]); 6] = [
    ("add", &[("none", "idle"), ("none", "none")]),
    ("remove", &[("idle", "none"), ("none", "none")]),
    (
        "start",
        &[
            ("none", "none"),
            ("idle", "acquisition"),
            ("acquisition", "acquisition"),
            ("down", "acquisition"),
            ("up", "acquisition"),
            ("cease", "cease"),
        ],
    ),
    (
        "stop",
        &[
            ("none", "none"),
            ("idle", "idle"),
            ("acquisition", "idle"),
            ("down", "cease"),
            ("up", "cease"),
            ("cease", "idle"),
        ],
    ),
    (
        "tick",
        &[
            ("none", "none"),
            ("idle", "idle"),
            ("acquisition", "acquisition"),
            ("acquisition", "idle"),
            ("down", "down"),
            ("down", "up"),
            ("down", "cease"),
            ("up", "up"),
            ("up", "down"),
            ("cease", "cease"),
            ("cease", "idle"),
        ],
    ),
    (
        "rx",
        &[
            ("none", "none"),
            ("idle", "idle"),
            ("idle", "down"),
            ("acquisition", "acquisition"),
            ("acquisition", "idle"),
            ("acquisition", "down"),
            ("down", "down"),
            ("down", "idle"),
            ("down", "cease"),
            ("up", "up"),
            ("up", "idle"),
            ("up", "down"),
            ("up", "cease"),
            ("cease", "cease"),
            ("cease", "idle"),
        ],
    ),
];

/// A line of a trace.
#[derive(Clone, Default)]
struct Told<'a> {
    call: Fields<'a>,
    received: Option<Fields<'a>>,
    sent: Vec<Fields<'a>>,
}

/// Keys and values in their order; those of a message begin with its way and kind.
#[derive(Clone, Default)]
struct Fields<'a>(Vec<(&'a str, &'a str)>);

impl<'a> Fields<'a> {
    fn get(&self, key: &str) -> &'a str {
        let field = self.0.iter().find(|(name, _)| *name == key);
        field.map_or("", |(_, value)| value)
    }

    fn number(&self, key: &str) -> usize {
        self.get(key).parse().unwrap_or(0)
    }

    fn kind(&self) -> &'a str {
        self.0.first().map_or("", |(_, kind)| kind)
    }

    fn has_side(&self, side: &str) -> bool {
        self.0.contains(&("side", side))
    }
}

impl<'a> Told<'a> {
    /// None of a bad line or a line of the listing.
    fn read(line: &'a str) -> Option<Told<'a>> {
        if !line.starts_with("line=") {
            return None;
        }
        let mut told = Told::default();
        for field in line.split(' ').filter_map(|field| field.split_once('=')) {
            match field.0 {
                "received" => told.received = Some(Fields(vec![field])),
                "sent" => told.sent.push(Fields(vec![field])),
                _ => told.last_part().0.push(field),
            }
        }
        Some(told)
    }

    fn last_part(&mut self) -> &mut Fields<'a> {
        let message = self.sent.last_mut().or(self.received.as_mut());
        message.unwrap_or(&mut self.call)
    }

    fn event(&self) -> &'a str {
        self.call.get("event")
    }

    fn keeps(&self, before: &str, after: &str) -> bool {
        self.call.get(before) == self.call.get(after)
    }

    /// Whether it is a tick of the same line as the one told before.
    fn goes_on(&self, last: &Told) -> bool {
        self.event() == "tick" && self.call.get("line") == last.call.get("line")
    }

    /// Whether a message was received of which this holds.
    fn received_is(&self, test: impl Fn(&Fields) -> bool) -> bool {
        self.received.as_ref().is_some_and(test)
    }
}

/// A place is what one line of a trace shows, with the line told before it.
type Place = (&'static str, fn(&Told, &Told) -> bool);

/// Where a trace can be wrong while nearly every other line agrees.
const PLACES: [Place; 16] = [
    ("quiet ticks behind a told one of the line", |told, last| {
        told.goes_on(last) && told.call.number("quiet") > 0
    }),
    ("two ticks of the line with none between", |told, last| {
        told.goes_on(last) && told.call.number("quiet") == 0
    }),
    ("refused ticks passed over", |told, _| {
        told.call.get("answer") == "5" && told.call.number("quiet") > 0
    }),
    ("more than 65,535 ticks passed over", |told, _| {
        told.call.number("quiet") > 65_535
    }),
    ("tick that changes the register alone", |told, _| {
        let kept = told.keeps("before", "after") && told.sent.is_empty();
        told.event() == "tick" && kept && !told.keeps("registerbefore", "registerafter")
    }),
    ("neighbour removed for which seconds went by", |told, _| {
        told.event() == "remove" && told.call.get("answer") == "0" && told.call.number("second") > 0
    }),
    ("two messages sent by a tick", |told, _| {
        told.event() == "tick" && told.sent.len() == 2
    }),
    ("two messages sent to one received", |told, _| {
        told.event() == "rx" && told.sent.len() == 2
    }),
    ("message of no octets", |told, _| {
        told.received_is(|message| message.get("octets") == "0")
    }),
    ("message of 2,049 octets", |told, _| {
        told.received_is(|message| message.get("octets") == "2049")
    }),
    ("good message of 2,048 octets", |told, _| {
        told.received_is(|message| message.get("octets") == "2048" && message.get("reading") == "0")
    }),
    ("odd number of octets", |told, _| {
        told.received_is(|message| message.number("octets") % 2 == 1)
    }),
    ("good message of an unknown neighbour", |told, _| {
        told.call.get("answer") == "5" && told.received_is(|message| message.get("reading") == "0")
    }),
    ("good message of another AS", |told, _| {
        told.call.get("answer") == "9" && told.received_is(|message| message.get("reading") == "0")
    }),
    ("Update with rows of both sides", |told, _| {
        told.received_is(|message| message.has_side("int") && message.has_side("ext"))
    }),
    ("Update answered 0 that reading alone refuses", |told, _| {
        told.call.get("answer") == "0" && told.received_is(|message| message.get("reading") != "0")
    }),
];

/// How often each thing of one sort was met. Those that must be come first, from 0 on.
#[derive(Clone, Debug)]
struct Sort {
    name: String,
    counts: Vec<(String, usize)>,
}

impl Sort {
    fn wanted(name: &str, wanted: impl IntoIterator<Item = impl fmt::Display>) -> Sort {
        let wanted = wanted.into_iter();
        Sort {
            name: name.to_string(),
            counts: wanted.map(|what| (what.to_string(), 0)).collect(),
        }
    }

    fn note(&mut self, what: &str) {
        match self.counts.iter_mut().find(|(known, _)| known == what) {
            Some((_, count)) => *count += 1,
            None => self.counts.push((what.to_string(), 1)),
        }
    }
}

impl fmt::Display for Sort {
    fn fmt(&self, to: &mut fmt::Formatter) -> fmt::Result {
        let counts = self.counts.iter();
        let counts: Vec<String> = counts
            .map(|(what, count)| format!("{what} {count}"))
            .collect();
        write!(to, "{}: {}", self.name, counts.join(", "))
    }
}

/// What was compared, and what the traces told of.
#[derive(Clone, Debug)]
pub struct Tally {
    recordings: usize,
    lines: usize,
    told: usize,
    passed_over: usize,
    sorts: Vec<Sort>,
}

impl Default for Tally {
    /// Nothing yet of what a comparison must meet.
    fn default() -> Tally {
        let kinds = Kind::ALL.map(kind_word);
        let mut sorts = vec![
            Sort::wanted("events", EVENTS.map(|(event, _)| event)),
            Sort::wanted("received", kinds.into_iter().chain([REFUSED])),
            Sort::wanted("readings of these", in_reach(CallKind::Read)),
            Sort::wanted("sent", kinds),
        ];
        for (event, call) in EVENTS {
            sorts.push(Sort::wanted(&answers_of(event), in_reach(call)));
        }
        for (event, changes) in CHANGES {
            let changes = changes.iter().map(|(before, after)| change(before, after));
            sorts.push(Sort::wanted(&states_of(event), changes));
        }
        sorts.push(Sort::wanted("places", PLACES.map(|(place, _)| place)));
        Tally {
            recordings: 0,
            lines: 0,
            told: 0,
            passed_over: 0,
            sorts,
        }
    }
}

impl Tally {
    pub fn add(&mut self, recording: &[u8], trace: &[u8]) {
        self.recordings += 1;
        self.lines += recording::lines(recording).count();
        let text = String::from_utf8_lossy(trace);
        let mut last = Told::default();
        for told in text.lines().filter_map(Told::read) {
            self.add_line(&told, &last);
            last = told;
        }
    }

    fn add_line(&mut self, told: &Told, last: &Told) {
        let (event, call) = (told.event(), &told.call);
        self.told += 1;
        self.passed_over += call.number("quiet");
        self.note("events", event);
        self.note(&answers_of(event), call.get("answer"));
        let change = change(call.get("before"), call.get("after"));
        self.note(&states_of(event), &change);
        if let Some(message) = &told.received {
            self.note("received", message.kind());
            self.note("readings of these", message.get("reading"));
        }
        for message in &told.sent {
            self.note("sent", message.kind());
        }
        for (place, is_met) in PLACES {
            if is_met(told, last) {
                self.note("places", place);
            }
        }
    }

    fn note(&mut self, sort: &str, what: &str) {
        match self.sorts.iter_mut().find(|known| known.name == sort) {
            Some(sort) => sort.note(what),
            None => self.sorts.push(Sort {
                name: sort.to_string(),
                counts: vec![(what.to_string(), 1)],
            }),
        }
    }

    fn different_answers(&self) -> usize {
        let names = EVENTS.map(|(event, _)| answers_of(event));
        let sorts = self.sorts.iter().filter(|sort| names.contains(&sort.name));
        let answers = sorts.flat_map(|sort| sort.counts.iter());
        let met = answers.filter(|(_, count)| *count > 0);
        met.map(|(answer, _)| answer).collect::<BTreeSet<_>>().len()
    }

    /// The counts, a line for each sort.
    pub fn report(&self) -> String {
        let sorts = self.sorts.iter();
        sorts.map(|sort| format!("{sort}\n")).collect()
    }

    /// What must be met and was not, so that a comparison passes over nothing unseen.
    pub fn missed(&self) -> Vec<String> {
        let all = self.sorts.iter().flat_map(|sort| {
            let counts = sort.counts.iter();
            counts.map(|(what, count)| (&sort.name, what, *count))
        });
        all.filter(|(_, _, count)| *count == 0)
            .map(|(sort, what, _)| format!("{sort}: {what}"))
            .collect()
    }
}

/// The answers that a call of a recording can give.
fn in_reach(call: CallKind) -> impl Iterator<Item = u8> {
    let answers = call.answers().iter().copied();
    answers.filter(|answer| !OUT_OF_REACH.contains(answer))
}

fn answers_of(event: &str) -> String {
    format!("answers of {event}")
}

fn states_of(event: &str) -> String {
    format!("states before and after {event}")
}

fn change(before: &str, after: &str) -> String {
    format!("{before} to {after}")
}

impl fmt::Display for Tally {
    fn fmt(&self, to: &mut fmt::Formatter) -> fmt::Result {
        write!(
            to,
            "{} recordings of {} lines; {} trace lines, {} quiet ticks passed over, {} different answers",
            self.recordings,
            self.lines,
            self.told,
            self.passed_over,
            self.different_answers()
        )
    }
}

/// Traces so many recordings of a seed with the program and compares what it writes.
pub fn compare(program: &str, seed: u64, count: usize) -> Result<Tally, Stop> {
    let mut tally = Tally::default();
    compare_recordings::compare_outputs(program, seed, count, |recording| {
        let ours = trace::trace(recording);
        tally.add(recording, &ours);
        ours
    })?;
    Ok(tally)
}
