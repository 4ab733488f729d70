//! What a list of calls touched, and the laws that every call must keep.

use std::collections::BTreeMap;
use std::fmt::Write;

use crate::answer::Answer;
use crate::call::{Bench, Call, CallKind, Record};
use crate::gateway::{State, SLOTS, SLOT_NUMBERS};
use crate::generate::{faults, Generator, Origin, Step};
use crate::message::{self, Body, Intervals, Kind, Message};
use crate::neighbour::{self, Mode, Neighbour, NeighbourState};
use crate::places::{self, Place, Seen};
use crate::update::{Row, MOST_ROWS};

/// Every item is to be hit this often in [`FULL_COUNT`] calls.
const WANTED: usize = 100;
const FULL_COUNT: usize = 200_000;
/// A comparison is to reach every place this often, however many calls it makes.
pub const PLACES_WANTED: usize = 100;

/// The parts of the coverage table, in the order they are printed.
#[derive(Clone, Copy, Debug, PartialEq, Eq, PartialOrd, Ord)]
enum Section {
    Answers,
    Cells,
    Ticks,
    Replies,
    Refusals,
    Indications,
    Depth,
    Places,
    Aims,
}

impl Section {
    fn title(self) -> &'static str {
        match self {
            Section::Answers => "Answer numbers per call",
            Section::Cells => "Events carried out, per state",
            Section::Ticks => "Ticks",
            Section::Replies => "Replies",
            Section::Refusals => "Refused messages",
            Section::Indications => "Indications noted",
            Section::Depth => "Depth",
            Section::Places => "Places",
            Section::Aims => "What calls were made for",
        }
    }
}

#[derive(Clone, Copy, Default)]
struct Count {
    total: usize,
    /// Of these, on a state that the calls since fresh reached.
    reached: usize,
}

/// Counts and law breaches over a list of calls.
pub struct Survey {
    calls: usize,
    items: BTreeMap<(Section, String), Count>,
    places: Vec<Place>,
    breaches: Vec<String>,
}

/// State and table on one side of a call.
pub struct Moment<'a> {
    pub state: &'a State,
    pub table: &'a [u32],
}

impl Moment<'_> {
    pub fn of(bench: &Bench) -> Moment<'_> {
        Moment {
            state: &bench.state,
            table: &bench.table,
        }
    }

    fn area(&self, slot: usize) -> &[u32] {
        let from = (slot * SLOT_NUMBERS).min(self.table.len());
        let to = (from + SLOT_NUMBERS).min(self.table.len());
        &self.table[from..to]
    }
}

/// Runs the list of this seed until `count` calls of the gateway are made.
pub fn survey(seed: u64, count: usize) -> Survey {
    let mut survey = Survey::new();
    let mut bench = Bench::default();
    for step in Generator::new(seed) {
        if survey.calls == count {
            break;
        }
        let before = bench.clone();
        let record = bench.run(&step.call);
        survey.observe(&step, &Moment::of(&before), &Moment::of(&bench), &record);
    }
    survey
}

/// The places that the first `count` steps of the lists of these seeds reach.
pub fn survey_places(seeds: &[u64], count: usize) -> Survey {
    let mut survey = Survey::of_places();
    for &seed in seeds {
        let mut bench = Bench::default();
        for step in Generator::new(seed).take(count) {
            let before = bench.clone();
            let record = bench.run(&step.call);
            survey.observe_places(&Seen {
                step: &step,
                before: &Moment::of(&before),
                record: &record,
            });
        }
    }
    survey
}

impl Survey {
    pub(crate) fn new() -> Survey {
        let mut survey = Survey::of_places();
        for (section, label) in expected() {
            survey.items.insert((section, label), Count::default());
        }
        survey
    }

    /// One that counts places only.
    pub fn of_places() -> Survey {
        let places = places::all();
        let label = |place: &Place| (Section::Places, place.name.clone());
        Survey {
            calls: 0,
            items: places
                .iter()
                .map(|place| (label(place), Count::default()))
                .collect(),
            places,
            breaches: Vec::new(),
        }
    }

    /// What no call may do, as far as it was found.
    pub fn breaches(&self) -> &[String] {
        &self.breaches
    }

    /// How often each item was hit that a full list is to touch.
    pub(crate) fn counts(&self) -> Vec<usize> {
        self.items.values().map(|count| count.total).collect()
    }

    /// The items that were hit fewer times than this.
    pub(crate) fn below(&self, wanted: usize) -> Vec<String> {
        self.items
            .iter()
            .filter(|(_, count)| count.total < wanted)
            .map(|((section, label), count)| {
                format!("{}: {label}: {}", section.title(), count.total)
            })
            .collect()
    }

    /// Whether every item was hit often enough for the calls made.
    pub fn is_complete(&self) -> bool {
        self.items
            .values()
            .all(|count| count.total >= self.wanted())
    }

    fn wanted(&self) -> usize {
        (self.calls * WANTED / FULL_COUNT).max(1)
    }

    /// The coverage table as text.
    pub fn report(&self) -> String {
        let mut text = String::new();
        let wanted = self.wanted();
        let mut section = None;
        let _ = writeln!(
            text,
            "{} calls; every item is wanted at least {wanted} times",
            self.calls
        );
        for ((in_section, label), count) in &self.items {
            if section != Some(*in_section) {
                section = Some(*in_section);
                let title = in_section.title();
                let _ = writeln!(text, "\n{title:<52} {:>8} {:>8}", "hits", "reached");
            }
            let mark = if count.total >= wanted { "yes" } else { "LOW" };
            let _ = writeln!(
                text,
                "  {label:<50} {:>8} {:>8}  {mark}",
                count.total, count.reached
            );
        }
        let low = self
            .items
            .values()
            .filter(|count| count.total < wanted)
            .count();
        let _ = writeln!(
            text,
            "\n{} items, {low} of them below {wanted}; {} breaches of law",
            self.items.len(),
            self.breaches.len()
        );
        for breach in self.breaches.iter().take(20) {
            let _ = writeln!(text, "breach: {breach}");
        }
        text
    }

    /// How often each place was reached, a line each.
    pub fn places_report(&self) -> String {
        let mut text = String::new();
        for place in &self.places {
            let _ = writeln!(text, "  {:<50} {:>8}", place.name, self.hits_of(place));
        }
        text
    }

    /// The places that were not reached often enough.
    pub fn missed_places(&self) -> Vec<&str> {
        self.places
            .iter()
            .filter(|place| self.hits_of(place) < PLACES_WANTED)
            .map(|place| place.name.as_str())
            .collect()
    }

    fn hits_of(&self, place: &Place) -> usize {
        let key = (Section::Places, place.name.clone());
        self.items.get(&key).map_or(0, |count| count.total)
    }

    /// Counts the places that this call reaches.
    pub fn observe_places(&mut self, seen: &Seen) {
        let reached: Vec<String> = self
            .places
            .iter()
            .filter(|place| place.holds(seen))
            .map(|place| place.name.clone())
            .collect();
        for name in reached {
            self.hit(Section::Places, name, seen.step.origin);
        }
    }

    fn hit(&mut self, section: Section, label: impl Into<String>, origin: Origin) {
        let count = self.items.entry((section, label.into())).or_default();
        count.total += 1;
        if origin == Origin::Reached {
            count.reached += 1;
        }
    }

    /// Counts what a step was made for.
    pub(crate) fn observe_aim(&mut self, step: &Step) {
        self.hit(Section::Aims, step.aim, step.origin);
    }

    pub(crate) fn observe(
        &mut self,
        step: &Step,
        before: &Moment,
        after: &Moment,
        record: &Record,
    ) {
        self.observe_aim(step);
        let Some(kind) = step.call.kind() else {
            return;
        };
        self.calls += 1;
        for breach in breaches(kind, &step.call, before, after, record) {
            self.breaches.push(format!("call {}: {breach}", self.calls));
        }
        self.observe_places(&Seen {
            step,
            before,
            record,
        });
        let origin = step.origin;
        let number = record.answer.number();
        self.hit(Section::Answers, format!("{kind:?} {number}"), origin);
        match &step.call {
            Call::Message { octets, home, .. } => {
                self.observe_message(octets, home, before, after, record, step);
            }
            Call::Start { .. } | Call::Stop { .. } | Call::Tick { .. } => {
                self.observe_event(kind, before, after, record, step);
            }
            Call::Listing { .. } => self.observe_listing(before, record, origin),
            Call::Add { .. } => self.observe_add(before, after, record, origin),
            Call::Read { .. } => {
                if let Some(message) = &record.reading {
                    let label = format!("read alone: {:?}", message.kind());
                    self.hit(Section::Depth, label, origin);
                }
            }
            Call::Write { message, .. } if record.answer == Answer::Done => {
                let label = format!("write alone: {:?}", message.kind());
                self.hit(Section::Depth, label, origin);
            }
            _ => {}
        }
    }

    fn observe_message(
        &mut self,
        octets: &[u8],
        home: &[u32],
        before: &Moment,
        after: &Moment,
        record: &Record,
        step: &Step,
    ) {
        let origin = step.origin;
        let slot = step
            .call
            .event_address()
            .and_then(|address| before.state.find(address));
        let Some(slot) = slot else {
            return;
        };
        let was = before.state.neighbours[slot];
        let is = after.state.neighbours[slot];
        let number = record.answer.number();
        if (9..=15).contains(&number) || record.answer == Answer::TooQuick {
            self.observe_refusal(octets, &was, record, origin);
        }
        self.observe_replies(record, origin);
        if record.answer != Answer::Done {
            return;
        }
        let Some(kind) = Kind::from_type_and_code((octets[1], octets[2])) else {
            return;
        };
        let event = event_label(kind, octets, before.state, &was);
        self.hit(Section::Cells, cell(event, was.state), origin);
        if was.state.is_acquired() && was.heard == 0 && is.heard == 1 {
            let label = indication(was.mode, kind, was.state);
            self.hit(Section::Indications, label, origin);
        }
        let r_turns = was.receive_sequence == u16::MAX && is.receive_sequence == 0;
        if r_turns && is.state != NeighbourState::Idle {
            self.hit(Section::Depth, "R from 65,535 to 0", origin);
        }
        match kind {
            Kind::Update if was.state == NeighbourState::Up => {
                self.observe_update(after, slot, &was, &is, origin);
            }
            Kind::Poll if event == "Poll" && was.state == NeighbourState::Up => match home.len() {
                0 => self.hit(Section::Depth, "Poll answered without rows", origin),
                384 => self.hit(Section::Depth, "Poll answered with 128 rows", origin),
                _ => {}
            },
            _ => {}
        }
    }

    fn observe_update(
        &mut self,
        after: &Moment,
        slot: usize,
        was: &Neighbour,
        is: &Neighbour,
        origin: Origin,
    ) {
        let rows = usize::from(is.row_count);
        if rows == 0 {
            self.hit(Section::Depth, "Update of no rows accepted", origin);
        }
        if rows == MOST_ROWS {
            self.hit(Section::Depth, "Update of 128 rows accepted", origin);
        }
        if is.row_count < was.row_count {
            self.hit(Section::Depth, "rows replaced by fewer", origin);
        }
        let external = after
            .area(slot)
            .chunks(3)
            .take(rows)
            .any(|numbers| Row::from_numbers(numbers).is_external());
        if external {
            let label = "Update with external rows accepted";
            self.hit(Section::Depth, label, origin);
        }
    }

    fn observe_refusal(&mut self, octets: &[u8], was: &Neighbour, record: &Record, origin: Origin) {
        let number = record.answer.number();
        let replied = if record.lengths.0 > 0 {
            "reply"
        } else {
            "silent"
        };
        let state = was.state;
        let label = format!("{number} in {state:?}, {replied}");
        self.hit(Section::Refusals, label, origin);
        if octets[1] == message::ERROR_TYPE
            && was.state.is_acquired()
            && (10..=12).contains(&number)
        {
            self.hit(
                Section::Refusals,
                format!("{number} of type 8 in {state:?}, {replied}"),
                origin,
            );
        }
        let Some(kind) = Kind::from_type_and_code((octets[1], octets[2])) else {
            return;
        };
        match record.answer {
            Answer::BadStatus | Answer::WrongLength => {
                self.hit(Section::Refusals, format!("{number} of {kind:?}"), origin);
            }
            Answer::OutOfSequence | Answer::TooQuick => {
                let label = format!("{number} of {kind:?} in {state:?}");
                self.hit(Section::Refusals, label, origin);
            }
            _ => {}
        }
    }

    fn observe_event(
        &mut self,
        kind: CallKind,
        before: &Moment,
        after: &Moment,
        record: &Record,
        step: &Step,
    ) {
        if record.answer != Answer::Done {
            return;
        }
        let slot = step
            .call
            .event_address()
            .and_then(|address| before.state.find(address));
        let Some(slot) = slot else {
            return;
        };
        let origin = step.origin;
        let was = before.state.neighbours[slot];
        let is = after.state.neighbours[slot];
        let event = match kind {
            CallKind::Start => "Start",
            CallKind::Stop => "Stop",
            _ => "Tick",
        };
        self.hit(Section::Cells, cell(event, was.state), origin);
        self.observe_replies(record, origin);
        if was.send_sequence == u16::MAX && is.send_sequence == 0 && is.state == NeighbourState::Up
        {
            self.hit(Section::Depth, "S from 65,535 to 0", origin);
        }
        if kind != CallKind::Tick || was.state == NeighbourState::Idle {
            return;
        }
        if was.t3 == 1 {
            let label = format!("t3 runs out in {:?}", was.state);
            self.hit(Section::Ticks, label, origin);
            if was.t1 == 1 {
                self.hit(Section::Ticks, "t3 and t1 run out at once", origin);
            }
            return;
        }
        if was.t1 == 1 && was.state.is_acquired() {
            let label = format!("t1: {:?}, {:?} to {:?}", was.mode, was.state, is.state);
            self.hit(Section::Ticks, label, origin);
        } else if was.t1 == 1 {
            let label = format!("t1 runs out in {:?}", was.state);
            self.hit(Section::Ticks, label, origin);
        }
        if was.state == NeighbourState::Up && was.t2 == 1 {
            let label = match (was.t1, is.state) {
                (1, NeighbourState::Up) => "t1 and t2 run out at once, stays Up",
                (1, _) => "t1 and t2 run out at once, goes Down",
                _ => "t2 runs out",
            };
            self.hit(Section::Ticks, label, origin);
        }
    }

    fn observe_replies(&mut self, record: &Record, origin: Origin) {
        let names: Vec<String> = record
            .written()
            .into_iter()
            .filter(|octets| !octets.is_empty())
            .map(reply_label)
            .collect();
        for name in &names {
            self.hit(Section::Replies, name.clone(), origin);
        }
        if let [first, second] = names.as_slice() {
            let label = format!("{first}, then {second}");
            self.hit(Section::Replies, label, origin);
        }
    }

    fn observe_listing(&mut self, before: &Moment, record: &Record, origin: Origin) {
        if record.answer != Answer::Done {
            return;
        }
        let neighbours = &before.state.neighbours;
        if neighbours
            .iter()
            .all(|neighbour| usize::from(neighbour.row_count) == MOST_ROWS)
        {
            let label = "listing of 8 neighbours with 128 rows";
            self.hit(Section::Depth, label, origin);
        }
        let [text, _] = record.written();
        let has = |word: &[u8]| text.windows(word.len()).any(|part| part == word);
        if has(b"side=ext\n") {
            self.hit(Section::Depth, "listing with external rows", origin);
        }
        for neighbour in neighbours.iter().filter(|neighbour| neighbour.is_used()) {
            let label = format!("listing of a neighbour in {:?}", neighbour.state);
            self.hit(Section::Depth, label, origin);
        }
    }

    fn observe_add(&mut self, before: &Moment, after: &Moment, record: &Record, origin: Origin) {
        if record.answer != Answer::Done {
            return;
        }
        let taken = (0..SLOTS).find(|&slot| {
            !before.state.neighbours[slot].is_used() && after.state.neighbours[slot].is_used()
        });
        let hole = taken.is_some_and(|slot| {
            before.state.neighbours[slot..]
                .iter()
                .any(|neighbour| neighbour.is_used())
        });
        if hole {
            self.hit(Section::Depth, "add into a hole", origin);
        }
    }
}

/// Everything a full list is to touch.
fn expected() -> Vec<(Section, String)> {
    use NeighbourState::{Acquisition, Cease, Down, Idle, Up};
    let mut items: Vec<(Section, String)> = Vec::new();
    let mut want = |section: Section, label: String| items.push((section, label));
    for kind in CallKind::ALL {
        for answer in kind.answers() {
            want(Section::Answers, format!("{kind:?} {answer}"));
        }
    }
    for event in EVENTS {
        for state in NeighbourState::ALL {
            want(Section::Cells, cell(event, state));
        }
    }
    for state in [Acquisition, Down, Up, Cease] {
        want(Section::Ticks, format!("t3 runs out in {state:?}"));
    }
    for state in [Acquisition, Cease] {
        want(Section::Ticks, format!("t1 runs out in {state:?}"));
    }
    for mode in [Mode::Active, Mode::Passive] {
        for (from, to) in [(Down, Down), (Down, Up), (Up, Up), (Up, Down)] {
            want(Section::Ticks, format!("t1: {mode:?}, {from:?} to {to:?}"));
        }
    }
    for label in [
        "t3 and t1 run out at once",
        "t2 runs out",
        "t1 and t2 run out at once, stays Up",
        "t1 and t2 run out at once, goes Down",
    ] {
        want(Section::Ticks, label.into());
    }
    for label in [
        "Request",
        "Confirm",
        "Refuse 4",
        "Refuse 6",
        "Cease 5",
        "Cease 6",
        "Cease 7",
        "Cease-ack",
        "Hello 1",
        "Hello 2",
        "I-H-U 1",
        "I-H-U 2",
        "Poll",
        "Update",
        "Error 0",
        "Error 1",
        "Error 2",
        "Error 3",
        "Error 4",
        "Confirm, then Hello 2",
        "Hello 1, then Poll",
    ] {
        want(Section::Replies, label.into());
    }
    for number in 9..=12 {
        for state in NeighbourState::ALL {
            let named = match number {
                9 => state == Idle,
                _ => state.is_acquired(),
            };
            if named {
                want(Section::Refusals, format!("{number} in {state:?}, reply"));
            }
            if number == 9 || !named {
                want(Section::Refusals, format!("{number} in {state:?}, silent"));
            }
        }
    }
    for state in [Down, Up] {
        for number in 10..=12 {
            want(
                Section::Refusals,
                format!("{number} of type 8 in {state:?}, silent"),
            );
        }
    }
    for state in [Acquisition, Down, Up, Cease] {
        want(Section::Refusals, format!("13 in {state:?}, silent"));
        for kind in Kind::ALL.into_iter().filter(|kind| kind.must_carry_s()) {
            want(Section::Refusals, format!("13 of {kind:?} in {state:?}"));
        }
    }
    for number in [14, 15] {
        want(Section::Refusals, format!("{number} in Up, reply"));
    }
    for state in [Down, Up] {
        want(Section::Refusals, format!("21 in {state:?}, reply"));
        for kind in [Kind::Hello, Kind::Poll] {
            want(Section::Refusals, format!("21 of {kind:?} in {state:?}"));
        }
    }
    for kind in Kind::ALL {
        want(Section::Refusals, format!("11 of {kind:?}"));
        want(Section::Refusals, format!("12 of {kind:?}"));
        want(Section::Depth, format!("read alone: {kind:?}"));
        want(Section::Depth, format!("write alone: {kind:?}"));
    }
    for state in [Down, Up] {
        for kind in [Kind::Confirm, Kind::IHeardYou, Kind::Update] {
            want(Section::Indications, indication(Mode::Active, kind, state));
        }
        for kind in [Kind::Hello, Kind::Poll, Kind::Update] {
            want(Section::Indications, indication(Mode::Passive, kind, state));
        }
    }
    for label in [
        "S from 65,535 to 0",
        "R from 65,535 to 0",
        "Update of no rows accepted",
        "Update of 128 rows accepted",
        "Update with external rows accepted",
        "rows replaced by fewer",
        "Poll answered without rows",
        "Poll answered with 128 rows",
        "listing of 8 neighbours with 128 rows",
        "listing with external rows",
        "add into a hole",
    ] {
        want(Section::Depth, label.into());
    }
    for state in NeighbourState::ALL {
        want(
            Section::Depth,
            format!("listing of a neighbour in {state:?}"),
        );
    }
    let aims = faults::STATE_FAULTS
        .into_iter()
        .chain(faults::HOME_FAULTS)
        .chain(faults::MEANING_FAULTS.map(|(_, fault)| fault))
        .chain(faults::MESSAGE_FAULTS.map(|(_, fault)| fault));
    for aim in aims {
        want(Section::Aims, aim.into());
    }
    items
}

const EVENTS: [&str; 16] = [
    "Request, acceptable",
    "Request, unacceptable",
    "Confirm, acceptable",
    "Confirm, unacceptable",
    "Refuse",
    "Cease",
    "Cease-ack",
    "Hello",
    "I-H-U",
    "Poll",
    "Poll, other net",
    "Update",
    "Error",
    "Start",
    "Stop",
    "Tick",
];

fn cell(event: &str, state: NeighbourState) -> String {
    format!("{event} in {state:?}")
}

fn indication(mode: Mode, kind: Kind, state: NeighbourState) -> String {
    format!("{mode:?}, {kind:?} in {state:?}")
}

/// The row of the machine's table a good message belongs to.
pub(crate) fn event_label(
    kind: Kind,
    octets: &[u8],
    state: &State,
    was: &Neighbour,
) -> &'static str {
    let number16 = |at: usize| u16::from_be_bytes([octets[at], octets[at + 1]]);
    let acceptable = || {
        let intervals = Intervals {
            hello: number16(10),
            poll: number16(12),
        };
        neighbour::terms(
            state.as_number,
            state.capability,
            was.as_number,
            octets[3],
            intervals,
        )
        .is_some()
    };
    match kind {
        Kind::Request if acceptable() => "Request, acceptable",
        Kind::Request => "Request, unacceptable",
        Kind::Confirm if acceptable() => "Confirm, acceptable",
        Kind::Confirm => "Confirm, unacceptable",
        Kind::Refuse => "Refuse",
        Kind::Cease => "Cease",
        Kind::CeaseAck => "Cease-ack",
        Kind::Hello => "Hello",
        Kind::IHeardYou => "I-H-U",
        Kind::Poll if octets[12..16] == state.net.to_be_bytes() => "Poll",
        Kind::Poll => "Poll, other net",
        Kind::Update => "Update",
        Kind::Error => "Error",
    }
}

/// What a reply is, by its octets.
fn reply_label(octets: &[u8]) -> String {
    let status = octets[3];
    match Kind::from_type_and_code((octets[1], octets[2])) {
        Some(Kind::Request) => "Request".into(),
        Some(Kind::Confirm) => "Confirm".into(),
        Some(Kind::Refuse) => format!("Refuse {status}"),
        Some(Kind::Cease) => format!("Cease {status}"),
        Some(Kind::CeaseAck) => "Cease-ack".into(),
        Some(Kind::Hello) => format!("Hello {status}"),
        Some(Kind::IHeardYou) => format!("I-H-U {status}"),
        Some(Kind::Poll) => "Poll".into(),
        Some(Kind::Update) => "Update".into(),
        Some(Kind::Error) => format!("Error {}", octets[11]),
        None => "unknown".into(),
    }
}

/// The laws of 01 that hold of every call whatever it is about.
fn breaches(
    kind: CallKind,
    call: &Call,
    before: &Moment,
    after: &Moment,
    record: &Record,
) -> Vec<String> {
    let mut found = Vec::new();
    let mut law = |holds: bool, text: &str| {
        if !holds {
            found.push(format!("{kind:?} {}: {text}", record.answer.number()));
        }
    };
    law(
        kind.answers().contains(&record.answer.number()),
        "the call cannot give this answer",
    );
    if record.answer.is_refusal() {
        let kept = before.state == after.state || kind == CallKind::Fresh;
        law(kept, "a refusal returns the state as given");
        law(before.table == after.table, "a refusal keeps the table");
    }
    if record.answer == Answer::Done && kind != CallKind::Read && kind != CallKind::Write {
        law(
            after.state.is_well_formed(),
            "every call keeps a state well formed",
        );
    }
    if let Some(buffer) = call.buffer() {
        let (first, second) = record.lengths;
        law(
            record.buffer[first + second..]
                .iter()
                .all(|octet| *octet == buffer.fill),
            "nothing is written past the lengths",
        );
        law(
            first > 0 || second == 0,
            "there is no second without a first",
        );
    }
    match call {
        Call::Start { .. } | Call::Stop { .. } | Call::Tick { .. } | Call::Message { .. } => {
            let slot = call
                .event_address()
                .and_then(|address| before.state.find(address));
            event_laws(slot, before, after, record, &mut law);
            if let Some(slot) = slot {
                let was = before.state.neighbours[slot];
                let mut seconds = was.seconds;
                if kind == CallKind::Tick && record.answer == Answer::Done {
                    *seconds.of_mut(was.state) += 1;
                }
                law(
                    after.state.neighbours[slot].seconds == seconds,
                    "a tick carried out, and nothing else, is a second of the state before it",
                );
            }
        }
        Call::Listing { .. } | Call::Read { .. } | Call::Write { .. } => {
            law(
                before.state == after.state && before.table == after.table,
                "state and table stay",
            );
        }
        _ => law(before.table == after.table, "no table is lent"),
    }
    if let Some(message) = &record.reading {
        law(
            reads_back(message),
            "what was read is written and read back",
        );
    }
    if let (Call::Write { message, .. }, Answer::Done) = (call, record.answer) {
        let net = match &message.body {
            Body::Update { net, .. } => *net,
            _ => 0,
        };
        let [octets, _] = record.written();
        law(
            message::read(octets, net).as_ref() == Ok(message),
            "what was written reads back",
        );
    }
    found
}

fn event_laws(
    slot: Option<usize>,
    before: &Moment,
    after: &Moment,
    record: &Record,
    law: &mut impl FnMut(bool, &str),
) {
    for other in (0..SLOTS).filter(|&other| Some(other) != slot) {
        law(
            before.state.neighbours[other] == after.state.neighbours[other]
                && before.area(other) == after.area(other),
            "a call about one neighbour alters no other",
        );
    }
    let Some(slot) = slot else {
        return;
    };
    let was = before.state.neighbours[slot];
    let is = after.state.neighbours[slot];
    let left_up = was.state == NeighbourState::Up && is.state != NeighbourState::Up;
    if left_up {
        law(
            after.area(slot).iter().all(|number| *number == 0),
            "leaving Up zeroes the rows",
        );
    } else if was.state != NeighbourState::Up {
        law(
            before.area(slot) == after.area(slot),
            "rows change in Up only",
        );
    }
    for octets in record.written() {
        if octets.is_empty() {
            continue;
        }
        match message::read(octets, before.state.net) {
            Ok(sent) => {
                law(
                    sent.as_number == before.state.as_number,
                    "all messages carry our AS",
                );
                law(sent.status < 128, "nothing we send is unsolicited");
                let command = sent.kind().is_command();
                law(
                    !command || sent_number(&sent, &was, &is),
                    "commands carry S",
                );
            }
            Err(_) => law(false, "what we send can be read"),
        }
    }
}

/// A Poll carries the new S, other commands the one before a Poll raised it.
fn sent_number(sent: &Message, was: &Neighbour, is: &Neighbour) -> bool {
    match sent.kind() {
        Kind::Poll => {
            sent.sequence == is.send_sequence && sent.sequence == was.send_sequence.wrapping_add(1)
        }
        _ => sent.sequence == was.send_sequence,
    }
}

/// Whether a meaning that was read can be written and read again.
fn reads_back(meaning: &Message) -> bool {
    let net = match &meaning.body {
        Body::Update { net, .. } => *net,
        _ => 0,
    };
    message::can_write(meaning)
        && message::read(&message::encode(meaning), net).as_ref() == Ok(meaning)
}
