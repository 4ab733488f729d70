//! Places that a comparison through the archive must reach: each is a call of a host, with what it
//! returned, where a layer on octets can be wrong while nearly every other call agrees.
//!
//! The calls of the lists reach the places of [`crate::places`] and all that [`crate::coverage`]
//! counts besides: these are counted here too.

use std::collections::BTreeMap;
use std::fmt::Write;

use crate::call::CallKind;
use crate::coverage::{Moment, Survey};
use crate::gateway::{State, SLOTS};
use crate::generate::faults::STATE_FAULTS;
use crate::generate::hosts::{
    unused_octets, Case, BEYOND_8_BITS, BLOCK_LENGTHS, EARLIER_BLOCKS, MEANING_LENGTHS, MODE_OCTET,
    QUIET_OCTET, ROW_LENGTHS, SECONDS_OCTETS, SETTINGS, SINCE_HELLO_OCTET, SINCE_POLL_OCTET, SLOT,
    STATE_OCTET, TABLE_LENGTHS,
};
use crate::host::{self, are_whole_rows, takes, HostCall, Part, ROW, TABLE};
use crate::neighbour::{NeighbourState, Seconds};
use crate::record::{MEANING, STATE_BLOCK};
use crate::update::MOST_ROWS;

/// Every place is to be reached this often in a million calls.
const WANTED: usize = 100;

/// What places have in common, in the order they are printed.
#[derive(Clone, Copy, Debug, PartialEq, Eq, PartialOrd, Ord)]
enum Group {
    Answers,
    Order,
    BlockLengths,
    Codes,
    Clauses,
    Garbage,
    Fresh,
    TableLengths,
    BufferLengths,
    HomeLengths,
    MessageLengths,
    Meanings,
    Unused,
    Rows,
    Slots,
    Seconds,
}

impl Group {
    fn title(self) -> &'static str {
        match self {
            Group::Answers => "each answer of each call",
            Group::Order => "two checks that fail at once",
            Group::BlockLengths => "a block of another length",
            Group::Codes => "a number that no state, mode, count of ticks or quiet has",
            Group::Clauses => "one rule of well-formedness broken",
            Group::Garbage => "blocks of any octets, or with one octet changed",
            Group::Fresh => "fresh over a block of any octets",
            Group::TableLengths => "a table of another length",
            Group::BufferLengths => "a buffer as short as may be, one octet less and more",
            Group::HomeLengths => "a home list of good rows, by its octets",
            Group::MessageLengths => "a message of more than 65,535 octets",
            Group::Meanings => "a meaning of another length or an unknown kind",
            Group::Unused => "a meaning, one octet set that its kind leaves 0",
            Group::Rows => "rows to be written, by their octets and beside which kind",
            Group::Slots => "what each slot's octets of block and table are used for",
            Group::Seconds => "each slot's seconds: counted, full, too many, of nobody",
        }
    }
}

/// What was reached, over all calls seen.
pub struct HostSurvey {
    calls: usize,
    places: BTreeMap<(Group, String), usize>,
    /// What the calls of the lists touched.
    listed: Survey,
}

impl Default for HostSurvey {
    fn default() -> HostSurvey {
        HostSurvey {
            calls: 0,
            places: expected().into_iter().map(|place| (place, 0)).collect(),
            listed: Survey::new(),
        }
    }
}

impl HostSurvey {
    pub fn observe(&mut self, case: &Case) {
        self.calls += 1;
        for place in reached(case) {
            if let Some(count) = self.places.get_mut(&place) {
                *count += 1;
            }
        }
        if let Some(listed) = &case.listed {
            for step in &listed.handed {
                self.listed.observe_aim(step);
            }
            self.listed.observe(
                &listed.step,
                &Moment::of(&listed.before),
                &Moment::of(&listed.after),
                &listed.record,
            );
        }
    }

    /// How often each place is wanted for the calls seen.
    pub fn wanted(&self) -> usize {
        self.calls * WANTED / 1_000_000
    }

    /// The places that were not reached often enough.
    pub fn missed(&self) -> Vec<String> {
        self.reached_below(self.wanted())
    }

    /// The places that were reached fewer times than this.
    pub fn reached_below(&self, wanted: usize) -> Vec<String> {
        let missed = self.places.iter().filter(|(_, count)| **count < wanted);
        missed
            .map(|((group, label), count)| format!("{}: {label}: {count}", group.title()))
            .chain(self.listed.below(wanted))
            .collect()
    }

    /// The laws of [`crate::coverage`] that calls of the lists broke.
    pub fn breaches(&self) -> &[String] {
        self.listed.breaches()
    }

    /// A line for each group: how many places, and how often the least and most reached.
    pub fn report(&self) -> String {
        let mut groups: BTreeMap<Group, Vec<usize>> = BTreeMap::new();
        for ((group, _), count) in &self.places {
            groups.entry(*group).or_default().push(*count);
        }
        let mut text = String::new();
        let lines = groups
            .iter()
            .map(|(group, counts)| (group.title(), counts.clone()));
        let listed = ("what the lists touch", self.listed.counts());
        for (title, counts) in lines.chain([listed]) {
            let least = counts.iter().min().unwrap_or(&0);
            let most = counts.iter().max().unwrap_or(&0);
            let _ = writeln!(
                text,
                "  {title:<60} {:>4} places, each {least:>6} to {most:>7} times",
                counts.len()
            );
        }
        text
    }

    /// A line for each place.
    pub fn details(&self) -> String {
        let mut text = String::new();
        for ((group, label), count) in &self.places {
            let _ = writeln!(text, "  {}: {label}: {count}", group.title());
        }
        text
    }
}

type Found = Vec<(Group, String)>;

/// All places.
fn expected() -> Found {
    let mut found = Found::new();
    for kind in CallKind::ALL {
        for number in answers(kind) {
            found.push((Group::Answers, answer_label(kind, number)));
        }
        for &(first, second) in pairs(kind) {
            found.push((Group::Order, order_label(kind, first, second)));
        }
        let near = [STATE_BLOCK - 1, STATE_BLOCK + 1];
        let shorter = [0, 1, STATE_BLOCK - BEYOND_8_BITS];
        for length in shorter.iter().chain(&EARLIER_BLOCKS).chain(&near) {
            if takes(kind, Part::Block) {
                found.push((Group::BlockLengths, length_label(kind, *length)));
            }
        }
        for length in TABLE_LENGTHS.iter().filter(|_| takes(kind, Part::Table)) {
            found.push((Group::TableLengths, length_label(kind, *length)));
        }
        let least = host::least_buffer(kind);
        for length in (least - 1..=least + 1).filter(|_| takes(kind, Part::Buffer)) {
            found.push((Group::BufferLengths, length_label(kind, length)));
        }
    }
    for length in BLOCK_LENGTHS {
        found.push((Group::BlockLengths, any_call_label(length)));
    }
    for slot in 0..SLOTS {
        for (name, _, code) in NUMBERS {
            if code != 255 {
                found.push((Group::Codes, code_label(&format!("{name} {code}"), slot)));
            }
        }
        for use_of_slot in USES {
            found.push((Group::Slots, format!("slot {slot}: {use_of_slot}")));
        }
        for state in NeighbourState::ALL {
            found.push((Group::Seconds, counted_label(slot, state)));
        }
        for what in [REFUSED, TOO_MANY] {
            found.push((Group::Seconds, format!("slot {slot}: {what}")));
        }
    }
    for octet in SECONDS_OCTETS {
        found.push((Group::Seconds, nobody_label(octet)));
    }
    for (name, _, code) in NUMBERS {
        let label = format!("{name} {code}");
        found.push((
            Group::Codes,
            match code {
                255 => label,
                _ => format!("{label} in a free slot"),
            },
        ));
    }
    for quiet in QUIETS {
        found.push((Group::Codes, quiet_label(quiet)));
    }
    for clause in STATE_FAULTS {
        found.push((Group::Clauses, clause.into()));
    }
    for label in GARBAGE {
        found.push((Group::Garbage, label.into()));
    }
    for label in ["one octet changed, refused", "one octet changed, taken"] {
        found.push((Group::Garbage, label.into()));
    }
    for label in FRESH {
        found.push((Group::Fresh, label.into()));
    }
    found.push((Group::Fresh, "good settings".into()));
    for length in ROW_LENGTHS {
        found.push((Group::HomeLengths, octets_label(length)));
        found.push((Group::Rows, octets_label(length)));
    }
    for kind in [CallKind::Message, CallKind::Read] {
        found.push((Group::MessageLengths, format!("{kind:?}")));
    }
    for length in MEANING_LENGTHS {
        found.push((Group::Meanings, octets_label(length)));
    }
    for kind in [10, 255] {
        found.push((Group::Meanings, format!("kind {kind}")));
    }
    for kind in 0..10 {
        for at in unused_octets(kind) {
            found.push((Group::Unused, unused_label(kind, at)));
        }
        if kind != UPDATE {
            found.push((Group::Rows, format!("beside kind {kind}")));
        }
    }
    found
}

/// The number of an Update in a meaning.
const UPDATE: u8 = 8;

/// Numbers that no state, mode or count of ticks has, and where in a slot they stand.
const NUMBERS: [(&str, usize, u8); 8] = [
    ("state", STATE_OCTET, 5),
    ("state", STATE_OCTET, 255),
    ("mode", MODE_OCTET, 3),
    ("mode", MODE_OCTET, 255),
    ("since Hello", SINCE_HELLO_OCTET, 121),
    ("since Hello", SINCE_HELLO_OCTET, 255),
    ("since Poll", SINCE_POLL_OCTET, 121),
    ("since Poll", SINCE_POLL_OCTET, 255),
];

/// Values that `quiet` may not have in a block.
const QUIETS: [u8; 2] = [2, 255];

const GARBAGE: [&str; 6] = [
    "garbage",
    "garbage: zeros",
    "garbage: ones",
    "garbage slots",
    "garbage in a slot",
    "garbage slot",
];

const FRESH: [&str; 8] = [
    "fresh: AS 0",
    "fresh: capability 3",
    "fresh: capability above 3",
    "fresh: net not left justified",
    "fresh: net of no class",
    "fresh: address off the net",
    "fresh: quiet 2",
    "fresh: quiet above 2",
];

const USES: [&str; 10] = [
    "Start changes it",
    "Stop changes it",
    "Tick changes it",
    "Message changes it",
    "added",
    "removed",
    "rows written",
    "rows cleared",
    "since Hello zeroed",
    "since Poll zeroed",
];

/// The places that a call reaches.
fn reached(case: &Case) -> Found {
    let mut found = Found::new();
    let kind = case.call.kind;
    found.push((Group::Answers, answer_label(kind, case.answer())));
    orders(case, &mut found);
    lengths(case, &mut found);
    match case.answer() {
        0 => slots(case, &mut found),
        1 => broken_blocks(case, &mut found),
        22 => refused_ticks(case, &mut found),
        _ => {}
    }
    if case.aim == "block: one octet changed" && takes(kind, Part::Block) {
        let is_taken = if case.answer() == 1 {
            "refused"
        } else {
            "taken"
        };
        found.push((Group::Garbage, format!("one octet changed, {is_taken}")));
    }
    match kind {
        CallKind::Fresh => fresh(case, &mut found),
        CallKind::Message => home_lists(case, &mut found),
        CallKind::Write => writings(case, &mut found),
        _ => {}
    }
    found
}

// Answers, and checks that fail at once.

fn answer_label(kind: CallKind, number: u8) -> String {
    format!("{kind:?} {number}")
}

/// The answers of a call on octets.
fn answers(kind: CallKind) -> Vec<u8> {
    let mut answers = kind.answers().to_vec();
    if takes(kind, Part::Block) {
        answers.push(20);
    }
    if kind == CallKind::Read {
        answers.push(3);
    }
    answers
}

fn order_label(kind: CallKind, first: u8, second: u8) -> String {
    format!("{kind:?}: {first} before {second}")
}

/// Checks on lengths and blocks that can fail in one call, next to each other or with 20 before.
fn pairs(kind: CallKind) -> &'static [(u8, u8)] {
    match kind {
        CallKind::Fresh => &[(20, 16)],
        CallKind::Add | CallKind::Remove => &[],
        CallKind::Start | CallKind::Stop | CallKind::Tick => &[(20, 2), (20, 3), (1, 2), (2, 3)],
        CallKind::Message => &[(20, 2), (20, 3), (20, 4), (1, 2), (2, 3), (3, 4)],
        CallKind::Listing => &[(20, 2), (20, 3), (1, 2), (2, 3)],
        CallKind::Read => &[(3, 6)],
        CallKind::Write => &[(3, 16)],
    }
}

fn orders(case: &Case, found: &mut Found) {
    let kind = case.call.kind;
    for &(first, second) in pairs(kind) {
        if case.answer() == first && fails(case, second) {
            found.push((Group::Order, order_label(kind, first, second)));
        }
    }
}

/// Whether a check fails, taken by itself.
fn fails(case: &Case, check: u8) -> bool {
    let call = &case.call;
    match check {
        2 => call.lent.table.len() != TABLE,
        3 => call.lent.buffer.len() < host::least_buffer(call.kind),
        4 => !are_whole_rows(&call.rows),
        6 => call.octets.len() < 10 || call.octets.len() > 2_048,
        // With all other arguments good it would be the answer.
        _ => {
            let mut mended = call.clone();
            if takes(call.kind, Part::Block) {
                mended.lent.block = vec![0; STATE_BLOCK];
            }
            mended.lent.buffer = vec![0; host::least_buffer(call.kind)];
            host::answer(mended.make().0) == check
        }
    }
}

// Lengths.

fn length_label(kind: CallKind, length: usize) -> String {
    format!("{kind:?}, {length} octets")
}

fn any_call_label(length: usize) -> String {
    format!("any call, {length} octets")
}

fn octets_label(length: usize) -> String {
    format!("{length} octets")
}

fn lengths(case: &Case, found: &mut Found) {
    let HostCall {
        kind, lent, octets, ..
    } = &case.call;
    match case.answer() {
        20 => {
            found.push((Group::BlockLengths, length_label(*kind, lent.block.len())));
            found.push((Group::BlockLengths, any_call_label(lent.block.len())));
        }
        2 => found.push((Group::TableLengths, length_label(*kind, lent.table.len()))),
        6 if octets.len() > 65_535 => found.push((Group::MessageLengths, format!("{kind:?}"))),
        _ => {}
    }
    // What is answered after 3, or carried out, had a buffer that is long enough.
    let is_short = case.answer() == 3;
    let is_long_enough = ![20, 1, 2, 3].contains(&case.answer());
    if is_short || is_long_enough {
        found.push((Group::BufferLengths, length_label(*kind, lent.buffer.len())));
    }
}

// Blocks.

fn code_label(code: &str, slot: usize) -> String {
    format!("{code} in slot {slot}")
}

fn quiet_label(quiet: u8) -> String {
    format!("quiet {quiet}")
}

/// Blocks that are refused with 1.
fn broken_blocks(case: &Case, found: &mut Found) {
    if STATE_FAULTS.contains(&case.aim) {
        found.push((Group::Clauses, case.aim.into()));
    }
    if GARBAGE.contains(&case.aim) {
        found.push((Group::Garbage, case.aim.into()));
    }
    let block = &case.call.lent.block;
    let quiet = block[QUIET_OCTET];
    if quiet > 1 && is_good_with(block, QUIET_OCTET, 0..2) {
        found.push((Group::Codes, quiet_label(quiet)));
    }
    for (slot, octets) in block[SETTINGS..].chunks_exact(SLOT).enumerate() {
        let at = SETTINGS + SLOT * slot;
        for (name, place, code) in NUMBERS {
            // With a number that it can have, the block would be good.
            if octets[place] != code || !is_good_with(block, at + place, 0..5) {
                continue;
            }
            let label = format!("{name} {code}");
            if octets[..4] == [0; 4] {
                found.push((Group::Codes, format!("{label} in a free slot")));
            }
            found.push((Group::Codes, code_label(&label, slot)));
            found.push((Group::Codes, label));
        }
        broken_seconds(block, slot, found);
    }
}

// Seconds.

const REFUSED: &str = "refused 22";
const TOO_MANY: &str = "one too many";

fn counted_label(slot: usize, state: NeighbourState) -> String {
    format!("slot {slot}: counted in {state:?}")
}

fn nobody_label(octet: usize) -> String {
    format!("free slot, octet {octet}")
}

/// Seconds for which alone a block is refused with 1: one more than may be, or one octet of a free
/// slot's.
fn broken_seconds(block: &[u8], slot: usize, found: &mut Found) {
    let at = SETTINGS + SLOT * slot;
    let octets = &block[at..at + SLOT];
    let counts = host::numbers_of(&octets[SECONDS_OCTETS]);
    let sum: u64 = counts.into_iter().map(u64::from).sum();
    let is_free = octets[..4] == [0; 4];
    let mut set = SECONDS_OCTETS.filter(|&octet| octets[octet] != 0);
    let label = match (is_free, set.next(), set.next()) {
        (true, Some(octet), None) => nobody_label(octet),
        (false, ..) if sum == Seconds::MOST + 1 => format!("slot {slot}: {TOO_MANY}"),
        _ => return,
    };
    let mut mended = block.to_vec();
    mended[at..][SECONDS_OCTETS].fill(0);
    if host::read_block(&mended).is_ok_and(|state| state.is_well_formed()) {
        found.push((Group::Seconds, label));
    }
}

/// A tick that is refused for its neighbour's seconds.
fn refused_ticks(case: &Case, found: &mut Found) {
    let state = host::read_block(&case.call.lent.block);
    if let Some(slot) = state.ok().and_then(|state| state.find(case.call.address)) {
        found.push((Group::Seconds, format!("slot {slot}: {REFUSED}")));
    }
}

/// Whether a block is well formed with one of these in place of an octet.
fn is_good_with(block: &[u8], at: usize, mut instead: std::ops::Range<u8>) -> bool {
    let mut mended = block.to_vec();
    instead.any(|octet| {
        mended[at] = octet;
        host::read_block(&mended).is_ok_and(|state| state.is_well_formed())
    })
}

/// Fresh over octets that are no zeros.
fn fresh(case: &Case, found: &mut Found) {
    if case.call.lent.block.iter().all(|octet| *octet == 0) {
        return;
    }
    match case.answer() {
        0 => found.push((Group::Fresh, "good settings".into())),
        16 => found.push((Group::Fresh, case.aim.into())),
        _ => {}
    }
}

/// What a call that was carried out did to the slots.
fn slots(case: &Case, found: &mut Found) {
    let kind = case.call.kind;
    if !takes(kind, Part::Block) || kind == CallKind::Fresh {
        return;
    }
    let (Ok(before), Ok(after)) = (
        host::read_block(&case.call.lent.block),
        host::read_block(&case.after.block),
    ) else {
        return;
    };
    for slot in (0..SLOTS).filter(|&slot| before.neighbours[slot] != after.neighbours[slot]) {
        let [was, is] = [&before, &after].map(|state| state.neighbours[slot]);
        if kind == CallKind::Tick {
            found.push((Group::Seconds, counted_label(slot, was.state)));
        }
        let mut note = |what: &str| found.push((Group::Slots, format!("slot {slot}: {what}")));
        match kind {
            CallKind::Add => note("added"),
            CallKind::Remove => note("removed"),
            _ => note(&format!("{kind:?} changes it")),
        }
        if is.state != NeighbourState::Idle && was.since_hello > 0 && is.since_hello == 0 {
            note("since Hello zeroed");
        }
        if is.state != NeighbourState::Idle && was.since_poll > 0 && is.since_poll == 0 {
            note("since Poll zeroed");
        }
        let counts = |state: &State| state.neighbours[slot].row_count;
        let area = SLOT_OCTETS * slot..SLOT_OCTETS * (slot + 1);
        let is_cleared = || {
            case.after.table[area.clone()]
                .iter()
                .all(|octet| *octet == 0)
        };
        if takes(kind, Part::Table)
            && case.call.lent.table[area.clone()] != case.after.table[area.clone()]
        {
            if counts(&after) > 0 {
                note("rows written");
            } else if counts(&before) > 0 && is_cleared() {
                note("rows cleared");
            }
        }
    }
}

/// Octets of one slot's rows.
const SLOT_OCTETS: usize = ROW * MOST_ROWS;

// Rows and meanings.

fn home_lists(case: &Case, found: &mut Found) {
    let length = case.call.rows.len();
    let is_whole = are_whole_rows(&case.call.rows) && length <= MOST_ROWS * ROW;
    let is_wanted = match case.answer() {
        4 => !is_whole && case.aim == "rows length",
        answer => is_whole && answer != 20 && !(1..=3).contains(&answer),
    };
    if is_wanted {
        found.push((Group::HomeLengths, octets_label(length)));
    }
}

fn unused_label(kind: u8, at: usize) -> String {
    format!("kind {kind}, octet {at}")
}

fn writings(case: &Case, found: &mut Found) {
    let HostCall { rows, octets, .. } = &case.call;
    let kind = octets.first().copied();
    match case.answer() {
        0 => found.push((Group::Rows, octets_label(rows.len()))),
        16 if octets.len() != MEANING => {
            found.push((Group::Meanings, octets_label(octets.len())));
        }
        16 if case.aim == "rows length" => found.push((Group::Rows, octets_label(rows.len()))),
        16 => {
            if let Some(kind) = kind.filter(|kind| *kind > 9) {
                found.push((Group::Meanings, format!("kind {kind}")));
            }
            refused_writings(case, found);
        }
        _ => {}
    }
}

/// Meanings that would be written without the rows beside them, or with one octet 0.
fn refused_writings(case: &Case, found: &mut Found) {
    let is_good = |call: &HostCall| host::answer(call.make().0) == 0;
    let kind = case.call.octets[0];
    if kind != UPDATE && !case.call.rows.is_empty() && are_whole_rows(&case.call.rows) {
        let mut mended = case.call.clone();
        mended.rows.clear();
        if is_good(&mended) {
            found.push((Group::Rows, format!("beside kind {kind}")));
        }
    }
    let set: Vec<usize> = unused_octets(kind)
        .filter(|&at| case.call.octets[at] != 0)
        .collect();
    if let [at] = *set.as_slice() {
        let mut mended = case.call.clone();
        mended.octets[at] = 0;
        if is_good(&mended) {
            found.push((Group::Unused, unused_label(kind, at)));
        }
    }
}
