//! The layer for a host in C (02, L4): every call takes numbers and octets only.
//!
//! "The C host lends one block that holds the whole state and one that holds the table, 12,288
//! octets big-endian." The calls themselves are those of [`gateway`]; what stands here is how
//! octets are read as their arguments, which octets are left, and what one number is returned.

use crate::answer::Answer;
use crate::call::CallKind;
use crate::gateway::{self, Outcome, State, SLOTS, TABLE_NUMBERS};
use crate::listing::{self, LISTING_BUFFER};
use crate::message::{self, Body, Intervals, Kind, Message, REPLY_BUFFER};
use crate::neighbour::{Mode, Neighbour, NeighbourState, Seconds};
use crate::record::{self, MEANING, READING, STATE_BLOCK};
use crate::update::{Row, MOST_ROWS};

/// Octets of the table: 3,072 numbers of four.
pub const TABLE: usize = 4 * TABLE_NUMBERS;
/// Octets of a row: net, gateway, distance.
pub const ROW: usize = 12;

/// What a call can take as octets.
#[derive(Clone, Copy, Debug, PartialEq, Eq)]
pub enum Part {
    Block,
    Table,
    Buffer,
    /// The home list of a message call, or the rows to be written.
    Rows,
    /// The message, or the meaning to be written.
    Octets,
}

/// Whether calls of this kind take this.
pub fn takes(kind: CallKind, part: Part) -> bool {
    use CallKind::{Add, Fresh, Message, Read, Remove, Write};
    match part {
        Part::Block => !matches!(kind, Read | Write),
        Part::Table => !matches!(kind, Fresh | Add | Remove | Read | Write),
        Part::Buffer => !matches!(kind, Fresh | Add | Remove),
        Part::Rows => matches!(kind, Message | Write),
        Part::Octets => matches!(kind, Message | Read | Write),
    }
}

/// The least that calls of this kind are to be lent as their buffer, if they take one.
pub fn least_buffer(kind: CallKind) -> usize {
    match kind {
        CallKind::Listing => LISTING_BUFFER,
        CallKind::Read => READING,
        _ => REPLY_BUFFER,
    }
}

/// What a host lends to be changed; empty where a call is lent nothing.
#[derive(Clone, Debug, Default, PartialEq, Eq)]
pub struct Lent {
    pub block: Vec<u8>,
    pub table: Vec<u8>,
    pub buffer: Vec<u8>,
}

/// One call of a host. What its kind does not use is 0 or empty.
#[derive(Clone, Debug, PartialEq, Eq)]
pub struct HostCall {
    pub kind: CallKind,
    pub capability: u8,
    pub as_number: u16,
    pub address: u32,
    pub net: u32,
    pub quiet: u8,
    pub lent: Lent,
    /// The home list of a message call, or the rows to be written: 12 octets a row.
    pub rows: Vec<u8>,
    /// The message, or the meaning to be written.
    pub octets: Vec<u8>,
}

/// The arguments of a call, wherever their octets are.
pub struct Arguments<'a> {
    pub kind: CallKind,
    pub capability: u8,
    pub as_number: u16,
    pub address: u32,
    pub net: u32,
    pub quiet: u8,
    pub block: &'a mut [u8],
    pub table: &'a mut [u8],
    pub buffer: &'a mut [u8],
    pub rows: &'a [u8],
    pub octets: &'a [u8],
}

impl HostCall {
    /// A call that is lent nothing.
    pub fn bare(kind: CallKind) -> HostCall {
        HostCall {
            kind,
            capability: 0,
            as_number: 0,
            address: 0,
            net: 0,
            quiet: 0,
            lent: Lent::default(),
            rows: Vec::new(),
            octets: Vec::new(),
        }
    }

    /// What the call returns, and everything lent as it is left.
    pub fn make(&self) -> (u64, Lent) {
        let mut after = self.lent.clone();
        let result = make(Arguments {
            kind: self.kind,
            capability: self.capability,
            as_number: self.as_number,
            address: self.address,
            net: self.net,
            quiet: self.quiet,
            block: &mut after.block,
            table: &mut after.table,
            buffer: &mut after.buffer,
            rows: &self.rows,
            octets: &self.octets,
        });
        (result, after)
    }
}

/// The answer in what a call returned.
pub fn answer(result: u64) -> u8 {
    result as u8
}

/// Makes a call: what it returns. What it leaves stands in the octets that were lent.
pub fn make(call: Arguments) -> u64 {
    let Arguments {
        kind,
        capability,
        as_number,
        address,
        net,
        quiet,
        block,
        table,
        buffer,
        rows,
        octets,
    } = call;
    match kind {
        CallKind::Fresh => on_fresh(block, || {
            gateway::fresh(as_number, address, capability, net, quiet)
        }),
        CallKind::Add => on_block(block, |state| gateway::add(state, address, as_number)),
        CallKind::Remove => on_block(block, |state| gateway::remove(state, address)),
        CallKind::Start => on_table(block, table, |state, table| {
            gateway::start(state, table, buffer, address)
        }),
        CallKind::Stop => on_table(block, table, |state, table| {
            gateway::stop(state, table, buffer, address)
        }),
        CallKind::Tick => on_table(block, table, |state, table| {
            gateway::tick(state, table, buffer, address)
        }),
        CallKind::Message => on_table(block, table, |state, table| {
            gateway::message(state, table, buffer, &home_list(rows), address, octets)
        }),
        CallKind::Listing => on_table(block, table, |state, table| {
            listing::listing(state, table, buffer)
        }),
        CallKind::Read => read(buffer, net, octets),
        CallKind::Write => write(buffer, octets, rows),
    }
}

/// "Each returns four 16-bit numbers in one, from the top: 0, second length, first length,
/// answer."
fn packed(answer: Answer, (first, second): (usize, usize)) -> u64 {
    (second as u64) << 32 | (first as u64) << 16 | u64::from(answer.number())
}

fn refused(answer: Answer) -> u64 {
    packed(answer, (0, 0))
}

/// Fresh needs no state to start from, only room for one: checks 20 and 16. "No octet of it is
/// touched ... nor by a refused fresh."
fn on_fresh(block: &mut [u8], fresh: impl FnOnce() -> Outcome) -> u64 {
    if block.len() != STATE_BLOCK {
        return refused(Answer::BlockLength);
    }
    leave(block, fresh())
}

/// A call on the state that the block holds.
fn on_block(block: &mut [u8], call: impl FnOnce(&State) -> Outcome) -> u64 {
    match read_block(block) {
        Ok(state) => leave(block, call(&state)),
        Err(answer) => refused(answer),
    }
}

/// A call on the state and on the table; a table of a wrong length is refused in its turn.
fn on_table(
    block: &mut [u8],
    table: &mut [u8],
    call: impl FnOnce(&State, &mut [u32]) -> Outcome,
) -> u64 {
    let mut numbers = match table.len() {
        TABLE => numbers_of(table),
        _ => Vec::new(),
    };
    let result = on_block(block, |state| call(state, &mut numbers));
    for (place, number) in table.chunks_exact_mut(4).zip(numbers) {
        place.copy_from_slice(&number.to_be_bytes());
    }
    result
}

/// The block as a call leaves it: the state after it if it was carried out, else as it was.
fn leave(block: &mut [u8], outcome: Outcome) -> u64 {
    if outcome.answer == Answer::Done {
        block.copy_from_slice(&record::state_block(&outcome.state));
    }
    packed(outcome.answer, outcome.lengths)
}

/// Reading alone: 3, then the reader's own checks. The meaning is written, then an Update's rows.
fn read(buffer: &mut [u8], net: u32, octets: &[u8]) -> u64 {
    if buffer.len() < READING {
        return refused(Answer::ShortBuffer);
    }
    let message = match message::read(octets, net) {
        Ok(message) => message,
        Err(answer) => return refused(answer),
    };
    let rows = row_octets(record::rows(&message));
    buffer[..MEANING].copy_from_slice(&record::meaning(&message));
    buffer[MEANING..][..rows.len()].copy_from_slice(&rows);
    packed(Answer::Done, (MEANING, rows.len()))
}

/// Writing: 3, then 16.
fn write(buffer: &mut [u8], meaning: &[u8], rows: &[u8]) -> u64 {
    if buffer.len() < REPLY_BUFFER {
        return refused(Answer::ShortBuffer);
    }
    let Some(message) = message_of(meaning, rows) else {
        return refused(Answer::BadSetting);
    };
    match message::write(&message, &[], buffer) {
        Ok(length) => packed(Answer::Done, (length, 0)),
        Err(answer) => refused(answer),
    }
}

// Octets.

/// Octets that are read one field after the other; there are enough of them.
struct Fields<'a>(&'a [u8]);

impl Fields<'_> {
    fn octet(&mut self) -> u8 {
        let first = self.0[0];
        self.0 = &self.0[1..];
        first
    }

    fn number16(&mut self) -> u16 {
        u16::from_be_bytes([self.octet(), self.octet()])
    }

    fn number32(&mut self) -> u32 {
        u32::from_be_bytes([self.octet(), self.octet(), self.octet(), self.octet()])
    }
}

/// The state that a block holds: check 20, and of check 1 what no state can express, a state or
/// mode by a number that is none's.
pub fn read_block(block: &[u8]) -> Result<State, Answer> {
    if block.len() != STATE_BLOCK {
        return Err(Answer::BlockLength);
    }
    let mut fields = Fields(block);
    let mut state = State {
        as_number: fields.number16(),
        address: fields.number32(),
        capability: fields.octet(),
        net: fields.number32(),
        quiet: fields.octet(),
        neighbours: [Neighbour::default(); SLOTS],
    };
    for neighbour in &mut state.neighbours {
        *neighbour = read_slot(&mut fields).ok_or(Answer::StateNotWellFormed)?;
    }
    Ok(state)
}

/// The next slot: "address (4), AS, S, R, T1, T2, t1, t2, t3, row count (2 each), state, mode,
/// register, heard, cause (1 each)", then L5's two counts of ticks, Hello's first, and L7's five
/// of seconds, in as many octets as their sum may need.
fn read_slot(fields: &mut Fields) -> Option<Neighbour> {
    Some(Neighbour {
        address: fields.number32(),
        as_number: fields.number16(),
        send_sequence: fields.number16(),
        receive_sequence: fields.number16(),
        hello_interval: fields.number16(),
        poll_interval: fields.number16(),
        t1: fields.number16(),
        t2: fields.number16(),
        t3: fields.number16(),
        row_count: fields.number16(),
        state: state_of(fields.octet())?,
        mode: mode_of(fields.octet())?,
        register: fields.octet(),
        heard: fields.octet(),
        cause: fields.octet(),
        since_hello: fields.octet(),
        since_poll: fields.octet(),
        seconds: Seconds {
            idle: fields.number32(),
            acquisition: fields.number32(),
            down: fields.number32(),
            up: fields.number32(),
            cease: fields.number32(),
        },
    })
}

/// "States from 0 as listed."
fn state_of(octet: u8) -> Option<NeighbourState> {
    match octet {
        0 => Some(NeighbourState::Idle),
        1 => Some(NeighbourState::Acquisition),
        2 => Some(NeighbourState::Down),
        3 => Some(NeighbourState::Up),
        4 => Some(NeighbourState::Cease),
        _ => None,
    }
}

/// "Mode none, active, passive 0 to 2."
fn mode_of(octet: u8) -> Option<Mode> {
    match octet {
        0 => Some(Mode::None),
        1 => Some(Mode::Active),
        2 => Some(Mode::Passive),
        _ => None,
    }
}

/// Numbers of four octets each.
pub fn numbers_of(octets: &[u8]) -> Vec<u32> {
    octets
        .chunks_exact(4)
        .map(|four| u32::from_be_bytes([four[0], four[1], four[2], four[3]]))
        .collect()
}

/// Numbers in four octets each.
pub fn octets_of(numbers: &[u32]) -> Vec<u8> {
    numbers
        .iter()
        .flat_map(|number| number.to_be_bytes())
        .collect()
}

/// Rows in 12 octets each.
pub fn row_octets(rows: &[Row]) -> Vec<u8> {
    rows.iter()
        .flat_map(|row| octets_of(&row.numbers()))
        .collect()
}

/// Whether octets are whole rows, however many.
pub fn are_whole_rows(octets: &[u8]) -> bool {
    octets.chunks_exact(ROW).remainder().is_empty()
}

/// The rows of octets, at most 128 of them; none if they are not whole or are more.
fn rows_of(octets: &[u8]) -> Option<Vec<Row>> {
    let is_good = are_whole_rows(octets) && octets.len() <= MOST_ROWS * ROW;
    is_good.then(|| {
        let numbers = numbers_of(octets);
        numbers.chunks_exact(3).map(Row::from_numbers).collect()
    })
}

/// The numbers of a home list. "A home list goes as octets too, 12 a row; any other length gives
/// 4", in its turn: a single number is no row.
fn home_list(octets: &[u8]) -> Vec<u32> {
    match rows_of(octets) {
        Some(rows) => rows.iter().flat_map(Row::numbers).collect(),
        None => vec![0],
    }
}

/// What is to be written, if a message can mean it: 24 octets of a known kind with 0 in all that
/// the kind has not, and rows beside an Update only.
fn message_of(meaning: &[u8], rows: &[u8]) -> Option<Message> {
    let meaning: &[u8; MEANING] = meaning.try_into().ok()?;
    let rows = rows_of(rows)?;
    let mut fields = Fields(meaning);
    let number = fields.octet();
    let kind = Kind::ALL
        .into_iter()
        .find(|kind| record::kind_number(*kind) == number)?;
    if kind != Kind::Update && !rows.is_empty() {
        return None;
    }
    let message = Message {
        status: fields.octet(),
        as_number: fields.number16(),
        sequence: fields.number16(),
        body: body_of(kind, fields, rows),
    };
    // A set octet that the kind has not does not come back.
    (record::meaning(&message) == *meaning).then_some(message)
}

/// The kind's own fields, from the octets of a meaning after its sequence number.
fn body_of(kind: Kind, mut fields: Fields, rows: Vec<Row>) -> Body {
    let hello_or_reason = fields.number16();
    let poll = fields.number16();
    fields.number16();
    let words = fields.0;
    let net = fields.number32();
    let intervals = Intervals {
        hello: hello_or_reason,
        poll,
    };
    match kind {
        Kind::Request => Body::Request(intervals),
        Kind::Confirm => Body::Confirm(intervals),
        Kind::Refuse => Body::Refuse,
        Kind::Cease => Body::Cease,
        Kind::CeaseAck => Body::CeaseAck,
        Kind::Hello => Body::Hello,
        Kind::IHeardYou => Body::IHeardYou,
        Kind::Poll => Body::Poll { net },
        Kind::Update => Body::Update { net, rows },
        Kind::Error => Body::Error {
            reason: hello_or_reason,
            header: message::first_twelve(words),
        },
    }
}
