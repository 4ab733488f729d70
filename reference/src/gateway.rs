//! The gateway: its state, when that is well formed, and the calls (01, "Answer numbers").

use crate::answer::Answer;
use crate::message::{self, Body, Kind, Message, ERROR_TYPE, REPLY_BUFFER};
use crate::neighbour::{
    self, Event, Local, Mode, Neighbour, NeighbourState, RowChange, Seconds, Transition,
    ADMINISTRATIVELY_PROHIBITED, BAD_DATA, BAD_HEADER, EXCESSIVE_POLLING_RATE, MOST_TICKS,
    UNSPECIFIED,
};
use crate::net;
use crate::update::{Row, MOST_ROWS};

pub const SLOTS: usize = 8;
/// Table numbers of one slot: 128 rows of three.
pub const SLOT_NUMBERS: usize = 3 * MOST_ROWS;
/// "The lent table is exactly 3,072 32-bit numbers."
pub const TABLE_NUMBERS: usize = SLOTS * SLOT_NUMBERS;

/// The gateway's state: our own settings and eight slots.
#[derive(Clone, Copy, Debug, Default, PartialEq, Eq)]
pub struct State {
    pub as_number: u16,
    pub address: u32,
    pub capability: u8,
    /// The common net.
    pub net: u32,
    /// 1 if an Idle neighbour's stray messages draw no Cease (02, L6), else 0.
    pub quiet: u8,
    pub neighbours: [Neighbour; SLOTS],
}

impl State {
    /// The used slot with this address. Address 0 is no neighbour's.
    pub fn find(&self, address: u32) -> Option<usize> {
        self.neighbours
            .iter()
            .position(|neighbour| neighbour.is_used() && neighbour.address == address)
    }

    /// "Fresh's settings hold for own values."
    fn own_settings_hold(&self) -> bool {
        self.as_number != 0
            && self.capability <= 2
            && net::is_net(self.net)
            && net::is_on(self.address, self.net)
            && self.quiet <= 1
    }

    /// What add asks of an address and AS, apart from the address being present.
    pub(crate) fn may_be_neighbour(&self, address: u32, as_number: u16) -> bool {
        as_number != 0 && as_number != self.as_number && address != 0 && address != self.address
    }

    /// Check 1. It is exactly 01's list with 02's fields, no stronger: many states pass that no
    /// calls lead to.
    pub fn is_well_formed(&self) -> bool {
        self.own_settings_hold()
            && self
                .neighbours
                .iter()
                .enumerate()
                .all(|(slot, neighbour)| self.slot_is_well_formed(slot, neighbour))
    }

    fn slot_is_well_formed(&self, slot: usize, neighbour: &Neighbour) -> bool {
        if !neighbour.is_used() {
            // "Free slots are all zero."
            return *neighbour == Neighbour::default();
        }
        let present_before = self.neighbours[..slot]
            .iter()
            .any(|other| other.address == neighbour.address);
        self.may_be_neighbour(neighbour.address, neighbour.as_number)
            && !present_before
            && variables_are_well_formed(neighbour)
    }

    fn local<'a>(&self, home: &'a [Row]) -> Local<'a> {
        Local {
            as_number: self.as_number,
            capability: self.capability,
            net: self.net,
            is_quiet: self.quiet == 1,
            home,
        }
    }

    fn with_neighbour(&self, slot: usize, neighbour: Neighbour) -> State {
        let mut state = *self;
        state.neighbours[slot] = neighbour;
        state
    }
}

/// The part of check 1 that looks at one used slot's variables only.
fn variables_are_well_formed(neighbour: &Neighbour) -> bool {
    let n = neighbour;
    let idle = n.state == NeighbourState::Idle;
    let up = n.state == NeighbourState::Up;
    let acquired = n.state.is_acquired();

    let rows = n.row_count as usize <= MOST_ROWS && (up || n.row_count == 0);
    let idle_is_bare = !idle || *n == n.in_idle();
    let timers_bounded = n.t1 <= 122 && n.t2 <= 482 && n.t3 <= 3600;
    let timers_run = idle || (n.t1 >= 1 && n.t3 >= 1);
    let poll_timer = (n.t2 >= 1) == up;
    let reachability = if acquired {
        n.register <= 15 && n.heard <= 1
    } else {
        n.register == 0 && n.heard == 0
    };
    let terms = if acquired {
        (32..=122).contains(&n.hello_interval)
            && (122..=482).contains(&n.poll_interval)
            && n.mode != Mode::None
    } else {
        n.hello_interval == 0 && n.poll_interval == 0 && n.mode == Mode::None
    };
    let cause = if n.state == NeighbourState::Cease {
        n.cause == 5 || n.cause == 6
    } else {
        n.cause == 0
    };
    let counts = n.since_hello <= MOST_TICKS && n.since_poll <= MOST_TICKS;
    let seconds = n.seconds.sum() <= Seconds::MOST;
    rows && idle_is_bare
        && timers_bounded
        && timers_run
        && poll_timer
        && reachability
        && terms
        && cause
        && counts
        && seconds
}

/// What a call gives back: the answer, two lengths and the state after it.
#[derive(Clone, Copy, Debug, PartialEq, Eq)]
pub struct Outcome {
    pub answer: Answer,
    pub lengths: (usize, usize),
    pub state: State,
}

impl Outcome {
    fn done(state: State) -> Outcome {
        Outcome {
            answer: Answer::Done,
            lengths: (0, 0),
            state,
        }
    }

    /// "Every refusal returns the state as given ... and reports lengths 0 and 0 unless a reply
    /// is named."
    pub(crate) fn refused(state: &State, answer: Answer) -> Outcome {
        Outcome {
            answer,
            lengths: (0, 0),
            state: *state,
        }
    }
}

/// Fresh: the settings and eight free slots. A refusal gives the all-zero state, which is not
/// well formed.
pub fn fresh(as_number: u16, address: u32, capability: u8, net: u32, quiet: u8) -> Outcome {
    let state = State {
        as_number,
        address,
        capability,
        net,
        quiet,
        neighbours: Default::default(),
    };
    if state.own_settings_hold() {
        Outcome::done(state)
    } else {
        Outcome::refused(&State::default(), Answer::BadSetting)
    }
}

/// Add: checks 1, 16, 17; "it takes the lowest free slot".
pub fn add(state: &State, address: u32, as_number: u16) -> Outcome {
    if !state.is_well_formed() {
        return Outcome::refused(state, Answer::StateNotWellFormed);
    }
    if !state.may_be_neighbour(address, as_number) || state.find(address).is_some() {
        return Outcome::refused(state, Answer::BadSetting);
    }
    let free = state
        .neighbours
        .iter()
        .position(|neighbour| !neighbour.is_used());
    match free {
        Some(slot) => {
            Outcome::done(state.with_neighbour(slot, Neighbour::idle(address, as_number)))
        }
        None => Outcome::refused(state, Answer::NoFreeSlot),
    }
}

/// Remove: checks 1, 5, 18; "a removed slot is free again".
pub fn remove(state: &State, address: u32) -> Outcome {
    if !state.is_well_formed() {
        return Outcome::refused(state, Answer::StateNotWellFormed);
    }
    let Some(slot) = state.find(address) else {
        return Outcome::refused(state, Answer::UnknownAddress);
    };
    if state.neighbours[slot].state != NeighbourState::Idle {
        return Outcome::refused(state, Answer::NotIdle);
    }
    Outcome::done(state.with_neighbour(slot, Neighbour::default()))
}

/// Start of one neighbour: checks 1, 2, 3, 5.
pub fn start(state: &State, table: &mut [u32], reply: &mut [u8], address: u32) -> Outcome {
    plain_event(state, table, reply, address, Event::Start)
}

/// Stop of one neighbour: checks 1, 2, 3, 5.
pub fn stop(state: &State, table: &mut [u32], reply: &mut [u8], address: u32) -> Outcome {
    plain_event(state, table, reply, address, Event::Stop)
}

/// One second of one neighbour: checks 1, 2, 3, 5, 22.
pub fn tick(state: &State, table: &mut [u32], reply: &mut [u8], address: u32) -> Outcome {
    plain_event(state, table, reply, address, Event::Tick)
}

fn plain_event(
    state: &State,
    table: &mut [u32],
    reply: &mut [u8],
    address: u32,
    event: Event,
) -> Outcome {
    if let Err(answer) = check_lent(state, table, reply) {
        return Outcome::refused(state, answer);
    }
    let Some(slot) = state.find(address) else {
        return Outcome::refused(state, Answer::UnknownAddress);
    };
    let neighbour = &state.neighbours[slot];
    if event == Event::Tick && neighbour.seconds.is_full() {
        return Outcome::refused(state, Answer::NoMoreSeconds);
    }
    let transition = neighbour::transition(state.local(&[]), neighbour, event);
    carry_out(state, table, reply, slot, transition)
}

/// A message from `address`: checks 1 to 13, 21, 14 and 15.
pub fn message(
    state: &State,
    table: &mut [u32],
    reply: &mut [u8],
    home: &[u32],
    address: u32,
    octets: &[u8],
) -> Outcome {
    if let Err(answer) = check_lent(state, table, reply) {
        return Outcome::refused(state, answer);
    }
    let Some(home) = home_rows(state, home) else {
        return Outcome::refused(state, Answer::BadHomeList);
    };
    let Some(slot) = state.find(address) else {
        return Outcome::refused(state, Answer::UnknownAddress);
    };
    let local = state.local(&home);
    match examine(local, &state.neighbours[slot], octets) {
        Ok(message) => {
            let event = Event::Message {
                message: &message,
                quote: message::first_twelve(octets),
            };
            let transition = neighbour::transition(local, &state.neighbours[slot], event);
            carry_out(state, table, reply, slot, transition)
        }
        Err(refusal) => Outcome {
            lengths: write_reply(refusal.reply.as_slice(), reply),
            ..Outcome::refused(state, refusal.answer)
        },
    }
}

/// Checks 1 to 3 of the calls that are lent a table and a reply buffer.
fn check_lent(state: &State, table: &[u32], reply: &[u8]) -> Result<(), Answer> {
    if !state.is_well_formed() {
        return Err(Answer::StateNotWellFormed);
    }
    if table.len() != TABLE_NUMBERS {
        return Err(Answer::BadTable);
    }
    if reply.len() < REPLY_BUFFER {
        return Err(Answer::ShortBuffer);
    }
    Ok(())
}

/// The rows of a good home list: "at most 128 whole rows, each a left-justified A, B or C net, a
/// gateway on the common net and a number at most 255, the first gateway being our own address.
/// It may be empty."
pub fn home_rows(state: &State, home: &[u32]) -> Option<Vec<Row>> {
    let numbers = home.chunks_exact(3);
    if !numbers.remainder().is_empty() || home.len() > SLOT_NUMBERS {
        return None;
    }
    let rows: Vec<Row> = numbers.map(Row::from_numbers).collect();
    let all_good = rows.iter().all(|row| {
        net::is_net(row.net) && net::is_on(row.gateway, state.net) && row.distance <= 255
    });
    let ours_first = rows.first().is_none_or(|row| row.gateway == state.address);
    (all_good && ours_first).then_some(rows)
}

/// A refused message: its answer, and the reply that is named for it.
struct Refusal {
    answer: Answer,
    reply: Option<Message>,
}

impl Refusal {
    fn silent(answer: Answer) -> Refusal {
        Refusal {
            answer,
            reply: None,
        }
    }

    /// "Error is sent only in Down and Up, never to a message of type 8."
    fn with_error(
        answer: Answer,
        reason: u16,
        local: Local,
        neighbour: &Neighbour,
        octets: &[u8],
    ) -> Refusal {
        let sent = neighbour.state.is_acquired() && octets[1] != ERROR_TYPE;
        let quote = message::first_twelve(octets);
        Refusal {
            answer,
            reply: sent.then(|| neighbour::error_message(local, neighbour, reason, quote)),
        }
    }
}

/// Checks 6 to 13, 21, 14 and 15 of a message from a known neighbour.
fn examine(local: Local, neighbour: &Neighbour, octets: &[u8]) -> Result<Message, Refusal> {
    message::check_frame(octets).map_err(Refusal::silent)?;
    if message::as_number(octets) != neighbour.as_number {
        return Err(Refusal {
            answer: Answer::WrongAs,
            reply: refuse_stranger(local, neighbour, octets),
        });
    }
    let kind = message::check_kind(octets)
        .map_err(|answer| Refusal::with_error(answer, BAD_HEADER, local, neighbour, octets))?;
    let out_of_sequence = neighbour.state != NeighbourState::Idle
        && kind.must_carry_s()
        && message::sequence(octets) != neighbour.send_sequence;
    if out_of_sequence {
        return Err(Refusal::silent(Answer::OutOfSequence));
    }
    if neighbour.is_too_soon_for(kind) {
        let (answer, reason) = (Answer::TooQuick, EXCESSIVE_POLLING_RATE);
        return Err(Refusal::with_error(
            answer, reason, local, neighbour, octets,
        ));
    }
    // The body of an Update is looked at in Up only.
    let mut rows = Vec::new();
    if kind == Kind::Update && neighbour.state == NeighbourState::Up {
        rows = message::read_rows(octets, local.net).map_err(|answer| {
            let reason = match answer {
                Answer::TooManyRows => UNSPECIFIED,
                _ => BAD_DATA,
            };
            Refusal::with_error(answer, reason, local, neighbour, octets)
        })?;
    }
    Ok(message::fields(kind, octets, rows))
}

/// The reply named at 9: "Refuse status 4, only in Idle and only to a Request of 14 octets with
/// status 0 to 2".
fn refuse_stranger(local: Local, neighbour: &Neighbour, octets: &[u8]) -> Option<Message> {
    let is_request = (octets[1], octets[2]) == Kind::Request.type_and_code()
        && Kind::Request.allows_status(octets[3])
        && Kind::Request.allows_length(octets.len());
    (neighbour.state == NeighbourState::Idle && is_request).then(|| Message {
        status: ADMINISTRATIVELY_PROHIBITED,
        as_number: local.as_number,
        sequence: message::sequence(octets),
        body: Body::Refuse,
    })
}

/// Writes the replies and the rows of a transition, and gives the state after it.
fn carry_out(
    state: &State,
    table: &mut [u32],
    reply: &mut [u8],
    slot: usize,
    transition: Transition,
) -> Outcome {
    let area = &mut table[slot * SLOT_NUMBERS..][..SLOT_NUMBERS];
    match transition.rows {
        RowChange::Keep => {}
        RowChange::Clear => area.fill(0),
        RowChange::Replace(rows) => {
            // "Replacing rows writes the slot's 128 rows, the rest zero."
            area.fill(0);
            for (place, row) in area.chunks_mut(3).zip(&rows) {
                place.copy_from_slice(&row.numbers());
            }
        }
    }
    Outcome {
        lengths: write_reply(&transition.sent, reply),
        ..Outcome::done(state.with_neighbour(slot, transition.neighbour))
    }
}

/// "A reply is at most two messages, the second written straight after the first; two lengths
/// are reported."
fn write_reply(sent: &[Message], reply: &mut [u8]) -> (usize, usize) {
    let mut lengths = [0; 2];
    let mut rest = reply;
    for (length, message) in lengths.iter_mut().zip(sent) {
        let octets = message::encode(message);
        let (place, left) = rest.split_at_mut(octets.len());
        place.copy_from_slice(&octets);
        *length = octets.len();
        rest = left;
    }
    (lengths[0], lengths[1])
}
