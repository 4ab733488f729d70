//! A fuzzer's input as a call of a host: `fuzz/README.md` has the layout.
//!
//! Every input is some call. A few octets at the front choose its kind, its lengths and what is
//! made to fit, so that an input need not find a well-formed block or a checksum by itself; octets
//! that are missing at the end are 0.

use std::collections::BTreeMap;

use crate::call::CallKind;
use crate::checksum;
use crate::gateway::{State, SLOTS, TABLE_NUMBERS};
use crate::generate::hosts::{Hosts, BLOCK_LENGTHS, TABLE_LENGTHS};
use crate::host::{self, row_octets, takes, HostCall, Part, TABLE};
use crate::message::{Kind, SHORTEST, VERSION};
use crate::neighbour::{Mode, Neighbour, NeighbourState, Seconds, MOST_TICKS};
use crate::net::Class;
use crate::record::{self, MEANING, STATE_BLOCK};
use crate::update::{Row, MOST_ROWS};

/// What an input asks for, a bit each.
mod option {
    /// The block is made from the octets, well formed, instead of being these.
    pub const BLOCK_MADE: u8 = 1;
    /// The message is of some kind, of its length if it is longer, from the neighbour, in sequence
    /// and about the common net; a meaning has its length and a known kind.
    pub const MESSAGE_FITTED: u8 = 2;
    /// The message gets its right checksum.
    pub const MESSAGE_SEALED: u8 = 4;
    /// The rows' nets, gateways and distances are made good.
    pub const ROWS_MADE: u8 = 8;
    /// The table has rows where the block says so.
    pub const TABLE_FILLED: u8 = 16;
    /// The address is a neighbour's.
    pub const ADDRESS_FITTED: u8 = 32;
    /// The common net that is given as a number is made good.
    pub const NET_FITTED: u8 = 64;
}

/// At most so many numbers of the table are changed, and so many octets of rows come in.
const MOST_CHANGES: u8 = 16;
const MOST_ROW_OCTETS: u16 = 1_560;

/// The octets of an input, one after the other.
struct Input<'a>(&'a [u8]);

impl Input<'_> {
    fn octet(&mut self) -> u8 {
        let Some((first, rest)) = self.0.split_first() else {
            return 0;
        };
        self.0 = rest;
        *first
    }

    fn number16(&mut self) -> u16 {
        u16::from_be_bytes([self.octet(), self.octet()])
    }

    fn number32(&mut self) -> u32 {
        u32::from_be_bytes([self.octet(), self.octet(), self.octet(), self.octet()])
    }

    fn octets(&mut self, count: usize) -> Vec<u8> {
        (0..count).map(|_| self.octet()).collect()
    }

    /// A number from `least` to `most`.
    fn within(&mut self, least: u16, most: u16) -> u16 {
        least + self.number16() % (most - least + 1)
    }
}

/// The call that an input stands for.
pub fn call_of(input: &[u8]) -> HostCall {
    let mut input = Input(input);
    let kind = CallKind::ALL[usize::from(input.octet()) % CallKind::ALL.len()];
    let options = input.octet();
    let has = |option: u8| options & option != 0;
    let lengths = input.octet();
    let buffer_and_slot = input.octet();
    let fill = input.octet();
    let mut call = HostCall::bare(kind);
    call.capability = input.octet();
    call.as_number = input.number16();
    call.address = input.number32();
    call.net = input.number32();
    call.quiet = input.octet();
    if has(option::NET_FITTED) {
        call.net = good_net(call.net);
    }

    let mut state = State::default();
    if takes(kind, Part::Block) {
        call.lent.block = if has(option::BLOCK_MADE) {
            record::state_block(&made_state(&mut input))
        } else {
            input.octets(STATE_BLOCK)
        };
        state = host::read_block(&call.lent.block).unwrap_or_default();
        resize(&mut call.lent.block, &BLOCK_LENGTHS, lengths & 15);
    }
    if takes(kind, Part::Table) {
        call.lent.table = table(&mut input, has(option::TABLE_FILLED).then_some(&state));
        resize(&mut call.lent.table, &TABLE_LENGTHS, lengths >> 4);
    }
    if takes(kind, Part::Buffer) {
        let choices = buffer_lengths(kind);
        let length = choices[usize::from(buffer_and_slot & 15) % choices.len()];
        call.lent.buffer = vec![fill; length];
    }
    let neighbour = state.neighbours[usize::from(buffer_and_slot >> 4) % SLOTS];
    if has(option::ADDRESS_FITTED) {
        call.address = neighbour.address;
    }
    if !takes(kind, Part::Block) {
        state.address = address_on(call.net, call.address);
        state.net = call.net;
    }
    if takes(kind, Part::Rows) {
        let has_externals = kind == CallKind::Write;
        call.rows = rows(
            &mut input,
            has(option::ROWS_MADE).then_some(&state),
            has_externals,
        );
    }
    if takes(kind, Part::Octets) {
        call.octets = input.0.to_vec();
        let fit = match kind {
            CallKind::Write => fit_meaning,
            _ => fit_message,
        };
        if has(option::MESSAGE_FITTED) {
            fit(&mut call.octets, &neighbour, state.net);
        }
        let is_sealed = has(option::MESSAGE_SEALED) && kind != CallKind::Write;
        if is_sealed && call.octets.len() >= SHORTEST {
            checksum::seal(&mut call.octets);
        }
    }
    call
}

/// Gives octets another length, if one is chosen; 0 keeps theirs.
fn resize(octets: &mut Vec<u8>, lengths: &[usize], choice: u8) {
    if let Some(length) = usize::from(choice)
        .checked_sub(1)
        .and_then(|choice| lengths.get(choice))
    {
        octets.resize(*length, 0);
    }
}

/// The lengths a buffer may have, the least that is good first.
fn buffer_lengths(kind: CallKind) -> [usize; 6] {
    let least = host::least_buffer(kind);
    [least, least - 1, least + 1, 0, 24, least + 1_000]
}

/// Fits a message to the neighbour it comes from: of the kind that its second octet chooses, no
/// longer than this is, in sequence, and about this net.
fn fit_message(octets: &mut Vec<u8>, neighbour: &Neighbour, net: u32) {
    if octets.len() < SHORTEST {
        return;
    }
    let kind = Kind::ALL[usize::from(octets[1]) % Kind::ALL.len()];
    let length = (SHORTEST..=octets.len()).find(|length| kind.allows_length(*length));
    if let Some(length) = length.filter(|_| kind != Kind::Update) {
        octets.truncate(length);
    }
    octets[0] = VERSION;
    (octets[1], octets[2]) = kind.type_and_code();
    octets[6..8].copy_from_slice(&neighbour.as_number.to_be_bytes());
    octets[8..10].copy_from_slice(&neighbour.send_sequence.to_be_bytes());
    if matches!(kind, Kind::Poll | Kind::Update) && octets.len() >= 16 {
        octets[12..16].copy_from_slice(&net.to_be_bytes());
    }
}

/// Fits a meaning: 24 octets of a known kind, and of an Update about this net.
fn fit_meaning(octets: &mut Vec<u8>, _: &Neighbour, net: u32) {
    octets.resize(MEANING, 0);
    octets[0] %= Kind::ALL.len() as u8;
    if octets[0] == record::kind_number(Kind::Update) {
        octets[12..16].copy_from_slice(&net.to_be_bytes());
    }
}

/// A net of the class that the octets choose.
fn good_net(number: u32) -> u32 {
    let number = if Class::of(number).is_none() {
        number & 0x7FFF_FFFF
    } else {
        number
    };
    Class::of(number).map_or(0, |class| number & class.net_mask())
}

/// An address on a good net.
fn address_on(net: u32, host: u32) -> u32 {
    Class::of(net).map_or(0, |class| net | host & !class.net_mask())
}

/// A well-formed state.
fn made_state(input: &mut Input) -> State {
    let net = good_net(input.number32());
    let mut state = State {
        as_number: input.number16().max(1),
        address: address_on(net, input.number32()),
        capability: input.octet() % 3,
        net,
        quiet: input.octet() % 2,
        ..State::default()
    };
    for slot in 0..SLOTS {
        // Less than half of the numbers leave a slot free.
        let phase = usize::from(input.octet() % 9);
        let Some(phase) = NeighbourState::ALL.get(phase) else {
            continue;
        };
        let mut address = address_on(net, input.number32());
        let mut as_number = input.number16();
        while address == 0 || address == state.address || state.find(address).is_some() {
            address = address.wrapping_add(1);
        }
        while as_number == 0 || as_number == state.as_number {
            as_number = as_number.wrapping_add(1);
        }
        state.neighbours[slot] = neighbour(input, address, as_number, *phase);
    }
    state
}

/// A well-formed neighbour in this state.
fn neighbour(input: &mut Input, address: u32, as_number: u16, state: NeighbourState) -> Neighbour {
    let mut n = Neighbour::idle(address, as_number);
    n.state = state;
    n.seconds = seconds(input, state);
    if state == NeighbourState::Idle {
        return n;
    }
    n.send_sequence = input.number16();
    n.receive_sequence = input.number16();
    n.t1 = input.within(1, 122);
    n.t3 = input.within(1, 3_600);
    n.since_hello = input.octet() % (MOST_TICKS + 1);
    n.since_poll = input.octet() % (MOST_TICKS + 1);
    if state.is_acquired() {
        n.hello_interval = input.within(32, 122);
        n.poll_interval = input.within(122, 482);
        let reach = input.octet();
        n.register = reach & 15;
        n.heard = reach >> 4 & 1;
        n.mode = if reach >> 5 & 1 == 0 {
            Mode::Active
        } else {
            Mode::Passive
        };
    }
    if state == NeighbourState::Up {
        n.t2 = input.within(1, 482);
        n.row_count = input.within(0, MOST_ROWS as u16);
    }
    if state == NeighbourState::Cease {
        n.cause = 5 + input.octet() % 2;
    }
    n
}

/// Seconds of a neighbour in this state: an octet says which counts are there, and whether this
/// state's is filled up so that there is room for no more, or for one.
fn seconds(input: &mut Input, state: NeighbourState) -> Seconds {
    let chosen = input.octet();
    let mut seconds = Seconds::default();
    for (bit, each) in NeighbourState::ALL.into_iter().enumerate() {
        if chosen >> bit & 1 == 1 {
            // So that all five stay within their sum.
            *seconds.of_mut(each) = input.number32() >> 3;
        }
    }
    let left = (Seconds::MOST - seconds.sum()) as u32;
    match chosen >> 5 {
        6 => *seconds.of_mut(state) += left - 1,
        7 => *seconds.of_mut(state) += left,
        _ => {}
    }
    seconds
}

/// A table of zeros, or with rows where this state has them, and a few numbers changed.
fn table(input: &mut Input, filled_for: Option<&State>) -> Vec<u8> {
    let mut numbers = vec![0; TABLE_NUMBERS];
    for (slot, neighbour) in filled_for
        .iter()
        .flat_map(|state| state.neighbours.iter().enumerate())
    {
        let count = usize::from(neighbour.row_count).min(MOST_ROWS);
        for (index, row) in numbers[3 * MOST_ROWS * slot..]
            .chunks_mut(3)
            .take(count)
            .enumerate()
        {
            row.copy_from_slice(&[(index as u32) << 24, neighbour.address, index as u32 * 4]);
        }
    }
    for _ in 0..input.octet() % (MOST_CHANGES + 1) {
        let place = usize::from(input.number16()) % TABLE_NUMBERS;
        numbers[place] = input.number32();
    }
    host::octets_of(&numbers)
}

/// The octets of rows as they are, or good ones for this state, our own address first; external
/// ones may stand where they please.
fn rows(input: &mut Input, made_for: Option<&State>, has_externals: bool) -> Vec<u8> {
    let Some(state) = made_for else {
        let count = input.number16() % (MOST_ROW_OCTETS + 1);
        return input.octets(usize::from(count));
    };
    let count = usize::from(input.octet()) % (MOST_ROWS + 2);
    let rows: Vec<Row> = (0..count)
        .map(|index| {
            let host = input.number32();
            Row {
                net: good_net(input.number32()),
                gateway: match index {
                    0 => state.address,
                    // Runs of equal gateways come up.
                    _ => address_on(state.net, host & 3),
                },
                distance: match has_externals {
                    true => host >> 31 << 8 | u32::from(input.octet()),
                    false => u32::from(input.octet()),
                },
            }
        })
        .collect();
    row_octets(&rows)
}

/// An input that stands for this call, with its block and all octets as they are; none if its
/// table, its rows or its lengths are such that no input of this sort has them.
pub fn input_of(call: &HostCall) -> Option<Vec<u8>> {
    let HostCall { kind, lent, .. } = call;
    let number = CallKind::ALL.iter().position(|other| other == kind)? as u8;
    let block = choice(
        &lent.block,
        takes(*kind, Part::Block),
        STATE_BLOCK,
        &BLOCK_LENGTHS,
    )?;
    let table = choice(
        &lent.table,
        takes(*kind, Part::Table),
        TABLE,
        &TABLE_LENGTHS,
    )?;
    let buffer = match takes(*kind, Part::Buffer) {
        true => buffer_lengths(*kind)
            .iter()
            .position(|length| *length == lent.buffer.len())?,
        false => 0,
    };
    let mut input = vec![
        number,
        0,
        table << 4 | block,
        buffer as u8,
        lent.buffer.first().copied().unwrap_or(0),
        call.capability,
    ];
    input.extend(call.as_number.to_be_bytes());
    input.extend(call.address.to_be_bytes());
    input.extend(call.net.to_be_bytes());
    input.push(call.quiet);
    if takes(*kind, Part::Block) {
        let mut block = lent.block.clone();
        block.resize(STATE_BLOCK, 0);
        input.extend(block);
    }
    if takes(*kind, Part::Table) {
        let changes: Vec<(usize, u32)> = host::numbers_of(&lent.table)
            .into_iter()
            .enumerate()
            .filter(|(_, number)| *number != 0)
            .take(usize::from(MOST_CHANGES))
            .collect();
        input.push(changes.len() as u8);
        for (place, number) in changes {
            input.extend((place as u16).to_be_bytes());
            input.extend(number.to_be_bytes());
        }
    }
    if takes(*kind, Part::Rows) {
        input.extend((call.rows.len() as u16).to_be_bytes());
        input.extend(&call.rows);
    }
    input.extend(&call.octets);
    (call_of(&input) == *call).then_some(input)
}

/// The number that chooses the length of a part; none if it has another.
fn choice(octets: &[u8], is_used: bool, right: usize, others: &[usize]) -> Option<u8> {
    if !is_used || octets.len() == right {
        return Some(0);
    }
    let place = others.iter().position(|length| *length == octets.len())?;
    Some(place as u8 + 1)
}

/// Inputs for a fuzzer to start from, by name: of a list's calls, one for each answer of each kind
/// of call, and for each kind of message that is carried out, as short as they come.
pub fn seeds(seed: u64, calls: usize) -> BTreeMap<String, Vec<u8>> {
    let mut seeds: BTreeMap<String, Vec<u8>> = BTreeMap::new();
    for case in Hosts::new(seed).take(calls) {
        let Some(input) = input_of(&case.call) else {
            continue;
        };
        let kind = format!("{:?}", case.call.kind).to_lowercase();
        let mut names = vec![format!("{kind}-{}", case.answer())];
        if let (CallKind::Message, 0, [_, message_type, code, ..]) =
            (case.call.kind, case.answer(), case.call.octets.as_slice())
        {
            names.push(format!("{kind}-of-{message_type}-{code}"));
        }
        for name in names {
            match seeds.get(&name) {
                Some(shorter) if shorter.len() <= input.len() => {}
                _ => {
                    seeds.insert(name, input.clone());
                }
            }
        }
    }
    seeds
}
