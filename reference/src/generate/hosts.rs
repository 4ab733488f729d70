//! Seeded calls of a host in C (02, L4).
//!
//! Half of them are the calls of a list, played on the block and the table that the call before
//! left, so that deep states are reached. Between these stand calls made aside, each kind about as
//! often, on the list's state or another one: with other lengths, blocks whose octets are no state,
//! rows and meanings that break off. What they leave is not kept.

use super::{faults, material, Act, Generator, Step, ACTS, SELDOM};
use crate::call::{Bench, Call, CallKind, Record};
use crate::checksum;
use crate::gateway::{State, SLOTS};
use crate::host::{self, row_octets, takes, HostCall, Lent, Part, ROW, TABLE};
use crate::message::Kind;
use crate::neighbour::Seconds;
use crate::net;
use crate::random::Random;
use crate::record::{self, MEANING, READING, STATE_BLOCK};
use crate::update::MOST_ROWS;

/// What a length has besides where 16 bits of it are good.
pub const BEYOND_16_BITS: usize = 65_536;
/// The same where 8 bits of it are.
pub const BEYOND_8_BITS: usize = 256;
/// Octets of a block before it had `quiet` (02, L6), and before it had seconds (L7).
pub const EARLIER_BLOCKS: [usize; 2] = [243, 244];
/// Lengths of a block that has not its own.
pub const BLOCK_LENGTHS: [usize; 10] = [
    0,
    1,
    STATE_BLOCK - BEYOND_8_BITS,
    EARLIER_BLOCKS[0],
    EARLIER_BLOCKS[1],
    STATE_BLOCK - 1,
    STATE_BLOCK + 1,
    STATE_BLOCK + BEYOND_8_BITS,
    2 * STATE_BLOCK,
    BEYOND_16_BITS + STATE_BLOCK,
];
/// Lengths of a table that has not its own.
pub const TABLE_LENGTHS: [usize; 7] = [
    0,
    3_072,
    12_284,
    12_287,
    12_289,
    12_292,
    BEYOND_16_BITS + TABLE,
];
/// Lengths of rows, whole or not, up to 128 of them and beyond.
pub const ROW_LENGTHS: [usize; 10] = [
    0,
    1,
    11,
    12,
    13,
    1_535,
    1_536,
    1_537,
    1_548,
    BEYOND_16_BITS + ROW,
];
/// Lengths of a meaning that has not its own.
pub const MEANING_LENGTHS: [usize; 6] = [0, 1, 23, 25, 48, BEYOND_16_BITS + MEANING];

/// Octets of the settings and of a slot in a block, where among the settings `quiet` stands, and
/// where in a slot its state and mode, its counts of ticks and its five counts of seconds.
pub const SETTINGS: usize = 12;
pub const QUIET_OCTET: usize = 11;
pub const SLOT: usize = 49;
pub const STATE_OCTET: usize = 22;
pub const MODE_OCTET: usize = 23;
pub const SINCE_HELLO_OCTET: usize = 27;
pub const SINCE_POLL_OCTET: usize = 28;
pub const SECONDS_OCTETS: std::ops::Range<usize> = 29..49;

/// One call of a host, what the reference returns for it, and what that leaves.
pub struct Case {
    pub call: HostCall,
    pub aim: &'static str,
    pub result: u64,
    pub after: Lent,
    /// The call of a list that it is, unless it was made aside.
    pub listed: Option<Listed>,
}

impl Case {
    pub fn of(call: HostCall, aim: &'static str) -> Case {
        let (result, after) = call.make();
        Case {
            call,
            aim,
            result,
            after,
            listed: None,
        }
    }

    pub fn answer(&self) -> u8 {
        host::answer(self.result)
    }
}

/// A call of a list, on a state and a table in numbers.
pub struct Listed {
    /// What the host did by itself before it.
    pub handed: Vec<Step>,
    pub step: Step,
    pub before: Bench,
    pub after: Bench,
    pub record: Record,
}

/// What can be wrong with a call that is made aside.
#[derive(Clone, Copy, Debug, PartialEq, Eq)]
enum Fault {
    BlockLength,
    /// A number that no state, mode, count of ticks or `quiet` has.
    BlockCode,
    /// Seconds of a free slot, or about as many as can be.
    BlockSeconds,
    /// One rule of well-formedness.
    BlockClause,
    BlockOctet,
    BlockGarbage,
    TableLength,
    /// Any octets, which must stay where no row is written.
    TableOctets,
    BufferLength,
    Address,
    Settings,
    RowLength,
    RowOctet,
    RowsBeside,
    MessageOctet,
    MessageLength,
    MeaningLength,
    MeaningKind,
    /// An octet that the kind has not.
    MeaningUnused,
}

/// What is broken in a call of this kind, and how often.
fn faults_of(kind: CallKind) -> &'static [(u32, Fault)] {
    use Fault::*;
    match kind {
        CallKind::Fresh => &[(3, BlockLength), (6, Settings)],
        CallKind::Add | CallKind::Remove => &[
            (4, BlockLength),
            (3, BlockCode),
            (2, BlockSeconds),
            (5, BlockClause),
            (3, BlockOctet),
            (2, BlockGarbage),
            (2, Address),
        ],
        CallKind::Start | CallKind::Stop | CallKind::Tick => &[
            (4, BlockLength),
            (3, BlockCode),
            (2, BlockSeconds),
            (4, BlockClause),
            (3, BlockOctet),
            (2, BlockGarbage),
            (5, TableLength),
            (4, TableOctets),
            (4, BufferLength),
            (2, Address),
        ],
        CallKind::Message => &[
            (3, BlockLength),
            (3, BlockCode),
            (2, BlockSeconds),
            (4, BlockClause),
            (3, BlockOctet),
            (2, BlockGarbage),
            (4, TableLength),
            (4, TableOctets),
            (3, BufferLength),
            (2, Address),
            (8, RowLength),
            (3, RowOctet),
            (3, MessageOctet),
            (1, MessageLength),
        ],
        CallKind::Listing => &[
            (5, BlockLength),
            (3, BlockCode),
            (2, BlockSeconds),
            (3, BlockClause),
            (3, BlockOctet),
            (2, BlockGarbage),
            (5, TableLength),
            (4, TableOctets),
            (5, BufferLength),
        ],
        CallKind::Read => &[(5, BufferLength), (2, MessageOctet), (1, MessageLength)],
        CallKind::Write => &[
            (3, BufferLength),
            (3, MeaningLength),
            (2, MeaningKind),
            (12, MeaningUnused),
            (5, RowLength),
            (2, RowOctet),
            (3, RowsBeside),
        ],
    }
}

/// How often a call of each kind is made aside. A listing is lent much.
const KINDS: [(u32, CallKind); 10] = [
    (7, CallKind::Fresh),
    (6, CallKind::Add),
    (6, CallKind::Remove),
    (10, CallKind::Start),
    (10, CallKind::Stop),
    (12, CallKind::Tick),
    (22, CallKind::Message),
    (4, CallKind::Listing),
    (6, CallKind::Read),
    (17, CallKind::Write),
];

/// An endless list of a host's calls.
pub struct Hosts {
    random: Random,
    list: Generator,
    /// Makes the calls that are made aside; the list goes on as if there were none.
    maker: Generator,
    /// The list's state and table, in numbers.
    bench: Bench,
    /// The same in octets, as calls left them or as they were handed in since.
    block: Vec<u8>,
    table: Vec<u8>,
}

impl Hosts {
    pub fn new(seed: u64) -> Hosts {
        Hosts {
            random: Random::new(!seed),
            list: Generator::new(seed),
            maker: Generator::new(seed.reverse_bits()),
            bench: Bench::default(),
            block: vec![0; STATE_BLOCK],
            table: vec![0; TABLE],
        }
    }

    // The calls of the list.

    fn listed(&mut self) -> Case {
        let mut handed = Vec::new();
        loop {
            let step = self.list.step();
            let before = self.bench.clone();
            let record = self.bench.run(&step.call);
            match &step.call {
                Call::HandState(state) => self.block = record::state_block(state),
                Call::HandTable(table) => self.table = host::octets_of(table),
                _ => {}
            }
            let Some(call) = self.host_call(&step.call) else {
                handed.push(step);
                continue;
            };
            let mut case = Case::of(call, step.aim);
            self.keep(&case);
            case.listed = Some(Listed {
                handed,
                step,
                before,
                after: self.bench.clone(),
                record,
            });
            return case;
        }
    }

    /// Keeps what a call left, as a host does. A refused fresh leaves the block as it was, but the
    /// list goes on from the all-zero state that [`crate::gateway::fresh`] gives then.
    fn keep(&mut self, case: &Case) {
        if !case.call.lent.block.is_empty() {
            self.block.clone_from(&case.after.block);
        }
        if !case.call.lent.table.is_empty() {
            self.table.clone_from(&case.after.table);
        }
        if case.call.kind == CallKind::Fresh && case.answer() != 0 {
            self.block.fill(0);
        }
    }

    /// A call on the block and table at hand; none for what a host does by itself.
    fn host_call(&mut self, call: &Call) -> Option<HostCall> {
        let kind = call.kind()?;
        let mut made = HostCall::bare(kind);
        if takes(kind, Part::Block) {
            made.lent.block.clone_from(&self.block);
        }
        if takes(kind, Part::Table) {
            made.lent.table.clone_from(&self.table);
        }
        if let Some(buffer) = call.buffer() {
            made.lent.buffer = self.buffer(buffer.length, buffer.fill);
        }
        match call {
            Call::HandState(_) | Call::HandTable(_) | Call::Listing { .. } => {}
            Call::Fresh {
                as_number,
                address,
                capability,
                net,
                quiet,
            } => {
                made.as_number = *as_number;
                made.address = *address;
                made.capability = *capability;
                made.net = *net;
                made.quiet = *quiet;
                if self.random.thousandths(700) {
                    self.fill(&mut made.lent.block);
                }
            }
            Call::Add { address, as_number } => {
                made.address = *address;
                made.as_number = *as_number;
            }
            Call::Remove { address }
            | Call::Start { address, .. }
            | Call::Stop { address, .. }
            | Call::Tick { address, .. } => made.address = *address,
            Call::Message {
                address,
                octets,
                home,
                ..
            } => {
                made.address = *address;
                made.octets.clone_from(octets);
                made.rows = host::octets_of(home);
            }
            Call::Read { octets, net } => {
                made.net = *net;
                made.octets.clone_from(octets);
                let longer = self.random.pick(&[0, 0, 0, 1, 488]);
                let fill = self.random.octet();
                made.lent.buffer = self.buffer(READING + longer, fill);
            }
            Call::Write { message, loose, .. } => {
                made.octets = record::meaning(message).to_vec();
                made.rows = row_octets(record::rows(message));
                made.rows.extend(host::octets_of(loose));
            }
        }
        Some(made)
    }

    /// A buffer as it is lent: all the same octet, or each another than the one before it, so that
    /// octets that are moved within it show.
    fn buffer(&mut self, length: usize, fill: u8) -> Vec<u8> {
        let step = if self.random.thousandths(500) { 0 } else { 167 };
        (0..length)
            .map(|at| fill.wrapping_add((at as u8).wrapping_mul(step)))
            .collect()
    }

    fn fill(&mut self, octets: &mut [u8]) {
        for part in octets.chunks_mut(8) {
            let random = self.random.number64().to_be_bytes();
            part.copy_from_slice(&random[..part.len()]);
        }
    }

    // The calls made aside.

    fn aside(&mut self) -> Case {
        loop {
            let kind = self.random.weighted(&KINDS);
            let state = self.state_at_hand();
            let call = self.call_on(&state, kind);
            let Some(mut call) = self.host_call(&call) else {
                continue;
            };
            self.lend(&mut call, &state);
            let mut aim = "aside";
            let count = self.random.weighted(&[(1, 0), (7, 1), (3, 2), (1, 3)]);
            for index in 0..count {
                let fault = self.random.weighted(faults_of(kind));
                let broken = self.spoil(&mut call, &state, fault);
                aim = if index == 0 { broken } else { "several faults" };
            }
            return Case::of(call, aim);
        }
    }

    /// A well-formed state with a neighbour: the list's, or another.
    fn state_at_hand(&mut self) -> State {
        let state = self.bench.state;
        let is_good = state.is_well_formed() && state.neighbours.iter().any(|n| n.is_used());
        if is_good && self.random.thousandths(600) {
            state
        } else {
            material::state(&mut self.random)
        }
    }

    /// A call of this kind, such as a list makes in this state.
    fn call_on(&mut self, state: &State, kind: CallKind) -> Call {
        self.maker.bench.state = *state;
        let slot = self.slot(|slot| state.neighbours[slot].is_used());
        let (call, _) = match kind {
            CallKind::Fresh => (material::settings(&mut self.random).fresh(), ""),
            CallKind::Add => (self.add(state), ""),
            CallKind::Remove => {
                let address = state.neighbours[slot].address;
                (Call::Remove { address }, "")
            }
            CallKind::Start => (self.maker.event(slot, Act::Start), ""),
            CallKind::Stop => (self.maker.event(slot, Act::Stop), ""),
            CallKind::Tick => (self.maker.event(slot, Act::Tick), ""),
            CallKind::Message if self.random.thousandths(300) => self.maker.faulty_message(slot),
            CallKind::Message => {
                let act = self.random.pick(&ACTS[3..]);
                self.maker.act(slot, act)
            }
            CallKind::Listing => self.maker.list(SELDOM),
            CallKind::Read => self.maker.read_alone(),
            CallKind::Write if self.random.thousandths(150) => self.maker.write_alone(),
            CallKind::Write => (self.write(), ""),
        };
        call
    }

    fn add(&mut self, state: &State) -> Call {
        Call::Add {
            address: material::peer_address(&mut self.random, state),
            as_number: material::peer_as(&mut self.random, state.as_number),
        }
    }

    fn write(&mut self) -> Call {
        let kind = self.random.pick(&Kind::ALL);
        Call::Write {
            message: material::message(&mut self.random, kind),
            loose: Vec::new(),
            buffer: self.maker.reply_buffer(),
        }
    }

    /// Lends a call this state, and a table that goes with it.
    fn lend(&mut self, call: &mut HostCall, state: &State) {
        if call.kind != CallKind::Fresh && takes(call.kind, Part::Block) {
            call.lent.block = record::state_block(state);
        }
        if takes(call.kind, Part::Table)
            && (*state != self.bench.state || self.table.len() != TABLE)
        {
            let listable = self.random.thousandths(850);
            let table = material::table(&mut self.random, state, listable);
            call.lent.table = host::octets_of(&table);
        }
    }

    /// A slot of this sort, or any if there is none.
    fn slot(&mut self, is_wanted: impl Fn(usize) -> bool) -> usize {
        let wanted: Vec<usize> = (0..SLOTS).filter(|&slot| is_wanted(slot)).collect();
        match wanted.as_slice() {
            [] => self.random.below(SLOTS),
            slots => self.random.pick(slots),
        }
    }

    /// Breaks a call in one way, and says in which.
    fn spoil(&mut self, call: &mut HostCall, state: &State, fault: Fault) -> &'static str {
        match fault {
            Fault::BlockLength => {
                let length = self.random.pick(&BLOCK_LENGTHS);
                self.resize(&mut call.lent.block, length);
                "block length"
            }
            Fault::BlockCode => self.block_code(call, state),
            Fault::BlockSeconds => self.block_seconds(call, state),
            Fault::BlockClause => {
                let mut broken = *state;
                let clause = faults::break_state(&mut self.random, &mut broken);
                call.lent.block = record::state_block(&broken);
                clause
            }
            Fault::BlockOctet => {
                self.change_octet(&mut call.lent.block);
                "block: one octet changed"
            }
            Fault::BlockGarbage => self.block_garbage(call),
            Fault::TableLength => {
                let length = self.random.pick(&TABLE_LENGTHS);
                self.resize(&mut call.lent.table, length);
                "table length"
            }
            Fault::TableOctets => {
                self.fill(&mut call.lent.table);
                "table of any octets"
            }
            Fault::BufferLength => {
                let length = self.buffer_length(call.kind);
                let fill = self.random.octet();
                call.lent.buffer = self.buffer(length, fill);
                "buffer length"
            }
            Fault::Address => {
                let any = self.random.number32();
                call.address = self.random.pick(&[0, state.address, any]);
                "address"
            }
            Fault::Settings => self.settings(call),
            Fault::RowLength => self.row_length(call, state),
            Fault::RowOctet => {
                self.change_octet(&mut call.rows);
                "rows: one octet changed"
            }
            Fault::RowsBeside => self.rows_beside(call),
            Fault::MessageOctet => {
                self.change_octet(&mut call.octets);
                if call.octets.len() >= 6 && self.random.thousandths(500) {
                    checksum::seal(&mut call.octets);
                }
                "message: one octet changed"
            }
            Fault::MessageLength => {
                let length = call.octets.len() + BEYOND_16_BITS;
                call.octets.resize(length, 0);
                "message length beyond 16 bits"
            }
            Fault::MeaningLength => {
                let length = self.random.pick(&MEANING_LENGTHS);
                call.octets.resize(length, 0);
                "meaning length"
            }
            Fault::MeaningKind => {
                let any = self.random.between(10, 255) as u8;
                if let Some(kind) = call.octets.first_mut() {
                    *kind = self.random.pick(&[10, 255, any]);
                }
                "meaning of an unknown kind"
            }
            Fault::MeaningUnused => self.meaning_unused(call),
        }
    }

    /// Cuts octets off, or puts any behind.
    fn resize(&mut self, octets: &mut Vec<u8>, length: usize) {
        let kept = octets.len();
        octets.resize(length, 0);
        if length > kept && self.random.thousandths(500) {
            self.fill(&mut octets[kept..]);
        }
    }

    /// One more, one less, a bit, or any other octet in its place.
    fn change_octet(&mut self, octets: &mut [u8]) {
        if octets.is_empty() {
            return;
        }
        let octet = &mut octets[self.random.below(octets.len())];
        *octet = match self.random.below(4) {
            0 => octet.wrapping_add(1),
            1 => octet.wrapping_sub(1),
            2 => *octet ^ 1 << self.random.below(8),
            _ => self.random.octet(),
        };
    }

    /// A state above 4, a mode above 2, a count above 120 or `quiet` above 1, one above the last more
    /// often than not.
    fn block_code(&mut self, call: &mut HostCall, state: &State) -> &'static str {
        let is_free = self.random.thousandths(150);
        let slot = self.slot(|slot| state.neighbours[slot].is_used() != is_free);
        let in_slot = |at: usize| SETTINGS + SLOT * slot + at;
        let (aim, at, least) = self.random.pick(&[
            ("state above 4", in_slot(STATE_OCTET), 5),
            ("mode above 2", in_slot(MODE_OCTET), 3),
            (
                "ticks since Hello above 120",
                in_slot(SINCE_HELLO_OCTET),
                121,
            ),
            ("ticks since Poll above 120", in_slot(SINCE_POLL_OCTET), 121),
            ("quiet above 1", QUIET_OCTET, 2),
        ]);
        let any = self.random.between(least, 255) as u8;
        let code = self.random.pick(&[least as u8, least as u8, 255, any]);
        if let Some(octet) = call.lent.block.get_mut(at) {
            *octet = code;
        }
        aim
    }

    /// An octet of a free slot's seconds, or a neighbour's seconds near their sum, one too many among
    /// them.
    fn block_seconds(&mut self, call: &mut HostCall, state: &State) -> &'static str {
        let is_free = self.random.thousandths(500);
        let slot = self.slot(|slot| state.neighbours[slot].is_used() != is_free);
        let neighbour = state.neighbours[slot];
        let from = SETTINGS + SLOT * slot + SECONDS_OCTETS.start;
        let Some(octets) = call.lent.block.get_mut(from..from + SECONDS_OCTETS.len()) else {
            return "block length";
        };
        if !neighbour.is_used() {
            let any = self.random.octet().max(1);
            octets[self.random.below(octets.len())] = self.random.pick(&[1, 128, 255, any]);
            return "seconds of a free slot";
        }
        let seconds = match self.random.below(3) {
            0 => material::seconds_of_sum(&mut self.random, Seconds::MOST + 1),
            _ => material::seconds_near_the_sum(&mut self.random, neighbour.state),
        };
        for (place, count) in octets.chunks_exact_mut(4).zip(seconds.all()) {
            place.copy_from_slice(&count.to_be_bytes());
        }
        "seconds near their sum"
    }

    /// Octets that are no state: all of them, the slots', or those of one slot.
    fn block_garbage(&mut self, call: &mut HostCall) -> &'static str {
        let block = &mut call.lent.block;
        let length = block.len();
        let slot = SETTINGS + SLOT * self.random.below(SLOTS);
        match self.random.below(6) {
            0 => {
                self.fill(block);
                "garbage"
            }
            1 => {
                block.fill(0);
                "garbage: zeros"
            }
            2 => {
                block.fill(255);
                "garbage: ones"
            }
            3 => {
                self.fill(&mut block[SETTINGS.min(length)..]);
                "garbage slots"
            }
            // Its address and AS may be good still.
            4 => {
                self.fill(&mut block[(slot + 6).min(length)..(slot + SLOT).min(length)]);
                "garbage in a slot"
            }
            _ => {
                self.fill(&mut block[slot.min(length)..(slot + SLOT).min(length)]);
                "garbage slot"
            }
        }
    }

    /// About the least that is asked for, now and then much less.
    fn buffer_length(&mut self, kind: CallKind) -> usize {
        let least = host::least_buffer(kind);
        self.random
            .pick(&[least - 1, least - 1, least, least + 1, 24, 0])
    }

    /// Settings that fresh refuses.
    fn settings(&mut self, call: &mut HostCall) -> &'static str {
        match self.random.below(8) {
            0 => {
                call.as_number = 0;
                "fresh: AS 0"
            }
            1 => {
                call.capability = 3;
                "fresh: capability 3"
            }
            2 => {
                call.capability = self.random.pick(&[4, 128, 255]);
                "fresh: capability above 3"
            }
            3 => {
                call.net |= 1;
                "fresh: net not left justified"
            }
            4 => {
                call.net = net::address(224, 0, 0, 0);
                call.address = net::address(224, 0, 0, 1);
                "fresh: net of no class"
            }
            5 => {
                call.quiet = 2;
                "fresh: quiet 2"
            }
            6 => {
                call.quiet = self.random.pick(&[3, 128, 255]);
                "fresh: quiet above 2"
            }
            _ => {
                call.address ^= 0x4000_0000;
                "fresh: address off the net"
            }
        }
    }

    /// Rows that would be good, at another length: not whole, as many as may be, one too many.
    fn row_length(&mut self, call: &mut HostCall, state: &State) -> &'static str {
        let length = self.random.pick(&ROW_LENGTHS);
        let is_home = call.kind == CallKind::Message;
        let mut net = state.net;
        if !is_home {
            self.write_kind(call, Kind::Update);
            net = host::numbers_of(&call.octets)[3];
        }
        let externals = !is_home && self.random.thousandths(300);
        let count = length.div_ceil(ROW).clamp(1, MOST_ROWS + 1);
        let mut rows = material::rows(&mut self.random, net, count, externals);
        if is_home {
            rows[0].gateway = state.address;
        }
        call.rows = row_octets(&rows);
        call.rows.resize(length, 0);
        "rows length"
    }

    /// Rows beside a meaning, which but one kind has.
    fn rows_beside(&mut self, call: &mut HostCall) -> &'static str {
        let kind = self.random.pick(&Kind::ALL);
        self.write_kind(call, kind);
        let net = material::net(&mut self.random);
        let count = self.random.pick(&[1, 2, MOST_ROWS]);
        call.rows = row_octets(&material::rows(&mut self.random, net, count, false));
        "rows beside a kind"
    }

    /// A meaning with one octet set that its kind leaves 0, each octet of each kind as often.
    fn meaning_unused(&mut self, call: &mut HostCall) -> &'static str {
        let unused: Vec<(Kind, usize)> = Kind::ALL
            .into_iter()
            .flat_map(|kind| unused_octets(record::kind_number(kind)).map(move |at| (kind, at)))
            .collect();
        let (kind, at) = self.random.pick(&unused);
        self.write_kind(call, kind);
        call.octets[at] = match self.random.below(3) {
            0 => 1,
            1 => 128,
            _ => self.random.octet().max(1),
        };
        "meaning: unused octet set"
    }

    /// Has a good meaning of this kind written.
    fn write_kind(&mut self, call: &mut HostCall, kind: Kind) {
        let message = material::message(&mut self.random, kind);
        call.octets = record::meaning(&message).to_vec();
        call.rows = row_octets(record::rows(&message));
    }
}

impl Iterator for Hosts {
    type Item = Case;

    fn next(&mut self) -> Option<Case> {
        Some(if self.random.thousandths(500) {
            self.aside()
        } else {
            self.listed()
        })
    }
}

/// The octets of a meaning that a kind of this number leaves 0.
pub fn unused_octets(kind: u8) -> impl Iterator<Item = usize> {
    let (first, second) = match kind {
        // Intervals stand before them.
        0 | 1 => (10..12, 12..24),
        2..=6 => (6..12, 12..24),
        // A net stands between.
        7 | 8 => (6..12, 16..24),
        // Three words stand behind, a reason before.
        9 => (8..12, 24..24),
        _ => (0..0, 0..0),
    };
    first.chain(second)
}
