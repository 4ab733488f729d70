//! Seeded lists of calls.
//!
//! The generator runs the reference's own gateway beside the list it makes, and looks at the
//! state to choose the next call, so that deep states are really reached: neighbours acquired in
//! both modes, polled, holding rows, stopped half way. Between such calls it puts calls with one
//! thing wrong or two, states and tables handed in from outside, and reading and writing alone.

pub mod day;
pub mod faults;
pub mod hosts;
pub mod line_faults;
pub mod material;
pub mod recordings;

use std::collections::VecDeque;

use crate::call::{Bench, Buffer, Call};
use crate::checksum;
use crate::gateway::{self, State, SLOTS, TABLE_NUMBERS};
use crate::listing::LISTING_BUFFER;
use crate::message::{self, Body, Intervals, Kind, Message, LONGEST, REPLY_BUFFER};
use crate::neighbour::{
    Mode, Neighbour, NeighbourState, HELLO_TICKS, MOST_TICKS, POLL_TICKS, STATUS_UP, STRAYS,
};
use crate::net;
use crate::random::Random;
use crate::update::MOST_ROWS;
use faults::Sender;

/// How often in a thousand a buffer is too short: in a list's life, and where a check that stands
/// before its own fails too.
const SELDOM: u64 = 150;
const OFTEN: u64 = 400;

/// What an add is made for right after the same neighbour was removed.
pub(crate) const ADDED_AGAIN: &str = "added again";

/// The type of a Poll.
const POLL_TYPE: u8 = 2;

/// How the state a call works on came about.
#[derive(Clone, Copy, Debug, PartialEq, Eq)]
pub enum Origin {
    /// By the calls since fresh.
    Reached,
    /// Handed in from outside, or by calls since then.
    HandedIn,
}

/// One call of the list, with what it was made for.
#[derive(Clone, Debug)]
pub struct Step {
    pub call: Call,
    pub aim: &'static str,
    pub origin: Origin,
}

/// What can happen to a neighbour without a fault.
#[derive(Clone, Copy, Debug, PartialEq, Eq)]
enum Act {
    Start,
    Stop,
    Tick,
    Request,
    RequestUnacceptable,
    Confirm,
    ConfirmUnacceptable,
    Refuse,
    Cease,
    CeaseAck,
    Hello,
    IHeardYou,
    Poll,
    PollElsewhere,
    Update,
    Error,
}

const ACTS: [Act; 16] = [
    Act::Start,
    Act::Stop,
    Act::Tick,
    Act::Request,
    Act::RequestUnacceptable,
    Act::Confirm,
    Act::ConfirmUnacceptable,
    Act::Refuse,
    Act::Cease,
    Act::CeaseAck,
    Act::Hello,
    Act::IHeardYou,
    Act::Poll,
    Act::PollElsewhere,
    Act::Update,
    Act::Error,
];

/// How the neighbour at hand behaves for a while.
#[derive(Clone, Copy, Debug, PartialEq, Eq)]
enum Temper {
    /// Answers, keeps alive, reports nets.
    Steady,
    /// Says nothing: seconds go by.
    Silent,
    /// Anything at any time.
    Restless,
}

/// What comes from outside.
#[derive(Clone, Copy, Debug, PartialEq, Eq)]
enum Handed {
    /// Most likely a well-formed state, with a table of the right length.
    State,
    /// A well-formed state whose neighbours are all acquired and unheard.
    Unheard,
    /// A well-formed state whose neighbours are all in Idle.
    Idle,
    /// A well-formed state in which about as many ticks have gone by as Hellos and Polls must be
    /// apart.
    NearTheRates,
    /// A well-formed state in which about as many seconds are counted as can be.
    NearTheSum,
    /// A state that breaks one rule.
    BrokenState,
    /// A table of a wrong length.
    Table,
}

/// What is put aside while a state or table from outside is worked on.
struct Aside {
    handed: Handed,
    state: State,
    table: Vec<u32>,
}

/// An endless list of calls.
pub struct Generator {
    random: Random,
    bench: Bench,
    queue: VecDeque<(Call, &'static str)>,
    aside: Option<Aside>,
    /// Calls still to be made on what was handed in.
    handed_left: usize,
    /// Broken states still to be handed in before the list goes on.
    broken_left: usize,
    /// Calls still to be made before the next fresh.
    list_left: usize,
    /// Whether this list is still bringing every neighbour Up with 128 rows.
    filling: bool,
    focus: usize,
    focus_left: usize,
    temper: Temper,
}

impl Generator {
    pub fn new(seed: u64) -> Generator {
        Generator {
            random: Random::new(seed),
            bench: Bench::default(),
            queue: VecDeque::new(),
            aside: None,
            handed_left: 0,
            broken_left: 0,
            list_left: 0,
            filling: false,
            focus: 0,
            focus_left: 0,
            temper: Temper::Steady,
        }
    }

    /// The next call.
    pub fn step(&mut self) -> Step {
        let (call, aim) = self.choose();
        let handed = matches!(call, Call::HandState(_) | Call::HandTable(_));
        let origin = if self.aside.is_some() && !handed {
            Origin::HandedIn
        } else {
            Origin::Reached
        };
        self.bench.run(&call);
        Step { call, aim, origin }
    }

    fn choose(&mut self) -> (Call, &'static str) {
        if let Some(step) = self.queue.pop_front() {
            return step;
        }
        if let Some(aside) = &self.aside {
            if self.handed_left > 0 {
                self.handed_left -= 1;
                return self.call_on_handed(aside.handed);
            }
            if self.broken_left > 0 {
                self.broken_left -= 1;
                return self.break_state(aside.state);
            }
            self.take_back();
            return self.choose();
        }
        if self.list_left == 0 {
            self.begin_list();
            return self.choose();
        }
        self.list_left -= 1;
        if self.filling {
            return self.fill();
        }
        match self.random.below(1000) {
            0..=59 | 509..=512 => self.read_alone(),
            60..=99 => self.write_alone(),
            100..=174 => self.hand_well_formed(),
            175..=209 | 476..=482 => self.hand_broken(),
            210..=226 => self.hand_table(),
            227..=235 => self.refused_fresh(),
            236..=278 => self.wrong_argument(),
            279..=378 | 513..=519 => {
                let slot = self.used_slot();
                self.faulty_message(slot)
            }
            379..=393 | 520..=521 => self.membership(),
            394..=398 => self.list(SELDOM),
            399..=400 => self.near_the_turn(),
            401..=412 => self.hand_unheard(),
            413..=457 => self.hand_near_the_rates(),
            458..=475 => self.hand_idle(),
            483..=507 => self.hand_near_the_sum(),
            508 => self.hand_longest(),
            _ => self.live(),
        }
    }

    // Lists.

    /// A new list: a zeroed table, fresh, and up to eight neighbours.
    fn begin_list(&mut self) {
        let mut own = material::settings(&mut self.random);
        self.filling = self.random.thousandths(300);
        self.list_left = if self.filling { 700 } else { 2200 };
        let wanted = if self.filling {
            // A passive neighbour comes up soonest.
            own.capability = 2;
            SLOTS
        } else {
            self.random.pick(&[1, 2, 3, 5, 7, 8, 8, 8])
        };
        let zeroed = Call::HandTable(vec![0; TABLE_NUMBERS]);
        self.queue.push_back((zeroed, "new list"));
        self.queue.push_back((own.fresh(), "new list"));
        let mut bench = Bench::default();
        bench.run(&own.fresh());
        let mut state = bench.state;
        for _ in 0..wanted {
            let address = material::peer_address(&mut self.random, &state);
            let as_number = material::peer_as(&mut self.random, own.as_number);
            state = gateway::add(&state, address, as_number).state;
            self.queue
                .push_back((Call::Add { address, as_number }, "new list"));
        }
        self.focus_left = 0;
    }

    /// Brings every neighbour Up with 128 rows, slot by slot, then lists a few times.
    fn fill(&mut self) -> (Call, &'static str) {
        let unfilled = self.bench.state.neighbours.iter().position(|neighbour| {
            neighbour.is_used() && usize::from(neighbour.row_count) < MOST_ROWS
        });
        let Some(slot) = unfilled else {
            self.filling = false;
            for _ in 0..7 {
                let step = self.list(SELDOM);
                self.queue.push_back((step.0, "full list"));
            }
            return self.list(SELDOM);
        };
        let neighbour = self.bench.state.neighbours[slot];
        match neighbour.state {
            NeighbourState::Idle => {
                let octets = self.header_and(slot, Kind::Request, 1, 7, &[0, 30, 0, 120]);
                self.message(slot, octets, "filling")
            }
            NeighbourState::Down if neighbour.heard == 0 && may_hello(&neighbour) => {
                let octets = self.header_and(slot, Kind::Hello, STATUS_UP, 8, &[]);
                self.message(slot, octets, "filling")
            }
            NeighbourState::Up => {
                let octets = self.full_update(slot);
                self.message(slot, octets, "filling")
            }
            NeighbourState::Acquisition | NeighbourState::Cease => {
                (self.event(slot, Act::Stop), "filling")
            }
            NeighbourState::Down => (self.event(slot, Act::Tick), "filling"),
        }
    }

    /// An Update of 128 rows, grouped as the writer does.
    fn full_update(&mut self, slot: usize) -> Vec<u8> {
        let neighbour = self.bench.state.neighbours[slot];
        let net = self.bench.state.net;
        let externals = self.random.thousandths(500);
        let rows = material::rows(&mut self.random, net, MOST_ROWS, externals);
        message::encode(&Message {
            status: STATUS_UP,
            as_number: neighbour.as_number,
            sequence: neighbour.send_sequence,
            body: Body::Update { net, rows },
        })
    }

    /// One call of a neighbour's ordinary or restless life.
    fn live(&mut self) -> (Call, &'static str) {
        let at_hand = self.bench.state.neighbours[self.focus];
        let waited_out = self.temper == Temper::Silent && nothing_more_by_waiting(&at_hand);
        if self.focus_left == 0 || waited_out || !at_hand.is_used() {
            self.refocus();
        }
        self.focus_left = self.focus_left.saturating_sub(1);
        let slot = self.focus;
        if is_waiting(&self.bench.state.neighbours[slot]) && self.random.thousandths(25) {
            self.temper = Temper::Silent;
            self.focus_left = 500;
        }
        if !self.bench.state.neighbours[slot].is_used() {
            return self.membership();
        }
        let act = match self.temper {
            Temper::Silent => Act::Tick,
            Temper::Restless => self.random.pick(&ACTS),
            Temper::Steady => self.steady_act(slot),
        };
        self.act(slot, act)
    }

    /// Stays with the neighbour at hand more often than not, so that its life gets long.
    fn refocus(&mut self) {
        let stays = self.random.thousandths(650);
        self.focus = if stays {
            self.used_slot()
        } else {
            self.random.below(SLOTS)
        };
        let neighbour = self.bench.state.neighbours[self.focus];
        self.temper = if nothing_more_by_waiting(&neighbour) {
            self.random
                .weighted(&[(4, Temper::Steady), (1, Temper::Restless)])
        } else {
            self.random.weighted(&[
                (65, Temper::Steady),
                (20, Temper::Silent),
                (15, Temper::Restless),
            ])
        };
        self.focus_left = match self.temper {
            Temper::Steady => self.random.between(20, 250) as usize,
            Temper::Silent => 500,
            Temper::Restless => self.random.between(5, 40) as usize,
        };
    }

    /// The slot at hand, or another if that one is free.
    fn used_slot(&mut self) -> usize {
        let used: Vec<usize> = (0..SLOTS)
            .filter(|&slot| self.bench.state.neighbours[slot].is_used())
            .collect();
        if used.is_empty() || used.contains(&self.focus) {
            self.focus
        } else {
            self.random.pick(&used)
        }
    }

    /// As many Polls as bring S to the turn would make a long list, and as many ticks as fill a
    /// count's octets a longer one; S and the seconds are moved instead, and the list goes on.
    fn near_the_turn(&mut self) -> (Call, &'static str) {
        let mut state = self.bench.state;
        for neighbour in state.neighbours.iter_mut().filter(|n| n.is_used()) {
            if neighbour.state == NeighbourState::Up {
                neighbour.send_sequence = self.random.pick(&[65_534, 65_535, 65_535]);
            }
            neighbour.seconds = material::seconds_apart(&mut self.random, neighbour.state);
        }
        (Call::HandState(Box::new(state)), "S near the turn")
    }

    /// What a neighbour that wants to come up and stay up does next.
    fn steady_act(&mut self, slot: usize) -> Act {
        let neighbour = self.bench.state.neighbours[slot];
        let random = &mut self.random;
        match neighbour.state {
            NeighbourState::Idle => random.weighted(&[
                (45, Act::Start),
                (40, Act::Request),
                (3, Act::RequestUnacceptable),
                (2, Act::Cease),
                (2, Act::Stop),
                (12, Act::Tick),
                (2, Act::Hello),
                (2, Act::Update),
                (1, Act::Poll),
                (1, Act::IHeardYou),
                (1, Act::Confirm),
                (1, Act::Refuse),
            ]),
            NeighbourState::Acquisition => random.weighted(&[
                (50, Act::Confirm),
                (15, Act::Request),
                (20, Act::Tick),
                (3, Act::Start),
                (3, Act::ConfirmUnacceptable),
                (3, Act::Refuse),
                (2, Act::Hello),
                (2, Act::IHeardYou),
            ]),
            NeighbourState::Down | NeighbourState::Up => {
                if neighbour.heard == 0 && random.thousandths(300) {
                    return indication(random, &neighbour);
                }
                if let Some(act) = near_its_rate(random, &neighbour) {
                    return act;
                }
                let seconds = match neighbour.state {
                    NeighbourState::Down => 900,
                    _ => 800,
                };
                if random.thousandths(seconds) {
                    return Act::Tick;
                }
                random.weighted(&[
                    (30, Act::Update),
                    (12, Act::Poll),
                    (15, Act::Hello),
                    (6, Act::PollElsewhere),
                    (10, Act::IHeardYou),
                    (5, Act::Refuse),
                    (5, Act::CeaseAck),
                    (5, Act::Confirm),
                    (5, Act::Error),
                    // What undoes an acquisition, now and then.
                    (1, Act::Start),
                    (1, Act::Stop),
                    (1, Act::Request),
                    (1, Act::RequestUnacceptable),
                    (1, Act::Cease),
                ])
            }
            NeighbourState::Cease => {
                if random.thousandths(600) {
                    Act::Tick
                } else {
                    random.pick(&ACTS)
                }
            }
        }
    }

    /// A call that does this to the neighbour.
    fn act(&mut self, slot: usize, act: Act) -> (Call, &'static str) {
        let neighbour = self.bench.state.neighbours[slot];
        let state = self.bench.state;
        let response = neighbour.send_sequence;
        let command = match self.random.below(3) {
            0 => neighbour.receive_sequence.wrapping_add(1),
            _ => material::sequence(&mut self.random),
        };
        let octets = match act {
            Act::Start | Act::Stop | Act::Tick => return (self.event(slot, act), "life"),
            Act::Request | Act::Confirm => {
                let (status, intervals) = material::acceptable(&mut self.random, state.capability);
                self.acquisition(slot, act, status, intervals, command)
            }
            Act::RequestUnacceptable | Act::ConfirmUnacceptable => {
                let (status, intervals) =
                    material::unacceptable(&mut self.random, state.capability);
                self.acquisition(slot, act, status, intervals, command)
            }
            Act::Refuse => self.any_status(slot, Kind::Refuse, response, &[]),
            Act::Cease => self.any_status(slot, Kind::Cease, command, &[]),
            Act::CeaseAck => self.any_status(slot, Kind::CeaseAck, response, &[]),
            Act::Hello if self.random.thousandths(650) => {
                self.header_and(slot, Kind::Hello, STATUS_UP, command, &[])
            }
            Act::Hello => self.any_status(slot, Kind::Hello, command, &[]),
            Act::IHeardYou => self.any_status(slot, Kind::IHeardYou, response, &[]),
            Act::Poll | Act::PollElsewhere => {
                let net = match act {
                    Act::Poll => state.net,
                    _ => state.net ^ self.random.pick(&[1, 0x0001_0000, 0x8000_0000]),
                };
                let mut rest = vec![self.random.octet(), self.random.octet()];
                rest.extend(net.to_be_bytes());
                let status = self.random.pick(&[0, 1, 1, 1, 2]);
                self.header_and(slot, Kind::Poll, status, command, &rest)
            }
            Act::Update => self.update(slot, response),
            Act::Error => {
                let rest: Vec<u8> = (0..14).map(|_| self.random.octet()).collect();
                self.any_status(slot, Kind::Error, command, &rest)
            }
        };
        self.message(slot, octets, "life")
    }

    fn acquisition(
        &mut self,
        slot: usize,
        act: Act,
        status: u8,
        intervals: Intervals,
        command: u16,
    ) -> Vec<u8> {
        let (kind, sequence) = match act {
            Act::Request | Act::RequestUnacceptable => (Kind::Request, command),
            _ => (
                Kind::Confirm,
                self.bench.state.neighbours[slot].send_sequence,
            ),
        };
        let mut rest = intervals.hello.to_be_bytes().to_vec();
        rest.extend(intervals.poll.to_be_bytes());
        self.header_and(slot, kind, status, sequence, &rest)
    }

    /// A good Update: grouped or not, now and then full, empty or with external rows.
    fn update(&mut self, slot: usize, sequence: u16) -> Vec<u8> {
        if self.random.thousandths(100) {
            return self.full_update(slot);
        }
        let net = self.bench.state.net;
        let rest = material::blocks(&mut self.random, net, MOST_ROWS).rest();
        self.any_status(slot, Kind::Update, sequence, &rest)
    }

    fn any_status(&mut self, slot: usize, kind: Kind, sequence: u16, rest: &[u8]) -> Vec<u8> {
        let status = material::status(&mut self.random, kind);
        self.header_and(slot, kind, status, sequence, rest)
    }

    fn header_and(
        &mut self,
        slot: usize,
        kind: Kind,
        status: u8,
        sequence: u16,
        rest: &[u8],
    ) -> Vec<u8> {
        let as_number = self.bench.state.neighbours[slot].as_number;
        material::frame(kind.type_and_code(), status, as_number, sequence, rest)
    }

    fn event(&mut self, slot: usize, act: Act) -> Call {
        let address = self.bench.state.neighbours[slot].address;
        let reply = self.reply_buffer();
        match act {
            Act::Start => Call::Start { address, reply },
            Act::Stop => Call::Stop { address, reply },
            _ => Call::Tick { address, reply },
        }
    }

    fn message(&mut self, slot: usize, octets: Vec<u8>, aim: &'static str) -> (Call, &'static str) {
        let state = self.bench.state;
        // Only a Poll is answered with it.
        let empty = match octets.get(1) {
            Some(&POLL_TYPE) => 150,
            _ => 300,
        };
        let home = if self.random.thousandths(empty) {
            Vec::new()
        } else {
            material::home_list(&mut self.random, state.address, state.net)
        };
        let call = Call::Message {
            address: state.neighbours[slot].address,
            octets,
            home,
            reply: self.reply_buffer(),
        };
        (call, aim)
    }

    /// Mostly the least that is asked for, sometimes more.
    fn reply_buffer(&mut self) -> Buffer {
        Buffer {
            length: self.random.pick(&[REPLY_BUFFER, REPLY_BUFFER, 2049, 3000]),
            fill: self.random.octet(),
        }
    }

    // Calls with one thing wrong.

    fn sender(&mut self, slot: usize) -> Sender {
        let neighbour = self.bench.state.neighbours[slot];
        Sender {
            as_number: neighbour.as_number,
            sequence: neighbour.send_sequence,
            net: self.bench.state.net,
        }
    }

    /// A broken message, more often of the sort that matters in the neighbour's state.
    fn faulty_message(&mut self, slot: usize) -> (Call, &'static str) {
        let sender = self.sender(slot);
        let random = &mut self.random;
        let fault = match self.bench.state.neighbours[slot].state {
            NeighbourState::Idle if random.thousandths(500) => {
                random.weighted(&[(2, "wrong AS on a Request"), (3, "wrong AS near a Request")])
            }
            NeighbourState::Acquisition | NeighbourState::Cease if random.thousandths(450) => {
                let unread_body = random.pick(&faults::BODY_FAULTS);
                random.weighted(&[
                    (6, "out of sequence"),
                    (2, "wrong AS on a Request"),
                    (1, unread_body),
                ])
            }
            NeighbourState::Up if random.thousandths(250) => random.weighted(&[
                (2, "Update above 128 rows"),
                (1, "out of sequence"),
                (1, "Update of 129 rows and a defect"),
                (1, "sequence and body"),
            ]),
            _ => random.weighted(&faults::MESSAGE_FAULTS),
        };
        let octets = faults::message(random, sender, fault);
        self.message(slot, octets, fault)
    }

    /// A short buffer, a bad home list, an unknown address, or several at once.
    fn wrong_argument(&mut self) -> (Call, &'static str) {
        let slot = self.used_slot();
        let (mut call, _) = match self.random.below(6) {
            0 => (self.event(slot, Act::Start), ""),
            1 => (self.event(slot, Act::Stop), ""),
            2 => (self.event(slot, Act::Tick), ""),
            3 => self.faulty_message(slot),
            _ => {
                let act = self.random.pick(&ACTS[3..]);
                self.act(slot, act)
            }
        };
        let state = self.bench.state;
        let unknown = self.unknown_address();
        let mut aim = "";
        let wanted = self.random.between(1, 7);
        if wanted & 1 != 0 {
            aim = "unknown address";
            if let Call::Message { octets, .. } = &mut call {
                match self.random.below(8) {
                    0 => octets.truncate(self.random.below(10)),
                    1 => octets.resize(LONGEST + 1, 0),
                    _ => {}
                }
            }
            match &mut call {
                Call::Start { address, .. }
                | Call::Stop { address, .. }
                | Call::Tick { address, .. }
                | Call::Message { address, .. } => *address = unknown,
                _ => {}
            }
        }
        if wanted & 2 != 0 {
            if let Call::Message { home, .. } = &mut call {
                (*home, aim) = faults::home_list(&mut self.random, state.address, state.net);
            }
        }
        if wanted & 4 != 0 && self.random.thousandths(600) || aim.is_empty() {
            aim = "short buffer";
            self.shorten(&mut call);
        }
        (call, aim)
    }

    /// Lends a call a reply buffer that is too short.
    fn shorten(&mut self, call: &mut Call) {
        let short = Buffer {
            length: self.random.pick(&[0, 1, 10, 24, 2047]),
            fill: self.random.octet(),
        };
        match call {
            Call::Start { reply, .. }
            | Call::Stop { reply, .. }
            | Call::Tick { reply, .. }
            | Call::Message { reply, .. } => *reply = short,
            _ => {}
        }
    }

    fn unknown_address(&mut self) -> u32 {
        let state = self.bench.state;
        match self.random.below(3) {
            0 => 0,
            1 if state.find(state.address).is_none() => state.address,
            _ => material::peer_address(&mut self.random, &state),
        }
    }

    /// Add and remove, good and bad.
    fn membership(&mut self) -> (Call, &'static str) {
        let state = self.bench.state;
        let random = &mut self.random;
        let present = state.neighbours[random.below(SLOTS)].address;
        let good_address = material::peer_address(random, &state);
        let good_as = material::peer_as(random, state.as_number);
        let add = |address, as_number, aim| (Call::Add { address, as_number }, aim);
        match random.below(12) {
            0..=2 => add(good_address, good_as, "add"),
            3 => add(good_address, 0, "add AS 0"),
            4 => add(good_address, state.as_number, "add own AS"),
            5 => add(0, good_as, "add address 0"),
            6 => add(state.address, good_as, "add own address"),
            7 => add(present, good_as, "add present address"),
            8 => {
                let address = self.unknown_address();
                (Call::Remove { address }, "remove unknown")
            }
            _ => {
                // One that is Idle if there is one, half of the time.
                let idle = state.neighbours.iter().find(|neighbour| {
                    neighbour.is_used() && neighbour.state == NeighbourState::Idle
                });
                let address = match idle {
                    Some(neighbour) if random.thousandths(500) => neighbour.address,
                    _ => present,
                };
                (Call::Remove { address }, "remove")
            }
        }
    }

    /// A listing, so often in a thousand with too short a buffer.
    fn list(&mut self, short: u64) -> (Call, &'static str) {
        let length = if self.random.thousandths(short) {
            self.random.pick(&[0, 100, 2048, LISTING_BUFFER - 1])
        } else {
            LISTING_BUFFER + self.random.below(2)
        };
        let buffer = Buffer {
            length,
            fill: self.random.octet(),
        };
        (Call::Listing { buffer }, "listing")
    }

    /// Fresh refused: the all-zero state it leaves is not well formed, which a few calls see.
    fn refused_fresh(&mut self) -> (Call, &'static str) {
        self.put_aside(Handed::State);
        self.handed_left = self.random.below(3);
        let mut own = material::settings(&mut self.random);
        let aim = match self.random.below(8) {
            0 => {
                own.as_number = 0;
                "fresh AS 0"
            }
            1 => {
                own.capability = self.random.pick(&[3, 4, 255]);
                "fresh capability"
            }
            2 => {
                own.net |= 1;
                "fresh net not left justified"
            }
            3 => {
                own.net = net::address(224, 0, 0, 0);
                own.address = net::address(224, 0, 0, 1);
                "fresh net of no class"
            }
            4 => {
                own.address ^= 0x4000_0000;
                "fresh address off the net"
            }
            5..=6 => {
                own.quiet = self.random.pick(&[2, 2, 2, 3, 255]);
                "fresh quiet"
            }
            _ => "fresh",
        };
        (own.fresh(), aim)
    }

    // States and tables from outside.

    fn put_aside(&mut self, handed: Handed) {
        self.aside = Some(Aside {
            handed,
            state: self.bench.state,
            table: self.bench.table.clone(),
        });
    }

    /// Hands back what was put aside; the list goes on where it was.
    fn take_back(&mut self) {
        if let Some(aside) = self.aside.take() {
            if self.bench.table != aside.table {
                self.queue
                    .push_back((Call::HandTable(aside.table), "taken back"));
            }
            if self.bench.state != aside.state {
                let state = Box::new(aside.state);
                self.queue.push_back((Call::HandState(state), "taken back"));
            }
        }
    }

    /// A well-formed state that most likely no list of calls reaches, with any table.
    fn hand_well_formed(&mut self) -> (Call, &'static str) {
        self.put_aside(Handed::State);
        self.handed_left = self.random.between(1, 5) as usize;
        let state = material::state(&mut self.random);
        let listable = self.random.thousandths(850);
        let table = material::table(&mut self.random, &state, listable);
        self.queue
            .push_back((Call::HandTable(table), "table handed in"));
        if !listable {
            let step = self.list(OFTEN);
            self.queue.push_back(step);
        }
        (Call::HandState(Box::new(state)), "state handed in")
    }

    /// A state where every neighbour is in Down or Up and unheard, so that an indication shows, and
    /// about an Update for each.
    fn hand_unheard(&mut self) -> (Call, &'static str) {
        self.put_aside(Handed::Unheard);
        let phases = [(1, NeighbourState::Down), (1, NeighbourState::Up)];
        let state = self.state_in(&phases, |_, neighbour| neighbour.heard = 0);
        (Call::HandState(Box::new(state)), "state handed in, unheard")
    }

    /// A state where every neighbour is in Idle, and about a message for each such as only a
    /// neighbour sends that thinks it is acquired.
    fn hand_idle(&mut self) -> (Call, &'static str) {
        self.put_aside(Handed::Idle);
        let state = self.state_in(&[(1, NeighbourState::Idle)], |_, _| {});
        (Call::HandState(Box::new(state)), "state handed in, Idle")
    }

    /// A state where most neighbours may send their next Hello and Poll in a tick or two, or just
    /// may, and about one of them for each.
    fn hand_near_the_rates(&mut self) -> (Call, &'static str) {
        self.put_aside(Handed::NearTheRates);
        let phases = [
            (2, NeighbourState::Down),
            (2, NeighbourState::Up),
            (1, NeighbourState::Acquisition),
            (1, NeighbourState::Cease),
        ];
        let state = self.state_in(&phases, |random, neighbour| {
            neighbour.since_hello = ticks_near(random, HELLO_TICKS, POLL_TICKS);
            neighbour.since_poll = ticks_near(random, POLL_TICKS, HELLO_TICKS);
        });
        (
            Call::HandState(Box::new(state)),
            "state handed in, near the rates",
        )
    }

    /// A state where every neighbour has as many seconds as can be counted, or lacks one or two, and
    /// about a call for each; now and then with a table of a wrong length besides.
    fn hand_near_the_sum(&mut self) -> (Call, &'static str) {
        self.put_aside(Handed::NearTheSum);
        let phases = NeighbourState::ALL.map(|state| (1, state));
        let state = self.state_in(&phases, |random, neighbour| {
            neighbour.seconds = material::seconds_near_the_sum(random, neighbour.state);
        });
        if self.random.thousandths(80) {
            let table = self.table_of_wrong_length();
            self.queue
                .push_back((Call::HandTable(table), "table handed in"));
        }
        (
            Call::HandState(Box::new(state)),
            "state handed in, near the sum",
        )
    }

    /// The longest listing there is.
    fn hand_longest(&mut self) -> (Call, &'static str) {
        self.put_aside(Handed::State);
        let (state, table) = material::longest(&mut self.random);
        self.queue
            .push_back((Call::HandTable(table), "table handed in"));
        let step = self.list(0);
        self.queue.push_back(step);
        (Call::HandState(Box::new(state)), "state handed in, longest")
    }

    /// A well-formed state with every neighbour in one of these states and then changed; as many
    /// calls are to be made on it as it has neighbours.
    fn state_in(
        &mut self,
        phases: &[(u32, NeighbourState)],
        change: impl Fn(&mut Random, &mut Neighbour),
    ) -> State {
        let random = &mut self.random;
        let mut state = material::state(random);
        for neighbour in state.neighbours.iter_mut().filter(|n| n.is_used()) {
            let (address, as_number) = (neighbour.address, neighbour.as_number);
            let phase = random.weighted(phases);
            *neighbour = material::neighbour(random, address, as_number, phase);
            change(random, neighbour);
        }
        self.handed_left = state.neighbours.iter().filter(|n| n.is_used()).count();
        state
    }

    /// States that break one rule, one after the other, and one call on each; the table may be
    /// of a wrong length besides, or hold rows that no listing takes.
    fn hand_broken(&mut self) -> (Call, &'static str) {
        self.put_aside(Handed::BrokenState);
        self.broken_left = self.random.below(4);
        let table = match self.random.below(20) {
            0..=4 => Some(self.table_of_wrong_length()),
            5..=8 => Some(vec![self.random.pick(&[512, u32::MAX]); TABLE_NUMBERS]),
            _ => None,
        };
        if let Some(table) = table {
            self.queue
                .push_back((Call::HandTable(table), "table handed in"));
        }
        self.break_state(self.bench.state)
    }

    /// A state that breaks one rule: this one, or another.
    fn break_state(&mut self, mut state: State) -> (Call, &'static str) {
        self.handed_left = 1;
        let none_used = !state.neighbours.iter().any(|neighbour| neighbour.is_used());
        if none_used || self.random.thousandths(500) {
            state = material::state(&mut self.random);
        }
        let fault = faults::break_state(&mut self.random, &mut state);
        (Call::HandState(Box::new(state)), fault)
    }

    /// A table of a wrong length under the state that was reached.
    fn hand_table(&mut self) -> (Call, &'static str) {
        self.put_aside(Handed::Table);
        self.handed_left = self.random.between(1, 3) as usize;
        (
            Call::HandTable(self.table_of_wrong_length()),
            "table of a wrong length",
        )
    }

    fn table_of_wrong_length(&mut self) -> Vec<u32> {
        let length = self.random.pick(&[
            0,
            1,
            384,
            TABLE_NUMBERS - 3,
            TABLE_NUMBERS - 1,
            TABLE_NUMBERS + 1,
            TABLE_NUMBERS + 384,
        ]);
        vec![self.random.pick(&[0, 7, u32::MAX]); length]
    }

    /// Any call at all on what was handed in; the list's own neighbour stays at hand.
    fn call_on_handed(&mut self, handed: Handed) -> (Call, &'static str) {
        let kept = self.focus;
        self.focus = self.random.below(SLOTS);
        self.focus = self.used_slot();
        let (call, aim) = match handed {
            Handed::State => self.any_call(self.focus),
            Handed::Unheard => self.update_to_unheard(),
            Handed::Idle => self.stray(self.focus),
            Handed::NearTheRates => self.call_near_the_rates(self.focus),
            Handed::NearTheSum => self.call_near_the_sum(self.focus),
            Handed::BrokenState => self.call_on_broken(self.focus),
            Handed::Table => self.call_on_table(self.focus),
        };
        self.focus = kept;
        (call, if aim == "life" { "handed in" } else { aim })
    }

    /// An Update to a neighbour that is still unheard: good, out of sequence, or such as Up refuses.
    fn update_to_unheard(&mut self) -> (Call, &'static str) {
        let neighbours = self.bench.state.neighbours;
        let unheard: Vec<usize> = (0..SLOTS)
            .filter(|&slot| neighbours[slot].state.is_acquired() && neighbours[slot].heard == 0)
            .collect();
        let slot = match unheard.as_slice() {
            [] => self.focus,
            slots => self.random.pick(slots),
        };
        let s = neighbours[slot].send_sequence;
        let octets = match self.random.below(10) {
            0..=1 => self.update(slot, s.wrapping_add(1)),
            2..=3 => {
                let sender = self.sender(slot);
                let bad_body = self.random.pick(&faults::BODY_FAULTS);
                let fault = self
                    .random
                    .weighted(&[(3, bad_body), (2, "Update above 128 rows")]);
                faults::message(&mut self.random, sender, fault)
            }
            _ => self.update(slot, s),
        };
        self.message(slot, octets, "Update to an unheard neighbour")
    }

    /// A message that Idle answers with Cease, good or broken; now and then one of another kind.
    fn stray(&mut self, slot: usize) -> (Call, &'static str) {
        let sender = self.sender(slot);
        let random = &mut self.random;
        let (stray, any) = (random.pick(&STRAYS), random.pick(&Kind::ALL));
        let kind = random.weighted(&[(4, stray), (1, any)]);
        let octets = faults::stray(random, sender, kind);
        self.message(slot, octets, "message to a neighbour in Idle")
    }

    /// A Hello or Poll more often than not.
    fn call_near_the_rates(&mut self, slot: usize) -> (Call, &'static str) {
        let any = self.random.pick(&ACTS);
        let is_acquired = self.bench.state.neighbours[slot].state.is_acquired();
        let act = self.random.weighted(&[
            (9, Act::Hello),
            (8, Act::Poll),
            (3, Act::PollElsewhere),
            (if is_acquired { 10 } else { 25 }, any),
        ]);
        let (call, _) = self.act(slot, act);
        (call, "Hello or Poll near its rate")
    }

    /// A tick more often than not, now and then with too short a buffer or for nobody; what is not
    /// refused for the seconds; a neighbour that is removed and added again.
    fn call_near_the_sum(&mut self, slot: usize) -> (Call, &'static str) {
        const AIM: &str = "seconds near the sum";
        let neighbour = self.bench.state.neighbours[slot];
        let any = self.random.pick(&ACTS[3..]);
        match self.random.below(100) {
            0..=39 => (self.event(slot, Act::Tick), AIM),
            40..=49 => {
                let mut call = self.event(slot, Act::Tick);
                self.shorten(&mut call);
                (call, AIM)
            }
            50..=54 => {
                let (address, reply) = (self.unknown_address(), self.reply_buffer());
                (Call::Tick { address, reply }, AIM)
            }
            55..=64 => (self.event(slot, Act::Start), AIM),
            65..=74 => (self.event(slot, Act::Stop), AIM),
            75..=89 => self.act(slot, any),
            90..=93 => self.list(SELDOM),
            _ if neighbour.is_used() && neighbour.state == NeighbourState::Idle => {
                let (address, as_number) = (neighbour.address, neighbour.as_number);
                self.queue
                    .push_back((Call::Add { address, as_number }, ADDED_AGAIN));
                (Call::Remove { address }, AIM)
            }
            _ => (self.event(slot, Act::Tick), AIM),
        }
    }

    /// Each call that makes check 1 about as often.
    fn call_on_broken(&mut self, slot: usize) -> (Call, &'static str) {
        match self.random.below(8) {
            0 => (self.event(slot, Act::Start), "handed in"),
            1 => (self.event(slot, Act::Stop), "handed in"),
            2 => (self.event(slot, Act::Tick), "handed in"),
            3 => self.list(OFTEN),
            4..=5 => self.membership(),
            _ => self.any_call(slot),
        }
    }

    /// Each call that makes check 2 about as often, many with too short a buffer.
    fn call_on_table(&mut self, slot: usize) -> (Call, &'static str) {
        let (mut call, aim) = match self.random.below(6) {
            0 => (self.event(slot, Act::Start), "handed in"),
            1 => (self.event(slot, Act::Stop), "handed in"),
            2 => (self.event(slot, Act::Tick), "handed in"),
            3 => self.list(OFTEN),
            _ => self.any_call(slot),
        };
        if self.random.thousandths(OFTEN) {
            self.shorten(&mut call);
        }
        (call, aim)
    }

    fn any_call(&mut self, slot: usize) -> (Call, &'static str) {
        // Good messages need a good net to be made on.
        if !net::is_net(self.bench.state.net) {
            return match self.random.below(5) {
                0 => self.membership_anywhere(),
                1 => self.list(SELDOM),
                2 => (self.event(slot, Act::Start), "handed in"),
                3 => (self.event(slot, Act::Tick), "handed in"),
                _ => {
                    let octets = self.header_and(slot, Kind::Hello, STATUS_UP, 1, &[]);
                    self.message(slot, octets, "handed in")
                }
            };
        }
        match self.random.below(100) {
            0..=24 => (self.event(slot, Act::Tick), "handed in"),
            25..=29 => {
                let act = indication(&mut self.random, &self.bench.state.neighbours[slot]);
                self.act(slot, act)
            }
            30..=58 => {
                let act = self.random.pick(&ACTS);
                self.act(slot, act)
            }
            59..=84 => self.faulty_message(slot),
            85..=91 => self.list(SELDOM),
            92..=94 => self.wrong_argument(),
            _ => self.membership_anywhere(),
        }
    }

    /// Add and remove where the settings may be broken.
    fn membership_anywhere(&mut self) -> (Call, &'static str) {
        let slot = self.random.below(SLOTS);
        let address = self.bench.state.neighbours[slot].address;
        if self.random.thousandths(500) {
            (Call::Remove { address }, "handed in")
        } else {
            let call = Call::Add {
                address: self.random.number32(),
                as_number: self.random.number16(),
            };
            (call, "handed in")
        }
    }

    // Reading and writing alone.

    fn read_alone(&mut self) -> (Call, &'static str) {
        let net = material::net(&mut self.random);
        let sender = Sender {
            as_number: material::as_number(&mut self.random),
            sequence: material::sequence(&mut self.random),
            net,
        };
        if self.random.thousandths(120) {
            return self.read_on_bad_net(sender);
        }
        let (octets, aim) = match self.random.below(10) {
            0..=2 => {
                let fault = self.random.weighted(&faults::MESSAGE_FAULTS);
                let octets = faults::message(&mut self.random, sender, fault);
                (octets, fault)
            }
            3 => {
                let octets = faults::zero_checksum(&mut self.random, sender);
                (octets, "checksum 0000")
            }
            4 => {
                let kind = self.random.pick(&Kind::ALL);
                let message = material::message(&mut self.random, kind);
                let net = match &message.body {
                    Body::Update { net, .. } => *net,
                    _ => net,
                };
                let octets = message::encode(&message);
                return (Call::Read { octets, net }, "read what was written");
            }
            _ => (
                faults::good(&mut self.random, sender),
                "read a good message",
            ),
        };
        (Call::Read { octets, net }, aim)
    }

    /// A bad common net, which only Updates mind; these name it themselves more often than not.
    fn read_on_bad_net(&mut self, sender: Sender) -> (Call, &'static str) {
        let random = &mut self.random;
        let has_class = random.thousandths(500);
        let net = if has_class {
            sender.net | random.pick(&[1, 2, 255])
        } else {
            random.pick(&[0xE000_0000, 0xE000_0001, 0xF000_0000, u32::MAX])
        };
        let any = random.pick(&Kind::ALL);
        let kind = random.pick(&[Kind::Update, any]);
        let mut octets = faults::good_of(random, sender, kind);
        if kind == Kind::Update && random.thousandths(800) {
            octets[12..16].copy_from_slice(&net.to_be_bytes());
            if !has_class && random.thousandths(700) {
                // Without blocks, so that no host part is looked for.
                octets[10..12].fill(0);
                octets.truncate(16);
            }
            checksum::seal(&mut octets);
        }
        (Call::Read { octets, net }, "read with a bad net")
    }

    fn write_alone(&mut self) -> (Call, &'static str) {
        let (message, loose, aim) = if self.random.thousandths(500) {
            faults::meaning(&mut self.random)
        } else {
            let kind = self.random.pick(&Kind::ALL);
            let message = material::message(&mut self.random, kind);
            (message, Vec::new(), "write")
        };
        let mut buffer = self.reply_buffer();
        if self.random.thousandths(100) {
            buffer.length = self.random.pick(&[0, 10, 100, 2047]);
        }
        let call = Call::Write {
            message,
            loose,
            buffer,
        };
        (call, aim)
    }
}

/// Whether a Hello of this neighbour's does not come too soon, and likewise a Poll.
fn may_hello(neighbour: &Neighbour) -> bool {
    neighbour.since_hello >= HELLO_TICKS
}

fn may_poll(neighbour: &Neighbour) -> bool {
    neighbour.since_poll >= POLL_TICKS
}

/// Ticks near this rate, or near the other, by which they are not judged.
fn ticks_near(random: &mut Random, rate: u8, other: u8) -> u8 {
    let near = random.weighted(&[(5, rate), (4, other)]);
    (near - 2 + random.below(4) as u8).min(MOST_TICKS)
}

/// What counts as a sign of life in this neighbour's mode, and is not too soon.
fn indication(random: &mut Random, neighbour: &Neighbour) -> Act {
    match neighbour.mode {
        Mode::Passive => {
            let act = random.pick(&[Act::Hello, Act::Hello, Act::Poll, Act::Update]);
            match act {
                Act::Hello if !may_hello(neighbour) => Act::Update,
                Act::Poll if !may_poll(neighbour) => Act::Update,
                _ => act,
            }
        }
        _ => random.pick(&[Act::IHeardYou, Act::Update, Act::Confirm]),
    }
}

/// A Hello or Poll now and then when the neighbour may send it in a tick or two, or just may.
fn near_its_rate(random: &mut Random, neighbour: &Neighbour) -> Option<Act> {
    let is_near = |since: u8, apart: u8| since.abs_diff(apart) <= 2;
    if is_near(neighbour.since_hello, HELLO_TICKS) && random.thousandths(100) {
        return Some(Act::Hello);
    }
    // The count holds there, so that it is near for long; in Up there is an answer.
    let seldom = match (neighbour.since_poll, neighbour.state) {
        (MOST_TICKS, NeighbourState::Up) => 60,
        (MOST_TICKS, _) => 15,
        _ => 100,
    };
    if is_near(neighbour.since_poll, POLL_TICKS) && random.thousandths(seldom) {
        return Some(random.weighted(&[(3, Act::Poll), (1, Act::PollElsewhere)]));
    }
    None
}

/// Whether a timer is about to settle what becomes of the neighbour.
fn is_waiting(neighbour: &Neighbour) -> bool {
    match neighbour.state {
        NeighbourState::Acquisition | NeighbourState::Cease => true,
        NeighbourState::Down => neighbour.t3 <= 120 && neighbour.t3 > 100,
        NeighbourState::Idle | NeighbourState::Up => false,
    }
}

/// Whether a silent neighbour stays as it is for longer than is worth while: in Idle for ever,
/// in Down until an hour is over.
fn nothing_more_by_waiting(neighbour: &Neighbour) -> bool {
    match neighbour.state {
        NeighbourState::Idle => true,
        NeighbourState::Down => {
            neighbour.t3 > 400 && neighbour.register == 0 && neighbour.heard == 0
        }
        _ => false,
    }
}

impl Iterator for Generator {
    type Item = Step;

    fn next(&mut self) -> Option<Step> {
        Some(self.step())
    }
}
