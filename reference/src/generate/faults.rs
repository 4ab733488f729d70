//! Broken material: each function breaks one named rule and says which.

use super::material;
use crate::checksum;
use crate::gateway::State;
use crate::message::{Body, Kind, Message, LONGEST};
use crate::neighbour::{Mode, Neighbour, NeighbourState, Seconds};
use crate::net::{self, Class};
use crate::random::Random;
use crate::update::{Row, EXTERNAL, MOST_ROWS};

/// The rules of well-formedness, one to break each.
pub const STATE_FAULTS: [&str; 67] = [
    "own AS 0",
    "capability above 2",
    "common net not left justified",
    "common net of no class",
    "own address off the net",
    "quiet above 1",
    "neighbour AS 0",
    "neighbour AS ours",
    "neighbour address ours",
    "neighbour address twice",
    "free slot not zero",
    "free slot with one field",
    "free slot with ticks since Hello",
    "free slot with ticks since Poll",
    "row count above 128",
    "row count outside Up",
    "Idle with S",
    "Idle with R",
    "Idle with T1",
    "Idle with T2",
    "Idle with a mode",
    "Idle with t1",
    "Idle with t2",
    "Idle with t3",
    "Idle with a register",
    "Idle with heard",
    "Idle with a cause",
    "Idle with a row count",
    "Idle with ticks since Hello",
    "Idle with ticks since Poll",
    "t1 above 122",
    "t2 above 482",
    "t3 above 3,600",
    "t1 0 outside Idle",
    "t3 0 outside Idle",
    "t2 0 in Up",
    "t2 outside Up",
    "register above 15",
    "heard above 1",
    "register outside Down and Up",
    "heard outside Down and Up",
    "T1 below 32",
    "T1 above 122",
    "T2 below 122",
    "T2 above 482",
    "no mode in Down or Up",
    "T1 outside Down and Up",
    "T2 outside Down and Up",
    "mode outside Down and Up",
    "cause below 5 in Cease",
    "cause above 6 in Cease",
    "no cause in Cease",
    "ticks since Hello above 120",
    "ticks since Poll above 120",
    "a second too many in Idle",
    "a second too many in Acquisition",
    "a second too many in Down",
    "a second too many in Up",
    "a second too many in Cease",
    "seconds that add up to 0 in 32 bits",
    "every count of seconds as large as can be",
    "free slot with seconds in Idle",
    "free slot with seconds in Acquisition",
    "free slot with seconds in Down",
    "free slot with seconds in Up",
    "free slot with seconds in Cease",
    "cause outside Cease",
];

/// The state that such a fault is about.
fn state_named(fault: &str) -> NeighbourState {
    let is_named = |state: &NeighbourState| fault.ends_with(&format!(" in {state:?}"));
    NeighbourState::ALL
        .into_iter()
        .find(is_named)
        .unwrap_or_default()
}

pub type Change = fn(&mut Neighbour);

/// The variables of a neighbour, each set to 1.
pub const ONES: [(&str, Change); 14] = [
    ("S", |n| n.send_sequence = 1),
    ("R", |n| n.receive_sequence = 1),
    ("T1", |n| n.hello_interval = 1),
    ("T2", |n| n.poll_interval = 1),
    ("mode", |n| n.mode = Mode::Active),
    ("t1", |n| n.t1 = 1),
    ("t2", |n| n.t2 = 1),
    ("t3", |n| n.t3 = 1),
    ("register", |n| n.register = 1),
    ("heard", |n| n.heard = 1),
    ("cause", |n| n.cause = 1),
    ("row count", |n| n.row_count = 1),
    ("since Hello", |n| n.since_hello = 1),
    ("since Poll", |n| n.since_poll = 1),
];

/// Breaks exactly one rule of a well-formed state that has a neighbour.
pub fn break_state(random: &mut Random, state: &mut State) -> &'static str {
    use NeighbourState::{Acquisition, Cease, Down, Idle, Up};
    let fault = random.pick(&STATE_FAULTS);
    let used: Vec<usize> = (0..state.neighbours.len())
        .filter(|&slot| state.neighbours[slot].is_used())
        .collect();
    let slot = random.pick(&used);
    let outside_up = [Acquisition, Down, Cease];
    let running = [Acquisition, Down, Up, Cease];
    let unacquired = [Acquisition, Cease];

    // The neighbour in one of the states the fault needs.
    let phase = match fault {
        "row count above 128" | "t2 0 in Up" | "t2 above 482" => Up,
        "row count outside Up" | "t2 outside Up" => random.pick(&outside_up),
        _ if fault.starts_with("Idle with") => Idle,
        _ if fault.starts_with("a second too many") => state_named(fault),
        "t1 above 122"
        | "t3 above 3,600"
        | "t1 0 outside Idle"
        | "t3 0 outside Idle"
        | "ticks since Hello above 120"
        | "ticks since Poll above 120" => random.pick(&running),
        "register above 15"
        | "heard above 1"
        | "T1 below 32"
        | "T1 above 122"
        | "T2 below 122"
        | "T2 above 482"
        | "no mode in Down or Up" => random.pick(&[Down, Up]),
        "register outside Down and Up"
        | "heard outside Down and Up"
        | "T1 outside Down and Up"
        | "T2 outside Down and Up"
        | "mode outside Down and Up" => random.pick(&unacquired),
        "cause below 5 in Cease" | "cause above 6 in Cease" | "no cause in Cease" => Cease,
        "cause outside Cease" => random.pick(&[Acquisition, Down, Up]),
        _ => random.pick(&NeighbourState::ALL),
    };
    let (address, as_number) = (
        state.neighbours[slot].address,
        state.neighbours[slot].as_number,
    );
    state.neighbours[slot] = material::neighbour(random, address, as_number, phase);

    let own_as = state.as_number;
    let own_address = state.address;
    let n: &mut Neighbour = &mut state.neighbours[slot];
    match fault {
        "own AS 0" => state.as_number = 0,
        "capability above 2" => state.capability = random.pick(&[3, 4, 255]),
        "common net not left justified" => {
            // The own address stays on that net, class and net number being the same.
            state.net |= 1;
        }
        "common net of no class" => {
            state.net = net::address(224, 0, 0, 0);
            state.address = net::address(224, 0, 0, 1);
        }
        "own address off the net" => state.address ^= 0x8000_0000,
        "quiet above 1" => state.quiet = nearest(random, 2, &[3, 128, 255]),
        "neighbour AS 0" => n.as_number = 0,
        "neighbour AS ours" => n.as_number = own_as,
        "neighbour address ours" => {
            // With own address 0 the slot would be free instead, yet not zero: broken as well.
            n.address = own_address;
        }
        "neighbour address twice" => {
            let twin = *n;
            let other = (slot + 1 + random.below(7)) % 8;
            state.neighbours[other] = Neighbour::idle(twin.address, twin.as_number);
        }
        "free slot not zero" => {
            n.address = 0;
            if *n == Neighbour::default() {
                n.as_number = 1;
            }
        }
        "free slot with one field" => {
            *n = Neighbour::default();
            match random.below(ONES.len() + 2) {
                0 => n.as_number = 1,
                1 => n.state = random.pick(&running),
                place => ONES[place - 2].1(n),
            }
        }
        "free slot with ticks since Hello" => {
            *n = Neighbour::default();
            n.since_hello = nearest(random, 1, &[30, 120]);
        }
        "free slot with ticks since Poll" => {
            *n = Neighbour::default();
            n.since_poll = nearest(random, 1, &[30, 120]);
        }
        "row count above 128" => n.row_count = nearest(random, 129, &[130, u16::MAX]),
        "row count outside Up" => n.row_count = random.pick(&[1, 128]),
        "Idle with S" => n.send_sequence = nearest(random, 1, &[2, u16::MAX]),
        "Idle with R" => n.receive_sequence = nearest(random, 1, &[2, u16::MAX]),
        "Idle with T1" => n.hello_interval = nearest(random, 1, &[32, 122]),
        "Idle with T2" => n.poll_interval = nearest(random, 1, &[122, 482]),
        "Idle with a mode" => n.mode = nearest(random, Mode::Active, &[Mode::Passive]),
        "Idle with t1" => n.t1 = nearest(random, 1, &[30, 122]),
        "Idle with t2" => n.t2 = nearest(random, 1, &[122, 482]),
        "Idle with t3" => n.t3 = nearest(random, 1, &[120, 3600]),
        "Idle with a register" => n.register = nearest(random, 1, &[8, 15]),
        "Idle with heard" => n.heard = 1,
        "Idle with a cause" => n.cause = nearest(random, 1, &[5, 6]),
        "Idle with a row count" => n.row_count = nearest(random, 1, &[2, 128]),
        "Idle with ticks since Hello" => n.since_hello = nearest(random, 1, &[30, 120]),
        "Idle with ticks since Poll" => n.since_poll = nearest(random, 1, &[30, 120]),
        "t1 above 122" => n.t1 = nearest(random, 123, &[200, u16::MAX]),
        "t2 above 482" => n.t2 = nearest(random, 483, &[500, u16::MAX]),
        "t3 above 3,600" => n.t3 = nearest(random, 3601, &[4000, u16::MAX]),
        "t1 0 outside Idle" => n.t1 = 0,
        "t3 0 outside Idle" => n.t3 = 0,
        "t2 0 in Up" => n.t2 = 0,
        "t2 outside Up" => n.t2 = random.between(1, 482) as u16,
        "register above 15" => n.register = nearest(random, 16, &[31, 255]),
        "heard above 1" => n.heard = nearest(random, 2, &[3, 255]),
        "register outside Down and Up" => n.register = random.between(1, 15) as u8,
        "heard outside Down and Up" => n.heard = 1,
        "T1 below 32" => n.hello_interval = nearest(random, 31, &[0, 1]),
        "T1 above 122" => n.hello_interval = nearest(random, 123, &[u16::MAX]),
        "T2 below 122" => n.poll_interval = nearest(random, 121, &[0, 1]),
        "T2 above 482" => n.poll_interval = nearest(random, 483, &[u16::MAX]),
        "no mode in Down or Up" => n.mode = Mode::None,
        "T1 outside Down and Up" => n.hello_interval = random.pick(&[1, 32]),
        "T2 outside Down and Up" => n.poll_interval = random.pick(&[1, 122]),
        "mode outside Down and Up" => n.mode = random.pick(&[Mode::Active, Mode::Passive]),
        "cause below 5 in Cease" => n.cause = nearest(random, 4, &[1, 3]),
        "cause above 6 in Cease" => n.cause = nearest(random, 7, &[8, 255]),
        "no cause in Cease" => n.cause = 0,
        "ticks since Hello above 120" => n.since_hello = nearest(random, 121, &[128, 255]),
        "ticks since Poll above 120" => n.since_poll = nearest(random, 121, &[128, 255]),
        "seconds that add up to 0 in 32 bits" => {
            // As large as can be and 1, or two halves, in any two counts.
            let one = random.below(5);
            let other = (one + 1 + random.below(4)) % 5;
            let count = random.pick(&[u32::MAX, u32::MAX, 1 << 31]);
            n.seconds = Seconds::default();
            *n.seconds.of_mut(NeighbourState::ALL[one]) = count;
            *n.seconds.of_mut(NeighbourState::ALL[other]) = count.wrapping_neg();
        }
        "every count of seconds as large as can be" => {
            for state in NeighbourState::ALL {
                *n.seconds.of_mut(state) = u32::MAX;
            }
        }
        _ if fault.starts_with("a second too many") => {
            let sum = Seconds::MOST + 1;
            n.seconds = material::seconds_of_sum(random, sum);
        }
        _ if fault.starts_with("free slot with seconds") => {
            *n = Neighbour::default();
            let count = random.pick(&[1, 1 << 8, 1 << 16, 1 << 24, u32::MAX]);
            *n.seconds.of_mut(state_named(fault)) = count;
        }
        _ => n.cause = random.pick(&[1, 5, 6]),
    }
    fault
}

/// A number just out of bounds, or now and then one of those further out.
fn nearest<T: Copy>(random: &mut Random, near: T, far: &[T]) -> T {
    if random.thousandths(750) {
        near
    } else {
        random.pick(far)
    }
}

pub const HOME_FAULTS: [&str; 7] = [
    "home list not whole rows",
    "home list above 128 rows",
    "home net of no class",
    "home net not left justified",
    "home gateway off the net",
    "home number above 255",
    "home list not ours first",
];

/// A home list broken in one way.
pub fn home_list(random: &mut Random, address: u32, net: u32) -> (Vec<u32>, &'static str) {
    let fault = random.pick(&HOME_FAULTS);
    let mut home = material::home_list(random, address, net);
    if home.is_empty() {
        home = vec![net, address, 0];
    }
    let row = 3 * random.below(home.len() / 3);
    match fault {
        "home list not whole rows" => {
            home.push(net);
            if random.thousandths(500) {
                home.push(address);
            }
        }
        "home list above 128 rows" => {
            while home.len() <= 3 * MOST_ROWS {
                home.extend([net, address, 1]);
            }
        }
        "home net of no class" => home[row] = net::address(224, 0, 0, 0) | random.number32(),
        "home net not left justified" => home[row] |= 1,
        "home gateway off the net" => {
            let last = home.len() - 3;
            home[last + 1] ^= 0x4000_0000;
        }
        "home number above 255" => home[row + 2] = nearest(random, 256, &[257, 511, u32::MAX]),
        _ => home[1] ^= 1,
    }
    (home, fault)
}

/// Whom a faulty message pretends to come from, and what it should have carried.
#[derive(Clone, Copy)]
pub struct Sender {
    pub as_number: u16,
    /// Our S, which responses must carry.
    pub sequence: u16,
    pub net: u32,
}

/// Faults of a message, with how often each is made.
pub const MESSAGE_FAULTS: [(u32, &str); 29] = [
    (2, "message too short"),
    (2, "message too long"),
    (5, "version"),
    (2, "checksum"),
    (2, "checksum FFFF for 0000"),
    (3, "wrong AS"),
    (3, "wrong AS on a Request"),
    (2, "wrong AS near a Request"),
    (5, "unknown kind"),
    (3, "unknown kind of type 8"),
    (8, "status"),
    (8, "length"),
    (12, "out of sequence"),
    // Two checks that stand next to each other.
    (3, "size and version"),
    (3, "checksum and AS"),
    (2, "kind and status"),
    (4, "length and sequence"),
    // In Down and Up it often comes too soon besides.
    (3, "length of a Hello or Poll"),
    (3, "sequence and body"),
    (2, "Update for another net"),
    (2, "Update cut short"),
    (2, "Update with octets left over"),
    (2, "Update with a net of no class"),
    (2, "Update with a wrong gateway count"),
    (2, "Update with a wrong net count"),
    (2, "Update of 129 rows and a defect"),
    (6, "Update above 128 rows"),
    (12, "any kind, status and length"),
    (6, "octets changed at random"),
];

/// A message broken in this way (the last two faults may break any rule, several, or none).
pub fn message(random: &mut Random, sender: Sender, fault: &str) -> Vec<u8> {
    match fault {
        "message too short" => {
            let mut octets = good(random, sender);
            octets.truncate(nearest(random, 9, &[0, 1, 2, 5, 6, 8]));
            octets
        }
        "message too long" => {
            let mut octets = good(random, sender);
            octets.resize(nearest(random, LONGEST + 1, &[2050, 2087]), 0);
            checksum::seal(&mut octets);
            octets
        }
        "version" => {
            let mut octets = good(random, sender);
            octets[0] = random.pick(&[0, 1, 3, 255]);
            if random.thousandths(700) {
                checksum::seal(&mut octets);
            }
            octets
        }
        "checksum" => {
            let mut octets = good(random, sender);
            octets[4 + random.below(2)] ^= 1 << random.below(8);
            octets
        }
        "checksum FFFF for 0000" => {
            let mut octets = zero_checksum(random, sender);
            octets[4] = 0xFF;
            octets[5] = 0xFF;
            octets
        }
        "wrong AS" => {
            let stranger = Sender {
                as_number: other_as(random, sender.as_number),
                ..sender
            };
            if random.thousandths(300) {
                // Broken further, which must not be looked at.
                let pair = (random.octet(), random.octet());
                material::frame(pair, random.octet(), stranger.as_number, 9, &[])
            } else {
                good(random, stranger)
            }
        }
        "wrong AS on a Request" => {
            let as_number = other_as(random, sender.as_number);
            let sequence = material::sequence(random);
            let intervals = [random.octet() & 1, random.octet(), 0, random.octet()];
            let status = random.below(3) as u8;
            material::frame((3, 0), status, as_number, sequence, &intervals)
        }
        "wrong AS near a Request" => {
            let as_number = other_as(random, sender.as_number);
            let sequence = material::sequence(random);
            let allowed = random.below(3) as u8;
            let (pair, status, rest) = match random.below(4) {
                0 => ((3, 1), allowed, 4),
                1 => (random.pick(&NO_REQUEST), allowed, 4),
                2 => ((3, 0), 3, 4),
                _ => ((3, 0), allowed, random.pick(&[0, 2, 3, 5, 6, 14])),
            };
            let rest: Vec<u8> = (0..rest).map(|_| random.octet()).collect();
            material::frame(pair, status, as_number, sequence, &rest)
        }
        "unknown kind" => {
            let pair = loop {
                let pair = (
                    random.below(10) as u8,
                    random.pick(&[0, 0, 1, 2, 4, 5, 6, 255]),
                );
                if Kind::from_type_and_code(pair).is_none() && pair.0 != 8 {
                    break pair;
                }
            };
            let length = random.pick(&[0, 0, 1, 2, 4, 6, 14]);
            material::frame(
                pair,
                random.below(3) as u8,
                sender.as_number,
                material::sequence(random),
                &vec![0; length],
            )
        }
        "unknown kind of type 8" => material::frame(
            (8, random.between(1, 255) as u8),
            random.below(3) as u8,
            sender.as_number,
            material::sequence(random),
            &[0; 14],
        ),
        "status" => {
            let kind = kind_or_error(random);
            let mut octets = wrong_status(random, sender, kind);
            if random.thousandths(200) {
                octets.push(0);
                checksum::seal(&mut octets);
            }
            octets
        }
        "length" => {
            let kind = kind_or_error(random);
            wrong_length(random, sender, kind)
        }
        "length of a Hello or Poll" => {
            let kind = random.pick(&[Kind::Hello, Kind::Poll]);
            wrong_length(random, sender, kind)
        }
        "out of sequence" => {
            let kind = random.pick(&[
                Kind::Confirm,
                Kind::Refuse,
                Kind::CeaseAck,
                Kind::IHeardYou,
                Kind::Update,
            ]);
            let late = Sender {
                sequence: off_sequence(random, sender.sequence),
                ..sender
            };
            good_of(random, late, kind)
        }
        "size and version" => {
            let mut octets = good(random, sender);
            if random.thousandths(500) {
                octets.truncate(random.between(1, 9) as usize);
            } else {
                octets.resize(LONGEST + 1 + random.below(40), 0);
            }
            octets[0] = random.pick(&[0, 1, 3, 255]);
            octets
        }
        "checksum and AS" => {
            let mut octets = message(random, sender, "wrong AS");
            octets[4 + random.below(2)] ^= 1 << random.below(8);
            octets
        }
        "kind and status" => {
            let status = random.pick(&[8, 64, 127, 131, 132, 255]);
            let sequence = material::sequence(random);
            let rest = vec![0; random.pick(&[0, 4, 6, 14])];
            let pair = random.pick(&NO_KIND);
            material::frame(pair, status, sender.as_number, sequence, &rest)
        }
        "length and sequence" => {
            let (kind, length) = random.pick(&[
                (Kind::Confirm, 10),
                (Kind::Confirm, 13),
                (Kind::Confirm, 15),
                (Kind::Refuse, 11),
                (Kind::Refuse, 14),
                (Kind::CeaseAck, 11),
                (Kind::CeaseAck, 24),
                (Kind::IHeardYou, 11),
                (Kind::IHeardYou, 14),
                (Kind::Update, 10),
                (Kind::Update, 15),
            ]);
            let mut octets = good_of(random, sender, kind);
            let sequence = off_sequence(random, sender.sequence);
            octets[8..10].copy_from_slice(&sequence.to_be_bytes());
            octets.resize(length, 0);
            checksum::seal(&mut octets);
            octets
        }
        "sequence and body" => {
            let late = Sender {
                sequence: off_sequence(random, sender.sequence),
                ..sender
            };
            let body_fault = random.pick(&BODY_FAULTS);
            bad_update(random, late, body_fault)
        }
        // No rule is asked here, so that a rule misread cannot keep its own cases out of a list.
        "any kind, status and length" => {
            let kind = random.pick(&Kind::ALL);
            let mut octets = good_of(random, sender, kind);
            if random.thousandths(300) {
                octets[1] = random.between(0, 9) as u8;
                octets[2] = random.between(0, 5) as u8;
            }
            if random.thousandths(700) {
                let low = random.between(0, 8) as u8;
                octets[3] = low + random.pick(&[0, 0, 120, 124, 128]);
            }
            if random.thousandths(400) {
                let length = random.pick(&[10, 11, 13, 14, 15, 16, 17, 18, 23, 24, 25]);
                octets.resize(length, 0);
            }
            checksum::seal(&mut octets);
            octets
        }
        "octets changed at random" => {
            let mut octets = good(random, sender);
            for _ in 0..random.between(1, 3) {
                let place = random.below(octets.len());
                octets[place] = random.octet();
            }
            match random.below(6) {
                0 => octets.push(random.octet()),
                1 => octets.truncate(octets.len() - 1),
                _ => {}
            }
            if octets.len() >= 6 && random.thousandths(900) {
                checksum::seal(&mut octets);
            }
            octets
        }
        update_fault => bad_update(random, sender, update_fault),
    }
}

/// A good message of any kind, in sequence.
pub fn good(random: &mut Random, sender: Sender) -> Vec<u8> {
    let kind = random.pick(&Kind::ALL);
    good_of(random, sender, kind)
}

/// A good message of this kind, in sequence where it must be.
pub fn good_of(random: &mut Random, sender: Sender, kind: Kind) -> Vec<u8> {
    let sequence = if kind.must_carry_s() {
        sender.sequence
    } else {
        material::sequence(random)
    };
    let rest = match kind {
        Kind::Request | Kind::Confirm => {
            let (_, intervals) = material::acceptable(random, 0);
            let mut rest = intervals.hello.to_be_bytes().to_vec();
            rest.extend(intervals.poll.to_be_bytes());
            rest
        }
        Kind::Poll => {
            let mut rest = vec![random.octet(), random.octet()];
            rest.extend(sender.net.to_be_bytes());
            rest
        }
        Kind::Update => material::blocks(random, sender.net, MOST_ROWS).rest(),
        Kind::Error => (0..14).map(|_| random.octet()).collect(),
        _ => Vec::new(),
    };
    let status = material::status(random, kind);
    material::frame(
        kind.type_and_code(),
        status,
        sender.as_number,
        sequence,
        &rest,
    )
}

/// A message to a neighbour in Idle, of this kind and any sequence number: good, an Update's body
/// aside, or from another AS, with a status or of a length that the kind has not.
pub fn stray(random: &mut Random, sender: Sender, kind: Kind) -> Vec<u8> {
    let sender = Sender {
        sequence: material::sequence(random),
        ..sender
    };
    match random.below(5) {
        0 => {
            let as_number = other_as(random, sender.as_number);
            let stranger = Sender {
                as_number,
                ..sender
            };
            good_of(random, stranger, kind)
        }
        1 => wrong_status(random, sender, kind),
        2 => wrong_length(random, sender, kind),
        3 if kind == Kind::Update => {
            let body_fault = random.pick(&BODY_FAULTS);
            bad_update(random, sender, body_fault)
        }
        _ => good_of(random, sender, kind),
    }
}

/// A good command whose right checksum is 0000: its sequence number makes all words sum to FFFF.
pub fn zero_checksum(random: &mut Random, sender: Sender) -> Vec<u8> {
    let kind = random.pick(&[Kind::Hello, Kind::Poll, Kind::Request, Kind::Error]);
    let mut octets = good_of(random, sender, kind);
    octets[8] = 0;
    octets[9] = 0;
    let missing = checksum::checksum(&octets);
    octets[8..10].copy_from_slice(&missing.to_be_bytes());
    checksum::seal(&mut octets);
    octets
}

/// Pairs of type and code that are no kind's, and pairs that are not a Request's.
const NO_KIND: [(u8, u8); 12] = [
    (0, 0),
    (1, 1),
    (2, 1),
    (3, 5),
    (3, 255),
    (4, 0),
    (5, 2),
    (6, 0),
    (7, 0),
    (8, 1),
    (9, 0),
    (255, 0),
];
const NO_REQUEST: [(u8, u8); 10] = [
    (3, 2),
    (3, 3),
    (3, 4),
    (3, 5),
    (5, 0),
    (5, 1),
    (2, 0),
    (1, 0),
    (8, 0),
    (4, 0),
];

/// A number that is not S.
fn off_sequence(random: &mut Random, sequence: u16) -> u16 {
    let off = match random.below(4) {
        0 => 1,
        1 => u16::MAX,
        _ => random.number16().max(1),
    };
    sequence.wrapping_add(off)
}

fn other_as(random: &mut Random, as_number: u16) -> u16 {
    match random.below(3) {
        0 => as_number.wrapping_add(1),
        1 => as_number ^ 0x0100,
        _ => as_number ^ random.number16().max(1),
    }
}

/// Any kind, an Error more often: what is wrong with one must never be answered.
fn kind_or_error(random: &mut Random) -> Kind {
    if random.thousandths(200) {
        Kind::Error
    } else {
        random.pick(&Kind::ALL)
    }
}

fn wrong_status(random: &mut Random, sender: Sender, kind: Kind) -> Vec<u8> {
    let mut octets = good_of(random, sender, kind);
    octets[3] = loop {
        let status = random.pick(&[1, 2, 3, 8, 127, 128, 129, 131, 255]);
        if !kind.allows_status(status) {
            break status;
        }
    };
    checksum::seal(&mut octets);
    octets
}

fn wrong_length(random: &mut Random, sender: Sender, kind: Kind) -> Vec<u8> {
    let mut octets = good_of(random, sender, kind);
    let length = loop {
        let length = random.pick(&[
            10, 11, 12, 13, 14, 15, 16, 17, 20, 23, 24, 25, 100, 2048, 2048,
        ]);
        if !kind.allows_length(length) {
            break length;
        }
    };
    octets.resize(length, 0);
    checksum::seal(&mut octets);
    octets
}

/// Faults of an Update's body that Up answers 14.
pub const BODY_FAULTS: [&str; 7] = [
    "Update for another net",
    "Update cut short",
    "Update with octets left over",
    "Update with a net of no class",
    "Update with a wrong gateway count",
    "Update with a wrong net count",
    "Update of 129 rows and a defect",
];

/// An Update that answers 14 or 15 in Up, made by the named fault.
fn bad_update(random: &mut Random, sender: Sender, fault: &str) -> Vec<u8> {
    let net = sender.net;
    let many = |random: &mut Random, groups: usize| many_rows(random, net, groups);
    let mut blocks = material::blocks(random, net, MOST_ROWS);
    match fault {
        "Update for another net" => {
            blocks.net = match random.below(4) {
                0 => net ^ 1,
                1 => net ^ 0x8000_0000,
                2 => net ^ 0x0001_0000,
                _ => net ^ random.number32().max(1),
            };
        }
        "Update cut short" => {
            if blocks.octets.is_empty() {
                blocks.internal = 1;
            } else {
                let cut = random.between(1, blocks.octets.len() as u64) as usize;
                blocks.octets.truncate(blocks.octets.len() - cut);
            }
        }
        "Update with octets left over" => {
            let extra = random.between(1, 4);
            for _ in 0..extra {
                blocks.octets.push(random.octet());
            }
        }
        "Update with a net of no class" => {
            if random.thousandths(300) {
                // In the midst of the last block's nets.
                blocks = many(random, 1);
            } else {
                add_internal_block(random, &mut blocks, net);
            }
            let last = blocks.octets.len() - 1;
            blocks.octets[last] = random.between(224, 255) as u8;
        }
        "Update with a wrong gateway count" => match random.below(4) {
            0 => blocks.internal = blocks.internal.wrapping_add(1),
            1 => blocks.external = blocks.external.wrapping_add(1),
            2 => blocks.external = 255,
            _ if blocks.internal > 0 => blocks.internal -= 1,
            _ => blocks.internal = 200,
        },
        "Update with a wrong net count" => {
            add_internal_block(random, &mut blocks, net);
            // The count octet of the single net at the end.
            let place = blocks.octets.len() - 2;
            blocks.octets[place] = random.pick(&[0, 2, 3, 255]);
        }
        "Update of 129 rows and a defect" => {
            blocks = many(random, 2);
            match random.below(6) {
                0 => blocks.octets.push(0),
                1 => blocks.external += 1,
                2 => {
                    add_internal_block(random, &mut blocks, net);
                    blocks.octets.pop();
                }
                3 => {
                    add_internal_block(random, &mut blocks, net);
                    blocks.octets.pop();
                    blocks.octets.push(224);
                }
                // In the last of them.
                4 => blocks.octets.truncate(blocks.octets.len() - 1),
                _ => {
                    let last = blocks.octets.len() - 1;
                    blocks.octets[last] = 224;
                }
            }
        }
        _ => {
            let groups = random.between(2, 7) as usize;
            blocks = many(random, groups);
        }
    }
    let status = material::status(random, Kind::Update);
    material::frame(
        Kind::Update.type_and_code(),
        status,
        sender.as_number,
        sender.sequence,
        &blocks.rest(),
    )
}

/// Puts one block with a single class A net after the last internal block, or in place of all
/// external ones, so that the message ends in that net.
fn add_internal_block(random: &mut Random, blocks: &mut material::Blocks, net: u32) {
    let class = Class::of(net).unwrap_or(Class::A);
    let gateway = material::address_on(random, net);
    let host = &gateway.to_be_bytes()[class.net_octets()..];
    blocks.octets.extend(host);
    blocks.octets.extend([1, 0, 1, random.below(128) as u8]);
    if blocks.external > 0 {
        blocks.external += 1;
    } else {
        blocks.internal += 1;
    }
}

/// One gateway whose groups have at least 65 class A nets each: two groups and more are above
/// 128 rows, one is below.
fn many_rows(random: &mut Random, net: u32, groups: usize) -> material::Blocks {
    let class = Class::of(net).unwrap_or(Class::A);
    let gateway = material::address_on(random, net);
    let mut octets = gateway.to_be_bytes()[class.net_octets()..].to_vec();
    octets.push(groups as u8);
    let mut rows = 0;
    for group in 0..groups {
        // The last of two groups at the limit makes 129 rows exactly.
        let nets = match (groups, group) {
            (2, 0) => 65,
            (2, _) => 64,
            (1, _) => 65,
            _ => random.between(65, 255) as usize,
        };
        octets.push(group as u8);
        octets.push(nets as u8);
        octets.extend((0..nets).map(|_| random.below(128) as u8));
        rows += nets;
    }
    let internal = u8::from(random.thousandths(700));
    material::Blocks {
        internal,
        external: 1 - internal,
        net,
        octets,
        rows,
    }
}

/// Faults of a meaning, with how often each is made.
pub const MEANING_FAULTS: [(u32, &str); 13] = [
    (2, "meaning: status"),
    (4, "meaning: status 255"),
    (2, "meaning: any status"),
    (5, "meaning: numbers beside a kind without rows"),
    (3, "meaning: numbers after the last row"),
    (2, "meaning: Update net of no class"),
    (2, "meaning: Update net not left justified"),
    (2, "meaning: row net of no class"),
    (2, "meaning: row net not left justified"),
    (2, "meaning: row gateway off the net"),
    (2, "meaning: row number above 511"),
    (2, "meaning: above 128 rows"),
    (2, "meaning: internal row after external"),
];

/// A meaning the writer refuses, with the loose numbers beside it (any status may be a good one).
pub fn meaning(random: &mut Random) -> (Message, Vec<u32>, &'static str) {
    let fault = random.weighted(&MEANING_FAULTS);
    match fault {
        "meaning: status" => {
            let kind = random.pick(&Kind::ALL);
            let mut message = material::message(random, kind);
            message.status = loop {
                let status = random.octet();
                if !kind.allows_status(status) {
                    break status;
                }
            };
            (message, Vec::new(), fault)
        }
        "meaning: status 255" => {
            // More often of the kinds that have statuses above 127.
            let kind = match random.below(10) {
                0..=3 => random.pick(&[Kind::Update, Kind::Error]),
                _ => random.pick(&Kind::ALL),
            };
            let mut message = material::message(random, kind);
            message.status = 255;
            (message, Vec::new(), fault)
        }
        "meaning: any status" => {
            let kind = random.pick(&Kind::ALL);
            let mut message = material::message(random, kind);
            message.status = random.octet();
            (message, Vec::new(), fault)
        }
        "meaning: numbers beside a kind without rows" => {
            let kind = random.pick(&WITHOUT_ROWS);
            let message = material::message(random, kind);
            let count = random.pick(&[1, 2, 3, 3, 6, 384, 385]);
            (message, loose_numbers(random, count), fault)
        }
        "meaning: numbers after the last row" => {
            let message = material::message(random, Kind::Update);
            let count = random.pick(&[1, 2]);
            (message, loose_numbers(random, count), fault)
        }
        update_fault => (bad_update_meaning(random, update_fault), Vec::new(), fault),
    }
}

const WITHOUT_ROWS: [Kind; 9] = [
    Kind::Request,
    Kind::Confirm,
    Kind::Refuse,
    Kind::Cease,
    Kind::CeaseAck,
    Kind::Hello,
    Kind::IHeardYou,
    Kind::Poll,
    Kind::Error,
];

/// Numbers that would be good rows of some Update, or zeros, which are as much too many.
fn loose_numbers(random: &mut Random, count: usize) -> Vec<u32> {
    if random.thousandths(300) {
        return vec![0; count];
    }
    let net = material::net(random);
    let rows = material::rows(random, net, count / 3 + 1, false);
    let numbers = rows.iter().flat_map(Row::numbers);
    numbers.take(count).collect()
}

/// The meaning of an Update that the writer refuses.
fn bad_update_meaning(random: &mut Random, fault: &str) -> Message {
    let mut message = material::message(random, Kind::Update);
    let Body::Update { net, rows } = &mut message.body else {
        return message;
    };
    let count = random.between(2, 8) as usize;
    *rows = material::rows(random, *net, count, false);
    let row = random.below(count);
    match fault {
        "meaning: Update net of no class" => *net = net::address(240, 0, 0, 0),
        "meaning: Update net not left justified" => *net |= 1,
        "meaning: row net of no class" => rows[row].net = net::address(224, 1, 2, 3),
        "meaning: row net not left justified" => rows[row].net |= 1,
        "meaning: row gateway off the net" => rows[row].gateway ^= 0x4000_0000,
        "meaning: row number above 511" => {
            rows[count - 1].distance = random.pick(&[512, 768, u32::MAX]);
        }
        "meaning: above 128 rows" => {
            let above = MOST_ROWS + 1 + random.below(9);
            *rows = material::rows(random, *net, above, true);
        }
        _ => rows[random.below(count - 1)].distance = EXTERNAL + 1,
    }
    message
}
