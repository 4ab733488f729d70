//! Good material for call lists: nets, settings, rows, messages, well-formed states.

use crate::call::Call;
use crate::checksum;
use crate::gateway::{State, SLOTS, SLOT_NUMBERS, TABLE_NUMBERS};
use crate::message::{Body, Intervals, Kind, Message, LONGEST, VERSION};
use crate::neighbour::{
    Mode, Neighbour, NeighbourState, Seconds, HELLO_TICKS, MOST_TICKS, PASSIVE_ONLY, POLL_TICKS,
};
use crate::net::{self, Class};
use crate::random::Random;
use crate::update::{self, Row, EXTERNAL, MOST_ROWS};

/// Own settings that fresh takes.
#[derive(Clone, Copy, Debug)]
pub struct Settings {
    pub as_number: u16,
    pub address: u32,
    pub capability: u8,
    pub net: u32,
    pub quiet: u8,
}

impl Settings {
    pub fn fresh(&self) -> Call {
        Call::Fresh {
            as_number: self.as_number,
            address: self.address,
            capability: self.capability,
            net: self.net,
            quiet: self.quiet,
        }
    }
}

/// A left-justified net, of each class about as often, with the edges of the classes.
pub fn net(random: &mut Random) -> u32 {
    const EDGES: [u32; 7] = [
        net::address(0, 0, 0, 0),
        net::address(127, 0, 0, 0),
        net::address(128, 0, 0, 0),
        net::address(191, 255, 0, 0),
        net::address(192, 0, 0, 0),
        net::address(223, 255, 255, 0),
        net::address(10, 0, 0, 0),
    ];
    if random.thousandths(150) {
        return random.pick(&EDGES);
    }
    let first = match random.below(3) {
        0 => random.between(0, 127),
        1 => random.between(128, 191),
        _ => random.between(192, 223),
    };
    let value = (first as u32) << 24 | random.number32() >> 8;
    let class = Class::of(value).expect("the first octet is below 224");
    value & class.net_mask()
}

/// An address on a good net, its host part sometimes all zeros or all ones.
pub fn address_on(random: &mut Random, net: u32) -> u32 {
    let host_mask = Class::of(net).map_or(0, |class| !class.net_mask());
    let host = match random.below(12) {
        0 => 0,
        1 => u32::MAX,
        2..=7 => random.number32() & 0xF,
        _ => random.number32(),
    };
    net | host & host_mask
}

pub fn as_number(random: &mut Random) -> u16 {
    match random.below(10) {
        0 => u16::MAX,
        1..=2 => random.number16().max(1),
        _ => random.between(1, 12) as u16,
    }
}

pub fn settings(random: &mut Random) -> Settings {
    let net = net(random);
    Settings {
        as_number: as_number(random),
        address: address_on(random, net),
        capability: random.below(3) as u8,
        net,
        quiet: random.below(2) as u8,
    }
}

/// An AS that add takes beside our own.
pub fn peer_as(random: &mut Random, own_as: u16) -> u16 {
    loop {
        let candidate = as_number(random);
        if candidate != own_as {
            return candidate;
        }
    }
}

/// An address that add takes: mostly on the common net, sometimes anywhere.
pub fn peer_address(random: &mut Random, state: &State) -> u32 {
    loop {
        let candidate = if random.thousandths(850) {
            let host = random.number32();
            let mask = Class::of(state.net).map_or(0, |class| !class.net_mask());
            state.net | host & mask
        } else {
            random.number32()
        };
        let taken = candidate == 0 || candidate == state.address;
        if !taken && state.find(candidate).is_none() {
            return candidate;
        }
    }
}

/// A sequence number, often at the turn.
pub fn sequence(random: &mut Random) -> u16 {
    match random.below(8) {
        0 => 0,
        1 => u16::MAX,
        2..=3 => random.between(1, 20) as u16,
        _ => random.number16(),
    }
}

/// A row's distance without the external mark.
fn distance(random: &mut Random) -> u32 {
    match random.below(6) {
        0 => 255,
        1..=4 => random.between(0, 3) as u32,
        _ => u32::from(random.octet()),
    }
}

/// Rows the writer takes: so many of them, external ones last if there are any. Nets, gateways
/// and distances repeat often, so that runs of every length come up.
pub fn rows(random: &mut Random, common_net: u32, count: usize, externals: bool) -> Vec<Row> {
    let gateways: Vec<u32> = (0..random.between(1, 6))
        .map(|_| address_on(random, common_net))
        .collect();
    let first_external = if externals {
        random.below(count + 1)
    } else {
        count
    };
    let mut rows = Vec::with_capacity(count);
    let mut gateway = random.pick(&gateways);
    let mut hops = distance(random);
    for index in 0..count {
        if random.thousandths(250) {
            gateway = if random.thousandths(800) {
                random.pick(&gateways)
            } else {
                address_on(random, common_net)
            };
        }
        if random.thousandths(300) {
            hops = distance(random);
        }
        let mark = if index < first_external { 0 } else { EXTERNAL };
        rows.push(Row {
            net: net(random),
            gateway,
            distance: hops + mark,
        });
    }
    rows
}

/// How many rows a neighbour reports: few, many, none, all there is room for.
pub fn row_count(random: &mut Random) -> usize {
    match random.below(10) {
        0 => 0,
        1 => MOST_ROWS,
        2 => random.between(1, MOST_ROWS as u64) as usize,
        _ => random.between(1, 6) as usize,
    }
}

/// A home list that is good for these settings.
pub fn home_list(random: &mut Random, address: u32, common_net: u32) -> Vec<u32> {
    if !net::is_on(address, common_net) {
        return Vec::new();
    }
    let count = match random.below(10) {
        0 => 0,
        1..=3 => MOST_ROWS,
        _ => random.between(1, 8) as usize,
    };
    let mut rows = rows(random, common_net, count, false);
    if let Some(first) = rows.first_mut() {
        first.gateway = address;
    }
    rows.iter().flat_map(Row::numbers).collect()
}

/// A whole message from its header fields and the octets from 10 on, the checksum right.
pub fn frame(pair: (u8, u8), status: u8, as_number: u16, sequence: u16, rest: &[u8]) -> Vec<u8> {
    let mut octets = vec![VERSION, pair.0, pair.1, status, 0, 0];
    octets.extend(as_number.to_be_bytes());
    octets.extend(sequence.to_be_bytes());
    octets.extend(rest);
    checksum::seal(&mut octets);
    octets
}

/// The octets of an Update from 10 on, in the making: blocks that need not be grouped as the
/// writer groups them, with empty blocks and groups.
pub struct Blocks {
    pub internal: u8,
    pub external: u8,
    pub net: u32,
    pub octets: Vec<u8>,
    pub rows: usize,
}

impl Blocks {
    pub fn rest(&self) -> Vec<u8> {
        let mut rest = vec![self.internal, self.external];
        rest.extend(self.net.to_be_bytes());
        rest.extend(&self.octets);
        rest
    }
}

/// Random gateway blocks of at most `limit` rows that fit a message.
pub fn blocks(random: &mut Random, common_net: u32, limit: usize) -> Blocks {
    let mut blocks = Blocks {
        internal: 0,
        external: 0,
        net: common_net,
        octets: Vec::new(),
        rows: 0,
    };
    let wanted = [
        random.between(0, 4) as u8,
        if random.thousandths(400) {
            random.between(1, 3) as u8
        } else {
            0
        },
    ];
    for (side, gateways) in wanted.into_iter().enumerate() {
        for _ in 0..gateways {
            let most = limit - blocks.rows;
            let (octets, rows) = block(random, common_net, most);
            if 16 + blocks.octets.len() + octets.len() > LONGEST {
                continue;
            }
            blocks.octets.extend(octets);
            blocks.rows += rows;
            match side {
                0 => blocks.internal += 1,
                _ => blocks.external += 1,
            }
        }
    }
    blocks
}

/// Blocks that make an Update of 2,048 octets, of 127 rows or 128: behind the rows come gateways with
/// groups of no nets.
pub fn longest_blocks(random: &mut Random, common_net: u32) -> Blocks {
    let class = Class::of(common_net).expect("blocks are made on a good net");
    let externals = random.thousandths(500);
    let rows = rows(random, common_net, MOST_ROWS - 1, externals);
    let (internal, external, mut octets) = update::write_blocks(common_net, &rows);
    let room = LONGEST - 16 - octets.len();
    let bare = class.host_octets() + 1;
    let gateways = room / (bare + 2 * 255) + 1;
    let mut left = room - gateways * bare;
    let odd = left % 2;
    for _ in 0..gateways {
        let gateway = address_on(random, common_net);
        octets.extend(&gateway.to_be_bytes()[class.net_octets()..]);
        let groups = (left / 2).min(255);
        octets.push(groups as u8);
        for _ in 0..groups {
            // One net of an octet makes the length even.
            let nets = left % 2;
            octets.extend([distance(random) as u8, nets as u8]);
            octets.extend(&[10][..nets]);
            left -= 2 + nets;
        }
    }
    Blocks {
        internal,
        external: external + gateways as u8,
        net: common_net,
        octets,
        rows: rows.len() + odd,
    }
}

/// One gateway block of at most `most` rows.
fn block(random: &mut Random, common_net: u32, most: usize) -> (Vec<u8>, usize) {
    let class = Class::of(common_net).expect("blocks are made on a good net");
    let gateway = address_on(random, common_net);
    let mut octets = gateway.to_be_bytes()[class.net_octets()..].to_vec();
    let distances = random.below(4);
    octets.push(distances as u8);
    let mut rows = 0;
    for _ in 0..distances {
        let nets = random.below(5).min(most - rows);
        octets.push(distance(random) as u8);
        octets.push(nets as u8);
        for _ in 0..nets {
            octets.extend(net_octets(net(random)));
        }
        rows += nets;
    }
    (octets, rows)
}

/// The octets a net takes in a message.
pub fn net_octets(net: u32) -> Vec<u8> {
    let width = Class::of(net).map_or(4, Class::net_octets);
    net.to_be_bytes()[..width].to_vec()
}

/// A status the kind allows.
pub fn status(random: &mut Random, kind: Kind) -> u8 {
    match kind {
        Kind::Refuse | Kind::Cease | Kind::CeaseAck => random.pick(&[0, 3, 4, 5, 6, 7]),
        Kind::Update | Kind::Error => random.pick(&[0, 1, 1, 2, 128, 129, 130]),
        _ => random.below(3) as u8,
    }
}

/// Intervals and status that are acceptable to an end of this capability.
pub fn acceptable(random: &mut Random, capability: u8) -> (u8, Intervals) {
    let status = if capability == PASSIVE_ONLY {
        random.below(2) as u8
    } else {
        random.below(3) as u8
    };
    // Short ones mostly: a list of seconds gets further with them.
    let hello = match random.below(20) {
        0..=3 => 0,
        4 => 120,
        5 => random.between(31, 120),
        _ => 30,
    };
    let poll = match random.below(20) {
        0..=3 => 0,
        4 => 480,
        5 => random.between(121, 480),
        _ => 120,
    };
    let intervals = Intervals {
        hello: hello as u16,
        poll: poll as u16,
    };
    (status, intervals)
}

/// Intervals and status that are not.
pub fn unacceptable(random: &mut Random, capability: u8) -> (u8, Intervals) {
    let (status, mut intervals) = acceptable(random, capability);
    if capability == PASSIVE_ONLY && random.thousandths(500) {
        return (PASSIVE_ONLY, intervals);
    }
    let too_long = |random: &mut Random, limit: u64| match random.below(4) {
        0 => u16::MAX,
        1 => random.between(limit + 1, 65_535) as u16,
        _ => limit as u16 + 1,
    };
    match random.below(3) {
        0 => intervals.hello = too_long(random, 120),
        1 => intervals.poll = too_long(random, 480),
        _ => {
            intervals.hello = too_long(random, 120);
            intervals.poll = too_long(random, 480);
        }
    }
    (status, intervals)
}

/// A meaning the writer takes, of this kind.
pub fn message(random: &mut Random, kind: Kind) -> Message {
    let intervals = Intervals {
        hello: random.number16(),
        poll: random.number16(),
    };
    let body = match kind {
        Kind::Request => Body::Request(intervals),
        Kind::Confirm => Body::Confirm(intervals),
        Kind::Refuse => Body::Refuse,
        Kind::Cease => Body::Cease,
        Kind::CeaseAck => Body::CeaseAck,
        Kind::Hello => Body::Hello,
        Kind::IHeardYou => Body::IHeardYou,
        Kind::Poll => Body::Poll {
            net: random.number32(),
        },
        Kind::Update => {
            let net = net(random);
            let count = row_count(random);
            let externals = random.thousandths(500);
            Body::Update {
                net,
                rows: rows(random, net, count, externals),
            }
        }
        Kind::Error => {
            let mut header = [0; 12];
            header.fill_with(|| random.octet());
            Body::Error {
                reason: random.number16(),
                header,
            }
        }
    };
    Message {
        status: status(random, kind),
        as_number: if random.thousandths(50) {
            0
        } else {
            as_number(random)
        },
        sequence: sequence(random),
        body,
    }
}

/// A timer of at most `most`, often about to run out.
fn timer(random: &mut Random, most: u64) -> u16 {
    (match random.below(6) {
        0..=2 => 1,
        3 => 2,
        4 => most,
        _ => random.between(1, most),
    }) as u16
}

/// Ticks since a message that must be so many apart: often about that, often about as many as are
/// counted.
fn ticks_since(random: &mut Random, apart: u8) -> u8 {
    let apart = u64::from(apart);
    let most = u64::from(MOST_TICKS);
    (match random.below(10) {
        0 => 0,
        1..=2 => random.between(apart - 2, most.min(apart + 1)),
        3..=4 => random.pick(&[most - 2, most - 1, most - 1, most]),
        5 => most,
        _ => random.between(1, most - 1),
    }) as u8
}

/// Counts of seconds at which a decimal gets a digit more, the least and the most among them.
pub const DIGIT_EDGES: [u32; 20] = [
    0,
    9,
    10,
    99,
    100,
    999,
    1_000,
    9_999,
    10_000,
    99_999,
    100_000,
    999_999,
    1_000_000,
    9_999_999,
    10_000_000,
    99_999_999,
    100_000_000,
    999_999_999,
    1_000_000_000,
    u32::MAX,
];

/// Counts of seconds at which one tick more changes two octets, three or all four.
pub const CARRIES: [u32; 3] = [0xFF, 0xFFFF, 0xFF_FFFF];

/// Whether no count is 0 and no two are equal, so that any change shows, and any exchange.
pub fn are_apart(seconds: Seconds) -> bool {
    let mut counts = seconds.all();
    counts.sort_unstable();
    counts[0] > 0 && counts.windows(2).all(|pair| pair[0] < pair[1])
}

/// Seconds of a neighbour in this state: apart, with room for more, more often than not; none, just
/// one count, or as many as can be now and then.
pub fn seconds(random: &mut Random, state: NeighbourState) -> Seconds {
    match random.below(20) {
        0..=1 => Seconds::default(),
        2..=3 => {
            let mut seconds = Seconds::default();
            let alone = random.pick(&NeighbourState::ALL);
            *seconds.of_mut(alone) = a_count(random);
            seconds
        }
        4..=5 => seconds_near_the_sum(random, state),
        _ => seconds_apart(random, state),
    }
}

/// Seconds that are apart, with room for more than a list of calls has ticks; the count of this
/// state is often one at which octets carry.
pub fn seconds_apart(random: &mut Random, state: NeighbourState) -> Seconds {
    const ROOM: u64 = 1_000_000;
    loop {
        let mut seconds = Seconds::default();
        for each in NeighbourState::ALL {
            *seconds.of_mut(each) = a_count(random);
        }
        if random.thousandths(400) {
            *seconds.of_mut(state) = random.pick(&CARRIES);
        }
        if are_apart(seconds) && seconds.sum() <= Seconds::MOST - ROOM {
            return seconds;
        }
    }
}

fn a_count(random: &mut Random) -> u32 {
    match random.below(8) {
        0..=1 => random.pick(&DIGIT_EDGES[1..19]),
        2..=3 => random.between(1, 300) as u32,
        4..=5 => random.number32() >> 12,
        _ => random.between(1, 800_000_000) as u32,
    }
}

/// Seconds that add up to the limit, or to one or two less; often all of them in one count, this
/// state's most often.
pub fn seconds_near_the_sum(random: &mut Random, state: NeighbourState) -> Seconds {
    let sum = Seconds::MOST - random.weighted(&[(5, 0), (3, 1), (1, 2)]);
    let any = random.pick(&NeighbourState::ALL);
    match random.below(20) {
        0..=5 => all_in(state, sum),
        6..=8 => all_in(any, sum),
        _ => seconds_of_sum(random, sum),
    }
}

/// All seconds in the count of this state.
pub fn all_in(state: NeighbourState, sum: u64) -> Seconds {
    let mut seconds = Seconds::default();
    *seconds.of_mut(state) = sum as u32;
    seconds
}

/// Five counts that are not 0 and add up to this, which is more than five and at most one more than
/// well formed allows.
pub fn seconds_of_sum(random: &mut Random, sum: u64) -> Seconds {
    let mut seconds = Seconds::default();
    let mut left = sum;
    let mut order = NeighbourState::ALL;
    order.rotate_left(random.below(5));
    for (index, state) in order.into_iter().enumerate() {
        let others = 4 - index as u64;
        let count = match others {
            0 => left,
            _ => random.between(1, (left - others).min(left / 2 + 1)),
        };
        *seconds.of_mut(state) = count as u32;
        left -= count;
    }
    seconds
}

/// Five counts of as many digits as may be in all: ten, but for one of nine.
fn longest_seconds(random: &mut Random) -> Seconds {
    const LEAST: u64 = 1_000_000_000;
    let short = random.pick(&NeighbourState::ALL);
    let mut left = Seconds::MOST - 4 * LEAST - LEAST / 10;
    let mut seconds = Seconds::default();
    for state in NeighbourState::ALL {
        let more = random.between(0, left);
        left -= more;
        let least = if state == short { LEAST / 10 } else { LEAST };
        *seconds.of_mut(state) = (least + more) as u32;
    }
    seconds
}

/// A state and a table whose listing is as long as can be: eight neighbours of 128 rows, every number
/// of as many digits as it may have.
pub fn longest(random: &mut Random) -> (State, Vec<u32>) {
    let quad = |random: &mut Random| {
        let octet = |random: &mut Random| random.between(100, 255) as u8;
        net::address(octet(random), octet(random), octet(random), octet(random))
    };
    let mut state = self::state(random);
    for slot in 0..SLOTS {
        let (mut address, mut as_number) = (0, 0);
        while !state.may_be_neighbour(address, as_number) || state.find(address).is_some() {
            address = quad(random);
            as_number = random.between(10_000, 65_535) as u16;
        }
        state.neighbours[slot] = Neighbour {
            mode: Mode::Passive,
            row_count: MOST_ROWS as u16,
            seconds: longest_seconds(random),
            ..neighbour(random, address, as_number, NeighbourState::Up)
        };
    }
    let mut table = Vec::with_capacity(TABLE_NUMBERS);
    for _ in 0..TABLE_NUMBERS / 3 {
        let distance = random.between(100, 255) as u32;
        table.extend([quad(random), quad(random)]);
        table.push(distance + random.pick(&[0, EXTERNAL]));
    }
    (state, table)
}

/// A well-formed neighbour in this state, reachable or not.
pub fn neighbour(
    random: &mut Random,
    address: u32,
    as_number: u16,
    state: NeighbourState,
) -> Neighbour {
    let mut neighbour = Neighbour::idle(address, as_number);
    neighbour.state = state;
    neighbour.seconds = seconds(random, state);
    if state == NeighbourState::Idle {
        return neighbour;
    }
    neighbour.send_sequence = sequence(random);
    neighbour.receive_sequence = sequence(random);
    neighbour.t1 = timer(random, 122);
    neighbour.t3 = match random.below(20) {
        0..=3 => 1,
        4 => 3600,
        _ => random.between(2, 3600) as u16,
    };
    neighbour.since_hello = ticks_since(random, HELLO_TICKS);
    neighbour.since_poll = ticks_since(random, POLL_TICKS);
    if state.is_acquired() {
        neighbour.hello_interval = random.pick(&[32, 32, 33, 77, 122]);
        neighbour.poll_interval = random.pick(&[122, 122, 123, 300, 482]);
        neighbour.mode = random.pick(&[Mode::Active, Mode::Passive]);
        // Those at which a mode turns, more often than others.
        neighbour.register = if random.thousandths(700) {
            random.pick(&[0, 0, 0b0001, 0b0011, 0b0111, 0b1000, 0b1000, 0b1000])
        } else {
            random.below(16) as u8
        };
        neighbour.heard = u8::from(random.thousandths(350));
    }
    if state == NeighbourState::Up {
        neighbour.t2 = timer(random, 482);
        neighbour.row_count = match random.below(5) {
            0 => 0,
            1 => MOST_ROWS as u16,
            _ => random.between(1, 9) as u16,
        };
    }
    if state == NeighbourState::Cease {
        neighbour.cause = random.pick(&[5, 6]);
    }
    neighbour
}

/// A well-formed state with at least one neighbour; holes between the used slots come up, and
/// most of these states no list of calls reaches.
pub fn state(random: &mut Random) -> State {
    let own = settings(random);
    let mut state = State {
        as_number: own.as_number,
        address: own.address,
        capability: own.capability,
        net: own.net,
        quiet: own.quiet,
        ..State::default()
    };
    let sure = random.below(SLOTS);
    for slot in 0..SLOTS {
        if slot == sure || random.thousandths(450) {
            let address = peer_address(random, &state);
            let as_number = peer_as(random, own.as_number);
            let phase = random.pick(&NeighbourState::ALL);
            state.neighbours[slot] = neighbour(random, address, as_number, phase);
        }
    }
    state
}

/// A table of the right length: zero, anything at all, or with rows where the state has them;
/// `listable` keeps the third number of used rows at most 511.
pub fn table(random: &mut Random, state: &State, listable: bool) -> Vec<u32> {
    let mut table = vec![0; TABLE_NUMBERS];
    if random.thousandths(500) {
        // Whatever a host may leave in rows that are not used.
        for _ in 0..random.between(1, 60) {
            table[random.below(TABLE_NUMBERS)] = random.number32();
        }
    }
    for (slot, neighbour) in state.neighbours.iter().enumerate() {
        let used = usize::from(neighbour.row_count).min(MOST_ROWS);
        let area = &mut table[slot * SLOT_NUMBERS..][..SLOT_NUMBERS];
        for place in area.chunks_mut(3).take(used) {
            place[0] = random.number32();
            place[1] = random.number32();
            place[2] = random.below(512) as u32;
        }
        if used > 0 && !listable && random.thousandths(700) {
            let place = random.below(used) * 3 + 2;
            area[place] = random.pick(&[512, 513, 600, u32::MAX]);
        }
    }
    table
}
