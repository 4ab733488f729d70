//! A day's recording: eight neighbours that come up and stay up, polling and polled.
//!
//! The seconds are made one by one, so that every Hello and Poll of ours is answered soon after
//! it is sent. Between the seconds in which a message comes there is one line of ticks for each
//! neighbour.

use crate::call::{Bench, Call};
use crate::gateway::SLOTS;
use crate::message::{self, Body, Intervals, Kind, Message};
use crate::neighbour::{ACTIVE_ONLY, EITHER_MODE, P1, P2, PASSIVE_ONLY, STATUS_UP};
use crate::net::address;
use crate::random::Random;
use crate::recording;
use crate::update::{Row, MOST_ROWS};

/// The seconds of a day.
pub const DAY: u32 = 86_400;

const OWN_AS: u16 = 9;
const OWN: u32 = address(128, 9, 0, 1);
const NET: u32 = address(128, 9, 0, 0);

const INTERVALS: Intervals = Intervals {
    hello: P1,
    poll: P2,
};

/// How many nets each neighbour reports at first.
const NETS: [usize; SLOTS] = [3, 3, 5, 8, 16, 32, 64, 120];

/// The recording of a seed, over so many seconds.
pub fn recording(seed: u64, seconds: u32) -> String {
    let mut site = Site::new(seed);
    while site.now < seconds {
        site.second();
    }
    site.write_ticks();
    site.recording
}

/// One neighbour's own side.
struct Peer {
    address: u32,
    as_number: u16,
    /// Half of them send Hellos, half wait for ours.
    capability: u8,
    /// The number of its last command.
    sequence: u16,
    /// How far its clock is ahead.
    phase: u32,
    rows: Vec<Row>,
    /// Messages on their way to us, with the second in which they come.
    coming: Vec<(u32, Message)>,
}

impl Peer {
    fn new(random: &mut Random, slot: usize) -> Peer {
        let address = address(128, 9, 0, 5 + slot as u8);
        let rows = (0..NETS[slot])
            .map(|index| row(random, address, index))
            .collect();
        Peer {
            address,
            as_number: 20 + slot as u16,
            capability: [ACTIVE_ONLY, PASSIVE_ONLY][slot % 2],
            sequence: 0,
            phase: random.below(usize::from(P2)) as u32,
            rows,
            coming: Vec::new(),
        }
    }

    fn send(&mut self, second: u32, status: u8, sequence: u16, body: Body) {
        let message = Message {
            status,
            as_number: self.as_number,
            sequence,
            body,
        };
        self.coming.push((second, message));
    }

    fn send_command(&mut self, second: u32, status: u8, body: Body) {
        self.sequence = self.sequence.wrapping_add(1);
        self.send(second, status, self.sequence, body);
    }

    /// What it sends by its own clock: Hellos if it is the active end, and Polls.
    fn own_clock(&mut self, second: u32) {
        let clock = second + self.phase;
        if self.capability == ACTIVE_ONLY && clock % u32::from(P1) == 3 {
            self.send_command(second, STATUS_UP, Body::Hello);
        }
        if clock % u32::from(P2) == 7 {
            self.send_command(second, STATUS_UP, Body::Poll { net: NET });
        }
    }

    /// Answers what we sent, if it asks for an answer.
    fn answer(&mut self, second: u32, octets: &[u8]) {
        let Ok(sent) = message::read(octets, NET) else {
            return;
        };
        let (status, body) = match sent.kind() {
            Kind::Request => (self.capability, Body::Confirm(INTERVALS)),
            Kind::Hello => (STATUS_UP, Body::IHeardYou),
            Kind::Poll => (STATUS_UP, self.update()),
            _ => return,
        };
        self.send(second, status, sent.sequence, body);
    }

    fn update(&self) -> Body {
        Body::Update {
            net: NET,
            rows: self.rows.clone(),
        }
    }

    /// A net is further off or nearer than before; the last one goes, or another comes.
    fn change_rows(&mut self, random: &mut Random) {
        let index = random.below(self.rows.len());
        self.rows[index] = row(random, self.address, index);
        let count = self.rows.len();
        match random.below(4) {
            0 if count > 1 => self.rows.truncate(count - 1),
            1 if count < MOST_ROWS => self.rows.push(row(random, self.address, count)),
            _ => {}
        }
    }

    /// The messages that come in this second.
    fn arrivals(&mut self, second: u32) -> Vec<Message> {
        let (due, coming) = std::mem::take(&mut self.coming)
            .into_iter()
            .partition(|(when, _)| *when <= second);
        self.coming = coming;
        let due: Vec<(u32, Message)> = due;
        due.into_iter().map(|(_, message)| message).collect()
    }
}

/// Nets of all three classes, the same for every neighbour, behind it or another gateway.
fn row(random: &mut Random, peer: u32, index: usize) -> Row {
    let low = index as u8;
    let net = match index % 3 {
        0 => address(192, 5, low, 0),
        1 => address(130, low, 0, 0),
        _ => address(low, 0, 0, 0),
    };
    Row {
        net,
        gateway: peer + 16 * (index / 40) as u32,
        distance: random.below(4) as u32,
    }
}

/// The recording in the making, and the gateway that it is made on.
struct Site {
    random: Random,
    bench: Bench,
    peers: Vec<Peer>,
    recording: String,
    now: u32,
    /// The second up to which ticks are written.
    written: u32,
}

impl Site {
    fn new(seed: u64) -> Site {
        let mut random = Random::new(seed);
        let peers = (0..SLOTS)
            .map(|slot| Peer::new(&mut random, slot))
            .collect();
        let mut site = Site {
            random,
            bench: Bench::default(),
            peers,
            recording: String::new(),
            now: 0,
            written: 0,
        };
        site.begin();
        site
    }

    /// The head, the neighbours, and the acquisition of each: half of them by us.
    fn begin(&mut self) {
        let fresh = Call::Fresh {
            as_number: OWN_AS,
            address: OWN,
            capability: EITHER_MODE,
            net: NET,
            quiet: 0,
        };
        for line in recording::head_lines(&fresh).into_iter().flatten() {
            self.write(&line);
        }
        self.bench.run(&fresh);
        for slot in 0..SLOTS {
            let peer = &mut self.peers[slot];
            let (address, as_number) = (peer.address, peer.as_number);
            if slot % 4 < 2 {
                peer.send_command(1, peer.capability, Body::Request(INTERVALS));
            }
            self.event(slot, Call::Add { address, as_number });
            if slot % 4 >= 2 {
                self.event(slot, recording::start(address));
            }
        }
    }

    fn write(&mut self, line: &str) {
        self.recording.push_str(line);
        self.recording.push('\n');
    }

    /// Writes the line of a call and makes it.
    fn event(&mut self, slot: usize, call: Call) {
        if let Some(line) = recording::event_line(&call, 1) {
            self.write(&line);
        }
        self.make(slot, &call);
    }

    /// Makes a call; what we send is answered a second or two later.
    fn make(&mut self, slot: usize, call: &Call) {
        let record = self.bench.run(call);
        for octets in record.written() {
            let later = self.now + self.random.between(1, 2) as u32;
            self.peers[slot].answer(later, octets);
        }
    }

    fn second(&mut self) {
        self.now += 1;
        for slot in 0..SLOTS {
            self.make(slot, &recording::tick(self.peers[slot].address));
            self.peers[slot].own_clock(self.now);
        }
        if self.random.thousandths(5) {
            let slot = self.random.below(SLOTS);
            self.peers[slot].change_rows(&mut self.random);
        }
        for slot in 0..SLOTS {
            for message in self.peers[slot].arrivals(self.now) {
                self.write_ticks();
                let octets = message::encode(&message);
                self.event(slot, recording::received(self.peers[slot].address, octets));
            }
        }
    }

    /// The ticks since they were written last, which have been made already.
    fn write_ticks(&mut self) {
        let seconds = self.now - self.written;
        self.written = self.now;
        for slot in 0..SLOTS {
            let tick = recording::tick(self.peers[slot].address);
            if let (true, Some(line)) = (seconds > 0, recording::event_line(&tick, seconds)) {
                self.write(&line);
            }
        }
    }
}
