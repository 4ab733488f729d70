//! Seeded recordings: the life of a few neighbours as lines, damaged ones among them.
//!
//! The lines are played as they are made, so that the next one fits the state: neighbours really
//! come up and really hold rows.

use super::line_faults::{self, Sound, LINE_FAULTS};
use super::{faults, material, Generator, Temper};
use crate::call::Call;
use crate::message::{Kind, LONGEST, SHORTEST};
use crate::neighbour::{Neighbour, NeighbourState};
use crate::playback;
use crate::random::Random;
use crate::recording::{self, HEAD_LINES, LINE_END, MOST_OCTETS};

/// Lines among which another `quiet` line comes up most often: the next behind the one that would
/// be a setting.
const NEAR_THE_HEAD: std::ops::Range<usize> = HEAD_LINES + 2..HEAD_LINES + 5;
/// Up to this line stray messages come up most often, the neighbours being in Idle still.
const EARLY: usize = 40;

/// How many ticks the lines of one recording ask for at most, so that it is soon played.
const TICKS: u32 = 120_000;

/// The recording of a seed, of so many lines; one with a damaged head may have fewer.
pub fn recording(seed: u64, lines: usize) -> Vec<u8> {
    let mut recorder = Recorder::new(seed);
    while recorder.lines.len() < lines {
        recorder.add_line();
    }
    recorder.lines.truncate(lines);
    recorder.finish()
}

struct Recorder {
    life: Generator,
    /// The lines with their ends.
    lines: Vec<Vec<u8>>,
    ticks_left: u32,
    /// Adds again the neighbour that was removed last.
    add_again: Option<Call>,
}

impl Recorder {
    /// A good head, and adds waiting in the queue of the life that follows it.
    fn new(seed: u64) -> Recorder {
        let mut life = Generator::new(seed);
        life.begin_list();
        let head = life
            .queue
            .iter()
            .find_map(|(call, _)| recording::head_lines(call))
            .expect("a list begins with fresh");
        let head = head.into_iter().take(HEAD_LINES);
        let lines: Vec<Vec<u8>> = head.map(|line| end(line.into())).collect();
        let (bench, _) = playback::begin(&slices(&lines)).expect("fresh takes the settings");
        life.bench = bench;
        let mut recorder = Recorder {
            life,
            lines,
            ticks_left: TICKS,
            add_again: None,
        };
        recorder.add_setting();
        recorder
    }

    /// What stands right after `net` if it is a `quiet` line, good or bad.
    fn add_setting(&mut self) {
        let random = &mut self.life.random;
        let line = match random.below(10) {
            0..=2 => return,
            3 => b"quiet=0".to_vec(),
            4..=7 => b"quiet=1".to_vec(),
            _ => line_faults::bad_quiet(random),
        };
        self.take(end(line));
    }

    /// Makes a line and plays it.
    fn add_line(&mut self) {
        let sound = self.sound();
        let random = &mut self.life.random;
        let is_near = NEAR_THE_HEAD.contains(&(self.lines.len() + 1));
        let line = match random.below(1000) {
            0..=89 => {
                let (_, damage) = random.pick(&LINE_FAULTS);
                damage(random, &sound)
            }
            90..=119 => line_faults::changed_at_random(random, &sound.line),
            120..=299 if is_near => line_faults::stray_quiet(random, &sound),
            _ => sound.line.into_bytes(),
        };
        // What was changed at random may be two lines.
        for part in line.split(|octet| *octet == LINE_END) {
            self.take(end(part.to_vec()));
        }
    }

    /// Puts a line behind the others and plays it, if it is no setting.
    fn take(&mut self, line: Vec<u8>) {
        let is_fifth = self.lines.len() == HEAD_LINES;
        match recording::quiet(&line).filter(|_| is_fifth) {
            Some(quiet) => self.life.bench.state.quiet = quiet,
            None => playback::play_line(&mut self.life.bench, 0, &line, &mut Vec::new()),
        }
        self.lines.push(line);
    }

    /// A good line, and what it is made of.
    fn sound(&mut self) -> Sound {
        loop {
            let call = self.call();
            let times = self.times(&call);
            if let Some(line) = recording::event_line(&call, times) {
                let slot = self.life.used_slot();
                let sender = self.life.sender(slot);
                return Sound {
                    line,
                    address: call.about().unwrap_or_default(),
                    message: faults::good(&mut self.life.random, sender),
                };
            }
        }
    }

    fn call(&mut self) -> Call {
        if let Some((call, _)) = self.life.queue.pop_front() {
            return call;
        }
        if self.life.filling {
            return self.life.fill().0;
        }
        let is_early = self.lines.len() < EARLY;
        match self.life.random.below(1000) {
            0..=79 => {
                let slot = self.life.used_slot();
                self.life.faulty_message(slot).0
            }
            80..=109 => self.membership(),
            110..=129 => self.call_about_unknown(),
            130..=139 => self.long_or_short_message(),
            140..=159 => self.stray(),
            160..=259 if is_early => self.stray(),
            260..=264 => self.removal(),
            265..=269 => self.longest_update(),
            _ => self.life.live().0,
        }
    }

    /// Add and remove; who was removed is added again more often than not.
    fn membership(&mut self) -> Call {
        if self.life.random.thousandths(600) {
            if let Some(add) = self.add_again.take() {
                return add;
            }
        }
        let (call, _) = self.life.membership();
        match call {
            Call::Remove { address } => self.remove(address),
            _ => call,
        }
    }

    fn remove(&mut self, address: u32) -> Call {
        let as_number = self.neighbour(address).as_number;
        self.add_again = Some(Call::Add { address, as_number });
        Call::Remove { address }
    }

    /// Removes a neighbour in Idle for which seconds have gone by, if there is one; else one that is
    /// in any state.
    fn removal(&mut self) -> Call {
        let neighbours = &self.life.bench.state.neighbours;
        let is_old = |n: &&Neighbour| n.state == NeighbourState::Idle && n.seconds.sum() > 0;
        let old = neighbours.iter().find(is_old).map(|n| n.address);
        let slot = self.life.used_slot();
        self.remove(old.unwrap_or(self.life.bench.state.neighbours[slot].address))
    }

    fn call_about_unknown(&mut self) -> Call {
        let address = self.life.unknown_address();
        let slot = self.life.used_slot();
        let sender = self.life.sender(slot);
        let random = &mut self.life.random;
        match random.below(5) {
            0 => recording::start(address),
            1 => recording::stop(address),
            2 => recording::tick(address),
            3 => recording::received(address, faults::good(random, sender)),
            _ => {
                let fault = random.weighted(&faults::MESSAGE_FAULTS);
                recording::received(address, faults::message(random, sender, fault))
            }
        }
    }

    /// A message to a neighbour in Idle, if there is one.
    fn stray(&mut self) -> Call {
        let neighbours = &self.life.bench.state.neighbours;
        let idle = neighbours
            .iter()
            .position(|n| n.is_used() && n.state == NeighbourState::Idle);
        let slot = idle.unwrap_or_else(|| self.life.used_slot());
        self.life.stray(slot).0
    }

    /// As many octets as a message or a line may have, or fewer than a message must have.
    fn long_or_short_message(&mut self) -> Call {
        let slot = self.life.used_slot();
        let sender = self.life.sender(slot);
        let random = &mut self.life.random;
        let mut octets = faults::good(random, sender);
        let short = random.below(SHORTEST);
        let length = random.weighted(&[(1, LONGEST), (1, MOST_OCTETS), (1, short)]);
        octets.resize(length, random.octet());
        if length >= SHORTEST {
            crate::checksum::seal(&mut octets);
        }
        recording::received(self.life.bench.state.neighbours[slot].address, octets)
    }

    /// A good Update of as many octets as may be, whatever state finds it.
    fn longest_update(&mut self) -> Call {
        let slot = self.life.used_slot();
        let sender = self.life.sender(slot);
        let random = &mut self.life.random;
        let rest = material::longest_blocks(random, sender.net).rest();
        let octets = material::frame(
            Kind::Update.type_and_code(),
            material::status(random, Kind::Update),
            sender.as_number,
            sender.sequence,
            &rest,
        );
        recording::received(self.life.bench.state.neighbours[slot].address, octets)
    }

    fn neighbour(&self, address: u32) -> Neighbour {
        let state = &self.life.bench.state;
        let slot = state.find(address);
        slot.map(|slot| state.neighbours[slot]).unwrap_or_default()
    }

    /// How many times the call is made: a tick for some seconds, any other call once.
    fn times(&mut self, call: &Call) -> u32 {
        let Call::Tick { address, .. } = call else {
            return 1;
        };
        let neighbour = self.neighbour(*address);
        let is_silent = self.life.temper == Temper::Silent;
        let wanted = seconds(&mut self.life.random, &neighbour, is_silent);
        let times = wanted.min(self.ticks_left).max(1);
        self.ticks_left = self.ticks_left.saturating_sub(times);
        times
    }

    /// The octets of all lines; now and then the head is damaged or the last line not ended.
    fn finish(mut self) -> Vec<u8> {
        if self.life.random.thousandths(60) {
            self.damage_head();
        }
        if self.life.random.thousandths(10) && self.lines.len() > HEAD_LINES {
            // All that is left of a recording behind `net`.
            self.lines.truncate(HEAD_LINES);
            self.lines.push(b"quiet=1".to_vec());
            return self.lines.concat();
        }
        let mut octets = self.lines.concat();
        if self.life.random.thousandths(150) {
            octets.pop();
        }
        octets
    }

    fn damage_head(&mut self) {
        let random = &mut self.life.random;
        let lines = &mut self.lines;
        let place = random.below(HEAD_LINES);
        if lines.len() <= place {
            return;
        }
        match random.below(8) {
            0 => lines.truncate(place),
            1 => {
                lines.remove(place);
            }
            2 => lines.swap(place, 0),
            3 => lines.insert(place, end(Vec::new())),
            4 => lines[place] = end(unusual_setting(random, place)),
            5..=6 => {
                let refused = ["ownas=0", "own=240.0.0.1", "cap=3", "net=224.0.0.0"];
                lines[place] = end(refused[place].into());
            }
            _ => {
                let (_, damage) = random.pick(&LINE_FAULTS);
                lines[place] = end(damage(random, &sound_setting(&lines[place])));
            }
        }
    }
}

fn slices(lines: &[Vec<u8>]) -> Vec<&[u8]> {
    lines.iter().map(Vec::as_slice).collect()
}

/// A head line as something to damage.
fn sound_setting(line: &[u8]) -> Sound {
    Sound {
        line: String::from_utf8_lossy(line).trim_end().to_string(),
        address: crate::net::address(128, 9, 0, 1),
        message: vec![0xAB; 10],
    }
}

/// A setting at an edge: one that no line may have, or one that fresh refuses.
fn unusual_setting(random: &mut Random, place: usize) -> Vec<u8> {
    let choices: &[&str] = match place {
        0 => &[
            "ownas=0",
            "ownas=65536",
            "ownas=00",
            "ownas=01",
            "ownas=65545",
        ],
        2 => &["cap=3", "cap=255", "cap=256", "cap=257", "cap=01", "cap=-1"],
        1 => &[
            "own=0.0.0.0",
            "own=255.255.255.255",
            "own=1.2.3",
            "own=1.2.3.256",
        ],
        _ => &[
            "net=224.0.0.0",
            "net=128.9.0.1",
            "net=0.0.0.0",
            "net=256.0.0.0",
            "net=10.0.0",
        ],
    };
    random.pick(choices).as_bytes().to_vec()
}

fn end(mut line: Vec<u8>) -> Vec<u8> {
    line.push(LINE_END);
    line
}

/// Few seconds more often than many, and often up to a timer's end. A neighbour that has not been
/// heard yet gets time to be.
fn seconds(random: &mut Random, neighbour: &Neighbour, is_silent: bool) -> u32 {
    let unheard = neighbour.state.is_acquired() && neighbour.heard == 0;
    let timer = match is_silent {
        true => random.pick(&[neighbour.t1, neighbour.t2, neighbour.t3]),
        false => neighbour.t1,
    };
    match random.below(1000) {
        0..=3 => random.pick(&[3599, 3600, 7200, 86_399, 86_400]),
        4..=9 => random.between(1, 400) as u32,
        10..=299 => random.between(1, 9) as u32,
        _ if unheard && !is_silent => random.between(1, 9) as u32,
        300..=399 => u32::from(timer).saturating_sub(1).max(1),
        _ => u32::from(timer).max(1),
    }
}
