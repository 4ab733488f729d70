//! Plays generated recordings with another implementation's program and with the reference, up to
//! the first octet in which what they write differs.

use std::fmt;
use std::io::{self, Read, Write};
use std::thread;

use crate::compare::Driver;
use crate::generate::recordings;
use crate::playback;
use crate::random::Random;
use crate::recording;

/// A generated recording by its two numbers.
#[derive(Clone, Copy, Debug, PartialEq, Eq)]
pub struct Name {
    pub seed: u64,
    pub lines: usize,
}

/// What was compared.
#[derive(Clone, Copy, Debug, Default, PartialEq, Eq)]
pub struct Tally {
    pub recordings: usize,
    pub lines: usize,
    pub replies: usize,
    pub bad_lines: usize,
    pub listed_octets: usize,
    pub listed_rows: usize,
}

impl Tally {
    fn add(&mut self, recording: &[u8], output: &[u8]) {
        self.recordings += 1;
        self.lines += recording::lines(recording).count();
        for line in recording::lines(output) {
            match line {
                [b't', b'x', ..] => self.replies += 1,
                [b'b', b'a', b'd', ..] => self.bad_lines += 1,
                _ => self.listed_octets += line.len(),
            }
            self.listed_rows += usize::from(line.starts_with(b"net="));
        }
    }
}

impl fmt::Display for Tally {
    fn fmt(&self, to: &mut fmt::Formatter) -> fmt::Result {
        write!(
            to,
            "{} recordings of {} lines; {} replies, {} bad lines, listings of {} octets with {} rows",
            self.recordings,
            self.lines,
            self.replies,
            self.bad_lines,
            self.listed_octets,
            self.listed_rows
        )
    }
}

/// What ends a comparison before all recordings are played.
#[derive(Debug)]
pub enum Stop {
    Difference(Name, Difference),
    /// The program could not be run, or did not end by itself.
    Broken(Name, io::Error),
}

impl fmt::Display for Stop {
    fn fmt(&self, to: &mut fmt::Formatter) -> fmt::Result {
        let (name, what): (&Name, &dyn fmt::Display) = match self {
            Stop::Difference(name, difference) => (name, difference),
            Stop::Broken(name, error) => (name, error),
        };
        write!(
            to,
            "reference recording {} {}: {what}",
            name.seed, name.lines
        )
    }
}

/// The first place in which two outputs differ.
#[derive(Clone, Debug, PartialEq, Eq)]
pub struct Difference {
    /// The octet from the beginning, from 0.
    pub octet: usize,
    /// The output's line that it stands on, from 1.
    pub line: usize,
    pub ours: Vec<u8>,
    pub theirs: Vec<u8>,
}

impl fmt::Display for Difference {
    fn fmt(&self, to: &mut fmt::Formatter) -> fmt::Result {
        writeln!(to, "output octet {}, on line {}", self.octet, self.line)?;
        writeln!(to, "reference: {}", self.ours.escape_ascii())?;
        write!(to, "program:   {}", self.theirs.escape_ascii())
    }
}

/// The first difference of two outputs, with the line around it in both.
pub fn difference(ours: &[u8], theirs: &[u8]) -> Option<Difference> {
    if ours == theirs {
        return None;
    }
    let octet = ours.iter().zip(theirs).take_while(|(a, b)| a == b).count();
    let before = &ours[..octet];
    let begin = before
        .iter()
        .rposition(|octet| *octet == recording::LINE_END)
        .map_or(0, |place| place + 1);
    let around = |output: &[u8]| {
        let line = recording::lines(&output[begin..]).next();
        line.unwrap_or_default().to_vec()
    };
    Some(Difference {
        octet,
        line: recording::lines(&ours[..begin]).count() + 1,
        ours: around(ours),
        theirs: around(theirs),
    })
}

/// Plays so many recordings of a seed with the program and compares what it writes.
pub fn compare(program: &str, seed: u64, count: usize) -> Result<Tally, Stop> {
    let mut tally = Tally::default();
    compare_outputs(program, seed, count, |recording| {
        let ours = playback::play(recording);
        tally.add(recording, &ours);
        ours
    })?;
    Ok(tally)
}

/// Hands so many recordings of a seed to the program and compares what it writes with what it should
/// write of each.
pub fn compare_outputs(
    program: &str,
    seed: u64,
    count: usize,
    mut expected: impl FnMut(&[u8]) -> Vec<u8>,
) -> Result<(), Stop> {
    let mut random = Random::new(seed);
    for _ in 0..count {
        let name = next_name(&mut random);
        let recording = recordings::recording(name.seed, name.lines);
        let ours = expected(&recording);
        let piece = random.between(1, 9000) as usize;
        let theirs =
            output_of(program, recording, piece).map_err(|error| Stop::Broken(name, error))?;
        if let Some(difference) = difference(&ours, &theirs) {
            return Err(Stop::Difference(name, difference));
        }
    }
    Ok(())
}

/// Short recordings more often than long ones, some with nothing but a head or less.
fn next_name(random: &mut Random) -> Name {
    let lines = match random.below(100) {
        0..=4 => random.between(0, 6),
        5..=59 => random.between(7, 150),
        60..=97 => random.between(151, 500),
        _ => 2000,
    };
    Name {
        seed: random.number64(),
        lines: lines as usize,
    }
}

/// What a program writes for a recording on its standard input, which comes in pieces of this
/// length, so that the program meets the end of a piece anywhere.
fn output_of(program: &str, recording: Vec<u8>, piece: usize) -> io::Result<Vec<u8>> {
    let (mut driver, mut input) = Driver::start(program)?;
    let writer = thread::spawn(move || {
        for octets in recording.chunks(piece) {
            // A program need not read on behind a bad head.
            if input
                .write_all(octets)
                .and_then(|()| input.flush())
                .is_err()
            {
                return;
            }
        }
    });
    let mut output = Vec::new();
    driver.answers.read_to_end(&mut output)?;
    let _ = writer.join();
    match driver.end()?.code() {
        Some(_) => Ok(output),
        None => Err(io::Error::other("the program was ended by a signal")),
    }
}
