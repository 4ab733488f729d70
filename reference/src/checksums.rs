//! The checksum alone: that of the program `checksums` compared with the reference's at every length,
//! and timed beside two plain loops.
//!
//! A record asks the program to sum up the checksums of messages that lie one behind the other, so
//! many times; the loops do the same here. They run in turn, and the best round counts.

use std::fmt::Write as _;
use std::hint::black_box;
use std::io::{self, Read, Write};
use std::process::{Child, ChildStdin, ChildStdout, Command, Stdio};
use std::time::{Duration, Instant};

use crate::checksum::checksum;
use crate::random::Random;

/// The longest message.
const LONGEST: usize = 2048;
/// The lengths of message that are timed.
const LENGTHS: [usize; 5] = [10, 64, 576, 1168, 2048];
/// How many octets of messages lie one behind the other: they stay in the nearest cache.
const ROOM: usize = 16_384;
const ROUNDS: usize = 80;
/// How long a round should last: short, so that some are not disturbed by what else is running.
const ROUND: Duration = Duration::from_millis(2);

/// Words of 16 bits, folded at the end.
fn by_16(message: &[u8]) -> u16 {
    let mut sum = 0;
    let mut words = message.chunks_exact(2);
    for word in words.by_ref() {
        sum += u32::from(u16::from_be_bytes([word[0], word[1]]));
    }
    for octet in words.remainder() {
        sum += u32::from(*octet) << 8;
    }
    for (octet, shift) in message.iter().skip(4).zip([8, 0]) {
        sum -= u32::from(*octet) << shift;
    }
    fold(u64::from(sum))
}

/// Words of 32 bits, summed up in 64 and folded at the end.
fn by_32(message: &[u8]) -> u16 {
    let mut sum = 0;
    let mut words = message.chunks_exact(4);
    for word in words.by_ref() {
        sum += u64::from(u32::from_be_bytes([word[0], word[1], word[2], word[3]]));
    }
    for (octet, shift) in words.remainder().iter().zip([24, 16, 8]) {
        sum += u64::from(*octet) << shift;
    }
    for (octet, shift) in message.iter().skip(4).zip([24, 16]) {
        sum -= u64::from(*octet) << shift;
    }
    fold(sum)
}

fn fold(mut sum: u64) -> u16 {
    while sum > 0xFFFF {
        sum = (sum & 0xFFFF) + (sum >> 16);
    }
    !(sum as u16)
}

/// The sum of the checksums of the messages, so many times, and how long it took.
fn timed(
    checksum: impl Fn(&[u8]) -> u16,
    messages: &[u8],
    length: usize,
    times: u32,
) -> (u32, Duration) {
    let start = Instant::now();
    let mut sum = 0u32;
    for _ in 0..times {
        for message in black_box(messages).chunks_exact(length) {
            sum = sum.wrapping_add(u32::from(checksum(message)));
        }
    }
    (black_box(sum), start.elapsed())
}

/// The program under time, and both ends of its pipes.
struct Program {
    child: Child,
    records: ChildStdin,
    answers: ChildStdout,
}

impl Program {
    fn start(path: &str) -> io::Result<Program> {
        let mut child = Command::new(path)
            .stdin(Stdio::piped())
            .stdout(Stdio::piped())
            .spawn()?;
        let (records, answers) = (child.stdin.take(), child.stdout.take());
        match (records, answers) {
            (Some(records), Some(answers)) => Ok(Program {
                child,
                records,
                answers,
            }),
            _ => Err(io::Error::other("no pipe to the program")),
        }
    }

    fn ask(&mut self, messages: &[u8], length: usize, times: u32) -> io::Result<(u32, Duration)> {
        let mut record = times.to_be_bytes().to_vec();
        record.extend((length as u16).to_be_bytes());
        record.extend((messages.len() as u16).to_be_bytes());
        record.extend(messages);
        let mut answer = [0; 4];
        let start = Instant::now();
        self.records.write_all(&record)?;
        self.records.flush()?;
        self.answers.read_exact(&mut answer)?;
        Ok((u32::from_be_bytes(answer), start.elapsed()))
    }

    fn end(mut self) -> io::Result<()> {
        drop(self.records);
        self.child.wait().map(|_| ())
    }
}

/// Messages of a length: at random, of one octet throughout, and with one octet that is not 0, at
/// the end or anywhere.
fn messages(random: &mut Random, length: usize) -> Vec<Vec<u8>> {
    let mut list: Vec<Vec<u8>> = (0..4)
        .map(|_| (0..length).map(|_| random.octet()).collect())
        .collect();
    for octet in [0, 255, random.octet()] {
        list.push(vec![octet; length]);
    }
    for place in [length - 1, random.below(length)] {
        let mut message = vec![0; length];
        message[place] = random.octet();
        list.push(message);
    }
    list
}

/// Compares the program's checksum with the reference's: messages of every length up to 2,048.
/// How many there were, or the first that differs.
pub fn compare(path: &str) -> io::Result<usize> {
    let mut program = Program::start(path)?;
    let mut random = Random::new(1);
    let mut count = 0;
    for length in 1..=LONGEST {
        for message in messages(&mut random, length) {
            let (theirs, _) = program.ask(&message, length, 1)?;
            let ours = u32::from(checksum(&message));
            if theirs != ours {
                return Err(io::Error::other(format!(
                    "{length} octets: {ours} (reference), {theirs} (program): {message:?}"
                )));
            }
            count += 1;
        }
    }
    program.end()?;
    Ok(count)
}

/// Nanoseconds a message: the proved checksum, the loop by 16 bits, the loop by 32.
fn measure(program: &mut Program, length: usize) -> io::Result<[f64; 3]> {
    let mut random = Random::new(length as u64);
    let octets = ROOM / length * length;
    let messages: Vec<u8> = (0..octets).map(|_| random.octet()).collect();
    let mut times = 1;
    // One try of five below is enough: the others may have been disturbed.
    while (0..5).any(|_| timed(by_32, &messages, length, times).1 < ROUND) {
        times *= 2;
    }
    let (mut best, mut way) = ([Duration::MAX; 3], Duration::MAX);
    for _ in 0..ROUNDS {
        // The program does it once more than the loops; what it takes to do it once, with the way
        // there and back, is taken off at the end, the best of either.
        let (once, time) = program.ask(&messages, length, 1)?;
        way = way.min(time);
        let (all, time) = program.ask(&messages, length, times + 1)?;
        let results = [
            (all.wrapping_sub(once), time),
            timed(by_16, &messages, length, times),
            timed(by_32, &messages, length, times),
        ];
        for (place, (sum, time)) in best.iter_mut().zip(results) {
            if sum != results[0].0 {
                return Err(io::Error::other(format!(
                    "the checksums of messages of {length} octets differ"
                )));
            }
            *place = (*place).min(time);
        }
    }
    best[0] = best[0].saturating_sub(way);
    let each = f64::from(times) * (ROOM / length) as f64;
    Ok(best.map(|time| time.as_secs_f64() * 1e9 / each))
}

/// The table of all lengths.
pub fn report(path: &str) -> io::Result<String> {
    let mut program = Program::start(path)?;
    let mut report = format!(
        "{:<40} {:>12} {:>12} {:>8} {:>12} {:>8}\n",
        format!("checksum, nanoseconds, best of {ROUNDS}"),
        "proved",
        "by 16 bits",
        "ratio",
        "by 32 bits",
        "ratio"
    );
    for length in LENGTHS {
        let [proved, by_16, by_32] = measure(&mut program, length)?;
        let _ = writeln!(
            report,
            "{:<40} {proved:>12.1} {by_16:>12.1} {:>8.2} {by_32:>12.1} {:>8.2}",
            format!("{length} octets"),
            proved / by_16,
            proved / by_32
        );
    }
    program.end()?;
    Ok(report)
}

#[cfg(test)]
mod tests {
    use super::*;

    #[test]
    fn loops_give_the_checksum() {
        let mut random = Random::new(1);
        for length in 0..200 {
            let message: Vec<u8> = (0..length).map(|_| random.octet()).collect();
            assert_eq!(by_16(&message), checksum(&message), "{length} octets");
            assert_eq!(by_32(&message), checksum(&message), "{length} octets");
        }
        for octet in [0, 255] {
            assert_eq!(by_16(&[octet; 2048]), checksum(&[octet; 2048]));
            assert_eq!(by_32(&[octet; 2048]), checksum(&[octet; 2048]));
        }
    }
}
