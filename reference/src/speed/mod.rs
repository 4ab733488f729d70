//! How long the calls take: the proved ones beside the reference's and beside those in C, on the
//! same state, table and arguments in memory.
//!
//! A record asks a driver to make one call so many times, each time from the same state; the
//! reference does the same in a loop. All run in turn, and the best round of each counts.

pub mod cases;
pub mod growth;
pub mod instructions;

use std::fmt::Write as _;
use std::hint::black_box;
use std::io::{self, BufWriter, Write};
use std::process::ChildStdin;
use std::time::{Duration, Instant};

use crate::answer::Answer;
use crate::call::{Buffer, Call};
use crate::compare::Driver;
use crate::gateway::{self, Outcome, State};
use crate::listing;
use crate::record::{self, Given};

use cases::Case;

/// The programs under time, in this order everywhere.
pub const NAMES: [&str; 3] = ["proved", "reference", "C"];

/// How many rounds are run; the best counts. They are run in passes over all cases, so that what
/// disturbs the machine for a second does not disturb all rounds of one, and the drivers are
/// started anew for each, so that the figures do not hang on one start of them.
const ROUNDS: usize = PASSES * 10;
const PASSES: usize = 8;
/// How long a round should last: short, so that some are not disturbed by what else is running.
const ROUND: Duration = Duration::from_millis(2);

/// The reference's own call, so many times.
fn time_reference(case: &Case, times: u32) -> Duration {
    let state = case.bench.state;
    let mut table = case.bench.table.clone();
    let mut buffer = case.call.buffer().map(Buffer::octets).unwrap_or_default();
    let start = Instant::now();
    for _ in 0..times {
        black_box(once(
            black_box(&state),
            &mut table,
            &mut buffer,
            black_box(&case.call),
        ));
    }
    start.elapsed()
}

fn once(state: &State, table: &mut [u32], buffer: &mut [u8], call: &Call) -> Outcome {
    match call {
        Call::Start { address, .. } => gateway::start(state, table, buffer, *address),
        Call::Stop { address, .. } => gateway::stop(state, table, buffer, *address),
        Call::Tick { address, .. } => gateway::tick(state, table, buffer, *address),
        Call::Message {
            address,
            octets,
            home,
            ..
        } => gateway::message(state, table, buffer, home, *address, octets),
        Call::Listing { .. } => listing::listing(state, table, buffer),
        // No call: the loop alone.
        _ => Outcome {
            answer: Answer::Done,
            lengths: (0, 0),
            state: *state,
        },
    }
}

/// A driver's end: it is handed state and table, then the call with a count.
struct Timed {
    driver: Driver,
    records: BufWriter<ChildStdin>,
}

impl Timed {
    fn start(program: &str) -> io::Result<Timed> {
        let (driver, records) = Driver::start(program)
            .map_err(|error| io::Error::other(format!("{program}: {error}")))?;
        Ok(Timed { driver, records })
    }

    fn ask(&mut self, record: &[u8]) -> io::Result<(Given, Duration)> {
        let start = Instant::now();
        self.records.write_all(record)?;
        self.records.flush()?;
        let given = Given::decode(&mut self.driver.answers)?;
        Ok((given, start.elapsed()))
    }

    fn hand_state(&mut self, case: &Case) -> io::Result<()> {
        let state = Call::HandState(Box::new(case.bench.state));
        self.ask(&record::encode(&state, 1)).map(|_| ())
    }

    /// Hands in what the case starts from. A call that does not give what the reference gives is
    /// not timed.
    fn prepare(&mut self, case: &Case) -> io::Result<()> {
        let table = Call::HandTable(case.bench.table.clone());
        self.ask(&record::encode(&table, 1))?;
        self.hand_state(case)?;
        let (given, _) = self.ask(&case.record(1))?;
        if case.is_the_loop() {
            return Ok(());
        }
        let mut bench = case.bench.clone();
        let ours = bench.run(&case.call);
        let ours = Given::expected(&case.call, &ours, &bench);
        match ours.difference(&given) {
            Some(difference) => Err(io::Error::other(format!("{}: {difference}", case.name))),
            None => Ok(()),
        }
    }

    /// The driver's call with the way there and back, so many times.
    fn time(&mut self, case: &Case, times: u32) -> io::Result<Duration> {
        self.hand_state(case)?;
        let (_, time) = self.ask(&case.record(times))?;
        Ok(time)
    }

    fn end(self) -> io::Result<()> {
        drop(self.records);
        self.driver.end().map(|_| ())
    }
}

/// The drivers of a pass.
struct Bench {
    proved: Timed,
    c: Timed,
}

impl Bench {
    fn start(proved: &str, c: &str) -> io::Result<Bench> {
        Ok(Bench {
            proved: Timed::start(proved)?,
            c: Timed::start(c)?,
        })
    }

    fn prepare(&mut self, case: &Case) -> io::Result<()> {
        self.proved.prepare(case)?;
        self.c.prepare(case)
    }

    /// How many calls make a round, for the slowest of them; the best of five tries, lest a
    /// disturbed one make the rounds too short.
    fn times(&mut self, case: &Case) -> io::Result<u32> {
        let mut times = 8;
        while times < 1 << 24 {
            let mut best = [Duration::MAX; 3];
            for _ in 0..5 {
                let tried = [
                    self.proved.time(case, times)?,
                    time_reference(case, times),
                    self.c.time(case, times)?,
                ];
                best = least(best, tried);
            }
            if best.iter().any(|time| *time >= ROUND) {
                break;
            }
            times *= 2;
        }
        Ok(times)
    }

    /// Nanoseconds a call of each: the best of a pass's rounds, by turns, of so many calls.
    fn measure(&mut self, case: &Case, times: u32) -> io::Result<[f64; 3]> {
        // A driver's call is made once more, and what the record takes with one call is taken off:
        // the best of each, since what disturbs the one does not disturb the other.
        let (mut all, mut one) = ([Duration::MAX; 3], [Duration::MAX; 3]);
        for _ in 0..ROUNDS / PASSES {
            let once = [
                self.proved.time(case, 1)?,
                Duration::ZERO,
                self.c.time(case, 1)?,
            ];
            let more = [
                self.proved.time(case, times + 1)?,
                time_reference(case, times),
                self.c.time(case, times + 1)?,
            ];
            one = least(one, once);
            all = least(all, more);
        }
        let each = |place: usize| all[place].saturating_sub(one[place]).as_secs_f64() * 1e9;
        Ok([0, 1, 2].map(|place| each(place) / f64::from(times)))
    }

    fn end(self) -> io::Result<()> {
        self.proved.end()?;
        self.c.end()
    }
}

/// Nanoseconds a call of each program in each case, in the order of [`NAMES`], the best of
/// [`ROUNDS`].
fn measure_all(proved: &str, c: &str, cases: &[Case]) -> io::Result<Vec<[f64; 3]>> {
    let mut best = vec![[f64::MAX; 3]; cases.len()];
    let mut times = vec![None; cases.len()];
    for _ in 0..PASSES {
        let mut bench = Bench::start(proved, c)?;
        for ((best, times), case) in best.iter_mut().zip(&mut times).zip(cases) {
            bench.prepare(case)?;
            let times = match times {
                Some(times) => *times,
                None => *times.insert(bench.times(case)?),
            };
            let found = bench.measure(case, times)?;
            *best = [0, 1, 2].map(|place| best[place].min(found[place]));
        }
        bench.end()?;
    }
    Ok(best)
}

fn least(left: [Duration; 3], right: [Duration; 3]) -> [Duration; 3] {
    [0, 1, 2].map(|place| left[place].min(right[place]))
}

/// A number with its thousands apart.
fn grouped(number: f64) -> String {
    let digits = format!("{number:.0}");
    let mut text = String::new();
    for (index, digit) in digits.chars().enumerate() {
        if index > 0 && (digits.len() - index) % 3 == 0 {
            text.push(',');
        }
        text.push(digit);
    }
    text
}

/// One line of a table: what each takes, and the proved call's ratio to the others'.
fn line(name: &str, [proved, reference, c]: [f64; 3]) -> String {
    format!(
        "{name:<44} {:>10} {:>10} {:>10} {:>8.2} {:>8.2}",
        grouped(proved),
        grouped(reference),
        grouped(c),
        proved / reference,
        proved / c
    )
}

fn head(what: &str) -> String {
    let [proved, reference, c] = NAMES;
    format!(
        "{what:<44} {proved:>10} {reference:>10} {c:>10} {:>8} {:>8}",
        "to ref.", "to C"
    )
}

/// The table of times.
pub fn times(proved: &str, c: &str) -> io::Result<String> {
    let mut report = head(&format!("nanoseconds a call, best of {ROUNDS}"));
    report.push('\n');
    let cases = cases::all();
    for (case, times) in cases.iter().zip(measure_all(proved, c, &cases)?) {
        let _ = writeln!(report, "{}", line(&case.name, times));
    }
    Ok(report)
}

#[cfg(test)]
mod tests {
    use super::*;

    #[test]
    fn thousands_stand_apart() {
        let texts = [0.4, 999.0, 1000.0, 458_785.2, 3_818_163.0].map(grouped);
        assert_eq!(texts, ["0", "999", "1,000", "458,785", "3,818,163"]);
    }
}
