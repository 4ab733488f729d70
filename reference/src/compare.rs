//! Runs a list of calls through a driver of another implementation and through the reference,
//! call by call, up to the first difference.

use std::fmt;
use std::io::{self, BufReader, BufWriter, Write};
use std::process::{Child, Command, ExitStatus, Stdio};
use std::thread;

use crate::call::{Bench, Call};
use crate::coverage::{Moment, Survey};
use crate::generate::Generator;
use crate::places::Seen;
use crate::record::{self, Given};
use crate::recording::hex;

/// The first call on which the two differ.
#[derive(Debug)]
pub struct Difference {
    pub index: usize,
    pub aim: &'static str,
    pub call: Call,
    /// State and table before the call.
    pub before: Bench,
    pub ours: Given,
    pub theirs: Given,
}

/// What can end a comparison before the list does.
#[derive(Debug)]
pub enum Stop {
    Difference(Box<Difference>),
    /// The driver ended or could not be run.
    Broken(usize, io::Error),
}

impl fmt::Display for Stop {
    fn fmt(&self, to: &mut fmt::Formatter) -> fmt::Result {
        match self {
            Stop::Broken(index, error) => write!(to, "no answer to call {index}: {error}"),
            Stop::Difference(difference) => write!(to, "{difference}"),
        }
    }
}

impl fmt::Display for Difference {
    fn fmt(&self, to: &mut fmt::Formatter) -> fmt::Result {
        let what = self.ours.difference(&self.theirs).unwrap_or_default();
        writeln!(
            to,
            "call {} ({}): {what} (reference, driver)",
            self.index, self.aim
        )?;
        writeln!(to, "{:?}", self.call)?;
        writeln!(to, "state before: {:?}", self.before.state)?;
        writeln!(to, "table before: {} numbers", self.before.table.len())?;
        for (name, given) in [("reference", &self.ours), ("driver", &self.theirs)] {
            let (first, second) = given.lengths;
            let shown = usize::from(first) + usize::from(second);
            writeln!(
                to,
                "{name}: answer {}, lengths {first} and {second}",
                given.answer
            )?;
            writeln!(to, "  state block {}", hex(&given.state))?;
            writeln!(
                to,
                "  buffer {}",
                hex(&given.buffer[..shown.min(given.buffer.len())])
            )?;
        }
        Ok(())
    }
}

/// A driver at the other end of two pipes.
pub struct Driver {
    child: Child,
    pub answers: BufReader<std::process::ChildStdout>,
}

impl Driver {
    pub fn start(program: &str) -> io::Result<(Driver, BufWriter<std::process::ChildStdin>)> {
        let mut child = Command::new(program)
            .stdin(Stdio::piped())
            .stdout(Stdio::piped())
            .spawn()?;
        let (Some(records), Some(answers)) = (child.stdin.take(), child.stdout.take()) else {
            return Err(io::Error::other("no pipes"));
        };
        let driver = Driver {
            child,
            answers: BufReader::with_capacity(1 << 16, answers),
        };
        Ok((driver, BufWriter::with_capacity(1 << 16, records)))
    }

    /// Waits for the driver to end; its standard input must be closed.
    pub fn end(mut self) -> io::Result<ExitStatus> {
        self.child.wait()
    }
}

/// Compares the first `count` calls of the list of a seed, and counts the places they reach.
///
/// A thread of its own writes the records, so that neither end waits for the other for ever.
/// Both it and the comparison make the list anew: a seed names one list.
pub fn compare(program: &str, seed: u64, count: usize, survey: &mut Survey) -> Result<(), Stop> {
    let (mut driver, mut records) =
        Driver::start(program).map_err(|error| Stop::Broken(0, error))?;
    let writer = thread::spawn(move || -> io::Result<()> {
        for step in Generator::new(seed).take(count) {
            records.write_all(&record::encode(&step.call, 1))?;
        }
        records.flush()
    });
    let verdict = follow(&mut driver, seed, count, survey);
    if verdict.is_err() {
        // The writer may be waiting for a driver that nobody reads any more.
        let _ = driver.child.kill();
    }
    let _ = writer.join();
    let _ = driver.end();
    verdict
}

fn follow(driver: &mut Driver, seed: u64, count: usize, survey: &mut Survey) -> Result<(), Stop> {
    let mut bench = Bench::default();
    for (index, step) in Generator::new(seed).take(count).enumerate() {
        let before = bench.state;
        let table_before = keeps_table(&step.call).then(|| bench.table.clone());
        let given = bench.run(&step.call);
        let ours = Given::expected(&step.call, &given, &bench);
        let theirs =
            Given::decode(&mut driver.answers).map_err(|error| Stop::Broken(index, error))?;
        if ours != theirs {
            return Err(Stop::Difference(Box::new(Difference {
                index,
                aim: step.aim,
                call: step.call,
                before: Bench {
                    state: before,
                    table: table_before.unwrap_or_else(|| bench.table.clone()),
                },
                ours,
                theirs,
            })));
        }
        survey.observe_places(&Seen {
            step: &step,
            before: &Moment {
                state: &before,
                table: table_before.as_ref().unwrap_or(&bench.table),
            },
            record: &given,
        });
    }
    Ok(())
}

/// Whether a call may change the table, so that what it was must be kept for the report.
fn keeps_table(call: &Call) -> bool {
    call.event_address().is_some() || matches!(call, Call::HandTable(_))
}

/// The records that lead to one call of a list, and nothing else: its state, its table, the call.
pub fn case(seed: u64, index: usize) -> Vec<u8> {
    let mut list = Generator::new(seed);
    let mut bench = Bench::default();
    for step in list.by_ref().take(index) {
        bench.run(&step.call);
    }
    let mut records = record::encode(&Call::HandState(Box::new(bench.state)), 1);
    records.extend(record::encode(&Call::HandTable(bench.table), 1));
    if let Some(step) = list.next() {
        records.extend(record::encode(&step.call, 1));
    }
    records
}
