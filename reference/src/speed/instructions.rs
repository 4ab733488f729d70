//! Instructions a call, counted by callgrind: free of noise.
//!
//! A program makes the call once, and in another run 17 times; a sixteenth of the difference is
//! one call and one turn of the program's loop around it. A loop alone is counted the same way,
//! with a record of no kind, which goes round a loop and calls nothing. It is shown and not taken
//! off: the proved driver has loops of their own for some kinds, so it need not be the same loop.

use std::fmt::Write as _;
use std::io::{self, Write};
use std::process::{Command, Stdio};
use std::sync::Mutex;
use std::thread;

use super::cases::{self, Case};
use super::{head, line, time_reference};
use crate::call::Call;
use crate::record;

/// How many more times the call is made in the second run.
const MORE: u32 = 16;
/// The reference's place among the programs.
const REFERENCE: usize = 1;

pub fn is_possible() -> bool {
    let version = Command::new("valgrind")
        .arg("--version")
        .stdout(Stdio::null())
        .status();
    version.is_ok_and(|status| status.success())
}

/// The records that lead to a call and make it so many times.
fn records(case: &Case, times: u32) -> Vec<u8> {
    let mut records = record::encode(&Call::HandTable(case.bench.table.clone()), 1);
    let state = Call::HandState(Box::new(case.bench.state));
    records.extend(record::encode(&state, 1));
    records.extend(case.record(times));
    records
}

/// All instructions of a program on this input.
fn collected(program: &str, arguments: &[&str], input: &[u8]) -> io::Result<u64> {
    let mut child = Command::new("valgrind")
        .args(["--tool=callgrind", "--callgrind-out-file=/dev/null"])
        .arg(program)
        .args(arguments)
        .stdin(Stdio::piped())
        .stdout(Stdio::null())
        .stderr(Stdio::piped())
        .spawn()?;
    if let Some(mut stdin) = child.stdin.take() {
        stdin.write_all(input)?;
    }
    let output = child.wait_with_output()?;
    let said = String::from_utf8_lossy(&output.stderr);
    let count = said
        .lines()
        .find_map(|line| line.split_once("Collected : "))
        .and_then(|(_, number)| number.trim().parse().ok());
    count.ok_or_else(|| io::Error::other(format!("{program} under callgrind: {said}")))
}

/// The reference's own call of a case, so many times: what [`collected`] runs of this program.
pub fn repeat(index: usize, times: u32) {
    if let Some(case) = cases::all().get(index) {
        time_reference(case, times);
    }
}

/// All instructions of one of the programs that makes a case's call so many times.
fn run(
    programs: [&str; 3],
    place: usize,
    index: usize,
    case: &Case,
    times: u32,
) -> io::Result<u64> {
    if place == REFERENCE {
        // Arguments of the same length in both runs.
        let (index, times) = (format!("{index:03}"), format!("{times:03}"));
        collected(programs[place], &["repeat-case", &index, &times], &[])
    } else {
        collected(programs[place], &[], &records(case, times))
    }
}

/// Instructions a call of each program, in the order of their names, with the loop.
fn counts(programs: [&str; 3], index: usize, case: &Case) -> io::Result<[f64; 3]> {
    let mut counts = [0.0; 3];
    for (place, count) in counts.iter_mut().enumerate() {
        let more = run(programs, place, index, case, 1 + MORE)?;
        let one = run(programs, place, index, case, 1)?;
        *count = more.saturating_sub(one) as f64 / f64::from(MORE);
    }
    Ok(counts)
}

/// The counts of all cases, found two at a time.
fn all_counts(programs: [&str; 3], cases: &[Case]) -> io::Result<Vec<[f64; 3]>> {
    let next = Mutex::new(0..cases.len());
    let found = Mutex::new(Vec::new());
    let work = || loop {
        let Some(index) = next.lock().ok().and_then(|mut next| next.next()) else {
            return;
        };
        let count = counts(programs, index, &cases[index]);
        if let Ok(mut found) = found.lock() {
            found.push((index, count));
        }
    };
    thread::scope(|scope| {
        scope.spawn(work);
        work();
    });
    let mut found = found.into_inner().unwrap_or_default();
    found.sort_by_key(|(index, _)| *index);
    found.into_iter().map(|(_, count)| count).collect()
}

/// The table of instructions.
pub fn report(proved: &str, c: &str) -> io::Result<String> {
    let reference = std::env::current_exe()?;
    let programs = [proved, &reference.to_string_lossy(), c];
    let cases = cases::all();
    let counts = all_counts(programs, &cases)?;
    let mut report = head("instructions a call, with a turn of the loop");
    report.push('\n');
    for (case, count) in cases.iter().zip(counts) {
        let _ = writeln!(report, "{}", line(&case.name, count));
    }
    Ok(report)
}
