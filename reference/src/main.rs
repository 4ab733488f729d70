//! The commands: what a list touches, recordings, and comparisons with another implementation.

use std::fmt::Display;
use std::fs;
use std::io::{self, Read, Write};
use std::process::ExitCode;

use reference::coverage::{Survey, PLACES_WANTED};
use reference::generate::hosts::Hosts;
use reference::generate::{day, recordings};
use reference::host_places::HostSurvey;
use reference::speed::{self, growth, instructions};
use reference::{
    checksums, compare, compare_recordings, compare_traces, coverage, fuzz, playback, sample, site,
    trace,
};

fn main() -> ExitCode {
    let arguments: Vec<String> = std::env::args().skip(1).collect();
    let words: Vec<&str> = arguments.iter().map(String::as_str).collect();
    match words.as_slice() {
        ["coverage", seed, count] => with_numbers(seed, count, print_coverage),
        ["compare", driver, count, seeds @ ..] => with_seeds(count, seeds, |count, seeds| {
            compare_lists(driver, count, seeds)
        }),
        ["places", count, seeds @ ..] => with_seeds(count, seeds, |count, seeds| {
            print_places(&coverage::survey_places(seeds, count))
        }),
        ["case", seed, index] => with_numbers(seed, index, |seed, index| {
            print_octets(&compare::case(seed, index))
        }),
        ["sample", "records"] => print_octets(&sample::records()),
        ["sample", "answers"] => print_octets(&sample::answers()),
        ["compare-calls", driver, count, seeds @ ..] => with_seeds(count, seeds, |count, seeds| {
            compare_seeds(driver, count, seeds, &mut Survey::of_places())
        }),
        ["compare-checksums", program] => compare_checksums(program),
        ["host-places", count, seeds @ ..] => with_seeds(count, seeds, print_host_places),
        ["fuzz-seeds", directory] => write_fuzz_seeds(directory),
        _ => speed_command(&words),
    }
}

/// The commands about times.
fn speed_command(words: &[&str]) -> ExitCode {
    match words {
        ["speed", driver, c] => print_times(speed::times(driver, c)),
        ["instructions", driver, c] if !instructions::is_possible() => {
            println!("instructions of {driver} and {c} are not counted: valgrind is not installed");
            ExitCode::SUCCESS
        }
        ["instructions", driver, c] => print_times(instructions::report(driver, c)),
        // What is counted of this program itself.
        ["repeat-case", index, times] => with_numbers(times, index, |times, index| {
            instructions::repeat(index, times as u32);
            ExitCode::SUCCESS
        }),
        ["growth", driver, c, file] => {
            print_times(growth::report(driver, c).and_then(|(report, plot)| {
                fs::write(file, plot)?;
                Ok(report)
            }))
        }
        ["checksum-speed", program] => print_times(checksums::report(program)),
        _ => recording_command(words),
    }
}

/// The commands about recordings.
fn recording_command(words: &[&str]) -> ExitCode {
    match words {
        ["play"] => print_played(playback::play, read_input()),
        ["play", file] => print_played(playback::play, fs::read(file)),
        ["trace"] => print_played(trace::trace, read_input()),
        ["trace", file] => print_played(trace::trace, fs::read(file)),
        ["recording", seed, lines] => with_numbers(seed, lines, |seed, lines| {
            print_octets(&recordings::recording(seed, lines))
        }),
        ["compare-recordings", program, seed, count] => with_numbers(seed, count, |seed, count| {
            print_comparison(seed, compare_recordings::compare(program, seed, count))
        }),
        ["compare-traces", program, seed, count] => with_numbers(seed, count, |seed, count| {
            compare_traces(program, seed, count)
        }),
        ["day", seed] => with_numbers(seed, "0", |seed, _| {
            print_octets(day::recording(seed, day::DAY).as_bytes())
        }),
        ["site", "recording"] => print_octets(site::recording().as_bytes()),
        ["site", "output"] => print_octets(&site::output()),
        _ => usage(),
    }
}

/// Runs a command on a seed and a count.
fn with_numbers(seed: &str, count: &str, run: impl FnOnce(u64, usize) -> ExitCode) -> ExitCode {
    match (seed.parse(), count.parse()) {
        (Ok(seed), Ok(count)) => run(seed, count),
        _ => usage(),
    }
}

/// Runs a command on a count and one seed or more.
fn with_seeds(
    count: &str,
    seeds: &[&str],
    run: impl FnOnce(usize, &[u64]) -> ExitCode,
) -> ExitCode {
    let seeds: Result<Vec<u64>, _> = seeds.iter().map(|seed| seed.parse()).collect();
    match (count.parse(), seeds) {
        (Ok(count), Ok(seeds)) if !seeds.is_empty() => run(count, &seeds),
        _ => usage(),
    }
}

/// Compares the lists of all seeds, and asks that they reach every place.
fn compare_lists(driver: &str, count: usize, seeds: &[u64]) -> ExitCode {
    let mut survey = Survey::of_places();
    let exit = compare_seeds(driver, count, seeds, &mut survey);
    if exit != ExitCode::SUCCESS {
        return exit;
    }
    print_places(&survey)
}

/// Compares the lists of all seeds, up to the first difference.
fn compare_seeds(driver: &str, count: usize, seeds: &[u64], survey: &mut Survey) -> ExitCode {
    for &seed in seeds {
        let verdict = compare::compare(driver, seed, count, survey);
        let compared = verdict.map(|()| format!("{count} calls"));
        let exit = print_comparison(seed, compared);
        if exit != ExitCode::SUCCESS {
            return exit;
        }
    }
    ExitCode::SUCCESS
}

/// Compares the traces of a seed's recordings, and asks that they tell of everything.
fn compare_traces(program: &str, seed: u64, count: usize) -> ExitCode {
    let verdict = compare_traces::compare(program, seed, count);
    let exit = print_comparison(seed, verdict.as_ref());
    let Ok(tally) = verdict else {
        return exit;
    };
    print!("{}", tally.report());
    let missed = tally.missed();
    for what in &missed {
        println!("never met: {what}");
    }
    if missed.is_empty() {
        ExitCode::SUCCESS
    } else {
        ExitCode::FAILURE
    }
}

/// Says how often each place was reached, and which were not reached often enough.
fn print_places(survey: &Survey) -> ExitCode {
    print!("places reached:\n{}", survey.places_report());
    let missed = survey.missed_places();
    for place in &missed {
        println!("fewer than {PLACES_WANTED} times: {place}");
    }
    if missed.is_empty() {
        ExitCode::SUCCESS
    } else {
        ExitCode::FAILURE
    }
}

/// Says how often each place of a host's calls was reached, and which not often enough.
fn print_host_places(count: usize, seeds: &[u64]) -> ExitCode {
    let mut survey = HostSurvey::default();
    for &seed in seeds {
        for case in Hosts::new(seed).take(count) {
            survey.observe(&case);
        }
    }
    print!("{}{}", survey.details(), survey.report());
    let missed = survey.missed();
    for place in &missed {
        println!("fewer than {} times: {place}", survey.wanted());
    }
    if missed.is_empty() && survey.breaches().is_empty() {
        ExitCode::SUCCESS
    } else {
        ExitCode::FAILURE
    }
}

/// Writes the inputs from which a fuzzer starts.
fn write_fuzz_seeds(directory: &str) -> ExitCode {
    for (name, input) in fuzz::seeds(1, 50_000) {
        if let Err(error) = fs::write(format!("{directory}/{name}"), input) {
            eprintln!("{name}: {error}");
            return ExitCode::FAILURE;
        }
    }
    ExitCode::SUCCESS
}

fn print_coverage(seed: u64, count: usize) -> ExitCode {
    let survey = coverage::survey(seed, count);
    print!("{}", survey.report());
    if survey.is_complete() && survey.breaches().is_empty() {
        ExitCode::SUCCESS
    } else {
        ExitCode::FAILURE
    }
}

/// Says what was compared, or why the comparison stopped.
fn print_comparison(seed: u64, verdict: Result<impl Display, impl Display>) -> ExitCode {
    match verdict {
        Ok(compared) => {
            println!("seed {seed}: {compared}, no difference");
            ExitCode::SUCCESS
        }
        Err(stop) => {
            println!("seed {seed}: {stop}");
            ExitCode::FAILURE
        }
    }
}

fn print_octets(octets: &[u8]) -> ExitCode {
    match io::stdout().write_all(octets) {
        Ok(()) => ExitCode::SUCCESS,
        Err(_) => ExitCode::FAILURE,
    }
}

fn read_input() -> io::Result<Vec<u8>> {
    let mut octets = Vec::new();
    io::stdin().read_to_end(&mut octets)?;
    Ok(octets)
}

/// Writes what playing a recording gives, or tracing it.
fn print_played(play: fn(&[u8]) -> Vec<u8>, recording: io::Result<Vec<u8>>) -> ExitCode {
    match recording {
        Ok(recording) => print_octets(&play(&recording)),
        Err(error) => {
            eprintln!("{error}");
            ExitCode::FAILURE
        }
    }
}

fn compare_checksums(program: &str) -> ExitCode {
    match checksums::compare(program) {
        Ok(count) => {
            println!("{count} checksums without a difference, of every length from 1 to 2,048");
            ExitCode::SUCCESS
        }
        Err(error) => {
            println!("{error}");
            ExitCode::FAILURE
        }
    }
}

fn print_times(report: io::Result<String>) -> ExitCode {
    match report {
        Ok(report) => {
            print!("{report}");
            ExitCode::SUCCESS
        }
        Err(error) => {
            println!("{error}");
            ExitCode::FAILURE
        }
    }
}

fn usage() -> ExitCode {
    eprintln!(
        "usage: reference coverage SEED COUNT
       reference compare DRIVER COUNT SEED..
       reference compare-calls DRIVER COUNT SEED..
       reference places COUNT SEED..
       reference host-places COUNT SEED..
       reference fuzz-seeds DIRECTORY
       reference case SEED INDEX
       reference sample records|answers
       reference speed DRIVER C_DRIVER
       reference instructions DRIVER C_DRIVER
       reference repeat-case INDEX TIMES
       reference growth DRIVER C_DRIVER SVG
       reference compare-checksums PROGRAM
       reference checksum-speed PROGRAM
       reference play [FILE]
       reference trace [FILE]
       reference recording SEED LINES
       reference compare-recordings PROGRAM SEED COUNT
       reference compare-traces PROGRAM SEED COUNT
       reference day SEED
       reference site recording|output"
    );
    ExitCode::from(2)
}
