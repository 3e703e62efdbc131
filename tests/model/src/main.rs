//! `model compare --calls N --seed S [--only CASE] [--no-own-checks] [--share] --client COMMAND..`:
//! compares the library with the model on N calls or a few more; without own checks, the model is
//! not held against itself, so that only a difference stops a run; as a share of another run, it
//! need not hit everything. Exit status: 0 no difference, 1 a difference or something never hit, 2
//! bad usage, 3 the model breaks its own rules.
//!
//! `model list FILE`, `model csv|summary FILE [PROFILE]`: what the listing program and the C example
//! have to print of a capture file. Exit status: 0, or 1 where a file has no such output, or 2.

mod client;
mod compare;
mod compare_growth;
mod compare_page;
mod compare_sessions;
mod compare_timeslot;
mod compare_write;
mod coverage;
mod coverage_page;
mod coverage_sessions;
mod coverage_timeslot;
mod coverage_write;

use client::Client;
use compare::{Comparison, Stop};
use model::listing;
use std::process::ExitCode;
use std::time::Instant;

struct Options {
    calls: u64,
    seed: u64,
    only: Option<u64>,
    own_checks: bool,
    share: bool,
    client: Vec<String>,
}

fn options() -> Option<Options> {
    let mut words = std::env::args().skip(1);
    let mut options = Options {
        calls: 100_000,
        seed: 1,
        only: None,
        own_checks: true,
        share: false,
        client: Vec::new(),
    };
    if words.next()? != "compare" {
        return None;
    }
    while let Some(word) = words.next() {
        match word.as_str() {
            "--calls" => options.calls = words.next()?.parse().ok()?,
            "--seed" => options.seed = words.next()?.parse().ok()?,
            "--only" => options.only = Some(words.next()?.parse().ok()?),
            "--no-own-checks" => options.own_checks = false,
            "--share" => options.share = true,
            "--client" => options.client = words.by_ref().collect(),
            _ => return None,
        }
    }
    (!options.client.is_empty()).then_some(options)
}

/// What has to be printed of a capture file.
fn print(what: &str, file: &str, profile: u8) -> ExitCode {
    let bytes = match std::fs::read(file) {
        Ok(bytes) => bytes,
        Err(error) => {
            eprintln!("model: {file}: {error}");
            return ExitCode::from(2);
        }
    };
    let text = match what {
        "list" => Ok(listing::list(&bytes)),
        "csv" => listing::csv(&bytes, profile),
        _ => listing::summary(&bytes, profile),
    };
    match text {
        Ok(text) => {
            print!("{text}");
            ExitCode::SUCCESS
        }
        Err(number) => {
            eprintln!("model: {file}: refused with number {number}");
            ExitCode::from(1)
        }
    }
}

fn main() -> ExitCode {
    let words: Vec<String> = std::env::args().skip(1).collect();
    let words: Vec<&str> = words.iter().map(String::as_str).collect();
    match words[..] {
        [what @ ("list" | "csv" | "summary"), file] => return print(what, file, 0),
        [what @ ("csv" | "summary"), file, profile] => {
            if let Ok(profile) = profile.parse() {
                return print(what, file, profile);
            }
        }
        _ => {}
    }
    let Some(options) = options() else {
        eprintln!(
            "model compare --calls N --seed S [--only CASE] [--no-own-checks] [--share] --client COMMAND..\n\
             model list FILE\n\
             model csv|summary FILE [PROFILE]"
        );
        return ExitCode::from(2);
    };
    let client = match Client::start(&options.client) {
        Ok(client) => client,
        Err(error) => {
            eprintln!("model: {}: {error}", options.client[0]);
            return ExitCode::from(2);
        }
    };
    compare(&options, client)
}

fn compare(options: &Options, client: Client) -> ExitCode {
    let begin = Instant::now();
    let mut comparison = Comparison::new(client, options.own_checks);
    let mut case = options.only.unwrap_or(0);
    while comparison.calls < options.calls {
        if let Err(stop) = comparison.case(options.seed, case) {
            let seed = options.seed;
            let call = comparison.calls;
            let (code, text) = match stop {
                Stop::Difference(text) => (1, format!("DIFFERENCE\n{text}")),
                Stop::Model(text) => (3, format!("THE MODEL IS WRONG\n{text}")),
            };
            print!("seed {seed}, case {case}, call {call} of the run ");
            println!("(repeat: --seed {seed} --only {case}): {text}");
            return ExitCode::from(code);
        }
        case += 1;
        if options.only.is_some() {
            println!("case {} of seed {}: no difference", case - 1, options.seed);
            return ExitCode::SUCCESS;
        }
    }
    let mut never = Vec::new();
    for (line, never_in_it) in [
        coverage_page::line(&comparison.paging),
        coverage_write::line(&comparison.writing),
        coverage_timeslot::line_of_taking(&comparison.taking),
        coverage_timeslot::line_of_putting(&comparison.putting),
        coverage_sessions::line_of_opening(&comparison.opening),
        coverage_sessions::line_of_paging(&comparison.paging_sessions),
        coverage_sessions::line_of_closing(&comparison.closing),
    ] {
        println!("{line}");
        never.extend(never_in_it);
    }
    let calls = comparison.calls;
    let seconds = begin.elapsed().as_secs();
    println!(
        "compare: {calls} calls in {case} cases, seed {}, no difference, {seconds} s",
        options.seed
    );
    if !never.is_empty() && !options.share {
        println!("compare: never hit: {}", never.join(", "));
        return ExitCode::from(1);
    }
    ExitCode::SUCCESS
}
