//! Compares the proved library and the text program with the reference, and says so at the first disagreement.
#![deny(warnings)]
#![forbid(unsafe_code)]

use compare::{alter, alterations, compare, outcome, sizes, Lending, CALLS};
use compare::{program, random_cases, small_cases, texts, Case};
use compare::{Mutant, Proved, Reference, Slip, Tally, SLIPS};
use std::process::ExitCode;
use std::time::Instant;

const HELP: &str = "\
compare COUNT SEED           all small cases, COUNT random ones, and COUNT / 100 inputs of the text program, at most 4,000
compare --slips COUNT SEED   how many of COUNT random cases notice each mistake and each changed word; fails if one is never noticed
compare --case NUMBER SEED   one random case again
compare --small NUMBER       one small case again
compare --text NUMBER SEED   one input of the text program again
compare --help               this

All calls are made on every case: two checks, five lists, key equality, tidying. The answer, every lent word, nine words on either
side of every buffer and of every pool, and the pools are compared. Run it in the project's root: the text program is
target/bin/prefixsets, or what LHAMTROVI_PROGRAM names. Exit status: 0 all agree, 1 a disagreement, 2 it could not run.";

/// At most so many runs of the text program.
const MOST_TEXTS: u64 = 4_000;

/// Says how far it is, now and then.
struct Progress {
    start: Instant,
    said: u64,
}

impl Progress {
    /// Starts the clock.
    fn new() -> Progress {
        Progress {
            start: Instant::now(),
            said: 0,
        }
    }

    /// Seconds since the start.
    fn seconds(&self) -> f64 {
        self.start.elapsed().as_secs_f64()
    }

    /// Writes a line every ten seconds.
    fn at(&mut self, what: &str, done: u64) {
        let tens = self.start.elapsed().as_secs() / 10;
        if tens > self.said {
            self.said = tens;
            eprintln!("{:.0} s: {done} {what}", self.seconds());
        }
    }
}

/// Why a run ended early: the exit status and the report.
type Failure = (u8, String);

/// A disagreement, with the arguments that show it again.
fn disagreement(again: &str, found: &dyn std::fmt::Display) -> Failure {
    let report = format!("DISAGREEMENT; again: compare {again}\n{found}");
    (1, report)
}

/// A run that cannot go on for another reason.
fn stopped(reason: impl Into<String>) -> Failure {
    (2, reason.into())
}

/// Compares one case and counts it.
fn one_case(case: &Case, again: &str, tally: &mut Tally) -> Result<(), Failure> {
    let answers =
        compare(case, &Proved, &Reference).map_err(|found| disagreement(again, &found))?;
    tally.add(case.family, &answers);
    Ok(())
}

/// Compares one input of the text program and counts it.
fn one_text(number: u64, seed: u64, tally: &mut Tally) -> Result<(), Failure> {
    let path = program::path();
    let input = texts::text(seed, number);
    let both = program::compare(&path, &input)
        .map_err(|error| stopped(format!("cannot run {}: {error}", path.display())))?;
    let said = both.map_err(|found| disagreement(&format!("--text {number} {seed}"), &found))?;
    tally.add_text(&said);
    Ok(())
}

/// All small cases, then random ones, then texts.
fn all(count: u64, seed: u64) -> Result<(), Failure> {
    let mut progress = Progress::new();
    let mut tally = Tally::default();
    let mut small = 0;
    for case in small_cases::all() {
        one_case(&case, &format!("--small {small}"), &mut tally)?;
        small += 1;
        progress.at("small cases", small);
    }
    println!("{small} small cases agree, {:.1} s", progress.seconds());
    for number in 0..count {
        let case = random_cases::case(seed, number);
        one_case(&case, &format!("--case {number} {seed}"), &mut tally)?;
        progress.at("random cases", number);
    }
    println!(
        "{count} random cases of seed {seed} agree, {:.1} s",
        progress.seconds()
    );
    let runs = (count / 100).min(MOST_TEXTS);
    for number in 0..runs {
        one_text(number, seed, &mut tally)?;
        progress.at("texts", number);
    }
    println!(
        "{runs} texts of seed {seed} agree, {:.1} s",
        progress.seconds()
    );
    println!("{tally}");
    let calls = (small + count) * CALLS.len() as u64;
    println!("0 disagreements in {calls} calls and {runs} runs of the text program");
    match tally.missing() {
        Some(what) => Err(stopped(format!("never came up: {what}"))),
        None => Ok(()),
    }
}

/// Counts the cases that notice each mistake.
fn slips(count: u64, seed: u64) -> Result<(), Failure> {
    let mut progress = Progress::new();
    let mut noticed = [0u64; SLIPS.len()];
    for number in 0..count {
        let case = random_cases::case(seed, number);
        compare(&case, &Proved, &Mutant(Slip::None))
            .map_err(|found| disagreement(&format!("--slips {count} {seed}"), &found))?;
        for (place, (slip, _)) in SLIPS.iter().enumerate() {
            noticed[place] += u64::from(compare(&case, &Proved, &Mutant(*slip)).is_err());
        }
        progress.at("cases with slips", number);
    }
    println!("| mistake | noticed by, of {count} cases |\n|---|---|");
    for ((_, name), times) in SLIPS.iter().zip(noticed) {
        println!("| {name} | {times} |");
    }
    match SLIPS.iter().zip(noticed).find(|(_, times)| *times == 0) {
        Some(((_, name), _)) => Err((1, format!("never noticed: {name}"))),
        None => Ok(()),
    }
}

/// Counts, for each kind of word, the outcomes that have one and those in which its change is noticed.
fn changed_words(count: u64, seed: u64) -> Result<(), Failure> {
    println!("| changed word | calls that have it | noticed |\n|---|---|---|");
    for kind in alterations() {
        let (mut changed, mut noticed) = (0u64, 0u64);
        for number in 0..count.min(2_000) {
            let case = random_cases::case(seed, number);
            let lending = Lending::new(&case);
            for call in CALLS {
                let sizes = sizes(call, &case);
                let mut ours = outcome(&Proved, call, &lending, sizes);
                if alter(call, &mut ours, kind) {
                    changed += 1;
                    let theirs = outcome(&Reference, call, &lending, sizes);
                    noticed += u64::from(ours != theirs);
                }
            }
        }
        println!("| {kind:?} | {changed} | {noticed} |");
        if changed == 0 || noticed < changed {
            return Err((1, format!("a changed word was not noticed: {kind:?}")));
        }
    }
    Ok(())
}

/// A number from the arguments.
fn number(text: &str) -> Result<u64, Failure> {
    text.parse()
        .map_err(|_| stopped(format!("no number: {text}")))
}

/// Shows a case and compares it.
fn shown(case: &Case) -> Result<(), Failure> {
    print!("{case}");
    one_case(case, "with the same arguments", &mut Tally::default())?;
    println!("both agree");
    Ok(())
}

/// Does what the arguments say.
fn run(arguments: &[&str]) -> Result<(), Failure> {
    match *arguments {
        ["--help"] => {
            println!("{HELP}");
            Ok(())
        }
        ["--slips", count, seed] => {
            let (count, seed) = (number(count)?, number(seed)?);
            slips(count, seed)?;
            changed_words(count, seed)
        }
        ["--case", case, seed] => shown(&random_cases::case(number(seed)?, number(case)?)),
        ["--small", place] => {
            let case = small_cases::all().nth(number(place)? as usize);
            shown(&case.ok_or_else(|| stopped("there are fewer"))?)
        }
        ["--text", text, seed] => one_text(number(text)?, number(seed)?, &mut Tally::default()),
        [count, seed] => all(number(count)?, number(seed)?),
        _ => Err(stopped(HELP)),
    }
}

fn main() -> ExitCode {
    let arguments: Vec<String> = std::env::args().skip(1).collect();
    let arguments: Vec<&str> = arguments.iter().map(String::as_str).collect();
    match run(&arguments) {
        Ok(()) => ExitCode::SUCCESS,
        Err((status, report)) => {
            println!("{report}");
            ExitCode::from(status)
        }
    }
}
