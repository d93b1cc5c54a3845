//! Compares the published set views with the proved library and the reference, or prints a sample of their answers.
#![deny(warnings)]
#![forbid(unsafe_code)]

use published::FOUND;
use std::process::ExitCode;

const HELP: &str = "\
published COUNT SEED   COUNT random cases at each width: the published views, the proved library and the reference
published --small      the small cases of the comparison with the reference, as far as they are well-formed
published --vectors    a sample of the published views' answers, as vectors/published.txt has it
published --stored     the sample on standard input against the proved library and the reference
published --found      whether the published files were found: exit status 0 or 1
published --help       this

The published files are looked for when this is built: in ../shared/docs/src beside the project, or in the folder that
LHAMTROVI_PUBLISHED names. Exit status: 0 all agree, 1 a disagreement, 2 it could not run.";

/// What a run ends with when it is not well: the exit status and the reason.
type Failure = (u8, String);

/// A number from the arguments.
fn number(text: &str) -> Result<u64, Failure> {
    text.parse().map_err(|_| (2, format!("no number: {text}")))
}

/// Replays the sample on standard input.
fn replay() -> Result<(), Failure> {
    let text = std::io::read_to_string(std::io::stdin()).map_err(|error| (2, error.to_string()))?;
    let list = published::stored::read(&text).map_err(|error| (2, error))?;
    for (place, stored) in list.iter().enumerate() {
        published::compare(&stored.case, &stored.answers)
            .map_err(|report| (1, format!("DISAGREEMENT: stored case {place}: {report}")))?;
    }
    println!("{} stored answers of the published views agree", list.len());
    Ok(())
}

/// What needs the published files.
#[cfg(published)]
mod with_files {
    use super::Failure;
    use published::stored::{write, Stored};
    use published::{absent, case, compare, sample, small, views, Case};
    use std::time::Instant;

    /// What came up in a run.
    #[derive(Default)]
    struct Tally {
        cases: u64,
        wrong: u64,
        records: [usize; 5],
        equal: u64,
        without_view: u64,
    }

    impl Tally {
        /// Compares a case and counts it; the first disagreements are shown.
        fn add(&mut self, name: &str, case: &Case) {
            let answers = views(case);
            self.cases += 1;
            if let Err(report) = compare(case, &answers) {
                self.wrong += 1;
                if self.wrong <= 3 {
                    println!("DISAGREEMENT: {name}: {report}");
                }
            }
            for (sum, list) in self.records.iter_mut().zip(&answers.lists) {
                *sum += list.len();
            }
            self.equal += u64::from(answers.equal);
            self.without_view += u64::from(absent(case));
        }

        /// Says what came up; disagreements are a failure.
        fn end(&self, name: &str, start: Instant) -> Result<(), Failure> {
            let seconds = start.elapsed().as_secs_f64();
            let (cases, wrong) = (self.cases, self.wrong);
            println!("{name}: {cases} cases, {wrong} disagreements, {seconds:.1} s");
            println!("  records of the five lists: {:?}", self.records);
            println!(
                "  equal keys: {}; a root without a view: {}",
                self.equal, self.without_view
            );
            match wrong {
                0 => Ok(()),
                _ => Err((1, format!("{name}: {wrong} disagreements"))),
            }
        }
    }

    /// Random cases at both widths.
    pub fn run(count: u64, seed: u64) -> Result<(), Failure> {
        for width in [32, 64] {
            let (start, mut tally) = (Instant::now(), Tally::default());
            for number in 0..count {
                tally.add(
                    &format!("case {number} of seed {seed}"),
                    &case(width, seed, number),
                );
            }
            tally.end(&format!("width {width}, seed {seed}"), start)?;
        }
        Ok(())
    }

    /// The small cases.
    pub fn small_cases() -> Result<(), Failure> {
        let (start, mut tally) = (Instant::now(), Tally::default());
        for (number, case) in small().enumerate() {
            tally.add(&format!("small case {number}"), &case);
        }
        tally.end("small cases", start)
    }

    /// The stored sample.
    pub fn vectors() -> Result<(), Failure> {
        println!("# Answers of the published set views of prefix-trie 0.10.1 over the stand-in of rust/published, in hexadecimal.");
        println!("# A case: width; root key, root length and pool words of each side; records of union, intersection, difference, covering difference, covering union; key equality.");
        for case in sample() {
            let answers = views(&case);
            print!("{}", write(&Stored { case, answers }));
        }
        Ok(())
    }
}

/// What is said where the files were not found.
#[cfg(not(published))]
mod with_files {
    use super::Failure;

    /// Cannot be.
    pub fn run(_: u64, _: u64) -> Result<(), Failure> {
        Err((
            2,
            "the published files were not found when this was built".to_string(),
        ))
    }

    /// Cannot be.
    pub fn small_cases() -> Result<(), Failure> {
        run(0, 0)
    }

    /// Cannot be.
    pub fn vectors() -> Result<(), Failure> {
        run(0, 0)
    }
}

/// Does what the arguments say.
fn run(arguments: &[&str]) -> Result<(), Failure> {
    match *arguments {
        ["--help"] => {
            println!("{HELP}");
            Ok(())
        }
        ["--small"] => with_files::small_cases(),
        ["--vectors"] => with_files::vectors(),
        ["--stored"] => replay(),
        ["--found"] if FOUND => Ok(()),
        ["--found"] => Err((1, "the published files were not found".to_string())),
        [count, seed] => with_files::run(number(count)?, number(seed)?),
        _ => Err((2, HELP.to_string())),
    }
}

fn main() -> ExitCode {
    let arguments: Vec<String> = std::env::args().skip(1).collect();
    let arguments: Vec<&str> = arguments.iter().map(String::as_str).collect();
    match run(&arguments) {
        Ok(()) => ExitCode::SUCCESS,
        Err((status, reason)) => {
            eprintln!("{reason}");
            ExitCode::from(status)
        }
    }
}
