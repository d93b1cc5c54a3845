//! The stored file is what make-vectors prints now, and its names tell true numbers.
#![deny(warnings)]
#![forbid(unsafe_code)]

use reference::vectors::{read, write};
use reference::{cases, Answer};

/// The file in the repository.
fn stored_text() -> String {
    let path = concat!(env!("CARGO_MANIFEST_DIR"), "/../../vectors/cases.txt");
    std::fs::read_to_string(path).expect("vectors/cases.txt can be read")
}

#[test]
fn the_file_is_what_make_vectors_prints() {
    // No assert_eq: on a difference it would print both files.
    assert!(stored_text() == write(&cases::all()), "make the file anew");
}

#[test]
fn the_file_reads_back_and_runs_again() {
    let text = stored_text();
    let stored = read(&text).expect("a good file");
    assert_eq!(stored.len(), cases::all().len());
    assert!(write(&stored) == text);
    for one in &stored {
        assert!(one.case.run() == one.outcome, "{}", one.case.name);
    }
}

/// The number after these words in a name.
fn told(name: &str, words: &str) -> Option<u64> {
    let (_, rest) = name.split_once(words)?;
    let digits = rest.split(|c: char| !c.is_ascii_digit()).next()?;
    digits.parse().ok()
}

#[test]
fn names_tell_true_numbers() {
    let (mut faults, mut refusals) = (0, 0);
    for stored in cases::all() {
        let name = &stored.case.name;
        let answer = stored.outcome.answer;
        if let (Some(second), Some(beside)) = (told(name, ": fault "), told(name, " at node ")) {
            let expected = Answer {
                number: 2,
                beside,
                second,
            };
            assert_eq!(answer, expected, "{name}");
            faults += 1;
        }
        if let Some(number) = told(name, ": refusal ") {
            assert_eq!(u64::from(answer.number), number, "{name}");
            refusals += 1;
        }
    }
    assert!(faults > 80 && refusals > 200, "{faults} {refusals}");
}

#[test]
fn every_fault_is_there_at_both_widths() {
    let all = cases::all();
    let has = |width, fault, later| {
        all.iter().any(|stored| {
            let answer = stored.outcome.answer;
            let same = stored.case.width == width && answer.second == fault;
            same && (answer.beside > 0) == later
        })
    };
    for width in [32, 64] {
        for fault in [1, 4, 6, 7, 8] {
            assert!(has(width, fault, false));
        }
        for fault in 3..=8 {
            assert!(has(width, fault, true));
        }
    }
    assert!(has(32, 2, false));
}

#[test]
fn the_reader_refuses_bad_files() {
    let good = "# one\n0 20\n4 0 0 1 0\n0 1 0\n";
    assert_eq!(read(good).map(|all| all.len()), Ok(1));
    let bad = [
        "0 20\n4 0 0 1 0\n0 1 0\n",
        "# one\n0 20\n4 0 0 1 0\n0 1\n",
        "# one\n8 20\n4 0 0 1 0\n0 1 0\n",
        "# one\n0 20\n4 0 0 01 0\n0 1 0\n",
        "# one\n0 20\n4 0 0 A 0\n0 1 0\n",
        "# one\n0 20\n4 0 0 100000000 0\n0 1 0\n",
        "# one\n0 20\nffffffffffffffff 0\n",
    ];
    for text in bad {
        assert!(read(text).is_err(), "{text}");
    }
}
