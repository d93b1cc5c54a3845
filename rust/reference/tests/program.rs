//! The program itself: its streams and its exit code.
#![deny(warnings)]
#![forbid(unsafe_code)]
#![cfg(target_os = "linux")]

use std::fs::{File, OpenOptions};
use std::io::Write;
use std::process::{Command, Output, Stdio};

fn program() -> Command {
    Command::new(env!("CARGO_BIN_EXE_reference-text"))
}

/// Runs the program on these bytes; it may stop reading before their end.
fn run(input: &[u8]) -> Output {
    let mut command = program();
    command.stdin(Stdio::piped()).stdout(Stdio::piped());
    let mut child = command.spawn().unwrap();
    let _ = child.stdin.take().unwrap().write_all(input);
    child.wait_with_output().unwrap()
}

#[test]
fn answers_on_standard_output() {
    let nodes = "l\t00000001\t00000000\nr\t00000002\t00000000\n";
    let roots = "L\t0000000000000000\t0\nR\t0000000000000000\t0\n";
    let output = run(format!("W\t64\nO\tcovering-union\n{roots}{nodes}").as_bytes());
    assert!(output.status.success());
    let expected = "L\t0000000000000000\t0\t0\t-\t-\nR\t0000000000000000\t1\t0\t0\t0\nE\t0\t2\n";
    assert_eq!(output.stdout, expected.as_bytes());
}

#[test]
fn a_refusal_is_no_failure() {
    for (bytes, expected) in [
        (0, "E\t9\t1\n"),
        (65_536, "E\t9\t1\n"),
        (65_537, "E\t9\t0\n"),
    ] {
        let output = run(&vec![b'x'; bytes]);
        assert!(output.status.success());
        assert_eq!(output.stdout, expected.as_bytes());
    }
    assert_eq!(run(&vec![b'\n'; 1_000_000]).stdout, b"E\t9\t0\n");
}

#[test]
fn a_failed_read_or_write_is_a_failure() {
    let directory = File::open(env!("CARGO_MANIFEST_DIR")).unwrap();
    let output = program().stdin(directory).output().unwrap();
    assert!(!output.status.success());
    assert!(output.stdout.is_empty());
    let full = OpenOptions::new().write(true).open("/dev/full").unwrap();
    let mut command = program();
    command
        .stdin(Stdio::null())
        .stdout(full)
        .stderr(Stdio::null());
    assert!(!command.status().unwrap().success());
}
