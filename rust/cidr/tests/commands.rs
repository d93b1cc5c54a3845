//! The converter as its users run it.

use std::fs;
use std::io::Write;
use std::path::PathBuf;
use std::process::{Command, Output, Stdio};
use std::sync::atomic::{AtomicU32, Ordering};

/// A file of this test's own with these bytes.
fn file(name: &str, bytes: &[u8]) -> String {
    let folder = PathBuf::from(env!("CARGO_TARGET_TMPDIR"));
    let path = folder.join(name);
    fs::write(&path, bytes).expect("the folder for temporary files can be written");
    path.display().to_string()
}

/// What the converter does with these arguments and this standard input.
fn run(arguments: &[&str], input: &str) -> Output {
    let mut child = Command::new(env!("CARGO_BIN_EXE_cidr"))
        .args(arguments)
        .stdin(Stdio::piped())
        .stdout(Stdio::piped())
        .stderr(Stdio::piped())
        .spawn()
        .expect("the converter starts");
    let mut stdin = child.stdin.take().expect("it is piped");
    stdin.write_all(input.as_bytes()).ok();
    drop(stdin);
    child.wait_with_output().expect("the converter ends")
}

/// Its standard output, where it ends with status 0.
fn done(arguments: &[&str], input: &str) -> String {
    let output = run(arguments, input);
    assert_eq!(output.status.code(), Some(0), "{output:?}");
    String::from_utf8(output.stdout).expect("it is text")
}

/// Its standard error, where it ends with status 2 and writes nothing else.
fn refused(arguments: &[&str], input: &str) -> String {
    let output = run(arguments, input);
    assert_eq!(output.status.code(), Some(2), "{output:?}");
    assert!(output.stdout.is_empty());
    String::from_utf8(output.stderr).expect("it is text")
}

/// An input of this width and operation, as far as the converter reads it back. Each has a file of its own: tests run side by side, and one that
/// writes a file anew would take it from under another.
fn input_of(width: u32, operation: &str) -> String {
    static MADE: AtomicU32 = AtomicU32::new(0);
    let number = MADE.fetch_add(1, Ordering::SeqCst);
    let name = format!("asked-{width}-{operation}-{number}");
    file(&name, format!("W\t{width}\nO\t{operation}\n").as_bytes())
}

#[test]
fn manual_lists_a_and_b_become_their_input() {
    let a = file("a", b"0.0.0.0/0\n10.128.0.0/9\n10.0.0.0/8\n");
    let b = file("b", b"# B\n\n128.0.0.0/1\n10.0.0.0/9\r\n  10.128.0.0/9");
    let text = done(&["input", "covering-union", &a, &b], "");
    assert_eq!(text, include_str!("../../../crates/prefixsets/stdin"));
}

#[test]
fn records_become_networks() {
    let input = input_of(32, "covering-union");
    let text = done(
        &["output", &input],
        include_str!("../../../crates/prefixsets/stdout"),
    );
    let expected = "left\t0.0.0.0/0\nleft\t10.0.0.0/8\nright\t10.0.0.0/9\tinside left 10.0.0.0/8\nboth\t10.128.0.0/9\n\
                    right\t128.0.0.0/1\tinside left 0.0.0.0/0\n5 networks\n";
    assert_eq!(text, expected);
}

#[test]
fn first_half_of_ipv6_is_a_pool_of_width_64() {
    let a = file("six", b"2001:db8::/32\n2001:db8:0:1::/64\n");
    let text = done(
        &["input", "union", &a, &a, "--left-root", "2001:db8::/48"],
        "",
    );
    assert!(text.starts_with("W\t64\nO\tunion\nL\t20010db800000000\t48\nR\t0000000000000000\t0\n"));
    let record = "L\t20010db800000001\t64\t1\t-\t32\nE\t0\t1\n";
    let line = "left\t2001:db8:0:1::/64\tinside right 2001:db8::/32\n1 network\n";
    assert_eq!(
        done(&["output", &input_of(64, "covering-union")], record),
        line
    );
}

#[test]
fn equality_is_told_in_words() {
    assert_eq!(
        done(&["output", &input_of(32, "equality")], "E\t0\t1\n"),
        "the same networks\n"
    );
    assert_eq!(
        done(&["output", &input_of(32, "equality")], "E\t0\t0\n"),
        "not the same networks\n"
    );
    assert_eq!(
        done(&["output", &input_of(32, "union")], "E\t0\t0\n"),
        "0 networks\n"
    );
}

#[test]
fn refusal_of_the_program_is_told_with_status_1() {
    let output = run(&["output", &input_of(32, "union")], "E\t4\t0\n");
    assert_eq!(output.status.code(), Some(1));
    assert_eq!(
        output.stdout,
        b"refused: the left root is longer than the width\n"
    );
}

#[test]
fn bad_lines_are_named() {
    for (line, what) in [
        ("10.0.0.0", "'10.0.0.0' has no length such as /8"),
        ("10.0.0/8", "'10.0.0' is no IPv4 or IPv6 address"),
        ("10.0.0.0/33", "/33 is longer than an IPv4 address"),
        ("10.0.0.0/08", "'/08' is no length"),
        ("10.0.0.0/+8", "'/+8' is no length"),
        ("10.0.0.0/", "'/' is no length"),
        (
            "10.1.2.3/8",
            "10.1.2.3/8 has bits set past its length; is 10.0.0.0/8 meant?",
        ),
        (
            "2001:db8::/65",
            "/65 is longer than /64, the longest IPv6 prefix that fits a pool",
        ),
        (
            "2001:db8::1/64",
            "2001:db8::1/64 has bits set past its length; is 2001:db8::/64 meant?",
        ),
        ("::/0", "::/0 among networks of the other kind"),
    ] {
        let list = file("bad", format!("# a list\n10.0.0.0/8\n{line}\n").as_bytes());
        let told = refused(&["pool", &list], "");
        assert_eq!(told, format!("cidr: {list}: line 3: {what}\n"));
    }
}

#[test]
fn bytes_that_are_no_text_are_named() {
    let list = file("bytes", b"10.0.0.0/8\n\xff\n");
    assert_eq!(
        refused(&["pool", &list], ""),
        format!("cidr: {list}: line 2: not UTF-8\n")
    );
}

#[test]
fn missing_file_and_bad_arguments_are_told() {
    assert!(refused(&["pool", "no such file"], "").starts_with("cidr: no such file: "));
    assert!(refused(&[], "").contains("--help"));
    assert!(refused(&["input", "unoin", "a", "b"], "").contains("'unoin' is no operation"));
    assert!(refused(&["output"], "").contains("--help"));
    assert!(refused(&["output", "no such file"], "").starts_with("cidr: no such file: "));
    let bad = file("no-width", b"W\t33\nO\tunion\n");
    assert!(refused(&["output", &bad], "").contains("first line"));
    let bad = file("no-operation", b"W\t32\n");
    assert!(refused(&["output", &bad], "").contains("second line"));
    assert!(refused(&["input", "union", "a", "b", "--root", "::/0"], "").contains("'--root'"));
    assert!(done(&["--help"], "").contains("cidr input OPERATION LEFT RIGHT"));
}

#[test]
fn output_that_is_none_is_told() {
    let input = input_of(32, "union");
    assert!(refused(&["output", &input], "").contains("no E line"));
    assert!(refused(&["output", &input], "L\t1\n").contains("line 1: neither"));
    assert!(
        refused(&["output", &input], "L\tzz\t0\t0\t-\t-\nE\t0\t1\n").contains("line 1: no record")
    );
    assert!(refused(&["output", &input], "E\t0\t0\nE\t0\t0\n").contains("after the E line"));
}

#[test]
fn network_that_is_there_twice_is_told_and_counts_once() {
    let list = file("twice", b"10.0.0.0/8\n10.0.0.0/8\n");
    let output = run(&["pool", &list], "");
    assert_eq!(output.status.code(), Some(0));
    let told = String::from_utf8(output.stderr).expect("it is text");
    assert_eq!(told, format!("{list}: line 2: 10.0.0.0/8 is there twice\n"));
    assert_eq!(
        output.stdout,
        b"0x00000000, 0x00000002, 1, 0,\n0x00000200, 0x00000000, 2, 0,\n"
    );
}

#[test]
fn long_list_shows_progress_and_one_too_large_is_refused() {
    let lines: String = (0..100_000u32)
        .map(|n| format!("10.{}.{}.{}/32\n", n >> 16, n >> 8 & 255, n & 255))
        .collect();
    let list = file("long", lines.as_bytes());
    let told = refused(&["input", "union", &list, &list], "");
    assert!(told.contains("100000 lines read"), "{told}");
    assert!(
        told.contains("nodes, and the text program takes 1024"),
        "{told}"
    );
}
