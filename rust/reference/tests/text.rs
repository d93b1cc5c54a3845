//! The text program: the document's example, and a case for each way to read it.
#![deny(warnings)]
#![forbid(unsafe_code)]

use reference::text::run;

/// The lines of A and B with this operation; blanks stand for tabs.
fn lists_a_and_b(operation: &str) -> String {
    let head = format!("W 32\nO {operation}\nL 0000000000000000 0\nR 0000000000000000 0\n");
    let nodes =
        "l 00000001 00000002\nl 00100200 00000000\nr 00000004 00000002\nr 00180000 00000000\n";
    head + nodes
}

/// Runs the program on text in which blanks stand for tabs.
fn answer(text: &str) -> String {
    let output = run(text.replace(' ', "\t").as_bytes());
    String::from_utf8(output).unwrap().replace('\t', " ")
}

/// The head lines with this width, operation and roots.
fn head(width: &str, operation: &str, left: &str, right: &str) -> String {
    format!("W {width}\nO {operation}\nL {left}\nR {right}\n")
}

const ROOT: &str = "0000000000000000 0";

/// A good head with this operation and both roots 0/0.
fn good_head(operation: &str) -> String {
    head("32", operation, ROOT, ROOT)
}

#[test]
fn the_document_s_example_byte_for_byte() {
    let input = lists_a_and_b("covering-union").replace(' ', "\t");
    let expected = "L\t0000000000000000\t0\t0\t-\t-\n\
                    L\t0a00000000000000\t8\t1\t-\t-\n\
                    R\t0a00000000000000\t9\t1\t1\t8\n\
                    B\t0a80000000000000\t9\t2\t2\t-\n\
                    R\t8000000000000000\t1\t0\t0\t0\n\
                    E\t0\t5\n";
    assert_eq!(run(input.as_bytes()), expected.as_bytes());
}

#[test]
fn the_other_operations_p10_p11_p13() {
    let shared = "B 0a80000000000000 9 2 2 -\nE 0 1\n";
    assert_eq!(answer(&lists_a_and_b("intersection")), shared);
    let left = "L 0000000000000000 0 0 - -\nL 0a00000000000000 8 1 - -\nE 0 2\n";
    assert_eq!(answer(&lists_a_and_b("difference")), left);
    assert_eq!(answer(&lists_a_and_b("covering-difference")), left);
    assert_eq!(answer(&lists_a_and_b("equality")), "E 0 0\n");
    let union = "L 0000000000000000 0 0 - -\n\
                 L 0a00000000000000 8 1 - -\n\
                 R 0a00000000000000 9 - 1 -\n\
                 B 0a80000000000000 9 2 2 -\n\
                 R 8000000000000000 1 - 0 -\n\
                 E 0 5\n";
    assert_eq!(answer(&lists_a_and_b("union")), union);
    let same = good_head("equality") + "l 00000001 00000000\nr 00000001 00000000\n";
    assert_eq!(answer(&same), "E 0 1\n");
}

#[test]
fn a_bad_line_comes_before_other_refusals_p1() {
    let text = head("33", "union", ROOT, ROOT) + "l 00000001 00000000\nr 00000001 00000000\nbad\n";
    assert_eq!(answer(&text), "E 9 7\n");
    let text = head("33", "union", ROOT, ROOT) + "l 00000001 00000000\n";
    assert_eq!(answer(&text), "E 1 0\n");
}

#[test]
fn bytes_after_the_last_line_feed_p2() {
    let text = good_head("union") + "l 00000001 00000000\nr 00000001 00000000";
    assert_eq!(answer(&text), "E 9 6\n");
    assert_eq!(answer(&(lists_a_and_b("union") + "x")), "E 9 9\n");
    assert_eq!(answer(&(lists_a_and_b("union") + "\t")), "E 9 9\n");
    assert_eq!(answer(&(lists_a_and_b("union") + "\0")), "E 9 9\n");
}

#[test]
fn missing_lines_p3() {
    let text = good_head("union");
    let ends: Vec<usize> = text.match_indices('\n').map(|(at, _)| at).collect();
    assert_eq!(answer(""), "E 9 1\n");
    for (line, end) in ends.iter().enumerate() {
        let unclosed = answer(&text[..*end]);
        assert_eq!(unclosed, format!("E 9 {}\n", line + 1));
        if line < 3 {
            let missing = answer(&text[..=*end]);
            assert_eq!(missing, format!("E 9 {}\n", line + 2));
        }
    }
}

#[test]
fn empty_lines_p4() {
    assert_eq!(answer("\n"), "E 9 1\n");
    assert_eq!(answer(&(good_head("union") + "\n")), "E 9 5\n");
    assert_eq!(answer(&(lists_a_and_b("union") + "\n")), "E 9 9\n");
    assert_eq!(answer("W 32\n\nO union\n"), "E 9 2\n");
}

#[test]
fn numbers_p5() {
    let nodes = "l 00000001 00000000\nr 00000001 00000000\n";
    let bad = [
        "",
        "00",
        "000",
        "08",
        "+8",
        "-1",
        "256",
        "257",
        "999",
        "1000",
        "0x8",
        "8.",
        " 8",
        "8 ",
        "99999999999999999999999999999999999999999",
    ];
    for digits in bad {
        let width = head(digits, "union", ROOT, ROOT) + nodes;
        assert_eq!(answer(&width), "E 9 1\n", "{digits}");
        let left = head("32", "union", &format!("0000000000000000 {digits}"), ROOT);
        assert_eq!(answer(&(left + nodes)), "E 9 3\n", "{digits}");
        let right = head("32", "union", ROOT, &format!("0000000000000000 {digits}"));
        assert_eq!(answer(&(right + nodes)), "E 9 4\n", "{digits}");
    }
    for digits in ["0", "1", "31", "33", "63", "65", "128", "255"] {
        let text = head(digits, "union", ROOT, ROOT) + nodes;
        assert_eq!(answer(&text), "E 1 0\n", "{digits}");
    }
    for (width, digits) in [("32", "33"), ("32", "255"), ("64", "65"), ("64", "255")] {
        let long = format!("0000000000000000 {digits}");
        let left = head(width, "equality", &long, &long) + nodes;
        assert_eq!(answer(&left), "E 4 0\n");
        let right = head(width, "equality", ROOT, &long) + nodes;
        assert_eq!(answer(&right), "E 5 0\n");
    }
}

/// Node lines of a side, without data; all children in order.
fn node_lines(side: char, count: u32) -> String {
    let mut next = 1;
    let mut lines = String::new();
    for _ in 0..count {
        let children = (count - next).min(32);
        let child = (1u64 << children) - 1;
        lines += &format!("{side} 00000000 {child:08x}\n");
        next += children;
    }
    lines
}

#[test]
fn most_nodes_of_a_side_p6() {
    let right = node_lines('r', 1024);
    let good = good_head("equality") + &node_lines('l', 1024) + &right;
    assert_eq!(answer(&good), "E 0 1\n");
    let left = good_head("equality") + &node_lines('l', 1025);
    assert_eq!(answer(&left), "E 9 1029\n");
    assert_eq!(answer(&(left + &right)), "E 9 1029\n");
    let text = good_head("equality") + &node_lines('l', 3) + &node_lines('r', 1025);
    assert_eq!(answer(&text), "E 9 1032\n");
}

#[test]
fn order_of_sides_p7() {
    let node = "00000001 00000000";
    let head = good_head("union");
    let back = format!("{head}l {node}\nr {node}\nl {node}\n");
    assert_eq!(answer(&back), "E 9 7\n");
    assert_eq!(answer(&format!("{head}r {node}\nl {node}\n")), "E 9 6\n");
    assert_eq!(answer(&format!("{head}r {node}\n")), "E 2 0\n");
    assert_eq!(answer(&format!("{head}l {node}\n")), "E 3 0\n");
    assert_eq!(answer(&head), "E 2 0\n");
}

#[test]
fn most_bytes_p8() {
    assert_eq!(run(&[b'x'; 65_536]), b"E\t9\t1\n");
    assert_eq!(run(&[b'x'; 65_537]), b"E\t9\t0\n");
    assert_eq!(run(&[b'\n'; 65_537]), b"E\t9\t0\n");
    let good = lists_a_and_b("union").replace(' ', "\t");
    let mut long = good.into_bytes();
    long.resize(65_536, b'x');
    assert_eq!(run(&long), b"E\t9\t9\n");
    long.push(b'\n');
    assert_eq!(run(&long), b"E\t9\t0\n");
}

/// A side of `full` nodes with 31 entries each below a root with `data`.
fn full_side(side: char, data: u32, full: u32) -> String {
    let child = (1u64 << full) - 1;
    let first = format!("{side} {data:08x} {child:08x}\n");
    first + &format!("{side} 7fffffff 00000000\n").repeat(full as usize)
}

#[test]
fn most_records_p9() {
    let right = "r 00000000 00000000\n";
    // 16 times 31 is 496; with 16 data bits in the root there are 512 entries.
    let fits = good_head("union") + &full_side('l', 0xffff, 16) + right;
    let output = answer(&fits);
    assert!(output.ends_with("\nE 0 512\n"));
    assert_eq!(output.lines().count(), 513);
    let more = good_head("union") + &full_side('l', 0x1ffff, 16) + right;
    assert_eq!(answer(&more), "E 6 513\n");
    let most = good_head("difference") + &full_side('l', 0x7fffffff, 31) + right;
    assert_eq!(answer(&most), "E 6 992\n");
}

#[test]
fn bad_pools_p12() {
    let good = "r 00000000 00000000\n";
    let ask = |nodes: &str| answer(&(good_head("union") + nodes + good));
    assert_eq!(ask("l 00000000 00000000\nl 00000000 00000000\n"), "E 2 1\n");
    assert_eq!(ask("l 80000000 00000000\n"), "E 2 0\n");
    assert_eq!(ask("l 00000000 00000001\n"), "E 2 0\n");
    let chain = "l 00000000 00000001\n".repeat(7) + "l 00000000 00000000\n";
    assert_eq!(ask(&chain), "E 2 6\n");
    let text = good_head("union") + "l 00000000 00000000\n" + good + good;
    assert_eq!(answer(&text), "E 3 1\n");
    // A node without children between two with some: its first child is still counted.
    let nodes = "l 00000000 00000007\nl 00000001 00000001\nl 00000002 00000000\nl 00000004 00000002\nl 00000000 00000000\nl 00000001 00000000\n";
    let lines = "L 0000000000000000 5 0 - -\nL 0800000000000000 6 1 - -\nL 1040000000000000 10 3 - -\nL 1400000000000000 6 2 - -\nE 0 4\n";
    assert_eq!(ask(nodes), lines);
}

#[test]
fn other_bytes_p14() {
    let good = lists_a_and_b("union").replace(' ', "\t");
    let changes = [
        ("W\t32\n", "W\t32\r\n", "E\t9\t1\n"),
        ("W\t32\n", "W 32\n", "E\t9\t1\n"),
        ("W\t32\n", "w\t32\n", "E\t9\t1\n"),
        ("W\t32\n", "W\t32\t\n", "E\t9\t1\n"),
        ("W\t32\n", "W\t\t32\n", "E\t9\t1\n"),
        ("W\t32\n", "\u{feff}W\t32\n", "E\t9\t1\n"),
        ("O\tunion\n", "O\tUnion\n", "E\t9\t2\n"),
        ("O\tunion\n", "O\tunion\tplain\n", "E\t9\t2\n"),
        ("O\tunion\n", "O\tunion\t\n", "E\t9\t2\n"),
        ("O\tunion\n", "O\ttidy\n", "E\t9\t2\n"),
        ("O\tunion\n", "O\n", "E\t9\t2\n"),
        ("L\t0", "R\t0", "E\t9\t3\n"),
        ("R\t0", "L\t0", "E\t9\t4\n"),
        ("l\t00100200", "l\t0010020", "E\t9\t6\n"),
        ("l\t00100200", "l\t001002000", "E\t9\t6\n"),
        ("l\t00100200", "l\t0010020G", "E\t9\t6\n"),
        ("l\t00100200", "l\t0010020A", "E\t9\t6\n"),
        ("l\t00100200\t00000000", "l\t00100200", "E\t9\t6\n"),
        ("l\t00100200", " l\t00100200", "E\t9\t6\n"),
        ("l\t00100200", "x\t00100200", "E\t9\t6\n"),
    ];
    for (from, to, expected) in changes {
        let text = good.replacen(from, to, 1);
        assert_ne!(text, good);
        assert_eq!(run(text.as_bytes()), expected.as_bytes(), "{to:?}");
    }
    let mut bytes = good.into_bytes();
    bytes[0] = 0xff;
    assert_eq!(run(&bytes), b"E\t9\t1\n");
}

#[test]
fn every_line_is_closed_p15() {
    for text in ["", "W 32\n", &lists_a_and_b("union")] {
        assert!(answer(text).ends_with('\n'));
    }
}

#[test]
fn line_numbers_p16() {
    let mut text = good_head("union");
    for line in 5..20 {
        assert_eq!(answer(&format!("{text}l\n")), format!("E 9 {line}\n"));
        text += "l 00000000 00000000\n";
    }
}

#[test]
fn keys_of_roots_p17() {
    let nodes = "l 00000001 00000002\nl 00100200 00000000\nr 00000000 00000000\n";
    let ask = |left: &str| answer(&(head("32", "union", left, ROOT) + nodes));
    let low = "L 0a80000000000000 9 2 - -\nE 0 1\n";
    assert_eq!(ask("0a80000000000000 9"), low);
    assert_eq!(ask("0affffffffffffff 9"), low);
    assert_eq!(ask("0a800000ffffffff 9"), low);
    assert_eq!(ask("0a800000 9"), "E 9 3\n");
    assert_eq!(ask("0a8000000000000 9"), "E 9 3\n");
    assert_eq!(ask("00a80000000000000 9"), "E 9 3\n");
    assert_eq!(ask("0A80000000000000 9"), "E 9 3\n");
    assert_eq!(ask("0a80000012345678 32"), "E 0 0\n");
}

#[test]
fn any_bytes_get_one_answer() {
    let good = lists_a_and_b("covering-union")
        .replace(' ', "\t")
        .into_bytes();
    let mut random = reference::cases::Random::new(41);
    for _ in 0..5_000 {
        let mut bytes = good.clone();
        for _ in 0..1 + random.below(3) {
            let place = random.below(bytes.len());
            bytes[place] = b"\t\n 0123456789abcdeflrLRWOx\xff"[random.below(27)];
        }
        bytes.truncate(bytes.len() - random.below(40) / 39);
        let output = String::from_utf8(run(&bytes)).unwrap();
        let ends = output.lines().filter(|line| line.starts_with("E\t"));
        assert_eq!(ends.count(), 1);
        assert!(output.lines().last().unwrap().starts_with("E\t"));
    }
}
