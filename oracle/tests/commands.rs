//! The commands as a person runs them.

use std::io::Write;
use std::process::{Command, Output, Stdio};

use oracle::generate::Subject;

fn oracle(arguments: &[&str], input: &[u8]) -> Output {
    let mut child = Command::new(env!("CARGO_BIN_EXE_oracle"))
        .args(arguments)
        .stdin(Stdio::piped())
        .stdout(Stdio::piped())
        .stderr(Stdio::piped())
        .spawn()
        .unwrap();
    // a command that stops at its arguments reads nothing
    let _ = child.stdin.take().unwrap().write_all(input);
    child.wait_with_output().unwrap()
}

/// 01's examples of the program.
#[test]
fn answers_as_the_program_does() {
    let a_b = [3, 0, 0, 0, 1, 0, b'a', b' ', b'b'];
    let output = oracle(&["answer", "console"], &a_b);
    assert_eq!((output.stdout.as_slice(), output.status.code()), (&b"a b"[..], Some(0)));
    let output = oracle(&["answer", "console"], &[0, 0, 0, 0, 0, 2]);
    assert_eq!(
        (output.stdout.as_slice(), output.status.code()),
        (&b"refused 6 at 0\n"[..], Some(0))
    );
    assert_eq!(oracle(&["answer", "console", "--width", "2"], &a_b).stdout, b"a\nb");
    assert_eq!(oracle(&["answer", "html", "--room", "2"], &a_b).stdout, b"refused 13 at 0\n");
}

#[test]
fn bad_arguments_print_usage() {
    let bad: [&[&str]; 9] = [
        &[],
        &["answers"],
        &["answer"],
        &["answer", "pdf"],
        &["answer", "console", "--full", "2"],
        &["answer", "console", "--seed", "1"],
        &["record", "console", "--seed", "1"],
        &["selfcheck", "--cases", "x", "--seed", "1"],
        &["selfcheck", "--cases", "1", "--seed", "1", "--only", "pdf"],
    ];
    for arguments in bad {
        let output = oracle(arguments, b"");
        assert_eq!(output.status.code(), Some(2), "{arguments:?}");
        assert!(String::from_utf8_lossy(&output.stderr).contains("usage: oracle"));
    }
}

/// A list is the same every time, and its case lengths lead from the first to the last byte.
#[test]
fn records_lists() {
    for (_, kind) in Subject::ALL.into_iter().filter(|(subject, _)| subject.is_listed()) {
        let arguments = ["record", kind, "--seed", "5", "--cases", "50"];
        let list = oracle(&arguments, b"").stdout;
        assert_eq!(list, oracle(&arguments, b"").stdout);
        let (mut at, mut cases) = (0, 0);
        while at < list.len() {
            at += match list[at] {
                255 => 5 + u32::from_le_bytes(list[at + 1..at + 5].try_into().unwrap()) as usize,
                short => 1 + short as usize,
            };
            cases += 1;
        }
        assert_eq!((at, cases), (list.len(), 50), "{kind}");
    }
}

#[test]
fn selfcheck_ends_with_its_counts() {
    let output = oracle(&["selfcheck", "--seed", "3", "--cases", "200"], b"");
    assert!(output.stdout.ends_with(b"cases 200 disagreements 0\n"));
    assert_eq!(output.status.code(), Some(0));
}

/// One case cannot catch every worthless version; the first 300 of a seed do.
#[test]
fn reach_says_what_is_not_caught() {
    let output = oracle(&["reach", "--seed", "7", "--cases", "1"], b"");
    let said = String::from_utf8_lossy(&output.stdout).into_owned();
    assert!(said.contains("html NOT CAUGHT") && said.ends_with("reach incomplete\n"), "{said}");
    assert_eq!(output.status.code(), Some(1));
    let output = oracle(&["reach", "--seed", "7", "--cases", "300"], b"");
    let said = String::from_utf8_lossy(&output.stdout).into_owned();
    assert!(!said.contains("NOT CAUGHT"), "{said}");
}

#[cfg(not(feature = "linked"))]
#[test]
fn compare_without_the_port() {
    let output = oracle(&["compare", "--seed", "3", "--cases", "20"], b"");
    assert_eq!(output.status.code(), Some(2));
    assert!(String::from_utf8_lossy(&output.stdout).starts_with("the C interface is not linked"));
}
