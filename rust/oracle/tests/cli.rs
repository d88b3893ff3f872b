//! The program: where a script comes from, and what a mistake in it gets.

use std::io::Write;
use std::process::{Command, Output, Stdio};

fn run(args: &[&str], input: &[u8]) -> Output {
    let mut child = Command::new(env!("CARGO_BIN_EXE_oracle"))
        .args(args)
        .stdin(Stdio::piped())
        .stdout(Stdio::piped())
        .stderr(Stdio::piped())
        .spawn()
        .expect("the program starts");
    let mut stdin = child.stdin.take().expect("its input");
    // it may end without reading
    let _ = stdin.write_all(input);
    drop(stdin);
    child.wait_with_output().expect("the program ends")
}

fn text(bytes: &[u8]) -> &str {
    std::str::from_utf8(bytes).expect("text")
}

#[test]
fn a_script_from_standard_input() {
    let output = run(&[], b"scheme 7\nopen 1\nread 0 0\n");
    assert_eq!(output.status.code(), Some(0));
    assert!(text(&output.stdout).starts_with("ok 0\nwait\nstate slots vvv"));
    assert!(text(&output.stdout).ends_with(" status 0 0 0 0 0 0 0 0 0 0\n"));
    assert!(output.stderr.is_empty());
}

#[test]
fn a_script_from_a_file() {
    let file = concat!(env!("CARGO_MANIFEST_DIR"), "/tests/scripts/accident.script");
    let output = run(&[file], b"");
    assert_eq!(output.status.code(), Some(0));
    let lines: Vec<&str> = text(&output.stdout).lines().collect();
    assert_eq!(lines.len(), 8);
    assert_eq!(
        lines[2..7],
        [
            "no 4",
            "ok 1 ; E 5 7 1",
            "ok 16 ; E 1 100 0",
            "skip",
            "blocked ; E 5 7 1"
        ]
    );
    assert!(lines[7].starts_with("state slots rwvv"));
}

#[test]
fn mistakes() {
    for (script, message) in [
        (&b""[..], "standard input: line 1: `scheme N` is missing\n"),
        (
            b"scheme 7\nopen 1\nopen\n",
            "standard input: line 3: field D is missing\n",
        ),
        (
            b"scheme 7\nshut 1\n",
            "standard input: line 2: unknown event `shut`\n",
        ),
        (
            b"scheme 7\nopen \xff\n",
            "standard input: line 2: a byte that is no text\n",
        ),
    ] {
        let output = run(&[], script);
        assert_eq!(output.status.code(), Some(2));
        assert_eq!(text(&output.stderr), message);
        assert!(output.stdout.is_empty());
    }
    let output = run(&["no/such.script"], b"");
    assert_eq!(output.status.code(), Some(2));
    assert!(text(&output.stderr).starts_with("no/such.script: "));
    let output = run(&["a", "b"], b"");
    assert_eq!(output.status.code(), Some(2));
    assert_eq!(text(&output.stderr), "usage: oracle [FILE]\n");
}
