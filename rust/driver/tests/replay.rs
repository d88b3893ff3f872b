//! The program: where a script comes from, what it prints, and what a mistake in it gets.

mod common;

use common::{run, text};

/// A killed call keeps its slot until its driver has replied, so the next call gets another one.
const ACCIDENT: &str = "scheme 7
call 100 6 1 2 3 4 5 0 0 0 100 0
read 64 0
wake 0 100 1 0 0
call 200 6 9 0 0 0 0 0 0 0 200 0
write 54 00000000000000000000000000000000
wake 0 200 0 0 0
wake 1 200 0 0 0
";

#[test]
fn the_accident() {
    let zeros = " 0".repeat(64);
    let wanted = format!(
        "ok 0 ; E 5 7 1
ok 64 ; B 06000000000000000100000000000000020000000000000003000000000000000400000000000000050000000000000000000000000000006400000000000000
no 4
ok 1 ; E 5 7 1
ok 16 ; E 1 100 0
no 201
blocked ; E 5 7 1
state slots rw{} queue 2 holds{zeros} outside{zeros} handles{} status 0 0 2 1 1 1 0 0 0 0
",
        "v".repeat(62),
        " -".repeat(64)
    );
    for args in [&["replay"][..], &["replay", "-"]] {
        let output = run(args, ACCIDENT.as_bytes());
        assert_eq!(text(&output.stdout), wanted);
        assert_eq!(output.status.code(), Some(0));
        assert!(output.stderr.is_empty());
    }
}

#[test]
fn a_script_from_a_file() {
    let file = concat!(
        env!("CARGO_MANIFEST_DIR"),
        "/../oracle/tests/scripts/accident.script"
    );
    let (from_file, from_input) = (
        run(&["replay", file], b""),
        run(&["replay"], ACCIDENT.as_bytes()),
    );
    assert_eq!(from_file.status.code(), Some(0));
    assert_eq!(text(&from_file.stdout), text(&from_input.stdout));
}

/// Each kind of line, with a field missing, and with one too many.
#[test]
fn a_mistake_on_each_kind_of_line() {
    for good in [
        "open 1",
        "copy 1",
        "drop 1",
        "put 1 2",
        "ended 1",
        "reserve 1",
        "submit 0 1 3 0 1 2 3 4 5 6 7 1 0",
        "call 1 6 1 2 3 4 5 6 7 8 9 1 0",
        "generic 1 2 1 3 4096 5 1 6",
        "stdfs 1 2 1 3 4096 5 1 6",
        "fmap 1 2 3 4 5 6 7",
        "close 1",
        "detach 1 2",
        "wake 0 1 0 2 3",
        "read 64 0",
        "write 54 00",
        "move 1 1 1 5",
        "obtain 1 0",
        "supply 0 0 4096 1",
        "fdwrite 1 2 3 1 4 5 6 7 1 0",
        "fdread 1 2 8 3 1 4 5 6 7",
    ] {
        let (kind, _) = good.split_once(' ').expect("a kind and its fields");
        let (cut, _) = good.rsplit_once(' ').expect("a last field");
        for (bad, what) in [
            (
                cut.to_owned(),
                " is missing; nothing was run; `./tilgurap help script` shows each event's line\n",
            ),
            (
                format!("{good} 1"),
                "spare field `1`; nothing was run; `./tilgurap help script` shows each event's line\n",
            ),
            (
                good.replacen(' ', " x", 1),
                " is no decimal number; nothing was run; `./tilgurap help script` shows each event's line\n",
            ),
            (
                good.replacen(kind, "shut", 1),
                "unknown event `shut`; nothing was run; `./tilgurap help script` shows each event's line\n",
            ),
        ] {
            let script = format!("scheme 7\n# a comment\n{good}\n{bad}\nopen 1\n");
            let output = run(&["replay"], script.as_bytes());
            let message = text(&output.stderr);
            assert!(
                message.starts_with("standard input: line 4: "),
                "{bad}: {message}"
            );
            assert!(message.ends_with(what), "{bad}: {message}");
            assert_eq!(output.status.code(), Some(2), "{bad}");
            assert!(output.stdout.is_empty(), "{bad}");
        }
        let output = run(&["replay"], format!("scheme 7\n{good}\n").as_bytes());
        assert_eq!(output.status.code(), Some(0), "{good}");
    }
}

/// A caller that ends while its call waits, one that is killed while it waits, both, then the replies; and an ended
/// Placeholder, which is in neither word. The question changes nothing.
#[test]
fn status_words() {
    let script = "scheme 7
status
call 100 6 0 0 0 0 0 0 0 0 0 0
call 101 6 0 0 0 0 0 0 0 0 0 0
call 102 6 0 0 0 0 0 0 0 0 0 0
reserve 103
status
ended 100
status
wake 1 101 1 0 0
status
wake 2 102 1 0 0
ended 102
status
ended 103
status
write 162 000000000000000000000000000000000000000001000000000000000000000000000000020000000000000000000000
status
";
    let wanted = [
        "0 0 0 0 0 0 0 0 0 0",
        "8 1 7 3 0 0 0 0 0 0",
        "8 1 6 2 0 0 0 0 1 1",
        "8 1 4 1 0 0 0 0 3 2",
        "8 1 0 0 0 0 0 0 7 3",
        "8 1 0 0 0 0 0 0 7 3",
        "8 1 0 0 2 1 0 0 0 0",
    ];
    let output = run(&["replay"], script.as_bytes());
    let lines = text(&output.stdout).lines();
    let (asked, others): (Vec<_>, Vec<_>) = lines.partition(|line| line.starts_with("status "));
    assert_eq!(asked, wanted.map(|words| format!("status {words}")));
    let unasked = script.replace("status\n", "");
    let output = run(&["replay"], unasked.as_bytes());
    assert_eq!(others, text(&output.stdout).lines().collect::<Vec<_>>());
    assert!(others[others.len() - 1].ends_with(&format!(" status {}", wanted[6])));

    for (bad, what) in [
        ("status 0", "spare field `0`"),
        ("state", "unknown event `state`"),
    ] {
        let output = run(&["replay"], format!("scheme 7\n{bad}\n").as_bytes());
        assert!(
            text(&output.stderr).contains(&format!("line 2: {what}; ")),
            "{bad}"
        );
        assert_eq!(output.status.code(), Some(2));
    }
}

/// How each form reads each shape of a reply, also numbers that no reply has. Nothing else is printed, and the state
/// stays as it is.
#[test]
fn fronts() {
    let sixteen = "many 16 0 1 2 3 4 5 6 7 8 9 10 11 12 13 14 63";
    let asked = [
        ("regular ok 9 0 0", "ok 9", "no 5"),
        ("regular ok 0 255 1", "ok 0", "no 5"),
        (
            "regular ok 18446744073709551615 0 0",
            "ok 18446744073709551615",
            "no 5",
        ),
        ("regular err 5 0 0", "no 5", "no 5"),
        ("regular err 4 0 1", "no 4", "no 4"),
        ("regular err 132 255 0", "no 132", "no 132"),
        ("regular err 500 0 0", "no 500", "no 500"),
        ("fd 3", "no 5", "no 5"),
        ("fd 18446744073709551615", "no 5", "no 5"),
        ("many 0", "no 5", "ok 0"),
        ("many 1 18446744073709551615", "no 5", "ok 1"),
        ("many 3 7 7 7", "no 5", "ok 3"),
        (sixteen, "no 5", "ok 16"),
    ];
    let (mut script, mut wanted) = ("scheme 7\n".to_owned(), String::new());
    for (reply, by_fdwrite, by_fdread) in asked {
        script += &format!("front fdwrite {reply}\nfront fdread {reply}\n");
        wanted += &format!("{by_fdwrite}\n{by_fdread}\n");
    }
    let (output, fresh) = (
        run(&["replay"], script.as_bytes()),
        run(&["replay"], b"scheme 7\n"),
    );
    assert_eq!(text(&output.stdout), wanted + text(&fresh.stdout));
    assert_eq!(output.status.code(), Some(0));
    for args in [
        &["replay", "--explain"][..],
        &["replay", "--json"],
        &["status"],
    ] {
        assert_eq!(run(args, script.as_bytes()).status.code(), Some(0));
    }

    let objects = run(
        &["replay", "--json"],
        b"scheme 7\nfront fdread regular err 500 1 1\nfront fdwrite many 2 3 4\n",
    );
    let lines: Vec<&str> = text(&objects.stdout).lines().collect();
    assert_eq!(
        lines[1..3],
        [
            r#"{"type":"event","number":1,"line":2,"event":{"name":"front","form":"fdread","reply":{"kind":"regular","err":500,"extra0":1,"notice":true}},"answer":{"kind":"no","number":500},"effects":[],"bytes":""}"#,
            r#"{"type":"event","number":2,"line":3,"event":{"name":"front","form":"fdwrite","reply":{"kind":"many","descriptions":[3,4]}},"answer":{"kind":"no","number":5},"effects":[],"bytes":""}"#,
        ]
    );

    for (bad, what) in [
        (
            "front read fd 3",
            "field FORM: `read` is not `fdwrite` or `fdread`",
        ),
        ("front fdread", "field REPLY is missing"),
        ("front fdread many 2 3", "field D2 is missing"),
        (
            &format!("front fdread many 17{}", " 3".repeat(17)),
            "field K: 17 is over 16, the most that a reply hands over",
        ),
    ] {
        let output = run(&["replay"], format!("scheme 7\n{bad}\n").as_bytes());
        let message = format!(
            "standard input: line 2: {what}; nothing was run; `./tilgurap help script` shows each event's line\n"
        );
        assert_eq!(text(&output.stderr), message);
        assert_eq!(output.status.code(), Some(2));
    }
}

/// Descriptions sent and asked for, at each limit: a length is looked at first, then the list, the slots, the queue.
#[test]
fn descriptions_by_calls() {
    let opened: String = (0..17).map(|d| format!("open {d}\n")).collect();
    let all: String = (0..17).map(|d| format!(" {d}")).collect();
    let (sixteen, _) = all.rsplit_once(' ').expect("a last one");
    let slots = "reserve 1\n".repeat(64);
    let entries = "close 1\n".repeat(128);
    for (events, answer) in [
        (format!("{opened}fdwrite 1 9 0 0 0 0 1 17{all}"), "no 206"),
        (
            format!("{opened}drop 16\nfdwrite 1 9 0 0 0 0 1 17{all}"),
            "no 205",
        ),
        (
            format!("{opened}fdwrite 1 9 0 0 0 0 1 16{sixteen}"),
            "ok 0 ; E 5 7 1",
        ),
        (
            format!("{opened}{slots}fdwrite 1 9 0 0 0 0 1 17{all}"),
            "no 206",
        ),
        (format!("{slots}fdwrite 1 9 0 0 0 0 1 0"), "no 202"),
        (format!("{entries}fdwrite 1 9 0 0 0 0 1 0"), "no 203"),
        (format!("{slots}{entries}fdwrite 1 9 0 0 0 0 1 0"), "no 202"),
        (format!("{slots}fdread 1 9 23 0 0 0 0 1"), "no 22"),
        (format!("{entries}fdread 1 9 23 0 0 0 0 1"), "no 22"),
        ("fdread 1 9 23 0 0 0 0 1".to_owned(), "no 22"),
        (format!("{slots}fdread 1 9 24 0 0 0 0 1"), "no 202"),
        (format!("{entries}fdread 1 9 24 0 0 0 0 1"), "no 203"),
        ("fdread 1 9 0 0 0 0 0 1".to_owned(), "ok 0 ; E 5 7 1"),
        ("fdread 1 9 8 0 0 0 0 1".to_owned(), "ok 0 ; E 5 7 1"),
    ] {
        let output = run(&["replay"], format!("scheme 7\n{events}\n").as_bytes());
        let said: Vec<&str> = text(&output.stdout).lines().collect();
        assert_eq!(said[said.len() - 2], answer, "{events}");
    }
}

#[test]
fn no_script() {
    for (script, message) in [
        (
            &b""[..],
            "standard input: line 1: `scheme N` is missing; nothing was run; `./tilgurap help script` shows each event's line\n",
        ),
        (
            b"scheme 7\nopen \xff\n",
            "standard input: line 2: a byte that is no text; nothing was run; `./tilgurap help script` shows each event's line\n",
        ),
        (
            b"scheme 7\nopen 1\rcopy 1\r\n",
            "standard input: line 2: field D: `1\\rcopy` is no decimal number; nothing was run; `./tilgurap help script` shows each event's line\n",
        ),
        (
            b"scheme 7\nended 4294967296 # too wide\n",
            "standard input: line 2: field C: 4294967296 is over 4294967295, the most that 32 bits hold; nothing was run; `./tilgurap help script` shows each event's line\n",
        ),
    ] {
        let output = run(&["replay"], script);
        assert_eq!(text(&output.stderr), message);
        assert_eq!(output.status.code(), Some(2));
    }
    for task in [
        &["replay"][..],
        &["replay", "--explain"],
        &["replay", "--json"],
        &["status"],
        &["status", "--json"],
    ] {
        let args = [task, &["no/such.script"]].concat();
        let output = run(&args, b"");
        assert!(text(&output.stderr).starts_with("no/such.script: "));
        assert_eq!(output.status.code(), Some(2));
    }
    for args in [
        &[][..],
        &["play"],
        &["replay", "a", "b"],
        &["status", "a", "b"],
        &["listing", "a"],
    ] {
        let output = run(args, b"");
        assert!(
            text(&output.stderr).starts_with("usage: driver replay [--explain | --json] [FILE]\n")
        );
        assert_eq!(output.status.code(), Some(2));
    }
    let output = run(&["replay", "--explian"], b"");
    assert!(text(&output.stderr).starts_with("unknown option --explian\n"));
    assert_eq!(output.status.code(), Some(2));
    let output = run(&["listing"], b"no listing");
    assert!(text(&output.stderr).starts_with("standard input is no listing: "));
    assert_eq!(output.status.code(), Some(2));
}

/// Blank lines, carriage returns and comments change nothing.
#[test]
fn what_passes_in_a_script() {
    let wanted = run(&["replay"], ACCIDENT.as_bytes());
    let blank = ACCIDENT.replace('\n', "\n \t\n\n");
    let returns = ACCIDENT.replace('\n', "\r\n\r\n");
    let commented = ACCIDENT.replace('\n', " # one\n  # another\n");
    for script in [blank, returns, commented] {
        let output = run(&["replay"], script.as_bytes());
        assert_eq!(text(&output.stdout), text(&wanted.stdout), "{script:?}");
        assert!(output.stderr.is_empty(), "{script:?}");
    }
}

#[test]
fn an_output_that_cannot_be_written() {
    let full = std::fs::File::options().write(true).open("/dev/full");
    let output = std::process::Command::new(env!("CARGO_BIN_EXE_driver"))
        .args([
            "replay",
            concat!(
                env!("CARGO_MANIFEST_DIR"),
                "/../../examples/accident.script"
            ),
        ])
        .stdout(full.expect("a device"))
        .stderr(std::process::Stdio::piped())
        .output()
        .expect("it runs");
    assert!(text(&output.stderr).starts_with("standard output: "));
    assert_eq!(output.status.code(), Some(1));
}
