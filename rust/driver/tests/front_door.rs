//! The shell script `tilgurap` in a folder of its own, with a stand-in for the listing program: what it says of mistakes, and
//! where files are looked for. Nothing is built.

use std::fs;
use std::os::unix::fs::PermissionsExt;
use std::path::{Path, PathBuf};
use std::process::{Command, Output, Stdio};
use std::sync::{Mutex, MutexGuard, PoisonError};

/// It reads as many bytes as the listing program, and numbers the entries as it does.
const LISTING: &str = "#!/bin/sh
bytes=$(head -c 65536 | wc -c)
echo entry
seq 0 $((bytes / 16 - 1)) | sed 's/$/ listed/'
echo left $((bytes % 16))
";

/// One test at a time: a file that one test writes while another starts a process is open for writing in that process too until it runs
/// its program, and so long the file cannot be run ("Text file busy").
static ALONE: Mutex<()> = Mutex::new(());

/// A folder whose name has a space in it, outside the checkout and for as long as no other test has one.
struct Folder(PathBuf, #[expect(dead_code)] MutexGuard<'static, ()>);

impl Drop for Folder {
    fn drop(&mut self) {
        let _ = fs::remove_dir_all(&self.0);
    }
}

impl Folder {
    fn new(name: &str) -> Folder {
        let alone = ALONE.lock().unwrap_or_else(PoisonError::into_inner);
        let path = std::env::temp_dir().join(format!("front door {name} {}", std::process::id()));
        let _ = fs::remove_dir_all(&path);
        fs::create_dir_all(path.join("crates/listing")).expect("a folder");
        fs::create_dir_all(path.join("target/bin")).expect("a folder");
        fs::create_dir_all(path.join("else where")).expect("a folder");
        let script = Path::new(env!("CARGO_MANIFEST_DIR")).join("../../tilgurap");
        fs::copy(script, path.join("tilgurap")).expect("the script");
        fs::write(path.join("crates.txt"), "").expect("a file");
        let folder = Folder(path, alone);
        let listing = folder.0.join("target/bin/listing");
        fs::write(&listing, LISTING).expect("a file");
        fs::set_permissions(&listing, fs::Permissions::from_mode(0o755)).expect("a program");
        folder
    }

    /// Runs it in a folder beside it, with this PATH.
    fn run_with(&self, args: &[&str], path: &str) -> Output {
        Command::new(self.0.join("tilgurap"))
            .args(args)
            .current_dir(self.0.join("else where"))
            .env_remove("REDOX_SRC")
            .env_remove("TILGURAP_LIB")
            .env_remove("CARGO_TARGET_DIR")
            .env("PATH", path)
            .stdin(Stdio::null())
            .output()
            .expect("it runs")
    }

    fn run(&self, args: &[&str]) -> Output {
        self.run_with(args, &std::env::var("PATH").expect("a PATH"))
    }

    fn mistake(&self, args: &[&str], wanted: &str) {
        let output = self.run(args);
        let found = String::from_utf8(output.stderr).expect("text");
        assert_eq!(found, format!("tilgurap: {wanted}\n"), "{args:?}");
        assert_eq!(output.status.code(), Some(2), "{args:?}");
        assert!(output.stdout.is_empty(), "{args:?}");
    }
}

#[test]
fn mistakes_say_what_to_do() {
    let folder = Folder::new("mistakes");
    for command in ["replay", "status", "oracle", "list"] {
        folder.mistake(
            &[command, "no such.script"],
            "there is no file no such.script",
        );
        folder.mistake(
            &[command, "../crates"],
            "../crates is a folder: name a file in it",
        );
        folder.mistake(
            &[command, "--verbose"],
            "unknown option --verbose: see ./tilgurap help, and write ./--verbose for a file of that name",
        );
    }
    folder.mistake(
        &["play"],
        "unknown command play: ./tilgurap help lists the commands",
    );
    folder.mistake(
        &["replay", "../crates.txt", "../crates.txt"],
        "usage: ./tilgurap replay [--explain | --json] [FILE]",
    );
    folder.mistake(
        &["replay", "--json", "--explain"],
        "usage: ./tilgurap replay [--explain | --json] [FILE]",
    );
    folder.mistake(
        &["status", "--explain"],
        "unknown option --explain: see ./tilgurap help, and write ./--explain for a file of that name",
    );
    folder.mistake(&["list"], "usage: ./tilgurap list [--json] FILE");
    folder.mistake(&["version", "it"], "usage: ./tilgurap version");
    folder.mistake(
        &["--verison"],
        "unknown command --verison: ./tilgurap help lists the commands",
    );
    folder.mistake(
        &["compare", "10"],
        "usage: ./tilgurap compare SEEDS EVENTS [FIRST], each a number",
    );
    folder.mistake(
        &["compare", "10", "-1"],
        "usage: ./tilgurap compare SEEDS EVENTS [FIRST], each a number: -1 is none",
    );
    let sources = "REDOX_SRC is not set: set it to the folder of the Redox kernel's sources (the one that holds src/ and syscall/)";
    folder.mistake(&["oracle"], sources);
    folder.mistake(&["compare", "1", "1"], sources);
    folder.mistake(&["bench"], sources);
    folder.mistake(
        &["help", "me"],
        "there is no help on me: ./tilgurap help lists the commands, ./tilgurap help script an event script's lines",
    );
}

#[test]
fn a_missing_toolchain_is_named() {
    let folder = Folder::new("toolchain");
    // the commands that the script itself uses, and neither cargo nor rt
    let bin = folder.0.join("bin");
    fs::create_dir(&bin).expect("a folder");
    for name in [
        "sh", "cat", "dirname", "basename", "readlink", "find", "head", "wc", "awk", "tr", "date",
        "mkdir", "touch", "sed",
    ] {
        let found = Command::new("sh")
            .args(["-c", &format!("command -v {name}")])
            .output();
        let found = String::from_utf8(found.expect("sh").stdout).expect("a path");
        std::os::unix::fs::symlink(found.trim(), bin.join(name)).expect("a link");
    }
    let said = |args: &[&str]| {
        let output = folder.run_with(args, bin.to_str().expect("a path"));
        assert_eq!(output.status.code(), Some(2), "{args:?}");
        String::from_utf8(output.stderr).expect("text")
    };
    for args in [
        &["replay"][..],
        &["replay", "-"],
        &["replay", "-", "--explain"],
        &["status", "-"],
    ] {
        assert_eq!(said(args), "tilgurap: cargo is not there: install Rust\n");
    }
    fs::remove_file(folder.0.join("target/bin/listing")).expect("it was there");
    assert_eq!(
        said(&["list", "../crates.txt"]),
        "tilgurap: rt is not there: install the Rattle toolchain\n"
    );
    std::os::unix::fs::symlink("/bin/true", bin.join("cargo")).expect("a link");
    assert_eq!(
        said(&["replay"]),
        "tilgurap: rt is not there: install the Rattle toolchain, or set TILGURAP_LIB to the folder of a libtilgurap.a\n"
    );

    // one that finds everything proved and writes nothing
    std::os::unix::fs::symlink("/bin/true", bin.join("rt")).expect("a link");
    let top = folder.0.to_str().expect("a path");
    assert_eq!(
        said(&["list", "../crates.txt"]),
        format!(
            "tilgurap: listing is proved and built first, 0 crates with those below it, which can take minutes\n\
             tilgurap: rt did not write {top}/crates/listing/out/listing\n"
        )
    );
}

#[test]
fn a_file_is_listed() {
    let folder = Folder::new("list");
    let file = folder.0.join("else where/some entries");
    fs::write(&file, [0; 33]).expect("a file");
    let output = folder.run(&["list", "some entries"]);
    assert_eq!(output.stdout, b"entry\n0 listed\n1 listed\nleft 1\n");
    assert!(output.stderr.is_empty());
    assert_eq!(folder.run(&["list", "-"]).stdout, b"entry\nleft 0\n");
    for (len, said) in [
        (65_536, ""),
        (
            65_537,
            "tilgurap: some entries has more than 65536 bytes, of which the first 65536 are listed\n",
        ),
    ] {
        fs::write(&file, vec![b'x'; len]).expect("a file");
        let output = folder.run(&["list", "some entries"]);
        assert!(output.stdout.ends_with(b"\n4095 listed\nleft 0\n"));
        assert_eq!(String::from_utf8(output.stderr).expect("text"), said);
        assert_eq!(output.status.code(), Some(0));
    }
}

const COMMANDS: [&str; 10] = [
    "replay",
    "status",
    "list",
    "oracle",
    "compare",
    "bench",
    "instructions",
    "build",
    "version",
    "help",
];

/// The help names each command, and each event of a script by its line; each command has a help of its own.
#[test]
fn help_is_whole() {
    let folder = Folder::new("help");
    let said = |args: &[&str]| {
        let output = folder.run(args);
        assert_eq!(output.status.code(), Some(0), "{args:?}");
        assert!(output.stderr.is_empty(), "{args:?}");
        String::from_utf8(output.stdout).expect("text")
    };
    let usage = said(&["help"]);
    assert_eq!(said(&["--help"]), usage);
    assert_eq!(said(&["-h"]), usage);
    for command in COMMANDS {
        assert!(
            usage.contains(&format!("./tilgurap {command} ")),
            "{command}"
        );
        let help = said(&["help", command]);
        assert_eq!(said(&[command, "--help"]), help);
        assert_eq!(said(&[command, "-h"]), help);
        assert!(help.contains("\nStatus: 0 "), "{command}");
        if command != "help" {
            assert!(
                help.starts_with(&format!("usage: ./tilgurap {command}")),
                "{command}"
            );
        }
    }
    let lines = said(&["help", "script"]);
    let events = "open copy drop put ended reserve submit call generic stdfs fmap close detach wake read write move obtain supply fdwrite fdread front status";
    for event in events.split(' ') {
        assert!(lines.contains(&format!("\n{event} ")), "{event}");
    }
    assert_eq!(folder.run(&[]).status.code(), Some(2));
}
