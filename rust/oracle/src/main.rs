//! `oracle [FILE]`: runs an event script on the kernel's own code and prints what it answers.
//! The script comes from standard input where no file is named.

use std::fs;
use std::io::{self, Read, Write};
use std::process::ExitCode;

use script::{Script, print_all};

fn text(file: Option<&str>) -> io::Result<Vec<u8>> {
    match file {
        Some(file) => fs::read(file),
        None => {
            let mut text = Vec::new();
            io::stdin().read_to_end(&mut text)?;
            Ok(text)
        }
    }
}

fn main() -> ExitCode {
    let args: Vec<String> = std::env::args().skip(1).collect();
    let file = args.first().map(String::as_str);
    if args.len() > 1 {
        eprintln!("usage: oracle [FILE]");
        return ExitCode::from(2);
    }
    let name = file.unwrap_or("standard input");
    let text = match text(file) {
        Ok(text) => text,
        Err(error) => {
            eprintln!("{name}: {error}");
            return ExitCode::from(2);
        }
    };
    let script = match Script::parse_bytes(&text) {
        Ok(script) => script,
        Err(mistake) => {
            eprintln!("{name}: {mistake}");
            return ExitCode::from(2);
        }
    };
    let mut lines = oracle::run(&script).into_iter();
    print_all(|out| lines.try_for_each(|line| writeln!(out, "{line}")))
}
