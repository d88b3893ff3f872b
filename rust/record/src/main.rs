//! `record [--check] [FOLDER]`: makes data/ and stdout of the program `recorded` in FOLDER,
//! crates/recorded where none is named, and prints what the runs cover. With `--check` it writes
//! nothing and says which files are not as it would make them. docs/RECORDED.md has the whole.

use std::error::Error;
use std::fs;
use std::path::{Path, PathBuf};
use std::process::ExitCode;

mod cover;
mod drawn;
mod file;
mod kernel;
mod limits;
mod scripts;

use cover::Cover;
use file::File;

type Outcome<T> = Result<T, Box<dyn Error>>;

/// A folder of the repository.
fn repository(folder: &str) -> PathBuf {
    Path::new(env!("CARGO_MANIFEST_DIR"))
        .join("../..")
        .join(folder)
}

/// The files' names and bytes; prints what the runs cover.
fn record() -> Outcome<Vec<(String, Vec<u8>)>> {
    let mut cover = Cover::default();
    let mut scripts = File::default();
    for scripts_in in ["rust/oracle/tests/scripts", "tests/recorded/scripts"] {
        scripts::record(&repository(scripts_in), &mut scripts, &mut cover)?;
    }
    let mut drawn = File::default();
    drawn::record(&mut drawn, &mut cover)?;
    let limits_in = repository("tests/recorded/limits");
    let limits = limits::encoded(&limits_in, &mut cover)?;
    print!("{cover}");
    cover.complete()?;

    let mut files = Vec::new();
    let mut printed = String::new();
    for (name, file) in [
        ("rust_scripts", scripts),
        ("rust_drawn", drawn),
        ("limits_of_01", limits),
    ] {
        files.push((format!("data/{name}"), file.bytes()));
        printed += &file.line(name);
    }
    print!("{printed}");
    printed += &fs::read_to_string(limits_in.join("207.printed"))?;
    files.push(("stdout".to_owned(), printed.into_bytes()));
    Ok(files)
}

fn check(folder: &Path, files: &[(String, Vec<u8>)]) -> Outcome<()> {
    let differs = |(name, bytes): &&(String, Vec<u8>)| {
        fs::read(folder.join(name)).map_or(true, |found| found != *bytes)
    };
    match files.iter().find(differs) {
        None => Ok(()),
        Some((name, _)) => Err(format!("{}: not as made", folder.join(name).display()).into()),
    }
}

fn write(folder: &Path, files: &[(String, Vec<u8>)]) -> Outcome<()> {
    fs::create_dir_all(folder.join("data"))?;
    for (name, bytes) in files {
        fs::write(folder.join(name), bytes)?;
    }
    Ok(())
}

fn main() -> ExitCode {
    let mut args: Vec<String> = std::env::args().skip(1).collect();
    let only_check = args.first().is_some_and(|arg| arg == "--check");
    if only_check {
        args.remove(0);
    }
    let folder = match &args[..] {
        [] => repository("crates/recorded"),
        [folder] if !folder.starts_with('-') => PathBuf::from(folder),
        _ => {
            eprintln!("usage: record [--check] [FOLDER]");
            return ExitCode::from(2);
        }
    };
    let done = record().and_then(|files| match only_check {
        true => check(&folder, &files),
        false => write(&folder, &files),
    });
    match done {
        Ok(()) => ExitCode::SUCCESS,
        Err(error) => {
            eprintln!("{error}");
            ExitCode::FAILURE
        }
    }
}
