//! Runs an event script on the layer: `driver replay [--explain | --json] [FILE]` prints what each event
//! answers, `driver status [--json] [FILE]` what the layer holds afterwards. The script comes from standard
//! input where no file, or `-`, is named. `driver listing [--cut]` makes JSON of what the listing program prints.

mod explain;
mod json;
mod reasons;
mod reply;
mod table;

use std::fs;
use std::io::{self, Read, Write};
use std::process::ExitCode;

use script::{Script, eprintln, print_all};
use tilgurap::numbers::{self, Layer};

const USAGE: &str = "usage: driver replay [--explain | --json] [FILE]
       driver status [--json] [FILE]
       driver listing [--cut]";

fn text(file: Option<&str>) -> io::Result<Vec<u8>> {
    match file {
        Some(file) => fs::read(file),
        None => {
            let mut text = Vec::new();
            io::stdin().read_to_end(&mut text)?;
            Ok(text)
        }
    }
}

/// A text whose control characters, of which a terminal would make something else, can be seen.
fn visible(text: &str) -> String {
    let shown = |c: char| match c.is_control() {
        true => c.escape_default().to_string(),
        false => c.to_string(),
    };
    text.chars().map(shown).collect()
}

/// The script, and its text.
fn script(file: Option<&str>) -> Result<(Script, String), String> {
    let name = file.unwrap_or("standard input");
    let text = text(file).map_err(|error| {
        format!("{name}: {error}; name a file with an event script, or pipe one in")
    })?;
    let script = Script::parse_bytes(&text).map_err(|mistake| {
        let mistake = visible(&mistake.to_string());
        format!(
            "{name}: {mistake}; nothing was run; `./tilgurap help script` shows each event's line"
        )
    })?;
    let text = String::from_utf8(text).expect("what was parsed is text");
    Ok((script, text))
}

fn replay(out: &mut impl Write, script: &Script) -> io::Result<()> {
    for line in numbers::run_script(script) {
        writeln!(out, "{line}")?;
    }
    Ok(())
}

fn status(out: &mut impl Write, script: &Script) -> io::Result<()> {
    let mut layer = Layer::new(script.scheme);
    for event in &script.events {
        layer.step(event);
    }
    write!(out, "{}", table::table(&layer))
}

/// What to do with a script.
#[derive(Clone, Copy)]
enum Task {
    Replay,
    Explain,
    Status,
    ReplayJson,
    StatusJson,
}

fn run(task: Task, file: &[&str]) -> Result<ExitCode, String> {
    let file = match file {
        [] | ["-"] => None,
        [option] if option.starts_with('-') => {
            return Err(format!("unknown option {option}\n{USAGE}"));
        }
        [file] => Some(*file),
        _ => return Err(USAGE.to_owned()),
    };
    let (script, text) = script(file)?;
    Ok(print_all(|out| match task {
        Task::Replay => replay(out, &script),
        Task::Explain => explain::explain(out, &script, &text),
        Task::Status => status(out, &script),
        Task::ReplayJson => json::replay(out, &script, &text),
        Task::StatusJson => json::state_alone(out, &script),
    }))
}

fn listing(cut: bool) -> Result<ExitCode, String> {
    let listed = io::read_to_string(io::stdin()).map_err(|error| error.to_string());
    let objects = listed.and_then(|listed| json::listing(&listed, cut));
    let objects = objects.map_err(|what| format!("standard input is no listing: {what}"))?;
    Ok(print_all(|out| write!(out, "{objects}")))
}

fn main() -> ExitCode {
    let args: Vec<String> = std::env::args().skip(1).collect();
    let args: Vec<&str> = args.iter().map(String::as_str).collect();
    let done = match &args[..] {
        ["replay", "--explain", file @ ..] => run(Task::Explain, file),
        ["replay", "--json", file @ ..] => run(Task::ReplayJson, file),
        ["replay", file @ ..] => run(Task::Replay, file),
        ["status", "--json", file @ ..] => run(Task::StatusJson, file),
        ["status", file @ ..] => run(Task::Status, file),
        ["listing"] => listing(false),
        ["listing", "--cut"] => listing(true),
        _ => Err(USAGE.to_owned()),
    };
    done.unwrap_or_else(|message| {
        eprintln!("{message}");
        ExitCode::from(2)
    })
}
