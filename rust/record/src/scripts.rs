//! Runs that are written by hand as event scripts. What only 01 refuses is left out of them, and so
//! are questions, which are no events of a run. What stands before a line `status` is a run of its own, too: what is
//! recorded at its end has the status words there.

use std::fs;
use std::path::{Path, PathBuf};

use script::{Event, Script};

use crate::Outcome;
use crate::cover::Cover;
use crate::file::File;
use crate::kernel::{Kernel, Taken};

/// The scripts of a folder, by name.
pub fn paths(folder: &Path) -> Outcome<Vec<PathBuf>> {
    let mut paths = Vec::new();
    for entry in fs::read_dir(folder)? {
        let path = entry?.path();
        if path.extension().is_some_and(|e| e == "script") {
            paths.push(path);
        }
    }
    paths.sort();
    Ok(paths)
}

pub fn parse(path: &Path) -> Outcome<(String, Script)> {
    let text = fs::read_to_string(path)?;
    let script = Script::parse(&text).map_err(|m| format!("{}: {m}", path.display()))?;
    Ok((text, script))
}

pub fn record(folder: &Path, file: &mut File, cover: &mut Cover) -> Outcome<()> {
    for path in paths(folder)? {
        let (_, script) = parse(&path)?;
        let asked = (script.events.iter().enumerate())
            .filter(|(_, event)| **event == Event::Status)
            .map(|(place, _)| place);
        for end in asked {
            // their events are counted with the whole script
            let mut beginning = Cover::default();
            record_run(&path, &script, end, file, &mut beginning)?;
            cover.add_ends(&beginning);
        }
        record_run(&path, &script, script.events.len(), file, cover)?;
    }
    Ok(())
}

/// The first so many lines of a script as a run.
fn record_run(
    path: &Path,
    script: &Script,
    lines: usize,
    file: &mut File,
    cover: &mut Cover,
) -> Outcome<()> {
    let mut events = script.events[..lines]
        .iter()
        .filter(|event| event.is_of_a_run())
        .peekable();
    if events.peek().is_none() {
        return Ok(());
    }
    let mut kernel = Kernel::new(script.scheme, reasons::ALL, cover);
    for event in events {
        if let Taken::Over = kernel.step(event)? {
            return Err(format!("{}: it does not fit one run", path.display()).into());
        }
    }
    file.add(kernel.end()?);
    Ok(())
}
