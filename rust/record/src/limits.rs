//! 01's own refusals, which the kernel does not have: scripts with the lines that 01 asks for,
//! written by hand behind `#= `. They are encoded as they stand.

use std::path::Path;

use script::{Answer, Event, Line, State};

use crate::Outcome;
use crate::cover::Cover;
use crate::file::{File, Run};
use crate::kernel::{Kernel, Taken};
use crate::scripts::{parse, paths};

/// Does the kernel answer the same, but for what the reasons say that only 01 refuses, with the
/// number that stands here? Behind a known difference it cannot follow.
fn beside_the_kernel(scheme: u64, lines: &[(Event, Line)], state: &State) -> Outcome<()> {
    let mut beside = Cover::default();
    let mut kernel = Kernel::new(scheme, reasons::ALL, &mut beside);
    for (event, line) in lines {
        let found = match kernel.step(event)? {
            Taken::Recorded(found) => found,
            Taken::Refused(number) => Line::answer(Answer::No(number)),
            Taken::LeftOut | Taken::Over => return Ok(()),
        };
        if found != *line {
            return Err(format!("{event}: {line}, and the kernel or its reason: {found}").into());
        }
    }
    match kernel.state() == *state {
        true => Ok(()),
        false => Err(format!("{state}, and the kernel: {}", kernel.state()).into()),
    }
}

/// A script and its lines as a run: a line for each event, then the state.
fn run(path: &Path, cover: &mut Cover) -> Outcome<Run> {
    let (text, script) = parse(path)?;
    let mut wanted = text.lines().filter_map(|line| line.strip_prefix("#= "));
    let mut run = Run::new(script.scheme);
    let mut lines = Vec::new();
    for event in script.events {
        let line = wanted.next().ok_or("a line is missing")?;
        let line = Line::parse(line).map_err(|what| format!("{event}: {what}"))?;
        if !Run::takes(&event) || !run.has_room(&event) {
            return Err(format!("{event}: no room").into());
        }
        run.add(&event, &line)?;
        cover.add_limit(&event, &line);
        lines.push((event, line));
    }
    let last = wanted.next().and_then(|line| line.strip_prefix("state "));
    let last = State::parse_short(last.ok_or("the state is missing")?)?;
    run.end(&last)?;
    if let Some(line) = wanted.next() {
        return Err(format!("`{line}` follows the state").into());
    }
    beside_the_kernel(script.scheme, &lines, &last)?;
    Ok(run)
}

pub fn encoded(folder: &Path, cover: &mut Cover) -> Outcome<File> {
    let mut file = File::default();
    for path in paths(folder)? {
        file.add(run(&path, cover).map_err(|what| format!("{}: {what}", path.display()))?);
    }
    Ok(file)
}
