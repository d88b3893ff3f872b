//! Instructions an event, counted by callgrind: the program runs itself under valgrind, once for each side.

use std::collections::BTreeMap;
use std::io;
use std::path::Path;
use std::process::{Command, Stdio};
use std::{env, fs, process};

use script::println;

/// By name: instructions, and the events that they were for.
type Counted = BTreeMap<String, (u64, u64)>;

/// What this program counts when it is given that side's name: a line of a name and a number of events for each file that
/// callgrind writes, in turn.
fn count(side: &str, folder: &Path) -> io::Result<Counted> {
    let out = folder.join(side);
    let done = Command::new("valgrind")
        .args(["--tool=callgrind", "--collect-atstart=no"])
        .arg(format!("--callgrind-out-file={}", out.display()))
        .arg(env::current_exe()?)
        .arg(side)
        .stderr(Stdio::null())
        .output()?;
    if !done.status.success() {
        return Err(io::Error::other(format!("{side}: {}", done.status)));
    }
    let mut counted = Counted::new();
    for (at, line) in String::from_utf8_lossy(&done.stdout).lines().enumerate() {
        let file = fs::read_to_string(folder.join(format!("{side}.{}", at + 1)))?;
        let total = file.lines().find_map(|line| line.strip_prefix("totals: "));
        let total = total.and_then(|total| total.trim().parse().ok());
        let (name, events) = line.split_once('\t').expect("a name and a number");
        let events = events.parse().expect("a number");
        counted.insert(name.into(), (total.unwrap_or(0), events));
    }
    Ok(counted)
}

/// Instructions an event of that name, without what counting itself takes.
fn each(counted: &Counted, name: &str) -> f64 {
    let of = |name: &str| {
        counted
            .get(name)
            .map_or(0.0, |(n, events)| *n as f64 / *events as f64)
    };
    of(name) - of("nothing")
}

/// In a run: those of the run with such events, less those of the run without them.
fn each_in_run(counted: &Counted, name: &str) -> f64 {
    let (all, events) = counted[name];
    let before = counted
        .get(&format!("before {name}"))
        .map_or(0, |(n, _)| *n);
    (all - before) as f64 / events as f64
}

/// Prints the table of these names.
pub fn table(names: &[&str]) -> io::Result<()> {
    let folder = env::temp_dir().join(format!("instructions-{}", process::id()));
    fs::create_dir_all(&folder)?;
    let sides = ["rust", "steps", "run"].map(|side| count(side, &folder));
    fs::remove_dir_all(&folder)?;
    let [rust, steps, run] = sides;
    let (rust, steps, run) = (rust?, steps?, run?);
    println!("| event | Rust | step | step / Rust | in `tilgurap_run` | in it / Rust |");
    println!("|---|---|---|---|---|---|");
    for name in names {
        let (r, s, u) = (
            each(&rust, name),
            each(&steps, name),
            each_in_run(&run, name),
        );
        println!(
            "| {name} | {r:.0} | {s:.0} | {:.2} | {u:.0} | {:.2} |",
            s / r,
            u / r
        );
    }
    Ok(())
}
