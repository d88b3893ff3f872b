//! `compare SEEDS EVENTS [FIRST]`: so many runs of so many events each, on the layer and on the
//! kernel's own code, from the first seed (0) on. Status 0 where they say the same, 1 where they
//! differ: then a short script shows it; 130 where Ctrl-C ended it, after what was compared so far.

use std::panic::catch_unwind;
use std::process::ExitCode;
use std::time::{Duration, Instant};

use compare::counts::Counts;
use compare::{interrupt, limits, runs, words};
use script::{eprintln, print, println};
use tilgurap::numbers::Layer;

const USAGE: &str = "usage: compare SEEDS EVENTS [FIRST]";
const RANDOM_WORDS: u64 = 2_000_000;
const BETWEEN: Duration = Duration::from_secs(2);

fn numbers(args: &[String]) -> Option<(u64, usize, u64)> {
    match args {
        [seeds, events] => Some((seeds.parse().ok()?, events.parse().ok()?, 0)),
        [seeds, events, first] => Some((
            seeds.parse().ok()?,
            events.parse().ok()?,
            first.parse().ok()?,
        )),
        _ => None,
    }
}

/// The script with both sides' lines.
fn show(difference: &runs::Difference) {
    println!(
        "seed {}, event {}: they differ. Shortest script found:\n",
        difference.seed, difference.place
    );
    print!("{}", difference.script);
    let rust = catch_unwind(|| oracle::run(&difference.script)).unwrap_or_default();
    let port = tilgurap::numbers::run_script(&difference.script);
    for (side, lines) in [("rust", rust), ("port", port)] {
        println!("\n{side}:");
        lines.iter().for_each(|line| println!("{line}"));
    }
    println!("\n{}", difference.what);
}

fn main() -> ExitCode {
    let args: Vec<String> = std::env::args().skip(1).collect();
    let Some((seeds, events, first)) = numbers(&args) else {
        eprintln!("{USAGE}");
        return ExitCode::from(2);
    };

    interrupt::watch();
    let others = words::compare(RANDOM_WORDS);
    match &others {
        Ok(compared) => println!(
            "compared: {} error words, {} entries, {} refusals before the tag, {} readings of replies",
            compared.error_words, compared.entries, compared.refusals, compared.readings
        ),
        Err(what) => println!("they differ: {what}"),
    }
    let limits = limits::compare();
    match &limits {
        Ok((compared, _)) => println!("compared: {compared} events up to 65,535 holds"),
        Err(what) => println!("they differ: {what}"),
    }

    let (mut counts, mut told) = (Counts::default(), Instant::now());
    if let Ok((_, shown)) = &limits {
        counts.shown.add_all(shown);
    }
    for seed in first..first.saturating_add(seeds) {
        if interrupt::noted() {
            print!("{counts}");
            println!("\ninterrupted before seed {seed}: no difference so far in the runs");
            return ExitCode::from(interrupt::STATUS);
        }
        let compared = runs::compare(seed, events, &Layer::new, reasons::ALL, &mut counts);
        if let Err(difference) = compared {
            show(&difference);
            return ExitCode::FAILURE;
        }
        if told.elapsed() > BETWEEN {
            told = Instant::now();
            eprintln!("seed {seed}, {} events compared", counts.compared);
        }
    }
    print!("{counts}");
    match others.is_ok() && limits.is_ok() {
        true => {
            println!("\nno difference");
            ExitCode::SUCCESS
        }
        false => ExitCode::FAILURE,
    }
}
