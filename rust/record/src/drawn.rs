//! Runs that rust/generate draws, each from a seed.

use generate::Generator;
use script::{Answer, Line};

use crate::Outcome;
use crate::cover::Cover;
use crate::file::File;
use crate::kernel::{Kernel, Taken};

const SEEDS: std::ops::Range<u64> = 1..31;
/// Events of a run before its tail, those that are left out among them.
const EVENTS: usize = 320;

pub fn record(file: &mut File, cover: &mut Cover) -> Outcome<()> {
    for seed in SEEDS {
        let mut generator = Generator::new(seed, false);
        let mut kernel = Kernel::new(generator.scheme(), reasons::ALL, cover);
        while let Some(event) = generator.event(EVENTS) {
            let line = match kernel.step(&event)? {
                Taken::Recorded(line) => line,
                Taken::Refused(_) | Taken::LeftOut => Line::answer(Answer::Skip),
                Taken::Over => break,
            };
            generator.learn(&event, &line, kernel.state());
        }
        file.add(kernel.end()?);
    }
    Ok(())
}
