//! Random runs of events that reach deep states: full tables and queues, late and double replies,
//! killed and ended callers, long lists, damaged entries, numbers at the edges. The same seed
//! makes the same run on sides that answer the same.

mod aim;
mod draw;
mod entries;
mod model;

use script::{Event, Line, Script, State};

pub use draw::Draw;
pub use model::Generator;

/// What a run's events are put to.
pub trait Side {
    fn step(&mut self, event: &Event) -> Line;
    fn state(&self) -> State;
}

/// A run as it went.
pub struct Run {
    pub script: Script,
    pub lines: Vec<Line>,
    pub state: State,
}

/// Makes a run of so many events, and its tail, on a side that is fresh and has the scheme number
/// that it is made with. No obtain entry is aimed at an occupied handle unless `occupied` is set:
/// there the layer and the kernel differ.
pub fn run<S: Side>(seed: u64, count: usize, occupied: bool, fresh: impl FnOnce(u64) -> S) -> Run {
    let mut generator = Generator::new(seed, occupied);
    let mut side = fresh(generator.scheme());
    let (mut events, mut lines) = (Vec::new(), Vec::new());
    while let Some(event) = generator.event(count) {
        let line = side.step(&event);
        generator.learn(&event, &line, side.state());
        events.push(event);
        lines.push(line);
    }
    Run {
        script: Script {
            scheme: generator.scheme(),
            events,
        },
        lines,
        state: side.state(),
    }
}

#[cfg(test)]
mod tests {
    use script::{Answer, Phase};

    use super::*;

    /// A side with slots alone: it gives them out and never takes them back.
    struct Slots(u64);

    impl Side for Slots {
        fn step(&mut self, event: &Event) -> Line {
            Line::answer(match event {
                Event::Reserve { .. } if self.0 < 64 => {
                    self.0 += 1;
                    Answer::Ok(self.0 - 1)
                }
                _ => Answer::No(205),
            })
        }

        fn state(&self) -> State {
            let mut state = State::fresh();
            state.slots[..self.0 as usize].fill(Phase::Placeholder);
            state
        }
    }

    #[test]
    fn a_seed_makes_one_run() {
        let script = |seed| run(seed, 300, false, |_| Slots(0)).script;
        assert_eq!(script(5), script(5));
        assert_ne!(script(5), script(6));
    }

    #[test]
    fn the_tail_fills_the_table() {
        let made = run(1, 10, false, |_| Slots(0));
        assert!(made.state.slots.iter().all(|p| *p == Phase::Placeholder));
        // one more than there are slots
        assert_eq!(made.lines.last(), Some(&Line::answer(Answer::No(205))));
    }

    /// Every event of a run; `front` and `status` are none.
    #[test]
    fn every_event_is_drawn() {
        let mut names: Vec<&str> = (0..20)
            .flat_map(|seed| run(seed, 400, false, |_| Slots(0)).script.events)
            .map(|event| event.name())
            .collect();
        names.sort();
        names.dedup();
        let all = "call close copy detach drop ended fdread fdwrite fmap generic move obtain open put \
                   read reserve stdfs submit supply wake write";
        assert_eq!(names.join(" "), all);
    }

    /// A side on which the tail would never end.
    struct Stuck;

    impl Side for Stuck {
        fn step(&mut self, _event: &Event) -> Line {
            Line::answer(Answer::Ok(u64::MAX))
        }

        fn state(&self) -> State {
            let mut state = State::fresh();
            state.queue = 1;
            state
        }
    }

    #[test]
    fn a_wrong_side_does_not_hold_a_run_up() {
        assert!(run(1, 100, false, |_| Stuck).lines.len() < 500);
    }
}
