//! A run on the kernel's own code while it is recorded: what was put to it and what it answered,
//! and which events were left out.

use oracle::Oracle;
use reasons::{Reason, Step, Table, cut};
use script::{Answer, Event, Line, State};

use crate::Outcome;
use crate::cover::Cover;
use crate::file::Run;

/// What became of an event.
pub enum Taken {
    Recorded(Line),
    /// Left out, since only the layer refuses it: its number.
    Refused(u64),
    /// Left out, since both take it and differ, or since the format has no place for it.
    LeftOut,
    /// The run has no room for it, or ends here.
    Over,
}

/// What the reasons say of an event.
enum Look<'r> {
    Whole,
    /// The layer refuses it behind so many entries.
    Cut(usize, &'r Reason),
    /// With the layer's number, where it refuses it.
    LeftOut(Option<u64>, &'r Reason),
}

pub struct Kernel<'a> {
    reasons: &'a [Reason],
    scheme: u64,
    oracle: Oracle,
    /// Takes each event first, a write entry by entry: it shows what would come.
    ahead: Oracle,
    table: Table,
    /// What the oracle was given and took.
    given: Vec<Event>,
    run: Run,
    cover: &'a mut Cover,
}

impl<'a> Kernel<'a> {
    pub fn new(scheme: u64, reasons: &'a [Reason], cover: &'a mut Cover) -> Kernel<'a> {
        Kernel {
            reasons,
            scheme,
            oracle: Oracle::new(scheme),
            ahead: Oracle::new(scheme),
            table: Table::new(),
            given: Vec::new(),
            run: Run::new(scheme),
            cover,
        }
    }

    pub fn state(&self) -> State {
        self.oracle.state()
    }

    pub fn step(&mut self, event: &Event) -> Outcome<Taken> {
        if !Run::takes(event) {
            self.cover.no_place += 1;
            return Ok(Taken::LeftOut);
        }
        if !self.run.has_room(event) {
            return Ok(Taken::Over);
        }
        let before = self.oracle.state();
        if let Some(reason) = reasons::ends(self.reasons, &before) {
            self.cover.left_out.add(reason);
            return Ok(Taken::Over);
        }
        let steps = self.steps_ahead(event, before.clone())?;
        let look = self.look(&steps)?;
        if let Look::LeftOut(number, reason) = look {
            self.cover.left_out.add(reason);
            if steps.iter().any(|step| step.line.answer != Answer::Skip) {
                self.bring_back();
            }
            return Ok(number.map_or(Taken::LeftOut, Taken::Refused));
        }
        let given = match look {
            Look::Cut(place, _) => cut(event, place),
            _ => event.clone(),
        };
        let line = self.oracle.step(&given);
        self.given.push(given);
        if let Look::Cut(_, reason) = look {
            self.cover.left_out.add(reason);
            self.bring_back();
        }
        if self.ahead.state() != self.oracle.state() {
            return Err(format!("{event}: it leaves another state entry by entry").into());
        }
        self.table.learn(event, &line);
        self.cover.add(event, &before, &line);
        self.run.add(event, &line)?;
        Ok(Taken::Recorded(line))
    }

    fn steps_ahead(&mut self, event: &Event, before: State) -> Outcome<Vec<Step>> {
        reasons::steps(event, before, |event| {
            let line = self.ahead.step(event);
            Ok((line, self.ahead.state()))
        })
    }

    fn look(&self, steps: &[Step]) -> Outcome<Look<'a>> {
        for (place, step) in steps.iter().enumerate() {
            let left_out = reasons::left_out(self.reasons, &self.table, step)?;
            let skips = left_out.is_some_and(|(_, reason)| reason.rust_skips());
            if skips != (step.line.answer == Answer::Skip) {
                let (event, line) = (&step.event, &step.line);
                return Err(format!("{event}: {line}, and the reasons say otherwise").into());
            }
            match (left_out, reasons::differs(self.reasons, step)) {
                (Some((_, reason)), _) if place > 0 => return Ok(Look::Cut(place, reason)),
                (Some((number, reason)), _) => return Ok(Look::LeftOut(Some(number), reason)),
                (None, Some(reason)) => return Ok(Look::LeftOut(None, reason)),
                (None, None) => {}
            }
        }
        Ok(Look::Whole)
    }

    /// The one ahead took what the oracle is not given: it is made anew.
    fn bring_back(&mut self) {
        self.ahead = Oracle::new(self.scheme);
        for event in &self.given {
            self.ahead.step(event);
        }
    }

    pub fn end(mut self) -> Outcome<Run> {
        let state = self.oracle.state();
        self.cover.runs += 1;
        self.cover.add_end(&state);
        self.run.end(&state)?;
        Ok(self.run)
    }
}

#[cfg(test)]
mod tests {
    use reasons::{ALL, Kind};

    use super::*;

    /// The lines of a run, `-` and the layer's number for an event that is left out, and the state at
    /// the end.
    fn recorded(reasons: &[Reason], events: &[&str], cover: &mut Cover) -> (Vec<String>, State) {
        let mut kernel = Kernel::new(7, reasons, cover);
        let line = |event: &&str| {
            let event = Event::parse(event).expect("an event");
            match kernel
                .step(&event)
                .expect("reasons for all that is left out")
            {
                Taken::Recorded(line) => line.to_string(),
                Taken::Refused(number) => format!("- {number}"),
                Taken::LeftOut => "-".to_owned(),
                Taken::Over => "over".to_owned(),
            }
        };
        (events.iter().map(line).collect(), kernel.state())
    }

    const OBTAIN: &str = "write 54 03000000000000000000000000000000";
    const HELD: [&str; 4] = [
        "open 0",
        "open 1",
        "put 1 0",
        "call 100 6 0 0 0 0 0 0 0 0 0 1 0",
    ];

    #[test]
    fn a_known_difference_is_left_out_and_the_run_goes_on() {
        let cover = &mut Cover::default();
        // the handle is emptied by another call's reply; then the same entry finds it empty
        let fill = [
            "call 200 6 0 0 0 0 0 0 0 0 0 0",
            "write 54 01000000010000000000000000000000",
        ];
        let events = [&HELD[..], &[OBTAIN], &fill[..], &[OBTAIN]].concat();
        let (lines, state) = recorded(ALL, &events, cover);
        assert_eq!(
            lines[4..],
            ["-", "ok 1 ; E 5 7 1", "ok 16 ; E 1 200 1", "ok 16"]
        );
        assert_eq!(state.handles[0], Some(0));
        assert_eq!(cover.left_out.of("occupied_handle"), 1);
    }

    #[test]
    fn an_occupied_handle_behind_another_entry() {
        let cover = &mut Cover::default();
        let both = "write 108 0300000000000000010000000000000003000000000000000100000000000000";
        let call = "call 100 6 0 0 0 0 0 0 0 0 0 2 0 1";
        let (lines, state) = recorded(ALL, &["open 0", "open 1", call, both, "reserve 1"], cover);
        assert_eq!(lines[3..], ["-", "ok 1"]);
        assert_eq!(state.handles[1], None);
        // one entry alone finds it empty; a refused one obtains nothing
        let (lines, _) = recorded(ALL, &["open 0", HELD[3], OBTAIN, OBTAIN], cover);
        assert_eq!(lines[2..], ["ok 16", "no 2"]);
        assert_eq!(cover.left_out.of("occupied_handle"), 1);
    }

    #[test]
    fn what_only_the_layer_refuses_is_left_out_by_its_reason() {
        let cover = &mut Cover::default();
        let refused = [
            "submit 0 1 6 0 0 0 0 0 0 0 0 0",
            "write 53 00000000000000000000000000000000",
            "drop 3",
            "supply 4294967296 0 0 1",
        ];
        let (lines, _) = recorded(ALL, &refused, cover);
        assert_eq!(lines, ["- 201", "- 204", "- 205", "- 22"]);
        for name in ["limit_201", "limit_204", "limit_205", "wide_tag"] {
            assert_eq!(cover.left_out.of(name), 1, "{name}");
        }
    }

    #[test]
    fn a_skip_without_its_reason_stops_the_recording() {
        let step = |reasons: &[Reason]| {
            let mut cover = Cover::default();
            let mut kernel = Kernel::new(7, reasons, &mut cover);
            kernel.step(&Event::Drop { d: 3 }).is_err()
        };
        assert!(step(&[]));
        // the reason says that the Rust takes it
        assert!(step(&[Reason {
            name: "other",
            sentence: "",
            row: "",
            kind: Kind::LeftOut {
                refused: |_, _| Some(205),
                rust_skips: false,
            },
        }]));
    }

    /// A layer that refuses entries with a spare flag bit, which the Rust takes.
    const SPARE_BITS: &[Reason] = &[Reason {
        name: "spare_bits",
        sentence: "",
        row: "",
        kind: Kind::LeftOut {
            refused: |_, step| match &step.event {
                Event::Write { bytes, .. } if bytes[0] > 7 => Some(209),
                _ => None,
            },
            rust_skips: false,
        },
    }];

    #[test]
    fn a_write_is_cut_before_an_entry_that_only_the_layer_refuses() {
        let cover = &mut Cover::default();
        let calls = [
            "call 1 6 0 0 0 0 0 0 0 0 0 0",
            "call 2 6 0 0 0 0 0 0 0 0 0 0",
        ];
        let both = "write 108 0000000000000000000000000000000008000000010000000000000000000000";
        let second = "write 54 08000000010000000000000000000000";
        let events = [&calls[..], &[both, second, "wake 1 2 0 0 0"]].concat();
        let (lines, _) = recorded(SPARE_BITS, &events, cover);
        assert_eq!(
            lines[2..],
            ["ok 16 ; E 1 1 0", "- 209", "blocked ; E 5 7 1"]
        );
        assert_eq!(cover.left_out.of("spare_bits"), 2);
    }

    #[test]
    fn a_run_ends_where_the_rust_cannot_follow() {
        let cover = &mut Cover::default();
        let ends = [Reason {
            name: "queued",
            sentence: "",
            row: "",
            kind: Kind::Ends {
                reached: |state| state.queue == 1,
            },
        }];
        let (lines, _) = recorded(&ends, &["close 1", "close 1"], cover);
        assert_eq!(lines, ["ok 0 ; E 5 7 5", "over"]);
        assert_eq!(cover.left_out.of("queued"), 1);
    }
}
