//! A small scheduler and a driver on both ends of one layer, as in the plant: the header valve is opened, additive is dosed,
//! a gauge is read and closed while a dose runs, the dosing call is killed, and work goes on.
//!
//! `cargo run --example plant`

use std::collections::VecDeque;

use tilgurap::{
    Answer, Call, Caller, Completion, Driver, Effect, Errno, FileNumber, Identity, Killed, Layer,
    Opcode, Pid, Refusal, Reply, SchemeNumber, Served, Span, StatusWord, Submitted, Tag, Wake,
};

/// The driver's files.
const VALVE: FileNumber = FileNumber(1);
const DOSER: FileNumber = FileNumber(2);
const GAUGE: FileNumber = FileNumber(3);

/// The scheduler's callers.
const HEADER: Caller = Caller(100);
const DOSING: Caller = Caller(101);
const PANEL: Caller = Caller(102);
const NEXT_DOSING: Caller = Caller(103);

/// What happened, line by line.
type Story = Vec<String>;

/// The driver. Valve and gauge answer at once; a dose takes until `finish_dosing`.
struct Plant {
    valve_open: bool,
    additive: u64,
    dosing: VecDeque<Call>,
    story: Story,
}

impl Plant {
    fn tell(&mut self, what: String) {
        self.story.push(format!("driver:    {what}"));
    }

    /// The oldest dose has run in: its reply.
    fn finish_dosing(&mut self) -> Option<Completion> {
        let call = self.dosing.pop_front()?;
        let (tag, litres) = (call.tag(), call.args()[1]);
        let Some(left) = self.additive.checked_sub(litres) else {
            self.tell(format!("tag {tag}: the tank is too low"));
            return Some(call.err(Errno::ENOSPC));
        };
        self.additive = left;
        self.tell(format!(
            "tag {tag}: {litres} litres have run in, {left} are left"
        ));
        Some(call.ok(litres))
    }
}

impl Driver for Plant {
    fn read(&mut self, call: Call) -> Answer {
        if call.file() != GAUGE {
            return call.err(Errno::ENOENT).into();
        }
        let tenths_of_bar = if self.valve_open { 34 } else { 0 };
        self.tell(format!("tag {}: the gauge is read", call.tag()));
        call.ok(tenths_of_bar).into()
    }

    fn write(&mut self, call: Call) -> Answer {
        let (tag, value) = (call.tag(), call.args()[1]);
        match call.file() {
            VALVE => {
                self.valve_open = value == 1;
                let position = if self.valve_open { "open" } else { "closed" };
                self.tell(format!("tag {tag}: the header valve is {position}"));
                call.ok(value).into()
            }
            DOSER => {
                self.tell(format!("tag {tag}: dosing {value} litres begins"));
                self.dosing.push_back(call);
                Answer::Nothing
            }
            _ => call.err(Errno::ENOENT).into(),
        }
    }

    /// It comes with tag 0, which is a call's; here it is a file and no more.
    fn on_close(&mut self, file: FileNumber) -> Answer {
        self.tell(format!("file {file} is closed"));
        Answer::Nothing
    }
}

/// The scheduler owns the layer and carries its effects out.
struct Scheduler {
    layer: Layer,
    plant: Plant,
}

impl Scheduler {
    fn tell(&mut self, what: String) {
        self.plant.story.push(format!("scheduler: {what}"));
    }

    fn call(
        &mut self,
        caller: Caller,
        opcode: Opcode,
        file: FileNumber,
        value: u64,
    ) -> Result<(), Refusal> {
        let who = Identity {
            uid: 0,
            gid: 0,
            pid: Pid(u64::from(caller.0)),
        };
        let args = [file.0, value, 0, 0, 0];
        let Submitted { tag, effect } = self.layer.call(caller, opcode, args, who, &[])?;
        self.tell(format!(
            "caller {caller} calls ({opcode} {value}, file {file}): tag {tag}"
        ));
        self.carry_out(effect)
    }

    fn close(&mut self, file: FileNumber) -> Result<(), Refusal> {
        let effect = self.layer.close(file)?;
        self.tell(format!("file {file} is closed"));
        self.carry_out(effect)
    }

    /// The driver takes its turn.
    fn turn(&mut self) -> Result<(), Refusal> {
        let served = self.layer.serve(&mut self.plant);
        self.see(served)
    }

    /// A dose has run in.
    fn finish_dosing(&mut self) -> Result<(), Refusal> {
        let Some(reply) = self.plant.finish_dosing() else {
            return Ok(());
        };
        let tag = reply.cqe().tag();
        let served = self.layer.answer_for(&mut self.plant, reply);
        if served.effects.is_empty() {
            self.tell(format!("the reply to tag {tag} wakes nobody"));
        }
        self.see(served)
    }

    fn see(&mut self, served: Served) -> Result<(), Refusal> {
        for refused in served.refused {
            self.tell(refused.to_string());
        }
        for effect in served.effects {
            self.carry_out(effect)?;
        }
        Ok(())
    }

    fn carry_out(&mut self, effect: Effect) -> Result<(), Refusal> {
        match effect {
            Effect::Wake { caller, tag } => match self.layer.wake(tag, caller)? {
                Wake::Replied(reply) => self.show(caller, tag, reply),
                Wake::Blocked(_) => unreachable!("a caller is woken when its reply is there"),
            },
            // in this story the driver looks at its queue when it is its turn
            Effect::Readable { .. } => {}
            Effect::Unmap { .. } | Effect::Close { .. } | Effect::Event { .. } => {
                self.tell(effect.to_string());
            }
        }
        Ok(())
    }

    fn show(&mut self, caller: Caller, tag: Tag, reply: Reply) {
        let read = match reply.into_regular() {
            Ok(word) => format!("reads {word}"),
            Err(errno) => format!("fails: {errno}"),
        };
        self.tell(format!("caller {caller}, tag {tag}, {read}"));
    }

    fn kill(&mut self, caller: Caller) {
        for (tag, killed) in self.layer.kill(caller, |_| Span::NONE) {
            match killed {
                Killed::Returned => {
                    self.tell(format!("caller {caller} is killed, tag {tag} stays taken"));
                }
                Killed::Replied(reply) => self.show(caller, tag, reply),
            }
        }
    }

    fn show_status(&mut self) {
        let status = self.layer.status();
        let tags = |word: StatusWord| word.tags().map(|tag| tag.0).collect::<Vec<u64>>();
        let (outstanding, orphans) = (tags(status.outstanding), tags(status.orphans));
        (self.plant.story).push(format!(
            "status:    outstanding calls: tags {outstanding:?}, orphans: tags {orphans:?}"
        ));
    }
}

/// The whole story.
fn story() -> Result<Story, Refusal> {
    let mut scheduler = Scheduler {
        layer: Layer::new(SchemeNumber(7)),
        plant: Plant {
            valve_open: false,
            additive: 100,
            dosing: VecDeque::new(),
            story: Vec::new(),
        },
    };

    scheduler.call(HEADER, Opcode::Write, VALVE, 1)?;
    scheduler.turn()?;

    // a dose takes its time: the gauge's reply overtakes it, and the gauge is closed
    scheduler.call(DOSING, Opcode::Write, DOSER, 20)?;
    scheduler.call(PANEL, Opcode::Read, GAUGE, 0)?;
    scheduler.turn()?;
    scheduler.close(GAUGE)?;
    scheduler.turn()?;
    scheduler.show_status();

    // the operator kills the dosing call: it returns, and its slot stays taken
    scheduler.kill(DOSING);
    scheduler.show_status();

    // the valve call gets a slot of its own, and the late reply does not reach it
    scheduler.call(HEADER, Opcode::Write, VALVE, 0)?;
    scheduler.finish_dosing()?;
    scheduler.show_status();
    scheduler.turn()?;

    // and on it goes: the next dose is more than is left
    scheduler.call(NEXT_DOSING, Opcode::Write, DOSER, 90)?;
    scheduler.turn()?;
    scheduler.finish_dosing()?;
    scheduler.show_status();
    Ok(scheduler.plant.story)
}

fn main() -> Result<(), Refusal> {
    story()?.iter().for_each(|line| println!("{line}"));
    Ok(())
}

#[cfg(test)]
mod tests {
    use super::*;

    #[test]
    fn the_story_is_told() {
        let told = story().expect("nothing is refused").join("\n");
        assert_eq!(told, include_str!("plant.expected").trim_end());
    }
}
