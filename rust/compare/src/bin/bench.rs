//! What events take on the layer and in the kernel's own code, in one process, in turns: each kind
//! through the exported steps, and whole runs through the steps and through `tilgurap_run`.
//! What is timed runs on one thread, and on both sides the clock is read around each event; beside
//! each it is read around nothing too, which is taken off. No time of a thread's hand-over is in any
//! ratio.

use std::hint::black_box;
use std::time::{Duration, Instant};

use oracle::Oracle;
use oracle::count::{self, Side};
use script::{Event, Payload, State, println};
use tilgurap::numbers::Layer;

const ROUNDS: usize = 101;
const BATCHES: usize = 6;
/// An event that takes longer, on either side, met something else that the machine did. It counts
/// on neither side.
const INTERRUPTED: Duration = Duration::from_micros(30);

/// Nanoseconds of the kernel, of the steps, of the clock itself and in a run, and how many events
/// they were for.
#[derive(Clone, Copy, Default)]
struct Times {
    rust: f64,
    port: f64,
    clock: f64,
    run: f64,
    events: f64,
}

/// One kind of event: a batch of it on fresh sides, timed; and for a run events that come before,
/// and events of that kind.
struct Kind {
    name: &'static str,
    batch: fn(&mut Both),
    run: fn() -> (Vec<Event>, Vec<Event>),
}

/// Both sides, and their time so far.
struct Both {
    kernel: Oracle,
    layer: Layer,
    lent: Lent,
    times: Times,
    interrupted: u64,
    /// How many events were timed, interrupted ones too.
    timed: u64,
}

/// What reads and writes are lent.
struct Lent {
    out: Vec<u8>,
    fx: Vec<u64>,
}

impl Lent {
    fn new() -> Lent {
        Lent {
            out: vec![0; 8_192],
            fx: vec![0; 54 * 16],
        }
    }
}

fn event(line: &str) -> Event {
    Event::parse(line).expect("an event")
}

fn nanoseconds(time: Duration) -> f64 {
    time.as_secs_f64() * 1e9
}

/// The clock read around nothing. Many readings in a row take less than one between events does, so
/// one is taken beside each.
#[inline(never)]
fn nothing() -> Duration {
    let start = Instant::now();
    black_box(());
    start.elapsed()
}

/// The time of a method alone: telling the event apart comes before, and its answer goes after.
macro_rules! clocked {
    ($method:expr) => {{
        let start = Instant::now();
        count::on(Side::Steps);
        let answer = $method;
        count::off(Side::Steps);
        let spent = start.elapsed();
        drop(black_box(answer));
        spent
    }};
}

impl Both {
    fn new() -> Both {
        Both {
            kernel: Oracle::new(7),
            layer: Layer::new(7),
            lent: Lent::new(),
            times: Times::default(),
            interrupted: 0,
            timed: 0,
        }
    }

    /// Puts an event to both without the clock.
    fn put(&mut self, event: &Event) {
        let (rust, port) = (self.kernel.step(event), self.layer.step(event));
        assert_eq!(rust, port, "{event}");
    }

    fn add(&mut self, rust: Duration, port: Duration) {
        self.timed += 1;
        let clock = nothing();
        if rust.max(port).max(clock) > INTERRUPTED {
            self.interrupted += 1;
            return;
        }
        self.times.rust += nanoseconds(rust) - nanoseconds(clock);
        self.times.port += nanoseconds(port) - nanoseconds(clock);
        self.times.clock += nanoseconds(clock);
        self.times.events += 1.0;
    }

    /// An event that runs on the host's thread in the kernel's code, on both, by the clock.
    fn time(&mut self, event: &Event) {
        let (_, rust) = self.kernel.timed(event);
        let port = timed(&mut self.layer, &mut self.lent, event);
        self.add(rust, port);
    }

    /// A call with its two wakes and what its driver does. `which` of them count: its entry, the
    /// wake for nothing, the wake for its reply.
    fn call(&mut self, entry: &Event, which: [bool; 3]) {
        let bit = |part: usize| u8::from(which[part]) << CALLERS_PARTS[part];
        count::only(bit(0) + bit(1) + bit(2));
        let rust = self.kernel.alone(entry);
        let parts = Parts::of(&mut self.layer, &mut self.lent, entry);
        count::only(u8::MAX);
        let rust = [rust.entered, rust.canceled, rust.handed];
        for part in 0..3 {
            if which[part] {
                self.add(rust[part], parts.caller[part]);
            }
        }
    }
}

/// The layer's own time for an event; what it is lent, and making a line of it, is left out.
fn timed(layer: &mut Layer, lent: &mut Lent, event: &Event) -> Duration {
    match event {
        Event::Open { d } => clocked!(layer.open(*d)),
        Event::Copy { d } => clocked!(layer.copy(*d)),
        Event::Drop { d } => clocked!(layer.drop_one(*d)),
        Event::Put { d, h } => clocked!(layer.put(*d, *h)),
        Event::Ended { c } => clocked!(layer.ended(*c)),
        Event::Reserve { c } => clocked!(layer.reserve(*c)),
        Event::Submit {
            tag,
            c,
            op,
            fl,
            args,
            pid,
            list,
        } => clocked!(layer.submit(*tag, *c, *op, *fl, *args, *pid, list)),
        Event::Call {
            c,
            op,
            args,
            uid,
            gid,
            pid,
            list,
        } => clocked!(layer.call(*c, *op, *args, *uid, *gid, *pid, list)),
        Event::Generic(payload) => clocked!(layer.generic(payload)),
        Event::Stdfs(payload) => clocked!(layer.stdfs(payload)),
        Event::Fmap {
            c,
            id,
            pages,
            flags,
            uid,
            gid,
            pid,
        } => clocked!(layer.fmap(*c, *id, *pages, *flags, *uid, *gid, *pid)),
        Event::Close { id } => clocked!(layer.close(*id)),
        Event::Detach { id, pid } => clocked!(layer.detach(*id, *pid)),
        Event::Wake {
            tag,
            c,
            killed,
            base,
            count,
        } => clocked!(layer.wake(*tag, *c, *killed, *base, *count)),
        Event::Read { len, flags } => {
            let out = &mut lent.out[..*len as usize];
            clocked!(layer.read(out, *flags))
        }
        Event::Write { bytes, .. } => clocked!(layer.write(&mut lent.fx, bytes)),
        Event::Move { meta, list } => clocked!(layer.move_list(meta, list)),
        Event::Obtain { meta } => clocked!(layer.obtain(meta)),
        Event::Supply {
            tag,
            offset,
            base,
            count,
        } => clocked!(layer.supply(*tag, *offset, *base, *count)),
        Event::Fdwrite { call, list } => clocked!(layer.fdwrite(call, list)),
        Event::Fdread { call, len } => clocked!(layer.fdread(call, *len)),
        Event::Front { .. } | Event::Status => panic!("{event} is no event of a run"),
    }
}

/// The layer's time in the parts of a call.
struct Parts {
    caller: [Duration; 3],
    driver: [Duration; 3],
}

/// The events of a call, as the oracle's `alone` has them: the driver reads the entry, the call is
/// woken for nothing, the driver reads the Cancel and replies, the call is woken for its reply.
fn events_of_call(entry: &Event, tag: u64, c: u32) -> [Event; 6] {
    let wake = Event::Wake {
        tag,
        c,
        killed: 0,
        base: 0,
        count: 0,
    };
    let read = Event::Read { len: 64, flags: 0 };
    let mut bytes = vec![0; 16];
    bytes[4] = tag as u8;
    bytes[8] = 7;
    let reply = Event::Write { words: 54, bytes };
    [entry.clone(), read.clone(), wake.clone(), read, reply, wake]
}

fn caller(entry: &Event) -> u32 {
    entry.caller_of_tag().expect("an event that enters a call")
}

impl Parts {
    fn of(layer: &mut Layer, lent: &mut Lent, entry: &Event) -> Parts {
        let c = caller(entry);
        // the slot that is vacant and comes next
        let tag = match entry {
            Event::Submit { tag, .. } => *tag,
            _ => 0,
        };
        let events = events_of_call(entry, tag, c);
        count::part(0);
        let [entered, read, canceled, again, replied, handed] = events.map(|event| {
            let spent = timed(layer, lent, &event);
            count::next_part();
            spent
        });
        Parts {
            caller: [entered, canceled, handed],
            driver: [read, again, replied],
        }
    }
}

/// Which of a call's six events are its caller's.
const CALLERS_PARTS: [usize; 3] = [0, 2, 5];

const ENTERED: [bool; 3] = [true, false, false];

fn call_line() -> Event {
    event("call 100 6 1 2 3 4 5 6 7 8 9 0")
}

fn fdwrite_line() -> Event {
    event("fdwrite 100 5 4096 1 1 7 8 9 0")
}

fn fdread_line() -> Event {
    event("fdread 100 5 64 16384 2 1 2 7 8 9")
}

fn payload() -> Payload {
    match event("generic 100 9 1 5 4096 64 3 1 2 3") {
        Event::Generic(payload) => payload,
        _ => unreachable!("it is one"),
    }
}

fn reply(tags: std::ops::Range<u8>) -> Event {
    let entry = |tag: u8| [0, 0, 0, 0, tag, 0, 0, 0, 7, 0, 0, 0, 0, 0, 0, 0];
    Event::Write {
        words: 54 * u64::from(tags.end - tags.start),
        bytes: tags.flat_map(entry).collect(),
    }
}

fn many(count: usize, line: &str) -> Vec<Event> {
    vec![event(line); count]
}

fn each_tag(line: &str) -> Vec<Event> {
    let of = |tag: u64| event(&line.replace("TAG", &tag.to_string()));
    (0..64).map(of).collect()
}

fn wakes() -> Vec<Event> {
    each_tag("wake TAG 100 0 0 0")
}

/// 64 calls that wait, their entries read.
fn waiting() -> Vec<Event> {
    let mut events = vec![call_line(); 64];
    events.push(event("read 4096 0"));
    events
}

/// And a description with a hold for each.
fn waiting_with_holds() -> Vec<Event> {
    let mut events = waiting();
    events.push(event("open 0"));
    events.extend(many(63, "copy 0"));
    events
}

const KINDS: [Kind; 19] = [
    Kind {
        name: "reserve",
        batch: |both| (0..64).for_each(|_| both.time(&event("reserve 1"))),
        run: || (vec![], many(64, "reserve 1")),
    },
    Kind {
        name: "submit",
        batch: |both| {
            for _ in 0..32 {
                both.put(&event("reserve 100"));
                both.call(&event("submit 0 100 6 0 1 2 3 4 5 6 9 0"), ENTERED);
            }
        },
        run: || {
            let submit = |tag| event(&format!("submit {tag} 100 6 0 1 2 3 4 5 6 9 0"));
            (many(64, "reserve 100"), (0..64).map(submit).collect())
        },
    },
    Kind {
        name: "call",
        batch: |both| (0..32).for_each(|_| both.call(&call_line(), ENTERED)),
        run: || (vec![], vec![call_line(); 64]),
    },
    Kind {
        name: "generic",
        batch: |both| {
            (0..32).for_each(|_| both.call(&Event::Generic(payload()), ENTERED));
        },
        run: || (vec![], vec![Event::Generic(payload()); 64]),
    },
    Kind {
        name: "stdfs",
        batch: |both| {
            (0..32).for_each(|_| both.call(&Event::Stdfs(payload()), ENTERED));
        },
        run: || (vec![], vec![Event::Stdfs(payload()); 64]),
    },
    Kind {
        name: "fdwrite",
        batch: |both| (0..32).for_each(|_| both.call(&fdwrite_line(), ENTERED)),
        run: || (vec![], vec![fdwrite_line(); 64]),
    },
    Kind {
        name: "fdread",
        batch: |both| (0..32).for_each(|_| both.call(&fdread_line(), ENTERED)),
        run: || (vec![], vec![fdread_line(); 64]),
    },
    Kind {
        name: "wake, still blocked",
        batch: |both| {
            (0..32).for_each(|_| both.call(&call_line(), [false, true, false]));
        },
        run: || (waiting(), wakes()),
    },
    Kind {
        name: "wake, reply",
        batch: |both| {
            (0..32).for_each(|_| both.call(&call_line(), [false, false, true]));
        },
        run: || {
            let mut before = waiting();
            before.extend((0..4).map(|part| reply(16 * part..16 * (part + 1))));
            (before, wakes())
        },
    },
    Kind {
        name: "fmap",
        batch: |both| (0..64).for_each(|_| both.time(&event("fmap 1 2 3 4 5 6 7"))),
        run: || (vec![], many(64, "fmap 1 2 3 4 5 6 7")),
    },
    Kind {
        name: "supply",
        batch: |both| {
            (0..64).for_each(|_| both.put(&event("fmap 1 2 3 4 5 6 7")));
            for tag in 0..64 {
                both.time(&event(&format!("supply {tag} 0 4096 1")));
            }
        },
        run: || {
            (
                many(64, "fmap 1 2 3 4 5 6 7"),
                each_tag("supply TAG 0 4096 1"),
            )
        },
    },
    Kind {
        name: "close",
        batch: |both| (0..128).for_each(|_| both.time(&event("close 5"))),
        run: || (vec![], many(128, "close 5")),
    },
    Kind {
        name: "detach",
        batch: |both| (0..128).for_each(|_| both.time(&event("detach 5 9"))),
        run: || (vec![], many(128, "detach 5 9")),
    },
    Kind {
        name: "read, one entry",
        batch: |both| {
            (0..128).for_each(|_| both.put(&event("close 5")));
            (0..128).for_each(|_| both.time(&event("read 64 0")));
        },
        run: || (many(128, "close 5"), many(128, "read 64 0")),
    },
    Kind {
        name: "read, 128 entries",
        batch: |both| {
            for _ in 0..4 {
                (0..128).for_each(|_| both.put(&event("close 5")));
                both.time(&event("read 8192 0"));
            }
        },
        run: || (many(128, "close 5"), many(1, "read 8192 0")),
    },
    Kind {
        name: "write, one reply",
        batch: |both| {
            waiting().iter().for_each(|event| both.put(event));
            (0..64).for_each(|tag| both.time(&reply(tag..tag + 1)));
        },
        run: || {
            let replies = (0..64).map(|tag| reply(tag..tag + 1));
            (waiting(), replies.collect())
        },
    },
    Kind {
        name: "write, 16 replies",
        batch: |both| {
            waiting().iter().for_each(|event| both.put(event));
            (0..4).for_each(|part| both.time(&reply(16 * part..16 * (part + 1))));
        },
        run: || {
            let replies = (0..4).map(|part| reply(16 * part..16 * (part + 1)));
            (waiting(), replies.collect())
        },
    },
    Kind {
        name: "move, one description",
        batch: |both| {
            waiting_with_holds()
                .iter()
                .for_each(|event| both.put(event));
            for tag in 0..64 {
                both.time(&event(&format!("move 2 1 {tag} 1 0")));
            }
        },
        run: || (waiting_with_holds(), each_tag("move 2 1 TAG 1 0")),
    },
    Kind {
        name: "obtain, one description",
        batch: |both| {
            waiting_with_holds()
                .iter()
                .for_each(|event| both.put(event));
            for tag in 0..64 {
                both.put(&event(&format!("move 2 1 {tag} 1 0")));
            }
            for tag in 0..64 {
                both.time(&event(&format!("obtain 2 0 {tag}")));
            }
        },
        run: || {
            let mut before = waiting_with_holds();
            before.extend(each_tag("move 2 1 TAG 1 0"));
            (before, each_tag("obtain 2 0 TAG"))
        },
    },
];

/// The layer alone: what the Rust leaves to its host.
const HOST: [(&str, &[&str]); 5] = [
    ("open", &["open 0"]),
    ("copy", &["open 0", "copy 0"]),
    ("drop", &["open 0", "copy 0", "drop 0"]),
    ("put", &["open 0", "put 0 0"]),
    ("ended", &["ended 1"]),
];

/// A day of several kinds, again and again. A call's events stand together, as in `alone`.
#[derive(Clone, Copy)]
enum Piece {
    Line(&'static str),
    Call,
}

const RUNS: [(&str, &[Piece]); 4] = [
    (
        "closes, read one by one",
        &[Piece::Line("close 5"), Piece::Line("read 64 0")],
    ),
    (
        "map requests and supplies",
        &[
            Piece::Line("fmap 1 2 3 4 5 6 7"),
            Piece::Line("read 64 0"),
            Piece::Line("supply 0 0 4096 1"),
        ],
    ),
    ("calls", &[Piece::Call]),
    (
        "a mixed day",
        &[
            Piece::Line("close 5"),
            Piece::Line("detach 5 9"),
            Piece::Line("read 128 0"),
            Piece::Call,
            Piece::Call,
            Piece::Line("fmap 1 2 3 4 5 6 7"),
            Piece::Line("read 64 0"),
            Piece::Line("supply 0 0 4096 1"),
            Piece::Line("write 54 02000000010000000900000000000000"),
            Piece::Call,
            Piece::Line("read 64 262144"),
        ],
    ),
];
/// A run has about so many events.
const EVENTS: usize = 600;

/// A run's time for an event on the three sides: the kernel's, the steps', the run's.
struct Ran {
    rust: f64,
    steps: f64,
    run: f64,
    events: usize,
    interrupted: u64,
}

/// These events in one run, timed the second time: the first brings it all near.
fn run_time(events: &[Event]) -> f64 {
    run_times(events, 2)
}

/// And only once.
#[cfg(feature = "count")]
fn run_once(events: &[Event]) {
    run_times(events, 1);
}

/// The time of the last of so many runs of these events.
fn run_times(events: &[Event], times: usize) -> f64 {
    let records = events.iter().map(|event| event.encode().expect("a record"));
    let bytes = records.collect::<Vec<Vec<u8>>>().concat();
    // ones, so that its pages are there before the clock runs
    let mut out = vec![1; State::BYTES + events.iter().map(Event::room).sum::<usize>()];
    let mut fx = vec![0; 54 * 16];
    let mut run = || {
        let start = Instant::now();
        count::on(Side::Run);
        let end = tilgurap::numbers::run(7, &bytes, &mut out, &mut fx);
        count::off(Side::Run);
        let spent = nanoseconds(start.elapsed());
        assert_eq!((end.number, end.place), (0, bytes.len() as u64));
        spent
    };
    (0..times).map(|_| run()).fold(0.0, |_, last| last)
}

/// What an event of that kind takes in a run: a run with them and one without.
fn run_of_kind(kind: &Kind) -> f64 {
    let (before, timed) = (kind.run)();
    let all = [&before[..], &timed[..]].concat();
    (run_time(&all) - run_time(&before)) / timed.len() as f64
}

fn run(pieces: &[Piece]) -> Ran {
    let mut both = Both::new();
    let mut events = Vec::new();
    while events.len() < EVENTS {
        for piece in pieces {
            match piece {
                Piece::Line(line) => {
                    let event = event(line);
                    both.time(&event);
                    events.push(event);
                }
                Piece::Call => {
                    let entry = call_line();
                    let rust = both.kernel.alone(&entry);
                    let port = Parts::of(&mut both.layer, &mut both.lent, &entry);
                    let rust = [rust.entered, rust.canceled, rust.handed]
                        .into_iter()
                        .chain(rust.driver);
                    let port = port.caller.into_iter().chain(port.driver);
                    rust.zip(port).for_each(|(rust, port)| both.add(rust, port));
                    events.extend(events_of_call(&entry, 0, caller(&entry)));
                }
            }
        }
    }
    let run = run_time(&events);
    Ran {
        rust: both.times.rust / both.times.events,
        steps: both.times.port / both.times.events,
        run: run / events.len() as f64,
        events: events.len(),
        interrupted: both.interrupted,
    }
}

/// The median, and the tenth and the ninetieth of a hundred.
fn spread(mut values: Vec<f64>) -> (f64, f64, f64) {
    values.sort_by(f64::total_cmp);
    let at = |of_100: usize| values[(values.len() - 1) * of_100 / 100];
    (at(50), at(10), at(90))
}

fn ratio(values: Vec<f64>) -> String {
    let (median, low, high) = spread(values);
    format!("{median:6.2} ({low:.2} to {high:.2})")
}

/// What one side runs for each kind and for the mixed day: a file of callgrind's for each, and how many events they were.
#[cfg(feature = "count")]
fn count_instructions(side: Side) {
    // what the requests themselves take
    count::start(side);
    for _ in 0..1_000 {
        count::on(side);
        count::off(side);
    }
    count::dump();
    println!("nothing\t1000");
    for kind in &KINDS {
        count::start(side);
        let events = if side == Side::Run {
            let (before, timed) = (kind.run)();
            run_once(&before);
            count::dump();
            println!("before {}\t{}", kind.name, timed.len());
            count::start(side);
            run_once(&[&before[..], &timed[..]].concat());
            timed.len() as u64
        } else {
            let mut both = Both::new();
            (kind.batch)(&mut both);
            both.timed
        };
        count::dump();
        println!("{}\t{events}", kind.name);
    }
    let (name, pieces) = RUNS[RUNS.len() - 1];
    count::start(side);
    let ran = run(pieces);
    count::dump();
    // a run is run twice, to be timed
    let times = if side == Side::Run { 2 } else { 1 };
    println!("{name}\t{}", times * ran.events);
}

fn main() {
    #[cfg(feature = "count")]
    match std::env::args().nth(1).as_deref() {
        Some("rust") => return count_instructions(Side::Rust),
        Some("steps") => return count_instructions(Side::Steps),
        Some("run") => return count_instructions(Side::Run),
        Some("instructions") => {
            let names = KINDS.iter().map(|kind| kind.name);
            let names: Vec<&str> = names.chain([RUNS[RUNS.len() - 1].0]).collect();
            compare::instructions::table(&names).expect("valgrind counts");
            return;
        }
        _ => {}
    }
    let count = 20_000;
    let over = nanoseconds(oracle::hand_overs(count)) / f64::from(count);
    println!("a thread's hand-over, there and back: {over:.0} ns, in no figure below\n");

    println!("| event | Rust ns | step ns | step / Rust | in `tilgurap_run` ns | in it / Rust |");
    println!("|---|---|---|---|---|---|");
    let mut interrupted = 0;
    let mut kinds = vec![Vec::new(); KINDS.len()];
    for _ in 0..ROUNDS {
        for (kind, rounds) in KINDS.iter().zip(&mut kinds) {
            let mut times = Times::default();
            for _ in 0..BATCHES {
                let mut both = Both::new();
                (kind.batch)(&mut both);
                times.rust += both.times.rust;
                times.port += both.times.port;
                times.clock += both.times.clock;
                times.events += both.times.events;
                interrupted += both.interrupted;
            }
            times.run = run_of_kind(kind) * times.events;
            rounds.push(times);
        }
    }
    let clock = kinds.iter().flatten();
    let clock = spread(clock.map(|times| times.clock / times.events).collect()).0;
    for (kind, rounds) in KINDS.iter().zip(kinds) {
        let of = |of: fn(&Times) -> f64| spread(rounds.iter().map(of).collect()).0;
        println!(
            "| {} | {:.0} | {:.0} | {} | {:.0} | {} |",
            kind.name,
            of(|times| times.rust / times.events),
            of(|times| times.port / times.events),
            ratio(rounds.iter().map(|times| times.port / times.rust).collect()),
            of(|times| times.run / times.events),
            ratio(rounds.iter().map(|times| times.run / times.rust).collect())
        );
    }

    println!("\n| host's event, the layer alone | port ns |");
    println!("|---|---|");
    for (name, lines) in HOST {
        let (mut rounds, mut lent) = (Vec::new(), Lent::new());
        for _ in 0..ROUNDS {
            let mut spent = 0.0;
            for _ in 0..64 {
                let mut layer = Layer::new(7);
                let (last, before) = lines.split_last().expect("an event");
                before
                    .iter()
                    .for_each(|line| drop(layer.step(&event(line))));
                spent += nanoseconds(timed(&mut layer, &mut lent, &event(last)));
                spent -= nanoseconds(nothing());
            }
            rounds.push(spent / 64.0);
        }
        println!("| {name} | {:.0} |", spread(rounds).0);
    }

    println!("\n| run | events | Rust ns an event | steps / Rust | `tilgurap_run` / Rust |");
    println!("|---|---|---|---|---|");
    let mut runs: Vec<Vec<Ran>> = RUNS.iter().map(|_| Vec::new()).collect();
    for _ in 0..ROUNDS {
        for ((_, pieces), rounds) in RUNS.iter().zip(&mut runs) {
            rounds.push(run(pieces));
        }
    }
    for ((name, _), rounds) in RUNS.iter().zip(runs) {
        let events = rounds[0].events;
        interrupted += rounds.iter().map(|ran| ran.interrupted).sum::<u64>();
        let rust = rounds.iter().map(|ran| ran.rust);
        println!(
            "| {name} | {events} | {:.0} | {} | {} |",
            spread(rust.collect()).0,
            ratio(rounds.iter().map(|ran| ran.steps / ran.rust).collect()),
            ratio(rounds.iter().map(|ran| ran.run / ran.rust).collect())
        );
    }
    println!(
        "\nreading the clock around nothing: {clock:.0} ns, taken off each event on both sides"
    );
    println!("{interrupted} events were interrupted and count on neither side");
}
