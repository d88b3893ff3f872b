//! Many runs with many blocked callers in one process: a run answers the same each time, whoever
//! runs beside it, and leaves nothing behind.

use std::thread;

use oracle::run;
use script::Script;

/// Numbers that look drawn, the same for the same seed.
struct Draw(u64);

impl Draw {
    fn below(&mut self, bound: u64) -> u64 {
        self.0 ^= self.0 << 13;
        self.0 ^= self.0 >> 7;
        self.0 ^= self.0 << 17;
        self.0 % bound
    }
}

fn line(draw: &mut Draw) -> String {
    let (d, c, tag) = (draw.below(4), 1 + draw.below(3), draw.below(12));
    match draw.below(27) {
        0 => format!("open {d}"),
        1 | 2 => format!("copy {d}"),
        3 => format!("put {d} {}", draw.below(4)),
        4 if draw.below(4) == 0 => format!("ended {c}"),
        5 => format!("reserve {c}"),
        6 => format!("submit {tag} {c} 6 0 1 2 3 4 5 6 7 1 {d}"),
        7..=9 => format!("call {c} 6 1 2 3 4 5 6 7 8 9 0"),
        10 => format!("call {c} 6 1 2 3 4 5 6 7 8 9 2 {d} {d}"),
        11 => format!("generic {c} 9 1 5 4096 1 0"),
        12 => format!("stdfs {c} 9 1 5 4096 1 3 1 2 3"),
        13 => format!("fmap {c} 1 2 3 4 5 6"),
        14 => format!("supply {tag} 0 0 1"),
        15 => format!("move 2 1 {tag} 1 {d}"),
        16 => format!("obtain 2 0 {tag}"),
        17 => format!("read {} 262144", 64 * draw.below(4)),
        18..=20 => format!("wake {tag} {c} {} 5 1", draw.below(4) / 3),
        21 => format!("fdwrite {c} 1 4096 1 2 3 4 5 1 {d}"),
        22 => format!("fdread {c} 1 {} 16384 0 3 4 5", 4 * draw.below(5)),
        23 => format!("front fdread many 1 {d}"),
        _ => {
            let (kind, word) = (draw.below(6), draw.below(4));
            format!("write 54 {kind:02x}000000{tag:02x}000000{word:02x}00000000000000")
        }
    }
}

fn script(seed: u64) -> Script {
    let mut draw = Draw(0x9e37_79b9_7f4a_7c15 ^ seed);
    let lines: Vec<String> = (0..300).map(|_| line(&mut draw)).collect();
    Script::parse(&format!("scheme 7\n{}\n", lines.join("\n"))).expect("a script")
}

#[test]
fn a_run_answers_the_same_each_time() {
    let scripts: Vec<Script> = (0..100).map(script).collect();
    let all = || -> Vec<_> { scripts.iter().map(run).collect() };
    let first = all();
    thread::scope(|scope| {
        let beside = [scope.spawn(all), scope.spawn(all)];
        for again in beside {
            assert_eq!(again.join().expect("the runs end"), first);
        }
    });
}
