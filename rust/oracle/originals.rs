// Finds the kernel's sources at build time, in the folder that REDOX_SRC names, and cuts whole
// lines out of them. Shared by the build scripts of this package and of syscall.

use std::path::PathBuf;
use std::{env, fs, process};

pub struct Originals(PathBuf);

/// Ends the build with a message of its own.
fn stop(what: &str) -> ! {
    println!("cargo::error={what}");
    process::exit(0);
}

impl Originals {
    pub fn find() -> Originals {
        println!("cargo::rerun-if-env-changed=REDOX_SRC");
        let Some(dir) = env::var_os("REDOX_SRC").filter(|dir| !dir.is_empty()) else {
            stop(
                "REDOX_SRC is not set: set it to the folder of the Redox kernel sources (the one that holds src/ and syscall/)",
            )
        };
        match fs::canonicalize(&dir) {
            Ok(dir) => Originals(dir),
            Err(error) => stop(&format!(
                "REDOX_SRC names {}, which can't be opened ({error}): set it to the folder of the Redox kernel sources (the one that holds src/ and syscall/)",
                dir.display()
            )),
        }
    }

    /// The absolute path of a file that is there, as a string literal.
    pub fn path(&self, name: &str) -> String {
        let path = self.0.join(name);
        println!("cargo::rerun-if-changed={}", path.display());
        if !path.is_file() {
            stop(&format!(
                "{} is missing: set REDOX_SRC to the folder of the Redox kernel sources (the one that holds src/ and syscall/)",
                path.display()
            ));
        }
        format!("{:?}", path.display().to_string())
    }

    #[allow(dead_code)]
    pub fn lines(&self, name: &str) -> Lines {
        self.path(name);
        match fs::read_to_string(self.0.join(name)) {
            Ok(text) => Lines {
                name: name.to_owned(),
                lines: text.lines().map(str::to_owned).collect(),
            },
            Err(error) => stop(&format!("{name} can't be read: {error}")),
        }
    }
}

/// The lines of one original.
#[allow(dead_code)]
pub struct Lines {
    name: String,
    lines: Vec<String>,
}

#[allow(dead_code)]
impl Lines {
    /// Where the item begins whose first line begins with `sign`: there, or at the comments and
    /// attributes right above.
    fn start(&self, sign: &str) -> (usize, usize) {
        let found = self
            .lines
            .iter()
            .position(|line| line.trim_start().starts_with(sign));
        let Some(at) = found else {
            stop(&format!("{} has no line `{sign}`", self.name))
        };
        let above = self.lines[..at].iter().rev().take_while(|line| {
            let line = line.trim_start();
            line.starts_with("#[") || line.starts_with("//")
        });
        (at - above.count(), at)
    }

    /// The whole lines of that item, down to the brace that closes it.
    pub fn item(&self, sign: &str) -> String {
        let (start, at) = self.start(sign);
        let line = &self.lines[at];
        let close = format!("{}}}", &line[..line.len() - line.trim_start().len()]);
        match self.lines[at..].iter().position(|line| *line == close) {
            Some(length) => self.lines[start..=at + length].join("\n") + "\n",
            None => stop(&format!("{}: `{sign}` is not closed", self.name)),
        }
    }

    /// The one line that begins so.
    pub fn line(&self, sign: &str) -> String {
        format!("{}\n", self.lines[self.start(sign).1])
    }

    /// The whole lines from that item to the end.
    pub fn rest(&self, sign: &str) -> String {
        self.lines[self.start(sign).0..].join("\n") + "\n"
    }
}
