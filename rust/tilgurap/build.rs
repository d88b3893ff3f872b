// Links the static library of the layer: from the folder that TILGURAP_LIB names, or from where `./tilgurap build` puts
// it in this checkout. One that is missing, foreign or of another interface stops the build and says what to do. The library
// is asked for its number by a program of one line; where the target's programs do not run here, it is asked when a layer is made.

use std::env;
use std::fs;
use std::path::{Path, PathBuf};
use std::process::{Command, Stdio};

const LIMITS: &str = "src/limits.rs";

const PROBE: &str = r#"
unsafe extern "C" { fn tilgurap_abi() -> u64; }
fn main() { println!("{}", unsafe { tilgurap_abi() }) }
"#;

fn main() {
    println!("cargo::rerun-if-env-changed=TILGURAP_LIB");
    println!("cargo::rerun-if-changed=build.rs");
    println!("cargo::rerun-if-changed={LIMITS}");
    let named = env::var_os("TILGURAP_LIB").filter(|dir| !dir.is_empty());
    let dir = match &named {
        Some(dir) => PathBuf::from(dir),
        None => PathBuf::from(env!("CARGO_MANIFEST_DIR")).join("../../target/staticlib"),
    };
    let library = dir.join("libtilgurap.a");
    println!("cargo::rerun-if-changed={}", library.display());
    match check(&library) {
        Ok(dir) => {
            println!("cargo::rustc-link-search=native={}", dir.display());
            println!("cargo::rustc-link-lib=static=tilgurap");
        }
        Err(why) => {
            let named = if named.is_some() {
                " (TILGURAP_LIB names its folder)"
            } else {
                ""
            };
            println!("cargo::error={}{named}: {why}", library.display());
            println!(
                "cargo::error=clone the repository at the commit of this crate, run `./tilgurap build` at its top, and set TILGURAP_LIB to the absolute path of its target/staticlib (not needed where this crate is built from that clone)"
            );
        }
    }
}

/// The library's folder, or what is wrong with it.
fn check(library: &Path) -> Result<PathBuf, String> {
    let library = (library.canonicalize()).map_err(|_| "the library is missing".to_string())?;
    let dir = library
        .parent()
        .expect("a file lies in a folder")
        .to_owned();
    let bytes = fs::read(&library).map_err(|why| format!("the library cannot be read: {why}"))?;
    if !bytes.starts_with(b"!<arch>\n") {
        return Err("this is no static library".into());
    }
    if env::var("HOST") == env::var("TARGET") {
        let (ours, theirs) = (our_abi(), abi_of(&dir)?);
        if theirs != ours {
            return Err(format!(
                "the library is of another version: its interface is number {theirs}, and this crate is written for {ours}"
            ));
        }
    }
    Ok(dir)
}

/// The number in this crate's limits.
fn our_abi() -> String {
    let limits = fs::read_to_string(LIMITS).expect("the crate has its limits");
    let line = limits
        .lines()
        .find_map(|line| line.strip_prefix("pub const ABI: u64 = "));
    line.expect("the limits have the number")
        .trim_end_matches(';')
        .into()
}

/// The number that the library in this folder answers.
fn abi_of(dir: &Path) -> Result<String, String> {
    let out = PathBuf::from(env::var_os("OUT_DIR").expect("cargo sets it"));
    let (source, program) = (out.join("probe.rs"), out.join("probe"));
    fs::write(&source, PROBE)
        .map_err(|why| format!("{} cannot be written: {why}", source.display()))?;
    let mut rustc = Command::new(env::var_os("RUSTC").expect("cargo sets it"));
    rustc
        .args(["--edition=2024", "-l", "static=tilgurap", "-L"])
        .arg(dir);
    if let Some(linker) = env::var_os("RUSTC_LINKER") {
        let mut flag = std::ffi::OsString::from("linker=");
        flag.push(linker);
        rustc.arg("-C").arg(flag);
    }
    let built = (rustc
        .arg("-o")
        .arg(&program)
        .arg(&source)
        .stdin(Stdio::null())
        .output())
    .map_err(|why| format!("rustc does not run: {why}"))?;
    if !built.status.success() {
        let said = String::from_utf8_lossy(&built.stderr);
        let has = |word: &str| {
            said.lines()
                .any(|line| line.contains(word) && !line.contains("\"-l"))
        };
        if has("incompatible") {
            return Err("the library is for another machine".into());
        }
        if has("undefined") {
            return Err("the library is an old one, which does not answer its number".into());
        }
        let log = out.join("probe.log");
        fs::write(&log, &built.stderr).map_err(|why| why.to_string())?;
        return Err(format!("the library does not link: see {}", log.display()));
    }
    let asked = Command::new(&program)
        .output()
        .map_err(|why| format!("it does not run: {why}"))?;
    Ok(String::from_utf8_lossy(&asked.stdout).trim().into())
}
