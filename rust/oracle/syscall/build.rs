// Names the three original files of the syscall crate to the compiler, where they lie.

use std::path::Path;
use std::{env, fs};

#[path = "../originals.rs"]
mod originals;

fn main() {
    let originals = originals::Originals::find();
    let mut text = String::new();
    for name in ["error", "flag", "schemev2"] {
        let path = originals.path(&format!("syscall/src/{name}.rs"));
        text += &format!("#[allow(warnings, clippy::all)]\n#[path = {path}]\npub mod {name};\n");
    }
    let out = env::var_os("OUT_DIR").expect("cargo sets OUT_DIR");
    fs::write(Path::new(&out).join("originals.rs"), text).expect("OUT_DIR can be written");
}
