// Hands the original files to the compiler: whole ones where they lie, and of three more some
// whole lines.

use std::path::Path;
use std::{env, fs};

mod originals;

use originals::Originals;

fn main() {
    let originals = Originals::find();
    let out = env::var_os("OUT_DIR").expect("cargo sets OUT_DIR");
    let put = |name: &str, text: String| {
        fs::write(Path::new(&out).join(name), text).expect("OUT_DIR can be written");
    };
    let include = |name: &str| format!("include!({});\n", originals.path(name));
    let module = |name: &str, file: &str| {
        let path = originals.path(file);
        format!("#[allow(warnings, clippy::all)]\n#[path = {path}]\npub mod {name};\n")
    };

    put("user.rs", include("src/scheme/user.rs"));
    put("wait_queue.rs", include("src/sync/wait_queue.rs"));
    put(
        "wait_condition.rs",
        module("wait_condition", "src/sync/wait_condition.rs"),
    );
    put("file.rs", module("file", "src/context/file.rs"));
    put("context.rs", context(&originals));
    put("memory.rs", memory(&originals));
    put("scheme.rs", scheme(&originals));
}

/// A context's status, the methods of `Context` that reach its status or its files, and the file
/// table down to the end of the file.
fn context(originals: &Originals) -> String {
    let lines = originals.lines("src/context/context.rs");
    let mut text = String::new();
    for sign in [
        "pub enum Status {",
        "impl Status {",
        "pub enum HardBlockedReason {",
    ] {
        text += &lines.item(sign);
    }
    text += "impl Context {\n";
    for sign in [
        "pub fn block(",
        "pub fn unblock_no_ipi(",
        "pub fn bulk_insert_files(",
        "pub fn insert_file(",
        "pub fn remove_file(",
        "pub fn addr_space(",
        "pub fn caller_ctx(",
    ] {
        text += &lines.item(sign);
    }
    text += "}\n";
    text + &lines.rest("pub struct FdTbl {")
}

/// Types of address spaces that only hold something.
fn memory(originals: &Originals) -> String {
    let lines = originals.lines("src/context/memory.rs");
    [
        lines.item("pub struct GrantFileRef {"),
        lines.line("pub const DANGLING:"),
        lines.item("pub enum MmapMode {"),
        lines.item("pub struct BorrowedFmapSource<'a> {"),
    ]
    .concat()
}

/// What a scheme is to the kernel.
fn scheme(originals: &Originals) -> String {
    let lines = originals.lines("src/scheme/mod.rs");
    [
        "pub enum StrOrBytes<'a> {",
        "impl<'a> StrOrBytes<'a> {",
        "pub enum KernelSchemes {",
        "impl KernelSchemes {",
        "impl core::ops::Deref for KernelSchemes {",
        "pub trait SchemeExt {",
        "pub trait KernelScheme:",
        "pub enum OpenResult {",
        "pub struct CallerCtx {",
    ]
    .map(|sign| lines.item(sign))
    .concat()
}
