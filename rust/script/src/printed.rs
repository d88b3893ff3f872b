//! What a program prints. Output that is lost ends it with status 1 and a message; a pipe that is closed at its other end, where
//! whoever reads has enough, with status 1 alone.

use std::fmt::Arguments;
use std::io::{self, BufWriter, ErrorKind, StdoutLock, Write};
use std::process::ExitCode;

/// Says why the output was lost, where that is worth a word.
fn say_lost(error: &io::Error) {
    if error.kind() != ErrorKind::BrokenPipe {
        print_error(format_args!("standard output: {error}\n"));
    }
}

/// Prints to standard output what `print` writes: success, or status 1 where some of it was lost.
pub fn print_all(print: impl FnOnce(&mut BufWriter<StdoutLock>) -> io::Result<()>) -> ExitCode {
    let mut out = BufWriter::new(io::stdout().lock());
    match print(&mut out).and_then(|()| out.flush()) {
        Ok(()) => ExitCode::SUCCESS,
        Err(error) => {
            say_lost(&error);
            ExitCode::FAILURE
        }
    }
}

/// Prints to standard output, or ends the program with status 1. What `print!` and `println!` of this crate are.
pub fn print_or_end(text: Arguments) {
    if let Err(error) = io::stdout().lock().write_fmt(text) {
        say_lost(&error);
        std::process::exit(1);
    }
}

/// Prints to standard error. A message that is lost is not worth an end. What `eprintln!` of this crate is.
pub fn print_error(text: Arguments) {
    let _ = io::stderr().lock().write_fmt(text);
}

/// As `std::print`; where the output is lost it ends the program with status 1.
#[macro_export]
macro_rules! print {
    ($($text:tt)*) => { $crate::print_or_end(format_args!($($text)*)) };
}

/// As `std::println`; where the output is lost it ends the program with status 1.
#[macro_export]
macro_rules! println {
    () => { $crate::print!("\n") };
    ($($text:tt)*) => { $crate::print!("{}\n", format_args!($($text)*)) };
}

/// As `std::eprintln`, but for a standard error that takes nothing.
#[macro_export]
macro_rules! eprintln {
    ($($text:tt)*) => { $crate::print_error(format_args!("{}\n", format_args!($($text)*))) };
}
