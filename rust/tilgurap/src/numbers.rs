//! The events, answers and readings in an event script's numbers, for the tools that run scripts:
//! any number can be handed over here, also one that the types of this crate rule out.

mod layer;
mod readings;
mod script_steps;

use crate::ffi;

pub use crate::ffi::{Cqe, RunEnd, Sqe};
pub use layer::{Layer, Outcome};
pub use readings::{
    Opened, cqe, cqe_bytes, demux, front, into_regular, kdup, kopenat, mux_error, parse_cqe,
    read_call_generic, sqe, sqe_bytes,
};
pub use script_steps::run_script;

/// The state's fields.
#[cfg(feature = "parts")]
pub mod parts {
    pub use crate::ffi::{Reply, Slot, State};
}

/// Runs the events in these bytes from a fresh state, as docs/FORMAT.md says.
pub fn run(scheme: u64, events: &[u8], out: &mut [u8], fx: &mut [u64]) -> RunEnd {
    // SAFETY: each pointer comes from the slice whose length goes with it.
    unsafe {
        ffi::tilgurap_run(
            scheme,
            events.as_ptr(),
            events.len(),
            out.as_mut_ptr(),
            out.len(),
            fx.as_mut_ptr(),
            fx.len(),
        )
    }
}
