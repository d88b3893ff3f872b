//! The layer with something changed around it; the proved code itself stays as it is.

use compare::port::Port;
use script::{Event, Line};
use tilgurap::numbers::Layer;

/// The event is answered by the change and never reaches the layer, unless it says nothing.
pub type Before = fn(&mut Layer, &Event) -> Option<Line>;
/// What comes after: the layer before the event, and now.
pub type After = fn(&Layer, &mut Layer, &Event, &mut Line);

pub const NOT_BEFORE: Before = |_, _| None;
pub const NOT_AFTER: After = |_, _, _, _| {};

#[derive(Clone)]
pub struct Changed {
    layer: Layer,
    before: Before,
    after: After,
}

impl Changed {
    pub fn new(scheme: u64, before: Before, after: After) -> Changed {
        Changed {
            layer: Layer::new(scheme),
            before,
            after,
        }
    }
}

impl Port for Changed {
    fn step(&mut self, event: &Event) -> Result<Line, String> {
        let before = self.layer.clone();
        if let Some(line) = (self.before)(&mut self.layer, event) {
            return Ok(line);
        }
        let mut line = Port::step(&mut self.layer, event)?;
        (self.after)(&before, &mut self.layer, event, &mut line);
        Ok(line)
    }

    fn layer(&self) -> &Layer {
        &self.layer
    }
}
