//! A description's holds up to their limit, which no run of a few hundred events reaches.

use reasons::Tally;
use script::Event;
use tilgurap::numbers::Layer;

use crate::beside::{Beside, Taken};

const HOLDS: u64 = 65_535;

/// Copies one description's hold until the limit: the kernel has none, the layer says 207.
pub fn compare() -> Result<(u64, Tally), String> {
    let mut beside = Beside::new(7, Layer::new(7), reasons::ALL);
    let (open, copy) = (Event::Open { d: 0 }, Event::Copy { d: 0 });
    let mut compared = 0;
    for place in 0..=HOLDS {
        let event = if place == 0 { &open } else { &copy };
        let taken = beside.step(event);
        match taken.map_err(|what| format!("hold {place}\n{what}"))? {
            Taken::Same(_) => compared += 1,
            _ if place == HOLDS => {}
            _ => return Err(format!("hold {place}: it is not compared")),
        }
    }
    Ok((compared, beside.shown().clone()))
}
