//! The layer's run of a script, and what the reasons expect of both sides.

use std::convert::Infallible;
use std::path::{Path, PathBuf};

use reasons::{ALL, Expected, Table, steps};
use script::Script;
use tilgurap::numbers::Layer;

pub fn repository(path: &str) -> PathBuf {
    Path::new(env!("CARGO_MANIFEST_DIR"))
        .join("../..")
        .join(path)
}

/// What the reasons expect of both sides, and which of them showed, event by event.
pub fn expected(script: &Script) -> Vec<Expected<'static>> {
    let (mut layer, mut table) = (Layer::new(script.scheme), Table::new());
    let mut all: Vec<Expected> = Vec::new();
    for event in &script.events {
        let before = layer.state();
        let steps = steps(event, before, |event| {
            let line = layer.step(event);
            Ok::<_, Infallible>((line, layer.state()))
        });
        let Ok(steps) = steps;
        let expected = Expected::new(ALL, &table, event, &steps);
        let expected = expected.unwrap_or_else(|what| panic!("{event}\n{what}"));
        table.learn(event, &expected.layer.line);
        all.push(expected);
    }
    all
}
