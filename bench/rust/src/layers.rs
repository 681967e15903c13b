//! The layers that workloads run on.

use crate::counter::Counter;
use tracing_core::LevelFilter;
use tracing_subscriber::filter::{EnvFilter, Filtered};
use tracing_subscriber::layer::{Layer, Layered};
use tracing_subscriber::Registry;

/// Two layers that count.
pub type Pair = Layered<Counter, Counter, Registry>;

/// A list of layers that count, each under a level, up to 64. Each passes what the workloads make.
pub fn filtered(count: u32) -> Vec<Filtered<Counter, LevelFilter, Registry>> {
    (0..count)
        .map(|_| Counter::new().with_filter(LevelFilter::INFO))
        .collect()
}

/// A layer that counts, under a filter of directives for so many targets. The last lets by what the workloads make.
pub fn directed(count: u32) -> Filtered<Counter, EnvFilter, Registry> {
    let mut text = String::new();
    for number in 1..count {
        text.push_str(&format!("my_server::module_{number}=warn,"));
    }
    text.push_str("my_server=info");
    Counter::new().with_filter(EnvFilter::new(text))
}

/// A list of layers that count.
pub fn listed(count: u32) -> Vec<Counter> {
    (0..count).map(|_| Counter::new()).collect()
}

/// Four layers that count.
pub fn four() -> Layered<Pair, Pair, Registry> {
    let two = Counter::new().and_then(Counter::new());
    two.and_then(Counter::new().and_then(Counter::new()))
}
