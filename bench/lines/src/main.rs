//! The rounds of `crates/span_lines` by the crate's own formats, whose lines nobody keeps: of a line of input with a format, a work and
//! a number.

use std::io::{self, Read};

use tracing::{info, info_span};
use tracing_subscriber::filter::LevelFilter;
use tracing_subscriber::layer::{Layer, SubscriberExt};
use tracing_subscriber::{fmt, Registry};

const BY: &str = "a text of some length";

fn main() {
    let mut text = String::new();
    io::stdin().read_to_string(&mut text).expect("input");
    let words: Vec<&str> = text.split_whitespace().collect();
    let [format, work, rounds] = words[..] else {
        panic!("a line is not FORMAT WORK ROUNDS");
    };
    let rounds = rounds.parse().expect("a number");
    let layer = || fmt::layer().with_ansi(false).with_writer(io::sink);
    match format {
        "full" => served(layer().without_time(), work, rounds),
        "full_time" => served(layer(), work, rounds),
        "compact" => served(layer().compact().without_time(), work, rounds),
        "pretty" => served(layer().pretty().with_ansi(false).without_time(), work, rounds),
        "json" => served(layer().json(), work, rounds),
        _ => panic!("no format is called {format}"),
    }
}

/// Does the rounds on a layer under a level.
fn served<L: Layer<Registry> + Send + Sync>(layer: L, work: &str, rounds: u64) {
    let stack = Registry::default().with(layer.with_filter(LevelFilter::INFO));
    tracing::subscriber::with_default(stack, || done(work, rounds));
}

/// Does so many rounds of a work.
fn done(work: &str, rounds: u64) {
    match work {
        "event" => events(rounds),
        "deep" => {
            let _outer = info_span!("outer", depth = 1).entered();
            let _middle = info_span!("middle", depth = 2).entered();
            let _inner = info_span!("inner", depth = 3).entered();
            events(rounds);
        }
        "span" => {
            for count in 0..rounds {
                let _span = info_span!("work", count, flag = true, by = BY).entered();
                info!(count, by = BY, "done");
            }
        }
        _ => panic!("no work is called {work}"),
    }
}

/// So many events.
fn events(rounds: u64) {
    for count in 0..rounds {
        info!(count, by = BY, "done");
    }
}
