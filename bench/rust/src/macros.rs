//! The rounds of workloads by the macros of `tracing`, each with a callsite of its own, through the thread's default dispatcher.

use tracing::{event, span, Level};

/// Each round opens a span and drops it.
pub fn new_and_drop(rounds: u32) -> u32 {
    let mut done = 0;
    for _ in 0..rounds {
        drop(span!(target: "my_server::connection::headers", Level::INFO, "read_one_header"));
        done += 1;
    }
    done
}

/// Each round enters a span and leaves it.
pub fn enter_and_exit(rounds: u32) -> u32 {
    let span = span!(target: "my_server::connection::headers", Level::INFO, "read_one_header");
    let mut done = 0;
    for _ in 0..rounds {
        drop(span.enter());
        done += 1;
    }
    done
}

/// Each round sends an event.
pub fn event(rounds: u32) -> u32 {
    let mut done = 0;
    for _ in 0..rounds {
        event!(target: "my_server::connection::headers", Level::INFO, {});
        done += 1;
    }
    done
}

/// Each round sends an event with a number and a text.
pub fn values(rounds: u32) -> u32 {
    let mut done = 0;
    for _ in 0..rounds {
        event!(target: "my_server::connection::headers", Level::INFO, bytes = done, method = "get");
        done += 1;
    }
    done
}

/// Each round sends an event with a number and a text, of a level that the hint rules out.
pub fn above_hint(rounds: u32) -> u32 {
    let mut done = 0;
    for _ in 0..rounds {
        event!(target: "my_server::connection::headers", Level::TRACE, bytes = done, method = "get");
        done += 1;
    }
    done
}

/// Each round opens a span with a number, enters it, leaves it and drops its handle.
pub fn guarded(rounds: u32) -> u32 {
    let mut done = 0;
    for _ in 0..rounds {
        let span = span!(target: "my_server::connection::headers", Level::INFO, "read_one_header", bytes = done);
        drop(span.entered());
        done += 1;
    }
    done
}
