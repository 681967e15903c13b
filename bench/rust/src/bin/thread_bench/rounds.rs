//! The rounds of each workload, which each thread does. A round that isn't done in full ends the thread's work.
//!
//! Each function answers how many requests it made.

use crate::fault::Fault;
use crate::site::{self, admits, Site};
use tracing_core::callsite::DefaultCallsite;
use tracing_core::span::Attributes;
use tracing_core::{metadata, Event, Kind, Level, LevelFilter, Metadata, Subscriber};

/// The callsite of the events that the hint rules out.
static PAST_HINT: DefaultCallsite = DefaultCallsite::new(&PAST_HINT_METADATA);

static PAST_HINT_METADATA: Metadata<'static> = metadata! {
    name: "detail",
    target: "bench",
    level: Level::DEBUG,
    fields: &[],
    callsite: &PAST_HINT,
    kind: Kind::EVENT,
};

/// Each round sends an event.
pub fn event<S: Subscriber>(stack: &S, rounds: u32) -> Result<u64, Fault> {
    let sites = site::events(1);
    let site = sites.first().ok_or(Fault::Undone)?;
    for _ in 0..rounds {
        if !sent(stack, site) {
            return Err(Fault::Undone);
        }
    }
    Ok(u64::from(rounds))
}

/// Each round opens a span and drops it.
pub fn new_and_drop<S: Subscriber>(stack: &S, rounds: u32) -> Result<u64, Fault> {
    let site = &site::SPANS[0];
    for _ in 0..rounds {
        if !admits(stack, site) {
            return Err(Fault::Undone);
        }
        let values = site.metadata.fields().value_set(&[]);
        let id = stack.new_span(&Attributes::new(site.metadata, &values));
        if !stack.try_close(id) {
            return Err(Fault::Undone);
        }
    }
    Ok(2 * u64::from(rounds))
}

/// Each round asks the receiver for an event that the hint rules out.
pub fn event_past_hint<S: Subscriber>(stack: &S, rounds: u32) -> Result<u64, Fault> {
    for _ in 0..rounds {
        if stack.enabled(&PAST_HINT_METADATA) {
            return Err(Fault::Undone);
        }
    }
    Ok(u64::from(rounds))
}

/// Each round asks by the hint that the crate keeps, as the macros do first.
pub fn passes_hint(rounds: u32) -> Result<u64, Fault> {
    for _ in 0..rounds {
        if *PAST_HINT_METADATA.level() <= LevelFilter::current() {
            return Err(Fault::Undone);
        }
    }
    Ok(0)
}

/// Sends an event, unless nobody wants it, as the macros and `Dispatch::event` do.
#[inline(always)]
fn sent<S: Subscriber>(stack: &S, site: &Site) -> bool {
    if !admits(stack, site) {
        return false;
    }
    let values = site.metadata.fields().value_set(&[]);
    let event = Event::new(site.metadata, &values);
    if !stack.event_enabled(&event) {
        return false;
    }
    stack.event(&event);
    true
}
