//! The rounds of each workload. A round that isn't done in full ends the run.

use crate::fault::Fault;
use crate::site::{self, admits, Site};
use tracing_core::span::{Attributes, Id};
use tracing_core::{Event, Subscriber};
use tracing_subscriber::registry::LookupSpan;

/// How many callsites the spans of a workload have.
const CALLSITES: u32 = 10;

/// A registry, or layers on one.
pub trait Stack: Subscriber + for<'a> LookupSpan<'a> + Send + Sync + 'static {}

impl<S: Subscriber + for<'a> LookupSpan<'a> + Send + Sync + 'static> Stack for S {}

/// Each round opens a span and drops it. So many others are open.
pub fn new_and_drop<S: Stack>(stack: &S, others: u32, rounds: u32) -> Result<u32, Fault> {
    open_all(stack, others)?;
    let mut turn = 0;
    let mut done = 0;
    for _ in 0..rounds {
        let site = site::SPANS.get(turn as usize).ok_or(Fault::Undone)?;
        let id = contextual(stack, site)?;
        close(stack, id)?;
        turn = after(turn, CALLSITES);
        done += 1;
    }
    Ok(done)
}

/// Each round enters a span and leaves it. (a thread has one stack of entered spans)
pub fn enter_and_exit<S: Stack>(stack: &S, rounds: u32) -> Result<u32, Fault> {
    let id = contextual(stack, &site::SPANS[0])?;
    let mut done = 0;
    for _ in 0..rounds {
        stack.enter(&id);
        stack.exit(&id);
        done += 1;
    }
    Ok(done)
}

/// Each round sends an event from the next of so many callsites.
pub fn event<S: Stack>(stack: &S, callsites: u32, rounds: u32) -> Result<u32, Fault> {
    let table = site::events(callsites);
    let mut turn = 0;
    let mut done = 0;
    for _ in 0..rounds {
        let site = table.get(turn as usize).ok_or(Fault::Undone)?;
        if !sent(stack, site) {
            return Err(Fault::Undone);
        }
        turn = after(turn, callsites);
        done += 1;
    }
    Ok(done)
}

/// Each round opens a chain of so many spans, and drops their handles, the deepest span's last.
pub fn cascade<S: Stack>(stack: &S, depth: u32, rounds: u32) -> Result<u32, Fault> {
    let mut done = 0;
    for _ in 0..rounds {
        let chain = chain(stack, depth)?;
        drop_all(stack, &chain)?;
        done += 1;
    }
    Ok(done)
}

/// Each round walks through a chain of so many spans, the deepest first.
pub fn scope<S: Stack>(stack: &S, depth: u32, rounds: u32) -> Result<u32, Fault> {
    let deepest = deepest_of(&chain(stack, depth)?)?;
    let mut done = 0;
    for _ in 0..rounds {
        if walked(stack, &deepest) != depth {
            return Err(Fault::Undone);
        }
        done += 1;
    }
    Ok(done)
}

/// Each round walks through a chain of so many spans, the root first.
pub fn from_root<S: Stack>(stack: &S, depth: u32, rounds: u32) -> Result<u32, Fault> {
    let deepest = deepest_of(&chain(stack, depth)?)?;
    let mut done = 0;
    for _ in 0..rounds {
        if walked_from_root(stack, &deepest) != depth {
            return Err(Fault::Undone);
        }
        done += 1;
    }
    Ok(done)
}

/// Each round keeps a number with the next of so many spans, in place of the one before.
pub fn replace<S: Stack>(stack: &S, spans: u32, rounds: u32) -> Result<u32, Fault> {
    let chain = chain(stack, spans)?;
    for id in &chain {
        replaced(stack, id, 0)?;
    }
    let mut turn = 0;
    let mut done = 0;
    for round in 0..rounds {
        let id = chain.get(turn as usize).ok_or(Fault::Undone)?;
        if replaced(stack, id, u64::from(round))?.is_none() {
            return Err(Fault::Undone);
        }
        turn = after(turn, spans);
        done += 1;
    }
    Ok(done)
}

/// The turn after this one, of so many.
#[inline(always)]
fn after(turn: u32, turns: u32) -> u32 {
    match turn.checked_add(1) {
        Some(next) if next < turns => next,
        _ => 0,
    }
}

/// Opens so many spans, from the callsites of a table in turn.
fn open_all<S: Stack>(stack: &S, count: u32) -> Result<(), Fault> {
    let mut turn = 0;
    for _ in 0..count {
        let site = site::SPANS.get(turn as usize).ok_or(Fault::Undone)?;
        contextual(stack, site)?;
        turn = after(turn, CALLSITES);
    }
    Ok(())
}

/// Opens a span in the one that the thread is in.
#[inline(always)]
fn contextual<S: Stack>(stack: &S, site: &Site) -> Result<Id, Fault> {
    let values = site.metadata.fields().value_set(&[]);
    opened(stack, site, &Attributes::new(site.metadata, &values))
}

/// Opens a span, unless nobody wants it.
#[inline(always)]
fn opened<S: Stack>(stack: &S, site: &Site, attrs: &Attributes<'_>) -> Result<Id, Fault> {
    if !admits(stack, site) {
        return Err(Fault::Undone);
    }
    Ok(stack.new_span(attrs))
}

/// Sends an event, unless nobody wants it, as the macros and `Dispatch::event` do.
fn sent<S: Stack>(stack: &S, site: &Site) -> bool {
    if !admits(stack, site) {
        return false;
    }
    let values = site.metadata.fields().value_set(&[]);
    let event = Event::new(site.metadata, &values);
    if !stack.event_enabled(&event) {
        return false;
    }
    stack.event(&event);
    true
}

/// Drops the last handle of a span that has no child.
#[inline(always)]
fn close<S: Stack>(stack: &S, id: Id) -> Result<(), Fault> {
    if stack.try_close(id) {
        return Ok(());
    }
    Err(Fault::Undone)
}

/// Opens a chain of so many spans, each in the one before, from the callsites of a table in turn.
fn chain<S: Stack>(stack: &S, depth: u32) -> Result<Vec<Id>, Fault> {
    let root = site::SPANS.first().ok_or(Fault::Undone)?;
    let values = root.metadata.fields().value_set(&[]);
    let mut last = opened(stack, root, &Attributes::new_root(root.metadata, &values))?;
    let mut chain = Vec::new();
    chain.push(last.clone());
    let mut turn = 0;
    for _ in 1..depth {
        turn = after(turn, CALLSITES);
        let site = site::SPANS.get(turn as usize).ok_or(Fault::Undone)?;
        let values = site.metadata.fields().value_set(&[]);
        let attrs = Attributes::child_of(last, site.metadata, &values);
        last = opened(stack, site, &attrs)?;
        chain.push(last.clone());
    }
    Ok(chain)
}

/// The last span of a chain.
fn deepest_of(chain: &[Id]) -> Result<Id, Fault> {
    chain.last().cloned().ok_or(Fault::Undone)
}

/// Drops the handles of a chain. All of its spans close with the last.
fn drop_all<S: Stack>(stack: &S, chain: &[Id]) -> Result<(), Fault> {
    let (deepest, above) = chain.split_last().ok_or(Fault::Undone)?;
    for id in above {
        if stack.try_close(id.clone()) {
            return Err(Fault::Undone);
        }
    }
    close(stack, deepest.clone())
}

/// How many spans there are from this one up to its root.
fn walked<S: Stack>(stack: &S, id: &Id) -> u32 {
    let span = match stack.span(id) {
        Some(span) => span,
        None => return 0,
    };
    let mut count = 0u32;
    for _each in span.scope() {
        count = count.saturating_add(1);
    }
    count
}

/// The same, counted from the root.
fn walked_from_root<S: Stack>(stack: &S, id: &Id) -> u32 {
    let span = match stack.span(id) {
        Some(span) => span,
        None => return 0,
    };
    let mut count = 0u32;
    for _each in span.scope().from_root() {
        count = count.saturating_add(1);
    }
    count
}

/// Keeps a number with a span. Answers the one before.
fn replaced<S: Stack>(stack: &S, id: &Id, number: u64) -> Result<Option<u64>, Fault> {
    let span = stack.span(id).ok_or(Fault::Undone)?;
    let before = span.extensions_mut().replace(number);
    Ok(before)
}
