//! Threads, and the receiver that they share.

use crate::counter::{set_lane, Count, Counter};
use crate::fault::Fault;
use crate::order::Order;
use crate::receiver::{receiver, Stack};
use crate::rounds;
use crate::workload::Workload;
use std::thread::{Builder, ScopedJoinHandle};
use tracing_core::dispatcher::{set_default, Dispatch};

/// What was asked of a receiver.
pub struct Tally {
    /// How many requests the threads made.
    pub requests: u64,
    /// How many notices its layer counted.
    pub notices: u64,
}

/// A layer that can say what it counted.
pub trait Counts {
    /// Does an order, on a receiver of its own.
    fn done(order: Order) -> Result<Tally, Fault>;
}

impl<C: Count> Counts for Counter<C> {
    fn done(order: Order) -> Result<Tally, Fault> {
        let dispatch = receiver::<Counter<C>>();
        let requests = shared_by::<C>(&dispatch, order)?;
        let layer = dispatch.downcast_ref::<Counter<C>>().ok_or(Fault::Undone)?;
        Ok(Tally {
            requests,
            notices: layer.notices(),
        })
    }
}

/// Lets threads share a dispatcher. Answers how many requests they made.
fn shared_by<C: Count>(dispatch: &Dispatch, order: Order) -> Result<u64, Fault> {
    std::thread::scope(|scope| {
        let mut threads = Vec::new();
        for lane in 0..order.threads {
            let thread = Builder::new()
                .spawn_scoped(scope, move || work::<C>(dispatch, lane as usize, order))
                .map_err(|_| Fault::NoThread)?;
            threads.push(thread);
        }
        joined(threads)
    })
}

/// Waits for the threads. Answers how many requests they made.
fn joined(threads: Vec<ScopedJoinHandle<'_, Result<u64, Fault>>>) -> Result<u64, Fault> {
    let mut requests = 0;
    for thread in threads {
        requests += thread.join().map_err(|_| Fault::Undone)??;
    }
    Ok(requests)
}

/// A thread's whole work.
///
/// The dispatcher is its default: by that the crate closes parents. All other calls go to the stack itself.
fn work<C: Count>(dispatch: &Dispatch, lane: usize, order: Order) -> Result<u64, Fault> {
    set_lane(lane);
    let _default = set_default(dispatch);
    let stack = dispatch
        .downcast_ref::<Stack<Counter<C>>>()
        .ok_or(Fault::Undone)?;
    match order.workload {
        Workload::Event | Workload::TracedEvent => rounds::event(stack, order.rounds),
        Workload::NewAndDrop | Workload::TracedSpan => {
            rounds::new_and_drop(stack, order.rounds)
        }
        Workload::EventPastHint => rounds::event_past_hint(stack, order.rounds),
        Workload::PassesHint => rounds::passes_hint(order.rounds),
    }
}
