//! The layer that the threads' receiver has.

use std::cell::Cell;
use std::sync::atomic::{AtomicU64, Ordering};

use tracing_core::span::{Attributes, Id, Record};
use tracing_core::{Event, Subscriber};
use tracing_subscriber::layer::{Context, Layer};

thread_local! {
    static LANE: Cell<usize> = const { Cell::new(0) };
}

/// Names the number that this thread counts in, where each has its own.
pub fn set_lane(lane: usize) {
    LANE.with(|own| own.set(lane));
}

/// What notices are counted in.
pub trait Count: Default + Send + Sync + 'static {
    /// Adds one.
    fn add_one(&self);

    /// What all threads added.
    fn total(&self) -> u64;
}

/// One number that all threads add to.
#[derive(Default)]
pub struct One(AtomicU64);

impl Count for One {
    fn add_one(&self) {
        self.0.fetch_add(1, Ordering::Relaxed);
    }

    fn total(&self) -> u64 {
        self.0.load(Ordering::Relaxed)
    }
}

/// A number that lies apart from others.
#[derive(Default)]
#[repr(align(128))]
struct Apart(AtomicU64);

/// A number for each of four threads.
#[derive(Default)]
pub struct Own([Apart; 4]);

impl Count for Own {
    /// (two steps, since no other thread writes this number)
    fn add_one(&self) {
        let own = &self.0[LANE.with(Cell::get) % 4].0;
        let notices = own.load(Ordering::Relaxed);
        own.store(notices.saturating_add(1), Ordering::Relaxed);
    }

    fn total(&self) -> u64 {
        self.0.iter().map(|own| own.0.load(Ordering::Relaxed)).sum()
    }
}

/// Counts what it is notified of.
#[derive(Default)]
pub struct Counter<C> {
    notices: C,
}

impl<C: Count> Counter<C> {
    /// How many notices it counted.
    pub fn notices(&self) -> u64 {
        self.notices.total()
    }
}

impl<C: Count, S: Subscriber> Layer<S> for Counter<C> {
    fn on_new_span(&self, _attrs: &Attributes<'_>, _id: &Id, _ctx: Context<'_, S>) {
        self.notices.add_one();
    }

    fn on_record(&self, _id: &Id, _values: &Record<'_>, _ctx: Context<'_, S>) {
        self.notices.add_one();
    }

    fn on_follows_from(&self, _id: &Id, _follows: &Id, _ctx: Context<'_, S>) {
        self.notices.add_one();
    }

    fn on_event(&self, _event: &Event<'_>, _ctx: Context<'_, S>) {
        self.notices.add_one();
    }

    fn on_enter(&self, _id: &Id, _ctx: Context<'_, S>) {
        self.notices.add_one();
    }

    fn on_exit(&self, _id: &Id, _ctx: Context<'_, S>) {
        self.notices.add_one();
    }

    fn on_close(&self, _id: Id, _ctx: Context<'_, S>) {
        self.notices.add_one();
    }
}
