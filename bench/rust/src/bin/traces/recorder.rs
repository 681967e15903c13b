//! A layer that keeps what it is notified of.

use std::sync::{Arc, Mutex, MutexGuard, PoisonError};
use tracing_core::span::{Attributes, Id, Record};
use tracing_core::{Event, Subscriber};
use tracing_subscriber::layer::{Context, Layer};

/// What a recorder keeps of a notice: the numbers of ids, and an event's callsite.
#[derive(Clone, Copy)]
pub enum Notice {
    New(u64),
    Record(u64),
    Follows(u64, u64),
    Event(&'static str),
    Enter(u64),
    Exit(u64),
    IdChange(u64, u64),
    Close(u64),
}

/// A recorder. Copies share what they keep.
#[derive(Clone, Default)]
pub struct Recorder {
    kept: Arc<Mutex<Vec<Notice>>>,
}

impl Recorder {
    /// What it kept, in order.
    pub fn notices(&self) -> Vec<Notice> {
        self.kept().clone()
    }

    fn keep(&self, notice: Notice) {
        self.kept().push(notice);
    }

    fn kept(&self) -> MutexGuard<'_, Vec<Notice>> {
        self.kept.lock().unwrap_or_else(PoisonError::into_inner)
    }
}

impl<S: Subscriber> Layer<S> for Recorder {
    fn on_new_span(&self, _attributes: &Attributes<'_>, id: &Id, _ctx: Context<'_, S>) {
        self.keep(Notice::New(id.into_u64()));
    }

    fn on_record(&self, id: &Id, _values: &Record<'_>, _ctx: Context<'_, S>) {
        self.keep(Notice::Record(id.into_u64()));
    }

    fn on_follows_from(&self, id: &Id, other: &Id, _ctx: Context<'_, S>) {
        self.keep(Notice::Follows(id.into_u64(), other.into_u64()));
    }

    fn on_event(&self, event: &Event<'_>, _ctx: Context<'_, S>) {
        let callsite = event.metadata().name().trim_start_matches('s');
        self.keep(Notice::Event(callsite));
    }

    fn on_enter(&self, id: &Id, _ctx: Context<'_, S>) {
        self.keep(Notice::Enter(id.into_u64()));
    }

    fn on_exit(&self, id: &Id, _ctx: Context<'_, S>) {
        self.keep(Notice::Exit(id.into_u64()));
    }

    fn on_id_change(&self, id: &Id, other: &Id, _ctx: Context<'_, S>) {
        self.keep(Notice::IdChange(id.into_u64(), other.into_u64()));
    }

    fn on_close(&self, id: Id, _ctx: Context<'_, S>) {
        self.keep(Notice::Close(id.into_u64()));
    }
}
