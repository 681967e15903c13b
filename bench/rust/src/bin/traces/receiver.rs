//! A stack behind a dispatcher, as all lanes of a script share it.

use crate::departures::Departures;
use crate::site::Site;
use crate::sites::SITES;
use crate::stack::Stack;
use std::collections::HashMap;
use std::sync::{Mutex, MutexGuard, PoisonError};
use tracing_core::dispatcher::Dispatch;
use tracing_core::span::{Attributes, Id};
use tracing_core::Subscriber;
use tracing_subscriber::registry::LookupSpan;
use tracing_subscriber::Registry;

/// A stack in use.
pub struct Receiver {
    pub stack: Stack,
    pub dispatch: Dispatch,
    pub departures: Departures,
    /// Whether a handle goes with an entry, and is to be taken back.
    pub takes_back: bool,
    /// How many handles of each span were given and not taken, by the numbers of ids.
    handles: Mutex<HashMap<u64, u32>>,
}

impl Receiver {
    /// Puts a stack in use.
    pub fn new(stack: Stack, departures: Departures) -> Receiver {
        Receiver {
            dispatch: Dispatch::new(stack.subscriber.clone()),
            takes_back: departures.entered && entries_hold(),
            handles: Mutex::default(),
            stack,
            departures,
        }
    }

    /// Whether a span or an event from this callsite is wanted.
    pub fn wants(&self, site: &Site) -> bool {
        let by_hint = !(self.departures.types && self.stack.is_pair);
        site.is_wanted(&self.dispatch, by_hint)
    }

    /// Its registry.
    pub fn registry(&self) -> &Registry {
        self.dispatch
            .downcast_ref()
            .expect("each stack stands on a registry")
    }

    /// Whether a span is there.
    pub fn is_open(&self, id: &Id) -> bool {
        self.registry().span(id).is_some()
    }

    /// How many handles of each span were given and not taken.
    pub fn handles(&self) -> MutexGuard<'_, HashMap<u64, u32>> {
        self.handles.lock().unwrap_or_else(PoisonError::into_inner)
    }
}

/// Whether in this version of the crate a handle goes with an entry.
fn entries_hold() -> bool {
    let registry = Registry::default();
    let metadata = SITES[0].metadata;
    let values = metadata.fields().value_set(&[]);
    let id = registry.new_span(&Attributes::new_root(metadata, &values));
    registry.enter(&id);
    !registry.try_close(id)
}
