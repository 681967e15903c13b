//! What goes by an event's field `mute`: a filter, and a layer that vetoes.

use std::fmt;
use tracing_core::field::{Field, Visit};
use tracing_core::subscriber::{Interest, Subscriber};
use tracing_core::{Event, Metadata};
use tracing_subscriber::layer::{Context, Filter, Layer};

/// A filter that refuses muted events.
pub struct Mute;

impl<S> Filter<S> for Mute {
    fn enabled(&self, _meta: &Metadata<'_>, _ctx: &Context<'_, S>) -> bool {
        true
    }

    fn callsite_enabled(&self, _meta: &'static Metadata<'static>) -> Interest {
        Interest::always()
    }

    fn event_enabled(&self, event: &Event<'_>, _ctx: &Context<'_, S>) -> bool {
        !is_muted(event)
    }
}

/// A layer that vetoes muted events.
pub struct MuteVeto;

impl<S: Subscriber> Layer<S> for MuteVeto {
    fn event_enabled(&self, event: &Event<'_>, _ctx: Context<'_, S>) -> bool {
        !is_muted(event)
    }
}

/// Whether an event's field `mute` is true.
fn is_muted(event: &Event<'_>) -> bool {
    let mut seen = Seen { mute: false };
    event.record(&mut seen);
    seen.mute
}

/// What was seen of an event's fields.
struct Seen {
    mute: bool,
}

impl Visit for Seen {
    fn record_bool(&mut self, field: &Field, value: bool) {
        if field.name() == "mute" {
            self.mute = value;
        }
    }

    fn record_debug(&mut self, _field: &Field, _value: &dyn fmt::Debug) {}
}
