//! The workloads.

/// What one round does, in each thread, as `span_bench` says.
#[derive(Clone, Copy)]
pub enum Workload {
    Event,
    NewAndDrop,
    TracedEvent,
    TracedSpan,
    EventPastHint,
    PassesHint,
}

impl Workload {
    /// The workload with this name, if there is one.
    pub fn of(name: &str) -> Option<Workload> {
        match name {
            "event" => Some(Workload::Event),
            "new_and_drop" => Some(Workload::NewAndDrop),
            "traced_event" => Some(Workload::TracedEvent),
            "traced_span" => Some(Workload::TracedSpan),
            "event_past_hint" => Some(Workload::EventPastHint),
            "passes_hint" => Some(Workload::PassesHint),
            _ => None,
        }
    }

    /// Its name.
    pub fn name(self) -> &'static str {
        match self {
            Workload::Event => "event",
            Workload::NewAndDrop => "new_and_drop",
            Workload::TracedEvent => "traced_event",
            Workload::TracedSpan => "traced_span",
            Workload::EventPastHint => "event_past_hint",
            Workload::PassesHint => "passes_hint",
        }
    }
}
