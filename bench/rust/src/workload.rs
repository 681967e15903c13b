//! The workloads.

/// What one round does, as `span_bench` says. Each has a size. The crate has no other event for a registered callsite.
#[derive(Clone, Copy)]
pub enum Workload {
    NewAndDrop,
    EnterAndExit,
    Event,
    Values,
    AboveHint,
    Guarded,
    Cascade,
    Scope,
    FromRoot,
    Replace,
}

impl Workload {
    /// The workload with this name, if there is one.
    pub fn of(name: &str) -> Option<Workload> {
        match name {
            "new_and_drop" => Some(Workload::NewAndDrop),
            "enter_and_exit" => Some(Workload::EnterAndExit),
            "event" | "event_by" | "traced_event" => Some(Workload::Event),
            "traced_values" => Some(Workload::Values),
            "traced_above_hint" => Some(Workload::AboveHint),
            "traced_span" => Some(Workload::Guarded),
            "cascade" => Some(Workload::Cascade),
            "scope" => Some(Workload::Scope),
            "from_root" => Some(Workload::FromRoot),
            "replace" => Some(Workload::Replace),
            _ => None,
        }
    }
}
