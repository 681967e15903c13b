//! The stacks that scripts name.

use crate::mute::{Mute, MuteVeto};
use crate::recorder::Recorder;
use std::sync::Arc;
use tracing_core::{LevelFilter, Subscriber};
use tracing_subscriber::filter::Filtered;
use tracing_subscriber::layer::{Layer, SubscriberExt};
use tracing_subscriber::registry::LookupSpan;
use tracing_subscriber::{reload, Registry};

/// Sets the level of a filter.
type SetLevel = Box<dyn Fn(LevelFilter) -> Result<(), reload::Error> + Send + Sync>;

/// A recorder under a level that can be set.
type Levelled<S> = Filtered<Recorder, reload::Layer<LevelFilter, S>, S>;

/// A stack.
pub struct Stack {
    pub subscriber: Arc<dyn Subscriber + Send + Sync>,
    /// Its recorders by their names, innermost first.
    pub recorders: Vec<(&'static str, Recorder)>,
    /// What sets the level of each filter that takes one, by the filters' numbers.
    pub levels: Vec<Option<SetLevel>>,
    /// Whether it is a pair of layers on a registry.
    pub is_pair: bool,
}

impl Stack {
    /// The stack of this name, if there is one.
    pub fn named(name: &str) -> Option<Stack> {
        match name {
            "plain" => Some(plain()),
            "pair" => Some(pair()),
            "nested" => Some(nested()),
            "veto" => Some(veto()),
            "absent" => Some(absent()),
            _ => None,
        }
    }
}

fn plain() -> Stack {
    let base = Recorder::default();
    Stack {
        subscriber: Arc::new(Registry::default().with(base.clone())),
        recorders: vec![("base", base)],
        levels: vec![],
        is_pair: false,
    }
}

fn pair() -> Stack {
    let (a, b) = (Recorder::default(), Recorder::default());
    let (under_trace, set_a) = levelled(&a, LevelFilter::TRACE);
    let (under_info, set_b) = levelled(&b, LevelFilter::INFO);
    Stack {
        subscriber: Arc::new(Registry::default().with(under_trace.and_then(under_info))),
        recorders: vec![("a", a), ("b", b)],
        levels: vec![Some(set_b), Some(set_a)],
        is_pair: true,
    }
}

fn nested() -> Stack {
    let (base, deep) = (Recorder::default(), Recorder::default());
    let (under_info, set_deep) = levelled(&deep, LevelFilter::INFO);
    let on_base = Registry::default().with(base.clone());
    Stack {
        subscriber: Arc::new(on_base.with(under_info.with_filter(Mute))),
        recorders: vec![("base", base), ("deep", deep)],
        levels: vec![None, Some(set_deep)],
        is_pair: false,
    }
}

fn veto() -> Stack {
    let (base, warn) = (Recorder::default(), Recorder::default());
    let (under_warn, set_warn) = levelled(&warn, LevelFilter::WARN);
    let on_base = Registry::default().with(base.clone());
    let vetoed = on_base
        .with(under_warn)
        .with(MuteVeto)
        .with(LevelFilter::INFO);
    Stack {
        subscriber: Arc::new(vetoed),
        recorders: vec![("base", base), ("warn", warn)],
        levels: vec![Some(set_warn)],
        is_pair: false,
    }
}

fn absent() -> Stack {
    let base = Recorder::default();
    let none: Option<Recorder> = None;
    Stack {
        subscriber: Arc::new(Registry::default().with(none).with(base.clone())),
        recorders: vec![("base", base)],
        levels: vec![],
        is_pair: false,
    }
}

/// A recorder under a level, and what sets that.
fn levelled<S>(recorder: &Recorder, level: LevelFilter) -> (Levelled<S>, SetLevel)
where
    S: Subscriber + for<'a> LookupSpan<'a>,
{
    let (filter, handle) = reload::Layer::new(level);
    let layer = recorder.clone().with_filter(filter);
    (layer, Box::new(move |level| handle.reload(level)))
}
