//! The receiver that the threads share.

use tracing_core::dispatcher::Dispatch;
use tracing_core::{LevelFilter, Subscriber};
use tracing_subscriber::layer::{Layer, Layered, SubscriberExt};
use tracing_subscriber::Registry;

/// A layer over one that vetoes what is less severe than info, over a registry.
pub type Stack<L> = Layered<L, Layered<LevelFilter, Registry>>;

/// A dispatcher with such a stack. Its hint is info.
pub fn receiver<L>() -> Dispatch
where
    L: Layer<Layered<LevelFilter, Registry>> + Default + Send + Sync + 'static,
    Stack<L>: Subscriber,
{
    Dispatch::new(
        Registry::default()
            .with(LevelFilter::INFO)
            .with(L::default()),
    )
}
