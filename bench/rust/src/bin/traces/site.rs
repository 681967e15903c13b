//! Callsites, made as the macros of `tracing` make theirs: each is a static.

use tracing_core::callsite::DefaultCallsite;
use tracing_core::dispatcher::Dispatch;
use tracing_core::{LevelFilter, Metadata};

/// A callsite.
pub struct Site {
    pub callsite: &'static DefaultCallsite,
    pub metadata: &'static Metadata<'static>,
}

impl Site {
    /// Whether a span or an event is wanted, asked as the macros of `tracing` ask: by the hint that
    /// is kept, unless it is left out, by the interest that is kept, and by `enabled` only where
    /// that is `sometimes`.
    pub fn is_wanted(&self, dispatch: &Dispatch, by_hint: bool) -> bool {
        if by_hint && *self.metadata.level() > LevelFilter::current() {
            return false;
        }
        let interest = self.callsite.interest();
        !interest.is_never() && (interest.is_always() || dispatch.enabled(self.metadata))
    }
}

macro_rules! site {
    ($name:literal, $target:literal, $level:ident, $kind:ident, $fields:expr) => {{
        use tracing_core::callsite::DefaultCallsite;
        use tracing_core::{metadata, Kind, Level, Metadata};

        static CALLSITE: DefaultCallsite = DefaultCallsite::new(&METADATA);
        static METADATA: Metadata<'static> = metadata! {
            name: $name,
            target: $target,
            level: Level::$level,
            fields: $fields,
            callsite: &CALLSITE,
            kind: Kind::$kind,
        };
        $crate::site::Site {
            callsite: &CALLSITE,
            metadata: &METADATA,
        }
    }};
}

pub(crate) use site;
