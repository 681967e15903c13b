//! What a lane is asked for, and what it replies.

use crate::site::Site;
use tracing_core::LevelFilter;

/// The parent that a new span or an event names. Spans are named by the numbers of their ids.
#[derive(Clone, Copy)]
pub enum Parent {
    Contextual,
    Root,
    In(u64),
}

/// A request.
#[derive(Clone, Copy)]
pub enum Request {
    New(&'static Site, Parent),
    /// An event, and whether its field `mute` is true or has no value.
    Event(&'static Site, Parent, bool),
    Enter(u64),
    Exit(u64),
    Record(u64),
    /// The first span follows from the second.
    Follows(u64, u64),
    Clone(u64),
    Drop(u64),
    Enabled(&'static Site),
    Current,
    /// The filter of this number takes a level.
    Level(usize, LevelFilter),
}

/// A reply.
#[derive(Clone, Copy)]
pub enum Reply {
    /// The new span, or the one that the lane is in.
    Span(u64),
    Nothing,
    Done,
    Yes(bool),
    /// The port's number of why it is refused.
    Refused(u8),
}
