//! What is tried, in the order of `rows.rattle`.

use crate::site::{site, Site};

macro_rules! levels {
    ($name:literal, $target:literal, $kind:ident) => {
        [
            site!($name, $target, ERROR, $kind, &[]),
            site!($name, $target, WARN, $kind, &[]),
            site!($name, $target, INFO, $kind, &[]),
            site!($name, $target, DEBUG, $kind, &[]),
            site!($name, $target, TRACE, $kind, &[]),
        ]
    };
}

/// The events that are tried, at each level.
pub static EVENTS: [[Site; 5]; 4] = [
    levels!("said", "db", EVENT),
    levels!("said", "db::pool", EVENT),
    levels!("said", "dbx", EVENT),
    levels!("said", "web", EVENT),
];

/// The spans that are tried, at each level.
pub static SPANS: [[Site; 5]; 4] = [
    levels!("job", "db::pool", SPAN),
    levels!("job", "web", SPAN),
    levels!("step", "db", SPAN),
    levels!("step", "web", SPAN),
];

/// A span by its place and its level's, and whether it is a root.
pub type Opened = (usize, usize, bool);

/// What is opened and entered before the rest is tried, the outermost first.
pub static OPENED: [&[Opened]; 7] = [
    &[],
    &[(1, 2, false)],
    &[(0, 3, false)],
    &[(3, 1, false)],
    &[(1, 2, false), (3, 1, false)],
    &[(2, 0, false), (0, 3, false)],
    &[(1, 2, false), (3, 1, true)],
];
