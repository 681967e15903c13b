//! The callsites that a script names by one digit.

use crate::site::{site, Site};

/// The callsites: five of spans, and five of events with the field `mute`.
pub static SITES: [Site; 10] = [
    site!("s0", "script", ERROR, SPAN, &[]),
    site!("s1", "script", WARN, SPAN, &[]),
    site!("s2", "script", INFO, SPAN, &[]),
    site!("s3", "script", DEBUG, SPAN, &[]),
    site!("s4", "script", TRACE, SPAN, &[]),
    site!("s5", "script", ERROR, EVENT, &["mute"]),
    site!("s6", "script", WARN, EVENT, &["mute"]),
    site!("s7", "script", INFO, EVENT, &["mute"]),
    site!("s8", "script", DEBUG, EVENT, &["mute"]),
    site!("s9", "script", TRACE, EVENT, &["mute"]),
];

impl Site {
    /// The callsite that a word names, if it names one.
    pub fn of(word: &str) -> Option<&'static Site> {
        SITES.get(word.parse::<usize>().ok()?)
    }
}
