//! The departures of the port from the crate that scripts can show.

use crate::fault::Fault;

/// Under which departures the crate is called. Without any it is called as `tracing` calls it.
#[derive(Clone, Copy, Default)]
pub struct Departures {
    /// What filters answered in a thread is forgotten before the next request.
    pub answers: bool,
    /// A handle is only taken where one was given: a child's hold stays.
    pub counts: bool,
    /// No handle goes with an entry, as none does from version 0.3.21 on.
    pub entered: bool,
    /// What isn't there is no parent, and isn't cloned or dropped: it is refused, without a panic.
    pub panics: bool,
    /// What isn't there isn't entered, recorded or followed, and no layer is notified of its exit.
    pub told: bool,
    /// The hint of a pair on a registry, which is that of one part, rules nothing out.
    pub types: bool,
    /// An id that no span has can be named: it isn't 0.
    pub zero: bool,
}

impl Departures {
    /// The departures that these words name.
    pub fn of(words: impl Iterator<Item = String>) -> Result<Departures, Fault> {
        let mut departures = Departures::default();
        for word in words {
            let named = match word.as_str() {
                "answers" => &mut departures.answers,
                "counts" => &mut departures.counts,
                "entered" => &mut departures.entered,
                "panics" => &mut departures.panics,
                "told" => &mut departures.told,
                "types" => &mut departures.types,
                "zero" => &mut departures.zero,
                _ => return Err(Fault::Departure),
            };
            *named = true;
        }
        Ok(departures)
    }
}
