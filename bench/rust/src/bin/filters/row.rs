//! Rows of what passes.

use crate::recorder::Recorder;
use crate::site::Site;
use crate::tried::{Opened, EVENTS, OPENED, SPANS};
use tracing_core::dispatcher::{set_default, Dispatch};
use tracing_core::span::{Attributes, Id};
use tracing_core::{Event, LevelFilter, Subscriber};
use tracing_subscriber::filter::EnvFilter;
use tracing_subscriber::layer::{Layer, Layered, SubscriberExt};
use tracing_subscriber::Registry;

/// Writes the rows of a text.
pub fn write_rows(text: &str, named: Option<&[u8]>, leaves: bool, rows: &mut String) {
    for opened in OPENED {
        let Ok(filter) = EnvFilter::try_new(text) else {
            rows.push_str("refused\n");
            return;
        };
        let asked = Asked::new(filter, named);
        let _default = set_default(&asked.dispatch);
        asked.open_all(opened, leaves, rows);
        asked.try_all(rows);
        rows.push('\n');
    }
}

/// A recorder under a filter, in use.
struct Asked<'a> {
    dispatch: Dispatch,
    recorder: Recorder,
    named: Option<&'a [u8]>,
    /// A stack that vetoes everything.
    vetoing: Layered<LevelFilter, Registry>,
}

impl<'a> Asked<'a> {
    fn new(filter: EnvFilter, named: Option<&'a [u8]>) -> Asked<'a> {
        let recorder = Recorder::default();
        let layer = recorder.clone().with_filter(filter);
        Asked {
            dispatch: Dispatch::new(Registry::default().with(layer)),
            recorder,
            named,
            vetoing: Registry::default().with(LevelFilter::OFF),
        }
    }

    /// Opens spans and enters them, and notes of which the recorder is told.
    fn open_all(&self, opened: &[Opened], leaves: bool, row: &mut String) {
        let mut entered: Vec<Id> = Vec::new();
        for &(place, level, is_root) in opened {
            let (id, told) = self.open(place, level, is_root);
            row.push(mark(told));
            if is_root && leaves && told {
                entered.drain(..).rev().for_each(|id| self.dispatch.exit(&id));
            }
            if let Some(id) = id {
                self.dispatch.enter(&id);
                entered.push(id);
            }
        }
    }

    /// Sends events and opens spans, and notes of which the recorder is told.
    fn try_all(&self, row: &mut String) {
        for sites in &EVENTS {
            row.push(' ');
            row.extend(sites.iter().map(|site| mark(self.send(site))));
        }
        for (place, sites) in SPANS.iter().enumerate() {
            row.push(' ');
            row.extend((0..sites.len()).map(|level| mark(self.open(place, level, false).1)));
        }
    }

    /// Opens a span, if it is wanted. Answers whether the recorder is told, too.
    fn open(&self, place: usize, level: usize, is_root: bool) -> (Option<Id>, bool) {
        let site = &SPANS[place][level];
        let by_its_own = self.named.is_none_or(|named| {
            named[place * SPANS[place].len() + level] == b'1' || self.send(event_like(site))
        });
        if !by_its_own || !self.wants(site) {
            return (None, false);
        }
        let values = site.metadata.fields().value_set(&[]);
        let attributes = if is_root {
            Attributes::new_root(site.metadata, &values)
        } else {
            Attributes::new(site.metadata, &values)
        };
        let before = self.recorder.notices().len();
        let id = self.dispatch.new_span(&attributes);
        (Some(id), self.recorder.notices().len() > before)
    }

    /// Sends an event, if it is wanted, and answers whether the recorder is told.
    fn send(&self, site: &Site) -> bool {
        let before = self.recorder.notices().len();
        if self.wants(site) {
            let values = site.metadata.fields().value_set(&[]);
            self.dispatch.event(&Event::new(site.metadata, &values));
        }
        self.recorder.notices().len() > before
    }

    /// Whether a span or an event from this callsite is wanted. By a veto the crate forgets what its filter answered before.
    fn wants(&self, site: &Site) -> bool {
        self.vetoing.enabled(site.metadata);
        site.is_wanted(&self.dispatch, true)
    }
}

/// The event of a span's target and level.
fn event_like(span: &Site) -> &'static Site {
    let is_like = |site: &&Site| {
        site.metadata.target() == span.metadata.target()
            && site.metadata.level() == span.metadata.level()
    };
    EVENTS
        .iter()
        .flatten()
        .find(is_like)
        .expect("there is one of each target")
}

fn mark(is_so: bool) -> char {
    if is_so {
        '1'
    } else {
        '0'
    }
}
