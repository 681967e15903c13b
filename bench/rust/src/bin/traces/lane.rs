//! A lane: a thread that serves requests, one at a time.

use crate::receiver::Receiver;
use crate::request::{Parent, Reply, Request};
use crate::site::Site;
use crate::sites::SITES;
use std::io;
use std::sync::{mpsc, Arc};
use std::thread::{Builder, JoinHandle};
use tracing_core::dispatcher::{set_default, with_default, Dispatch};
use tracing_core::field::Value;
use tracing_core::span::{Attributes, Id, Record};
use tracing_core::{Event, LevelFilter, Subscriber};
use tracing_subscriber::layer::{Layered, SubscriberExt};
use tracing_subscriber::Registry;

/// A lane, as a script asks it.
pub struct Lane {
    requests: mpsc::Sender<Request>,
    replies: mpsc::Receiver<Reply>,
    thread: JoinHandle<()>,
}

impl Lane {
    /// Starts a lane.
    pub fn new(receiver: Arc<Receiver>) -> io::Result<Lane> {
        let (requests, asked) = mpsc::channel();
        let (answers, replies) = mpsc::channel();
        let thread = Builder::new().spawn(move || {
            // By its thread's default dispatcher the crate closes parents, and asks for interests.
            let _default = set_default(&receiver.dispatch);
            let mut server = Server::new(&receiver);
            for request in asked {
                if answers.send(server.serve(request)).is_err() {
                    break;
                }
            }
        })?;
        Ok(Lane {
            requests,
            replies,
            thread,
        })
    }

    /// Asks, and waits for the reply. There is none where the crate panics.
    pub fn ask(&self, request: Request) -> Option<Reply> {
        self.requests.send(request).ok()?;
        self.replies.recv().ok()
    }

    /// Lets the lane end.
    pub fn end(self) {
        drop(self.requests);
        // An error says that the crate panicked, which the missing reply said.
        let _ = self.thread.join();
    }
}

/// What serves the requests of a lane, in its thread.
struct Server<'a> {
    receiver: &'a Receiver,
    /// The spans that the lane entered and didn't leave, oldest first.
    entered: Vec<Id>,
    /// A stack that vetoes everything.
    vetoing: Layered<LevelFilter, Registry>,
}

impl<'a> Server<'a> {
    fn new(receiver: &'a Receiver) -> Server<'a> {
        Server {
            receiver,
            entered: Vec::new(),
            vetoing: Registry::default().with(LevelFilter::OFF),
        }
    }

    fn serve(&mut self, request: Request) -> Reply {
        if self.receiver.departures.answers {
            // A veto takes back what all filters answered in the thread.
            self.vetoing.enabled(SITES[0].metadata);
        }
        match request {
            Request::New(site, parent) => self.new_span(site, parent),
            Request::Event(site, parent, mute) => self.event(site, parent, mute),
            Request::Enter(number) => self.enter(Id::from_u64(number)),
            Request::Exit(number) => self.exit(Id::from_u64(number)),
            Request::Record(number) => self.record(&Id::from_u64(number)),
            Request::Follows(number, other) => {
                self.follows(&Id::from_u64(number), &Id::from_u64(other))
            }
            Request::Clone(number) => self.clone_span(&Id::from_u64(number)),
            Request::Drop(number) => self.drop_span(Id::from_u64(number)),
            Request::Enabled(site) => Reply::Yes(self.receiver.wants(site)),
            Request::Current => match self.receiver.dispatch.current_span().id() {
                Some(id) => Reply::Span(id.into_u64()),
                None => Reply::Nothing,
            },
            Request::Level(number, level) => self.set_level(number, level),
        }
    }

    fn new_span(&self, site: &Site, parent: Parent) -> Reply {
        let receiver = self.receiver;
        if !receiver.wants(site) {
            return Reply::Nothing;
        }
        let metadata = site.metadata;
        let values = metadata.fields().value_set(&[]);
        let attributes = match parent {
            Parent::Contextual => Attributes::new(metadata, &values),
            Parent::Root => Attributes::new_root(metadata, &values),
            Parent::In(number) => {
                let id = Id::from_u64(number);
                if receiver.departures.panics && !receiver.is_open(&id) {
                    return Reply::Refused(2);
                }
                Attributes::child_of(id, metadata, &values)
            }
        };
        let number = receiver.dispatch.new_span(&attributes).into_u64();
        receiver.handles().insert(number, 1);
        Reply::Span(number)
    }

    fn event(&self, site: &Site, parent: Parent, mute: bool) -> Reply {
        if !self.receiver.wants(site) {
            return Reply::Nothing;
        }
        let metadata = site.metadata;
        let field = metadata
            .fields()
            .iter()
            .next()
            .expect("events have a field");
        let value = [(&field, mute.then_some(&true as &dyn Value))];
        let values = metadata.fields().value_set(&value);
        let event = match parent {
            Parent::Contextual => Event::new(metadata, &values),
            Parent::Root => Event::new_child_of(None, metadata, &values),
            Parent::In(number) => Event::new_child_of(Id::from_u64(number), metadata, &values),
        };
        // So does `Dispatch::event`, which doesn't say whether layers were notified.
        let stack = &self.receiver.stack.subscriber;
        if !stack.event_enabled(&event) {
            return Reply::Nothing;
        }
        stack.event(&event);
        Reply::Done
    }

    fn enter(&mut self, id: Id) -> Reply {
        if self.receiver.departures.told && !self.receiver.is_open(&id) {
            return Reply::Refused(1);
        }
        self.receiver.dispatch.enter(&id);
        if self.receiver.takes_back && !self.entered.contains(&id) {
            self.receiver.registry().try_close(id.clone());
        }
        self.entered.push(id);
        Reply::Done
    }

    fn exit(&mut self, id: Id) -> Reply {
        let receiver = self.receiver;
        let left: &dyn Subscriber = if receiver.departures.told && !receiver.is_open(&id) {
            receiver.registry()
        } else {
            &receiver.stack.subscriber
        };
        if receiver.takes_back {
            // Where the thread has no dispatcher, the crate takes no handle at an exit.
            with_default(&Dispatch::none(), || left.exit(&id));
        } else {
            left.exit(&id);
        }
        if let Some(place) = self.entered.iter().rposition(|entered| *entered == id) {
            self.entered.remove(place);
        }
        Reply::Done
    }

    fn record(&self, id: &Id) -> Reply {
        if self.receiver.departures.told && !self.receiver.is_open(id) {
            return Reply::Refused(1);
        }
        let values = SITES[0].metadata.fields().value_set(&[]);
        self.receiver.dispatch.record(id, &Record::new(&values));
        Reply::Done
    }

    fn follows(&self, id: &Id, other: &Id) -> Reply {
        if self.receiver.departures.told && !self.receiver.is_open(id) {
            return Reply::Refused(1);
        }
        self.receiver.dispatch.record_follows_from(id, other);
        Reply::Done
    }

    fn clone_span(&self, id: &Id) -> Reply {
        if self.receiver.departures.panics && !self.receiver.is_open(id) {
            return Reply::Refused(1);
        }
        self.receiver.dispatch.clone_span(id);
        *self.receiver.handles().entry(id.into_u64()).or_default() += 1;
        Reply::Done
    }

    fn drop_span(&self, id: Id) -> Reply {
        let receiver = self.receiver;
        let is_open = receiver.is_open(&id);
        if receiver.departures.panics && !is_open {
            return Reply::Refused(1);
        }
        let handles = receiver.handles().get(&id.into_u64()).copied().unwrap_or(0);
        if receiver.departures.counts && is_open && handles == 0 {
            return Reply::Refused(3);
        }
        receiver
            .handles()
            .insert(id.into_u64(), handles.saturating_sub(1));
        receiver.dispatch.try_close(id);
        Reply::Done
    }

    fn set_level(&self, number: usize, level: LevelFilter) -> Reply {
        match self.receiver.stack.levels.get(number) {
            Some(Some(set)) => {
                set(level).expect("the filter is in use");
                Reply::Done
            }
            _ => Reply::Refused(10),
        }
    }
}
