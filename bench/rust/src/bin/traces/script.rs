//! A script, from its lines to what is printed of it.

use crate::departures::Departures;
use crate::fault::Fault;
use crate::lane::Lane;
use crate::receiver::Receiver;
use crate::recorder::Notice;
use crate::request::{Parent, Reply, Request};
use crate::site::Site;
use crate::stack::Stack;
use std::collections::HashMap;
use std::sync::Arc;
use tracing_core::LevelFilter;

/// What is printed of a script, with the crate called under these departures. Where the crate
/// panics it ends, and `panicked` is printed.
pub fn served(text: &str, departures: Departures) -> Result<String, Fault> {
    let mut lines = text.lines().filter(|line| !line.is_empty());
    let name = lines.next().and_then(|line| line.strip_prefix("stack "));
    let stack = name.and_then(Stack::named).ok_or(Fault::Line)?;
    let mut script = Script {
        receiver: Arc::new(Receiver::new(stack, departures)),
        lanes: HashMap::new(),
        spans: HashMap::new(),
        labels: HashMap::new(),
    };
    let printed = script.print(lines);
    script.end();
    printed
}

/// Why a line asks for nothing.
enum Unasked {
    /// It names a label whose span wasn't made.
    NoSpan,
    /// It is wrong.
    Wrong,
}

/// A script that is served.
struct Script<'a> {
    receiver: Arc<Receiver>,
    lanes: HashMap<usize, Lane>,
    /// The span of each label, if it was made.
    spans: HashMap<&'a str, Option<u64>>,
    labels: HashMap<u64, &'a str>,
}

impl<'a> Script<'a> {
    fn print(&mut self, lines: impl Iterator<Item = &'a str>) -> Result<String, Fault> {
        let mut text = String::new();
        for line in lines {
            let words: Vec<&str> = line.split(' ').collect();
            let Some(reply) = self.reply(&words)? else {
                return Ok(text + "panicked\n");
            };
            text += &self.reply_text(reply);
            text += "\n";
        }
        for (name, recorder) in &self.receiver.stack.recorders {
            text += &format!("== {name}\n");
            for notice in recorder.notices() {
                text += &self.notice_text(notice);
                text += "\n";
            }
        }
        Ok(text)
    }

    /// Lets all lanes end, so that the next script's dispatcher is the only one.
    fn end(self) {
        for lane in self.lanes.into_values() {
            lane.end();
        }
    }

    /// The reply to a line. There is none where the crate panics.
    fn reply(&mut self, words: &[&'a str]) -> Result<Option<Reply>, Fault> {
        let (lane, request) = match self.asked(words) {
            Ok(asked) => asked,
            Err(Unasked::NoSpan) => return Ok(Some(Reply::Nothing)),
            Err(Unasked::Wrong) => return Err(Fault::Line),
        };
        if !self.lanes.contains_key(&lane) {
            self.lanes.insert(lane, Lane::new(self.receiver.clone())?);
        }
        let reply = self.lanes[&lane].ask(request);
        if let ["new", _, _, label, ..] = words {
            self.declare(label, reply);
        }
        Ok(reply)
    }

    fn declare(&mut self, label: &'a str, reply: Option<Reply>) {
        let span = match reply {
            Some(Reply::Span(number)) => Some(number),
            _ => None,
        };
        self.spans.insert(label, span);
        if let Some(number) = span {
            self.labels.insert(number, label);
        }
    }

    /// The lane that a line names, and what it asks for. What names no lane is asked on lane 0.
    fn asked(&self, words: &[&str]) -> Result<(usize, Request), Unasked> {
        let (lane, request) = match words {
            ["new", lane, site, _, parent @ ..] => {
                (*lane, Request::New(site_of(site)?, self.parent(parent)?))
            }
            ["event", lane, site, parent @ .., "mute"] => (
                *lane,
                Request::Event(site_of(site)?, self.parent(parent)?, true),
            ),
            ["event", lane, site, parent @ ..] => (
                *lane,
                Request::Event(site_of(site)?, self.parent(parent)?, false),
            ),
            ["enter", lane, name] => (*lane, Request::Enter(self.span(name)?)),
            ["exit", lane, name] => (*lane, Request::Exit(self.span(name)?)),
            ["record", lane, name] => (*lane, Request::Record(self.span(name)?)),
            ["follows", lane, name, other] => {
                (*lane, Request::Follows(self.span(name)?, self.span(other)?))
            }
            ["clone", name] => ("0", Request::Clone(self.span(name)?)),
            ["drop", lane, name] => (*lane, Request::Drop(self.span(name)?)),
            ["enabled", lane, site] => (*lane, Request::Enabled(site_of(site)?)),
            ["current", lane] => (*lane, Request::Current),
            ["level", number, level] => ("0", Request::Level(digit(number)?, level_of(level)?)),
            _ => return Err(Unasked::Wrong),
        };
        Ok((digit(lane)?, request))
    }

    /// The number of the span of this name.
    fn span(&self, name: &str) -> Result<u64, Unasked> {
        match self.spans.get(name) {
            Some(Some(number)) => Ok(*number),
            Some(None) => Err(Unasked::NoSpan),
            None if name != "?" => Err(Unasked::Wrong),
            None if self.receiver.departures.zero => Ok(u64::MAX),
            None => Ok(0),
        }
    }

    fn parent(&self, words: &[&str]) -> Result<Parent, Unasked> {
        match words {
            [] => Ok(Parent::Contextual),
            ["root"] => Ok(Parent::Root),
            ["in", name] => match self.span(name) {
                Ok(number) => Ok(Parent::In(number)),
                Err(Unasked::NoSpan) => Ok(Parent::Root),
                Err(Unasked::Wrong) => Err(Unasked::Wrong),
            },
            _ => Err(Unasked::Wrong),
        }
    }

    fn label(&self, number: u64) -> &'a str {
        self.labels.get(&number).copied().unwrap_or("?")
    }

    fn reply_text(&self, reply: Reply) -> String {
        match reply {
            Reply::Span(number) => self.label(number).to_string(),
            Reply::Nothing => "none".to_string(),
            Reply::Done => "ok".to_string(),
            Reply::Yes(yes) => yes.to_string(),
            Reply::Refused(number) => format!("refused {number}"),
        }
    }

    fn notice_text(&self, notice: Notice) -> String {
        let label = |number| self.label(number);
        match notice {
            Notice::New(number) => format!("new {}", label(number)),
            Notice::Record(number) => format!("record {}", label(number)),
            Notice::Follows(number, other) => {
                format!("follows {} {}", label(number), label(other))
            }
            Notice::Event(callsite) => format!("event {callsite}"),
            Notice::Enter(number) => format!("enter {}", label(number)),
            Notice::Exit(number) => format!("exit {}", label(number)),
            Notice::IdChange(number, other) => format!("id {} {}", label(number), label(other)),
            Notice::Close(number) => format!("close {}", label(number)),
        }
    }
}

fn digit(word: &str) -> Result<usize, Unasked> {
    word.parse().map_err(|_| Unasked::Wrong)
}

fn site_of(word: &str) -> Result<&'static Site, Unasked> {
    Site::of(word).ok_or(Unasked::Wrong)
}

fn level_of(word: &str) -> Result<LevelFilter, Unasked> {
    word.parse().map_err(|_| Unasked::Wrong)
}
