//! Why a run ends early. Where the crate refuses a call, it panics.

use std::{fmt, io};

#[derive(Clone, Copy)]
pub enum Fault {
    /// A line is not `WORKLOAD STACK SIZE ROUNDS`.
    Line,
    /// A step of a round didn't do what it should.
    Undone,
    /// Input or output failed.
    Io,
}

impl Fault {
    /// The status that the program ends with.
    pub fn status(&self) -> u8 {
        match self {
            Fault::Line => 2,
            _ => 1,
        }
    }
}

impl fmt::Display for Fault {
    fn fmt(&self, f: &mut fmt::Formatter<'_>) -> fmt::Result {
        match self {
            Fault::Line => f.write_str("a line is not WORKLOAD STACK SIZE ROUNDS"),
            Fault::Undone => f.write_str("a round was not done in full"),
            Fault::Io => f.write_str("input or output failed"),
        }
    }
}

impl From<io::Error> for Fault {
    fn from(_error: io::Error) -> Fault {
        Fault::Io
    }
}
