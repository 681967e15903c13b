//! Why a run ends early.

use std::{fmt, io};

#[derive(Clone, Copy)]
pub enum Fault {
    /// An argument names no departure.
    Departure,
    /// A script is wrong.
    Line,
    /// Input or output failed, or no thread could be made.
    Io,
}

impl Fault {
    /// The status that the program ends with.
    pub fn status(&self) -> u8 {
        match self {
            Fault::Departure | Fault::Line => 2,
            Fault::Io => 1,
        }
    }
}

impl fmt::Display for Fault {
    fn fmt(&self, f: &mut fmt::Formatter<'_>) -> fmt::Result {
        match self {
            Fault::Departure => f.write_str("an argument names no departure"),
            Fault::Line => f.write_str("a script is wrong"),
            Fault::Io => f.write_str("input or output failed, or no thread could be made"),
        }
    }
}

impl From<io::Error> for Fault {
    fn from(_error: io::Error) -> Fault {
        Fault::Io
    }
}
