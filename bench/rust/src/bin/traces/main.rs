//! Serves scripts as `crates/span_run` does, by the crate `tracing-subscriber`.
//!
//! Standard input has scripts, each with a line `--` behind it, and standard output what comes of
//! each, with such a line behind it. Arguments name departures of the port from the crate, and the
//! crate is then called so that it answers as the port does there. Each lane is a thread.

mod departures;
mod fault;
mod lane;
mod mute;
mod receiver;
mod recorder;
mod request;
mod script;
mod site;
mod sites;
mod stack;

use departures::Departures;
use fault::Fault;
use std::io::{Read, Write};
use std::process::ExitCode;
use std::{env, io, panic};

/// The line behind each script, and behind what comes of it.
const END: &str = "--\n";

fn main() -> ExitCode {
    // What comes of a script says that the crate panicked.
    panic::set_hook(Box::new(|_| {}));
    match run(&mut io::stdin(), &mut io::stdout()) {
        Ok(()) => ExitCode::SUCCESS,
        Err(fault) => {
            eprintln!("{fault}");
            ExitCode::from(fault.status())
        }
    }
}

fn run<R: Read, W: Write>(reader: &mut R, writer: &mut W) -> Result<(), Fault> {
    let departures = Departures::of(env::args().skip(1))?;
    let mut text = String::new();
    reader.read_to_string(&mut text)?;
    for script in text.split_terminator(END) {
        write!(writer, "{}{END}", script::served(script, departures)?)?;
    }
    Ok(())
}
