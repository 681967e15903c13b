//! Runs the workloads of threads of `crates/span_bench` on the crate `tracing-subscriber`.
//!
//! Input, output and the steps of each round are those of `span_bench`, in modules of the same names, but for `thread_` before some of
//! them there. With the argument `one` the layer counts in one number that all threads add to, else each thread in one of its own.

mod counter;
mod crew;
mod fault;
mod order;
mod receiver;
mod rounds;
mod run;
#[path = "../../site.rs"]
mod site;
mod workload;

use counter::{Counter, One, Own};
use std::process::ExitCode;
use std::{env, io};

fn main() -> ExitCode {
    let one = env::args().nth(1).is_some_and(|word| word == "one");
    let (reader, writer) = (&mut io::stdin(), &mut io::stdout());
    let done = if one {
        run::run::<Counter<One>, _, _>(reader, writer)
    } else {
        run::run::<Counter<Own>, _, _>(reader, writer)
    };
    match done {
        Ok(()) => ExitCode::SUCCESS,
        Err(fault) => {
            eprintln!("{fault}");
            ExitCode::from(fault.status())
        }
    }
}
