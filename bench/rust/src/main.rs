//! Runs the workloads of one thread of `crates/span_bench` on the crate `tracing-subscriber`.
//!
//! Input, output and the steps of each round are those of `span_bench`, in modules of the same names. With the argument `macros`
//! spans and events are made by the macros of `tracing`, else by calls of the stack itself.

mod counter;
mod fault;
mod keeper;
mod layers;
mod macros;
mod order;
mod rounds;
mod run;
mod site;
mod workload;

use run::Way;
use std::process::ExitCode;
use std::{env, io};

fn main() -> ExitCode {
    let way = match env::args().nth(1).as_deref() {
        Some("macros") => Way::Macros,
        _ => Way::Bare,
    };
    match run::run(way, &mut io::stdin(), &mut io::stdout()) {
        Ok(()) => ExitCode::SUCCESS,
        Err(fault) => {
            eprintln!("{fault}");
            ExitCode::from(fault.status())
        }
    }
}
