//! Writes what passes by texts as `bench/rows.rattle` does, by the crate's `EnvFilter`.
//!
//! A line of standard input is a text. Behind a tab it may have a digit for each span that is tried: only where that is 1, or where an
//! event of its target and level would pass, does the span pass. With the argument `entered` a root is entered once what was entered
//! before has been left.

#[allow(dead_code)]
#[path = "../traces/recorder.rs"]
mod recorder;
mod row;
#[path = "../traces/site.rs"]
mod site;
mod tried;

use std::io::{BufRead, Write};
use std::{env, io};

fn main() -> io::Result<()> {
    let leaves = env::args().nth(1).is_some_and(|word| word == "entered");
    let mut rows = String::new();
    for line in io::stdin().lock().lines() {
        let line = line?;
        let (text, named) = match line.split_once('\t') {
            Some((text, named)) => (text, Some(named.as_bytes())),
            None => (line.as_str(), None),
        };
        row::write_rows(text, named, leaves, &mut rows);
        rows.push('\n');
    }
    io::stdout().write_all(rows.as_bytes())
}
