//! From lines to rounds.

use crate::crew::Counts;
use crate::fault::Fault;
use crate::order::Order;
use std::io::{Read, Write};

/// Does what each line asks for, and prints how many requests were made, and how many notices the layer counted.
pub fn run<L: Counts, R: Read, W: Write>(reader: &mut R, writer: &mut W) -> Result<(), Fault> {
    let mut text = String::new();
    reader.read_to_string(&mut text)?;
    for line in text.lines() {
        let order = Order::of(line).ok_or(Fault::Line)?;
        let tally = L::done(order)?;
        writeln!(
            writer,
            "{} {}: {} requests, {} notices",
            order.workload.name(),
            order.threads,
            tally.requests,
            tally.notices
        )?;
    }
    Ok(())
}
