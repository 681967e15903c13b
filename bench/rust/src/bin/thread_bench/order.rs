//! What a line asks for.

use crate::workload::Workload;

/// Some rounds of a workload, in each of so many threads.
#[derive(Clone, Copy)]
pub struct Order {
    pub workload: Workload,
    pub threads: u32,
    pub rounds: u32,
}

impl Order {
    /// What a line asks for, if it is a workload's name, 1, 2 or 4 threads and a number of rounds, with one space between.
    pub fn of(line: &str) -> Option<Order> {
        let (name, numbers) = line.split_once(' ')?;
        let (threads, rounds) = numbers.split_once(' ')?;
        let order = Order {
            workload: Workload::of(name)?,
            threads: threads.parse().ok()?,
            rounds: rounds.parse().ok()?,
        };
        match order.threads {
            1 | 2 | 4 => Some(order),
            _ => None,
        }
    }
}
