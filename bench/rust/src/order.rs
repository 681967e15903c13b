//! What a line asks for.

use crate::workload::Workload;

/// What a round is done on, as `span_bench` says.
#[derive(Clone, Copy)]
pub enum Stack {
    Plain,
    Filters(u32),
    List(u32),
    Nested(u32),
    Keeper,
    Directives(u32),
}

impl Stack {
    /// The stack that is named so.
    pub fn of(name: &str) -> Option<Stack> {
        match name {
            "plain" => return Some(Stack::Plain),
            "keeper" => return Some(Stack::Keeper),
            _ => {}
        }
        let (name, layers) = name.split_once('=')?;
        let layers = layers.parse().ok()?;
        match name {
            "filters" => Some(Stack::Filters(layers)),
            "list" => Some(Stack::List(layers)),
            "nested" => Some(Stack::Nested(layers)),
            "directives" => Some(Stack::Directives(layers)),
            _ => None,
        }
    }
}

/// Some rounds of a workload on a stack.
#[derive(Clone, Copy)]
pub struct Order {
    pub workload: Workload,
    pub stack: Stack,
    pub size: u32,
    pub rounds: u32,
}

impl Order {
    /// What a line asks for, if it is a workload's name, a stack's and two numbers with one space between.
    pub fn of(line: &str) -> Option<Order> {
        let (workload, rest) = line.split_once(' ')?;
        let (stack, numbers) = rest.split_once(' ')?;
        let (size, rounds) = numbers.split_once(' ')?;
        Some(Order {
            workload: Workload::of(workload)?,
            stack: Stack::of(stack)?,
            size: size.parse().ok()?,
            rounds: rounds.parse().ok()?,
        })
    }
}
