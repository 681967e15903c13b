//! From lines to rounds.

use crate::fault::Fault;
use crate::keeper::Keeper;
use crate::order::{Order, Stack};
use crate::rounds;
use crate::workload::Workload;
use crate::{layers, macros};
use std::io::{Read, Write};
use tracing_core::dispatcher::{set_default, Dispatch};
use tracing_subscriber::layer::{Identity, Layer, SubscriberExt};
use tracing_subscriber::Registry;

/// How spans and events are made.
#[derive(Clone, Copy)]
pub enum Way {
    /// By calls of the stack.
    Bare,
    /// By the macros of `tracing`, of new spans, entered spans and events.
    Macros,
}

/// Does what each line asks for, and prints it with how many rounds were done.
pub fn run<R: Read, W: Write>(way: Way, reader: &mut R, writer: &mut W) -> Result<(), Fault> {
    let mut text = String::new();
    reader.read_to_string(&mut text)?;
    for line in text.lines() {
        let order = Order::of(line).ok_or(Fault::Line)?;
        let done = done(way, order)?;
        writeln!(writer, "{line}: {done}")?;
    }
    Ok(())
}

/// Does what is asked for. Answers how many rounds were done, which are all.
fn done(way: Way, order: Order) -> Result<u32, Fault> {
    match order.stack {
        Stack::Plain => done_with(way, Identity::new(), order),
        Stack::Filters(count) => done_with(way, layers::filtered(count), order),
        Stack::List(count) => done_with(way, layers::listed(count), order),
        Stack::Nested(4) => done_with(way, layers::four(), order),
        Stack::Nested(16) => {
            let eight = layers::four().and_then(layers::four());
            let others = layers::four().and_then(layers::four());
            done_with(way, eight.and_then(others), order)
        }
        Stack::Nested(_) => Err(Fault::Line),
        Stack::Keeper => done_with(way, Keeper, order),
        Stack::Directives(count) => done_with(way, layers::directed(count), order),
    }
}

/// Does the rounds with this layer on a registry.
fn done_with<L: Layer<Registry> + Send + Sync>(
    way: Way,
    layer: L,
    order: Order,
) -> Result<u32, Fault> {
    done_on(way, Registry::default().with(layer), order)
}

/// Does the rounds on this stack.
///
/// A dispatcher puts it in use, and is the thread's default: by that the crate closes parents, and
/// drops what the stack of entered spans held. All other bare calls go to the stack itself.
fn done_on<S: rounds::Stack>(way: Way, stack: S, order: Order) -> Result<u32, Fault> {
    let dispatch = Dispatch::new(stack);
    let _default = set_default(&dispatch);
    let stack = dispatch.downcast_ref::<S>().ok_or(Fault::Undone)?;
    let Order { size, rounds, .. } = order;
    match (way, order.workload) {
        (Way::Bare, Workload::NewAndDrop) => rounds::new_and_drop(stack, size, rounds),
        (Way::Bare, Workload::EnterAndExit) => rounds::enter_and_exit(stack, rounds),
        (Way::Bare, Workload::Event) => rounds::event(stack, size, rounds),
        (Way::Bare, Workload::Cascade) => rounds::cascade(stack, size, rounds),
        (Way::Bare, Workload::Scope) => rounds::scope(stack, size, rounds),
        (Way::Bare, Workload::FromRoot) => rounds::from_root(stack, size, rounds),
        (Way::Bare, Workload::Replace) => rounds::replace(stack, size, rounds),
        (Way::Macros, Workload::NewAndDrop) => Ok(macros::new_and_drop(rounds)),
        (Way::Macros, Workload::EnterAndExit) => Ok(macros::enter_and_exit(rounds)),
        (Way::Macros, Workload::Event) => Ok(macros::event(rounds)),
        (Way::Macros, Workload::Values) => Ok(macros::values(rounds)),
        (Way::Macros, Workload::AboveHint) => Ok(macros::above_hint(rounds)),
        (Way::Macros, Workload::Guarded) => Ok(macros::guarded(rounds)),
        _ => Err(Fault::Line),
    }
}
