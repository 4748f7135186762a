//! How long the proved library takes and how long the Rust reference takes, in one run on the same inputs, as tables for docs/FIGURES.md.
//! A time is that of the thread on its core, the minimum of several repeats; of several yards the median is shown. Nothing here passes or fails by the clock.

mod bills;
mod compare;
mod lean;
mod plans;
mod reports;
mod reversing;
mod rings;
mod shortening;
mod sizes;
mod timing;
mod trains;

use sejjekoru::Yard;
use yards::Order;

/// With a table's name as the argument that table alone.
fn main() {
    match std::env::args().nth(1).as_deref() {
        Some("plans") => return plans::tables(),
        Some("lean") => return lean::table(),
        Some("rings") => return rings::table(),
        Some("sizes") => return sizes::tables(),
        Some("shortening") => return shortening::tables(),
        Some("bills") => return bills::tables(),
        Some("compare") => return compare::tables(),
        Some("reversing") => return reversing::table(),
        Some("trains") => return trains::tables(),
        Some("reports") => return reports::tables(),
        _ => {}
    }
    plans::tables();
    lean::table();
    sizes::tables();
    rings::table();
    reports::tables();
    shortening::tables();
    bills::tables();
    compare::tables();
    reversing::table();
    trains::tables();
}

fn yard(order: &Order) -> Yard<'_> {
    let Order { bays, rails, start, goal } = order;
    Yard::new(*bays, rails, start, goal)
}
