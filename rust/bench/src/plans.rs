//! The planner on crowded grids, lines with sidings, random yards and two slow ones.

use crate::timing::{median, race, ratio, written};
use crate::yard;
use sejjekoru::numbers;
use std::hint::black_box;
use std::time::Duration;
use yards::{comb, connected, grid, line_with_sidings, reversed, Dice, Order};

pub const ROOM: usize = 65_536;

pub fn tables() {
    println!("## Planning\n");
    println!("| Yard | Carriers | Yards | Crossings: minimum, median, maximum | Library | Reference | Ratio | Slowest, library |");
    println!("|---|---|---|---|---|---|---|---|");
    for carriers in [60, 128, 200, 240, 254] {
        let orders = (0..15).map(|seed| carried(grid(16, 16), carriers, seed)).collect();
        row("grid 16 × 16", orders);
    }
    for (every, carriers) in [(4, 20), (4, 40)] {
        let orders = (0..15).map(|seed| carried(line_with_sidings(256, every), carriers, seed)).collect();
        row("line, siding at every fourth", orders);
    }
    for carriers in [60, 128, 200, 240, 254] {
        row("random, 1,024 rails", (0..15).map(|seed| random(carriers, seed)).collect());
    }
    row("line, siding at every fourth, in reverse", vec![reversed(line_with_sidings(256, 4), 52)]);
    row("line, siding at every bay, in reverse", vec![reversed(comb(256), 126)]);
}

pub fn carried(rails: Vec<u16>, carriers: usize, seed: u64) -> Order {
    Order::on(256, rails).with_carriers(carriers, &mut Dice::new(seed))
}

pub fn random(carriers: usize, seed: u64) -> Order {
    let mut dice = Dice::new(1_000 + seed);
    Order::on(256, connected(256, 1_024, 256, &mut dice)).with_carriers(carriers, &mut dice)
}

pub struct Timed {
    pub library: Duration,
    pub reference: Duration,
    /// Those needed, in a refusal for want of room too; 0 where the procedure stops.
    pub crossings: u64,
}

fn row(name: &str, orders: Vec<Order>) {
    let carriers = orders[0].start.len();
    let timed: Vec<Timed> = orders.iter().map(time).collect();
    let mut crossings: Vec<u64> = timed.iter().map(|timed| timed.crossings).collect();
    let mut library: Vec<Duration> = timed.iter().map(|timed| timed.library).collect();
    let mut reference: Vec<Duration> = timed.iter().map(|timed| timed.reference).collect();
    let crossing = median(&mut crossings);
    let (one, other) = (median(&mut library), median(&mut reference));
    println!(
        "| {name} | {carriers} | {} | {}, {crossing}, {} | {} | {} | {} | {} |",
        orders.len(),
        crossings[0],
        crossings[crossings.len() - 1],
        written(one),
        written(other),
        ratio(one, other),
        written(library[library.len() - 1]),
    );
}

/// Both on one order.
fn time(order: &Order) -> Timed {
    time_within(Duration::from_millis(100), order)
}

/// The same, in so much time and as often as that allows: once at least.
pub fn time_within(budget: Duration, order: &Order) -> Timed {
    let Order { bays, rails, start, goal } = order;
    let (mut out, mut other) = (vec![0; ROOM], vec![0; ROOM]);
    let answer = numbers::plan(yard(order), &mut out);
    assert_eq!(answer, reference::plan_parked(*bays, rails, start, goal, &mut other));
    assert!(out == other);
    let (library, reference) = race(
        budget,
        || numbers::plan(yard(black_box(order)), &mut out),
        || reference::plan_parked(*bays, black_box(rails), start, goal, &mut other),
    );
    let crossings = if matches!(answer.0, 0 | 8) { answer.1 } else { 0 };
    Timed { library, reference, crossings }
}
