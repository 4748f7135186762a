//! The planner by size: yards of 16 to 256 bays of six shapes, from a quarter full to two bays empty; then how its time grows with bays, carriers and
//! crossings. All of it takes about two minutes.

use crate::plans::{time_within, Timed};
use crate::timing::{median, ratio, written};
use std::time::{Duration, Instant};
use yards::{comb, connected, grid, line_with_sidings, reversed, ring, walled, Dice, Order};

const SIDES: [usize; 6] = [4, 6, 8, 10, 12, 16];
const SHAPES: [&str; 6] = ["grid", "grid with walls", "random tree", "line, siding at every fourth", "ring", "comb"];
/// Parts of the bays that have a carrier, in percent.
const LOADS: [usize; 4] = [25, 50, 75, 90];

/// So many orders a cell, all in this time; of slow ones fewer, but one at least.
const ORDERS: u64 = 5;
const CELL: Duration = Duration::from_millis(450);

pub fn tables() {
    println!("\n## Planning by size\n");
    println!(
        "Each cell: library, reference, ratio; the median of five orders, of fewer where they are slow; (7) where most are refused so.\n"
    );
    println!("| Yard | Bays | 25 % full | 50 % | 75 % | 90 % | two bays empty |");
    println!("|---|---|---|---|---|---|---|");
    for shape in SHAPES {
        for side in SIDES {
            let bays = side * side;
            let loads = LOADS.map(|load| bays * load / 100);
            let cells: Vec<String> = loads.into_iter().chain([bays - 2]).map(|carriers| cell(shape, side, carriers)).collect();
            println!("| {shape} | {bays} | {} |", cells.join(" | "));
        }
    }
    by_bays();
    by_carriers();
    by_crossings();
}

/// The same order at every run, for a shape with so many bays along a side.
fn order(shape: &str, side: usize, carriers: usize, seed: u64) -> Order {
    let bays = side * side;
    let mut dice = Dice::new(0x5_0000 + seed);
    let rails = match shape {
        "grid" => grid(side, side),
        "grid with walls" => walled(bays, &mut dice),
        "random tree" => connected(bays, bays - 1, bays, &mut dice),
        "ring" => return Order::on(bays, ring(bays)).in_turn(carriers, &mut dice),
        "comb" => comb(bays),
        _ => line_with_sidings(bays, 4),
    };
    Order::on(bays, rails).with_carriers(carriers, &mut dice)
}

fn cell(shape: &str, side: usize, carriers: usize) -> String {
    let Timed { library, reference, crossings } = middle((0..ORDERS).map(|seed| order(shape, side, carriers, seed)));
    let stopped = if crossings == 0 { " (7)" } else { "" };
    format!("{}, {}, {}{stopped}", written(library), written(reference), ratio(library, reference))
}

/// The medians of time and crossings, each by itself.
fn middle(orders: impl Iterator<Item = Order>) -> Timed {
    let begun = Instant::now();
    let mut timed: Vec<Timed> = Vec::new();
    for order in orders {
        if timed.is_empty() || begun.elapsed() < CELL {
            timed.push(time_within(CELL / ORDERS as u32, &order));
        }
    }
    let mut library: Vec<Duration> = timed.iter().map(|timed| timed.library).collect();
    let mut reference: Vec<Duration> = timed.iter().map(|timed| timed.reference).collect();
    let mut crossings: Vec<u64> = timed.iter().map(|timed| timed.crossings).collect();
    Timed { library: median(&mut library), reference: median(&mut reference), crossings: median(&mut crossings) }
}

fn head(title: &str, first: &str) {
    println!("\n## How planning grows with {title}\n");
    println!("| {first} | Crossings | Library | Reference | Ratio | Library, a crossing |");
    println!("|---|---|---|---|---|---|");
}

fn row(first: &str, timed: Timed) {
    let Timed { library, reference, crossings } = timed;
    let each = library.as_secs_f64() * 1e9 / crossings.max(1) as f64;
    println!("| {first} | {crossings} | {} | {} | {} | {each:.0} ns |", written(library), written(reference), ratio(library, reference));
}

fn by_bays() {
    head("bays: grids, half full and with two bays empty", "Bays, carriers");
    for side in SIDES {
        for carriers in [side * side / 2, side * side - 2] {
            row(&format!("{}, {carriers}", side * side), middle((0..ORDERS).map(|seed| order("grid", side, carriers, seed))));
        }
    }
}

fn by_carriers() {
    head("carriers: grid 16 × 16", "Carriers");
    for carriers in [16, 32, 64, 128, 192, 224, 240, 248, 254] {
        row(&carriers.to_string(), middle((0..ORDERS).map(|seed| order("grid", 16, carriers, seed))));
    }
}

fn by_crossings() {
    head("crossings: line of 256 bays, siding at every fourth, carriers in reverse", "Carriers");
    for carriers in [4, 8, 16, 24, 32, 40] {
        row(&carriers.to_string(), middle([reversed(line_with_sidings(256, 4), carriers)].into_iter()));
    }
}
