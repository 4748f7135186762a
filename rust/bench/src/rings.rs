//! Crowded yards, where nearly all the work is looking for the nearest empty bay: sought bay by bay from a queue, and a whole ring at a time in words.

use crate::timing::{least, median, ratio, written};
use crate::yard;
use reference::{plan_by, Seeking};
use sejjekoru::numbers;
use std::hint::black_box;
use std::time::Duration;
use yards::{grid, Dice, Order};

const ORDERS: u64 = 15;
const BUDGET: Duration = Duration::from_millis(60);

pub fn table() {
    println!("\n## The nearest empty bay on crowded grids: bay by bay, and a ring at a time\n");
    println!(
        "Both are the reference's planner and keep nothing; only the search differs. The plans are the same. The median of {ORDERS} orders.\n"
    );
    println!("| Yard | Carriers | Crossings | Bay by bay | A ring at a time | Bay by bay / rings | Library |");
    println!("|---|---|---|---|---|---|---|");
    for (side, carriers) in [(8, 62), (16, 200), (16, 240), (16, 254)] {
        row(side, carriers);
    }
}

fn row(side: usize, carriers: usize) {
    let (mut queue, mut rings, mut library, mut crossings) = (Vec::new(), Vec::new(), Vec::new(), Vec::new());
    for seed in 0..ORDERS {
        let order = Order::on(side * side, grid(side, side)).with_carriers(carriers, &mut Dice::new(seed));
        let Order { bays, rails, start, goal } = &order;
        let mut out = [vec![0; 65_536], vec![0; 65_536], vec![0; 65_536]];
        let (number, value, _) = numbers::plan(yard(&order), &mut out[0]);
        for (place, seeking) in [(1, Seeking::ByRings), (2, Seeking::BayByBay)] {
            assert_eq!(plan_by(seeking, *bays, rails, start, goal, &mut out[place]), (number, value));
            assert!(out[place] == out[0]);
        }
        let [mine, by_rings, by_queue] = &mut out;
        let [one, other, third] = least(
            BUDGET,
            || plan_by(Seeking::BayByBay, *bays, black_box(rails), start, goal, by_queue),
            || plan_by(Seeking::ByRings, *bays, black_box(rails), start, goal, by_rings),
            || numbers::plan(yard(black_box(&order)), mine),
        );
        queue.push(one);
        rings.push(other);
        library.push(third);
        crossings.push(value);
    }
    let (one, other, third) = (median(&mut queue), median(&mut rings), median(&mut library));
    let cells = [written(one), written(other), ratio(one, other), written(third)];
    println!("| grid {side} × {side} | {carriers} | {} | {} |", median(&mut crossings), cells.join(" | "));
}
