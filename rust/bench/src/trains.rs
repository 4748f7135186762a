//! Slots by the second edition: how they grow with the plan, and how many slots they save on the planner's own plans.

use crate::reports::{wandered, BUDGET, LENGTHS};
use crate::timing::{race, ratio, written};
use crate::yard;
use sejjekoru::{numbers, trains};
use std::hint::black_box;
use std::time::Duration;
use yards::{grid, Dice, Order};

pub fn tables() {
    println!("\n## Train slots by the plan's length: grid 16 × 16, 128 carriers\n");
    println!("| Crossings | Library | Reference | Ratio |");
    println!("|---|---|---|---|");
    for crossings in LENGTHS {
        let (order, plan) = wandered(16, 16, 128, crossings);
        let (one, other) = raced(&order, &plan);
        println!("| {crossings} | {} | {} | {} |", written(one), written(other), ratio(one, other));
    }
    println!("\n## Slots of the planner's plans, first and second edition: grid 16 × 16, 20 orders at random each\n");
    println!("| Carriers | Crossings | First edition | Second | Saved |");
    println!("|---|---|---|---|---|");
    for carriers in [20, 50, 100, 150, 200] {
        println!("| {carriers} | {} |", saved(carriers));
    }
}

fn raced(order: &Order, plan: &[u64]) -> (Duration, Duration) {
    let Order { bays, rails, start, goal } = order;
    let (mut one, mut other) = (vec![0; plan.len()], vec![0; plan.len()]);
    let answer = trains::numbers(2, yard(order), plan, &mut one);
    assert_eq!(answer, reference::slots_of(2, *bays, rails, start, goal, plan, &mut other));
    assert!(answer == (0, plan.len() as u64) && one == other);
    race(
        BUDGET,
        || trains::numbers(2, yard(order), black_box(plan), &mut one),
        || reference::slots_of(2, *bays, rails, start, goal, black_box(plan), &mut other),
    )
}

/// The sums over the orders that are planned within the limit: crossings, the highest slot by each edition, and the part saved.
fn saved(carriers: usize) -> String {
    let mut room = vec![0; 65_536];
    let (mut crossings, mut first, mut second) = (0, 0, 0);
    for seed in 0..20 {
        let mut dice = Dice::new(0x0800 + seed);
        let order = Order::on(256, grid(16, 16)).with_carriers(carriers, &mut dice);
        let (number, length, _) = numbers::plan(yard(&order), &mut room);
        if number != 0 {
            continue;
        }
        let plan = &room[..length as usize];
        let highest = |edition: u64| {
            let mut slots = vec![0; plan.len()];
            assert_eq!(trains::numbers(edition, yard(&order), plan, &mut slots), (0, length));
            slots.iter().copied().max().unwrap_or(0) as u64
        };
        crossings += length;
        first += highest(1);
        second += highest(2);
    }
    let part = 100.0 * (first - second) as f64 / first.max(1) as f64;
    format!("{crossings} | {first} | {second} | {part:.0} %")
}
