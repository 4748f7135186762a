//! Shortening: how it grows with the plan. The reference's way that drops all trips at once is raced; its plain one takes minutes for such plans.

use crate::reports::{BUDGET, LENGTHS};
use crate::timing::{race, ratio, written};
use crate::yard;
use sejjekoru::numbers;
use std::hint::black_box;
use yards::{grid, Dice, Order};

const CARRIERS: [usize; 3] = [128, 200, 240];

pub fn tables() {
    println!("\n## Shortening by the plan's length: orders one after the other on a grid 16 × 16\n");
    let columns = CARRIERS.map(|carriers| format!("{carriers} carriers: left | Library | Reference | Ratio"));
    println!("| Crossings | {} |", columns.join(" | "));
    println!("|---{}|", "|---".repeat(4 * CARRIERS.len()));
    for crossings in LENGTHS {
        let cells = CARRIERS.map(|carriers| cell(carriers, crossings));
        println!("| {crossings} | {} |", cells.join(" | "));
    }
}

/// What is left passes the check, and shortening it again changes nothing.
fn cell(carriers: usize, crossings: usize) -> String {
    let (order, plan) = day(carriers, crossings);
    let marks = vec![0; plan.len()];
    let mut out = vec![0; plan.len()];
    let (number, left) = numbers::shorten(yard(&order), &plan, &marks, &mut out);
    assert_eq!(number, 0);
    let kept = out[..left as usize].to_vec();
    assert_eq!(numbers::check(yard(&order), &kept), (0, 0));
    assert_eq!(numbers::shorten(yard(&order), &kept, &marks[..kept.len()], &mut out), (0, left));
    assert!(out[..kept.len()] == kept);
    let Order { bays, rails, start, goal } = &order;
    let mut other = vec![0; plan.len()];
    assert_eq!(reference::shorten_at_once(*bays, rails, start, goal, &plan, &marks, &mut other), (0, left));
    assert!(other[..kept.len()] == kept);
    let (library, reference) = race(
        BUDGET,
        || numbers::shorten(yard(&order), black_box(&plan), &marks, &mut out),
        || reference::shorten_at_once(*bays, rails, start, goal, black_box(&plan), &marks, &mut other),
    );
    format!("{left} | {} | {} | {}", written(library), written(reference), ratio(library, reference))
}

/// The planner's plans for orders at random, each from where the one before ended, cut off at so many crossings; as one order.
fn day(carriers: usize, crossings: usize) -> (Order, Vec<u64>) {
    let mut dice = Dice::new(10);
    let first = Order::on(256, grid(16, 16)).with_carriers(carriers, &mut dice);
    let mut next = first.clone();
    let mut room = vec![0; 65_536];
    let mut plan = Vec::new();
    while plan.len() < crossings {
        let (number, length, _) = numbers::plan(yard(&next), &mut room);
        assert_eq!(number, 0);
        plan.extend(&room[..length as usize]);
        next.start = next.goal;
        next.goal = dice.shuffled(256);
        next.goal.truncate(carriers);
    }
    plan.truncate(crossings);
    let mut whole = first;
    whole.goal = whole.start.clone();
    plan.iter().for_each(|&number: &u64| whole.goal[(number >> 32) as usize] = number as u16);
    (whole, plan)
}
