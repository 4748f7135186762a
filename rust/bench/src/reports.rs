//! Check, slots and report: how they grow with the plan and with the yard.

use crate::timing::{race, ratio, written};
use crate::yard;
use sejjekoru::numbers;
use std::hint::black_box;
use std::time::Duration;
use yards::{grid, wander, Dice, Order};

pub const LENGTHS: [usize; 4] = [8_192, 16_384, 32_768, 65_536];

pub fn tables() {
    println!("\n## Check, slots and report by the plan's length: grid 16 × 16, 128 carriers\n");
    head("Crossings");
    for crossings in LENGTHS {
        let (order, plan) = wandered(16, 16, 128, crossings);
        row(&crossings.to_string(), &order, &plan);
    }
    println!("\n## Check, slots and report by the number of bays: no crossing, then 8,192\n");
    head("Bays");
    for (width, height) in [(4, 4), (8, 8), (16, 8), (16, 16)] {
        for crossings in [0, 8_192] {
            let (order, plan) = wandered(width, height, width * height / 2, crossings);
            row(&format!("{}, {crossings} crossings", width * height), &order, &plan);
        }
    }
}

pub fn wandered(width: usize, height: usize, carriers: usize, crossings: usize) -> (Order, Vec<u64>) {
    let mut dice = Dice::new(7);
    let order = Order::on(width * height, grid(width, height)).with_carriers(carriers, &mut dice);
    wander(order, crossings, &mut dice)
}

fn head(first: &str) {
    println!("| {first} | Check: library | Reference | Ratio | Slots: library | Reference | Ratio | Report: library | Reference | Ratio |");
    println!("|---|---|---|---|---|---|---|---|---|---|");
}

fn row(first: &str, order: &Order, plan: &[u64]) {
    let cells = [check(order, plan), slots(order, plan), report(order, plan)];
    let cells = cells.map(|(one, other)| format!("{} | {} | {}", written(one), written(other), ratio(one, other)));
    println!("| {first} | {} |", cells.join(" | "));
}

pub const BUDGET: Duration = Duration::from_millis(300);

fn check(order: &Order, plan: &[u64]) -> (Duration, Duration) {
    let Order { bays, rails, start, goal } = order;
    assert_eq!(numbers::check(yard(order), plan), (0, 0));
    assert_eq!(reference::check(*bays, rails, start, goal, plan), (0, 0));
    race(BUDGET, || numbers::check(yard(order), black_box(plan)), || reference::check(*bays, rails, start, goal, black_box(plan)))
}

fn slots(order: &Order, plan: &[u64]) -> (Duration, Duration) {
    let Order { bays, rails, start, goal } = order;
    let (mut one, mut other) = (vec![0; plan.len()], vec![0; plan.len()]);
    let answer = numbers::slots(yard(order), plan, &mut one);
    assert_eq!(answer, reference::slots(*bays, rails, start, goal, plan, &mut other));
    assert!(answer == (0, plan.len() as u64) && one == other);
    race(
        BUDGET,
        || numbers::slots(yard(order), black_box(plan), &mut one),
        || reference::slots(*bays, rails, start, goal, black_box(plan), &mut other),
    )
}

/// The last crossing is reported while all before it are done: nothing ends the work early, and it is accepted. Its mark is taken back
/// each time. A plan of no crossings answers 12.
fn report(order: &Order, plan: &[u64]) -> (Duration, Duration) {
    let Order { bays, rails, start, goal } = order;
    let (mut one, mut other) = (vec![1; plan.len()], vec![1; plan.len()]);
    let name = plan.len().saturating_sub(1);
    let fresh = |marks: &mut [u8]| marks.iter_mut().skip(name).for_each(|mark| *mark = 0);
    let expected = if plan.is_empty() { (12, 0) } else { (0, 0) };
    let mut of_library = || {
        fresh(&mut one);
        numbers::report(yard(order), black_box(plan), &mut one, name as u64)
    };
    let mut of_reference = || {
        fresh(&mut other);
        reference::report(*bays, rails, start, goal, black_box(plan), &mut other, name as u64)
    };
    assert_eq!((of_library(), of_reference()), (expected, expected));
    race(BUDGET, of_library, of_reference)
}
