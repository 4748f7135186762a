//! Compares the proved library with the Rust reference on many inputs from fixed seeds: answers, carried values, and the end contents of
//! every lent list with the places around it. Given the file program's path, that program too.
//! It ends with 1 at the first disagreement, and where some answer's number never came up.

mod bills;
mod books;
mod carousels;
mod compare;
mod files;
mod lent;
mod link;
mod orders;
mod placement;
mod plans;
mod readback;
mod reverse;
mod survey;
mod tally;
mod trains;

use lent::Asked;
use tally::Tally;
use yards::{line_with_sidings, reversed, Dice, Order};

const ORDERS: u64 = 60_000;
const PLANS: u64 = 60_000;

fn main() {
    let mut tallies = Vec::new();
    readback::run();
    tallies.push(planning());
    tallies.push(carousels::run());
    tallies.extend(plan_by_plan());
    tallies.push(shortening());
    tallies.push(trains::slots_of());
    tallies.extend(bills::one_by_one());
    tallies.push(bills::runs());
    tallies.push(compare::run());
    tallies.push(reverse::lists());
    tallies.push(placement::run());
    tallies.extend(link::run());
    tallies.extend(survey::run());
    if let Some(program) = std::env::args().nth(1) {
        tallies.push(files::run(&program));
    }
    if !tally::print(&tallies) {
        std::process::exit(1);
    }
}

/// Orders, each with a room that is just enough, too small by one, ample or none at all.
fn planning() -> Tally {
    let mut tally = Tally::new("plan", &[0, 1, 2, 3, 4, 5, 6, 7, 8]);
    let mut ample = vec![0; 65_536];
    for seed in 0..ORDERS {
        let mut dice = Dice::new(seed);
        let order = orders::any(&mut dice, 256);
        let (_, needed) = reference::plan(order.bays, &order.rails, &order.start, &order.goal, &mut ample);
        let room = orders::room(&mut dice, needed as usize);
        tally.add(Asked::new(&order).plan(room));
    }
    for (order, room) in orders::at_the_limits() {
        tally.add(Asked::new(&order).plan(room));
    }
    // Plans that are longer than their yard and carriers let expect: the planner makes them a second time, with more room.
    for order in [12, 14, 16, 18, 20, 22].map(|carriers| reversed(line_with_sidings(256, 4), carriers)) {
        let (_, needed) = reference::plan(order.bays, &order.rails, &order.start, &order.goal, &mut ample);
        for room in [0, needed as usize - 1, needed as usize, 65_536] {
            tally.add(Asked::new(&order).plan(room));
        }
    }
    tally
}

/// Orders with plans, marks and names: each is checked, slotted and reported on.
fn plan_by_plan() -> [Tally; 3] {
    let common = [0, 1, 2, 3, 4, 5, 6, 9, 10];
    let mut check = Tally::new("check", &common);
    let mut slots = Tally::new("slots", &[&common[..], &[8]].concat());
    let mut report = Tally::new("report", &[&common[..], &[11, 12, 13, 100]].concat());
    for seed in 0..PLANS {
        let mut dice = Dice::new(0x0100_0000 + seed);
        let (order, plan) = plans::any(&mut dice);
        let marks = plans::marks(&mut dice, &plan);
        let name = plans::name(&mut dice, &marks);
        let room = orders::room(&mut dice, plan.len());
        let asked = Asked::new(&order);
        check.add(asked.check(&plan));
        slots.add(asked.slots(&plan, room));
        report.add(asked.report(&plan, &marks, name));
    }
    [check, slots, report]
}

/// Longer plans are shortened by the reference at once: its plain way would take minutes for one.
pub const LONG: usize = 4_000;

/// Plans that wander, that the reference made, that are neither; rooms around the length that is left. The reference's two ways leave the same of each
/// that is not long.
fn shortening() -> Tally {
    let mut tally = Tally::new("shorten", &[0, 1, 2, 3, 4, 5, 6, 8, 9, 10, 11, 25]);
    let mut shorter = 0;
    for seed in 0..PLANS {
        let mut dice = Dice::new(0x0400_0000 + seed);
        let (order, plan) = plans::any(&mut dice);
        let marks = plans::fresh_or_not(&mut dice, &plan);
        let Order { bays, rails, start, goal } = &order;
        let (mut ample, mut other) = (vec![0; plan.len()], vec![0; plan.len()]);
        let (number, left) = reference::shorten_at_once(*bays, rails, start, goal, &plan, &marks, &mut ample);
        if plan.len() <= LONG {
            assert_eq!((number, left), reference::shorten(*bays, rails, start, goal, &plan, &marks, &mut other));
            assert!(ample == other);
        }
        shorter += (number == 0 && left < plan.len() as u64) as u64;
        let room = orders::room(&mut dice, left as usize);
        tally.add(Asked::new(&order).shorten(&plan, &marks, room));
    }
    println!("{shorter} of the plans to be shortened have a trip there and back\n");
    tally
}
