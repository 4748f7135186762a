//! Plans that are legal, damaged or mere noise, and marks and names for them.

use crate::orders;
use yards::{grid, wander, Dice, Order};

/// An order and a plan: the reference's for it, or one that wanders and whose end is the goal; half of them damaged.
pub fn any(dice: &mut Dice) -> (Order, Vec<u64>) {
    match dice.below(1_000) {
        0..4 => return around_the_limit(dice),
        4..60 => {
            let order = orders::any(dice, 256);
            return (order, noise(dice));
        }
        60..160 => {
            let order = orders::any(dice, 256);
            let plan = planned(&order);
            return (order, plan);
        }
        _ => {}
    }
    let (mut order, mut plan) = legal(dice);
    if dice.percent(45) {
        for _ in 0..dice.from_to(1, 2) {
            damage(&mut order, &mut plan, dice);
        }
    }
    (order, plan)
}

/// A legal plan that a run of reports can go through, every crossing of it.
pub fn short(dice: &mut Dice) -> (Order, Vec<u64>) {
    loop {
        let (order, plan) = legal(dice);
        if plan.len() <= 200 {
            return (order, plan);
        }
    }
}

/// The reference's plan where it has one that is not too long, else, and for half of the orders, one that wanders.
fn legal(dice: &mut Dice) -> (Order, Vec<u64>) {
    let most = dice.pick(&[6, 12, 30, 60, 256]);
    let order = orders::sound(dice, most);
    let plan = if dice.percent(50) { planned(&order) } else { Vec::new() };
    if !plan.is_empty() {
        return (order, plan);
    }
    let longest = if order.start.is_empty() { 0 } else { dice.pick(&[1, 5, 20, 60, 200]) };
    let crossings = dice.from_to(0, longest);
    wander(order, crossings, dice)
}

/// The reference's plan, where it is not longer than some thousands.
fn planned(order: &Order) -> Vec<u64> {
    let mut out = vec![0; 3_000];
    let (number, length) = reference::plan(order.bays, &order.rails, &order.start, &order.goal, &mut out);
    out.truncate(if number == 0 { length as usize } else { 0 });
    out
}

/// Legal plans as long as a plan may be, one longer, one shorter.
fn around_the_limit(dice: &mut Dice) -> (Order, Vec<u64>) {
    let order = Order::on(64, grid(8, 8)).with_carriers(20, dice);
    let crossings = dice.pick(&[65_535, 65_536, 65_537, 66_000]);
    wander(order, crossings, dice)
}

fn noise(dice: &mut Dice) -> Vec<u64> {
    let length = dice.from_to(0, 60);
    (0..length).map(|_| if dice.percent(50) { dice.any() } else { small(dice) }).collect()
}

fn small(dice: &mut Dice) -> u64 {
    (dice.below(6) as u64) << 32 | (dice.below(8) as u64) << 16 | dice.below(8) as u64
}

fn damage(order: &mut Order, plan: &mut Vec<u64>, dice: &mut Dice) {
    if plan.is_empty() {
        plan.push(small(dice));
        return;
    }
    let (name, other) = (dice.below(plan.len()), dice.below(plan.len()));
    match dice.below(10) {
        0 => plan[name] ^= 1 << dice.below(64),
        1 => plan[name] ^= 1 << dice.below(8),
        2 => plan[name] = dice.any(),
        3 => plan.swap(name, other),
        4 => drop(plan.remove(name)),
        5 => plan.insert(other, plan[name]),
        6 => plan.truncate(name),
        7 => plan.push(small(dice)),
        8 => plan[name] = plan[other],
        _ if order.goal.is_empty() => {}
        _ => {
            let (a, b) = (dice.below(order.goal.len()), dice.below(order.goal.len()));
            order.goal.swap(a, b);
        }
    }
}

/// Marks in order for most: a crossing is done only where no undone one before it shares its carrier or a bay. Then some are damaged.
pub fn marks(dice: &mut Dice, plan: &[u64]) -> Vec<u8> {
    let chance = dice.pick(&[0, 30, 80, 95, 99, 100]);
    let mut waiting: Vec<u64> = Vec::new();
    let mut marks = Vec::with_capacity(plan.len());
    for &number in plan {
        let touched = [number >> 32 | 1 << 40, number >> 16 & 0xFFFF, number & 0xFFFF];
        let free = waiting.len() < 400 && !touched.iter().any(|part| waiting.contains(part));
        let done = free && dice.percent(chance);
        if !done && waiting.len() < 400 {
            waiting.extend(touched);
        }
        marks.push(done as u8);
    }
    if dice.percent(20) {
        damage_marks(&mut marks, dice);
    }
    marks
}

/// Marks of a plan to be shortened: all 0 for most, since one that is done ends the work; else as for a report.
pub fn fresh_or_not(dice: &mut Dice, plan: &[u64]) -> Vec<u8> {
    match dice.below(10) {
        0..7 => vec![0; plan.len()],
        7 => (0..plan.len()).map(|_| dice.any() as u8).collect(),
        _ => marks(dice, plan),
    }
}

fn damage_marks(marks: &mut Vec<u8>, dice: &mut Dice) {
    let name = dice.below(marks.len());
    match dice.below(4) {
        0 => marks.push(0),
        1 => drop(marks.pop()),
        2 => marks.iter_mut().skip(name).take(1).for_each(|mark| *mark ^= 1),
        _ => marks.iter_mut().skip(name).take(1).for_each(|mark| *mark = dice.any() as u8),
    }
}

/// A name in the plan, often the first undone one; or beyond it.
pub fn name(dice: &mut Dice, marks: &[u8]) -> u64 {
    let length = marks.len() as u64;
    match dice.below(20) {
        0 => length,
        1 => dice.pick(&[length + 1, length + 256, 1 << 32, u64::MAX]),
        2..8 => marks.iter().position(|&mark| mark == 0).unwrap_or(0) as u64,
        _ => dice.below(marks.len()) as u64,
    }
}
