//! A depot's day in Rust: plan, slots, reports. The yard is Y1 of document 01: rails 0-1, 1-2, 1-3, two carriers that trade places.

use sejjekoru::{Crossing, Refusal, Reported, Yard};

const YARD: Yard = Yard::new(4, &[0, 1, 1, 2, 1, 3], &[1, 0], &[0, 1]);

fn print_plan(plan: &[u64]) {
    for &number in plan {
        println!("{}", Crossing::from(number));
    }
    println!("; cost = {} (unit cost)", plan.len());
}

fn print_slots(plan: &[u64]) -> Result<(), Refusal> {
    let mut slots = vec![0; plan.len()];
    sejjekoru::slots(YARD, plan, &mut slots)?;
    let slots: Vec<String> = slots.iter().map(u32::to_string).collect();
    println!("slots {}", slots.join(" "));
    Ok(())
}

fn report(plan: &[u64], marks: &mut [u8], name: u64) {
    print!("report {name}: ");
    match sejjekoru::report(YARD, plan, marks, name) {
        Ok(Reported::Accepted) => println!("accepted"),
        Ok(Reported::Already) => println!("already"),
        Err(Refusal::Early(first)) => println!("early, {first} is undone"),
        Err(Refusal::Unknown) => println!("unknown"),
        Err(other) => println!("{other}"),
    }
}

fn main() -> Result<(), Refusal> {
    let mut room = [0; 64];
    if let Err(Refusal::Room(needed)) = sejjekoru::plan(YARD, &mut room[..5]) {
        println!("room for 5: {needed} needed");
    }
    let length = sejjekoru::plan(YARD, &mut room)?.length;
    let plan = &room[..length];
    print_plan(plan);
    print_slots(plan)?;
    let mut marks = vec![0; length];
    for name in [1, 6, 0, 0] {
        report(plan, &mut marks, name);
    }
    Ok(())
}
