//! Comparing two lists: how it grows with them, where they are equal, differ half way, and differ from the first crossing on.

use crate::reports::{wandered, BUDGET, LENGTHS};
use crate::timing::{race, ratio, written};
use sejjekoru::compare_numbers;
use std::hint::black_box;

pub fn tables() {
    println!("\n## Comparing two lists of the same length: grid 16 × 16, 128 carriers\n");
    println!("| Crossings | Equal: library | Reference | Ratio | Differ half way: library | Reference | Ratio | Differ at once: library | Reference | Ratio |");
    println!("|---|---|---|---|---|---|---|---|---|---|");
    for crossings in LENGTHS {
        let (_, plan) = wandered(16, 16, 128, crossings);
        let cells = [crossings, crossings / 2, 0].map(|equal| cell(&plan, equal));
        println!("| {crossings} | {} |", cells.join(" | "));
    }
}

/// From the place `equal` on the second list has another bay in each crossing.
fn cell(first: &[u64], equal: usize) -> String {
    let mut second = first.to_vec();
    second[equal..].iter_mut().for_each(|number| *number ^= 1);
    let (mut one, mut other) = ([0; 254], [0; 254]);
    assert_eq!(compare_numbers(first, &second, &mut one), (0, equal as u64, 1));
    assert_eq!(reference::compare(first, &second, &mut other), (0, equal as u64, &first[equal..]));
    assert_eq!(one, other);
    let (library, plain) = race(
        BUDGET,
        || compare_numbers(black_box(first), black_box(&second), &mut one).1,
        || reference::compare(black_box(first), black_box(&second), &mut other).1,
    );
    format!("{} | {} | {}", written(library), written(plain), ratio(library, plain))
}
