//! Reversing: how it grows with the list, beside plain Rust.

use crate::reports::LENGTHS;
use crate::timing::{race, ratio, written};
use sejjekoru::numbers;
use std::cell::RefCell;
use std::hint::black_box;
use std::time::Duration;
use yards::Dice;

/// Both are as fast as the memory, so it takes many repeats to tell them apart.
const BUDGET: Duration = Duration::from_secs(1);

pub fn table() {
    println!("\n## Reversing by the list's length: any numbers\n");
    println!("| Crossings | Library | Reference | Ratio |");
    println!("|---|---|---|---|");
    for crossings in LENGTHS {
        println!("| {crossings} | {} |", cells(crossings));
    }
}

/// Both write the same, and to the same room, since where a room lies in memory tells in the time.
fn cells(crossings: usize) -> String {
    let mut dice = Dice::new(12);
    let list: Vec<u64> = (0..crossings).map(|_| dice.any()).collect();
    let (mut one, mut other) = (vec![0; crossings], vec![0; crossings]);
    let answer = numbers::reverse(&list, &mut one);
    assert_eq!(answer, reference::reverse(&list, &mut other));
    assert!(answer == (0, crossings as u64) && one == other);
    let room = RefCell::new(one);
    let (library, plain) = race(
        BUDGET,
        || numbers::reverse(black_box(&list), black_box(&mut *room.borrow_mut())),
        || reference::reverse(black_box(&list), black_box(&mut *room.borrow_mut())),
    );
    format!("{} | {} | {}", written(library), written(plain), ratio(library, plain))
}
