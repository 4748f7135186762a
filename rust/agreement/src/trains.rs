//! Slots by either edition, on plans that wander, that the reference made, that are neither. Where train slots are given, every slot's crossings
//! are done all at once: one carrier to a bay after every slot, nobody head-on, and the plan's own end.

use crate::lent::Asked;
use crate::tally::Tally;
use crate::{orders, plans, PLANS};
use yards::Dice;

pub fn slots_of() -> Tally {
    let mut tally = Tally::new("slots of", &[0, 1, 2, 3, 4, 5, 6, 8, 9, 10, 20]);
    let (mut rolled, mut lower) = (0, 0);
    for seed in 0..PLANS {
        let mut dice = Dice::new(0x0800_0000 + seed);
        let (order, plan) = plans::any(&mut dice);
        let edition = dice.pick(&[0, 1, 1, 2, 2, 2, 2, 2, 3, 1 << 32, (1 << 32) + 2, u64::MAX]);
        let room = orders::room(&mut dice, plan.len());
        let asked = Asked::new(&order);
        let (number, slots) = asked.slots_of(edition, &plan, room);
        tally.add(number);
        if number == 0 && edition == 2 {
            let end = reference::all_at_once(&order.start, &plan, &slots[..plan.len()]);
            assert_eq!(end.as_ref(), Ok(&order.goal), "seed {seed}");
            let (_, first) = asked.slots_of(1, &plan, plan.len());
            assert!(slots.iter().zip(&first).all(|(slot, first)| slot <= first), "seed {seed}");
            rolled += 1;
            lower += (slots[..plan.len()] != first[..]) as u64;
        }
    }
    println!("{rolled} plans were rolled all at once, slot by slot; in {lower} of them some slot is lower than in the first edition\n");
    tally
}
