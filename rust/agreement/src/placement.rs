//! Where the carriers stand, by plans and marks of every kind, with a list that is just long enough, too short, longer or empty.

use crate::lent::Asked;
use crate::tally::Tally;
use crate::{orders, plans};
use yards::Dice;

const PLANS: u64 = 60_000;

pub fn run() -> Tally {
    let mut tally = Tally::new("placement", &[0, 1, 2, 3, 4, 5, 6, 8, 9, 10, 11]);
    for seed in 0..PLANS {
        let mut dice = Dice::new(0x0A00_0000 + seed);
        let (order, plan) = plans::any(&mut dice);
        let marks = plans::marks(&mut dice, &plan);
        let room = orders::room(&mut dice, order.start.len());
        tally.add(Asked::new(&order).placement(&plan, &marks, room));
    }
    tally
}
