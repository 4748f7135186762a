//! Reversing: lists of any numbers and of plans, with rooms around their length.

use crate::lent::{Guard, Lent};
use crate::tally::Tally;
use crate::{orders, plans};
use sejjekoru::raw::sejjekoru_reverse;
use yards::Dice;

const LISTS: u64 = 60_000;

/// Each list is reversed, and where it is granted the reverse once more, which gives the list back.
pub fn lists() -> Tally {
    let mut tally = Tally::new("reverse", &[0, 1, 8]);
    for seed in 0..LISTS {
        let mut dice = Dice::new(0x0700_0000 + seed);
        let list = any(&mut dice);
        let room = orders::room(&mut dice, list.len());
        let (number, reverse) = both(&list, room);
        tally.add(number);
        if number == 0 {
            assert!(both(&reverse[..list.len()], list.len()) == (0, list));
        }
    }
    tally
}

/// The number that both answered, and the room as both left it; at a disagreement the question is printed, and the run ends.
fn both(list: &[u64], room: usize) -> (u64, Vec<u64>) {
    let mut expected = vec![u64::GUARD; room];
    let answer = reference::reverse(list, &mut expected);
    let (lent, out) = (Lent::new(list), Lent::room(room));
    let mut value = u64::MAX;
    // SAFETY: each pointer comes with the length of its own list, and nothing else points there.
    let number = unsafe { sejjekoru_reverse(lent.as_ptr(), lent.len(), out.as_ptr(), out.len(), &mut value) };
    if (number, value) != answer || !lent.is(list) || !out.is(&expected) {
        println!("reverse: library {:?}, reference {answer:?}, room {room}\nlist {list:?}", (number, value));
        std::process::exit(1);
    }
    (number, expected)
}

/// Numbers of all sizes, a plan, legal or damaged, or as many crossings as a list may have, some more, some less.
fn any(dice: &mut Dice) -> Vec<u64> {
    let length = match dice.below(1_000) {
        0..4 => dice.pick(&[65_534, 65_535, 65_536, 65_537, 65_538, 131_072]),
        4..200 => return plans::any(dice).1,
        200..300 => dice.from_to(0, 2_000),
        _ => dice.from_to(0, 40),
    };
    let bits = dice.from_to(1, 64);
    (0..length).map(|_| if dice.percent(90) { dice.any() >> (64 - bits) } else { edge(dice) }).collect()
}

/// A number at the edge of its parts.
fn edge(dice: &mut Dice) -> u64 {
    dice.pick(&[0, 1, 0xFFFF, 0x1_0000, 0xFFFF_0000, 0xFFFF_FFFF, 1 << 32, u64::MAX - 0xFFFF, u64::MAX - 1, u64::MAX])
}
