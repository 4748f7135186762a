//! Comparing two lists: equal ones, one the beginning of the other, ones of the same length, with carrier numbers that are too high, over the limit,
//! and with another number of places for the differences.

use crate::lent::{Guard, Lent};
use crate::tally::Tally;
use sejjekoru::{compare, compare_numbers};
use yards::Dice;

const PAIRS: u64 = 60_000;
const CARRIERS: usize = 254;
const CROSSINGS: usize = 65_536;

impl Guard for i64 {
    const GUARD: i64 = 0x5A5A_5A5A_5A5A_5A5A;
}

pub fn run() -> Tally {
    let mut tally = Tally::new("compare", &[0, 1, 5, 8]);
    for seed in 0..PAIRS {
        let mut dice = Dice::new(0x0900_0000 + seed);
        let (first, second) = pair(&mut dice);
        let room = if dice.percent(85) { CARRIERS } else { dice.pick(&[0, 1, 253, 255, 256, 508]) };
        tally.add(asked(&first, &second, room));
    }
    for (first, second) in [(CROSSINGS, CROSSINGS), (CROSSINGS + 1, 0), (0, CROSSINGS + 1), (CROSSINGS, CROSSINGS - 1)] {
        let list = |length| (0..length as u64).map(|i| (i % 254) << 32 | 1 << 16 | 2).collect::<Vec<u64>>();
        tally.add(asked(&list(first), &list(second), CARRIERS));
    }
    tally
}

/// A crossing of some carrier, seldom of one whose number is too high.
fn crossing(dice: &mut Dice, carriers: usize) -> u64 {
    (dice.below(carriers) as u64) << 32 | (dice.below(256) as u64) << 16 | dice.below(256) as u64
}

fn pair(dice: &mut Dice) -> (Vec<u64>, Vec<u64>) {
    let carriers = dice.pick(&[1, 2, 5, 254]);
    let length = if dice.percent(2) { dice.below(3_000) } else { dice.below(24) };
    let mut first: Vec<u64> = (0..length).map(|_| crossing(dice, carriers)).collect();
    let mut second = first.clone();
    match dice.below(6) {
        0 => {}
        1 => second.truncate(dice.below(length + 1)),
        2 => second.extend((0..dice.below(9)).map(|i| i as u64)),
        3 if length > 0 => second[dice.below(length)] = crossing(dice, carriers),
        4 => second = (0..dice.below(24)).map(|_| crossing(dice, carriers)).collect(),
        _ => {
            let cut = dice.below(length + 1);
            second.drain(..cut);
        }
    }
    for list in [&mut first, &mut second] {
        if dice.percent(12) && !list.is_empty() {
            let place = dice.below(list.len());
            list[place] = dice.pick(&[253, 254, 255, 256, 511, 1 << 16, u32::MAX as u64]) << 32 | list[place] & 0xFFFF_FFFF;
        }
    }
    (first, second)
}

/// Both are asked: what is lent has guard places around it, and what the Rust crate hands back is at the reference's place.
fn asked(first: &[u64], second: &[u64], room: usize) -> u64 {
    let mut expected = vec![i64::GUARD; room];
    let (number, value, part) = reference::compare(first, second, &mut expected);
    let longer = match number {
        0 if std::ptr::eq(part, &first[value as usize..]) => 1,
        0 => 2,
        _ => 0,
    };
    let (one, other, lent) = (Lent::new(first), Lent::new(second), Lent::room(room));
    // SAFETY: the list has so many places, and nothing else points there.
    let differences = unsafe { std::slice::from_raw_parts_mut(lent.as_ptr(), room) };
    // SAFETY: as above, and nobody writes there.
    let (list, another) =
        unsafe { (std::slice::from_raw_parts(one.as_ptr(), first.len()), std::slice::from_raw_parts(other.as_ptr(), second.len())) };
    let told = compare_numbers(list, another, differences);
    let kept = one.is(first) && other.is(second) && lent.is(&expected);
    let mut again = vec![i64::GUARD; room];
    let handed = match compare(first, second, &mut again) {
        Ok(compared) => number == 0 && compared.equal as u64 == value && std::ptr::eq(compared.rest, part),
        Err(refusal) => refusal.number() == number && refusal.carried().unwrap_or(0) == value && part.is_empty(),
    };
    if told == (number, value, longer) && kept && handed && again == expected {
        return number;
    }
    println!("compare: library {told:?}, reference {:?}, lists alike {kept}, part alike {handed}", (number, value, longer));
    println!("first {first:?}\nsecond {second:?}\nroom {room}");
    std::process::exit(1);
}
