//! Orders of all sizes and densities, half of them numbered at random, and ways to damage them.

use yards::{connected, grid, line, line_with_sidings, lollipop, ring, star, Dice, Order};

/// An order on at most `most` bays: sound, damaged once or more, or mere noise.
pub fn any(dice: &mut Dice, most: usize) -> Order {
    if dice.percent(4) {
        return noise(dice);
    }
    let mut order = sound(dice, most);
    if dice.percent(35) {
        for _ in 0..dice.from_to(1, 2) {
            damage(&mut order, dice);
        }
    }
    order
}

pub fn sound(dice: &mut Dice, most: usize) -> Order {
    let (bays, rails) = shape(dice, most);
    let most_carriers = bays - 2;
    let carriers = match dice.below(4) {
        0 => most_carriers,
        1 => most_carriers.saturating_sub(dice.below(4)),
        _ => dice.from_to(0, most_carriers),
    };
    let order = Order::on(bays, rails).with_carriers(carriers, dice);
    if dice.percent(50) {
        order.renumbered(dice)
    } else {
        order
    }
}

/// The largest yards, with carriers from as many as there may be to one too many, and rooms on both sides of the longest plan.
pub fn at_the_limits() -> Vec<(Order, usize)> {
    let mut list = Vec::new();
    for (seed, carriers) in [240, 250, 250, 254, 254, 255].into_iter().enumerate() {
        for room in [0, 65_535, 65_536, 65_537, 300_000] {
            let mut dice = Dice::new(0x0300_0000 + seed as u64);
            list.push((Order::on(256, grid(16, 16)).with_carriers(carriers, &mut dice).renumbered(&mut dice), room));
            let rails = connected(256, 1_024 + seed / 5, 256, &mut dice);
            list.push((Order::on(256, rails).with_carriers(carriers, &mut dice), room));
        }
    }
    list
}

fn size(dice: &mut Dice, most: usize) -> usize {
    let high = match dice.below(200) {
        0..120 => 12,
        120..170 => 30,
        170..190 => 80,
        190..198 => 160,
        _ => 256,
    };
    dice.from_to(2, high.min(most))
}

fn shape(dice: &mut Dice, most: usize) -> (usize, Vec<u16>) {
    let bays = size(dice, most);
    let rails = match dice.below(9) {
        0 => line(bays),
        1 => ring(bays),
        2 => star(bays),
        3 => line_with_sidings(bays, dice.from_to(1, 6)),
        4 => lollipop(bays, dice.from_to(0, bays)),
        5 | 6 => {
            let width = dice.from_to(1, bays.min(16));
            let height = (bays / width).max(1);
            return if width * height >= 2 { (width * height, grid(width, height)) } else { (2, line(2)) };
        }
        7 => connected(bays, bays - 1, dice.from_to(1, bays), dice),
        _ => {
            let most_rails = (bays * (bays - 1) / 2).min(1_024);
            let rails = dice.from_to(bays - 1, most_rails);
            connected(bays, rails, dice.from_to(1, bays), dice)
        }
    };
    (bays, rails)
}

/// One fault of a kind that a refusal from 1 to 6 is for; now and then it does no harm.
fn damage(order: &mut Order, dice: &mut Dice) {
    match dice.below(10) {
        0 => order.bays = dice.pick(&[0, 1, 2, 255, 256, 257, 300, 65_536, 1 << 32, u64::MAX]),
        1 => drop(order.rails.pop()),
        2 => order.rails.resize(dice.pick(&[2_046, 2_048, 2_049, 2_050, 4_096]), dice.any() as u16),
        3 => drop(if dice.percent(50) { order.start.pop() } else { order.goal.pop() }),
        4 => break_rail(order, dice),
        5 => cut_rails(order, dice),
        6 | 7 => crowd(order, dice),
        8 => misplace(order.bays, &mut order.start, dice),
        _ => misplace(order.bays, &mut order.goal, dice),
    }
}

/// An end that is no bay, both ends equal, or a pair given before.
fn break_rail(order: &mut Order, dice: &mut Dice) {
    if order.rails.len() < 2 {
        return;
    }
    let (rail, other) = (dice.below(order.rails.len() / 2) * 2, dice.below(order.rails.len() / 2) * 2);
    match dice.below(4) {
        0 => order.rails[rail + dice.below(2)] = outside(order.bays, dice),
        1 => order.rails[rail] = order.rails[rail + 1],
        2 => order.rails.extend_from_within(rail..rail + 2),
        _ => {
            let pair = [order.rails[other + 1], order.rails[other]];
            order.rails.splice(rail..rail, pair);
        }
    }
}

fn cut_rails(order: &mut Order, dice: &mut Dice) {
    for _ in 0..dice.from_to(1, 4) {
        if order.rails.len() >= 2 {
            let rail = dice.below(order.rails.len() / 2) * 2;
            order.rails.drain(rail..rail + 2);
        }
    }
}

/// A carrier more than the yard has bays for, or some hundreds.
fn crowd(order: &mut Order, dice: &mut Dice) {
    let carriers = order.bays.min(300) as usize + dice.pick(&[0, 0, 1, 2, 500]);
    let carriers = carriers.saturating_sub(1);
    for list in [&mut order.start, &mut order.goal] {
        while list.len() < carriers {
            list.push(dice.below(order.bays.min(300) as usize + 1) as u16);
        }
    }
}

fn misplace(bays: u64, placement: &mut [u16], dice: &mut Dice) {
    if placement.is_empty() {
        return;
    }
    let (carrier, other) = (dice.below(placement.len()), dice.below(placement.len()));
    placement[carrier] = if dice.percent(50) { outside(bays, dice) } else { placement[other] };
}

fn outside(bays: u64, dice: &mut Dice) -> u16 {
    match dice.below(3) {
        0 => bays as u16,
        1 => (bays as u16).wrapping_add(dice.below(300) as u16),
        _ => dice.any() as u16,
    }
}

/// Lists of any numbers and any length.
fn noise(dice: &mut Dice) -> Order {
    let bays = dice.from_to(0, 300);
    let high = if dice.percent(50) { bays.max(1) } else { 65_536 };
    let mut list = |most: usize| -> Vec<u16> { (0..dice.from_to(0, most)).map(|_| dice.below(high) as u16).collect() };
    let (rails, start, goal) = (list(2_100), list(300), list(300));
    let goal = if dice.percent(70) { start.clone() } else { goal };
    Order { bays: bays as u64, rails, start, goal }
}

/// Room for so many, or one less, some more, far more, less, none.
pub fn room(dice: &mut Dice, needed: usize) -> usize {
    let needed = needed.min(70_000);
    match dice.below(200) {
        0..90 => needed,
        90..120 => needed.saturating_sub(1),
        120..150 => needed + dice.from_to(1, 40),
        150..170 => dice.from_to(0, needed),
        170..180 => 0,
        180..182 => dice.pick(&[65_535, 65_536, 65_537, 70_000]),
        _ => needed + 1,
    }
}
