//! Marks, record and lines of a plan: those that agree, and ways to make them disagree.

use crate::plans;
use reference::{Job, Line, Record, UNTOUCHED};
use yards::{Dice, Order};

#[derive(Clone, Debug, PartialEq)]
pub struct Books {
    pub marks: Vec<u8>,
    pub record: Record,
    pub lines: Vec<Line>,
}

impl Books {
    /// Room for as many lines, with nothing in it that an opening would write.
    pub fn blank(marks: Vec<u8>, lines: usize) -> Books {
        const NO: u32 = 0xBAD_BAD;
        let (record, line) = (Record { at: [0xBAD; 256], done: NO, highest: NO }, Line { carrier: NO, billed: NO, last: NO });
        Books { marks, record, lines: vec![line; lines] }
    }

    /// As opening leaves them; blank where it is refused.
    pub fn opened(order: &Order, plan: &[u64], marks: Vec<u8>) -> Books {
        let Order { bays, rails, start, goal } = order;
        let mut books = Books::blank(marks, start.len());
        let job = Job { bays: *bays, rails, start, goal, plan };
        reference::open(job, &books.marks, &mut books.record, &mut books.lines);
        books
    }

    /// All is done: every carrier is home, and as many crossings are billed as there are.
    pub fn settled(&self, order: &Order) -> bool {
        let billed: u32 = self.lines.iter().map(|line| line.billed).sum();
        let crossings = self.marks.len() as u32;
        let home = self.record.at.iter().zip(order.goal.iter().chain(&[0; 256])).all(|(at, goal)| at == goal);
        home && self.record.done == crossings && billed == crossings && self.marks.iter().all(|&mark| mark == 1)
    }
}

/// Books for an order and a plan. Half of them are as opening leaves them; the others differ in one field, in the number of lines, in the
/// marks or the start that they were opened with, or in everything.
pub fn any(dice: &mut Dice, order: &mut Order, plan: &[u64]) -> Books {
    let marks = plans::marks(dice, plan);
    let books = Books::opened(order, plan, marks);
    match dice.below(20) {
        0..10 => books,
        10..17 => tampered(dice, &books, order),
        17 => outdated(books, order, plan, dice),
        18 => {
            move_start(order, plan, dice);
            books
        }
        _ => Books::blank(books.marks, books.lines.len()),
    }
}

/// The books with one field changed, or with a line too many or too few; now and then they are as they were.
pub fn tampered(dice: &mut Dice, books: &Books, order: &Order) -> Books {
    let mut books = books.clone();
    match dice.below(7) {
        0..3 => change_record(&mut books.record, order, dice),
        3..5 => change_line(&mut books.lines, dice),
        _ => change_length(&mut books.lines, dice),
    }
    books
}

/// One more, one less, another bit, or anything.
fn change(number: u32, dice: &mut Dice) -> u32 {
    match dice.below(4) {
        0 => number.wrapping_add(1),
        1 => number.wrapping_sub(1),
        2 => number ^ 1 << dice.below(32),
        _ => dice.any() as u32,
    }
}

/// One field, or one place of the placement, beyond the carriers too.
fn change_record(record: &mut Record, order: &Order, dice: &mut Dice) {
    let carriers = order.start.len().clamp(1, 256);
    let place = match dice.below(6) {
        0 => return record.done = change(record.done, dice),
        1 => return record.highest = change(record.highest, dice),
        2 => carriers.min(255),
        3 => dice.below(256),
        4 => 255,
        _ => dice.below(carriers),
    };
    record.at[place] = change(record.at[place].into(), dice) as u16;
}

/// One field of one line, or two lines one for the other.
fn change_line(lines: &mut [Line], dice: &mut Dice) {
    if lines.is_empty() {
        return;
    }
    let (place, other) = (dice.below(lines.len()), dice.below(lines.len()));
    let line = &mut lines[place];
    match dice.below(5) {
        0 => line.carrier = change(line.carrier, dice),
        1 => line.billed = change(line.billed, dice),
        2 => line.last = change(line.last, dice),
        3 => line.last = dice.pick(&[0, UNTOUCHED - 1, UNTOUCHED, u32::MAX]),
        _ => lines.swap(place, other),
    }
}

/// A line too many or too few, none, or more than a yard may have carriers; all that stay are right.
fn change_length(lines: &mut Vec<Line>, dice: &mut Dice) {
    let carriers = lines.len();
    let length = match dice.below(8) {
        0..3 => carriers + 1,
        3..6 => carriers.saturating_sub(1),
        6 => 0,
        _ => dice.pick(&[255, 256, 257, 300, 65_537]),
    };
    lines.truncate(length);
    lines.extend((lines.len()..length).map(|carrier| Line { carrier: carrier as u32, billed: 0, last: UNTOUCHED }));
}

/// Record and lines of other marks: those before the first report, or with one crossing more or less done.
fn outdated(books: Books, order: &Order, plan: &[u64], dice: &mut Dice) -> Books {
    let mut other = books.marks.clone();
    let name = dice.below(other.len());
    match dice.below(3) {
        0 => other.fill(0),
        1 => other.iter_mut().rev().find(|mark| **mark == 1).into_iter().for_each(|mark| *mark = 0),
        _ => other.iter_mut().skip(name).take(1).for_each(|mark| *mark ^= 1),
    }
    Books { marks: books.marks, ..Books::opened(order, plan, other) }
}

/// A carrier that the plan never moves stands at a bay that the plan never touches, from start to goal: the plan stays as good as it was, and only
/// the record's placement is another's.
fn move_start(order: &mut Order, plan: &[u64], dice: &mut Dice) {
    let moved = |carrier: usize| plan.iter().any(|&number| number >> 32 == carrier as u64);
    let touched = |bay: u16| plan.iter().any(|&number| (number >> 16) as u16 == bay || number as u16 == bay);
    let resting = (0..order.start.len().min(order.goal.len())).filter(|&carrier| !moved(carrier));
    let free = (0..order.bays.min(256) as u16).filter(|bay| !touched(*bay) && !order.start.contains(bay));
    let (resting, free): (Vec<usize>, Vec<u16>) = (resting.collect(), free.collect());
    if !resting.is_empty() && !free.is_empty() {
        let (carrier, bay) = (dice.pick(&resting), dice.pick(&free));
        (order.start[carrier], order.goal[carrier]) = (bay, bay);
    }
}
