//! Opening, the agreement test and billed reports: one by one on books of every kind, and in runs from opening to all done.

use crate::books::{self, Books};
use crate::lent::Asked;
use crate::plans;
use crate::tally::Tally;
use yards::Dice;

const BOOKS: u64 = 60_000;
const RUNS: u64 = 1_500;

/// The same books are compared and reported on. Opening is handed them too, or as much blank room, so that a field that is not written shows.
pub fn one_by_one() -> [Tally; 3] {
    let common = [0, 1, 2, 3, 4, 5, 6, 9, 10, 11];
    let mut open = Tally::new("open", &[&common[..], &[8]].concat());
    let mut agrees = Tally::new("agrees", &common);
    let mut billed = Tally::new("report billed", &[&common[..], &[12, 13, 19, 100]].concat());
    let mut answers = [0, 0];
    for seed in 0..BOOKS {
        let mut dice = Dice::new(0x0500_0000 + seed);
        let (mut order, plan) = plans::any(&mut dice);
        let books = books::any(&mut dice, &mut order, &plan);
        let name = plans::name(&mut dice, &books.marks);
        let asked = Asked::new(&order);
        let (number, yes) = asked.agrees(&plan, &books);
        agrees.add(number);
        answers[yes as usize] += (number == 0) as u64;
        billed.add(asked.report_billed(&plan, &books, name).0);
        let blank = Books::blank(books.marks.clone(), books.lines.len());
        open.add(asked.open(&plan, if dice.percent(50) { &blank } else { &books }).0);
    }
    let [no, yes] = answers;
    println!("{yes} of the books that are compared agree, {no} do not\n");
    assert!(yes > 0 && no > 0);
    [open, agrees, billed]
}

/// Every crossing of a plan is reported, with repeats, early names, names of no crossing and books that were tampered with among them. After
/// each report the books agree and are those that an opening builds from the marks.
pub fn runs() -> Tally {
    let mut tally = Tally::new("runs of billed reports", &[0, 12, 13, 19, 100]);
    for seed in 0..RUNS {
        let mut dice = Dice::new(0x0600_0000 + seed);
        let (order, plan) = plans::short(&mut dice);
        let asked = Asked::new(&order);
        let (number, mut books) = asked.open(&plan, &Books::blank(vec![0; plan.len()], order.start.len()));
        assert_eq!(number, 0);
        while books.marks.contains(&0) {
            let name = next_name(&mut dice, &books.marks);
            let (number, then) = asked.report_billed(&plan, &books, name);
            tally.add(number);
            books = then;
            assert_eq!(asked.agrees(&plan, &books), (0, true));
            let afresh = Books::blank(books.marks.clone(), books.lines.len());
            assert_eq!(asked.open(&plan, &afresh), (0, books.clone()));
            if dice.percent(3) {
                tally.add(asked.report_billed(&plan, &books::tampered(&mut dice, &books, &order), name).0);
            }
        }
        assert!(books.settled(&order));
    }
    tally
}

/// The first undone name most of the time, so that all are done at last; else one soon after it, any name at all, or what `plans::name` gives.
fn next_name(dice: &mut Dice, marks: &[u8]) -> u64 {
    let first = marks.iter().position(|&mark| mark == 0).unwrap_or(0);
    match dice.below(10) {
        0..4 => first as u64,
        4..7 => (first + dice.below(12)) as u64,
        7 | 8 => dice.below(marks.len()) as u64,
        _ => plans::name(dice, marks),
    }
}
