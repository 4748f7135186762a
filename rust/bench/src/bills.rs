//! Bills as we go: what billed report, opening and agreement test take beside plain Rust, and the billed report beside a plain one, by the plan's length.

use crate::reports::{wandered, BUDGET, LENGTHS};
use crate::timing::{race, ratio, written};
use crate::yard;
use reference::{Job, UNTOUCHED};
use sejjekoru::{numbers, Line, Record};
use std::hint::black_box;
use std::time::Duration;
use yards::Order;

pub fn tables() {
    println!("\n## Bills by the plan's length: grid 16 × 16, 128 carriers\n");
    println!(
        "| Crossings | Billed report: library | Reference | Ratio | Opening: library | Reference | Ratio | Agreement test: library | Reference | Ratio |"
    );
    println!("|---|---|---|---|---|---|---|---|---|---|");
    let mut beside_plain = Vec::new();
    for crossings in LENGTHS {
        let (order, plan) = wandered(16, 16, 128, crossings);
        let billed = billed(&order, &plan);
        let cells = [billed, opening(&order, &plan), agreement(&order, &plan)];
        let cells = cells.map(|(one, other)| format!("{} | {} | {}", written(one), written(other), ratio(one, other)));
        println!("| {crossings} | {} |", cells.join(" | "));
        beside_plain.push((crossings, reports(&order, &plan)));
    }
    println!("\n## A billed report beside a plain one, both the library's\n");
    println!("| Crossings | Report | Billed report | Ratio | Billed, a crossing |");
    println!("|---|---|---|---|---|");
    for (crossings, (plain, billed)) in beside_plain {
        let each = billed.as_secs_f64() * 1e9 / crossings as f64;
        println!("| {crossings} | {} | {} | {} | {each:.1} ns |", written(plain), written(billed), ratio(billed, plain));
    }
}

fn job<'a>(order: &'a Order, plan: &'a [u64]) -> Job<'a> {
    let Order { bays, rails, start, goal } = order;
    Job { bays: *bays, rails, start, goal, plan }
}

/// Marks, record and lines before the last crossing is reported.
struct Books<R, L> {
    marks: Vec<u8>,
    record: R,
    lines: Vec<L>,
}

/// As the library opens them.
fn opened(order: &Order, plan: &[u64]) -> Books<Record, Line> {
    let (mut marks, mut record, mut lines) = (vec![1; plan.len()], Record::default(), vec![Line::default(); order.start.len()]);
    marks[plan.len() - 1] = 0;
    assert_eq!(numbers::open(yard(order), plan, &marks, &mut record, &mut lines), (0, 0));
    Books { marks, record, lines }
}

/// As the reference opens them.
fn opened_plainly(order: &Order, plan: &[u64]) -> Books<reference::Record, reference::Line> {
    let (record, line) =
        (reference::Record { at: [0; 256], done: 0, highest: 0 }, reference::Line { carrier: 0, billed: 0, last: UNTOUCHED });
    let mut books = Books { marks: vec![1; plan.len()], record, lines: vec![line; order.start.len()] };
    books.marks[plan.len() - 1] = 0;
    assert_eq!(reference::open(job(order, plan), &books.marks, &mut books.record, &mut books.lines), (0, 0));
    books
}

/// The last crossing is reported and billed while all before it are done, and it is accepted. What it changed is put back each time.
fn billed(order: &Order, plan: &[u64]) -> (Duration, Duration) {
    let (Books { mut marks, record, mut lines }, mut other) = (opened(order, plan), opened_plainly(order, plan));
    let last = plan.len() - 1;
    let carrier = (plan[last] >> 32) as usize;
    let (line, mut now, other_record, other_line) = (lines[carrier], record, other.record, other.lines[carrier]);
    let mut of_library = || {
        (marks[last], now, lines[carrier]) = (0, record, line);
        numbers::report_billed(yard(order), black_box(plan), &mut marks, last as u64, &mut now, &mut lines)
    };
    let mut of_reference = || {
        (other.marks[last], other.record, other.lines[carrier]) = (0, other_record, other_line);
        reference::report_billed(job(order, black_box(plan)), &mut other.marks, last as u64, &mut other.record, &mut other.lines)
    };
    assert_eq!((of_library(), of_reference()), ((0, 0), (0, 0)));
    let times = race(BUDGET, of_library, of_reference);
    assert_eq!(numbers::agrees(yard(order), plan, &marks, &now, &lines), (0, 1));
    assert_eq!(reference::agrees(job(order, plan), &other.marks, &other.record, &other.lines), (0, 1));
    times
}

fn opening(order: &Order, plan: &[u64]) -> (Duration, Duration) {
    let (mut books, mut other) = (opened(order, plan), opened_plainly(order, plan));
    race(
        BUDGET,
        || numbers::open(yard(order), black_box(plan), &books.marks, &mut books.record, &mut books.lines),
        || reference::open(job(order, black_box(plan)), &other.marks, &mut other.record, &mut other.lines),
    )
}

fn agreement(order: &Order, plan: &[u64]) -> (Duration, Duration) {
    let (books, other) = (opened(order, plan), opened_plainly(order, plan));
    let of_library = || numbers::agrees(yard(order), black_box(plan), &books.marks, &books.record, &books.lines);
    let of_reference = || reference::agrees(job(order, black_box(plan)), &other.marks, &other.record, &other.lines);
    assert_eq!((of_library(), of_reference()), ((0, 1), (0, 1)));
    race(BUDGET, of_library, of_reference)
}

/// The last crossing is reported, plain and billed by turns.
fn reports(order: &Order, plan: &[u64]) -> (Duration, Duration) {
    let Books { marks, record, lines } = opened(order, plan);
    let last = plan.len() - 1;
    let carrier = (plan[last] >> 32) as usize;
    let (mut plain_marks, mut billed_marks, mut billed_record, mut billed_lines) = (marks.clone(), marks, record, lines.clone());
    let mut plain = || {
        plain_marks[last] = 0;
        numbers::report(yard(order), black_box(plan), &mut plain_marks, last as u64)
    };
    let mut billed = || {
        (billed_marks[last], billed_record, billed_lines[carrier]) = (0, record, lines[carrier]);
        numbers::report_billed(yard(order), black_box(plan), &mut billed_marks, last as u64, &mut billed_record, &mut billed_lines)
    };
    assert_eq!((plain(), billed()), ((0, 0), (0, 0)));
    race(BUDGET, plain, billed)
}
