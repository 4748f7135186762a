//! The yards that document 01 works by hand, trips there and back by request E10 of document 02, and bills by request E7.

use reference::{agrees, check, open, plan, report, report_billed, shorten, slots, Job, Line, Record, UNTOUCHED};

const T: [u16; 6] = [0, 1, 1, 2, 1, 3];
const LINE_OF_FOUR: [u16; 6] = [0, 1, 1, 2, 2, 3];
const RING_OF_FOUR: [u16; 8] = [0, 1, 1, 2, 2, 3, 3, 0];
const LINE_OF_SIX: [u16; 10] = [0, 1, 1, 2, 2, 3, 3, 4, 4, 5];

fn crossings(list: &[(u64, u64, u64)]) -> Vec<u64> {
    list.iter().map(|&(carrier, from, to)| carrier * (1 << 32) + from * (1 << 16) + to).collect()
}

/// The plan that is accepted, or the refusal.
fn planned(bays: u64, rails: &[u16], start: &[u16], goal: &[u16]) -> Result<Vec<u64>, (u64, u64)> {
    let mut out = vec![0; 100];
    let (number, value) = plan(bays, rails, start, goal, &mut out);
    if number != 0 {
        return Err((number, value));
    }
    out.truncate(value as usize);
    assert_eq!(check(bays, rails, start, goal, &out), (0, 0));
    Ok(out)
}

fn slotted(bays: u64, rails: &[u16], start: &[u16], goal: &[u16], plan: &[u64]) -> Vec<u32> {
    let mut list = vec![0; plan.len()];
    assert_eq!(slots(bays, rails, start, goal, plan, &mut list), (0, plan.len() as u64));
    list
}

fn y1() -> Vec<u64> {
    crossings(&[(0, 1, 2), (1, 0, 1), (1, 1, 3), (0, 2, 1), (0, 1, 0), (1, 3, 1)])
}

#[test]
fn y1_six_crossings_in_six_slots() {
    assert_eq!(planned(4, &T, &[1, 0], &[0, 1]), Ok(y1()));
    assert_eq!(slotted(4, &T, &[1, 0], &[0, 1], &y1()), [1, 2, 3, 4, 5, 6]);
}

#[test]
fn y2_the_way_home() {
    let way = [(0, 1, 2), (1, 0, 1), (1, 1, 3), (0, 2, 1), (0, 1, 0), (1, 3, 1), (1, 1, 2), (0, 0, 1)];
    assert_eq!(planned(4, &T, &[1, 0], &[1, 2]), Ok(crossings(&way)));
}

#[test]
fn y3_stopped_at_carrier_1() {
    assert_eq!(planned(4, &LINE_OF_FOUR, &[0, 1], &[1, 0]), Err((7, 1)));
}

#[test]
fn y4_the_carousel_is_turned() {
    let way = crossings(&[(1, 1, 2), (0, 0, 1), (1, 2, 3), (1, 3, 0)]);
    assert_eq!(planned(4, &RING_OF_FOUR, &[0, 1], &[1, 0]), Ok(way.clone()));
    assert_eq!(slotted(4, &RING_OF_FOUR, &[0, 1], &[1, 0], &way), [1, 2, 2, 3]);
}

#[test]
fn y5_around_the_ring() {
    let way = crossings(&[(1, 1, 2), (0, 0, 1)]);
    assert_eq!(planned(4, &RING_OF_FOUR, &[0, 1], &[1, 2]), Ok(way.clone()));
    assert_eq!(slotted(4, &RING_OF_FOUR, &[0, 1], &[1, 2], &way), [1, 2]);
}

#[test]
fn y6_two_in_one_slot() {
    let way = crossings(&[(0, 0, 1), (1, 5, 4)]);
    assert_eq!(planned(6, &LINE_OF_SIX, &[0, 5], &[1, 4]), Ok(way.clone()));
    assert_eq!(slotted(6, &LINE_OF_SIX, &[0, 5], &[1, 4], &way), [1, 1]);
    let mut marks = [0, 0];
    let told = [1, 0, 1].map(|name| report(6, &LINE_OF_SIX, &[0, 5], &[1, 4], &way, &mut marks, name));
    assert_eq!((told, marks), ([(0, 0), (0, 0), (100, 0)], [1, 1]));
}

#[test]
fn y7_reports_on_y1() {
    let mut marks = [0; 6];
    let told = [1, 6, 0, 0].map(|name| report(4, &T, &[1, 0], &[0, 1], &y1(), &mut marks, name));
    assert_eq!((told, marks), ([(13, 0), (12, 0), (0, 0), (100, 0)], [1, 0, 0, 0, 0, 0]));
}

#[test]
fn y8_and_y9_two_bays() {
    assert_eq!(planned(2, &[0, 1], &[], &[]), Ok(Vec::new()));
    assert_eq!(planned(2, &[0, 1], &[0], &[1]), Err((4, 0)));
}

#[test]
fn y10_the_limits() {
    let line = |bays: u16| (1..bays).flat_map(|bay| [bay - 1, bay]).collect::<Vec<u16>>();
    let home: Vec<u16> = (0..255).collect();
    assert_eq!(planned(256, &line(256), &home[..254], &home[..254]), Ok(Vec::new()));
    assert_eq!(planned(257, &line(257), &[], &[]), Err((1, 0)));
    assert_eq!(planned(256, &line(256), &home, &home), Err((4, 0)));
}

#[test]
fn y11_room_for_five() {
    let mut out = [7; 5];
    assert_eq!(plan(4, &T, &[1, 0], &[0, 1], &mut out), (8, 6));
    assert_eq!(out, [7; 5]);
}

/// What is left of a plan on T, none of it done.
fn shortened(start: &[u16], goal: &[u16], plan: &[u64]) -> Vec<u64> {
    let mut out = vec![0; plan.len()];
    let (number, left) = shorten(4, &T, start, goal, plan, &vec![0; plan.len()], &mut out);
    assert_eq!(number, 0);
    out.truncate(left as usize);
    out
}

#[test]
fn up_to_the_last_return() {
    let plan = crossings(&[(0, 0, 1), (0, 1, 0), (0, 0, 1), (0, 1, 2), (0, 2, 1), (0, 1, 0), (0, 0, 1)]);
    assert_eq!(shortened(&[0], &[1], &plan), plan[..1]);
}

/// Another carrier uses bay 1 meanwhile, so leaving it is no trip; its own way there and back is one, and then the first is one too.
#[test]
fn a_bay_that_another_used() {
    assert_eq!(shortened(&[1, 0], &[0, 1], &y1()), y1());
    let plan = crossings(&[(0, 1, 2), (1, 0, 1), (1, 1, 0), (0, 2, 1)]);
    assert_eq!(shortened(&[1, 0], &[1, 0], &plan), []);
}

#[test]
fn eleven_then_begun_then_room() {
    let mut out = [7; 5];
    let mut ask = |marks: &[u8]| shorten(4, &T, &[1, 0], &[0, 1], &y1(), marks, &mut out);
    assert_eq!(ask(&[1, 0, 0, 0, 0]), (11, 0));
    assert_eq!(ask(&[0, 1, 0, 0, 0, 0]), (11, 0));
    assert_eq!(ask(&[1, 0, 0, 0, 0, 0]), (25, 0));
    assert_eq!(ask(&[0; 6]), (8, 6));
    assert_eq!(out, [7; 5]);
}

const NOTHING: Record = Record { at: [7; 256], done: 7, highest: 7 };
const NO_LINE: Line = Line { carrier: 7, billed: 7, last: 7 };

fn line(carrier: u32, billed: u32, last: u32) -> Line {
    Line { carrier, billed, last }
}

fn record(bays: &[u16], done: u32, highest: u32) -> Record {
    let mut at = [0; 256];
    at[..bays.len()].copy_from_slice(bays);
    Record { at, done, highest }
}

/// Y1 from opening to all done: an early name, a repeat and an unknown one change nothing.
#[test]
fn y1_billed() {
    let plan = y1();
    let job = Job { bays: 4, rails: &T, start: &[1, 0], goal: &[0, 1], plan: &plan };
    let (mut running, mut lines, mut marks) = (NOTHING, [NO_LINE; 2], [0; 6]);
    let opened = (record(&[1, 0], 0, 0), [line(0, 0, UNTOUCHED), line(1, 0, UNTOUCHED)]);
    assert_eq!((open(job, &marks, &mut running, &mut lines), (running, lines)), ((0, 0), opened));
    let mut tell = |name| (report_billed(job, &mut marks, name, &mut running, &mut lines), (running, lines));
    assert_eq!(tell(1), ((13, 0), opened));
    let first = (record(&[2, 0], 1, 1), [line(0, 1, 0), line(1, 0, UNTOUCHED)]);
    assert_eq!(tell(0), ((0, 0), first));
    assert_eq!(tell(0), ((100, 0), first));
    assert_eq!(tell(6), ((12, 0), first));
    (1..6).for_each(|name| assert_eq!(tell(name).0, (0, 0)));
    assert_eq!((running, lines), (record(&[0, 1], 6, 6), [line(0, 3, 4), line(1, 3, 5)]));
    assert_eq!(agrees(job, &marks, &running, &lines), (0, 1));
}

/// Carrier 1 is two slots ahead when carrier 0 is billed in slot 1: the highest slot stays.
#[test]
fn billed_in_a_lower_slot() {
    let plan = crossings(&[(0, 0, 1), (1, 5, 4), (1, 4, 3)]);
    let job = Job { bays: 6, rails: &LINE_OF_SIX, start: &[0, 5], goal: &[1, 3], plan: &plan };
    let (mut running, mut lines, mut marks) = (NOTHING, [NO_LINE; 2], [0, 1, 1]);
    assert_eq!(open(job, &marks, &mut running, &mut lines), (0, 0));
    assert_eq!((running, lines), (record(&[0, 3], 2, 2), [line(0, 0, UNTOUCHED), line(1, 2, 2)]));
    assert_eq!(report_billed(job, &mut marks, 0, &mut running, &mut lines), (0, 0));
    assert_eq!((running, lines), (record(&[1, 3], 3, 2), [line(0, 1, 0), line(1, 2, 2)]));
}

/// "otherwise opening answers 8 carrying k, after 11, and a report answers 19", before 12.
#[test]
fn eleven_then_lines_then_unknown() {
    let plan = y1();
    let job = Job { bays: 4, rails: &T, start: &[1, 0], goal: &[0, 1], plan: &plan };
    let (mut running, mut lines) = (NOTHING, [NO_LINE; 3]);
    assert_eq!(open(job, &[0; 5], &mut running, &mut lines), (11, 0));
    assert_eq!(open(job, &[0; 6], &mut running, &mut lines), (8, 2));
    assert_eq!((running, lines), (NOTHING, [NO_LINE; 3]));
    assert_eq!(open(job, &[0; 6], &mut running, &mut lines[..2]), (0, 0));
    assert_eq!(agrees(job, &[0; 6], &running, &lines), (0, 0));
    assert_eq!(report_billed(job, &mut [0; 6], 6, &mut running, &mut lines), (19, 0));
    assert_eq!(report_billed(job, &mut [0; 6], 6, &mut running, &mut lines[..2]), (12, 0));
    assert_eq!(report_billed(job, &mut [2; 6], 6, &mut running, &mut lines), (11, 0));
    running.highest = 1;
    assert_eq!(report_billed(job, &mut [0; 6], 0, &mut running, &mut lines[..2]), (19, 0));
}
