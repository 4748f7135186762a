//! One question put to both. Lists are lent to the library with guard places on both sides; afterwards every list, guards and all, is
//! held against what the reference left.

use crate::books::Books;
use reference::Job;
use sejjekoru::trains::sejjekoru_slots_of;
use sejjekoru::{ask, Bay, Carrier, Line, Record};
use std::cell::Cell;
use std::fmt::Debug;
use yards::Order;

const AROUND: usize = 16;

/// What stands in a guard place.
pub trait Guard: Copy + PartialEq {
    const GUARD: Self;
}

impl Guard for u8 {
    const GUARD: u8 = 0xA5;
}

impl Guard for u16 {
    const GUARD: u16 = 0xA5A5;
}

impl Guard for u32 {
    const GUARD: u32 = 0xA5A5_A5A5;
}

impl Guard for u64 {
    const GUARD: u64 = 0xA5A5_A5A5_A5A5_A5A5;
}

impl Guard for Bay {
    const GUARD: Bay = Bay(u16::GUARD);
}

impl Guard for Record {
    const GUARD: Record = Record { at: [Bay::GUARD; 256], done: u32::GUARD, highest: u32::GUARD };
}

impl Guard for Line {
    const GUARD: Line = Line { carrier: Carrier(u32::GUARD), billed: u32::GUARD, last: u32::GUARD };
}

/// A list between guard places, all of them cells, so that a store through its pointer, wanted or not, is seen.
pub struct Lent<T> {
    places: Vec<Cell<T>>,
    length: usize,
}

impl<T: Guard> Lent<T> {
    pub fn new(list: &[T]) -> Lent<T> {
        let around = [T::GUARD; AROUND];
        let places = around.iter().chain(list).chain(&around).map(|&place| Cell::new(place)).collect();
        Lent { places, length: list.len() }
    }

    /// Room for so many.
    pub fn room(length: usize) -> Lent<T> {
        Lent::new(&vec![T::GUARD; length])
    }

    pub fn as_ptr(&self) -> *mut T {
        self.places[AROUND..].as_ptr() as *mut T
    }

    pub fn len(&self) -> usize {
        self.length
    }

    pub fn is(&self, list: &[T]) -> bool {
        let (before, rest) = self.places.split_at(AROUND);
        let (middle, after) = rest.split_at(self.length);
        middle.iter().map(Cell::get).eq(list.iter().copied()) && before.iter().chain(after).all(|place| place.get() == T::GUARD)
    }
}

/// The order, lent.
struct Lists {
    bays: u64,
    rails: Lent<Bay>,
    start: Lent<Bay>,
    goal: Lent<Bay>,
}

/// Marks, record and lines, lent.
struct LentBooks {
    marks: Lent<u8>,
    record: Lent<Record>,
    lines: Lent<Line>,
}

impl LentBooks {
    fn new(books: &Books) -> LentBooks {
        LentBooks { marks: Lent::new(&books.marks), record: Lent::new(&[laid_out(&books.record)]), lines: Lent::new(&listed(&books.lines)) }
    }

    fn are(&self, books: &Books) -> bool {
        self.marks.is(&books.marks) && self.record.is(&[laid_out(&books.record)]) && self.lines.is(&listed(&books.lines))
    }
}

fn laid_out(record: &reference::Record) -> Record {
    let reference::Record { at, done, highest } = *record;
    Record { at: at.map(Bay), done, highest }
}

fn listed(lines: &[reference::Line]) -> Vec<Line> {
    lines.iter().map(|&reference::Line { carrier, billed, last }| Line { carrier: Carrier(carrier), billed, last }).collect()
}

pub struct Asked<'a> {
    order: &'a Order,
}

impl<'a> Asked<'a> {
    pub fn new(order: &'a Order) -> Asked<'a> {
        Asked { order }
    }

    fn lists(&self) -> Lists {
        let Order { bays, rails, start, goal } = self.order;
        let lent = |list| Lent::new(Bay::list(list));
        Lists { bays: *bays, rails: lent(rails), start: lent(start), goal: lent(goal) }
    }

    fn kept(&self, lists: &Lists) -> bool {
        let Order { rails, start, goal, .. } = self.order;
        lists.rails.is(Bay::list(rails)) && lists.start.is(Bay::list(start)) && lists.goal.is(Bay::list(goal))
    }

    fn job<'b>(&'b self, plan: &'b [u64]) -> Job<'b> {
        let Order { bays, rails, start, goal } = self.order;
        Job { bays: *bays, rails, start, goal, plan }
    }

    pub fn plan(&self, room: usize) -> u64 {
        let Order { bays, rails, start, goal } = self.order;
        let mut expected = vec![u64::GUARD; room];
        let (number, value, parked) = reference::plan_parked(*bays, rails, start, goal, &mut expected);
        let (lists, out, counted) = (self.lists(), Lent::room(room), Lent::room(1));
        // SAFETY: each pointer comes with the length of its own list, and nothing else points there.
        let told = unsafe { ask!(sejjekoru_plan, lists, [out], counted.as_ptr()) };
        let kept = self.kept(&lists) && out.is(&expected) && counted.is(&[parked]);
        self.agreed("plan", told, (number, value), kept, &room);
        let (lists, out, counted) = (self.lists(), Lent::room(room), Lent::room(1));
        // SAFETY: as above.
        let told = unsafe { ask!(sejjekoru_plan_lean, lists, [out], counted.as_ptr()) };
        let kept = self.kept(&lists) && out.is(&expected) && counted.is(&[parked]);
        self.agreed("plan_lean", told, (number, value), kept, &room)
    }

    pub fn check(&self, plan: &[u64]) -> u64 {
        let Order { bays, rails, start, goal } = self.order;
        let answer = reference::check(*bays, rails, start, goal, plan);
        let (lists, lent) = (self.lists(), Lent::new(plan));
        // SAFETY: as in `plan`.
        let told = unsafe { ask!(sejjekoru_check, lists, [lent]) };
        let kept = self.kept(&lists) && lent.is(plan);
        self.agreed("check", told, answer, kept, &plan)
    }

    pub fn slots(&self, plan: &[u64], room: usize) -> u64 {
        let Order { bays, rails, start, goal } = self.order;
        let mut expected = vec![u32::GUARD; room];
        let answer = reference::slots(*bays, rails, start, goal, plan, &mut expected);
        let (lists, lent, slots) = (self.lists(), Lent::new(plan), Lent::room(room));
        // SAFETY: as in `plan`.
        let told = unsafe { ask!(sejjekoru_slots, lists, [lent], [slots]) };
        let kept = self.kept(&lists) && lent.is(plan) && slots.is(&expected);
        self.agreed("slots", told, answer, kept, &(room, plan))
    }

    /// The number, and the slots where they were written.
    pub fn slots_of(&self, edition: u64, plan: &[u64], room: usize) -> (u64, Vec<u32>) {
        let Order { bays, rails, start, goal } = self.order;
        let mut expected = vec![u32::GUARD; room];
        let answer = reference::slots_of(edition, *bays, rails, start, goal, plan, &mut expected);
        let (lists, lent, slots) = (self.lists(), Lent::new(plan), Lent::room(room));
        let (Lists { bays, rails, start, goal }, mut value) = (&lists, u64::MAX);
        let (rails, start, goal) = ((rails.as_ptr(), rails.len()), (start.as_ptr(), start.len()), (goal.as_ptr(), goal.len()));
        // SAFETY: as in `plan`.
        let number = unsafe {
            let (plan, slots) = ((lent.as_ptr(), lent.len()), (slots.as_ptr(), slots.len()));
            sejjekoru_slots_of(
                edition, *bays, rails.0, rails.1, start.0, start.1, goal.0, goal.1, plan.0, plan.1, slots.0, slots.1, &mut value,
            )
        };
        let kept = self.kept(&lists) && lent.is(plan) && slots.is(&expected);
        (self.agreed("slots of", (number, value), answer, kept, &(edition, room, plan)), expected)
    }

    pub fn report(&self, plan: &[u64], marks: &[u8], name: u64) -> u64 {
        let Order { bays, rails, start, goal } = self.order;
        let mut expected = marks.to_vec();
        let answer = reference::report(*bays, rails, start, goal, plan, &mut expected, name);
        let (lists, lent, lent_marks) = (self.lists(), Lent::new(plan), Lent::new(marks));
        // SAFETY: as in `plan`.
        let told = unsafe { ask!(sejjekoru_report, lists, [lent], [lent_marks], name) };
        let kept = self.kept(&lists) && lent.is(plan) && lent_marks.is(&expected);
        self.agreed("report", told, answer, kept, &(plan, marks, name))
    }

    pub fn shorten(&self, plan: &[u64], marks: &[u8], room: usize) -> u64 {
        let Order { bays, rails, start, goal } = self.order;
        let mut expected = vec![u64::GUARD; room];
        let shorten = if plan.len() > crate::LONG { reference::shorten_at_once } else { reference::shorten };
        let answer = shorten(*bays, rails, start, goal, plan, marks, &mut expected);
        let (lists, lent, lent_marks, out) = (self.lists(), Lent::new(plan), Lent::new(marks), Lent::room(room));
        // SAFETY: as in `plan`.
        let told = unsafe { ask!(sejjekoru_shorten, lists, [lent], [lent_marks], [out]) };
        let kept = self.kept(&lists) && lent.is(plan) && lent_marks.is(marks) && out.is(&expected);
        self.agreed("shorten", told, answer, kept, &(plan, marks, room))
    }

    pub fn placement(&self, plan: &[u64], marks: &[u8], room: usize) -> u64 {
        let Order { bays, rails, start, goal } = self.order;
        let mut expected = vec![u16::GUARD; room];
        let answer = reference::placement(*bays, rails, start, goal, plan, marks, &mut expected);
        let (lists, lent, lent_marks, at) = (self.lists(), Lent::new(plan), Lent::new(marks), Lent::room(room));
        // SAFETY: as in `plan`.
        let told = unsafe { ask!(sejjekoru_placement, lists, [lent], [lent_marks], [at]) };
        let kept = self.kept(&lists) && lent.is(plan) && lent_marks.is(marks) && at.is(Bay::list(&expected));
        self.agreed("placement", told, answer, kept, &(plan, marks, room))
    }

    /// The number, and the books as they are then.
    pub fn open(&self, plan: &[u64], books: &Books) -> (u64, Books) {
        let mut then = books.clone();
        let answer = reference::open(self.job(plan), &books.marks, &mut then.record, &mut then.lines);
        let (lists, lent, LentBooks { marks, record, lines }) = (self.lists(), Lent::new(plan), LentBooks::new(books));
        // SAFETY: as in `plan`.
        let told = unsafe { ask!(sejjekoru_open, lists, [lent], [marks], record.as_ptr(), [lines]) };
        let kept = self.kept(&lists) && lent.is(plan) && LentBooks { marks, record, lines }.are(&then);
        (self.agreed("open", told, answer, kept, &(plan, books)), then)
    }

    /// The number, and whether it was a yes.
    pub fn agrees(&self, plan: &[u64], books: &Books) -> (u64, bool) {
        let answer = reference::agrees(self.job(plan), &books.marks, &books.record, &books.lines);
        let (lists, lent, LentBooks { marks, record, lines }) = (self.lists(), Lent::new(plan), LentBooks::new(books));
        // SAFETY: as in `plan`.
        let told = unsafe { ask!(sejjekoru_agrees, lists, [lent], [marks], record.as_ptr(), [lines]) };
        let kept = self.kept(&lists) && lent.is(plan) && LentBooks { marks, record, lines }.are(books);
        (self.agreed("agrees", told, answer, kept, &(plan, books)), told == (0, 1))
    }

    /// The number, and the books as they are then.
    pub fn report_billed(&self, plan: &[u64], books: &Books, name: u64) -> (u64, Books) {
        let mut then = books.clone();
        let answer = reference::report_billed(self.job(plan), &mut then.marks, name, &mut then.record, &mut then.lines);
        let (lists, lent, LentBooks { marks, record, lines }) = (self.lists(), Lent::new(plan), LentBooks::new(books));
        // SAFETY: as in `plan`.
        let told = unsafe { ask!(sejjekoru_report_billed, lists, [lent], [marks], name, record.as_ptr(), [lines]) };
        let kept = self.kept(&lists) && lent.is(plan) && LentBooks { marks, record, lines }.are(&then);
        (self.agreed("report billed", told, answer, kept, &(plan, books, name)), then)
    }

    /// The number that both answered; at a disagreement all of the question is printed, and the run ends.
    fn agreed(&self, function: &str, library: (u64, u64), reference: (u64, u64), kept: bool, more: &dyn Debug) -> u64 {
        if library == reference && kept {
            return library.0;
        }
        let Order { bays, rails, start, goal } = self.order;
        println!("{function}: library {library:?}, reference {reference:?}, lists {}", if kept { "alike" } else { "differ" });
        println!("bays {bays}\nrails {rails:?}\nstart {start:?}\ngoal {goal:?}\nmore {more:?}");
        std::process::exit(1);
    }
}
