//! The proved planner, plan check, slots, report log, shortening, running bills and rollbacks of a pallet vault, with the documents' answers
//! as enums.
//!
//! Any numbers and lists may be handed in; what does not hold together is a [`Refusal`], and a refusal leaves every lent list as it was. The
//! functions keep nothing between calls and allocate nothing. With the feature `alloc`, which is on unless it is turned off, [`plan_vec`],
//! [`reverse_vec`] and [`Books`] own their lists.
//!
//! ```
//! use sejjekoru::{plan_vec, Bay, Books, Crossing, Reported, Yard};
//!
//! // Rails 0-1, 1-2, 1-3; two carriers at bays 1 and 0 trade places.
//! let yard = Yard::new(4, &[0, 1, 1, 2, 1, 3], &[1, 0], &[0, 1]);
//! let plan = plan_vec(yard)?;
//! assert_eq!(plan.len(), 6);
//! assert_eq!(Crossing::from(plan[0]).to_string(), "(move c0 b1 b2)");
//!
//! let mut books = Books::open(yard, plan)?;
//! assert_eq!(books.report(0)?, Reported::Accepted);
//! assert_eq!(books.report(0)?, Reported::Already);
//! assert_eq!(books.lines()[0].billed, 1);
//! assert_eq!(books.placement(), Bay::list(&[2, 0]));
//! # Ok::<(), sejjekoru::Refusal>(())
//! ```

#![no_std]
#![warn(missing_docs, clippy::missing_errors_doc, clippy::undocumented_unsafe_blocks)]

#[cfg(feature = "alloc")]
extern crate alloc;

mod answers;
mod bays;
mod bills;
#[cfg(feature = "alloc")]
mod books;
mod compare;
mod crossing;
pub mod files;
pub mod numbers;
pub mod prints;
pub mod raw;
mod reverse;
mod survey;
pub mod trains;

pub use answers::{Planned, Refusal, Reported};
pub use bays::{Bay, Carrier};
pub use bills::{Line, Record, UNTOUCHED};
#[cfg(feature = "alloc")]
pub use books::{plan_vec, reverse_vec, Books};
pub use compare::{compare, compare_numbers, Compared};
pub use crossing::Crossing;
pub use files::Link;
pub use prints::{print_plan, program, read_plan, read_reports};
pub use reverse::reverse;
pub use survey::{read_survey, read_survey_numbers, write_survey, write_survey_numbers, Surveyed};
pub use trains::{program_timed, slots_of};

use answers::{planned, reported, told};

/// What every function is handed first: the number of bays, the two ends of each rail one after the other, and the bay of each carrier at
/// the start and at the goal.
#[derive(Clone, Copy, Debug, PartialEq, Eq)]
pub struct Yard<'a> {
    /// How many bays there are, numbered from 0.
    pub bays: u64,
    /// The two ends of each rail, one after the other.
    pub rails: &'a [Bay],
    /// The bay of each carrier at the start.
    pub start: &'a [Bay],
    /// The bay of each carrier at the goal.
    pub goal: &'a [Bay],
}

impl<'a> Yard<'a> {
    /// A yard from plain numbers, as files and other languages have them: bays, rails, start and goal. Nothing is copied.
    ///
    /// ```
    /// use sejjekoru::{Bay, Yard};
    ///
    /// const YARD: Yard = Yard::new(4, &[0, 1, 1, 2, 1, 3], &[1, 0], &[0, 1]);
    /// assert_eq!(YARD.start, [Bay(1), Bay(0)]);
    /// let back = Yard { start: YARD.goal, goal: YARD.start, ..YARD };
    /// assert_eq!(back.start, [Bay(0), Bay(1)]);
    /// ```
    pub const fn new(bays: u64, rails: &'a [u16], start: &'a [u16], goal: &'a [u16]) -> Yard<'a> {
        Yard { bays, rails: Bay::list(rails), start: Bay::list(start), goal: Bay::list(goal) }
    }
}

/// Plans, and writes the plan to the first places of `room`. The answer is the plan's length.
///
/// # Errors
///
/// [`Refusal::Size`], [`Refusal::Rail`], [`Refusal::Apart`], [`Refusal::Crowd`], [`Refusal::Start`] or [`Refusal::Goal`] for a yard that does not hold
/// together, tested in this order; then [`Refusal::Stopped`] with the carrier that could not step; then [`Refusal::Room`] with the length
/// that `room` would need.
///
/// ```
/// use sejjekoru::{plan, Planned, Refusal, Yard};
///
/// let yard = Yard::new(4, &[0, 1, 1, 2, 1, 3], &[1, 0], &[0, 1]);
/// let mut room = [0; 16];
/// assert_eq!(plan(yard, &mut room), Ok(Planned { length: 6, parked: 0 }));
/// assert_eq!(plan(yard, &mut room[..5]), Err(Refusal::Room(6)));
/// ```
pub fn plan(yard: Yard, room: &mut [u64]) -> Result<Planned, Refusal> {
    planned(numbers::plan(yard, room))
}

/// As [`plan`], with the same answer and the same plan for every yard, on a small stack. It takes longer.
///
/// # Errors
///
/// As [`plan`].
///
/// ```
/// use sejjekoru::{plan_lean, Planned, Refusal, Yard};
///
/// let yard = Yard::new(4, &[0, 1, 1, 2, 1, 3], &[1, 0], &[0, 1]);
/// let mut room = [0; 16];
/// assert_eq!(plan_lean(yard, &mut room), Ok(Planned { length: 6, parked: 0 }));
/// assert_eq!(plan_lean(yard, &mut room[..5]), Err(Refusal::Room(6)));
/// ```
pub fn plan_lean(yard: Yard, room: &mut [u64]) -> Result<Planned, Refusal> {
    planned(numbers::plan_lean(yard, room))
}

/// Whether `plan` is legal and brings every carrier home.
///
/// # Errors
///
/// As [`plan`] up to [`Refusal::Goal`]; then [`Refusal::Illegal`] with the name of the first illegal crossing; then [`Refusal::Missed`] with the
/// lowest carrier that is not home.
///
/// ```
/// use sejjekoru::{check, Bay, Carrier, Crossing, Refusal, Yard};
///
/// let yard = Yard::new(3, &[0, 1, 1, 2], &[0], &[1]);
/// let step = u64::from(Crossing { carrier: Carrier(0), from: Bay(0), to: Bay(1) });
/// assert_eq!(check(yard, &[step]), Ok(()));
/// assert_eq!(check(yard, &[step, step]), Err(Refusal::Illegal(1)));
/// assert_eq!(check(yard, &[]), Err(Refusal::Missed(Carrier(0))));
/// ```
pub fn check(yard: Yard, plan: &[u64]) -> Result<(), Refusal> {
    told(numbers::check(yard, plan)).map(|_| ())
}

/// Writes the slot of each crossing to the first places of `slots`. The answer is their number.
/// Crossings of one slot do not depend on each other.
///
/// # Errors
///
/// As [`check`]; then [`Refusal::Room`] with the plan's length.
///
/// ```
/// use sejjekoru::{plan, slots, Yard};
///
/// // Two carriers at the ends of a line: their crossings share no bay, so both have slot 1.
/// let yard = Yard::new(6, &[0, 1, 1, 2, 2, 3, 3, 4, 4, 5], &[0, 5], &[1, 4]);
/// let (mut room, mut list) = ([0; 2], [0; 2]);
/// plan(yard, &mut room)?;
/// assert_eq!(slots(yard, &room, &mut list), Ok(2));
/// assert_eq!(list, [1, 1]);
/// # Ok::<(), sejjekoru::Refusal>(())
/// ```
pub fn slots(yard: Yard, plan: &[u64], slots: &mut [u32]) -> Result<usize, Refusal> {
    told(numbers::slots(yard, plan, slots)).map(|written| written as usize)
}

/// Reports the crossing `name` as done. `marks` has a byte for each crossing, all 0 before the first report.
///
/// # Errors
///
/// As [`check`]; then [`Refusal::Mismarked`] for marks that are not marks of this plan; then [`Refusal::Unknown`] for a name that no crossing
/// has; then, where the crossing is not done yet, [`Refusal::Early`] with the lowest undone name that it depends on.
///
/// ```
/// use sejjekoru::{report, Refusal, Reported, Yard};
///
/// let yard = Yard::new(4, &[0, 1, 1, 2, 2, 3], &[0], &[2]);
/// let (plan, mut marks) = ([0x0_0000_0001, 0x0_0001_0002], [0; 2]);
/// assert_eq!(report(yard, &plan, &mut marks, 1), Err(Refusal::Early(0)));
/// assert_eq!(report(yard, &plan, &mut marks, 0), Ok(Reported::Accepted));
/// assert_eq!(report(yard, &plan, &mut marks, 0), Ok(Reported::Already));
/// assert_eq!(marks, [1, 0]);
/// ```
pub fn report(yard: Yard, plan: &[u64], marks: &mut [u8], name: u64) -> Result<Reported, Refusal> {
    reported(numbers::report(yard, plan, marks, name))
}

/// Drops the there-and-back trips of `plan`, of which no crossing may be marked as done, and writes what is left to the first places of
/// `room`. The answer is its length.
///
/// # Errors
///
/// As [`check`]; then [`Refusal::Mismarked`]; then [`Refusal::Begun`] if a crossing is done; then [`Refusal::Room`] with the length that is left.
///
/// ```
/// use sejjekoru::{shorten, Yard};
///
/// let there_and_back = [0x0_0000_0001, 0x0_0001_0000];
/// let yard = Yard::new(3, &[0, 1, 1, 2], &[0], &[0]);
/// assert_eq!(shorten(yard, &there_and_back, &[0, 0], &mut []), Ok(0));
/// ```
pub fn shorten(yard: Yard, plan: &[u64], marks: &[u8], room: &mut [u64]) -> Result<usize, Refusal> {
    told(numbers::shorten(yard, plan, marks, room)).map(|written| written as usize)
}

/// Where the carriers stand, by the marks: writes the bay of each to the first places of `at`. The answer is their number.
///
/// # Errors
///
/// As [`check`]; then [`Refusal::Mismarked`]; then [`Refusal::Room`] with the number of carriers.
///
/// ```
/// use sejjekoru::{placement, Bay, Yard};
///
/// let yard = Yard::new(4, &[0, 1, 1, 2, 2, 3], &[0], &[2]);
/// let (plan, mut at) = ([0x0_0000_0001, 0x0_0001_0002], [Bay(0)]);
/// assert_eq!(placement(yard, &plan, &[1, 0], &mut at), Ok(1));
/// assert_eq!(at, [Bay(1)]);
/// ```
pub fn placement(yard: Yard, plan: &[u64], marks: &[u8], at: &mut [Bay]) -> Result<usize, Refusal> {
    told(numbers::placement(yard, plan, marks, at)).map(|carriers| carriers as usize)
}

/// Builds record and lines from plan, start and marks. There is one line for each carrier, no more and no fewer.
///
/// # Errors
///
/// As [`check`]; then [`Refusal::Mismarked`]; then [`Refusal::Room`] with the number of carriers for any other number of lines.
pub fn open(yard: Yard, plan: &[u64], marks: &[u8], record: &mut Record, lines: &mut [Line]) -> Result<(), Refusal> {
    told(numbers::open(yard, plan, marks, record, lines)).map(|_| ())
}

/// Whether record and lines are what plan, start and marks give.
///
/// # Errors
///
/// As [`check`]; then [`Refusal::Mismarked`].
pub fn agrees(yard: Yard, plan: &[u64], marks: &[u8], record: &Record, lines: &[Line]) -> Result<bool, Refusal> {
    told(numbers::agrees(yard, plan, marks, record, lines)).map(|yes| yes == 1)
}

/// As [`report`], and where it is accepted the record and the carrier's line are changed in place. Record and lines must agree.
///
/// # Errors
///
/// As [`report`], with [`Refusal::Disagrees`] after [`Refusal::Mismarked`] for a record or lines that are not what plan, start and marks give.
pub fn report_billed(
    yard: Yard,
    plan: &[u64],
    marks: &mut [u8],
    name: u64,
    record: &mut Record,
    lines: &mut [Line],
) -> Result<Reported, Refusal> {
    reported(numbers::report_billed(yard, plan, marks, name, record, lines))
}
