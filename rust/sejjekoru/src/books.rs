//! What owns its lists: a plan of any length, and the books of a plan from opening to all done.

use crate::answers::{reported, told};
use crate::{numbers, Bay, Line, Record, Refusal, Reported, Yard};
use alloc::vec;
use alloc::vec::Vec;

/// The most crossings that a plan may have.
const CROSSINGS: usize = 65_536;

/// Plans into a list of its own.
///
/// # Errors
///
/// As [`crate::plan`]; [`Refusal::Room`] only for a plan of more than 65,536 crossings.
///
/// ```
/// use sejjekoru::{plan_vec, Bay, Carrier, Refusal, Yard};
///
/// let yard = Yard::new(4, &[0, 1, 1, 2, 2, 3], &[0], &[3]);
/// assert_eq!(plan_vec(yard)?.len(), 3);
/// let in_the_way = Yard { start: Bay::list(&[0, 1]), goal: Bay::list(&[1, 0]), ..yard };
/// assert_eq!(plan_vec(in_the_way), Err(Refusal::Stopped(Carrier(1))));
/// # Ok::<(), Refusal>(())
/// ```
pub fn plan_vec(yard: Yard) -> Result<Vec<u64>, Refusal> {
    let mut plan = vec![0; CROSSINGS];
    let planned = crate::plan(yard, &mut plan)?;
    plan.truncate(planned.length);
    plan.shrink_to_fit();
    Ok(plan)
}

/// Plays a list backwards into a list of its own.
///
/// # Errors
///
/// [`Refusal::Size`] for a list of more than 65,536 crossings.
///
/// ```
/// use sejjekoru::{check, plan_vec, reverse_vec, Yard};
///
/// let yard = Yard::new(4, &[0, 1, 1, 2, 1, 3], &[1, 0], &[0, 1]);
/// let rollback = reverse_vec(&plan_vec(yard)?)?;
/// let turned = Yard { start: yard.goal, goal: yard.start, ..yard };
/// assert_eq!(check(turned, &rollback), Ok(()));
/// # Ok::<(), sejjekoru::Refusal>(())
/// ```
pub fn reverse_vec(list: &[u64]) -> Result<Vec<u64>, Refusal> {
    let mut out = vec![0; list.len()];
    crate::reverse(list, &mut out)?;
    Ok(out)
}

/// A plan with its marks, its running record and one account line for each carrier. They agree at all times.
///
/// Save the marks before you acknowledge a report: with plan and marks the books are opened again after a restart.
///
/// ```
/// use sejjekoru::{plan_vec, Books, Refusal, Reported, Yard};
///
/// let yard = Yard::new(4, &[0, 1, 1, 2, 1, 3], &[1, 0], &[0, 1]);
/// let mut books = Books::open(yard, plan_vec(yard)?)?;
/// assert_eq!(books.report(1), Err(Refusal::Early(0)));
/// for name in 0..6 {
///     assert_eq!(books.report(name)?, Reported::Accepted);
/// }
/// assert!(books.all_done());
/// assert_eq!(books.lines().iter().map(|line| line.billed).sum::<u32>(), 6);
///
/// // After a restart: the same books from the plan and the saved marks.
/// let again = Books::reopen(yard, books.plan().to_vec(), books.marks().to_vec())?;
/// assert_eq!(again.record(), books.record());
/// # Ok::<(), Refusal>(())
/// ```
#[derive(Clone, Debug)]
pub struct Books<'a> {
    yard: Yard<'a>,
    plan: Vec<u64>,
    marks: Vec<u8>,
    record: Record,
    lines: Vec<Line>,
}

impl<'a> Books<'a> {
    /// Opens the books of a plan of which nothing is done.
    ///
    /// # Errors
    ///
    /// As [`crate::check`].
    pub fn open(yard: Yard<'a>, plan: Vec<u64>) -> Result<Books<'a>, Refusal> {
        let marks = vec![0; plan.len()];
        Books::reopen(yard, plan, marks)
    }

    /// Opens the books of a plan at the marks that were saved.
    ///
    /// # Errors
    ///
    /// As [`crate::check`]; then [`Refusal::Mismarked`] for marks that are not marks of this plan.
    pub fn reopen(yard: Yard<'a>, plan: Vec<u64>, marks: Vec<u8>) -> Result<Books<'a>, Refusal> {
        let mut record = Record::default();
        let mut lines = vec![Line::default(); yard.start.len()];
        crate::open(yard, &plan, &marks, &mut record, &mut lines)?;
        Ok(Books { yard, plan, marks, record, lines })
    }

    /// Reports the crossing `name` as done: its mark, the record and its carrier's line change together. Whatever is not accepted changes nothing.
    ///
    /// # Errors
    ///
    /// [`Refusal::Unknown`] for a name that no crossing has; [`Refusal::Early`] with the lowest undone name that the crossing depends on.
    pub fn report(&mut self, name: u64) -> Result<Reported, Refusal> {
        let Books { yard, plan, marks, record, lines } = self;
        reported(numbers::report_billed(*yard, plan, marks, name, record, lines))
    }

    /// The plan; a crossing's name is its place.
    pub fn plan(&self) -> &[u64] {
        &self.plan
    }

    /// A byte for each crossing, 1 if it is done.
    pub fn marks(&self) -> &[u8] {
        &self.marks
    }

    /// Where the carriers stand, how many crossings are done, and the highest slot in which anything is.
    pub fn record(&self) -> &Record {
        &self.record
    }

    /// Where the carriers stand, by the reports so far: place c is carrier c's bay.
    pub fn placement(&self) -> &[Bay] {
        &self.record.at[..self.lines.len()]
    }

    /// The bill: line c is carrier c's.
    pub fn lines(&self) -> &[Line] {
        &self.lines
    }

    /// Whether every crossing is done: then every carrier is home.
    pub fn all_done(&self) -> bool {
        self.record.done as usize == self.plan.len()
    }

    /// Whether record and lines are what plan, start and marks give, asked of the library again.
    pub fn agree(&self) -> bool {
        let Books { yard, plan, marks, record, lines } = self;
        told(numbers::agrees(*yard, plan, marks, record, lines)) == Ok(1)
    }
}
