//! Request E7 of document 02: bills as we go. Record and lines are worked out afresh at every call, in one pass over the done crossings; an accepted report
//! changes one line and the record.

use crate::crossing::Crossing;
use crate::docket::Refusal;
use crate::log::{self, Told};

/// "The placement, the number done and the highest slot in which anything is done, or 0": places beyond the carriers are 0.
#[derive(Clone, Copy, Debug, PartialEq, Eq)]
pub struct Record {
    pub at: [u16; 256],
    pub done: u32,
    pub highest: u32,
}

/// "Carrier, crossings billed and last name accepted."
#[derive(Clone, Copy, Debug, PartialEq, Eq)]
pub struct Line {
    pub carrier: u32,
    pub billed: u32,
    pub last: u32,
}

/// "Last name in an untouched line is 65,536."
pub const UNTOUCHED: u32 = 65_536;

/// What is lent and never changed: the yard, the carriers' starts and goals, and the plan.
#[derive(Clone, Copy)]
pub struct Job<'a> {
    pub bays: u64,
    pub rails: &'a [u16],
    pub start: &'a [u16],
    pub goal: &'a [u16],
    pub plan: &'a [u64],
}

pub enum Billed {
    Told(Told),
    Disagrees,
}

/// Record and lines as plan, start and marks give them, and what the next slot is told from.
struct Afresh {
    record: Record,
    lines: [Line; 256],
    of_carrier: [u32; 256],
    of_bay: [u32; 256],
}

impl Job<'_> {
    /// The refusals up to 11, then 8 carrying k unless there are k lines, then both are built.
    pub fn open(self, marks: &[u8], record: &mut Record, lines: &mut [Line]) -> Result<(), Refusal> {
        self.up_to_11(marks)?;
        let carriers = self.start.len();
        if lines.len() != carriers {
            return Err(Refusal::Room(carriers as u64));
        }
        let afresh = self.afresh(marks);
        *record = afresh.record;
        lines.copy_from_slice(&afresh.lines[..carriers]);
        Ok(())
    }

    /// The refusals up to 11, then whether all agree.
    pub fn agrees(self, marks: &[u8], record: &Record, lines: &[Line]) -> Result<bool, Refusal> {
        self.up_to_11(marks)?;
        Ok(self.afresh(marks).is(record, lines, self.start.len()))
    }

    /// The refusals up to 11, then 19, then as a report answers; an acceptance changes mark, record and line.
    pub fn report(self, marks: &mut [u8], name: u64, record: &mut Record, lines: &mut [Line]) -> Result<Billed, Refusal> {
        self.up_to_11(marks)?;
        let afresh = self.afresh(marks);
        if !afresh.is(record, lines, self.start.len()) {
            return Ok(Billed::Disagrees);
        }
        let told = log::report_on(self.plan, marks, name)?;
        if let Told::Accepted = told {
            let Crossing { carrier, from, to } = Crossing::read(self.plan[name as usize]);
            record.at[carrier as usize] = to;
            record.done += 1;
            record.highest = record.highest.max(afresh.slot(carrier, from, to));
            lines[carrier as usize].billed += 1;
            lines[carrier as usize].last = name as u32;
        }
        Ok(Billed::Told(told))
    }

    fn up_to_11(self, marks: &[u8]) -> Result<(), Refusal> {
        log::check(self.bays, self.rails, self.start, self.goal, self.plan)?;
        log::marks_fit(self.plan, marks)
    }

    /// The done crossings in plan order. All that a done crossing depends on is done, so their slots need no others. Crossings of one carrier depend on
    /// each other, so the last name accepted is the highest.
    fn afresh(self, marks: &[u8]) -> Afresh {
        let line = |carrier| Line { carrier: carrier as u32, billed: 0, last: UNTOUCHED };
        let record = Record { at: [0; 256], done: 0, highest: 0 };
        let mut afresh = Afresh { record, lines: std::array::from_fn(line), of_carrier: [0; 256], of_bay: [0; 256] };
        afresh.record.at[..self.start.len()].copy_from_slice(self.start);
        for (name, (&number, &mark)) in self.plan.iter().zip(marks).enumerate() {
            if mark == 1 {
                afresh.cross(name as u32, Crossing::read(number));
            }
        }
        afresh
    }
}

impl Afresh {
    #[inline(always)]
    fn cross(&mut self, name: u32, crossing: Crossing) {
        let Crossing { carrier, from, to } = crossing;
        let slot = self.slot(carrier, from, to);
        self.of_carrier[carrier as usize & 255] = slot;
        self.of_bay[from as usize & 255] = slot;
        self.of_bay[to as usize & 255] = slot;
        self.record.at[carrier as usize & 255] = to;
        self.record.done += 1;
        self.record.highest = self.record.highest.max(slot);
        let line = &mut self.lines[carrier as usize & 255];
        line.billed += 1;
        line.last = name;
    }

    /// One more than the highest among those done that it depends on.
    #[inline(always)]
    fn slot(&self, carrier: u32, from: u16, to: u16) -> u32 {
        1 + self.of_carrier[carrier as usize & 255].max(self.of_bay[from as usize & 255]).max(self.of_bay[to as usize & 255])
    }

    fn is(&self, record: &Record, lines: &[Line], carriers: usize) -> bool {
        *record == self.record && *lines == self.lines[..carriers]
    }
}
