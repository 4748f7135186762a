//! The rules of the vault in plain Rust, written from document 01 and, for shortening and bills, document 02 alone: what the proved library
//! is compared with and raced against.
//!
//! Every function answers the number of document 01's table (0 accepted, 100 "already", 19 for a record that disagrees, 25 for a plan begun
//! already) and the value that goes with it, 0 where there is none. A refusal changes no lent list.

mod bays;
mod bills;
mod choice;
mod compare;
mod crossing;
mod distances;
mod docket;
mod files;
pub mod link;
mod log;
mod placement;
mod planner;
mod readback;
mod reverse;
mod search;
mod shorten;
mod survey;
mod swaps;
mod trains;
mod trips;
mod ways;
mod yard;

pub use bills::{Job, Line, Record, UNTOUCHED};
pub use files::{program, program_short};
pub use readback::{read_plan, read_reports};
pub use reverse::reverse;
pub use search::Seeking;
pub use trains::all_at_once;

use bills::Billed;
use docket::{docket, ACCEPTED, ALREADY, BEGUN, DISAGREES};
use log::Told;

/// Plans from start to goal into `out`; the value of an acceptance is the plan's length.
pub fn plan(bays: u64, rails: &[u16], start: &[u16], goal: &[u16], out: &mut [u64]) -> (u64, u64) {
    docket(planner::plan(Seeking::Kept, bays, rails, start, goal, out).map(|planned| (ACCEPTED, planned.length)))
}

/// The same, and on acceptance how many vacates in the plan, undoing left aside, filled a bay of three rails or more; 0 on refusal.
pub fn plan_parked(bays: u64, rails: &[u16], start: &[u16], goal: &[u16], out: &mut [u64]) -> (u64, u64, u64) {
    let planned = planner::plan(Seeking::Kept, bays, rails, start, goal, out);
    let parked = planned.as_ref().map_or(0, |planned| planned.parked);
    let (number, value) = docket(planned.map(|planned| (ACCEPTED, planned.length)));
    (number, value, parked)
}

/// The same plan, found so.
pub fn plan_by(seeking: Seeking, bays: u64, rails: &[u16], start: &[u16], goal: &[u16], out: &mut [u64]) -> (u64, u64) {
    docket(planner::plan(seeking, bays, rails, start, goal, out).map(|planned| (ACCEPTED, planned.length)))
}

/// Whether the plan is legal from the start and brings every carrier home.
pub fn check(bays: u64, rails: &[u16], start: &[u16], goal: &[u16], plan: &[u64]) -> (u64, u64) {
    docket(log::check(bays, rails, start, goal, plan).map(|()| (ACCEPTED, 0)))
}

/// Writes each crossing's slot; the value of an acceptance is how many were written.
pub fn slots(bays: u64, rails: &[u16], start: &[u16], goal: &[u16], plan: &[u64], slots: &mut [u32]) -> (u64, u64) {
    docket(log::slots(bays, rails, start, goal, plan, slots).map(|length| (ACCEPTED, length)))
}

/// Writes each crossing's slot by the edition, 1 or 2; the value of an acceptance is how many were written.
pub fn slots_of(edition: u64, bays: u64, rails: &[u16], start: &[u16], goal: &[u16], plan: &[u64], slots: &mut [u32]) -> (u64, u64) {
    docket(trains::slots_of(edition, bays, rails, start, goal, plan, slots).map(|length| (ACCEPTED, length)))
}

/// Reports the crossing that bears `name` as done.
pub fn report(bays: u64, rails: &[u16], start: &[u16], goal: &[u16], plan: &[u64], marks: &mut [u8], name: u64) -> (u64, u64) {
    docket(log::report(bays, rails, start, goal, plan, marks, name).map(told))
}

fn told(told: Told) -> (u64, u64) {
    match told {
        Told::Accepted => (ACCEPTED, 0),
        Told::Already => (ALREADY, 0),
    }
}

/// Drops the plan's there-and-back trips, one after the other as the request says; the value of an acceptance is the length written.
pub fn shorten(bays: u64, rails: &[u16], start: &[u16], goal: &[u16], plan: &[u64], marks: &[u8], out: &mut [u64]) -> (u64, u64) {
    shortened(shorten::shorten(false, bays, rails, start, goal, plan, marks, out))
}

/// The same in time that grows with the plan alone.
pub fn shorten_at_once(bays: u64, rails: &[u16], start: &[u16], goal: &[u16], plan: &[u64], marks: &[u8], out: &mut [u64]) -> (u64, u64) {
    shortened(shorten::shorten(true, bays, rails, start, goal, plan, marks, out))
}

fn shortened(answer: Result<shorten::Answer, docket::Refusal>) -> (u64, u64) {
    docket(answer.map(|told| match told {
        shorten::Answer::Written(length) => (ACCEPTED, length),
        shorten::Answer::Begun => (BEGUN, 0),
    }))
}

/// Builds record and lines from plan, start and marks.
pub fn open(job: Job, marks: &[u8], record: &mut Record, lines: &mut [Line]) -> (u64, u64) {
    docket(job.open(marks, record, lines).map(|()| (ACCEPTED, 0)))
}

/// Whether record and lines are what plan, start and marks give; the value of an acceptance is 1 for yes, 0 for no.
pub fn agrees(job: Job, marks: &[u8], record: &Record, lines: &[Line]) -> (u64, u64) {
    docket(job.agrees(marks, record, lines).map(|yes| (ACCEPTED, yes as u64)))
}

/// Reports the crossing that bears `name` as done, with record and lines kept beside the marks.
pub fn report_billed(job: Job, marks: &mut [u8], name: u64, record: &mut Record, lines: &mut [Line]) -> (u64, u64) {
    docket(job.report(marks, name, record, lines).map(|billed| match billed {
        Billed::Told(answer) => told(answer),
        Billed::Disagrees => (DISAGREES, 0),
    }))
}

/// Compares two lists of crossings: number, value, which is the number of equal leading crossings, and the rest that is handed back.
pub fn compare<'a>(first: &'a [u64], second: &'a [u64], differences: &mut [i64]) -> (u64, u64, &'a [u64]) {
    let mut part = &first[..0];
    let answer = compare::compare(first, second, differences).map(|(equal, rest)| {
        part = rest;
        (ACCEPTED, equal)
    });
    let (number, value) = docket(answer);
    (number, value, part)
}

/// Where the carriers stand, by the marks; the value of an acceptance is their number.
pub fn placement(bays: u64, rails: &[u16], start: &[u16], goal: &[u16], plan: &[u64], marks: &[u8], at: &mut [u16]) -> (u64, u64) {
    docket(placement::placement(bays, rails, start, goal, plan, marks, at).map(|carriers| (ACCEPTED, carriers)))
}

/// Reads a surveyors' file: number, value, which is the number of rail ends written, and the bays, 0 where it is refused.
pub fn read_survey(file: &[u8], rails: &mut [u16]) -> (u64, u64, u64) {
    let answer = survey::read(file, rails);
    let bays = answer.map_or(0, |(bays, _)| bays);
    let (number, value) = docket(answer.map(|(_, ends)| (ACCEPTED, ends)));
    (number, value, bays)
}

/// Writes a yard as a surveyors' file; the value of an acceptance is the number of bytes written.
pub fn write_survey(bays: u64, rails: &[u16], out: &mut [u8]) -> (u64, u64) {
    docket(survey::write(bays, rails, out).map(|length| (ACCEPTED, length)))
}
