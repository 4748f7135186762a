//! Request E10 of document 02: there-and-back trips are dropped from a plan of which nothing is done. `without_trips` follows the request's sentences one by
//! one and scans the plan anew for each trip; it is not made to be fast.

use crate::crossing::Crossing;
use crate::docket::Refusal;
use crate::{log, trips};

pub enum Answer {
    Written(u64),
    /// Some crossing is done already.
    Begun,
}

/// The check, 11, 25, then 8. With `at_once` by lists of entries, else by the request's sentences.
#[allow(clippy::too_many_arguments)]
pub fn shorten(
    at_once: bool,
    bays: u64,
    rails: &[u16],
    start: &[u16],
    goal: &[u16],
    plan: &[u64],
    marks: &[u8],
    out: &mut [u64],
) -> Result<Answer, Refusal> {
    log::check(bays, rails, start, goal, plan)?;
    log::marks_fit(plan, marks)?;
    if marks.contains(&1) {
        return Ok(Answer::Begun);
    }
    let left = if at_once { trips::without_trips(start, plan) } else { without_trips(plan) };
    if left.len() > out.len() {
        return Err(Refusal::Room(left.len() as u64));
    }
    out[..left.len()].copy_from_slice(&left);
    Ok(Answer::Written(left.len() as u64))
}

/// Trip after trip is dropped until there is none.
pub fn without_trips(plan: &[u64]) -> Vec<u64> {
    let mut left: Vec<Crossing> = plan.iter().map(|&number| Crossing::read(number)).collect();
    while let Some((leaving, back)) = lowest_trip(&left) {
        drop_trip(&mut left, leaving, back);
    }
    left.into_iter().map(Crossing::number).collect()
}

/// The lowest name at which a carrier leaves a bay to which it returns, and the name of its last return.
fn lowest_trip(plan: &[Crossing]) -> Option<(usize, usize)> {
    (0..plan.len()).find_map(|leaving| Some((leaving, last_return(plan, leaving)?)))
}

/// The last name at which the carrier enters the bay again, before any other carrier enters it.
fn last_return(plan: &[Crossing], leaving: usize) -> Option<usize> {
    let Crossing { carrier, from: bay, .. } = plan[leaving];
    let later = plan.iter().enumerate().skip(leaving + 1);
    let entering = later.filter(|(_, crossing)| crossing.to == bay);
    entering.take_while(|(_, crossing)| crossing.carrier == carrier).last().map(|(name, _)| name)
}

/// The carrier's crossings from the leaving to the return are gone; all others stay, in their order.
fn drop_trip(plan: &mut Vec<Crossing>, leaving: usize, back: usize) {
    let carrier = plan[leaving].carrier;
    let mut name = 0;
    plan.retain(|crossing| {
        let dropped = (leaving..=back).contains(&name) && crossing.carrier == carrier;
        name += 1;
        !dropped
    });
}
