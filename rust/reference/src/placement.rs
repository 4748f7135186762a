//! Where the carriers stand: "The placement is worked out from the start and the done crossings in plan order".

use crate::crossing::Crossing;
use crate::docket::Refusal;
use crate::log;

/// A report's refusals up to 11, then 8 where the list has fewer places than there are carriers; else their number.
pub fn placement(
    bays: u64,
    rails: &[u16],
    start: &[u16],
    goal: &[u16],
    plan: &[u64],
    marks: &[u8],
    at: &mut [u16],
) -> Result<u64, Refusal> {
    log::check(bays, rails, start, goal, plan)?;
    log::marks_fit(plan, marks)?;
    let carriers = start.len() as u64;
    let at = at.get_mut(..start.len()).ok_or(Refusal::Room(carriers))?;
    at.copy_from_slice(start);
    for (&number, _) in plan.iter().zip(marks).filter(|(_, &mark)| mark == 1) {
        let Crossing { carrier, to, .. } = Crossing::read(number);
        at[carrier as usize] = to;
    }
    Ok(carriers)
}
