//! The plan check, the slots and the report log. None of them calls the planner; each is linear in the plan and the yard.

use crate::crossing::Crossing;
use crate::docket::Refusal;
use crate::yard::{by_words, Yard};

pub enum Told {
    Accepted,
    Already,
}

/// Tests 1 to 6, then 9, then 10.
pub fn check(bays: u64, rails: &[u16], start: &[u16], goal: &[u16], plan: &[u64]) -> Result<(), Refusal> {
    by_words!(bays, check_by(bays, rails, start, goal, plan))
}

fn check_by<const W: usize>(bays: u64, rails: &[u16], start: &[u16], goal: &[u16], plan: &[u64]) -> Result<(), Refusal> {
    let mut yard = Yard::<W>::NONE;
    yard.open(bays, rails, start, goal, plan.len())?;
    let end = play(&yard, start, plan)?;
    match goal.iter().zip(end).position(|(&goal, end)| goal != end) {
        Some(carrier) => Err(Refusal::GoalMissed(carrier as u64)),
        None => Ok(()),
    }
}

/// The placement that a legal plan leaves; 9 where it is not legal.
fn play<const W: usize>(yard: &Yard<W>, start: &[u16], plan: &[u64]) -> Result<[u16; 256], Refusal> {
    const NOWHERE: u16 = u16::MAX;
    let mut place = [NOWHERE; 256];
    let mut taken = [false; 256];
    let (bays, joined, carriers) = (yard.bays, &yard.joined, start.len());
    place[..carriers].copy_from_slice(start);
    start.iter().for_each(|&bay| taken[bay as usize] = true);
    for (name, &number) in plan.iter().enumerate() {
        let Crossing { carrier, from, to } = Crossing::read(number);
        let legal = ((carrier as usize) < carriers)
            & (place[carrier as usize & 255] == from)
            & ((to as usize) < bays)
            & joined[from as usize & 255].has(to as u8)
            & !taken[to as usize & 255];
        if !legal {
            return Err(Refusal::Crossing(name as u64));
        }
        place[carrier as usize & 255] = to;
        taken[from as usize & 255] = false;
        taken[to as usize & 255] = true;
    }
    Ok(place)
}

/// The check, then 8, then a slot for each crossing: one more than the highest among earlier ones that it depends on. Whatever touches
/// a carrier or a bay depends on all that touched it before, so the last slot of each is the highest.
pub fn slots(bays: u64, rails: &[u16], start: &[u16], goal: &[u16], plan: &[u64], slots: &mut [u32]) -> Result<u64, Refusal> {
    check(bays, rails, start, goal, plan)?;
    if plan.len() > slots.len() {
        return Err(Refusal::Room(plan.len() as u64));
    }
    let mut of_carrier = [0u32; 256];
    let mut of_bay = [0u32; 256];
    for (&number, slot) in plan.iter().zip(slots) {
        let Crossing { carrier, from, to } = Crossing::read(number);
        let (carrier, from, to) = (carrier as usize & 255, from as usize & 255, to as usize & 255);
        *slot = 1 + of_carrier[carrier].max(of_bay[from]).max(of_bay[to]);
        of_carrier[carrier] = *slot;
        of_bay[from] = *slot;
        of_bay[to] = *slot;
    }
    Ok(plan.len() as u64)
}

/// The check, then 11, 12, "already", 13, and the one mark that an acceptance changes.
pub fn report(bays: u64, rails: &[u16], start: &[u16], goal: &[u16], plan: &[u64], marks: &mut [u8], name: u64) -> Result<Told, Refusal> {
    check(bays, rails, start, goal, plan)?;
    marks_fit(plan, marks)?;
    report_on(plan, marks, name)
}

/// 12, "already", 13, and the mark, of marks that fit.
pub fn report_on(plan: &[u64], marks: &mut [u8], name: u64) -> Result<Told, Refusal> {
    if name >= plan.len() as u64 {
        return Err(Refusal::Unknown);
    }
    let name = name as usize;
    if marks[name] == 1 {
        return Ok(Told::Already);
    }
    if let Some(earlier) = first_undone(plan, marks, name) {
        return Err(Refusal::Early(earlier as u64));
    }
    marks[name] = 1;
    Ok(Told::Accepted)
}

/// Test 11.
pub fn marks_fit(plan: &[u64], marks: &[u8]) -> Result<(), Refusal> {
    if marks.len() != plan.len() || !marks_in_order(plan, marks) {
        return Err(Refusal::Marks);
    }
    Ok(())
}

/// Every mark is 0 or 1, and no crossing is done before an earlier one that it depends on: none meets a carrier or a bay that an
/// undone crossing has touched.
fn marks_in_order(plan: &[u64], marks: &[u8]) -> bool {
    let mut waiting_carrier = [false; 256];
    let mut waiting_bay = [false; 256];
    for (&number, &mark) in plan.iter().zip(marks) {
        let Crossing { carrier, from, to } = Crossing::read(number);
        let (carrier, from, to) = (carrier as usize & 255, from as usize & 255, to as usize & 255);
        match mark {
            0 => {
                waiting_carrier[carrier] = true;
                waiting_bay[from] = true;
                waiting_bay[to] = true;
            }
            1 if !(waiting_carrier[carrier] | waiting_bay[from] | waiting_bay[to]) => {}
            _ => return false,
        }
    }
    true
}

/// The lowest name before `name` that it depends on and that is undone.
fn first_undone(plan: &[u64], marks: &[u8], name: usize) -> Option<usize> {
    let reported = Crossing::read(plan[name]);
    let mut earlier = plan[..name].iter().zip(marks);
    earlier.position(|(&number, &mark)| mark == 0 && reported.depends_on(Crossing::read(number)))
}
