//! Train slots, from document 02's E8 alone, and what it is to do a slot's crossings all at once.

use crate::crossing::Crossing;
use crate::docket::Refusal;
use crate::log;

/// 20 before all others; then as slots. "Along one carrier slots rise strictly. A crossing into a bay has a slot no lower than the latest
/// earlier crossing out of that bay. Each slot is the lowest that these two rules permit."
pub fn slots_of(
    edition: u64,
    bays: u64,
    rails: &[u16],
    start: &[u16],
    goal: &[u16],
    plan: &[u64],
    slots: &mut [u32],
) -> Result<u64, Refusal> {
    match edition {
        1 => return log::slots(bays, rails, start, goal, plan, slots),
        2 => {}
        _ => return Err(Refusal::Edition),
    }
    log::check(bays, rails, start, goal, plan)?;
    if plan.len() > slots.len() {
        return Err(Refusal::Room(plan.len() as u64));
    }
    let mut of_carrier = [0u32; 256];
    let mut latest_out = [0u32; 256];
    for (&number, slot) in plan.iter().zip(slots) {
        let Crossing { carrier, from, to } = Crossing::read(number);
        let (carrier, from, to) = (carrier as usize & 255, from as usize & 255, to as usize & 255);
        *slot = (of_carrier[carrier] + 1).max(latest_out[to]);
        of_carrier[carrier] = *slot;
        latest_out[from] = *slot;
    }
    Ok(plan.len() as u64)
}

/// Does each slot's crossings all at once, and answers the placement at the end; or what goes wrong: a carrier that crosses twice in a slot or
/// does not stand where its crossing starts, two carriers at one bay after a slot, two that pass head-on.
pub fn all_at_once(start: &[u16], plan: &[u64], slots: &[u32]) -> Result<Vec<u16>, String> {
    let mut place = start.to_vec();
    let mut names: Vec<usize> = (0..plan.len()).collect();
    names.sort_by_key(|&name| slots[name]);
    for of_slot in names.chunk_by(|&one, &other| slots[one] == slots[other]) {
        let slot = slots[of_slot[0]];
        let before = place.clone();
        let mut rolled = vec![false; place.len()];
        let mut over = std::collections::HashSet::new();
        for &name in of_slot {
            let Crossing { carrier, from, to } = Crossing::read(plan[name]);
            let carrier = carrier as usize;
            if std::mem::replace(&mut rolled[carrier], true) {
                return Err(format!("carrier {carrier} crosses twice in slot {slot}"));
            }
            if before[carrier] != from {
                return Err(format!("carrier {carrier} is not at {from} before slot {slot}"));
            }
            if over.contains(&(to, from)) {
                return Err(format!("two pass head-on between {from} and {to} in slot {slot}"));
            }
            over.insert((from, to));
            place[carrier] = to;
        }
        let mut taken = [false; 256];
        for &bay in &place {
            if std::mem::replace(&mut taken[bay as usize], true) {
                return Err(format!("two carriers at {bay} after slot {slot}"));
            }
        }
    }
    Ok(place)
}
