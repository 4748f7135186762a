//! Request E12 of document 02: a plan played backwards.

use crate::crossing::Crossing;
use crate::docket::{docket, Refusal, ACCEPTED};

/// The most crossings that a plan may have.
const MOST: usize = 65_536;

/// Writes the crossings in reverse order, from and to exchanged; the value of an acceptance is the length written.
pub fn reverse(list: &[u64], out: &mut [u64]) -> (u64, u64) {
    docket(backwards(list, out).map(|()| (ACCEPTED, list.len() as u64)))
}

/// 1, then 8.
fn backwards(list: &[u64], out: &mut [u64]) -> Result<(), Refusal> {
    if list.len() > MOST {
        return Err(Refusal::Size);
    }
    let room = out.get_mut(..list.len()).ok_or(Refusal::Room(list.len() as u64))?;
    for (place, &number) in room.iter_mut().zip(list.iter().rev()) {
        *place = turned(Crossing::read(number)).number();
    }
    Ok(())
}

#[inline(always)]
fn turned(crossing: Crossing) -> Crossing {
    Crossing { from: crossing.to, to: crossing.from, ..crossing }
}
