//! The whole reading of a map and of a scenario, and a scenario in pieces: they are put one after the other, and read when told that it has ended.

use crate::docket::{docket, Refusal, ACCEPTED};
use crate::files::{map_of, scenario_of};

pub const MORE: u64 = 101;
const ENDED: u64 = 17;
const LONG_PIECE: u64 = 18;
const MOST_BYTES: usize = 256;

/// Number, value and bays; the ends of the rails go to the list.
pub fn map(bytes: &[u8], rails: &mut [u16]) -> (u64, u64, u64) {
    let read = map_of(bytes).and_then(|map| {
        let ends = map.rails();
        let room = rails.get_mut(..ends.len()).ok_or(Refusal::Room(ends.len() as u64))?;
        room.copy_from_slice(&ends);
        Ok((map.bays as u64, ends.len() as u64))
    });
    let bays = read.map_or(0, |(bays, _)| bays);
    let (number, value) = docket(read.map(|(_, ends)| (ACCEPTED, ends)));
    (number, value, bays)
}

/// The number of carriers; their starts and goals go to the lists.
pub fn scenario(map: &[u8], bytes: &[u8], start: &mut [u16], goal: &mut [u16]) -> (u64, u64) {
    docket(map_of(map).and_then(|map| {
        let (starts, goals) = scenario_of(bytes, &map)?;
        let carriers = starts.len();
        if start.len() < carriers || goal.len() < carriers {
            return Err(Refusal::Room(carriers as u64));
        }
        start[..carriers].copy_from_slice(&starts);
        goal[..carriers].copy_from_slice(&goals);
        Ok((ACCEPTED, carriers as u64))
    }))
}

/// What came so far, if it has not ended.
#[derive(Default)]
pub struct Link {
    came: Option<(Vec<u8>, Vec<u8>)>,
}

impl Link {
    pub fn begin(&mut self, map: &[u8]) -> (u64, u64) {
        docket(map_of(map).map(|_| {
            self.came = Some((map.to_vec(), Vec::new()));
            (ACCEPTED, 0)
        }))
    }

    pub fn piece(&mut self, piece: &[u8]) -> (u64, u64) {
        match &mut self.came {
            None => (ENDED, 0),
            Some(_) if piece.len() > MOST_BYTES => (LONG_PIECE, 0),
            Some((_, bytes)) => {
                bytes.extend(piece);
                (MORE, 0)
            }
        }
    }

    pub fn end(&mut self, start: &mut [u16], goal: &mut [u16]) -> (u64, u64) {
        match self.came.take() {
            None => (ENDED, 0),
            Some((map, bytes)) => scenario(&map, &bytes, start, goal),
        }
    }
}
