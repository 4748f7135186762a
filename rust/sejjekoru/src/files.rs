//! Maps and scenarios from their bytes: whole, and a scenario over a serial link.

use crate::answers::told;
use crate::{Bay, Refusal};

/// The functions as `include/sejjekoru.h` declares them.
mod raw {
    use super::Link;
    use crate::Bay;

    extern "C" {
        pub fn sejjekoru_map(map: *const u8, map_len: usize, bays: *mut u64, rails: *mut Bay, rails_len: usize, value: *mut u64) -> u64;
        pub fn sejjekoru_scenario(
            map: *const u8,
            map_len: usize,
            scenario: *const u8,
            scenario_len: usize,
            start: *mut Bay,
            start_len: usize,
            goal: *mut Bay,
            goal_len: usize,
            value: *mut u64,
        ) -> u64;
        pub fn sejjekoru_link_begin(map: *const u8, map_len: usize, link: *mut Link, value: *mut u64) -> u64;
        pub fn sejjekoru_link_piece(link: *mut Link, piece: *const u8, piece_len: usize, value: *mut u64) -> u64;
        pub fn sejjekoru_link_end(link: *mut Link, value: *mut u64) -> u64;
    }
}

/// The number of "more", which is no refusal.
pub const MORE: u64 = 101;

/// The most bytes of a piece.
pub const PIECE: usize = 256;

/// The most carriers of a scenario.
pub const CARRIERS: usize = 254;

/// A scenario that comes over a serial link, laid out as `include/sejjekoru.h` says. After an accepted end the carriers stand in `start` and
/// `goal`; the rest is the library's own.
///
/// ```
/// use sejjekoru::{Bay, Link, Refusal};
///
/// let map = b"type octile\nheight 1\nwidth 4\nmap\n....\n";
/// let mut link = Link::default();
/// link.begin(map)?;
/// link.piece(b"version 1\n0\tm.map\t4\t1\t0")?;
/// link.piece(b"\t0\t2\t0\t2\n")?;
/// let carriers = link.end()?;
/// assert_eq!((&link.start[..carriers], &link.goal[..carriers]), (&[Bay(0)][..], &[Bay(2)][..]));
/// assert_eq!(link.piece(b"more"), Err(Refusal::Ended));
/// # Ok::<(), Refusal>(())
/// ```
#[repr(C)]
#[derive(Clone, Debug, PartialEq, Eq)]
pub struct Link {
    /// The bay of each carrier at the start.
    pub start: [Bay; CARRIERS],
    /// Its goal.
    pub goal: [Bay; CARRIERS],
    cells: [u16; 4096],
    own: [u32; 5],
    count: u16,
    line: [u8; 14],
    phase: u16,
    height: u8,
    width: u8,
}

/// A link that has ended, until it is begun.
impl Default for Link {
    fn default() -> Self {
        let (start, goal) = ([Bay(0); CARRIERS], [Bay(0); CARRIERS]);
        Link { start, goal, cells: [0; 4096], own: [0; 5], count: 0, line: [0; 14], phase: 0, height: 0, width: 0 }
    }
}

/// The calls with the answer as the library tells it. `value` begins as a number that no answer has.
impl Link {
    /// [`Link::begin`], as number and value.
    pub fn begin_told(&mut self, map: &[u8]) -> (u64, u64) {
        let mut value = u64::MAX;
        // SAFETY: the pointer comes with its own slice's length, and what is written is borrowed alone.
        let number = unsafe { raw::sejjekoru_link_begin(map.as_ptr(), map.len(), self, &mut value) };
        (number, value)
    }

    /// [`Link::piece`], as number and value.
    pub fn piece_told(&mut self, piece: &[u8]) -> (u64, u64) {
        let mut value = u64::MAX;
        // SAFETY: as in `begin_told`.
        let number = unsafe { raw::sejjekoru_link_piece(self, piece.as_ptr(), piece.len(), &mut value) };
        (number, value)
    }

    /// [`Link::end`], as number and value.
    pub fn end_told(&mut self) -> (u64, u64) {
        let mut value = u64::MAX;
        // SAFETY: as in `begin_told`.
        let number = unsafe { raw::sejjekoru_link_end(self, &mut value) };
        (number, value)
    }

    /// Opens the link for a scenario on this map.
    ///
    /// # Errors
    ///
    /// [`Refusal::BadMap`] with the first bad line. A refusal leaves the link as it was.
    pub fn begin(&mut self, map: &[u8]) -> Result<(), Refusal> {
        told(self.begin_told(map)).map(|_| ())
    }

    /// The next bytes of the scenario, at most [`PIECE`].
    ///
    /// # Errors
    ///
    /// [`Refusal::Ended`] on a link that has ended or was never begun; then [`Refusal::LongPiece`]. A refusal leaves the link as it was.
    pub fn piece(&mut self, piece: &[u8]) -> Result<(), Refusal> {
        match self.piece_told(piece) {
            (MORE, _) => Ok(()),
            answer => told(answer).map(|_| ()),
        }
    }

    /// The scenario is over: the number of carriers, whose starts and goals stand in the link.
    ///
    /// # Errors
    ///
    /// [`Refusal::Ended`] if it had ended before; else [`Refusal::BadScenario`] with the first bad line of all pieces together.
    pub fn end(&mut self) -> Result<usize, Refusal> {
        told(self.end_told()).map(|carriers| carriers as usize)
    }
}

/// Number, value and bays, as the library tells them.
pub fn map_told(map: &[u8], rails: &mut [Bay]) -> (u64, u64, u64) {
    let (mut bays, mut value) = (u64::MAX, u64::MAX);
    // SAFETY: each pointer comes with its own slice's length, and what is written is borrowed alone.
    let number = unsafe { raw::sejjekoru_map(map.as_ptr(), map.len(), &mut bays, rails.as_mut_ptr(), rails.len(), &mut value) };
    (number, value, bays)
}

/// Number and value, as the library tells them.
pub fn scenario_told(map: &[u8], scenario: &[u8], start: &mut [Bay], goal: &mut [Bay]) -> (u64, u64) {
    let mut value = u64::MAX;
    // SAFETY: as in `map_told`.
    let number = unsafe {
        raw::sejjekoru_scenario(
            map.as_ptr(),
            map.len(),
            scenario.as_ptr(),
            scenario.len(),
            start.as_mut_ptr(),
            start.len(),
            goal.as_mut_ptr(),
            goal.len(),
            &mut value,
        )
    };
    (number, value)
}

/// Reads a map: the number of bays, and how many ends of rails were written to the first places of `rails`; 16,384 are enough for every map.
///
/// # Errors
///
/// [`Refusal::BadMap`] with the first bad line; then [`Refusal::Room`] with the number of ends needed. A refusal leaves `rails` as it was.
///
/// ```
/// use sejjekoru::{files, Bay};
///
/// let map = b"type octile\nheight 2\nwidth 3\nmap\n...\n@.@\n";
/// let mut rails = [Bay(0); 64];
/// let (bays, ends) = files::map(map, &mut rails)?;
/// assert_eq!((bays, &rails[..ends]), (4, Bay::list(&[0, 1, 1, 2, 1, 3])));
///
/// let scenario = b"version 1\n0\tm.map\t3\t2\t1\t0\t0\t0\t1\n";
/// let (mut start, mut goal) = ([Bay(0); 254], [Bay(0); 254]);
/// assert_eq!(files::scenario(map, scenario, &mut start, &mut goal), Ok(1));
/// assert_eq!((start[0], goal[0]), (Bay(1), Bay(0)));
/// # Ok::<(), sejjekoru::Refusal>(())
/// ```
pub fn map(map: &[u8], rails: &mut [Bay]) -> Result<(u64, usize), Refusal> {
    let (number, value, bays) = map_told(map, rails);
    told((number, value)).map(|ends| (bays, ends as usize))
}

/// Reads a scenario on its map: the number of carriers, whose starts and goals stand in the first places of the lists; 254 places are always enough.
///
/// # Errors
///
/// [`Refusal::BadMap`], then [`Refusal::BadScenario`], each with the first bad line; then [`Refusal::Room`] with the number of carriers. A refusal
/// leaves both lists as they were.
pub fn scenario(map: &[u8], scenario: &[u8], start: &mut [Bay], goal: &mut [Bay]) -> Result<usize, Refusal> {
    told(scenario_told(map, scenario, start, goal)).map(|carriers| carriers as usize)
}
