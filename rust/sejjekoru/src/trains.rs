//! Slots by either edition, and the timed plan. Edition 1 is [`crate::slots`], by which reports and bills go on. Edition 2 lets a carrier roll into a bay
//! in the slot in which another rolls out.

use crate::answers::told;
use crate::{Bay, Refusal, Yard};

extern "C" {
    /// As include/sejjekoru.h declares it.
    pub fn sejjekoru_slots_of(
        edition: u64,
        bays: u64,
        rails: *const Bay,
        rails_len: usize,
        start: *const Bay,
        start_len: usize,
        goal: *const Bay,
        goal_len: usize,
        plan: *const u64,
        plan_len: usize,
        slots: *mut u32,
        slots_len: usize,
        value: *mut u64,
    ) -> u64;

    fn sejjekoru_program_timed(
        edition: u64,
        map: *const u8,
        map_len: usize,
        map_read: u64,
        scenario: *const u8,
        scenario_len: usize,
        scenario_read: u64,
        shorten: u64,
        out: *mut u8,
        out_len: usize,
        value: *mut u64,
    ) -> u64;
}

/// All that the program prints with `--timed`, for two files' bytes (none where a file could not be read), to the first places of `out`. The answer is
/// its length. A refusal, of the edition too, is printed.
///
/// # Errors
///
/// [`Refusal::Room`] alone, with the bytes needed; then `out` is left as it was.
pub fn program_timed(edition: u64, map: Option<&[u8]>, scenario: Option<&[u8]>, shorten: bool, out: &mut [u8]) -> Result<usize, Refusal> {
    let (map_bytes, scenario_bytes) = (map.unwrap_or(&[]), scenario.unwrap_or(&[]));
    let mut value = u64::MAX;
    // SAFETY: as in `numbers`.
    let number = unsafe {
        sejjekoru_program_timed(
            edition,
            map_bytes.as_ptr(),
            map_bytes.len(),
            map.is_some() as u64,
            scenario_bytes.as_ptr(),
            scenario_bytes.len(),
            scenario.is_some() as u64,
            shorten as u64,
            out.as_mut_ptr(),
            out.len(),
            &mut value,
        )
    };
    told((number, value)).map(|written| written as usize)
}

/// The answer as the library tells it: number and value.
pub fn numbers(edition: u64, yard: Yard, plan: &[u64], slots: &mut [u32]) -> (u64, u64) {
    let Yard { bays, rails, start, goal } = yard;
    let mut value = u64::MAX;
    // SAFETY: each pointer comes with its own slice's length, and what is written is borrowed alone.
    let number = unsafe {
        sejjekoru_slots_of(
            edition,
            bays,
            rails.as_ptr(),
            rails.len(),
            start.as_ptr(),
            start.len(),
            goal.as_ptr(),
            goal.len(),
            plan.as_ptr(),
            plan.len(),
            slots.as_mut_ptr(),
            slots.len(),
            &mut value,
        )
    };
    (number, value)
}

/// Writes the slot of each crossing by the edition, 1 or 2, to the first places of `slots`. The answer is their number.
///
/// # Errors
///
/// [`Refusal::Edition`] for any other edition; then as [`crate::slots`].
///
/// ```
/// use sejjekoru::{slots_of, Yard};
///
/// // On a ring of four, carrier 0 rolls into the bay that carrier 1 leaves.
/// let yard = Yard::new(4, &[0, 1, 1, 2, 2, 3, 3, 0], &[0, 1], &[1, 2]);
/// let (plan, mut slots) = ([0x1_0001_0002, 0x0_0000_0001], [0; 2]);
/// slots_of(1, yard, &plan, &mut slots)?;
/// assert_eq!(slots, [1, 2]);
/// slots_of(2, yard, &plan, &mut slots)?;
/// assert_eq!(slots, [1, 1]);
/// # Ok::<(), sejjekoru::Refusal>(())
/// ```
pub fn slots_of(edition: u64, yard: Yard, plan: &[u64], slots: &mut [u32]) -> Result<usize, Refusal> {
    told(numbers(edition, yard, plan, slots)).map(|written| written as usize)
}
