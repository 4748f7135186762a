//! The functions over slices, with the answer as the library tells it: the documents' number and the value that goes with it.

use crate::{ask, raw, Bay, Line, Record, Yard};

/// As [`crate::plan`]; with the vacates that filled a bay of three rails or more.
pub fn plan(yard: Yard, room: &mut [u64]) -> (u64, u64, u64) {
    let mut parked = u64::MAX;
    // SAFETY: each pointer comes with its own slice's length, and what is written is borrowed alone.
    let (number, value) = unsafe { ask!(sejjekoru_plan, yard, [mut room], &mut parked) };
    (number, value, parked)
}

/// As [`crate::plan_lean`]; with the vacates that filled a bay of three rails or more.
pub fn plan_lean(yard: Yard, room: &mut [u64]) -> (u64, u64, u64) {
    let mut parked = u64::MAX;
    // SAFETY: as in `plan`.
    let (number, value) = unsafe { ask!(sejjekoru_plan_lean, yard, [mut room], &mut parked) };
    (number, value, parked)
}

/// As [`crate::check`].
pub fn check(yard: Yard, plan: &[u64]) -> (u64, u64) {
    // SAFETY: as in `plan`.
    unsafe { ask!(sejjekoru_check, yard, [plan]) }
}

/// As [`crate::slots`].
pub fn slots(yard: Yard, plan: &[u64], slots: &mut [u32]) -> (u64, u64) {
    // SAFETY: as in `plan`.
    unsafe { ask!(sejjekoru_slots, yard, [plan], [mut slots]) }
}

/// As [`crate::report`].
pub fn report(yard: Yard, plan: &[u64], marks: &mut [u8], name: u64) -> (u64, u64) {
    // SAFETY: as in `plan`.
    unsafe { ask!(sejjekoru_report, yard, [plan], [mut marks], name) }
}

/// As [`crate::shorten`].
pub fn shorten(yard: Yard, plan: &[u64], marks: &[u8], room: &mut [u64]) -> (u64, u64) {
    // SAFETY: as in `plan`.
    unsafe { ask!(sejjekoru_shorten, yard, [plan], [marks], [mut room]) }
}

/// As [`crate::placement`].
pub fn placement(yard: Yard, plan: &[u64], marks: &[u8], at: &mut [Bay]) -> (u64, u64) {
    // SAFETY: as in `plan`.
    unsafe { ask!(sejjekoru_placement, yard, [plan], [marks], [mut at]) }
}

/// As [`crate::open`].
pub fn open(yard: Yard, plan: &[u64], marks: &[u8], record: &mut Record, lines: &mut [Line]) -> (u64, u64) {
    // SAFETY: as in `plan`.
    unsafe { ask!(sejjekoru_open, yard, [plan], [marks], record, [mut lines]) }
}

/// As [`crate::agrees`].
pub fn agrees(yard: Yard, plan: &[u64], marks: &[u8], record: &Record, lines: &[Line]) -> (u64, u64) {
    // SAFETY: as in `plan`.
    unsafe { ask!(sejjekoru_agrees, yard, [plan], [marks], record, [lines]) }
}

/// As [`crate::report_billed`].
pub fn report_billed(yard: Yard, plan: &[u64], marks: &mut [u8], name: u64, record: &mut Record, lines: &mut [Line]) -> (u64, u64) {
    // SAFETY: as in `plan`.
    unsafe { ask!(sejjekoru_report_billed, yard, [plan], [mut marks], name, record, [mut lines]) }
}

/// As [`crate::reverse`].
pub fn reverse(list: &[u64], room: &mut [u64]) -> (u64, u64) {
    let mut value = u64::MAX;
    // SAFETY: as in `plan`.
    let number = unsafe { raw::sejjekoru_reverse(list.as_ptr(), list.len(), room.as_mut_ptr(), room.len(), &mut value) };
    (number, value)
}
