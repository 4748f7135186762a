//! From the bytes of files to what the program prints, and printed plans and reported names read again.

use crate::answers::told;
use crate::Refusal;

extern "C" {
    fn sejjekoru_program(
        map: *const u8,
        map_len: usize,
        map_read: u64,
        scenario: *const u8,
        scenario_len: usize,
        scenario_read: u64,
        shorten: u64,
        out: *mut u8,
        out_len: usize,
        value: *mut u64,
    ) -> u64;
    fn sejjekoru_print_plan(plan: *const u64, plan_len: usize, out: *mut u8, out_len: usize, value: *mut u64) -> u64;
    fn sejjekoru_read_plan(file: *const u8, file_len: usize, plan: *mut u64, plan_len: usize, value: *mut u64) -> u64;
    fn sejjekoru_read_reports(file: *const u8, file_len: usize, names: *mut u64, names_len: usize, value: *mut u64) -> u64;
}

/// All that the program prints for the bytes of a map and a scenario, to the first places of `out`: the plan, shortened if asked, or a line with the
/// refusal. `None` is a file that could not be read. The answer is the number of bytes, at most 180,250.
///
/// # Errors
///
/// [`Refusal::Room`] alone, with the bytes needed; then `out` is left as it was.
///
/// ```
/// let map = b"type octile\nheight 1\nwidth 4\nmap\n....\n";
/// let scenario = b"version 1\n0\tm.map\t4\t1\t0\t0\t1\t0\t1\n";
/// let mut out = [0; 256];
/// let length = sejjekoru::program(Some(map), Some(scenario), false, &mut out)?;
/// assert_eq!(&out[..length], b"(move c0 b0 b1)\n; cost = 1 (unit cost)\n");
/// let length = sejjekoru::program(None, None, false, &mut out)?;
/// assert_eq!(&out[..length], b"; refused 14 0\n");
/// # Ok::<(), sejjekoru::Refusal>(())
/// ```
pub fn program(map: Option<&[u8]>, scenario: Option<&[u8]>, shorten: bool, out: &mut [u8]) -> Result<usize, Refusal> {
    told(program_numbers(map, scenario, shorten, out)).map(|written| written as usize)
}

/// Prints any list of crossings, legal or not, to the first places of `out`: one a line, then the cost. The answer is the number of bytes.
///
/// # Errors
///
/// [`Refusal::Size`] for more than 65,536 crossings; then [`Refusal::Room`] with the bytes needed. A refusal leaves `out` as it was.
///
/// ```
/// use sejjekoru::{print_plan, read_plan};
///
/// let (plan, mut out, mut again) = ([0x1_0002_0003], [0; 64], [0]);
/// let length = print_plan(&plan, &mut out)?;
/// assert_eq!(&out[..length], b"(move c1 b2 b3)\n; cost = 1 (unit cost)\n");
/// assert_eq!(read_plan(&out[..length], &mut again), Ok(1));
/// assert_eq!(again, plan);
/// # Ok::<(), sejjekoru::Refusal>(())
/// ```
pub fn print_plan(plan: &[u64], out: &mut [u8]) -> Result<usize, Refusal> {
    told(print_plan_numbers(plan, out)).map(|written| written as usize)
}

/// Reads a printed plan into the first places of `plan`. The answer is the number of crossings.
///
/// # Errors
///
/// [`Refusal::BadPlan`] with the first bad line; then [`Refusal::Size`] for more than 65,536 crossings; then [`Refusal::Room`] with their number. A
/// refusal leaves `plan` as it was.
pub fn read_plan(file: &[u8], plan: &mut [u64]) -> Result<usize, Refusal> {
    told(read_plan_numbers(file, plan)).map(|crossings| crossings as usize)
}

/// Reads reported names, one a line, into the first places of `names`. The answer is their number.
///
/// # Errors
///
/// [`Refusal::BadReports`] with the first bad line; then [`Refusal::Room`] with the number of names. A refusal leaves `names` as it was.
///
/// ```
/// use sejjekoru::{read_reports, Refusal};
///
/// let mut names = [0; 3];
/// assert_eq!(read_reports(b"0\n12\n3\n", &mut names), Ok(3));
/// assert_eq!(names, [0, 12, 3]);
/// assert_eq!(read_reports(b"0\none\n", &mut names), Err(Refusal::BadReports(2)));
/// ```
pub fn read_reports(file: &[u8], names: &mut [u64]) -> Result<usize, Refusal> {
    told(read_reports_numbers(file, names)).map(|count| count as usize)
}

/// [`program`], as the library tells it: number and value.
pub fn program_numbers(map: Option<&[u8]>, scenario: Option<&[u8]>, shorten: bool, out: &mut [u8]) -> (u64, u64) {
    let (mut value, m, s) = (u64::MAX, map.unwrap_or(&[]), scenario.unwrap_or(&[]));
    let (mapped, listed) = (u64::from(map.is_some()), u64::from(scenario.is_some()));
    // SAFETY: each pointer comes with its own slice's length, and what is written is borrowed alone.
    let number = unsafe {
        let (out, room) = (out.as_mut_ptr(), out.len());
        sejjekoru_program(m.as_ptr(), m.len(), mapped, s.as_ptr(), s.len(), listed, u64::from(shorten), out, room, &mut value)
    };
    (number, value)
}

/// [`print_plan`], as number and value.
pub fn print_plan_numbers(plan: &[u64], out: &mut [u8]) -> (u64, u64) {
    let mut value = u64::MAX;
    // SAFETY: as in `program_numbers`.
    let number = unsafe { sejjekoru_print_plan(plan.as_ptr(), plan.len(), out.as_mut_ptr(), out.len(), &mut value) };
    (number, value)
}

/// [`read_plan`], as number and value.
pub fn read_plan_numbers(file: &[u8], plan: &mut [u64]) -> (u64, u64) {
    let mut value = u64::MAX;
    // SAFETY: as in `program_numbers`.
    let number = unsafe { sejjekoru_read_plan(file.as_ptr(), file.len(), plan.as_mut_ptr(), plan.len(), &mut value) };
    (number, value)
}

/// [`read_reports`], as number and value.
pub fn read_reports_numbers(file: &[u8], names: &mut [u64]) -> (u64, u64) {
    let mut value = u64::MAX;
    // SAFETY: as in `program_numbers`.
    let number = unsafe { sejjekoru_read_reports(file.as_ptr(), file.len(), names.as_mut_ptr(), names.len(), &mut value) };
    (number, value)
}
