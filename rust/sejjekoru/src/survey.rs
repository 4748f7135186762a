//! Surveyors' files (DIMACS edge files), read into a yard and written from one.

use crate::answers::{told, Refusal};
use crate::Bay;

extern "C" {
    fn sejjekoru_read_survey(file: *const u8, file_len: usize, bays: *mut u64, rails: *mut Bay, rails_len: usize, value: *mut u64) -> u64;

    fn sejjekoru_write_survey(bays: u64, rails: *const Bay, rails_len: usize, out: *mut u8, out_len: usize, value: *mut u64) -> u64;
}

/// What reading a file answers.
#[derive(Clone, Copy, Debug, PartialEq, Eq, Hash)]
pub struct Surveyed {
    /// The number of bays.
    pub bays: u64,
    /// How many rail ends were written.
    pub ends: usize,
}

/// Reads a surveyors' file. Its rail ends go to the first places of `rails`; 2,048 are enough for every yard.
///
/// # Errors
///
/// [`Refusal::BadSurvey`] with the first bad line; then [`Refusal::Size`], [`Refusal::Rail`] or [`Refusal::Apart`] for a yard that does not hold
/// together; then [`Refusal::Room`] with the number of ends needed. A refusal leaves `rails` as it was.
///
/// ```
/// use sejjekoru::{read_survey, write_survey, Bay};
///
/// let mut rails = [Bay(0); 2048];
/// let yard = read_survey(b"c two rails\np edge 3 2\ne 1 2\ne 2 3\n", &mut rails)?;
/// let rails = &rails[..yard.ends];
/// assert_eq!((yard.bays, rails), (3, Bay::list(&[0, 1, 1, 2])));
///
/// let mut file = [0; 64];
/// let length = write_survey(yard.bays, rails, &mut file)?;
/// assert_eq!(&file[..length], b"p edge 3 2\ne 1 2\ne 2 3\n");
/// # Ok::<(), sejjekoru::Refusal>(())
/// ```
pub fn read_survey(file: &[u8], rails: &mut [Bay]) -> Result<Surveyed, Refusal> {
    let (number, value, bays) = read_survey_numbers(file, rails);
    told((number, value)).map(|ends| Surveyed { bays, ends: ends as usize })
}

/// Writes a yard as a surveyors' file to the first places of `out`. The answer is its length, at most 10,256 bytes.
///
/// # Errors
///
/// [`Refusal::Size`], [`Refusal::Rail`] or [`Refusal::Apart`] for a yard that does not hold together; then [`Refusal::Room`] with the bytes needed.
/// A refusal leaves `out` as it was.
pub fn write_survey(bays: u64, rails: &[Bay], out: &mut [u8]) -> Result<usize, Refusal> {
    told(write_survey_numbers(bays, rails, out)).map(|length| length as usize)
}

/// As the library tells it: the documents' number, its value, and the bays. The numbers begin as one that no answer has.
pub fn read_survey_numbers(file: &[u8], rails: &mut [Bay]) -> (u64, u64, u64) {
    let (mut bays, mut value) = (u64::MAX, u64::MAX);
    // SAFETY: each pointer comes with its own slice's length, and what is written is borrowed alone.
    let number = unsafe { sejjekoru_read_survey(file.as_ptr(), file.len(), &mut bays, rails.as_mut_ptr(), rails.len(), &mut value) };
    (number, value, bays)
}

/// The documents' number and its value.
pub fn write_survey_numbers(bays: u64, rails: &[Bay], out: &mut [u8]) -> (u64, u64) {
    let mut value = u64::MAX;
    // SAFETY: as above.
    let number = unsafe { sejjekoru_write_survey(bays, rails.as_ptr(), rails.len(), out.as_mut_ptr(), out.len(), &mut value) };
    (number, value)
}
