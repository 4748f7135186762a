//! Two lists of crossings compared.

use crate::answers::{told, Refusal};

extern "C" {
    fn sejjekoru_compare(
        first: *const u64,
        first_len: usize,
        second: *const u64,
        second_len: usize,
        differences: *mut i64,
        differences_len: usize,
        longer: *mut u64,
        value: *mut u64,
    ) -> u64;
}

/// What comparing answers.
#[derive(Clone, Copy, Debug, PartialEq, Eq, Hash)]
pub struct Compared<'a> {
    /// The number of equal leading crossings.
    pub equal: usize,
    /// The rest of the longer list from there on; at equal length, of the first.
    pub rest: &'a [u64],
}

/// Compares two lists of crossings, legal or not. `differences` has 254 places: place c then holds how many crossings more carrier c has in the
/// second list than in the first.
///
/// # Errors
///
/// [`Refusal::Size`] for a list of more than 65,536 crossings; then [`Refusal::Start`] with the first carrier number above 253; then
/// [`Refusal::Room`] with 254 if `differences` has another length.
///
/// ```
/// use sejjekoru::compare;
///
/// let mut differences = [0; 254];
/// let compared = compare(&[1, 2, 3 << 32], &[1, 2], &mut differences)?;
/// assert_eq!((compared.equal, compared.rest), (2, &[3 << 32][..]));
/// assert_eq!(differences[3], -1);
/// # Ok::<(), sejjekoru::Refusal>(())
/// ```
pub fn compare<'a>(first: &'a [u64], second: &'a [u64], differences: &mut [i64]) -> Result<Compared<'a>, Refusal> {
    let (number, value, longer) = compare_numbers(first, second, differences);
    let equal = told((number, value))? as usize;
    let list = if longer == 2 { second } else { first };
    Ok(Compared { equal, rest: &list[equal..] })
}

/// As the library tells it: the documents' number, its value, and the list whose rest is handed back: 1, 2, or 0 on refusal. The two numbers
/// begin as one that no answer has, so that it shows if none is stored.
pub fn compare_numbers(first: &[u64], second: &[u64], differences: &mut [i64]) -> (u64, u64, u64) {
    let (mut longer, mut value) = (u64::MAX, u64::MAX);
    // SAFETY: each pointer comes with its own slice's length, and what is written is borrowed alone.
    let number = unsafe {
        sejjekoru_compare(
            first.as_ptr(),
            first.len(),
            second.as_ptr(),
            second.len(),
            differences.as_mut_ptr(),
            differences.len(),
            &mut longer,
            &mut value,
        )
    };
    (number, value, longer)
}
