//! Playing a plan backwards.

use crate::answers::told;
use crate::{numbers, Refusal};

/// Writes the reverse of `list` to the first places of `room`: its crossings in reverse order, from and to exchanged. The list may hold any
/// numbers. The answer is its length.
///
/// A plan that brings every carrier from start to goal has a reverse that brings them from goal to start.
///
/// # Errors
///
/// [`Refusal::Size`] for a list of more than 65,536 crossings; then [`Refusal::Room`] with the length that `room` would need. A refusal leaves
/// `room` as it was.
///
/// ```
/// use sejjekoru::{reverse, Crossing};
///
/// let mut back = [0];
/// assert_eq!(reverse(&[0x1_0002_0003], &mut back), Ok(1));
/// assert_eq!(Crossing::from(back[0]).to_string(), "(move c1 b3 b2)");
/// ```
pub fn reverse(list: &[u64], room: &mut [u64]) -> Result<usize, Refusal> {
    told(numbers::reverse(list, room)).map(|written| written as usize)
}
