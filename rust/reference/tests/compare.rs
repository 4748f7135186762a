//! The vectors of comparing two lists, through the reference.

use reference::compare;
use yards::compares::compares;

#[test]
fn compares_of_the_vectors() {
    let asked = |first: &[u64], second: &[u64], differences: &mut [i64]| {
        let (number, value, rest) = compare(first, second, differences);
        (number, value, rest.to_vec())
    };
    assert_eq!(compares(include_str!("../../../tests/vectors/02/compare.txt"), asked), (250, 169));
}
