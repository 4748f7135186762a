//! Slots by either edition: the vectors, and by hand.

use reference::{all_at_once, slots_of};
use yards::editions::slots;

#[test]
fn editions_of_the_vectors() {
    assert_eq!(slots(include_str!("../../../tests/vectors/02/editions.txt"), &slots_of), (250, 0));
}

/// Carrier 1 rolls out of bay 1 while carrier 0 rolls in, both in slot 1; what is done all at once ends where the plan does.
#[test]
fn y5_rolls_in_one_slot() {
    let (rails, start, goal) = ([0, 1, 1, 2, 2, 3, 3, 0], [0, 1], [1, 2]);
    let plan = [1 << 32 | 1 << 16 | 2, 1];
    let mut list = [0; 2];
    assert_eq!(slots_of(2, 4, &rails, &start, &goal, &plan, &mut list), (0, 2));
    assert_eq!(list, [1, 1]);
    assert_eq!(all_at_once(&start, &plan, &list), Ok(goal.to_vec()));
    assert_eq!(slots_of(1, 4, &rails, &start, &goal, &plan, &mut list), (0, 2));
    assert_eq!(list, [1, 2]);
}

/// What is not right is seen: two at one bay, head-on, twice in a slot, and a start from elsewhere.
#[test]
fn all_at_once_sees_what_is_wrong() {
    let crossing = |carrier: u64, from: u64, to: u64| carrier << 32 | from << 16 | to;
    assert!(all_at_once(&[0, 1], &[crossing(0, 0, 1)], &[1]).is_err());
    assert!(all_at_once(&[0, 1], &[crossing(0, 0, 1), crossing(1, 1, 0)], &[1, 1]).is_err());
    assert!(all_at_once(&[0], &[crossing(0, 0, 1), crossing(0, 1, 2)], &[1, 1]).is_err());
    assert!(all_at_once(&[0], &[crossing(0, 1, 2)], &[1]).is_err());
    assert_eq!(all_at_once(&[0, 1], &[crossing(1, 1, 2), crossing(0, 0, 1)], &[1, 1]), Ok(vec![1, 2]));
}
