//! Document 01's Y1, report by report: where the carriers stand, by the marks; and the refusals 11 and 8.

use sejjekoru::{placement, report, Bay, Refusal, Reported, Yard};

const Y1: Yard = Yard::new(4, &[0, 1, 1, 2, 1, 3], &[1, 0], &[0, 1]);
const PLAN: [u64; 6] = [0x0_0001_0002, 0x1_0000_0001, 0x1_0001_0003, 0x0_0002_0001, 0x0_0001_0000, 0x1_0003_0001];
const STANDING: [[u16; 2]; 7] = [[1, 0], [2, 0], [2, 1], [2, 3], [1, 3], [0, 3], [0, 1]];

#[test]
fn as_the_crossings_are_reported() {
    let mut marks = [0; 6];
    let mut at = [Bay(77); 3];
    for (name, standing) in STANDING.iter().enumerate() {
        assert_eq!(placement(Y1, &PLAN, &marks, &mut at), Ok(2));
        assert!(at[..2] == *Bay::list(standing) && at[2] == Bay(77));
        if name < PLAN.len() {
            assert_eq!(report(Y1, &PLAN, &mut marks, name as u64), Ok(Reported::Accepted));
        }
    }
}

#[test]
fn refused_in_order() {
    let mut at = [Bay(77); 1];
    assert_eq!(placement(Y1, &PLAN[..5], &[], &mut at), Err(Refusal::Missed(sejjekoru::Carrier(1))));
    assert_eq!(placement(Y1, &PLAN, &[0; 5], &mut at), Err(Refusal::Mismarked));
    assert_eq!(placement(Y1, &PLAN, &[0, 1, 0, 0, 0, 0], &mut at), Err(Refusal::Mismarked));
    assert_eq!(placement(Y1, &PLAN, &[0; 6], &mut at), Err(Refusal::Room(2)));
    assert_eq!(at, [Bay(77)]);
}
