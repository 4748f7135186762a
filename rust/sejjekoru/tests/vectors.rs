//! The vectors of planning, the large ones too, and of reversing, through the library.

use sejjekoru::{numbers, Yard};
use yards::vectors::{plans, reverses};

fn plan(bays: u64, rails: &[u16], start: &[u16], goal: &[u16], room: &mut [u64]) -> (u64, u64, u64) {
    numbers::plan(Yard::new(bays, rails, start, goal), room)
}

#[test]
fn plans_of_the_vectors() {
    assert_eq!(plans(include_str!("../../reference/tests/data/plan.txt"), plan), (1193, 122));
}

#[test]
fn plans_that_do_not_park_on_junctions() {
    assert_eq!(plans(include_str!("../../reference/tests/data/plan-e2-e9.txt"), plan), (499, 0));
}

#[test]
fn plans_on_carousels() {
    assert_eq!(plans(include_str!("../../reference/tests/data/plan-e2-e9-e3.txt"), plan), (500, 0));
}

#[test]
fn large_plans_of_the_vectors() {
    assert_eq!(plans(include_str!("../../reference/tests/data/plan-large.txt"), plan), (7, 0));
}

fn plan_lean(bays: u64, rails: &[u16], start: &[u16], goal: &[u16], room: &mut [u64]) -> (u64, u64, u64) {
    numbers::plan_lean(Yard::new(bays, rails, start, goal), room)
}

#[test]
fn all_of_them_on_a_small_stack() {
    assert_eq!(plans(include_str!("../../reference/tests/data/plan.txt"), plan_lean), (1193, 122));
    assert_eq!(plans(include_str!("../../reference/tests/data/plan-e2-e9.txt"), plan_lean), (499, 0));
    assert_eq!(plans(include_str!("../../reference/tests/data/plan-e2-e9-e3.txt"), plan_lean), (500, 0));
    assert_eq!(plans(include_str!("../../reference/tests/data/plan-large.txt"), plan_lean), (7, 0));
}

#[test]
fn reverses_of_the_vectors() {
    assert_eq!(reverses(include_str!("../../../tests/vectors/02/reverse.txt"), numbers::reverse), (89, 61));
}
