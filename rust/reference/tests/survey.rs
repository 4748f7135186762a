//! The vectors of surveyors' files, through the reference.

use reference::{read_survey, write_survey};
use yards::surveys::surveys;

#[test]
fn surveys_of_the_vectors() {
    assert_eq!(surveys(include_str!("../../../tests/vectors/02/dimacs.txt"), read_survey, write_survey), (300, 173));
}
