//! The vectors of surveyors' files, through the library; and a file that is longer than any that writing makes.

use sejjekoru::{read_survey, read_survey_numbers, write_survey, write_survey_numbers, Bay, Refusal, Surveyed};
use yards::surveys::surveys;

#[test]
fn surveys_of_the_vectors() {
    let read = |file: &[u8], rails: &mut [u16]| read_survey_numbers(file, Bay::list_mut(rails));
    let write = |bays: u64, rails: &[u16], out: &mut [u8]| write_survey_numbers(bays, Bay::list(rails), out);
    assert_eq!(surveys(include_str!("../../../tests/vectors/02/dimacs.txt"), read, write), (300, 173));
}

#[test]
fn comments_of_any_length() {
    let mut file = b"p edge 2 1\n".to_vec();
    file.extend(std::iter::repeat_n(b"c so many words\n", 100_000).flatten());
    let mut rails = [Bay(7); 3];
    assert_eq!(read_survey(&file, &mut rails), Err(Refusal::BadSurvey(100_002)));
    assert_eq!(rails, [Bay(7); 3]);
    file.extend(b"e 2 1");
    assert_eq!(read_survey(&file, &mut rails), Ok(Surveyed { bays: 2, ends: 2 }));
    assert_eq!(rails, [Bay(1), Bay(0), Bay(7)]);
}

#[test]
fn a_yard_with_the_most_rails() {
    // A path through all bays, and chords from bay 256 and 255 on down, until there are 1,024 rails.
    let mut rails: Vec<u16> = (0..255).flat_map(|bay| [bay, bay + 1]).collect();
    let chords = (0..256u16).rev().flat_map(|to| (0..to.saturating_sub(1)).rev().map(move |from| [from, to]));
    rails.extend(chords.flatten().take(2_048 - rails.len()));
    let mut out = vec![0; 10_256];
    let length = write_survey(256, Bay::list(&rails), &mut out).unwrap();
    let mut again = vec![Bay(0); 2_048];
    assert_eq!(read_survey(&out[..length], &mut again), Ok(Surveyed { bays: 256, ends: 2_048 }));
    assert_eq!(again, Bay::list(&rails));
    assert_eq!(write_survey(256, Bay::list(&rails), &mut out[..length - 1]), Err(Refusal::Room(length as u64)));
}
