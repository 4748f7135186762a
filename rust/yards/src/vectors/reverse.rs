//! The vectors of reversing: `reverse ROOM | list`.

use super::{answer, fitting, UNTOUCHED};

/// Runs the cases of a file; answers how many are granted and how many refused. A function that reverses answers number and value, as the
/// library does.
pub fn reverses(text: &str, reverse: impl Fn(&[u64], &mut [u64]) -> (u64, u64)) -> (usize, usize) {
    let (mut granted, mut refused) = (0, 0);
    for line in text.lines() {
        let (request, expected) = line.split_once("=>").expect("a request and its answer");
        let (head, list) = request.split_once('|').expect("a room and a list");
        let room: usize = head.split_whitespace().nth(1).expect("a room").parse().expect("a number");
        let list: Vec<u64> = fitting(list).expect("numbers of 64 bits");
        let mut out = vec![UNTOUCHED; room];
        let (number, value) = reverse(&list, &mut out);
        let (expected_number, expected_value, _, written) = answer(expected);
        assert_eq!((number, value), (expected_number, expected_value), "{request}");
        assert_eq!(out[..written.len()], written[..], "{request}");
        assert!(out[written.len()..].iter().all(|&number| number == UNTOUCHED), "{request}");
        *if number == 0 { &mut granted } else { &mut refused } += 1;
    }
    (granted, refused)
}
