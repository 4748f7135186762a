//! The vectors, one case a line, `REQUEST => ANSWER`: run and compared whole. Those of planning stand here.

mod reverse;

pub use reverse::reverses;

/// The numbers of a field; none where one does not fit.
fn fitting<T: TryFrom<u64>>(field: &str) -> Option<Vec<T>> {
    field.split_whitespace().map(|number| T::try_from(number.parse().ok()?).ok()).collect()
}

/// `refused NUMBER CARRIED`, `ok LENGTH : LIST`, `ok LENGTH PARKED : LIST`: number, value, the count where it is given, list.
fn answer(text: &str) -> (u64, u64, Option<u64>, Vec<u64>) {
    let (head, list) = text.split_once(':').unwrap_or((text, ""));
    let words: Vec<&str> = head.split_whitespace().collect();
    let number = |i: usize| words.get(i).map_or(0, |word| word.parse().expect("a number"));
    match words[0] {
        "ok" => (0, number(1), words.get(2).map(|_| number(2)), fitting(list).expect("a plan")),
        "refused" => (number(1), number(2), Some(0), Vec::new()),
        word => panic!("{word}"),
    }
}

const UNTOUCHED: u64 = 0xDEAD_BEEF_DEAD_BEEF;

/// Runs the plan cases of a file; answers how many were run and how many name a bay that 16 bits don't hold. A planner answers number,
/// value and the count of vacates that filled a bay of three rails or more, as the library does.
pub fn plans(text: &str, plan: impl Fn(u64, &[u16], &[u16], &[u16], &mut [u64]) -> (u64, u64, u64)) -> (usize, usize) {
    let (mut run, mut left_out) = (0, 0);
    for line in text.lines() {
        let (request, expected) = line.split_once("=>").expect("a request and its answer");
        let fields: Vec<&str> = request.split('|').collect();
        let sizes: Vec<u64> = fields[0].split_whitespace().skip(1).map(|word| word.parse().unwrap()).collect();
        let lists = (fitting(fields[1]), fitting(fields[2]), fitting(fields[3]));
        let (Some(rails), Some(start), Some(goal)) = lists else {
            left_out += 1;
            continue;
        };
        let mut out = vec![UNTOUCHED; sizes[1] as usize];
        let (number, value, parked) = plan(sizes[0], &rails, &start, &goal, &mut out);
        let (expected_number, expected_value, count, list) = answer(expected);
        assert_eq!((number, value, parked), (expected_number, expected_value, count.unwrap_or(parked)), "{request}");
        assert_eq!(out[..list.len()], list[..], "{request}");
        assert!(out[list.len()..].iter().all(|&number| number == UNTOUCHED), "{request}");
        run += 1;
    }
    (run, left_out)
}
