//! The vectors of slots by either edition, one case a line, `REQUEST => ANSWER`: run and compared whole.

fn fitting<T: TryFrom<u64>>(field: &str) -> Option<Vec<T>> {
    field.split_whitespace().map(|number| T::try_from(number.parse().ok()?).ok()).collect()
}

const UNTOUCHED: u32 = 0xDEAD_BEEF;

/// One case: edition, bays, rails, start, goal, plan and the lent list.
pub type SlotsOf<'a> = &'a dyn Fn(u64, u64, &[u16], &[u16], &[u16], &[u64], &mut [u32]) -> (u64, u64);

/// Runs the cases of a file; answers how many were run and how many have a number that our types do not hold.
pub fn slots(text: &str, slots_of: SlotsOf) -> (usize, usize) {
    let (mut run, mut left_out) = (0, 0);
    for line in text.lines() {
        let (request, answer) = line.split_once("=>").expect("a request and its answer");
        let fields: Vec<&str> = request.split('|').collect();
        let sizes: Option<Vec<u64>> = fields[0].split_whitespace().skip(1).map(|word| word.parse().ok()).collect();
        let lists = (sizes, fitting(fields[1]), fitting(fields[2]), fitting(fields[3]), fitting(fields[4]));
        let (Some(sizes), Some(rails), Some(start), Some(goal), Some(plan)) = lists else {
            left_out += 1;
            continue;
        };
        let mut slots = vec![UNTOUCHED; sizes[2] as usize];
        let told = slots_of(sizes[0], sizes[1], &rails, &start, &goal, &plan, &mut slots);
        let (head, list) = answer.split_once(':').unwrap_or((answer, ""));
        let words: Vec<&str> = head.split_whitespace().collect();
        let number = |i: usize| words.get(i).map_or(0, |word| word.parse().expect("a number"));
        let (expected, list) = match words[0] {
            "ok" => ((0, number(1)), fitting::<u32>(list).expect("slots")),
            _ => ((number(1), number(2)), Vec::new()),
        };
        assert_eq!(told, expected, "{request}");
        assert_eq!(slots[..list.len()], list[..], "{request}");
        assert!(slots[list.len()..].iter().all(|&slot| slot == UNTOUCHED), "{request}");
        run += 1;
    }
    (run, left_out)
}
