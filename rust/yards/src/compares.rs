//! The vectors of comparing, one case a line, `compare ROOM | first | second => ANSWER`: run and compared whole.

const UNTOUCHED: i64 = -0x5A5A_5A5A;

fn numbers(field: &str) -> Vec<u64> {
    field.split_whitespace().map(|number| number.parse().expect("a number of 64 bits")).collect()
}

/// The answer's number and value, the rest handed back, and the differences, where there are any.
fn answer(text: &str) -> (u64, u64, Vec<u64>, Option<Vec<i64>>) {
    let fields: Vec<&str> = text.split(':').collect();
    let words: Vec<&str> = fields[0].split_whitespace().collect();
    let number = |i: usize| words.get(i).map_or(0, |word| word.parse().expect("a number"));
    if words[0] == "refused" {
        return (number(1), number(2), Vec::new(), None);
    }
    assert!(words[0] == "ok" && fields.len() == 3, "{text}");
    let mut differences = vec![0; 254];
    for entry in fields[2].split_whitespace() {
        let (carrier, difference) = entry.split_once('=').expect("a carrier and its difference");
        differences[carrier.parse::<usize>().expect("a carrier")] = difference.parse().expect("a difference");
    }
    (0, number(1), numbers(fields[1]), Some(differences))
}

/// Runs the cases; answers how many there are, and how many of them are accepted. What is put to the test answers number, value and the rest.
pub fn compares(text: &str, compare: impl Fn(&[u64], &[u64], &mut [i64]) -> (u64, u64, Vec<u64>)) -> (usize, usize) {
    let (mut run, mut accepted) = (0, 0);
    for line in text.lines() {
        let (request, expected) = line.split_once("=>").expect("a request and its answer");
        let fields: Vec<&str> = request.split('|').collect();
        let room = fields[0].split_whitespace().nth(1).expect("a room").parse().expect("a room");
        let mut lent = vec![UNTOUCHED; room];
        let (number, value, rest) = compare(&numbers(fields[1]), &numbers(fields[2]), &mut lent);
        let (due, due_value, due_rest, differences) = answer(expected);
        assert_eq!((number, value), (due, due_value), "{request}");
        assert_eq!(rest, due_rest, "{request}");
        assert_eq!(lent, differences.unwrap_or(vec![UNTOUCHED; room]), "{request}");
        run += 1;
        accepted += (number == 0) as usize;
    }
    (run, accepted)
}
