//! The vectors of surveyors' files, one case a line, `dimacs | file in hex => ANSWER`: read, and what was read is written.

const UNTOUCHED: u16 = 0x5A5A;

fn bytes(hex: &str) -> Vec<u8> {
    let digits: Vec<u8> = hex.bytes().filter(u8::is_ascii_hexdigit).collect();
    digits.chunks(2).map(|pair| u8::from_str_radix(std::str::from_utf8(pair).expect("hex"), 16).expect("a byte")).collect()
}

/// Runs the cases; answers how many there are, and how many of them are accepted. Reading answers number, value and bays, writing number and
/// value. What is accepted is also asked for with a place too few, for the ends and for the bytes.
pub fn surveys(
    text: &str,
    read: impl Fn(&[u8], &mut [u16]) -> (u64, u64, u64),
    write: impl Fn(u64, &[u16], &mut [u8]) -> (u64, u64),
) -> (usize, usize) {
    let (mut run, mut accepted) = (0, 0);
    for line in text.lines() {
        let (request, expected) = line.split_once("=>").expect("a request and its answer");
        let file = bytes(request.split_once('|').expect("a file").1);
        let fields: Vec<&str> = expected.split(':').collect();
        let words: Vec<&str> = fields[0].split_whitespace().collect();
        let word = |i: usize| words.get(i).map_or(0, |word| word.parse::<u64>().expect("a number"));
        let mut rails = vec![UNTOUCHED; 2_050];
        run += 1;
        if words[0] == "refused" {
            assert_eq!(read(&file, &mut rails), (word(1), word(2), 0), "{request}");
            assert!(rails.iter().all(|&end| end == UNTOUCHED), "{request}");
            continue;
        }
        accepted += 1;
        let ends: Vec<u16> = fields[1].split_whitespace().map(|end| end.parse().expect("a bay")).collect();
        assert_eq!(read(&file, &mut rails), (0, ends.len() as u64, word(1)), "{request}");
        assert!(rails[..ends.len()] == ends && rails[ends.len()..].iter().all(|&end| end == UNTOUCHED), "{request}");
        assert_eq!(read(&file, &mut rails[..ends.len() - 1]), (8, ends.len() as u64, 0), "{request}");
        let due = bytes(fields[2]);
        let mut out = vec![b'?'; due.len() + 9];
        assert_eq!(write(word(1), &ends, &mut out), (0, due.len() as u64), "{request}");
        assert!(out[..due.len()] == due && out[due.len()..] == *b"?????????", "{request}");
        assert_eq!(write(word(1), &ends, &mut out[..due.len() - 1]), (8, due.len() as u64), "{request}");
    }
    (run, accepted)
}
