//! A printed plan and a file of reported names, read as plain text: the numbers, or the first bad line, from 1.

/// The lines of a file. They end in LF or CR LF, and the last end may be missing.
fn lines(file: &[u8]) -> Vec<&[u8]> {
    let mut lines: Vec<&[u8]> = file.split_inclusive(|&b| b == b'\n').collect();
    for line in &mut lines {
        if let Some(text) = line.strip_suffix(b"\n") {
            *line = text.strip_suffix(b"\r").unwrap_or(text);
        }
    }
    lines
}

/// Digits, at least one, that spell a number below the limit. What does not fit 128 bits is far above any limit.
fn number(digits: &[u8], limit: u128) -> Option<u64> {
    let all = !digits.is_empty() && digits.iter().all(u8::is_ascii_digit);
    let plain = digits.iter().position(|&b| b != b'0').map_or(&digits[..0], |first| &digits[first..]);
    if !all || plain.len() > 30 {
        return None;
    }
    let value = plain.iter().fold(0, |value, &b| value * 10 + u128::from(b - b'0'));
    (value < limit).then_some(value as u64)
}

fn crossing(line: &[u8]) -> Option<u64> {
    let words: Vec<&[u8]> = line.strip_prefix(b"(move ")?.strip_suffix(b")")?.split(|&b| b == b' ').collect();
    let [carrier, from, to] = words[..] else { return None };
    let carrier = number(carrier.strip_prefix(b"c")?, 1 << 32)?;
    let from = number(from.strip_prefix(b"b")?, 1 << 16)?;
    let to = number(to.strip_prefix(b"b")?, 1 << 16)?;
    Some(carrier << 32 | from << 16 | to)
}

/// Number and value, and what stands in the list then.
fn answer(read: Result<Vec<u64>, u64>, bad: u64, most: usize, list: &mut [u64]) -> (u64, u64) {
    match read {
        Err(line) => (bad, line),
        Ok(numbers) if numbers.len() > most => (1, 0),
        Ok(numbers) if numbers.len() > list.len() => (8, numbers.len() as u64),
        Ok(numbers) => {
            list[..numbers.len()].copy_from_slice(&numbers);
            (0, numbers.len() as u64)
        }
    }
}

fn read(file: &[u8], entry: impl Fn(&[u8]) -> Option<Option<u64>>) -> Result<Vec<u64>, u64> {
    let mut numbers = Vec::new();
    for (line, text) in (1u64..).zip(lines(file)) {
        numbers.extend(entry(text).ok_or(line)?);
    }
    Ok(numbers)
}

pub fn read_plan(file: &[u8], plan: &mut [u64]) -> (u64, u64) {
    let read = read(file, |line| if line.starts_with(b";") { Some(None) } else { crossing(line).map(Some) });
    answer(read, 26, 65_536, plan)
}

pub fn read_reports(file: &[u8], names: &mut [u64]) -> (u64, u64) {
    answer(read(file, |line| number(line, 1 << 32).map(Some)), 27, usize::MAX, names)
}
