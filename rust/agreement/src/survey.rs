//! Surveyors' files: written ones, with comments, zeros and other line ends put in, damaged in some byte, line or number; rooms around the length
//! that is needed. What is read is written and read again.

use crate::lent::{Guard, Lent};
use crate::tally::Tally;
use sejjekoru::{read_survey_numbers, write_survey_numbers, Bay};
use yards::Dice;

const FILES: u64 = 60_000;
const MOST_ENDS: usize = 2_048;

pub fn run() -> [Tally; 2] {
    let mut reading = Tally::new("read a survey", &[0, 1, 2, 3, 8, 16]);
    let mut writing = Tally::new("write a survey", &[0, 1, 2, 3, 8]);
    for seed in 0..FILES {
        let mut dice = Dice::new(0x0A00_0000 + seed);
        let (bays, rails) = yard(&mut dice);
        let mut text = lines(bays, &rails);
        dress(&mut dice, &mut text);
        let mut file = joined(&mut dice, &text);
        if dice.percent(40) {
            damage(&mut dice, &mut file);
        }
        let mut ends = vec![0; MOST_ENDS];
        let (_, needed, _) = reference::read_survey(&file, &mut ends);
        let room = if dice.percent(70) { MOST_ENDS } else { (needed as usize + dice.below(3)).saturating_sub(1).min(MOST_ENDS) };
        reading.add(read(&file, room));
        let mut ample = vec![0; 40_000];
        let (_, bytes) = reference::write_survey(bays, &rails, &mut ample);
        let room = if dice.percent(70) { 10_256 } else { (bytes as usize + dice.below(3)).saturating_sub(1).min(40_000) };
        writing.add(write(bays, &rails, room));
    }
    [reading, writing]
}

/// A path through all bays with some chords, seldom with a rail that is bad or one too few; bays and rails seldom over the limit.
fn yard(dice: &mut Dice) -> (u64, Vec<u16>) {
    let bays = if dice.percent(4) { dice.pick(&[0, 1, 255, 256, 257, 300]) } else { 2 + dice.below(12) as u64 };
    let mut pairs: Vec<[u16; 2]> = (1..bays as u16).map(|to| [dice.below(to as usize) as u16, to]).collect();
    for _ in 0..dice.below(6) {
        let pair = [dice.below(bays as usize + 1) as u16, dice.below(bays as usize + 1) as u16];
        let known = pairs.iter().any(|&[a, b]| [a, b] == pair || [b, a] == pair);
        if dice.percent(8) || (!known && pair[0] != pair[1] && u64::from(pair[0].max(pair[1])) < bays) {
            pairs.push(pair);
        }
    }
    if dice.percent(1) {
        pairs = (0..1_020 + dice.below(8) as u16).map(|i| [i / 250, 5 + i % 250]).collect();
    }
    if dice.percent(8) && !pairs.is_empty() {
        pairs.remove(dice.below(pairs.len()));
    }
    let mut rails: Vec<u16> = pairs.into_iter().map(|pair| if dice.percent(50) { pair } else { [pair[1], pair[0]] }).flatten().collect();
    if dice.percent(1) {
        rails.pop();
    }
    (bays, rails)
}

fn lines(bays: u64, rails: &[u16]) -> Vec<String> {
    let mut lines = vec![format!("p edge {bays} {}", rails.len() / 2)];
    lines.extend(rails.chunks_exact(2).map(|rail| format!("e {} {}", u32::from(rail[0]) + 1, u32::from(rail[1]) + 1)));
    lines
}

/// Comments, leading zeros, lines that are missing, doubled, exchanged or out of the layout.
fn dress(dice: &mut Dice, lines: &mut Vec<String>) {
    for _ in 0..dice.below(3) {
        let comment = dice.pick(&["c", "c e 1 2", "clear", "c p edge 2 1", "c\tx  y"]);
        lines.insert(dice.below(lines.len() + 1), comment.to_string());
    }
    if dice.percent(25) {
        let line = dice.below(lines.len());
        let digits = dice.pick(&["0", "00", "000", "0000", "00000"]);
        if let Some(space) = lines[line].rfind(' ') {
            lines[line].insert_str(space + 1, digits);
        }
    }
    if dice.percent(25) {
        let line = dice.below(lines.len());
        match dice.below(7) {
            0 => drop(lines.remove(line)),
            1 => lines.insert(line, lines[line].clone()),
            2 => lines.swap(0, line),
            3 => {
                lines[line] = dice
                    .pick(&["", " ", "p edge 3 2", "e 1 2", "e 0 1", "e 1 99999", "e 65536 65537", "e 1  2", "e 1 2 3", "p col 3 2"])
                    .to_string()
            }
            4 => lines[line].push(' '),
            5 => lines[line].insert(0, ' '),
            _ => lines.truncate(line),
        }
    }
}

/// The lines with ends of one kind, seldom of both; the last end may be missing.
fn joined(dice: &mut Dice, lines: &[String]) -> Vec<u8> {
    let kind = dice.below(3);
    let mut file = Vec::new();
    for line in lines {
        file.extend(line.as_bytes());
        file.extend(match kind {
            0 => &b"\n"[..],
            1 => &b"\r\n"[..],
            _ => dice.pick(&[&b"\n"[..], &b"\r\n"[..]]),
        });
    }
    if dice.percent(20) {
        file.pop();
    }
    file
}

/// A byte changed, dropped or put in.
fn damage(dice: &mut Dice, file: &mut Vec<u8>) {
    let bytes = [b'\n', b'\r', b' ', b'c', b'e', b'p', b'0', b'1', b'9', b'-', b'\t', 0, 255];
    for _ in 0..1 + dice.below(2) {
        let place = dice.below(file.len() + 1);
        let byte = dice.pick(&bytes);
        match dice.below(3) {
            0 => file.insert(place, byte),
            1 if place < file.len() => file[place] = byte,
            _ if place < file.len() => drop(file.remove(place)),
            _ => {}
        }
    }
}

/// Both read; what was read is written by both and read again.
fn read(file: &[u8], room: usize) -> u64 {
    let mut expected = vec![u16::GUARD; room];
    let due = reference::read_survey(file, &mut expected);
    let (text, lent) = (Lent::new(file), Lent::room(room));
    // SAFETY: the list has so many places, and nothing else points there.
    let rails = unsafe { std::slice::from_raw_parts_mut(lent.as_ptr(), room) };
    // SAFETY: as above, and nobody writes there.
    let bytes = unsafe { std::slice::from_raw_parts(text.as_ptr(), file.len()) };
    let told = read_survey_numbers(bytes, Bay::list_mut(rails));
    if told != due || !text.is(file) || !lent.is(&expected) {
        println!("read a survey: library {told:?}, reference {due:?}, room {room}\n{:?}", String::from_utf8_lossy(file));
        std::process::exit(1);
    }
    if due.0 == 0 {
        let ends = &expected[..due.1 as usize];
        let (mut canonical, mut again) = (vec![0; 10_256], vec![0; MOST_ENDS]);
        let (number, length) = write_survey_numbers(due.2, Bay::list(ends), &mut canonical);
        let back = read_survey_numbers(&canonical[..length as usize], Bay::list_mut(&mut again));
        if number != 0 || back != due || again[..ends.len()] != *ends {
            println!("a survey that was read and written does not read back: {:?}", String::from_utf8_lossy(file));
            std::process::exit(1);
        }
    }
    due.0
}

fn write(bays: u64, rails: &[u16], room: usize) -> u64 {
    let mut expected = vec![u8::GUARD; room];
    let due = reference::write_survey(bays, rails, &mut expected);
    let (held, lent) = (Lent::new(rails), Lent::room(room));
    // SAFETY: the list has so many places, and nothing else points there.
    let out = unsafe { std::slice::from_raw_parts_mut(lent.as_ptr(), room) };
    // SAFETY: as above, and nobody writes there.
    let ends = unsafe { std::slice::from_raw_parts(held.as_ptr(), rails.len()) };
    let told = write_survey_numbers(bays, Bay::list(ends), out);
    if told != due || !held.is(rails) || !lent.is(&expected) {
        println!("write a survey: library {told:?}, reference {due:?}, bays {bays}, rails {rails:?}, room {room}");
        std::process::exit(1);
    }
    due.0
}
