//! Request E1 of document 02: surveyors' files, read and written. A file is read line by line, and the first line that breaks the layout, or
//! is missing, is the one that a refusal carries.

use crate::docket::Refusal;
use crate::files::{lines, number};
use crate::yard::Yard;

/// Bays and rail ends, the bays of a file counted from 0; a bay that no 16 bits hold is above every yard's bays, and so is 65,535.
struct Survey {
    bays: u64,
    ends: Vec<u16>,
}

/// Reads the file's rail ends into `rails` and answers the bays and the number of ends. Tests 16, 1 to 3, then 8.
pub fn read(file: &[u8], rails: &mut [u16]) -> Result<(u64, u64), Refusal> {
    let survey = layout(file).map_err(|line| Refusal::Survey(line as u64))?;
    passes(survey.bays, &survey.ends)?;
    let needed = survey.ends.len();
    if rails.len() < needed {
        return Err(Refusal::Room(needed as u64));
    }
    rails[..needed].copy_from_slice(&survey.ends);
    Ok((survey.bays, needed as u64))
}

/// Writes the yard's file into `out` and answers its length. Tests 1 to 3, then 8.
pub fn write(bays: u64, rails: &[u16], out: &mut [u8]) -> Result<u64, Refusal> {
    passes(bays, rails)?;
    let mut text = format!("p edge {bays} {}\n", rails.len() / 2);
    for rail in rails.chunks_exact(2) {
        text += &format!("e {} {}\n", u32::from(rail[0]) + 1, u32::from(rail[1]) + 1);
    }
    if out.len() < text.len() {
        return Err(Refusal::Room(text.len() as u64));
    }
    out[..text.len()].copy_from_slice(text.as_bytes());
    Ok(text.len() as u64)
}

/// 1 to 3 of a yard with no carriers.
fn passes(bays: u64, rails: &[u16]) -> Result<(), Refusal> {
    let mut yard = Yard::<4>::NONE;
    yard.open(bays, rails, &[], &[], 0)
}

/// What the file says, or its first bad line.
fn layout(file: &[u8]) -> Result<Survey, usize> {
    let lines = lines(file);
    let mut told = lines.iter().enumerate().filter(|(_, line)| line.first() != Some(&b'c'));
    let missing = lines.len() + 1;
    let (at, head) = told.next().ok_or(missing)?;
    let (bays, rails) = two_numbers(head, &["p", "edge"]).ok_or(at + 1)?;
    let mut ends = Vec::new();
    for _ in 0..rails {
        let (at, line) = told.next().ok_or(missing)?;
        let (from, to) = two_numbers(line, &["e"]).filter(|&(from, to)| from > 0 && to > 0).ok_or(at + 1)?;
        ends.extend([from, to].map(|bay| u16::try_from(bay - 1).unwrap_or(u16::MAX)));
    }
    match told.next() {
        Some((at, _)) => Err(at + 1),
        None => Ok(Survey { bays: bays as u64, ends }),
    }
}

/// The words, then two numbers of one to five digits, one space between each.
fn two_numbers(line: &[u8], words: &[&str]) -> Option<(usize, usize)> {
    let fields: Vec<&[u8]> = line.split(|&byte| byte == b' ').collect();
    let (front, numbers) = fields.split_at_checked(words.len())?;
    let [first, second] = *numbers else { return None };
    let alike = front.iter().zip(words).all(|(field, word)| *field == word.as_bytes());
    alike.then_some((number(first, 5)?, number(second, 5)?))
}
