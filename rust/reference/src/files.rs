//! The two files and the print. A layout is one test a line; the first line that is missing, fails its test or is one too many is the
//! line that a refusal carries.

use crate::crossing::Crossing;
use crate::docket::Refusal;
use crate::planner;
use crate::search::Seeking;
use crate::shorten;

const ROOM: usize = 8_192;
const MOST_CARRIER_LINES: usize = 254;

/// All that the file program prints. A file that can't be read is `None`.
pub fn program(map: Option<&[u8]>, scenario: Option<&[u8]>) -> Vec<u8> {
    let mut room = vec![0; ROOM];
    match planned(map, scenario, &mut room) {
        Ok(plan) => print(plan),
        Err(refusal) => print_refusal(refusal),
    }
}

/// The same with the plan shortened.
pub fn program_short(map: Option<&[u8]>, scenario: Option<&[u8]>) -> Vec<u8> {
    let mut room = vec![0; ROOM];
    match planned(map, scenario, &mut room) {
        Ok(plan) => print(&shorten::without_trips(plan)),
        Err(refusal) => print_refusal(refusal),
    }
}

fn planned<'a>(map: Option<&[u8]>, scenario: Option<&[u8]>, room: &'a mut [u64]) -> Result<&'a [u64], Refusal> {
    let map = map_of(map.ok_or(Refusal::Map(0))?)?;
    let (start, goal) = scenario_of(scenario.ok_or(Refusal::Scenario(0))?, &map)?;
    let length = planner::plan(Seeking::Kept, map.bays as u64, &map.rails(), &start, &goal, room)?.length;
    Ok(&room[..length as usize])
}

fn print(plan: &[u64]) -> Vec<u8> {
    let mut text = String::new();
    for &number in plan {
        let Crossing { carrier, from, to } = Crossing::read(number);
        text += &format!("(move c{carrier} b{from} b{to})\n");
    }
    text += &format!("; cost = {} (unit cost)\n", plan.len());
    text.into_bytes()
}

fn print_refusal(refusal: Refusal) -> Vec<u8> {
    let text = match refusal.row() {
        (number, Some(carried)) => format!("; refused {number} {carried}\n"),
        (number, None) => format!("; refused {number}\n"),
    };
    text.into_bytes()
}

/// Lines end in LF or CR LF; the last end may be missing.
pub(crate) fn lines(text: &[u8]) -> Vec<&[u8]> {
    let mut lines: Vec<&[u8]> = text.split_inclusive(|&byte| byte == b'\n').collect();
    for line in &mut lines {
        if let Some(bare) = line.strip_suffix(b"\n") {
            *line = bare.strip_suffix(b"\r").unwrap_or(bare);
        }
    }
    lines
}

/// The number in the line `word`, one space, one or two digits; from 1 to 64.
fn side(line: &[u8], word: &[u8]) -> Option<usize> {
    let digits = line.strip_prefix(word)?.strip_prefix(b" ")?;
    number(digits, 2).filter(|side| (1..=64).contains(side))
}

/// One to `most` digits and nothing else.
pub(crate) fn number(digits: &[u8], most: usize) -> Option<usize> {
    if digits.is_empty() || digits.len() > most || !digits.iter().all(u8::is_ascii_digit) {
        return None;
    }
    Some(digits.iter().fold(0, |value, digit| value * 10 + (digit - b'0') as usize))
}

pub(crate) struct Map {
    height: usize,
    width: usize,
    /// The bay of each cell, row by row; none at a wall.
    cells: Vec<Option<u16>>,
    pub(crate) bays: usize,
}

pub(crate) fn map_of(text: &[u8]) -> Result<Map, Refusal> {
    let lines = lines(text);
    let line = |number: usize| lines.get(number - 1).copied().ok_or(Refusal::Map(number as u64));
    let bad = |number: usize| Refusal::Map(number as u64);
    if line(1)? != b"type octile" {
        return Err(bad(1));
    }
    let height = side(line(2)?, b"height").ok_or(bad(2))?;
    let width = side(line(3)?, b"width").ok_or(bad(3))?;
    if line(4)? != b"map" {
        return Err(bad(4));
    }
    let mut map = Map { height, width, cells: Vec::new(), bays: 0 };
    for number in 5..5 + height {
        if !map.add_row(line(number)?) {
            return Err(bad(number));
        }
    }
    if lines.len() > 4 + height {
        return Err(bad(5 + height));
    }
    Ok(map)
}

impl Map {
    /// A row of as many letters as the map is wide; false where it is none.
    fn add_row(&mut self, row: &[u8]) -> bool {
        for letter in row {
            match letter {
                b'.' | b'G' => {
                    self.cells.push(Some(self.bays as u16));
                    self.bays += 1;
                }
                b'@' | b'O' | b'T' | b'W' => self.cells.push(None),
                _ => return false,
            }
        }
        row.len() == self.width
    }

    fn bay(&self, x: usize, y: usize) -> Option<u16> {
        if x < self.width && y < self.height {
            self.cells[y * self.width + x]
        } else {
            None
        }
    }

    /// Bays side by side or above each other. The bay to the right is the next number and the one below comes later, so cell by cell
    /// the rails rise by lower, then higher bay.
    pub(crate) fn rails(&self) -> Vec<u16> {
        let mut rails = Vec::new();
        for y in 0..self.height {
            for x in 0..self.width {
                let Some(bay) = self.bay(x, y) else { continue };
                let later = [self.bay(x + 1, y), self.bay(x, y + 1)];
                later.into_iter().flatten().for_each(|other| rails.extend([bay, other]));
            }
        }
        rails
    }
}

/// The starts and the goals of the carriers.
pub(crate) fn scenario_of(text: &[u8], map: &Map) -> Result<(Vec<u16>, Vec<u16>), Refusal> {
    let lines = lines(text);
    let (mut start, mut goal) = (Vec::new(), Vec::new());
    match lines.first() {
        Some(&b"version 1") | Some(&b"version 1.0") => {}
        _ => return Err(Refusal::Scenario(1)),
    }
    for (before, line) in lines[1..].iter().enumerate() {
        let ends = if before < MOST_CARRIER_LINES { carrier_line(line, map) } else { None };
        let (from, to) = ends.ok_or(Refusal::Scenario(before as u64 + 2))?;
        start.push(from);
        goal.push(to);
    }
    Ok((start, goal))
}

/// Nine fields split by tabs: bucket, map name, width, height, start x, start y, goal x, goal y, length.
fn carrier_line(line: &[u8], map: &Map) -> Option<(u16, u16)> {
    let fields: Vec<&[u8]> = line.split(|&byte| byte == b'\t').collect();
    let &[bucket, name, width, height, start_x, start_y, goal_x, goal_y, length] = &fields[..] else { return None };
    number(bucket, 5)?;
    let size = number(width, 5)? == map.width && number(height, 5)? == map.height;
    let start = map.bay(number(start_x, 5)?, number(start_y, 5)?)?;
    let goal = map.bay(number(goal_x, 5)?, number(goal_y, 5)?)?;
    let fits = (1..=128).contains(&name.len()) && size && is_length(length);
    fits.then_some((start, goal))
}

/// One to 20 bytes of digits with at most one point, and at least one digit.
fn is_length(field: &[u8]) -> bool {
    let digits = field.iter().filter(|byte| byte.is_ascii_digit()).count();
    let points = field.iter().filter(|&&byte| byte == b'.').count();
    field.len() <= 20 && digits >= 1 && points <= 1 && digits + points == field.len()
}
