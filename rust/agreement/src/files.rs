//! The file program on random maps and scenarios, sound and damaged: all that it prints, with `--shorten` too, is held against the reference.

use crate::tally::Tally;
use std::path::Path;
use std::process::Command;
use yards::Dice;

const PAIRS: u64 = 3_000;

pub fn run(program: &str) -> Tally {
    let mut tally = Tally::new("file program", &[0, 1, 3, 4, 5, 6, 7, 8, 14, 15]);
    let room = std::env::temp_dir().join(format!("agreement-{}", std::process::id()));
    std::fs::create_dir_all(&room).expect("a directory of our own");
    for seed in 0..PAIRS {
        let mut dice = Dice::new(0x0200_0000 + seed);
        let (map, scenario) = pair(&mut dice);
        tally.add(compare(program, &room, map.as_deref(), scenario.as_deref()));
    }
    let _ = std::fs::remove_dir_all(&room);
    tally
}

/// The number that both printed. A file that is `None` is not there.
fn compare(program: &str, room: &Path, map: Option<&[u8]>, scenario: Option<&[u8]>) -> u64 {
    let written = |name: &str, bytes: Option<&[u8]>| {
        let path = room.join(name);
        match bytes {
            Some(bytes) => std::fs::write(&path, bytes).expect("a file of our own"),
            None => drop(std::fs::remove_file(&path)),
        }
        path
    };
    let (map_path, scenario_path) = (written("map", map), written("scen", scenario));
    let short = Command::new(program).arg("--shorten").args([&map_path, &scenario_path]).output().expect("the file program");
    let ran = Command::new(program).args([map_path, scenario_path]).output().expect("the file program");
    let expected = reference::program(map, scenario);
    if ran.stdout != expected || short.stdout != reference::program_short(map, scenario) {
        let show = |bytes: &[u8]| String::from_utf8_lossy(bytes).into_owned();
        println!("file program: printed\n{}expected\n{}", show(&ran.stdout), show(&expected));
        println!("map {:?}\nscenario {:?}", map.map(show), scenario.map(show));
        std::process::exit(1);
    }
    let words = String::from_utf8_lossy(&expected).into_owned();
    words.strip_prefix("; refused ").map_or(0, |rest| rest.split_whitespace().next().unwrap().parse().unwrap())
}

pub type File = Option<Vec<u8>>;

pub fn pair(dice: &mut Dice) -> (File, File) {
    let high = dice.pick(&[2, 4, 4, 8, 16, 16, 64]);
    let (height, width) = (dice.from_to(1, high), dice.from_to(1, high));
    let walls = dice.pick(&[0, 0, 0, 5, 25]);
    let rows: Vec<Vec<u8>> = (0..height)
        .map(|_| (0..width).map(|_| if dice.percent(walls) { dice.pick(b"@OTW") } else { dice.pick(b"....G") }).collect())
        .collect();
    let mut map = vec![b"type octile".to_vec(), format!("height {height}").into(), format!("width {width}").into(), b"map".to_vec()];
    map.extend(rows.iter().cloned());
    let scenario = scenario(&rows, dice);
    (file(map, dice, 25), file(scenario, dice, 30))
}

fn scenario(rows: &[Vec<u8>], dice: &mut Dice) -> Vec<Vec<u8>> {
    let (height, width) = (rows.len(), rows[0].len());
    let mut cells: Vec<(usize, usize)> = (0..height * width).map(|cell| (cell % width, cell / width)).collect();
    cells.retain(|&(x, y)| matches!(rows[y][x], b'.' | b'G'));
    let mut starts = cells.clone();
    dice.shuffle(&mut starts);
    dice.shuffle(&mut cells);
    let carriers = match dice.below(10) {
        0 => cells.len(),
        1 | 2 => cells.len().saturating_sub(2),
        3 => cells.len().min(3),
        _ => dice.from_to(0, cells.len().saturating_sub(2)),
    };
    let mut lines = vec![dice.pick(&[&b"version 1"[..], b"version 1.0"]).to_vec()];
    for (carrier, (start, goal)) in starts.iter().zip(&cells).take(carriers.min(dice.pick(&[254, 254, 256]))).enumerate() {
        let goal = if dice.below(400) == 0 { cells[0] } else { *goal };
        let start = if dice.below(400) == 0 { starts[0] } else { *start };
        let length = dice.pick(&["0", "3.5", ".5", "7.", "12345678901234567890", "1.4142135"]);
        let fields = format!("{carrier}\tmap\t{width}\t{height}\t{}\t{}\t{}\t{}\t{length}", start.0, start.1, goal.0, goal.1);
        lines.push(fields.into());
    }
    lines
}

/// Lines as a file: ends of either kind, the last one there or not; some files are damaged, and a few are missing.
fn file(mut lines: Vec<Vec<u8>>, dice: &mut Dice, chance: usize) -> File {
    if dice.below(100) == 0 {
        return None;
    }
    let damaged = dice.percent(chance);
    if damaged && dice.percent(40) {
        let line = dice.below(lines.len());
        match dice.below(3) {
            0 => drop(lines.remove(line)),
            1 => lines.insert(line, lines[dice.below(lines.len())].clone()),
            _ => lines.insert(line, Vec::new()),
        }
    }
    let carriage = dice.pick(&[0, 0, 50, 100]);
    let mut bytes = Vec::new();
    for line in lines {
        bytes.extend(line);
        bytes.extend(if dice.percent(carriage) { &b"\r\n"[..] } else { b"\n" });
    }
    if dice.percent(30) {
        bytes.pop();
    }
    if damaged && !bytes.is_empty() {
        damage(&mut bytes, dice);
    }
    Some(bytes)
}

/// A byte changed, taken out, doubled or put in; the end cut off.
fn damage(bytes: &mut Vec<u8>, dice: &mut Dice) {
    let place = dice.below(bytes.len());
    match dice.below(8) {
        0 => bytes[place] = dice.any() as u8,
        1 => drop(bytes.remove(place)),
        2 => bytes.insert(place, bytes[place]),
        3 => bytes.insert(place, dice.pick(b"\t\r\n 0.@-")),
        4 => bytes.truncate(place),
        5 => bytes.push(dice.pick(b"\r\n\t 0")),
        6 => bytes[place] = dice.pick(b"0123456789.\t"),
        _ => {}
    }
}
