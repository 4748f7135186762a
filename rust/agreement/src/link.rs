//! Maps and scenarios from their bytes: whole, and in pieces that are cut at every place and at random. The library's answers, lists and states
//! are held against the reference's, which reads the whole file when told that it has ended.

use crate::files::pair;
use crate::tally::Tally;
use sejjekoru::files::{map_told, scenario_told, CARRIERS, PIECE};
use sejjekoru::{Bay, Link};
use std::path::Path;
use yards::Dice;

const PAIRS: u64 = 4_000;
/// Scenarios up to this length are cut at each place in turn.
const EACH_PLACE: usize = 1_200;

pub fn run() -> [Tally; 3] {
    let mut tallies =
        [Tally::new("map", &[0, 8, 14]), Tally::new("scenario", &[0, 8, 14, 15]), Tally::new("link", &[0, 14, 15, 17, 18, 101])];
    let files = Path::new(env!("CARGO_MANIFEST_DIR")).join("../../tests/files");
    let mut pairs = 0;
    for number in 0.. {
        let read = |kind: &str| std::fs::read(files.join(format!("{number:03}.{kind}")));
        let (Ok(map), Ok(scenario)) = (read("map"), read("scen")) else { break };
        let mut dice = Dice::new(0x0300_0000 + number);
        one(&mut tallies, &mut dice, &map, &scenario);
        pairs += 1;
    }
    assert!(pairs >= 100, "the pairs of tests/files");
    for seed in 0..PAIRS {
        let mut dice = Dice::new(0x0400_0000 + seed);
        let (map, scenario) = pair(&mut dice);
        one(&mut tallies, &mut dice, &map.unwrap_or_default(), &scenario.unwrap_or_default());
    }
    tallies
}

fn same<T: PartialEq + std::fmt::Debug>(what: &str, told: T, due: T, map: &[u8], scenario: &[u8]) {
    if told != due {
        let show = |bytes: &[u8]| String::from_utf8_lossy(bytes).into_owned();
        println!("{what}: {told:?}, not {due:?}\nmap {:?}\nscenario {:?}", show(map), show(scenario));
        std::process::exit(1);
    }
}

/// A list of marked numbers, so that what is written shows.
fn marked(length: usize) -> Vec<u16> {
    (0..length).map(|place| 60_000 + place as u16 % 5_000).collect()
}

fn one([maps, scenarios, links]: &mut [Tally; 3], dice: &mut Dice, map: &[u8], scenario: &[u8]) {
    let needed = reference::link::map(map, &mut marked(16_384)).1 as usize;
    for room in [16_384, needed, needed.saturating_sub(1), 0] {
        let (mut told, mut due) = (marked(room), marked(room));
        let answer = map_told(map, Bay::list_mut(&mut told));
        same("map", answer, reference::link::map(map, &mut due), map, scenario);
        same("map: rails", told, due, map, scenario);
        maps.add(answer.0);
    }
    let carriers = reference::link::scenario(map, scenario, &mut marked(CARRIERS), &mut marked(CARRIERS)).1 as usize;
    let (few, all) = (carriers.saturating_sub(1), CARRIERS);
    for (starts, goals) in [(all, all), (carriers, carriers), (few, all), (all, few)] {
        let (mut told, mut due) = ((marked(starts), marked(goals)), (marked(starts), marked(goals)));
        let answer = scenario_told(map, scenario, Bay::list_mut(&mut told.0), Bay::list_mut(&mut told.1));
        same("scenario", answer, reference::link::scenario(map, scenario, &mut due.0, &mut due.1), map, scenario);
        same("scenario: lists", told, due, map, scenario);
        scenarios.add(answer.0);
    }
    let places = if scenario.len() <= EACH_PLACE { scenario.len() } else { 0 };
    for place in 0..=places {
        let (first, second) = scenario.split_at(place);
        cut(links, map, scenario, first.chunks(PIECE).chain(second.chunks(PIECE)));
    }
    cut(links, map, scenario, scenario.chunks(1));
    for _ in 0..3 {
        let mut pieces = Vec::new();
        let mut rest = scenario;
        while !rest.is_empty() || dice.percent(30) {
            let most = dice.pick(&[2, 20, PIECE]);
            let (piece, after) = rest.split_at(dice.from_to(0, most).min(rest.len()));
            pieces.push(piece);
            rest = after;
        }
        cut(links, map, scenario, pieces.into_iter());
    }
}

/// One cut: every answer, and what stands in the link at the end; then the refused calls, which leave the link as it is.
fn cut<'a>(links: &mut Tally, map: &[u8], scenario: &[u8], pieces: impl Iterator<Item = &'a [u8]>) {
    let (mut link, mut plain) = (Link::default(), reference::link::Link::default());
    let mut check = |what: &str, told: (u64, u64), due: (u64, u64)| {
        same(what, told, due, map, scenario);
        links.add(told.0);
    };
    check("link: begin", link.begin_told(map), plain.begin(map));
    for piece in pieces {
        check("link: piece", link.piece_told(piece), plain.piece(piece));
    }
    let long = [b'0'; PIECE + 1];
    let before = link.clone();
    check("link: long piece", link.piece_told(&long), plain.piece(&long));
    same("link: after a refused piece", &link, &before, map, scenario);
    let (mut start, mut goal) = (marked(CARRIERS), marked(CARRIERS));
    let told = link.end_told();
    check("link: end", told, plain.end(&mut start, &mut goal));
    if told.0 == 0 {
        let carriers = told.1 as usize;
        same("link: starts", Bay::numbers(&link.start[..carriers]), &start[..carriers], map, scenario);
        same("link: goals", Bay::numbers(&link.goal[..carriers]), &goal[..carriers], map, scenario);
    }
    let before = link.clone();
    check("link: after the end", link.piece_told(&long), plain.piece(&long));
    check("link: second end", link.end_told(), plain.end(&mut start, &mut goal));
    same("link: after refused calls", &link, &before, map, scenario);
}
