//! Every ring of 3 to 7 bays with every start and goal: a plan comes exactly where a search of all placements finds a way, and 7 elsewhere.

use crate::tally::Tally;
use sejjekoru::{numbers, Yard};
use std::collections::HashMap;
use yards::Dice;

/// Room for any plan of these; the longest has far fewer crossings.
const ROOM: usize = 4_096;

/// Numberings of each ring: its bays in turn, and at random.
const NUMBERINGS: u64 = 3;

pub fn run() -> Tally {
    let mut tally = Tally::new("plan on rings", &[0, 7]);
    for bays in 3..=7 {
        // Seven bays have 6,350,400 orders of five carriers: one numbering has to do.
        let numberings = if bays < 7 { NUMBERINGS } else { 1 };
        for numbering in 0..numberings {
            let round = numbered(bays, numbering);
            let rails: Vec<u16> = (0..bays).flat_map(|place| [round[place], round[(place + 1) % bays]]).collect();
            for carriers in 0..=bays - 2 {
                all_orders(&mut tally, &round, &rails, carriers);
            }
        }
    }
    tally
}

/// The bays in their order around.
fn numbered(bays: usize, numbering: u64) -> Vec<u16> {
    if bays < 7 && numbering == 0 {
        return (0..bays as u16).collect();
    }
    Dice::new(0x0B00_0000 + numbering * 16 + bays as u64).shuffled(bays)
}

/// Each start with each goal. At a disagreement the order is printed, and the run ends.
fn all_orders(tally: &mut Tally, round: &[u16], rails: &[u16], carriers: usize) {
    let placements = placements(round.len(), carriers);
    let parts = parts(round, &placements);
    let mut room = vec![0; ROOM];
    for (start, part) in placements.iter().zip(&parts) {
        for (goal, other) in placements.iter().zip(&parts) {
            let (number, _, _) = numbers::plan(Yard::new(round.len() as u64, rails, start, goal), &mut room);
            let due = if part == other { 0 } else { 7 };
            if number != due {
                println!("plan on rings: library {number}, search {due}\nrails {rails:?}, start {start:?}, goal {goal:?}");
                std::process::exit(1);
            }
            tally.add(number);
        }
    }
}

/// All placements of so many carriers.
fn placements(bays: usize, carriers: usize) -> Vec<Vec<u16>> {
    let mut all = vec![Vec::new()];
    for _ in 0..carriers {
        let mut longer = Vec::new();
        for placement in all {
            for bay in (0..bays as u16).filter(|bay| !placement.contains(bay)) {
                longer.push([&placement[..], &[bay]].concat());
            }
        }
        all = longer;
    }
    all
}

/// For each placement a number, the same for two exactly if a list of crossings leads from one to the other. What leads there leads back.
fn parts(round: &[u16], placements: &[Vec<u16>]) -> Vec<usize> {
    let bays = round.len();
    let mut place_of = vec![0; bays];
    for (place, &bay) in round.iter().enumerate() {
        place_of[bay as usize] = place;
    }
    let index: HashMap<&[u16], usize> = placements.iter().enumerate().map(|(at, placement)| (&placement[..], at)).collect();
    let mut parts = vec![usize::MAX; placements.len()];
    for first in 0..placements.len() {
        if parts[first] != usize::MAX {
            continue;
        }
        parts[first] = first;
        let mut left = vec![first];
        while let Some(at) = left.pop() {
            for carrier in 0..placements[at].len() {
                let place = place_of[placements[at][carrier] as usize];
                for beside in [(place + 1) % bays, (place + bays - 1) % bays] {
                    let mut next = placements[at].clone();
                    if next.contains(&round[beside]) {
                        continue;
                    }
                    next[carrier] = round[beside];
                    let there = index[&next[..]];
                    if parts[there] == usize::MAX {
                        parts[there] = first;
                        left.push(there);
                    }
                }
            }
        }
    }
    parts
}
