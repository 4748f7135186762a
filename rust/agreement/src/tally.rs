//! How often each number was answered.

/// A column for each number of the refusal table, then those that are no refusals.
const TABLE: usize = 28;
const ALREADY: u64 = 100;
const MORE: u64 = 101;
const PLACES: usize = TABLE + 2;

pub struct Tally {
    name: &'static str,
    calls: u64,
    counts: [u64; PLACES],
    expected: Vec<u64>,
}

fn place(number: u64) -> usize {
    match number {
        ALREADY => TABLE,
        MORE => TABLE + 1,
        _ => number as usize,
    }
}

impl Tally {
    /// `expected` are the numbers that have to come up.
    pub fn new(name: &'static str, expected: &[u64]) -> Tally {
        Tally { name, calls: 0, counts: [0; PLACES], expected: expected.to_vec() }
    }

    pub fn add(&mut self, number: u64) {
        self.calls += 1;
        self.counts[place(number)] += 1;
    }
}

/// A table of all, and whether every expected number came up.
pub fn print(tallies: &[Tally]) -> bool {
    let numbers: Vec<String> = (0..TABLE).map(|number| number.to_string()).collect();
    println!("| answers agree | calls | {} | already | more |", numbers.join(" | "));
    println!("|---{}|", "|---".repeat(PLACES + 1));
    for tally in tallies {
        let counts: Vec<String> = tally.counts.iter().map(u64::to_string).collect();
        println!("| {} | {} | {} |", tally.name, tally.calls, counts.join(" | "));
    }
    let mut all = true;
    for tally in tallies {
        for &number in tally.expected.iter().filter(|&&number| tally.counts[place(number)] == 0) {
            println!("{}: {number} was never answered", tally.name);
            all = false;
        }
    }
    all
}
