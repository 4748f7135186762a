//! The numbers on a refused docket: document 01's table, a case for each row.

pub const ACCEPTED: u64 = 0;
pub const ALREADY: u64 = 100;
pub const DISAGREES: u64 = 19;
pub const BEGUN: u64 = 25;

#[derive(Clone, Copy, Debug, PartialEq, Eq)]
pub enum Refusal {
    Size,
    Rail(u64),
    Apart(u64),
    Crowd,
    Start(u64),
    Goal(u64),
    Stopped(u64),
    Room(u64),
    Crossing(u64),
    GoalMissed(u64),
    Marks,
    Unknown,
    Early(u64),
    Map(u64),
    Scenario(u64),
    Survey(u64),
    Edition,
}

impl Refusal {
    /// The row's number, and what it carries where it carries something.
    pub fn row(self) -> (u64, Option<u64>) {
        match self {
            Refusal::Size => (1, None),
            Refusal::Rail(rail) => (2, Some(rail)),
            Refusal::Apart(bay) => (3, Some(bay)),
            Refusal::Crowd => (4, None),
            Refusal::Start(carrier) => (5, Some(carrier)),
            Refusal::Goal(carrier) => (6, Some(carrier)),
            Refusal::Stopped(carrier) => (7, Some(carrier)),
            Refusal::Room(needed) => (8, Some(needed)),
            Refusal::Crossing(name) => (9, Some(name)),
            Refusal::GoalMissed(carrier) => (10, Some(carrier)),
            Refusal::Marks => (11, None),
            Refusal::Unknown => (12, None),
            Refusal::Early(name) => (13, Some(name)),
            Refusal::Map(line) => (14, Some(line)),
            Refusal::Scenario(line) => (15, Some(line)),
            Refusal::Survey(line) => (16, Some(line)),
            Refusal::Edition => (20, None),
        }
    }
}

/// An answer as number and value.
pub fn docket(answer: Result<(u64, u64), Refusal>) -> (u64, u64) {
    answer.unwrap_or_else(|refusal| {
        let (number, carried) = refusal.row();
        (number, carried.unwrap_or(0))
    })
}
