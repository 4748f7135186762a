//! The documents' answers, read from the two numbers by which the library tells them.

use crate::{Bay, Carrier};
use core::{error, fmt};

/// Why a docket is refused, with what the refusal carries.
#[derive(Clone, Copy, Debug, PartialEq, Eq, Hash)]
pub enum Refusal {
    /// 1: a number of bays, rails, rail ends, carriers or crossings is outside its limit.
    Size,
    /// 2: the first bad rail.
    Rail(u64),
    /// 3: the lowest bay that cannot be reached from bay 0.
    Apart(Bay),
    /// 4: fewer than two bays would stay empty.
    Crowd,
    /// 5: the first carrier whose start is no bay or is taken.
    Start(Carrier),
    /// 6: the first carrier whose goal is no bay or is taken.
    Goal(Carrier),
    /// 7: the carrier that could not step.
    Stopped(Carrier),
    /// 8: the length that the lent list would need.
    Room(u64),
    /// 9: the name of the first illegal crossing.
    Illegal(u64),
    /// 10: the lowest carrier that the plan does not bring home.
    Missed(Carrier),
    /// 11: the marks are not those of this plan.
    Mismarked,
    /// 12: the name is not in the plan.
    Unknown,
    /// 13: the lowest undone name that the reported crossing depends on.
    Early(u64),
    /// 14: the first bad line of the map, from 1.
    BadMap(u64),
    /// 15: the first bad line of the scenario, from 1.
    BadScenario(u64),
    /// 16: the first line of a surveyors' file that breaks its layout or is missing, from 1.
    BadSurvey(u64),
    /// 17: the scenario over this link has ended.
    Ended,
    /// 18: a piece of a scenario has more than 256 bytes.
    LongPiece,
    /// 19: record and lines are not those of this plan, start and marks.
    Disagrees,
    /// 20: slots have two editions, 1 and 2.
    Edition,
    /// 25: a crossing of the plan to be shortened is done.
    Begun,
    /// 26: the first bad line of a file with a printed plan, from 1.
    BadPlan(u64),
    /// 27: the first bad line of a file with reported names, from 1.
    BadReports(u64),
}

/// What planning answers.
#[derive(Clone, Copy, Debug, PartialEq, Eq, Hash)]
pub struct Planned {
    /// The number of crossings.
    pub length: usize,
    /// How many vacates in the plan, undoing left aside, filled a bay of three rails or more.
    pub parked: usize,
}

/// What a report that is not refused answers.
#[derive(Clone, Copy, Debug, PartialEq, Eq, Hash)]
pub enum Reported {
    /// The crossing is marked as done now.
    Accepted,
    /// It was done before; nothing changed.
    Already,
}

/// The number of "already", which is no refusal.
const ALREADY: u64 = 100;

/// What planning answers, from number, value and count.
pub(crate) fn planned((number, value, parked): (u64, u64, u64)) -> Result<Planned, Refusal> {
    told((number, value)).map(|length| Planned { length: length as usize, parked: parked as usize })
}

/// What a report answers, billed or not.
pub(crate) fn reported((number, value): (u64, u64)) -> Result<Reported, Refusal> {
    match number {
        ALREADY => Ok(Reported::Already),
        _ => told((number, value)).map(|_| Reported::Accepted),
    }
}

/// The value that goes with acceptance, or the refusal.
pub(crate) fn told((number, value): (u64, u64)) -> Result<u64, Refusal> {
    Err(match number {
        0 => return Ok(value),
        1 => Refusal::Size,
        2 => Refusal::Rail(value),
        3 => Refusal::Apart(Bay(value as u16)),
        4 => Refusal::Crowd,
        5 => Refusal::Start(Carrier(value as u32)),
        6 => Refusal::Goal(Carrier(value as u32)),
        7 => Refusal::Stopped(Carrier(value as u32)),
        8 => Refusal::Room(value),
        9 => Refusal::Illegal(value),
        10 => Refusal::Missed(Carrier(value as u32)),
        11 => Refusal::Mismarked,
        12 => Refusal::Unknown,
        13 => Refusal::Early(value),
        14 => Refusal::BadMap(value),
        15 => Refusal::BadScenario(value),
        16 => Refusal::BadSurvey(value),
        17 => Refusal::Ended,
        18 => Refusal::LongPiece,
        19 => Refusal::Disagrees,
        20 => Refusal::Edition,
        25 => Refusal::Begun,
        26 => Refusal::BadPlan(value),
        27 => Refusal::BadReports(value),
        _ => unreachable!("the library is proved to answer no other number"),
    })
}

impl Refusal {
    /// The number in the table of refusals.
    ///
    /// ```
    /// use sejjekoru::{Carrier, Refusal};
    ///
    /// let refusal = Refusal::Stopped(Carrier(1));
    /// assert_eq!((refusal.number(), refusal.carried()), (7, Some(1)));
    /// assert_eq!(refusal.to_string(), "refused 7: the procedure found no next step for carrier 1");
    /// ```
    pub fn number(self) -> u64 {
        match self {
            Refusal::Size => 1,
            Refusal::Rail(_) => 2,
            Refusal::Apart(_) => 3,
            Refusal::Crowd => 4,
            Refusal::Start(_) => 5,
            Refusal::Goal(_) => 6,
            Refusal::Stopped(_) => 7,
            Refusal::Room(_) => 8,
            Refusal::Illegal(_) => 9,
            Refusal::Missed(_) => 10,
            Refusal::Mismarked => 11,
            Refusal::Unknown => 12,
            Refusal::Early(_) => 13,
            Refusal::BadMap(_) => 14,
            Refusal::BadScenario(_) => 15,
            Refusal::BadSurvey(_) => 16,
            Refusal::Ended => 17,
            Refusal::LongPiece => 18,
            Refusal::Disagrees => 19,
            Refusal::Edition => 20,
            Refusal::Begun => 25,
            Refusal::BadPlan(_) => 26,
            Refusal::BadReports(_) => 27,
        }
    }

    /// What it carries, if anything.
    pub fn carried(self) -> Option<u64> {
        match self {
            Refusal::Size | Refusal::Crowd | Refusal::Mismarked | Refusal::Unknown => None,
            Refusal::Ended | Refusal::LongPiece | Refusal::Disagrees | Refusal::Edition | Refusal::Begun => None,
            Refusal::Apart(bay) => Some(u64::from(bay.0)),
            Refusal::Start(c) | Refusal::Goal(c) | Refusal::Stopped(c) | Refusal::Missed(c) => Some(u64::from(c.0)),
            Refusal::Rail(v) | Refusal::Room(v) | Refusal::Illegal(v) | Refusal::Early(v) => Some(v),
            Refusal::BadMap(v) | Refusal::BadScenario(v) | Refusal::BadSurvey(v) => Some(v),
            Refusal::BadPlan(v) | Refusal::BadReports(v) => Some(v),
        }
    }
}

/// `refused N: `, then in words what is wrong, with what is carried.
impl fmt::Display for Refusal {
    fn fmt(&self, f: &mut fmt::Formatter<'_>) -> fmt::Result {
        write!(f, "refused {}: ", self.number())?;
        match *self {
            Refusal::Size => write!(f, "the yard, the placements or the plan have a size that is not allowed"),
            Refusal::Rail(rail) => write!(f, "rail {rail} joins no two different bays of the yard, or two that are joined already"),
            Refusal::Apart(Bay(bay)) => write!(f, "bay {bay} cannot be reached from bay 0"),
            Refusal::Crowd => write!(f, "two bays must stay empty"),
            Refusal::Start(Carrier(carrier)) => write!(f, "carrier {carrier} starts in no bay of the yard, or in another carrier's"),
            Refusal::Goal(Carrier(carrier)) => write!(f, "the goal of carrier {carrier} is no bay of the yard, or another carrier's goal"),
            Refusal::Stopped(Carrier(carrier)) => write!(f, "the procedure found no next step for carrier {carrier}"),
            Refusal::Room(needed) => write!(f, "the result has {needed} places, which is more than there is room for"),
            Refusal::Illegal(name) => write!(f, "crossing {name} is not legal"),
            Refusal::Missed(Carrier(carrier)) => write!(f, "carrier {carrier} does not end at its goal"),
            Refusal::Mismarked => write!(f, "the marks do not fit the plan"),
            Refusal::Unknown => write!(f, "no crossing of the plan has this name"),
            Refusal::Early(name) => write!(f, "crossing {name}, on which this one depends, is not done"),
            Refusal::BadMap(line) => write!(f, "line {line} of the map breaks its layout"),
            Refusal::BadScenario(line) => write!(f, "line {line} of the scenario breaks its layout"),
            Refusal::BadSurvey(line) => write!(f, "line {line} of the survey breaks its layout"),
            Refusal::Ended => write!(f, "the scenario over this link has ended"),
            Refusal::LongPiece => write!(f, "the piece has more than 256 bytes"),
            Refusal::Disagrees => write!(f, "record and lines are not what plan and marks give"),
            Refusal::Edition => write!(f, "slots have editions 1 and 2 and no other"),
            Refusal::Begun => write!(f, "a crossing of the plan is done already"),
            Refusal::BadPlan(line) => write!(f, "line {line} of the plan breaks its layout"),
            Refusal::BadReports(line) => write!(f, "line {line} of the reports breaks its layout"),
        }
    }
}

impl error::Error for Refusal {}
