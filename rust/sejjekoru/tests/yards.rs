//! The yards that document 01 works by hand, through the library; a trip there and back, and bills.

use sejjekoru::{agrees, check, open, plan, report, report_billed, shorten, slots};
use sejjekoru::{Bay, Carrier, Crossing, Line, Record, Refusal, Reported, Yard, UNTOUCHED};

/// Bays, rails, start, goal.
struct Owned(u64, Vec<u16>, Vec<u16>, Vec<u16>);

fn t(start: [u16; 2], goal: [u16; 2]) -> Owned {
    Owned(4, vec![0, 1, 1, 2, 1, 3], start.into(), goal.into())
}

fn line(bays: u16, start: [u16; 2], goal: [u16; 2]) -> Owned {
    let rails = (1..bays).flat_map(|b| [b - 1, b]).collect();
    Owned(bays.into(), rails, start.into(), goal.into())
}

fn ring_of_four(start: [u16; 2], goal: [u16; 2]) -> Owned {
    let mut ring = line(4, start, goal);
    ring.1.extend([3, 0]);
    ring
}

fn crossed(crossings: &[(u32, u16, u16)]) -> Vec<u64> {
    let number = |&(c, from, to)| {
        let (carrier, from, to) = (Carrier(c), Bay(from), Bay(to));
        u64::from(Crossing { carrier, from, to })
    };
    crossings.iter().map(number).collect()
}

/// A number that no plan holds, to see what was not written.
const GUARD: u64 = u64::MAX;

impl Owned {
    fn yard(&self) -> Yard<'_> {
        Yard::new(self.0, &self.1, &self.2, &self.3)
    }

    fn plan(&self, room: usize) -> Result<Vec<u64>, Refusal> {
        let mut lent = vec![GUARD; room];
        let answer = plan(self.yard(), &mut lent);
        let written = answer.map_or(0, |planned| planned.length);
        assert!(lent[written..].iter().all(|&number| number == GUARD));
        lent.truncate(written);
        answer.map(|_| lent)
    }

    fn slots(&self, plan: &[u64]) -> Result<Vec<u32>, Refusal> {
        let mut lent = vec![0; plan.len() + 3];
        let written = slots(self.yard(), plan, &mut lent)?;
        assert!(lent[written..].iter().all(|&slot| slot == 0));
        lent.truncate(written);
        Ok(lent)
    }

    fn reports(&self, plan: &[u64], names: &[u64]) -> Vec<Result<Reported, Refusal>> {
        let mut marks = vec![0; plan.len()];
        let one = |&name| report(self.yard(), plan, &mut marks, name);
        names.iter().map(one).collect()
    }

    /// The plan is the one given, it passes the check, and its slots are the ones given.
    fn gives(&self, crossings: &[(u32, u16, u16)], slots: &[u32]) {
        let plan = self.plan(64).unwrap();
        assert_eq!(plan, crossed(crossings));
        assert_eq!(check(self.yard(), &plan), Ok(()));
        assert_eq!(self.slots(&plan).unwrap(), slots);
    }
}

const SWAP: [(u32, u16, u16); 6] = [(0, 1, 2), (1, 0, 1), (1, 1, 3), (0, 2, 1), (0, 1, 0), (1, 3, 1)];

#[test]
fn y1_two_trade_places() {
    t([1, 0], [0, 1]).gives(&SWAP, &[1, 2, 3, 4, 5, 6]);
}

#[test]
fn y2_the_way_home() {
    let mut crossings = SWAP.to_vec();
    crossings.extend([(1, 1, 2), (0, 0, 1)]);
    t([1, 0], [1, 2]).gives(&crossings, &[1, 2, 3, 4, 5, 6, 7, 8]);
}

#[test]
fn y3_stopped() {
    assert_eq!(line(4, [0, 1], [1, 0]).plan(64), Err(Refusal::Stopped(Carrier(1))));
}

#[test]
fn y4_carousel() {
    ring_of_four([0, 1], [1, 0]).gives(&[(1, 1, 2), (0, 0, 1), (1, 2, 3), (1, 3, 0)], &[1, 2, 2, 3]);
}

#[test]
fn y5_ring() {
    ring_of_four([0, 1], [1, 2]).gives(&[(1, 1, 2), (0, 0, 1)], &[1, 2]);
}

#[test]
fn y6_apart_on_a_line() {
    let yard = line(6, [0, 5], [1, 4]);
    let crossings = [(0, 0, 1), (1, 5, 4)];
    yard.gives(&crossings, &[1, 1]);
    assert_eq!(yard.reports(&crossed(&crossings), &[1, 0, 1]), [Ok(Reported::Accepted), Ok(Reported::Accepted), Ok(Reported::Already)]);
}

#[test]
fn y7_reports() {
    assert_eq!(
        t([1, 0], [0, 1]).reports(&crossed(&SWAP), &[1, 6, 0, 0]),
        [Err(Refusal::Early(0)), Err(Refusal::Unknown), Ok(Reported::Accepted), Ok(Reported::Already)]
    );
}

#[test]
fn y8_y9_two_bays() {
    Owned(2, vec![0, 1], vec![], vec![]).gives(&[], &[]);
    assert_eq!(Owned(2, vec![0, 1], vec![0], vec![1]).plan(64), Err(Refusal::Crowd));
}

#[test]
fn y10_limits() {
    let wide = |bays: u16, carriers: u16| {
        let mut yard = line(bays, [0, 0], [0, 0]);
        (yard.2, yard.3) = ((0..carriers).collect(), (0..carriers).collect());
        yard.plan(64)
    };
    assert_eq!(wide(256, 254), Ok(vec![]));
    assert_eq!(wide(257, 2), Err(Refusal::Size));
    assert_eq!(wide(256, 255), Err(Refusal::Crowd));
}

#[test]
fn y11_room() {
    assert_eq!(t([1, 0], [0, 1]).plan(5), Err(Refusal::Room(6)));
}

#[test]
fn there_and_back_trips() {
    let yard = line(6, [0, 5], [1, 5]);
    let there = crossed(&[(0, 0, 1), (1, 5, 4), (0, 1, 2), (1, 4, 5), (0, 2, 1)]);
    let shortened = |marks: &[u8], room: usize| {
        let mut lent = vec![GUARD; room];
        let answer = shorten(yard.yard(), &there, marks, &mut lent);
        (answer, lent)
    };
    let left = crossed(&[(0, 0, 1)]);
    assert_eq!(shortened(&[0; 5], 2), (Ok(1), vec![left[0], GUARD]));
    assert_eq!(shortened(&[0; 5], 0), (Err(Refusal::Room(1)), vec![]));
    let begun = (Err(Refusal::Begun), vec![]);
    assert_eq!(shortened(&[1, 0, 0, 0, 0], 0), begun);
    let mismarked = (Err(Refusal::Mismarked), vec![GUARD]);
    assert_eq!(shortened(&[0; 4], 1), mismarked);
}

/// On Y1, with a last place for a line that there should not be.
struct Books {
    record: Record,
    lines: [Line; 3],
    marks: [u8; 6],
}

impl Books {
    fn opened() -> Books {
        let mut books = Books { record: Record::default(), lines: [Line::default(); 3], marks: [0; 6] };
        let Books { record, lines, marks } = &mut books;
        assert_eq!(open(t([1, 0], [0, 1]).yard(), &crossed(&SWAP), marks, record, &mut lines[..2]), Ok(()));
        books
    }

    fn report(&mut self, name: u64) -> Result<Reported, Refusal> {
        let Books { record, lines, marks } = self;
        report_billed(t([1, 0], [0, 1]).yard(), &crossed(&SWAP), marks, name, record, &mut lines[..2])
    }

    fn agree(&self) -> Result<bool, Refusal> {
        agrees(t([1, 0], [0, 1]).yard(), &crossed(&SWAP), &self.marks, &self.record, &self.lines[..2])
    }
}

#[test]
fn bills_of_y1() {
    let mut books = Books::opened();
    assert_eq!(books.lines[0], Line { carrier: Carrier(0), billed: 0, last: UNTOUCHED });
    assert_eq!((&books.record.at[..3], books.record.done, books.record.highest), (Bay::list(&[1, 0, 0]), 0, 0));
    let told = [1, 6, 0, 0, 1].map(|name| books.report(name));
    let (accepted, already) = (Ok(Reported::Accepted), Ok(Reported::Already));
    assert_eq!(told, [Err(Refusal::Early(0)), Err(Refusal::Unknown), accepted, already, accepted]);
    assert_eq!(
        books.lines,
        [Line { carrier: Carrier(0), billed: 1, last: 0 }, Line { carrier: Carrier(1), billed: 1, last: 1 }, Line::default()]
    );
    assert_eq!((&books.record.at[..3], books.record.done, books.record.highest), (Bay::list(&[2, 1, 0]), 2, 2));
    assert_eq!(books.agree(), Ok(true));
    books.record.highest = 1;
    assert_eq!((books.agree(), books.report(2)), (Ok(false), Err(Refusal::Disagrees)));
    books.marks[2] = 2;
    assert_eq!((books.agree(), books.report(2)), (Err(Refusal::Mismarked), Err(Refusal::Mismarked)));
}

#[test]
fn a_line_for_each_carrier() {
    let (yard, plan, mut books) = (t([1, 0], [0, 1]), crossed(&SWAP), Books::opened());
    let Books { record, lines, marks } = &mut books;
    assert_eq!(open(yard.yard(), &plan, marks, record, lines), Err(Refusal::Room(2)));
    assert_eq!(agrees(yard.yard(), &plan, marks, record, lines), Ok(false));
    assert_eq!(report_billed(yard.yard(), &plan, marks, 0, record, lines), Err(Refusal::Disagrees));
    assert_eq!(report_billed(yard.yard(), &plan, marks, 0, record, &mut lines[..1]), Err(Refusal::Disagrees));
    assert_eq!(books.report(0), Ok(Reported::Accepted));
}

/// Where the carriers of Y1 stand after each report.
const STANDING: [[u16; 2]; 6] = [[2, 0], [2, 1], [2, 3], [1, 3], [0, 3], [0, 1]];

/// The books that own their lists, from opening to all done, with a repeat and a restart after each report.
#[test]
fn owned_books_of_y1() {
    let owned = t([1, 0], [0, 1]);
    let yard = owned.yard();
    let mut books = sejjekoru::Books::open(yard, sejjekoru::plan_vec(yard).unwrap()).unwrap();
    assert_eq!(books.plan(), crossed(&SWAP));
    for name in 0..6 {
        assert_eq!(books.report(name + 1), Err(if name < 5 { Refusal::Early(name) } else { Refusal::Unknown }));
        assert_eq!(books.report(name), Ok(Reported::Accepted));
        assert_eq!(books.report(name), Ok(Reported::Already));
        assert!(books.agree());
        assert_eq!(books.placement(), Bay::list(&STANDING[name as usize]));
        let again = sejjekoru::Books::reopen(yard, books.plan().to_vec(), books.marks().to_vec()).unwrap();
        assert_eq!((again.record(), again.lines()), (books.record(), books.lines()));
    }
    assert!(books.all_done());
    assert_eq!(books.lines().iter().map(|line| line.billed).collect::<Vec<_>>(), [3, 3]);
    let refused = |books: Result<sejjekoru::Books, Refusal>| books.err();
    assert_eq!(refused(sejjekoru::Books::reopen(yard, crossed(&SWAP), vec![0; 5])), Some(Refusal::Mismarked));
    assert_eq!(refused(sejjekoru::Books::open(yard, crossed(&SWAP[..1]))), Some(Refusal::Missed(Carrier(0))));
}

/// Y1's plan backwards leads from goal to start, and backwards again it is the plan.
#[test]
fn rollback_of_y1() {
    let (there, back) = (t([1, 0], [0, 1]), t([0, 1], [1, 0]));
    let plan = there.plan(64).unwrap();
    let mut rollback = vec![GUARD; 7];
    assert_eq!(sejjekoru::reverse(&plan, &mut rollback[..5]), Err(Refusal::Room(6)));
    assert_eq!(rollback, [GUARD; 7]);
    assert_eq!(sejjekoru::reverse(&plan, &mut rollback), Ok(6));
    assert_eq!(rollback.pop(), Some(GUARD));
    assert_eq!(rollback, crossed(&[(1, 1, 3), (0, 0, 1), (0, 1, 2), (1, 3, 1), (1, 1, 0), (0, 2, 1)]));
    assert_eq!(check(back.yard(), &rollback), Ok(()));
    assert_eq!(sejjekoru::reverse_vec(&rollback), Ok(plan));
    assert_eq!(sejjekoru::reverse_vec(&vec![0; 65_537]), Err(Refusal::Size));
}

/// Every refusal says in words what is wrong, with what it carries and its number.
#[test]
fn refusals_in_words() {
    let all = [
        Refusal::Size,
        Refusal::Rail(41),
        Refusal::Apart(Bay(41)),
        Refusal::Crowd,
        Refusal::Start(Carrier(41)),
        Refusal::Goal(Carrier(41)),
        Refusal::Stopped(Carrier(41)),
        Refusal::Room(41),
        Refusal::Illegal(41),
        Refusal::Missed(Carrier(41)),
        Refusal::Mismarked,
        Refusal::Unknown,
        Refusal::Early(41),
        Refusal::BadMap(41),
        Refusal::BadScenario(41),
        Refusal::BadSurvey(41),
        Refusal::Ended,
        Refusal::LongPiece,
        Refusal::Disagrees,
        Refusal::Edition,
        Refusal::Begun,
        Refusal::BadPlan(41),
        Refusal::BadReports(41),
    ];
    for refusal in all {
        let words = refusal.to_string();
        let said = words.strip_prefix(&format!("refused {}: ", refusal.number())).expect(&words);
        assert_eq!(said.contains("41"), refusal.carried().is_some(), "{words}");
    }
}
