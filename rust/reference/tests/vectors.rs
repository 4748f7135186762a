//! The vectors, run and compared whole: answers, carried values, and the end contents of every lent list.
//! Those of check, slots and reports are read where the proved programs read them, as numbers with each list behind its count.

use reference::{check, plan_parked, program, report, slots};
use std::path::{Path, PathBuf};
use yards::vectors::{plans, reverses};

fn here(name: &str) -> PathBuf {
    Path::new(env!("CARGO_MANIFEST_DIR")).join(name)
}

fn text(name: &str) -> String {
    std::fs::read_to_string(here(name)).unwrap_or_else(|error| panic!("{name}: {error}"))
}

/// Numbers one after another.
struct Numbers<'a>(std::str::SplitAsciiWhitespace<'a>);

impl<'a> Numbers<'a> {
    fn of(text: &'a str) -> Numbers<'a> {
        Numbers(text.split_ascii_whitespace())
    }

    fn next(&mut self) -> u64 {
        self.0.next().expect("a number").parse().expect("a number")
    }

    fn list<T: TryFrom<u64>>(&mut self) -> Vec<T> {
        (0..self.next()).map(|_| T::try_from(self.next()).ok().expect("a number that fits")).collect()
    }
}

#[test]
fn plans_of_the_vectors() {
    assert_eq!(plans(&text("tests/data/plan.txt"), plan_parked), (1193, 122));
}

#[test]
fn plans_that_do_not_park_on_junctions() {
    assert_eq!(plans(&text("tests/data/plan-e2-e9.txt"), plan_parked), (499, 0));
}

#[test]
fn plans_on_carousels() {
    assert_eq!(plans(&text("tests/data/plan-e2-e9-e3.txt"), plan_parked), (500, 0));
}

#[test]
fn large_plans_of_the_vectors() {
    assert_eq!(plans(&text("tests/data/plan-large.txt"), plan_parked), (7, 0));
}

#[test]
fn reverses_of_the_vectors() {
    assert_eq!(reverses(&text("../../tests/vectors/02/reverse.txt"), reference::reverse), (89, 61));
}

#[test]
fn checks_of_the_vectors() {
    let text = text("../../crates/log_cases/data/check");
    let mut numbers = Numbers::of(&text);
    for case in 0..numbers.next() {
        let bays = numbers.next();
        let (rails, start, goal) = (numbers.list(), numbers.list(), numbers.list());
        let plan = numbers.list();
        let expected = (numbers.next(), numbers.next());
        assert_eq!(check(bays, &rails, &start, &goal, &plan), expected, "case {case}");
    }
}

#[test]
fn slots_of_the_vectors() {
    let text = text("../../crates/log_cases/data/slots");
    let mut numbers = Numbers::of(&text);
    for case in 0..numbers.next() {
        let bays = numbers.next();
        let (rails, start, goal) = (numbers.list(), numbers.list(), numbers.list());
        let plan = numbers.list();
        let room = numbers.next();
        let expected = (numbers.next(), numbers.next());
        let list: Vec<u32> = numbers.list();
        let mut lent = vec![7; room as usize];
        let (number, value) = slots(bays, &rails, &start, &goal, &plan, &mut lent);
        assert_eq!(number, expected.0, "case {case}");
        assert_eq!(value, if number == 0 { list.len() as u64 } else { expected.1 }, "case {case}");
        assert_eq!(lent[..list.len()], list[..], "case {case}");
        assert!(lent[list.len()..].iter().all(|&slot| slot == 7), "case {case}");
    }
}

/// In these files "already" is 99.
fn told(number: u64) -> u64 {
    if number == 100 {
        99
    } else {
        number
    }
}

#[test]
fn reports_on_marks_of_the_vectors() {
    let text = text("../../crates/log_cases/data/report");
    let mut numbers = Numbers::of(&text);
    for case in 0..numbers.next() {
        let bays = numbers.next();
        let (rails, start, goal) = (numbers.list(), numbers.list(), numbers.list());
        let plan = numbers.list();
        let mut marks: Vec<u8> = numbers.list();
        let name = numbers.next();
        let expected = (numbers.next(), numbers.next());
        let (number, value) = report(bays, &rails, &start, &goal, &plan, &mut marks, name);
        assert_eq!((told(number), value), expected, "case {case}");
        assert_eq!(marks, numbers.list(), "case {case}");
    }
}

#[test]
fn reports_one_after_another_of_the_vectors() {
    let text = text("../../crates/log_cases/data/reports");
    let mut numbers = Numbers::of(&text);
    for case in 0..numbers.next() {
        let bays = numbers.next();
        let (rails, start, goal) = (numbers.list(), numbers.list(), numbers.list());
        let plan: Vec<u64> = numbers.list();
        let mut marks = vec![0; plan.len()];
        for _ in 0..numbers.next() {
            let name = numbers.next();
            let expected = (numbers.next(), numbers.next());
            let (number, value) = report(bays, &rails, &start, &goal, &plan, &mut marks, name);
            assert_eq!((told(number), value), expected, "case {case}, name {name}");
        }
        assert_eq!(marks, numbers.list(), "case {case}");
    }
}

#[test]
fn files_of_the_vectors() {
    let mut names: Vec<PathBuf> = std::fs::read_dir(here("../../tests/files")).unwrap().map(|f| f.unwrap().path()).collect();
    names.retain(|name| name.extension().is_some_and(|end| end == "out"));
    assert!(names.len() >= 251);
    for name in names {
        let read = |end: &str| std::fs::read(name.with_extension(end)).ok();
        let printed = program(read("map").as_deref(), read("scen").as_deref());
        assert_eq!(Some(printed), read("out"), "{}", name.display());
    }
}
