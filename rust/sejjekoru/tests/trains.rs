//! Slots by either edition through the library: the vectors, and that edition 1 is `slots`.

use sejjekoru::{program_timed, slots, slots_of, trains, Refusal, Yard};
use std::fs;
use yards::editions;

#[test]
fn editions_of_the_vectors() {
    let ask = |edition: u64, bays: u64, rails: &[u16], start: &[u16], goal: &[u16], plan: &[u64], list: &mut [u32]| {
        trains::numbers(edition, Yard::new(bays, rails, start, goal), plan, list)
    };
    assert_eq!(editions::slots(include_str!("../../../tests/vectors/02/editions.txt"), &ask), (250, 0));
}

#[test]
fn y5_by_both_editions() {
    let yard = Yard::new(4, &[0, 1, 1, 2, 2, 3, 3, 0], &[0, 1], &[1, 2]);
    let plan = [1 << 32 | 1 << 16 | 2, 1];
    let (mut first, mut one, mut two) = ([0; 2], [0; 2], [0; 2]);
    assert_eq!(slots(yard, &plan, &mut first), Ok(2));
    assert_eq!(slots_of(1, yard, &plan, &mut one), Ok(2));
    assert_eq!(slots_of(2, yard, &plan, &mut two), Ok(2));
    assert_eq!((first, one, two), ([1, 2], [1, 2], [1, 1]));
}

/// 20 comes before 1: no yard has one bay.
#[test]
fn an_unknown_edition_is_refused_before_all_others() {
    let yard = Yard::new(1, &[], &[], &[]);
    for edition in [0, 3, u64::MAX] {
        assert_eq!(slots_of(edition, yard, &[], &mut []), Err(Refusal::Edition));
    }
    assert_eq!(slots_of(2, yard, &[], &mut []), Err(Refusal::Size));
}

/// Both prints of every pair of files, whole; one byte less of room, and nothing is written.
#[test]
fn timed_prints_of_the_vectors() {
    let folder = concat!(env!("CARGO_MANIFEST_DIR"), "/../../tests/vectors/02/timed");
    let mut run = 0;
    for file in fs::read_dir(folder).unwrap().map(|file| file.unwrap().path()) {
        if file.extension().is_none_or(|kind| kind != "map") {
            continue;
        }
        let (map, scenario) = (fs::read(&file).unwrap(), fs::read(file.with_extension("scen")).unwrap());
        for edition in [1, 2] {
            let expected = fs::read(file.with_extension(format!("timed{edition}"))).unwrap();
            let mut out = vec![7; expected.len() + 3];
            let room = expected.len() - 1;
            assert_eq!(
                program_timed(edition, Some(&map), Some(&scenario), false, &mut out[..room]),
                Err(Refusal::Room(expected.len() as u64))
            );
            assert!(out.iter().all(|&byte| byte == 7));
            assert_eq!(program_timed(edition, Some(&map), Some(&scenario), false, &mut out), Ok(expected.len()));
            assert_eq!(out[..expected.len()], expected, "{file:?}");
            assert_eq!(out[expected.len()..], [7; 3]);
            run += 1;
        }
    }
    assert_eq!(run, 120);
}

#[test]
fn an_unknown_edition_is_printed_before_any_file_is_looked_at() {
    let mut out = [0; 64];
    assert_eq!(program_timed(3, None, None, false, &mut out), Ok(13));
    assert_eq!(&out[..13], b"; refused 20\n");
    assert_eq!(program_timed(2, None, None, true, &mut out), Ok(15));
    assert_eq!(&out[..15], b"; refused 14 0\n");
}
