//! Printed plans and files of reported names, sound and damaged: what the library reads is held against the reference, and what it prints reads back.

use sejjekoru::prints;
use yards::Dice;

const FILES: u64 = 60_000;

/// How often each number came up; every one of them has to.
pub fn run() {
    let mut counts = [0u64; 28];
    for seed in 0..FILES {
        let mut dice = Dice::new(0x0900_0000 + seed);
        let plan = list(&mut dice);
        let mut file = vec![0; 40 * plan.len() + 40];
        let (number, written) = prints::print_plan_numbers(&plan, &mut file);
        file.truncate(written as usize);
        let mut back = vec![u64::MAX; plan.len()];
        let again = prints::read_plan_numbers(&file, &mut back);
        assert_eq!((number, again), (0, (0, plan.len() as u64)), "seed {seed}");
        assert_eq!(back, plan, "seed {seed}");
        damage(&mut dice, &mut file);
        counts[compare(&mut dice, &file, plan.len(), prints::read_plan_numbers, reference::read_plan)] += 1;
        let mut names: Vec<u8> = plan.iter().flat_map(|w| format!("{}\n", w >> 32).into_bytes()).collect();
        damage(&mut dice, &mut names);
        counts[compare(&mut dice, &names, plan.len(), prints::read_reports_numbers, reference::read_reports)] += 1;
    }
    println!("read plans and reports: {FILES} of each agree; 0: {}, 8: {}, 26: {}, 27: {}", counts[0], counts[8], counts[26], counts[27]);
    assert!([0, 8, 26, 27].iter().all(|&n| counts[n] > 0), "some answer never came up");
}

type Reader = fn(&[u8], &mut [u64]) -> (u64, u64);

/// The number that both answer, with the same value and the same list.
fn compare(dice: &mut Dice, file: &[u8], count: usize, ours: Reader, due: Reader) -> usize {
    let room = dice.pick(&[count, count, count + 2, count.saturating_sub(1), 0]);
    let (mut a, mut b) = (vec![7; room], vec![7; room]);
    let told = ours(file, &mut a);
    assert_eq!(told, due(file, &mut b), "{:?}", String::from_utf8_lossy(file));
    assert_eq!(a, b, "{:?}", String::from_utf8_lossy(file));
    told.0 as usize
}

fn list(dice: &mut Dice) -> Vec<u64> {
    let count = dice.below(6);
    (0..count)
        .map(|_| {
            let (c, a, b) = (dice.pick(&[0, 7, 99, 4_294_967_295u64]), dice.pick(&[0, 9, 10, 65_535u64]), dice.pick(&[1, 255, 65_535u64]));
            c << 32 | a << 16 | b
        })
        .collect()
}

/// Some files stay sound; others get CR LF, a byte changed, dropped or doubled, or their end cut off.
fn damage(dice: &mut Dice, file: &mut Vec<u8>) {
    if dice.below(3) == 0 {
        *file = file.iter().flat_map(|&b| if b == b'\n' { vec![b'\r', b'\n'] } else { vec![b] }).collect();
    }
    for _ in 0..dice.pick(&[0, 0, 1, 2]) {
        if file.is_empty() {
            return;
        }
        let at = dice.below(file.len());
        match dice.below(5) {
            0 => file[at] = dice.pick(&[b'0', b'9', b' ', b'\n', b'\r', b';', b'(', b')', b'b', b'c', 0, 255]),
            1 => drop(file.remove(at)),
            2 => file.insert(at, file[at]),
            3 => file.truncate(at),
            _ => file.insert(at, dice.pick(&[b'0', b'6', b' ', b'\n', b'\r', b';'])),
        }
    }
}
