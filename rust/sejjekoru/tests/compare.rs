//! The vectors of comparing two lists, through the library; and that what is handed back is a part of the list that was lent, at its place.

use sejjekoru::{compare, Carrier, Refusal};
use yards::compares::compares;

#[test]
fn compares_of_the_vectors() {
    let asked = |first: &[u64], second: &[u64], differences: &mut [i64]| match compare(first, second, differences) {
        Ok(compared) => (0, compared.equal as u64, compared.rest.to_vec()),
        Err(refusal) => (refusal.number(), refusal.carried().unwrap_or(0), Vec::new()),
    };
    assert_eq!(compares(include_str!("../../../tests/vectors/02/compare.txt"), asked), (250, 169));
}

#[test]
fn the_rest_is_a_part_of_the_longer_list() {
    let (first, second) = ([7 << 32, 8 << 32, 9 << 32], [7 << 32, 8 << 32, 1, 2]);
    let mut differences = [5; 254];
    let longer = compare(&first, &second, &mut differences).unwrap();
    assert!(longer.equal == 2 && std::ptr::eq(longer.rest, &second[2..]));
    let equal = compare(&first, &second[..3], &mut differences).unwrap();
    assert!(equal.equal == 2 && std::ptr::eq(equal.rest, &first[2..]));
    let same = compare(&first, &first, &mut differences).unwrap();
    assert!(same.equal == 3 && same.rest.is_empty() && differences == [0; 254]);
}

#[test]
fn refused_in_order() {
    let (long, bad, worse) = (vec![0; 65_537], [253 << 32, 254 << 32, 256 << 32], [255 << 32]);
    let mut none: [i64; 0] = [];
    assert_eq!(compare(&long, &bad, &mut none), Err(Refusal::Size));
    assert_eq!(compare(&bad, &long, &mut none), Err(Refusal::Size));
    assert_eq!(compare(&bad, &worse, &mut none), Err(Refusal::Start(Carrier(254))));
    assert_eq!(compare(&worse, &bad, &mut none), Err(Refusal::Start(Carrier(255))));
    assert_eq!(compare(&bad[..1], &worse, &mut none), Err(Refusal::Start(Carrier(255))));
    assert_eq!(compare(&bad[..1], &bad[..1], &mut none), Err(Refusal::Room(254)));
    let mut differences = [5; 255];
    assert_eq!(compare(&bad[..1], &bad[..1], &mut differences), Err(Refusal::Room(254)));
    assert!(differences == [5; 255]);
    assert!(compare(&long[1..], &long[1..], &mut differences[1..]).is_ok());
}
