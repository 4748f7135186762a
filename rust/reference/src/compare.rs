//! Request E4 of document 02: two lists of crossings, legal or not, are compared.

use crate::crossing::Crossing;
use crate::docket::Refusal;
use crate::yard::MOST_CROSSINGS;

/// Carrier numbers are 0 to 253.
const CARRIERS: usize = 254;

/// The number of equal leading crossings, and the rest of the longer list, or of the first, from there on. Tests 1, 5 and 8.
pub fn compare<'a>(first: &'a [u64], second: &'a [u64], differences: &mut [i64]) -> Result<(u64, &'a [u64]), Refusal> {
    if first.len().max(second.len()) > MOST_CROSSINGS {
        return Err(Refusal::Size);
    }
    if let Some(carrier) = carriers(first).chain(carriers(second)).find(|&carrier| carrier >= CARRIERS) {
        return Err(Refusal::Start(carrier as u64));
    }
    let Ok(differences) = <&mut [i64; CARRIERS]>::try_from(differences) else {
        return Err(Refusal::Room(CARRIERS as u64));
    };
    differences.fill(0);
    carriers(second).for_each(|carrier| differences[carrier] += 1);
    carriers(first).for_each(|carrier| differences[carrier] -= 1);
    let equal = first.iter().zip(second).take_while(|(one, other)| one == other).count();
    let longer = if second.len() > first.len() { second } else { first };
    Ok((equal as u64, &longer[equal..]))
}

fn carriers(list: &[u64]) -> impl Iterator<Item = usize> + '_ {
    list.iter().map(|&number| Crossing::read(number).carrier as usize)
}
