//! Tables of treatments made from random numbers: mostly sound, or one step from it.
use crate::random::Random;

/// The treatments that each type can have.
const ALLOWED: [&[u8]; 7] = [&[0, 1, 2], &[0, 1, 2], &[0], &[0], &[0, 1, 2], &[1, 2], &[0, 1]];

pub fn sound(random: &mut Random) -> Vec<u8> {
    let mut types: Vec<u8> = (0..7).collect();
    random.shuffle(&mut types);
    types.truncate(random.range(1, 7));
    let treatments: Vec<u8> = types.iter().map(|t| random.pick(ALLOWED[*t as usize])).collect();
    [vec![types.len() as u8], types, treatments].concat()
}

/// A sound one with a byte changed, moved, added or taken, or any bytes; it may be sound again.
pub fn any(random: &mut Random) -> Vec<u8> {
    let mut table = sound(random);
    let at = random.below(table.len());
    match random.below(8) {
        0 => table.truncate(at),
        1 => table.insert(at, random.below(4) as u8),
        2 => table.push(random.below(9) as u8),
        3 => table[0] = random.pick(&[0, 1, 2, 6, 7, 8, 15, 128, 255]),
        4..=5 => table[at] = random.below(9) as u8,
        6 => table[at] = table[random.below(table.len())],
        _ => {
            let n = random.below(18);
            table = (0..n).map(|_| random.below(9) as u8).collect();
        }
    }
    table
}

/// Every table of one to three small numbers, each type with each treatment among them.
pub fn small() -> impl Iterator<Item = Vec<u8>> {
    let one = (0..10).map(|a| vec![a]);
    let two = (0..10).flat_map(|a| (0..10).map(move |b| vec![a, b]));
    let three = (0..4).flat_map(|a| (0..10).flat_map(move |b| (0..5).map(move |c| vec![a, b, c])));
    one.chain(two).chain(three)
}
