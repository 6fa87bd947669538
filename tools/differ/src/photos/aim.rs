//! Edits of references and attachments: where a reference leads, how many there are, how many links a channel has, what its attachments look like.
use crate::blocks::{Image, Kind, Place};
use crate::edit::Edit;
use crate::random::Random;

/// One or two of them, for one image in five.
pub fn some(image: &Image, random: &mut Random) -> Vec<Edit> {
    let n = if random.percent(20) { random.range(1, 2) } else { 0 };
    (0..n).filter_map(|_| one(image, random)).collect()
}

fn one(image: &Image, random: &mut Random) -> Option<Edit> {
    match random.below(10) {
        0..=4 => {
            let cn = random_of(image, b"CN", random)?;
            let i = (cn.links > 8).then(|| random.range(8, cn.links - 1))?;
            Some(word(cn.at + 24 + 8 * i, led_to(image, random)))
        }
        5 => {
            let cn = random_of(image, b"CN", random)?;
            let count = [cn.links as u16 - 7, cn.links as u16 - 8, 0, 1, u16::MAX];
            Some(Edit::Put { at: cn.at + 24 + 8 * cn.links + 22, bytes: random.pick(&count).to_le_bytes().to_vec() })
        }
        6 => random_of(image, b"CN", random).map(|cn| word(cn.at + 16, cn.links as u64 - 1)),
        7 => random_of(image, b"AT", random).map(|at| word(at.at + 24, led_to(image, random))),
        8 => {
            let at = random_of(image, b"AT", random)?;
            let (length, links) = (at.len as u64, at.links as u64);
            let wrong =
                [(length, 3), (55, links), (1 << 20, links), (1 << 40, links), (1 << 40, (1 << 25) - 3), (1 << 40, (1 << 25) - 2), (length, 1 << 25)];
            let (length, links): (u64, u64) = random.pick(&wrong);
            Some(Edit::Put { at: at.at + 8, bytes: [length.to_le_bytes(), links.to_le_bytes()].concat() })
        }
        _ => Some(word(64 + 24 + 24, led_to(image, random))),
    }
}

fn word(at: usize, x: u64) -> Edit {
    Edit::Put { at, bytes: x.to_le_bytes().to_vec() }
}

fn random_of<'a>(image: &'a Image, kind: &Kind, random: &mut Random) -> Option<&'a Place> {
    let all: Vec<&Place> = image.places.iter().filter(|p| p.kind == *kind).collect();
    (!all.is_empty()).then(|| random.pick(&all))
}

/// An attachment, into one, another block, around the image's end, far past it, nothing.
fn led_to(image: &Image, random: &mut Random) -> u64 {
    let n = image.bytes.len() as u64;
    let at = random_of(image, b"AT", random).map_or(0, |p| p.at as u64);
    match random.below(10) {
        0..=2 => at,
        3 => at + random.pick(&[1, 8, 24]),
        4..=5 => image.places[random.below(image.places.len())].at as u64,
        6 => n - random.below(24) as u64,
        7 => n + random.below(24) as u64,
        8 => random.pick(&[1 << 20, 1 << 32, (1 << 32) + at, 1 << 63, u64::MAX - 7, u64::MAX]),
        _ => 0,
    }
}
