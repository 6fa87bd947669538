//! Edits of what planning looks at in a channel: its type, where it lies, and what its links 2 and 6 lead to.
use crate::blocks::{Image, Kind, Place};
use crate::edit::Edit;
use crate::random::Random;

/// Up to three of them, for every other image.
pub fn some(image: &Image, random: &mut Random) -> Vec<Edit> {
    let channels: Vec<&Place> = image.places.iter().filter(|p| p.kind == *b"CN").collect();
    if channels.is_empty() || random.percent(50) {
        return Vec::new();
    }
    (0..random.range(1, 3)).map(|_| one(image, random.pick(&channels), random)).collect()
}

fn one(image: &Image, cn: &Place, random: &mut Random) -> Edit {
    let data = cn.at + 24 + 8 * cn.links;
    match random.below(10) {
        0..=3 => Edit::Put { at: data, bytes: vec![random.below(8) as u8] },
        4 => Edit::Put { at: data + 4, bytes: random.pick(&[0, 1, 40, u32::MAX]).to_le_bytes().to_vec() },
        5..=6 => led_to(cn, 1, image, &[b"CA", b"CN", b"TX"], random),
        _ => led_to(cn, 5, image, &[b"CG", b"SD", b"DL", b"HL", b"DT"], random),
    }
}

/// A link, from 0, to a block of one of the kinds, past the image's end, or to nothing.
fn led_to(cn: &Place, i: usize, image: &Image, kinds: &[&Kind], random: &mut Random) -> Edit {
    let kind = random.pick(kinds);
    let all: Vec<usize> = image.places.iter().filter(|p| p.kind == *kind).map(|p| p.at).collect();
    let past = image.bytes.len() - random.below(24) + random.pick(&[0, 24, 1 << 20]);
    let to = match random.below(4) {
        0 => past,
        1 => 0,
        _ if all.is_empty() => past,
        _ => random.pick(&all),
    };
    Edit::Put { at: cn.at + 24 + 8 * i, bytes: (to as u64).to_le_bytes().to_vec() }
}
