//! Damage: edits of an image's bytes that know where its blocks, links and fields are.
use crate::blocks::{Image, Kind, Place};
use crate::random::Random;

#[derive(Clone, Debug)]
pub enum Edit {
    Put { at: usize, bytes: Vec<u8> },
    Cut(usize),
}

impl Edit {
    pub fn apply(&self, image: &mut Vec<u8>) {
        match self {
            Edit::Cut(n) => image.truncate(*n),
            Edit::Put { at, bytes } => image.iter_mut().skip(*at).zip(bytes).for_each(|(to, b)| *to = *b),
        }
    }
}

/// The edits of one image: mostly none or one.
pub fn some(image: &Image, random: &mut Random) -> Vec<Edit> {
    let n = random.pick(&[0, 0, 0, 0, 0, 0, 0, 0, 0, 1, 1, 1, 1, 1, 1, 1, 2, 2, 3]);
    (0..n).map(|_| one(image, random)).collect()
}

fn one(image: &Image, random: &mut Random) -> Edit {
    let block = &image.places[random.below(image.places.len())];
    match random.below(100) {
        0..=4 => Edit::Cut(cut(image, block, random)),
        5..=14 => bit(image, block, random),
        15..=17 => Edit::Put { at: random.below(image.bytes.len()), bytes: vec![random.word() as u8] },
        18..=41 if block.links > 0 => redirect(image, block, random),
        42..=51 => word_at(block.at + 8, length(image, block, random)),
        52..=60 => word_at(block.at + 16, links(block, random)),
        61..=65 => Edit::Put { at: block.at + 2, bytes: kind(random).to_vec() },
        66..=71 => circle(image, random),
        72..=76 => data_kind(image, random),
        77..=79 => attachment(image, random),
        80..=83 => equal_ids(image, random),
        _ => known_field(image, random),
    }
}

/// A block of one of the kinds. An edit that finds none cuts the image short instead.
fn one_of<'a>(image: &'a Image, kinds: &[&Kind], random: &mut Random) -> Option<&'a Place> {
    let all: Vec<&Place> = image.places.iter().filter(|p| kinds.contains(&&p.kind)).collect();
    (!all.is_empty()).then(|| random.pick(&all))
}

fn word_at(at: usize, x: u64) -> Edit {
    Edit::Put { at, bytes: x.to_le_bytes().to_vec() }
}

/// A bit anywhere, in identification and HD, or at the beginning of a block.
fn bit(image: &Image, block: &Place, random: &mut Random) -> Edit {
    let at = match random.below(3) {
        0 => random.below(image.bytes.len()),
        1 => random.below(168),
        _ => block.at + random.below(block.len.min(64)),
    };
    Edit::Put { at, bytes: vec![image.bytes.get(at).map_or(0, |b| b ^ (1 << random.below(8)))] }
}

fn cut(image: &Image, block: &Place, random: &mut Random) -> usize {
    match random.below(4) {
        0 => random.below(image.bytes.len()),
        1 => image.bytes.len() - 1,
        2 => block.at + random.below(25),
        _ => block.at + random.below(block.len),
    }
}

/// A link to another block, into the middle of one, around the image's end, back to itself or to a block of its kind.
fn redirect(image: &Image, block: &Place, random: &mut Random) -> Edit {
    let at = block.at + 24 + 8 * random.below(block.links.min(9));
    let other = &image.places[random.below(image.places.len())];
    let alike: Vec<&Place> = image.places.iter().filter(|p| p.kind == block.kind).collect();
    let n = image.bytes.len();
    let to = match random.below(14) {
        0..=5 => other.at,
        6 => other.at + random.pick(&[1, 4, 8, 16, 24, 32]),
        7 => n - random.below(30).min(n),
        8 => n + random.below(30),
        9 => block.at,
        10..=11 => random.pick(&alike).at,
        12 => random.pick(&[0, 8, 64, 1 << 20, 1 << 40, usize::MAX - 7, usize::MAX]),
        _ => 0,
    };
    word_at(at, to as u64)
}

fn length(image: &Image, block: &Place, random: &mut Random) -> u64 {
    let len = block.len as u64;
    let to_end = (image.bytes.len() - block.at) as u64;
    match random.below(12) {
        0 => len + 1,
        1 => len - 1,
        2 => len + 8,
        3 => len - 8,
        4 => random.below(25) as u64,
        5 => to_end,
        6 => to_end + 1,
        7 => 24 + 8 * block.links as u64,
        8 => 24 + random.below(200) as u64,
        9 => random.pick(&[1 << 28, (1 << 28) + 1, 1 << 32]),
        10 => random.pick(&[1 << 24, 1 << 36, 1 << 40]),
        _ => random.pick(&[1 << 62, 1 << 63, u64::MAX - 7, u64::MAX]),
    }
}

fn links(block: &Place, random: &mut Random) -> u64 {
    let n = block.links as u64;
    match random.below(8) {
        0 => n + 1,
        1 => n.saturating_sub(1),
        2 => 0,
        3 => ((block.len - 24) / 8) as u64,
        4 => ((block.len - 24) / 8) as u64 + 1,
        5 => random.below(12) as u64,
        6 => random.pick(&[1 << 25, (1 << 25) - 3, 1 << 32]),
        _ => random.pick(&[1 << 61, (1 << 61) - 3, u64::MAX]),
    }
}

fn kind(random: &mut Random) -> Kind {
    let known: [&Kind; 18] =
        [b"HD", b"DG", b"CG", b"CN", b"DT", b"DV", b"DL", b"HL", b"SD", b"DZ", b"TX", b"MD", b"CC", b"SI", b"FH", b"AT", b"CA", b"\xc3\xa4"];
    *random.pick(&known)
}

/// A chain that returns: the next block of a DG, CG, CN, DL, HL, FH, AT or CC is itself or another of its kind.
fn circle(image: &Image, random: &mut Random) -> Edit {
    let Some(block) = one_of(image, &[b"DG", b"CG", b"CN", b"DL", b"HL", b"FH", b"AT", b"CC"], random) else { return Edit::Cut(100) };
    let to = if random.percent(30) { Some(block) } else { one_of(image, &[&block.kind], random) };
    word_at(block.at + 24, to.map_or(0, |p| p.at as u64))
}

/// Another kind for a block of a data chain.
fn data_kind(image: &Image, random: &mut Random) -> Edit {
    let Some(block) = one_of(image, &[b"DT", b"DV", b"SD", b"DL", b"HL"], random) else { return Edit::Cut(64) };
    let kind: &Kind = random.pick(&[b"DT", b"DV", b"DV", b"SD", b"DL", b"DZ"]);
    Edit::Put { at: block.at + 2, bytes: kind.to_vec() }
}

/// Length and number of links of an AT.
fn attachment(image: &Image, random: &mut Random) -> Edit {
    let Some(block) = one_of(image, &[b"AT"], random) else { return Edit::Cut(80) };
    let n: u64 = random.pick(&[0, 3, 4, 5, 1 << 25, (1 << 25) - 3, 1 << 60]);
    let len = random.pick(&[block.len as u64, 24, 24 + 8 * n, 23 + 8 * n, 1 << 28, 1 << 40]);
    Edit::Put { at: block.at + 8, bytes: [len.to_le_bytes(), n.to_le_bytes()].concat() }
}

/// The record id of another CG.
fn equal_ids(image: &Image, random: &mut Random) -> Edit {
    let (Some(a), Some(b)) = (one_of(image, &[b"CG"], random), one_of(image, &[b"CG"], random)) else { return Edit::Cut(168) };
    let data = |p: &Place| p.at + 24 + 8 * p.links;
    Edit::Put { at: data(a), bytes: image.bytes[data(b)..data(b) + 8].to_vec() }
}

/// A field that reading or planning looks at, in the data of a DG, CG or CN; or the version.
fn known_field(image: &Image, random: &mut Random) -> Edit {
    let version = Edit::Put { at: 8 + random.below(8), bytes: vec![random.pick(b"0123456789.+- \0\t\x80\xc2x")] };
    let Some(block) = one_of(image, &[b"DG", b"CG", b"CN"], random).filter(|_| random.percent(95)) else { return version };
    let (offset, bytes) = match &block.kind {
        b"DG" => (0, vec![random.pick(&[0, 1, 2, 3, 4, 5, 8, 9, 16])]),
        b"CG" => group_field(random),
        _ => channel_field(random),
    };
    Edit::Put { at: block.at + 24 + 8 * block.links + offset, bytes }
}

/// Record id, flags, samples, invalidation bytes.
fn group_field(random: &mut Random) -> (usize, Vec<u8>) {
    let few = random.below(12) as u32;
    let many = random.pick(&[200, 1 << 16, 1 << 31, u32::MAX]);
    let size = if random.percent(80) { few } else { many };
    match random.below(5) {
        0..=1 => (0, (random.below(5) as u64).to_le_bytes().to_vec()),
        2 => (16, vec![random.below(16) as u8]),
        3 => (24, size.to_le_bytes().to_vec()),
        _ => (28, size.to_le_bytes().to_vec()),
    }
}

/// Type, bit offset, byte offset, bits, flags, position of the invalidation bit.
fn channel_field(random: &mut Random) -> (usize, Vec<u8>) {
    let few = random.below(40) as u32;
    let size = if random.percent(80) { few } else { random.pick(&[200, 1 << 16, 1 << 31, u32::MAX]) };
    match random.below(6) {
        0 => (0, vec![random.below(8) as u8]),
        1 => (3, vec![random.below(10) as u8]),
        2 => (12, vec![random.below(4) as u8]),
        3 => (4, size.to_le_bytes().to_vec()),
        4 => (8, size.to_le_bytes().to_vec()),
        _ => (16, size.to_le_bytes().to_vec()),
    }
}
