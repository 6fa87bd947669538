//! Blocks of a recording before they have addresses, the image that they become, and fields read from an image.
use crate::random::Random;
use std::collections::BTreeSet;

/// A block of a draft, by its position there.
pub type Id = usize;
pub type Link = Option<Id>;
/// The two letters after `##`.
pub type Kind = [u8; 2];

/// The header block, which every draft begins with.
pub const HD: Id = 0;

pub struct Block {
    pub kind: Kind,
    pub links: Vec<Link>,
    pub data: Vec<u8>,
    pub reserved: u32,
    /// What the header says where it isn't the block's own length or number of links.
    pub length: Option<u64>,
    pub count: Option<u64>,
}

/// A recording whose blocks have no addresses yet, and what it holds, for the table of what was reached.
pub struct Draft {
    pub version: [u8; 8],
    pub blocks: Vec<Block>,
    pub marks: BTreeSet<String>,
}

/// Where a block of the draft stands in the image.
#[derive(Clone)]
pub struct Place {
    pub at: usize,
    pub kind: Kind,
    pub links: usize,
    pub len: usize,
}

#[derive(Clone)]
pub struct Image {
    pub bytes: Vec<u8>,
    pub places: Vec<Place>,
    pub marks: BTreeSet<String>,
}

impl Draft {
    pub fn new() -> Draft {
        let mut draft = Draft { version: *b"4.10    ", blocks: Vec::new(), marks: BTreeSet::new() };
        draft.add(*b"HD", vec![None; 6], vec![0; 32]);
        draft
    }

    pub fn add(&mut self, kind: Kind, links: Vec<Link>, data: Vec<u8>) -> Id {
        self.blocks.push(Block { kind, links, data, reserved: 0, length: None, count: None });
        self.blocks.len() - 1
    }

    pub fn mark(&mut self, what: impl Into<String>) {
        self.marks.insert(what.into());
    }

    /// Every block at a multiple of 8 in the order in which it was added.
    pub fn place(self) -> Image {
        let order: Vec<Id> = (1..self.blocks.len()).collect();
        self.place_by(&order, |_| (0, 0))
    }

    /// The blocks after HD in some order, mostly at multiples of 8.
    pub fn place_anyhow(mut self, random: &mut Random) -> Image {
        let mut order: Vec<Id> = (1..self.blocks.len()).collect();
        match random.below(4) {
            0 => order.reverse(),
            1 | 2 => random.shuffle(&mut order),
            _ => {}
        }
        let odd = random.percent(20);
        if odd {
            self.mark("blocks at addresses that aren't multiples of 8");
        }
        let fill = if random.percent(30) { 0xff } else { 0 };
        self.place_by(&order, |_| (if odd { random.below(12) } else { 0 }, fill))
    }

    // `gap` gives bytes before a block beyond those up to a multiple of 8, and what they hold; a gap that isn't 0 ends the alignment.
    fn place_by(self, order: &[Id], mut gap: impl FnMut(Id) -> (usize, u8)) -> Image {
        let mut at = vec![64; self.blocks.len()];
        let mut end = 64 + self.blocks[HD].size();
        let mut fills = Vec::new();
        for &id in order {
            let (extra, fill) = gap(id);
            let start = if extra == 0 { end.next_multiple_of(8) } else { end + extra - 1 };
            fills.push((end, start, fill));
            at[id] = start;
            end = start + self.blocks[id].size();
        }
        let mut bytes = vec![0; end];
        fills.iter().for_each(|&(from, to, fill)| bytes[from..to].fill(fill));
        bytes[..64].copy_from_slice(&identification(&self.version));
        for (id, b) in self.blocks.iter().enumerate() {
            b.write(&mut bytes[at[id]..], &at);
        }
        let places = self.blocks.iter().zip(&at).map(|(b, &at)| Place { at, kind: b.kind, links: b.links.len(), len: b.size() }).collect();
        Image { bytes, places, marks: self.marks }
    }
}

impl Block {
    fn size(&self) -> usize {
        24 + 8 * self.links.len() + self.data.len()
    }

    fn write(&self, to: &mut [u8], at: &[usize]) {
        to[..4].copy_from_slice(&[b'#', b'#', self.kind[0], self.kind[1]]);
        to[4..8].copy_from_slice(&self.reserved.to_le_bytes());
        put_word(to, 8, self.length.unwrap_or(self.size() as u64));
        put_word(to, 16, self.count.unwrap_or(self.links.len() as u64));
        for (i, link) in self.links.iter().enumerate() {
            put_word(to, 24 + 8 * i, link.map_or(0, |id| at[id] as u64));
        }
        let from = 24 + 8 * self.links.len();
        to[from..from + self.data.len()].copy_from_slice(&self.data);
    }
}

fn identification(version: &[u8; 8]) -> [u8; 64] {
    let mut id = [0; 64];
    id[..8].copy_from_slice(b"MDF     ");
    id[8..16].copy_from_slice(version);
    id[16..24].copy_from_slice(b"differ  ");
    id
}

pub fn put_word(to: &mut [u8], at: usize, x: u64) {
    to[at..at + 8].copy_from_slice(&x.to_le_bytes());
}

/// The bytes of a little-endian field; one past the end reads as 0.
pub fn field(image: &[u8], at: usize, bytes: usize) -> u64 {
    (0..bytes).rev().fold(0, |x, i| x << 8 | image.get(at.wrapping_add(i)).copied().unwrap_or(0) as u64)
}

pub fn word(image: &[u8], at: usize) -> u64 {
    field(image, at, 8)
}

pub fn kind_at(image: &[u8], at: usize) -> &[u8] {
    image.get(at..at.saturating_add(4)).unwrap_or(b"")
}

pub fn link_count(image: &[u8], at: usize) -> u64 {
    word(image, at.wrapping_add(16))
}

/// Link `i` of a block, from 0; 0 where it has none.
pub fn link(image: &[u8], at: usize, i: usize) -> usize {
    if (i as u64) < link_count(image, at) {
        word(image, at.wrapping_add(24 + 8 * i)) as usize
    } else {
        0
    }
}

/// A field of a block's data, which begins after its links.
pub fn data_field(image: &[u8], at: usize, offset: usize, bytes: usize) -> u64 {
    let links = link_count(image, at).min(image.len() as u64) as usize;
    field(image, at.wrapping_add(24 + 8 * links + offset), bytes)
}
