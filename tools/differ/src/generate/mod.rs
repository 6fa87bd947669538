//! Whole recordings made from random numbers: mostly sound, and now and then with one of the faults that only the whole can have.
mod bus;
mod clocks;
mod data;
mod groups;
mod limits;
mod metadata;
mod photos;
mod version;

use crate::blocks::{Draft, Id, Image, HD};
use crate::random::Random;

pub use limits::many_blocks;
pub use photos::image as photos;

/// Block sizes that conversions are tried with.
pub const SIZES: [u64; 6] = [1, 7, 64, 100, 1000, 4_194_304];

/// An image of a seed before it is damaged.
pub fn image(random: &mut Random) -> Image {
    if random.percent(2) {
        return limits::image(random);
    }
    let draft = Maker::new(random).recording();
    let image = draft.place_anyhow(random);
    let sum = image.bytes.iter().map(|&b| b as u64).sum::<u64>();
    if image.bytes.len() < LONG || sum % 8 > 0 {
        return image;
    }
    // numbers of its own, so that all other images of a seed stay as they are
    let mut own = Random::of(sum, image.bytes.len() as u64);
    let draft = Maker::new(&mut own).bus();
    draft.place_anyhow(&mut own)
}

/// An image whose groups share clocks on purpose, before it is damaged.
pub fn clocks(random: &mut Random) -> Image {
    let draft = Maker::new(random).clocks();
    draft.place_anyhow(random)
}

/// Some images of at least so many bytes give way to recordings of many groups.
const LONG: usize = 7_000;

/// A recording being made.
pub struct Maker<'a> {
    random: &'a mut Random,
    draft: Draft,
    /// Metadata blocks that further links may lead to.
    shared: Vec<Id>,
    /// CG made so far.
    groups: Vec<Id>,
    /// How many records a group mostly has, so that remote masters often agree.
    usual: usize,
    /// Number of the last name given.
    named: usize,
    /// How often of a hundred a DG's data ends in a part record.
    parts: usize,
}

impl<'a> Maker<'a> {
    fn new(random: &'a mut Random) -> Maker<'a> {
        let usual = random.pick(&[0, 1, 3, 5, 8, 9, 20]);
        Maker { random, draft: Draft::new(), shared: Vec::new(), groups: Vec::new(), usual, named: 0, parts: 2 }
    }

    fn recording(mut self) -> Draft {
        self.record();
        self.draft
    }

    fn record(&mut self) {
        self.draft.version = version::any(self.random);
        self.header();
        let n = self.random.pick(&[0, 1, 1, 1, 1, 1, 1, 1, 1, 1, 1, 2, 2, 2, 2, 2, 3, 3, 4]);
        if n > 1 {
            self.draft.mark("several DG");
        }
        let data_groups: Vec<Id> = (0..n).map(|_| self.data_group()).collect();
        self.chain_up(HD, &data_groups);
        self.remote_masters();
        self.reserved_bytes();
    }

    fn reserved_bytes(&mut self) {
        if self.random.percent(10) {
            self.draft.mark("reserved bytes that aren't zero");
            self.draft.blocks.iter_mut().for_each(|b| b.reserved = self.random.word() as u32);
        }
    }

    fn header(&mut self) {
        let hd = &mut self.draft.blocks[HD];
        if self.random.percent(10) {
            hd.links.resize(self.random.range(6, 8), None);
            hd.data = self.random.bytes(40);
            hd.data.truncate(self.random.below(41));
        } else {
            hd.data = self.random.bytes(32);
        }
        self.draft.blocks[HD].links[5] = self.metadata(30);
        self.draft.blocks[HD].links[1] = self.history();
        self.draft.blocks[HD].links[3] = self.attachments();
    }

    /// Makes a chain of blocks: the parent's first link, then each block's.
    fn chain_up(&mut self, parent: Id, blocks: &[Id]) {
        self.chain_from(parent, 0, blocks);
    }

    /// The same with another link of the parent.
    fn chain_from(&mut self, parent: Id, link: usize, blocks: &[Id]) {
        let Some(&first) = blocks.first() else { return };
        self.draft.blocks[parent].links[link] = Some(first);
        for pair in blocks.windows(2) {
            self.draft.blocks[pair[0]].links[0] = Some(pair[1]);
        }
    }
}
