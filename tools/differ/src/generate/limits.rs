//! Images around document 01's limits: 512 DG, CG and CN, 1,024 fragments, 2,048 copied blocks, 64 attachments, 256 DL and HL in one chain, and sums
//! and products past 64 bits.
use super::Maker;
use crate::blocks::{Draft, Id, Image, Kind, Link, HD};
use crate::random::Random;

pub fn image(random: &mut Random) -> Image {
    record(random).draft.place()
}

pub fn record(random: &mut Random) -> Maker<'_> {
    let near = random.pick(&[-1, 0, 0, 1, 1, 2]);
    let count = |limit: i64| (limit + near) as usize;
    let mut m = Maker::new(random);
    match m.random.below(10) {
        0 => m.data_groups(count(512)),
        1 => m.channel_groups(count(512)),
        2 => m.channels(count(512)),
        3 => m.listed_fragments(count(1024)),
        4 => m.fragments_of_signals(count(1024)),
        5 => m.copied_blocks(count(2048)),
        6 => m.many_attachments(count(64)),
        7 => m.long_chain(count(256)),
        8 => m.wrapping_column(),
        _ => m.wide_sums(),
    }
    m.draft.mark("counts around a limit");
    m
}

/// One group of one-byte records over a fragment of so many bytes, listed 1,024 times, whose header ends the image; and the address of its CN.
pub fn many_blocks(bytes: u64) -> (Image, u64) {
    let mut draft = Draft::new();
    let dl = draft.add(*b"DL", vec![], vec![]);
    let dg = draft.one_group(Some(dl), 1);
    draft.blocks[HD].links[0] = Some(dg);
    let dt = draft.add(*b"DT", vec![], vec![]);
    draft.blocks[dt].length = Some(24 + bytes);
    draft.blocks[dl].links = std::iter::once(None).chain(std::iter::repeat(Some(dt)).take(1024)).collect();
    let image = draft.place();
    let cn = image.places[dg - 2].at as u64;
    (image, cn)
}

fn channel_data(kind: u8, bits: u8) -> Vec<u8> {
    let mut data = vec![0; 72];
    data[0] = kind;
    data[8] = bits;
    data
}

fn group_data(id: u16, samples: u8, inval: u8) -> Vec<u8> {
    let mut data = vec![0; 32];
    data[..2].copy_from_slice(&id.to_le_bytes());
    data[24] = samples;
    data[28] = inval;
    data
}

impl Draft {
    /// A DG of one group with one channel of samples bytes over a data link.
    fn one_group(&mut self, data: Link, samples: u8) -> Id {
        let cn = self.add(*b"CN", vec![None; 8], channel_data(0, 8 * samples));
        let cg = self.add(*b"CG", vec![None, Some(cn), None, None, None, None], group_data(0, samples, 0));
        self.add(*b"DG", vec![None, Some(cg), data, None], vec![0; 8])
    }
}

impl Maker<'_> {
    fn head(&mut self, dg: Id) {
        self.draft.blocks[HD].links[0] = Some(dg);
    }

    /// Now and then the last of a chain has a fault that is met only after the limit.
    fn data_groups(&mut self, n: usize) {
        let all: Vec<Id> = (0..n).map(|_| self.draft.add(*b"DG", vec![None; 4], vec![0; 8])).collect();
        if self.random.percent(30) {
            self.draft.blocks[all[n - 1]].data[0] = 3;
        }
        self.chain_up(HD, &all);
    }

    fn channel_groups(&mut self, n: usize) {
        let all: Vec<Id> = (0..n).map(|i| self.draft.add(*b"CG", vec![None; 6], group_data(i as u16, 1, 0))).collect();
        let half = self.draft.add(*b"DG", vec![None; 4], vec![2; 8]);
        let rest = self.draft.add(*b"DG", vec![None; 4], vec![2; 8]);
        let at = self.random.range(1, n - 1);
        self.chain_from(half, 1, &all[..at]);
        self.chain_from(rest, 1, &all[at..]);
        self.chain_up(HD, &[half, rest]);
    }

    fn channels(&mut self, n: usize) {
        let kind = self.random.pick(&[0, 2, 4]);
        let all: Vec<Id> = (0..n).map(|i| self.named_channel(i, channel_data(kind, 8))).collect();
        let samples = self.random.pick(&[0, 1]);
        let first = self.draft.add(*b"CG", vec![None; 6], group_data(1, samples, 0));
        let second = self.draft.add(*b"CG", vec![None; 6], group_data(2, samples, 0));
        let at = self.random.range(1, n - 1);
        self.chain_from(first, 1, &all[..at]);
        self.chain_from(second, 1, &all[at..]);
        let dg = self.draft.add(*b"DG", vec![None; 4], vec![1; 8]);
        self.chain_from(dg, 1, &[first, second]);
        self.head(dg);
    }

    fn named_channel(&mut self, i: usize, data: Vec<u8>) -> Id {
        let name = self.draft.add(*b"TX", vec![], format!("c{i}").into_bytes());
        let cn = self.draft.add(*b"CN", vec![None; 8], data);
        self.draft.blocks[cn].links[2] = Some(name);
        cn
    }

    /// One fragment listed n times by one DL or by the chains of two DG.
    fn listed_fragments(&mut self, n: usize) {
        let samples = self.random.range(0, 2);
        let dt = self.draft.add(*b"DT", vec![], vec![5; 2]);
        let at = if self.random.percent(50) { n } else { self.random.range(1, n - 1) };
        let parts: Vec<Id> = [at, n - at].iter().map(|&k| self.listing(dt, k)).collect();
        let all: Vec<Id> = parts.iter().map(|&dl| self.draft.one_group(Some(dl), samples as u8)).collect();
        self.chain_up(HD, &all);
    }

    fn listing(&mut self, fragment: Id, times: usize) -> Id {
        let links = std::iter::once(None).chain(std::iter::repeat(Some(fragment)).take(times)).collect();
        self.draft.add(*b"DL", links, vec![0; 16])
    }

    /// One SD chain of many fragments that two channels share.
    fn fragments_of_signals(&mut self, n: usize) {
        let sd = self.draft.add(*b"SD", vec![], vec![6]);
        let (a, b) = (self.listing(sd, n / 2), self.listing(sd, n - n / 2));
        let mut channels = Vec::new();
        for dl in [a, b] {
            let cn = self.draft.add(*b"CN", vec![None; 8], channel_data(1, 8));
            self.draft.blocks[cn].links[5] = Some(dl);
            channels.push(cn);
        }
        let cg = self.draft.add(*b"CG", vec![None; 6], group_data(0, 1, 0));
        self.chain_from(cg, 1, &channels);
        let dg = self.draft.add(*b"DG", vec![None, Some(cg), None, None], vec![0; 8]);
        self.head(dg);
    }

    /// A block over n - 1 texts, from the HD comment, the history or an attachment.
    fn copied_blocks(&mut self, n: usize) {
        let mut links: Vec<Link> = (1..n).map(|_| Some(self.draft.add(*b"TX", vec![], vec![]))).collect();
        match self.random.below(3) {
            0 => {
                let si = self.draft.add(*b"SI", links, vec![]);
                self.draft.blocks[HD].links[5] = Some(si);
            }
            1 => {
                links.insert(0, None);
                let fh = self.draft.add(*b"FH", links, vec![0; 16]);
                self.draft.blocks[HD].links[1] = Some(fh);
            }
            _ => {
                links.insert(0, None);
                let at = self.draft.add(*b"AT", links, vec![0; 40]);
                self.draft.blocks[HD].links[3] = Some(at);
            }
        }
    }

    fn many_attachments(&mut self, n: usize) {
        let all: Vec<Id> = (0..n).map(|_| self.draft.add(*b"AT", vec![None; 4], vec![1])).collect();
        if self.random.percent(20) {
            self.draft.blocks[all[n - 1]].length = Some(100_000);
        }
        self.chain_from(HD, 3, &all);
    }

    /// n DL and HL one after the other, then a fragment; in a data chain or in a channel's signal data.
    fn long_chain(&mut self, n: usize) {
        let signal = self.random.percent(40);
        let end = self.draft.add(if signal { *b"SD" } else { *b"DT" }, vec![], vec![1, 2]);
        let mut next = Some(end);
        for _ in 0..n {
            let kind = self.random.pick(&[*b"DL", *b"HL"]);
            next = Some(self.draft.add(kind, vec![next], vec![]));
        }
        let dg = self.draft.one_group(if signal { None } else { next }, 1);
        if signal {
            let cn = dg - 2;
            self.draft.blocks[cn].data[0] = 1;
            self.draft.blocks[cn].links[5] = next;
        }
        self.head(dg);
    }

    /// Fragments that claim up to 2^63 bytes each: sums and products past 64 bits.
    fn wide_sums(&mut self) {
        let samples = self.random.pick(&[0u8, 1, 2, 4]);
        let n = self.random.range(1, 3);
        let mut links = vec![None];
        for _ in 0..n {
            let kind = self.random.pick(&[*b"DT", *b"DV"]);
            let id = self.draft.add(kind, vec![], vec![]);
            self.draft.blocks[id].length = Some(24 + self.random.pick(&[1 << 62, 1 << 63, (1 << 63) - 1, 3 << 62, !0 - 24]));
            links.push(Some(id));
        }
        let dl = self.draft.add(*b"DL", links, vec![]);
        let dg = self.draft.one_group(Some(dl), samples);
        if self.random.percent(30) {
            self.draft.blocks[dg - 1].data[28] = 1;
            self.draft.blocks[dg - 2].data[12] = 2;
        }
        if self.random.percent(30) {
            self.draft.blocks[dg - 2].data[0] = self.random.pick(&[3, 4, 6]);
        }
        if self.random.percent(20) {
            let second = self.draft.add(*b"CG", vec![None; 6], group_data(1, samples, 0));
            self.draft.blocks[dg - 1].links[0] = Some(second);
            self.draft.blocks[dg].data[0] = 1;
        }
        self.head(dg);
    }

    /// A column of a multiple of 2^64 bytes: records of two bytes in a DT and a DV of 2^63 bytes each, or 2^63 records of one byte with a kept bit.
    fn wrapping_column(&mut self) {
        let kept = self.random.percent(50);
        let kinds: &[Kind] = if kept { &[*b"DV"] } else { &[*b"DT", *b"DV"] };
        let mut links = vec![None];
        for &kind in kinds {
            let id = self.draft.add(kind, vec![], vec![]);
            self.draft.blocks[id].length = Some(24 + (1 << 63));
            links.push(Some(id));
        }
        let dl = self.draft.add(*b"DL", links, vec![]);
        let dg = self.draft.one_group(Some(dl), if kept { 1 } else { 2 });
        if kept {
            self.draft.blocks[dg - 1].data[28] = 1;
            self.draft.blocks[dg - 2].data[12] = 2;
        }
        self.head(dg);
    }
}
