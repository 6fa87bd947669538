//! Data groups, channel groups and channels.
use super::data::Group;
use super::Maker;
use crate::blocks::{Id, Link};

impl Maker<'_> {
    pub fn data_group(&mut self) -> Id {
        let n = self.random.pick(&[0, 1, 1, 1, 1, 1, 1, 1, 1, 1, 1, 1, 1, 1, 2, 2, 2, 3, 3, 4]);
        let ids = self.id_size(n);
        let shapes: Vec<Group> = (0..n).map(|i| self.shape(i, n, ids)).collect();
        let groups: Vec<Id> = shapes.iter().map(|g| self.channel_group(g)).collect();
        let data = self.data(ids, &shapes);
        let comment = self.metadata(20);
        let mut tail = self.random.bytes(8);
        tail[0] = ids as u8;
        if self.random.percent(5) {
            tail.resize(self.random.range(1, 12), 7);
        }
        let dg = self.draft.add(*b"DG", vec![None, None, data, comment], tail);
        self.chain_from(dg, 1, &groups);
        dg
    }

    fn id_size(&mut self, groups: usize) -> usize {
        match groups {
            0 => self.draft.mark("DG without CG"),
            1 => self.draft.mark("DG of one group"),
            _ => self.draft.mark("DG of several groups"),
        }
        if groups < 2 && self.random.percent(60) {
            return 0;
        }
        let ids = self.random.pick(&[1, 2, 4, 8]);
        self.draft.mark(format!("id size {ids}"));
        ids
    }

    /// Group i of n: its record's parts and how many records it gets.
    pub fn shape(&mut self, i: usize, n: usize, ids: usize) -> Group {
        let samples = match self.random.below(20) {
            0 => 0,
            1..=3 => self.random.range(17, 40),
            _ => self.random.range(1, 16),
        };
        let inval = if self.random.percent(35) { self.random.range(1, 3) } else { 0 };
        let storage = self.random.percent(if n > 1 && i > 0 { 35 } else { 2 });
        let records = match self.random.below(100) {
            0..=59 => self.usual,
            60..=69 => self.random.range(20, 60),
            70 => 8000 / (samples + inval + 1),
            _ => self.random.below(12),
        };
        if inval > 0 {
            self.draft.mark("invalidation bytes");
        }
        if storage {
            self.draft.mark("VLSD storage group");
        }
        Group { samples, inval, storage, records, id: self.record_id(i, ids), clock: None }
    }

    /// Ids apart from each other; now and then one that no record can hold.
    pub fn record_id(&mut self, i: usize, ids: usize) -> u64 {
        let low = 1 + i as u64 + 8 * self.random.below(6) as u64 * (i as u64);
        let high = if ids > 1 && self.random.percent(30) { 1 << (8 * ids - 3) } else { 0 };
        let past = if ids < 8 && self.random.percent(3) { 1 << (8 * ids) } else { 0 };
        low + high + past
    }

    fn channel_group(&mut self, g: &Group) -> Id {
        let cg = self.group_block(g);
        let n = if g.storage { self.random.below(2) } else { self.random.pick(&[0, 1, 1, 2, 2, 3, 3, 4, 5]) };
        let channels: Vec<Id> = (0..n).map(|i| self.channel(i, g)).collect();
        self.chain_from(cg, 1, &channels);
        cg
    }

    /// A CG without channels.
    pub fn group_block(&mut self, g: &Group) -> Id {
        let cg = self.draft.add(*b"CG", vec![None; 6], vec![]);
        self.groups.push(cg);
        let flags = self.random.pick(&[0, 0, 0, 2, 4, 6, 0x10, 0xff06]) | g.storage as u16;
        let mut data = g.id.to_le_bytes().to_vec();
        data.extend(self.random.word().to_le_bytes());
        data.extend(flags.to_le_bytes());
        data.extend([b'.', 0, 0, 0, 0, 0]);
        data.extend((g.samples as u32).to_le_bytes());
        data.extend((g.inval as u32).to_le_bytes());
        if self.random.percent(5) {
            data.push(9);
        }
        self.draft.blocks[cg].data = data;
        let links = [None, None, self.name('g'), self.metadata(20), None, self.metadata(20)];
        self.draft.blocks[cg].links[..6].copy_from_slice(&links);
        cg
    }

    pub fn channel(&mut self, i: usize, g: &Group) -> Id {
        let kind = match self.random.below(100) {
            0..=39 if i == 0 => 2,
            40..=52 if i == 0 => 3,
            0..=54 => 0,
            55..=69 => 1,
            70..=75 => 2,
            76..=79 => 3,
            80..=83 => 4,
            84..=89 => 5,
            90..=97 => 6,
            _ => self.random.pick(&[7, 9, 255]),
        };
        self.draft.mark(format!("channel type {}", if kind < 7 { kind.to_string() } else { "over 6".into() }));
        let data = self.channel_data(kind, g);
        let mut links =
            vec![None, self.composition(), self.name('c'), self.metadata(20), self.metadata(35), None, self.metadata(30), self.metadata(30)];
        links[5] = self.signal_link(kind);
        if self.random.percent(8) {
            links.push(self.metadata(50));
        }
        self.draft.add(*b"CN", links, data)
    }

    pub fn channel_data(&mut self, kind: u8, g: &Group) -> Vec<u8> {
        let (byte, bit, bits) = self.extent(kind, g.samples);
        let flags = if g.inval > 0 { self.random.pick(&[0, 2, 2, 2, 3, 0x1002]) } else { self.random.pick(&[0, 0, 0, 1, 2, 0x1000]) };
        let position = self.random.below(8 * g.inval + 3) as u32;
        let mut data = vec![kind, self.random.below(5) as u8, self.random.below(16) as u8, bit];
        for x in [byte, bits, flags, position] {
            data.extend(x.to_le_bytes());
        }
        data.extend(self.random.bytes(52));
        if self.random.percent(4) {
            data.extend([1, 2, 3]);
        }
        data
    }

    /// Byte offset, bit offset and bits; mostly inside the record.
    fn extent(&mut self, kind: u8, samples: usize) -> (u32, u8, u32) {
        if self.random.percent(5) {
            return (self.random.below(samples + 4) as u32, self.random.below(10) as u8, self.random.below(100) as u32);
        }
        let byte = self.random.below(samples + 1);
        let bytes = if self.random.percent(10) { samples - byte } else { self.random.below(samples - byte + 1).min(9) };
        let bit = if bytes > 0 && self.random.percent(30) { self.random.below(8) } else { 0 };
        let less = if bytes > 0 { self.random.below(9 - bit).min(7) } else { 0 };
        let bits = (8 * bytes).saturating_sub(bit + if self.random.percent(30) { less } else { 0 });
        if kind == 3 || kind == 6 {
            return (byte as u32, bit as u8, self.random.pick(&[0, bits, 64]) as u32);
        }
        (byte as u32, bit as u8, bits as u32)
    }

    /// What stands below a channel: mostly nothing, or an array, a structure, or a kind without a meaning there.
    pub fn composition(&mut self) -> Link {
        match self.random.below(100) {
            0..=3 => Some(self.draft.add(*b"CA", vec![None], vec![0; 16])),
            4..=7 => {
                let below = self.draft.add(*b"CN", vec![None; 8], vec![0; 72]);
                let beside = self.random.percent(50).then(|| self.draft.add(*b"CN", vec![None; 8], vec![0; 72]));
                self.draft.blocks[below].links[0] = beside;
                Some(below)
            }
            8..=9 => Some(self.draft.add(*b"TX", vec![], vec![])),
            _ => None,
        }
    }

    /// Link 6: signal data or a group of a type 1 channel; of another type it isn't looked at.
    fn signal_link(&mut self, kind: u8) -> Link {
        match self.random.below(100) {
            0..=64 if kind == 1 => self.signal_data(),
            65..=84 if kind == 1 => Some(self.random.pick(&self.groups)),
            85..=99 if kind != 1 => self.metadata(30),
            _ => None,
        }
    }

    /// Seventh links of groups: to any group, earlier or later, the group itself, or to no group.
    pub fn remote_masters(&mut self) {
        let percent = self.random.pick(&[0, 30, 80]);
        for cg in self.groups.clone() {
            if !self.random.percent(percent) {
                continue;
            }
            let flag = self.random.percent(92);
            let to = if self.random.percent(94) { Some(self.random.pick(&self.groups)) } else { self.metadata(50) };
            let block = &mut self.draft.blocks[cg];
            block.data[16] |= if flag { 8 } else { 0 };
            if self.random.percent(97) {
                block.links.push(to);
            }
            self.draft.mark("remote master link");
        }
    }
}
