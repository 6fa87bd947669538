//! One DG of 50 to 512 groups, or of few groups with many records each, as a bus logger's: short records in no order, ids of each size in no order.
use super::data::Group;
use super::Maker;
use crate::blocks::{Draft, Id, HD};
use std::collections::BTreeSet;

impl Maker<'_> {
    pub fn bus(mut self) -> Draft {
        let ids = self.random.pick(&[1, 2, 4, 8]);
        let most = if ids == 1 { 256 } else { 512 };
        let few = self.random.percent(20);
        let n = match self.random.below(4) {
            _ if few => self.random.range(2, 12),
            0 => most,
            _ => self.random.range(50, most),
        };
        let records = match self.random.below(4) {
            _ if !few => 6,
            0 => 2000,
            _ => 600,
        };
        let name = if few { "DG of 2 to 12 groups, up to 2,000 records each in no order" } else { "DG of 50 to 512 groups" };
        self.draft.mark(name);
        self.draft.mark(format!("{name}, id size {ids}"));
        let shapes: Vec<Group> = self.apart(n, ids).into_iter().map(|id| self.short(id, records)).collect();
        let groups: Vec<Id> = shapes.iter().map(|g| self.bus_group(g)).collect();
        let data = self.data(ids, &shapes);
        let dg = self.draft.add(*b"DG", vec![None, None, data, None], vec![ids as u8, 0, 0, 0, 0, 0, 0, 0]);
        self.chain_from(dg, 1, &groups);
        self.chain_up(HD, &[dg]);
        self.draft
    }

    /// So many ids of so many bytes, no two alike.
    fn apart(&mut self, n: usize, bytes: usize) -> Vec<u64> {
        let spread = self.random.range(1, bytes);
        let mut found = BTreeSet::new();
        while found.len() < n {
            let wide = if n > 1 << (8 * spread) { bytes } else { spread };
            found.insert(self.random.word() & (!0 >> (64 - 8 * wide)));
        }
        let mut ids: Vec<u64> = found.into_iter().collect();
        self.random.shuffle(&mut ids);
        ids
    }

    fn short(&mut self, id: u64, records: usize) -> Group {
        let samples = self.random.pick(&[0, 1, 1, 2, 4, 8, 9]);
        let inval = self.random.percent(10) as usize;
        let storage = self.random.percent(5);
        Group { samples, inval, storage, records: self.random.below(records + 1), id, clock: None }
    }

    /// A CG with one channel, or none.
    fn bus_group(&mut self, g: &Group) -> Id {
        let mut data = g.id.to_le_bytes().to_vec();
        data.extend(self.random.word().to_le_bytes());
        data.extend([g.storage as u8, 0, b'.', 0, 0, 0, 0, 0]);
        data.extend((g.samples as u32).to_le_bytes());
        data.extend((g.inval as u32).to_le_bytes());
        let cg = self.draft.add(*b"CG", vec![None; 6], data);
        self.groups.push(cg);
        if !g.storage || self.random.percent(20) {
            let kind = self.random.pick(&[0, 0, 0, 0, 2, 3, 5]);
            let data = self.channel_data(kind, g);
            let name = self.name('c');
            let cn = self.draft.add(*b"CN", vec![None, None, name, None, None, None, None, None], data);
            self.draft.blocks[cg].links[1] = Some(cn);
        }
        cg
    }
}
