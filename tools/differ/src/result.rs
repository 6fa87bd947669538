//! A result read by links: its columns, their data blocks and their signal data.
use crate::blocks::{data_field, kind_at, link, link_count, word};
use crate::walk::{data_groups, DataGroup};

/// A column: where its DG, CG, CN, DL, data blocks and SD stand.
pub struct Column {
    pub dg: usize,
    pub cg: usize,
    pub cn: usize,
    pub dl: usize,
    pub blocks: Vec<usize>,
    pub signal: Option<usize>,
}

/// Kind and payload of each data block, and the signal data.
pub type Shown<'a> = (Vec<(&'a [u8], &'a [u8])>, Option<&'a [u8]>);

pub fn columns(file: &[u8]) -> Vec<Column> {
    let one = |d: &DataGroup| {
        let g = d.groups.first()?;
        let (dl, cn) = (link(file, d.at, 2), *g.channels.first()?);
        let listed = if dl == 0 { 1 } else { link_count(file, dl).min(file.len() as u64) as usize };
        let blocks = (1..listed).map(|i| link(file, dl, i)).collect();
        Some(Column { dg: d.at, cg: g.at, cn, dl, blocks, signal: Some(link(file, cn, 5)).filter(|at| *at != 0) })
    };
    data_groups(file).iter().filter_map(one).collect()
}

pub fn end_of(file: &[u8], at: usize) -> usize {
    at.saturating_add(word(file, at + 8) as usize)
}

/// What a block without links holds.
fn held(file: &[u8], at: usize) -> &[u8] {
    file.get(at + 24..end_of(file, at)).unwrap_or(b"")
}

impl Column {
    pub fn shown<'a>(&self, file: &'a [u8]) -> Shown<'a> {
        (self.blocks.iter().map(|b| (kind_at(file, *b), held(file, *b))).collect(), self.signal.map(|at| held(file, at)))
    }

    /// The type of its CN.
    pub fn kind(&self, file: &[u8]) -> u8 {
        data_field(file, self.cn, 0, 1) as u8
    }

    pub fn records(&self, file: &[u8]) -> u64 {
        data_field(file, self.cg, 8, 8)
    }

    /// The CG of its time column, by flag bit 3 and the seventh link.
    pub fn master(&self, file: &[u8]) -> Option<usize> {
        (data_field(file, self.cg, 16, 2) & 8 != 0).then(|| link(file, self.cg, 6))
    }

    /// Its line of the listing, but for its number.
    pub fn line(&self, file: &[u8], all: &[Column]) -> String {
        let field = |offset, bytes| data_field(file, self.cg, offset, bytes);
        let (blocks, signal) = self.shown(file);
        let bytes = blocks.iter().map(|b| b.1.len()).sum::<usize>() + signal.map_or(0, <[u8]>::len);
        let kind = if [2, 3].contains(&self.kind(file)) { 't' } else { 's' };
        let master = self.master(file).and_then(|cg| all.iter().position(|c| c.cg == cg)).map_or("-".into(), |i| i.to_string());
        format!("{kind} {} {} {} {} {bytes} {master}", field(24, 4), field(28, 4), self.records(file), blocks.len())
    }
}
