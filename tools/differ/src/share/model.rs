//! One clock for many groups, written from document 02 apart from the port: which masters are compared, what is read for that and what it is refused
//! with, and which master stands for which. All of it by the units' kinds and bytes, as document 02 has it, or by their decoded texts, as the Rust does.
use crate::blocks::{data_field, kind_at, link, word};
use crate::model::{counts, framed, joined, master, sizes, width, Refusal};
use crate::walk::{claimed, data_groups, fragments, DataGroup, RECORDS};
use mf4_rs::blocks::common::read_string_block;

/// How units are compared.
#[derive(Clone, Copy, PartialEq)]
pub enum By {
    /// Kind and all bytes after 24.
    Bytes,
    Text,
}

/// A group with a master of its own.
struct Clock {
    /// The number of its group and of its DG, in file order, and which group of the DG it is.
    group: usize,
    dg: usize,
    position: usize,
    cg: usize,
    cn: usize,
    /// The key but for the unit.
    numbers: [u128; 10],
    unit: Vec<u8>,
    text: Option<String>,
}

/// The groups of a recording that reading accepts.
pub struct Clocks<'a> {
    image: &'a [u8],
    all: Vec<DataGroup>,
    clocks: Vec<Clock>,
    groups: usize,
}

fn is_text(image: &[u8], at: usize) -> bool {
    at != 0 && [b"##TX", b"##MD"].iter().any(|k| kind_at(image, at) == *k)
}

/// Whether a master's invalidation bit is kept: its byte after the samples and its mask.
fn kept_bit(image: &[u8], cg: usize, cn: usize) -> Option<(usize, u8)> {
    let (flags, bit) = (data_field(image, cn, 12, 4), data_field(image, cn, 16, 4));
    (flags & 3 == 2 && bit / 8 < sizes(image, cg).1).then(|| ((bit / 8) as usize, 1 << (bit % 8)))
}

impl Clock {
    fn of(image: &[u8], places: [usize; 3], cg: usize, cn: usize, records: u128) -> Clock {
        let part = |offset, bytes| data_field(image, cn, offset, bytes) as u128;
        let (conversion, at) = (link(image, cn, 4), link(image, cn, 6));
        let numbers = [
            records,
            part(0, 1),
            part(1, 1),
            part(2, 1),
            part(3, 1),
            part(8, 4),
            width(image, cn) as u128,
            part(12, 4),
            conversion as u128,
            kept_bit(image, cg, cn).is_some() as u128,
        ];
        let end = at.saturating_add(word(image, at.saturating_add(8)) as usize);
        let bytes = image.get(at.saturating_add(24)..end).unwrap_or(b"");
        let unit = if is_text(image, at) { [kind_at(image, at), bytes].concat() } else { Vec::new() };
        let text = read_string_block(image, at as u64).ok().flatten();
        let [group, dg, position] = places;
        Clock { group, dg, position, cg, cn, numbers, unit, text }
    }

    fn alike(&self, other: &Clock, by: By) -> bool {
        self.numbers == other.numbers && if by == By::Bytes { self.unit == other.unit } else { self.text == other.text }
    }
}

impl<'a> Clocks<'a> {
    /// None where the records of a DG of several groups can't be told apart.
    pub fn of(image: &'a [u8]) -> Option<Clocks<'a>> {
        let all = data_groups(image);
        let (mut clocks, mut groups) = (Vec::new(), 0);
        for (dg, d) in all.iter().enumerate() {
            let counts = counts(image, d, &fragments(image, link(image, d.at, 2), &RECORDS).0)?;
            for (position, (g, records)) in d.groups.iter().zip(counts).enumerate() {
                clocks.extend(master(image, g.at, &g.channels).map(|cn| Clock::of(image, [groups, dg, position], g.at, cn, records)));
                groups += 1;
            }
        }
        Some(Clocks { image, all, clocks, groups })
    }

    fn is_compared(&self, clock: &Clock, by: By) -> bool {
        self.clocks.iter().any(|other| other.group != clock.group && other.alike(clock, by))
    }

    /// What planning starts with: the unit texts of all masters, then DG by DG the data of compared groups.
    pub fn start(&self, by: By) -> Result<(), Refusal> {
        self.clocks.iter().try_for_each(|c| self.unit(link(self.image, c.cn, 6)))?;
        let compared = |dg: usize| self.clocks.iter().any(|c| c.dg == dg && self.is_compared(c, by));
        (0..self.all.len()).filter(|dg| compared(*dg)).try_for_each(|dg| self.stream(&self.all[dg]))
    }

    /// 4 as of a name.
    fn unit(&self, at: usize) -> Result<(), Refusal> {
        let past = |bytes: u64| at as u128 + bytes as u128 > self.image.len() as u128;
        let length = word(self.image, at.saturating_add(8));
        if at != 0 && (past(24) || is_text(self.image, at) && (length < 24 || past(length))) {
            return Err((4, at as u64));
        }
        Ok(())
    }

    fn fragments(&self, d: &DataGroup) -> Vec<usize> {
        fragments(self.image, link(self.image, d.at, 2), &RECORDS).0
    }

    fn is_dv(&self, fragment: usize) -> bool {
        kind_at(self.image, fragment) == b"##DV"
    }

    /// Whether the data of a DG with one group is read at all; 14.
    fn is_read(&self, d: &DataGroup) -> Result<bool, Refusal> {
        let (samples, inval) = sizes(self.image, d.groups[0].at);
        let dv = self.fragments(d).iter().any(|f| self.is_dv(*f));
        match (dv, samples, inval) {
            (true, _, 1..) => Err((14, d.at as u64)),
            (true, 0, _) => Ok(false),
            _ => Ok(dv || data_field(self.image, d.at, 0, 1) + samples + inval > 0),
        }
    }

    /// The fragments in runs of one kind, and the size of a run's records.
    fn runs(&self, d: &DataGroup) -> Vec<(Vec<usize>, u64)> {
        let (samples, inval) = sizes(self.image, d.groups[0].at);
        let ids = data_field(self.image, d.at, 0, 1);
        let mut runs: Vec<(Vec<usize>, u64)> = Vec::new();
        for f in self.fragments(d) {
            match runs.last_mut() {
                Some((run, _)) if self.is_dv(run[0]) == self.is_dv(f) => run.push(f),
                _ => runs.push((vec![f], if self.is_dv(f) { samples } else { ids + samples + inval })),
            }
        }
        runs
    }

    /// The data of a compared group: 14, then ranges (4), then whole records (15). That of several groups was read when they were counted.
    fn stream(&self, d: &DataGroup) -> Result<(), Refusal> {
        if d.groups.len() != 1 || !self.is_read(d)? {
            return Ok(());
        }
        let past = |f: usize| f as u128 + 24 + claimed(self.image, f) as u128 > self.image.len() as u128;
        if let Some(f) = self.fragments(d).into_iter().find(|f| claimed(self.image, *f) > 0 && past(*f)) {
            return Err((4, f as u64 + 24));
        }
        for (run, size) in self.runs(d) {
            let bytes = run.iter().map(|f| claimed(self.image, *f)).sum::<u64>();
            if bytes % size > 0 {
                return Err((15, self.place_in(&run, bytes - bytes % size)));
            }
        }
        Ok(())
    }

    /// Where byte i of a run's data lies.
    fn place_in(&self, run: &[usize], mut i: u64) -> u64 {
        for &f in run {
            if i < claimed(self.image, f) {
                return f as u64 + 24 + i;
            }
            i -= claimed(self.image, f);
        }
        0
    }

    /// The records of a group whose data is sound, without ids, in order.
    fn records(&self, c: &Clock) -> Vec<Vec<u8>> {
        let d = &self.all[c.dg];
        if d.groups.len() > 1 {
            let joined = joined(self.image, &self.fragments(d));
            let framed = framed(self.image, d, &joined).unwrap_or_default();
            return framed.into_iter().filter(|r| r.0 == c.position).map(|r| joined[r.1].to_vec()).collect();
        }
        if self.is_read(d) != Ok(true) {
            return Vec::new();
        }
        let ids = data_field(self.image, d.at, 0, 1) as usize;
        let records = |(run, size): (Vec<usize>, u64)| {
            let front = if self.is_dv(run[0]) { 0 } else { ids };
            let joined = joined(self.image, &run);
            joined.chunks_exact(size as usize).map(|r| r[front..].to_vec()).collect::<Vec<_>>()
        };
        self.runs(d).into_iter().flat_map(records).collect()
    }

    /// The bytes of a time column.
    fn cells(&self, c: &Clock) -> Vec<u8> {
        let (from, bytes) = (data_field(self.image, c.cn, 4, 4) as usize, width(self.image, c.cn) as usize);
        let samples = sizes(self.image, c.cg).0 as usize;
        let bit = kept_bit(self.image, c.cg, c.cn);
        let mut cells = Vec::new();
        for record in self.records(c) {
            cells.extend_from_slice(&record[from..from + bytes]);
            cells.extend(bit.map(|(byte, mask)| (record[samples + byte] & mask != 0) as u8));
        }
        cells
    }

    /// The time bytes and the records of a group with a master.
    pub fn times(&self, group: usize) -> Option<(Vec<u8>, u128)> {
        self.clocks.iter().find(|c| c.group == group).map(|c| (self.cells(c), c.numbers[0]))
    }

    /// For each group the first one with an equal key and equal bytes: itself, or an earlier one. What planning starts with is sound.
    pub fn stands(&self, by: By) -> Vec<usize> {
        let mut stands: Vec<usize> = (0..self.groups).collect();
        let mut firsts: Vec<(&Clock, Vec<u8>)> = Vec::new();
        for c in self.clocks.iter().filter(|c| self.is_compared(c, by)) {
            let cells = self.cells(c);
            match firsts.iter().find(|(first, bytes)| first.alike(c, by) && *bytes == cells) {
                Some((first, _)) => stands[c.group] = first.group,
                None => firsts.push((c, cells)),
            }
        }
        stands
    }

    /// The DG, CG and master of a group that has one.
    pub fn places(&self, group: usize) -> Option<[usize; 3]> {
        self.clocks.iter().find(|c| c.group == group).map(|c| [self.all[c.dg].at, c.cg, c.cn])
    }
}

/// Groups that another stands for.
pub fn shared(stands: &[usize]) -> u64 {
    stands.iter().enumerate().filter(|(g, by)| g != *by).count() as u64
}
