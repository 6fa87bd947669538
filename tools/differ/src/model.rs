//! Planning by what a call chooses, written from documents 01 and 02 apart from the port: the columns and omissions that are due of a recording whose
//! reading is sound, or the refusal that planning meets first.
use crate::blocks::{data_field, field, kind_at, link, link_count, word};
use crate::photos::model::references;
use crate::walk::{claimed, data_groups, fragments, DataGroup, RECORDS};
use std::collections::HashSet;
use std::ops::Range;

/// Number and place.
pub type Refusal = (u64, u64);

const MOST_BYTES: u128 = 268_435_456;
const MOST_FRAGMENTS: usize = 1024;
const MOST_LISTS: usize = 256;

/// What becomes of a channel's type.
#[derive(Clone, Copy, PartialEq, Debug)]
pub enum Treatment {
    Keep,
    /// With this reason.
    Omit(u64),
    StoreAs0,
}

use Treatment::{Keep, Omit, StoreAs0};

/// The treatments of types 0 to 6.
#[derive(Clone)]
pub struct Treatments([Treatment; 7]);

/// Type 4 is omitted, 5 becomes 0, others are kept.
pub const BUILT_IN: Treatments = Treatments([Keep, Keep, Keep, Keep, Omit(4), StoreAs0, Keep]);

impl Treatments {
    /// None: 27.
    pub fn of(table: &[u8]) -> Option<Treatments> {
        let mut all = BUILT_IN;
        let Some((&n, rest)) = table.split_first() else { return Some(all) };
        let n = n as usize;
        if !(1..=7).contains(&n) || rest.len() != 2 * n {
            return None;
        }
        let (types, treatments) = rest.split_at(n);
        for (i, (&t, &treated)) in types.iter().zip(treatments).enumerate() {
            let forbidden = matches!((t, treated), (7.., _) | (_, 3..) | (2 | 3, 1 | 2) | (5, 0) | (6, 2));
            if forbidden || types[..i].contains(&t) {
                return None;
            }
            all.0[t as usize] = [Keep, Omit(8), StoreAs0][treated as usize];
        }
        Some(all)
    }

    /// Types over 6 are kept.
    pub fn treat(&self, kind: u8) -> Treatment {
        self.0.get(kind as usize).copied().unwrap_or(Keep)
    }
}

/// A column that is due: its channel, its group's records, the type that is stored, the fragments of its signal data, and of a signal its time column.
pub struct Column {
    pub channel: usize,
    pub records: u128,
    pub stored: u8,
    pub signal: Option<Vec<usize>>,
    pub time: bool,
    pub master: Option<usize>,
    /// The group that has the master: its own, or that at its group's remote link; of a time column that it is made of.
    pub axis: Option<usize>,
    /// Its channel's references to attachments, where they are kept.
    pub photos: Vec<usize>,
}

#[derive(Default)]
pub struct Plan {
    pub columns: Vec<Column>,
    /// Addresses and reasons.
    pub omissions: Vec<(u64, u64)>,
    /// Groups that are no VLSD storage.
    pub groups: u64,
}

struct Group {
    at: usize,
    channels: Vec<usize>,
    records: u128,
}

struct Model<'a> {
    image: &'a [u8],
    treatments: &'a Treatments,
    groups: Vec<Group>,
    /// For each group the one whose master stands for its own: itself, or an earlier one.
    stands: &'a [usize],
    /// The header's attachments, where references to them are kept.
    attachments: Option<&'a [usize]>,
    /// Fragments met so far.
    fragments: usize,
    plan: Plan,
}

/// Of a recording that identification, HD, walk and counts accept. `stands`: for each group the one whose master stands for its own. `attachments`: the
/// header's, where references to them are kept.
pub fn plan(image: &[u8], treatments: &Treatments, stands: &[usize], attachments: Option<&[usize]>) -> Result<Plan, Refusal> {
    let mut groups = Vec::new();
    let mut met = 0;
    for d in data_groups(image) {
        let (list, _) = fragments(image, link(image, d.at, 2), &RECORDS);
        let counts = counts(image, &d, &list).expect("the records are sound");
        met += list.len();
        groups.extend(d.groups.into_iter().zip(counts).map(|(g, records)| Group { at: g.at, channels: g.channels, records }));
    }
    let mut m = Model { image, treatments, groups, stands, attachments, fragments: met, plan: Plan::default() };
    (0..m.groups.len()).try_for_each(|g| m.group(g))?;
    Ok(m.plan)
}

/// A group's data bytes and invalidation bytes.
pub fn sizes(image: &[u8], cg: usize) -> (u64, u64) {
    (data_field(image, cg, 24, 4), data_field(image, cg, 28, 4))
}

/// The records of each group of a DG; none where those of several groups can't be told apart.
pub fn counts(image: &[u8], d: &DataGroup, fragments: &[usize]) -> Option<Vec<u128>> {
    let [g] = &d.groups[..] else {
        if d.groups.is_empty() {
            return Some(Vec::new());
        }
        let framed = framed(image, d, &joined(image, fragments))?;
        return Some((0..d.groups.len()).map(|g| framed.iter().filter(|r| r.0 == g).count() as u128).collect());
    };
    let bytes = |kind: &[u8]| fragments.iter().filter(|f| kind_at(image, **f) == kind).map(|f| claimed(image, *f) as u128).sum::<u128>();
    let (samples, inval) = sizes(image, g.at);
    let whole = |bytes: u128, size: u64| bytes.checked_div(size as u128).unwrap_or(0);
    Some(vec![whole(bytes(b"##DT"), data_field(image, d.at, 0, 1) + samples + inval) + whole(bytes(b"##DV"), samples)])
}

/// The records of a DG of several groups in order, each with its group and where it lies after its id; none where one isn't sound.
pub fn framed(image: &[u8], d: &DataGroup, joined: &[u8]) -> Option<Vec<(usize, Range<usize>)>> {
    let ids = data_field(image, d.at, 0, 1) as usize;
    let groups: Vec<(u64, bool, u64)> =
        d.groups.iter().map(|g| (data_field(image, g.at, 0, 8), is_storage(image, g.at), sizes(image, g.at).0 + sizes(image, g.at).1)).collect();
    let (mut all, mut at) = (Vec::new(), 0);
    while at < joined.len() {
        let id = field(joined, at, ids);
        let g = groups.iter().position(|g| g.0 == id).filter(|_| ids > 0)?;
        let from = at + ids;
        let size = if groups[g].1 { 4 + field(joined, from, 4) } else { groups[g].2 };
        at = from.checked_add(size as usize).filter(|end| *end <= joined.len())?;
        all.push((g, from..at));
    }
    Some(all)
}

pub fn is_storage(image: &[u8], cg: usize) -> bool {
    data_field(image, cg, 16, 2) & 1 != 0
}

/// A channel's bytes in a record.
pub fn width(image: &[u8], cn: usize) -> u64 {
    let part = |offset, bytes| data_field(image, cn, offset, bytes);
    if [3, 6].contains(&part(0, 1)) {
        0
    } else {
        (part(3, 1) + part(8, 4)).div_ceil(8)
    }
}

/// Bit offset at most 7, byte offset + bytes at most samples.
fn fits(image: &[u8], cg: usize, cn: usize) -> bool {
    data_field(image, cn, 3, 1) <= 7 && data_field(image, cn, 4, 4) + width(image, cn) <= sizes(image, cg).0
}

/// A group's first fitting channel of type 2 or 3; VLSD storage has none.
pub fn master(image: &[u8], cg: usize, channels: &[usize]) -> Option<usize> {
    let is_master = |cn: &usize| [2, 3].contains(&data_field(image, *cn, 0, 1)) && fits(image, cg, *cn);
    channels.iter().copied().filter(|_| !is_storage(image, cg)).find(is_master)
}

impl Model<'_> {
    fn kind(&self, cn: usize) -> u8 {
        data_field(self.image, cn, 0, 1) as u8
    }

    fn is_master_type(&self, cn: usize) -> bool {
        [2, 3].contains(&self.kind(cn))
    }

    fn master(&self, g: usize) -> Option<usize> {
        let Group { at, channels, .. } = &self.groups[g];
        master(self.image, *at, channels)
    }

    /// The group at the remote link, if that has a master.
    fn remote(&self, g: usize) -> Option<usize> {
        let cg = self.groups[g].at;
        let flagged = data_field(self.image, cg, 16, 2) & 8 != 0;
        let to = link(self.image, cg, 6);
        (0..self.groups.len()).find(|r| flagged && to != 0 && self.groups[*r].at == to && self.master(*r).is_some())
    }

    /// Reason 1, the time column where it is first needed, then the other channels in order.
    fn group(&mut self, g: usize) -> Result<(), Refusal> {
        let at = self.groups[g].at;
        if is_storage(self.image, at) {
            return Ok(());
        }
        self.plan.groups += 1;
        let own = self.master(g);
        let remote = if own.is_some() { None } else { self.remote(g) };
        let agrees = remote.is_some_and(|r| self.groups[r].records == self.groups[g].records);
        if remote.is_some() && !agrees {
            self.plan.omissions.push((at as u64, 1));
        }
        let axis = if own.is_some() { Some(g) } else { remote.filter(|_| agrees) };
        let master = axis.map(|t| self.time(self.stands.get(t).copied().unwrap_or(t))).transpose()?;
        for cn in self.groups[g].channels.clone() {
            if Some(cn) != own {
                self.channel(g, cn, master, axis)?;
            }
        }
        Ok(())
    }

    /// The time column of a group with a master.
    fn time(&mut self, g: usize) -> Result<usize, Refusal> {
        let (records, channel) = (self.groups[g].records, self.master(g).unwrap());
        if let Some(planned) = self.plan.columns.iter().position(|c| c.channel == channel) {
            return Ok(planned);
        }
        let photos = self.photos(channel)?;
        Ok(self.add(Column { channel, records, stored: self.kind(channel), signal: None, time: true, master: None, axis: Some(g), photos }))
    }

    /// 28, where references are kept.
    fn photos(&self, channel: usize) -> Result<Vec<usize>, Refusal> {
        self.attachments.map_or(Ok(Vec::new()), |attachments| references(self.image, channel, attachments))
    }

    fn add(&mut self, column: Column) -> usize {
        self.plan.columns.push(column);
        self.plan.columns.len() - 1
    }

    fn channel(&mut self, g: usize, channel: usize, master: Option<usize>, axis: Option<usize>) -> Result<(), Refusal> {
        if let Some(reason) = self.reason(self.groups[g].at, channel)? {
            self.plan.omissions.push((channel as u64, reason));
            return Ok(());
        }
        let photos = self.photos(channel)?;
        let (kind, data) = (self.kind(channel), link(self.image, channel, 5));
        let treated = self.treatments.treat(kind);
        let signal = if kind == 1 && treated == Keep && data != 0 { Some(self.signal_data(data)?) } else { None };
        let stored = if treated == StoreAs0 { 0 } else { kind };
        self.add(Column { channel, records: self.groups[g].records, stored, signal, time: false, master, axis, photos });
        Ok(())
    }

    /// Why a channel that is no master of its group is omitted: 4 or 8 by its type, whose links aren't read; 2, 3, 5, 6, 7.
    fn reason(&self, group: usize, channel: usize) -> Result<Option<u64>, Refusal> {
        let treated = self.treatments.treat(self.kind(channel));
        if let Omit(reason) = treated {
            return Ok(Some(reason));
        }
        if !fits(self.image, group, channel) {
            return Ok(Some(2));
        }
        if self.is_master_type(channel) {
            return Ok(Some(3));
        }
        match self.leads_to(channel, 1)? {
            b"##CA" => return Ok(Some(5)),
            b"##CN" => return Ok(Some(6)),
            _ => {}
        }
        let stored = self.kind(channel) == 1 && treated == Keep && self.leads_to(channel, 5)? == b"##CG";
        Ok(stored.then_some(7))
    }

    /// The kind of block that link i of a channel, from 0, leads to; nothing for a link of 0.
    fn leads_to(&self, channel: usize, i: usize) -> Result<&[u8], Refusal> {
        match link(self.image, channel, i) {
            0 => Ok(b""),
            at => self.header(at).map(|_| kind_at(self.image, at)),
        }
    }

    fn header(&self, at: usize) -> Result<(), Refusal> {
        if at as u128 + 24 > self.image.len() as u128 {
            return Err((4, at as u64));
        }
        Ok(())
    }

    /// The fragments of an SD chain.
    fn signal_data(&mut self, mut at: usize) -> Result<Vec<usize>, Refusal> {
        let (mut all, mut met) = (Vec::new(), HashSet::new());
        while at != 0 {
            if !met.insert(at) {
                return Err((11, at as u64));
            }
            self.header(at)?;
            match kind_at(self.image, at) {
                b"##SD" => {
                    self.fragment(at, &mut all)?;
                    break;
                }
                b"##DL" => {
                    self.list(at, met.len())?;
                    for i in 1..link_count(self.image, at) as usize {
                        let to = link(self.image, at, i);
                        if to != 0 {
                            self.fragment(to, &mut all)?;
                        }
                    }
                }
                b"##HL" => self.list(at, met.len())?,
                _ => return Err((12, at as u64)),
            }
            at = link(self.image, at, 0);
        }
        Ok(all)
    }

    /// A DL or HL, the so-manieth of its chain: 8, 9, 4, 19.
    fn list(&self, at: usize, number: usize) -> Result<(), Refusal> {
        let (size, links) = (word(self.image, at + 8) as u128, link_count(self.image, at) as u128);
        let place = at as u64;
        match () {
            _ if 24 + 8 * links > size => Err((8, place)),
            _ if size > MOST_BYTES => Err((9, place)),
            _ if at as u128 + size > self.image.len() as u128 => Err((4, place)),
            _ if number > MOST_LISTS => Err((19, place)),
            _ => Ok(()),
        }
    }

    /// A fragment of signal data: 4, 12, 19.
    fn fragment(&mut self, at: usize, all: &mut Vec<usize>) -> Result<(), Refusal> {
        self.header(at)?;
        if kind_at(self.image, at) != b"##SD" {
            return Err((12, at as u64));
        }
        self.fragments += 1;
        if self.fragments > MOST_FRAGMENTS {
            return Err((19, at as u64));
        }
        all.push(at);
        Ok(())
    }
}

/// The joined data of fragments.
pub fn joined(image: &[u8], fragments: &[usize]) -> Vec<u8> {
    fragments.iter().flat_map(|f| image.get(f + 24..f + 24 + claimed(image, *f) as usize).unwrap_or(b"")).copied().collect()
}
