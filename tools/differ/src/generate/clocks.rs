//! Recordings whose groups share clocks on purpose: a master's key and bytes stand in several groups, at other places of other records, in one DG and in
//! several, and now and then one step from equal.
use super::data::{Clock, Group};
use super::Maker;
use crate::blocks::{Draft, Id, Kind, Link, HD};

/// Forms of a unit.
const FORMS: usize = 12;

/// More groups of a DG than these have ids one after the other.
const MANY: usize = 5;

/// What makes two time columns equal: the fields of the master, its unit, and its bytes and invalidation bit in each record.
#[derive(Clone)]
struct Axis {
    kind: u8,
    sync: u8,
    data_type: u8,
    bit: u8,
    bits: u32,
    flags: u32,
    conversion: Link,
    unit: Link,
    keeps: bool,
    cells: Vec<Vec<u8>>,
    invalid: Vec<bool>,
}

impl Axis {
    fn width(&self) -> usize {
        if self.kind == 3 {
            0
        } else {
            (self.bit as usize + self.bits as usize).div_ceil(8)
        }
    }
}

/// What a group is for.
#[derive(Clone, Copy, PartialEq)]
enum Role {
    Clocked,
    RemoteUser,
    Other,
}

/// Groups made so far.
#[derive(Default)]
struct Made {
    clocked: Vec<Id>,
    users: Vec<Id>,
}

impl Maker<'_> {
    pub fn clocks(mut self) -> Draft {
        self.record_clocks();
        self.draft
    }

    pub fn record_clocks(&mut self) {
        self.draft.version = if self.random.percent(97) { *b"4.10    " } else { super::version::any(self.random) };
        self.parts = 4;
        if self.random.percent(3) {
            self.draft.mark("clock: part records in place of records");
            (self.usual, self.parts) = (0, 60);
        }
        self.header();
        let n = self.random.pick(&[1, 1, 1, 2, 2, 3]);
        let mut axes: Vec<Axis> = (0..n).map(|_| self.axis()).collect();
        let mut made = Made::default();
        let sizes = self.sizes();
        if sizes == [1] {
            axes[0].unit = self.unit_of(b"s", FORMS);
        }
        let data_groups: Vec<Id> = sizes.into_iter().map(|n| self.clock_group(n, &axes, &mut made)).collect();
        self.chain_up(HD, &data_groups);
        self.remote_users(&made);
        self.reserved_bytes();
    }

    /// How many groups each DG has.
    fn sizes(&mut self) -> Vec<usize> {
        match self.random.below(200) {
            0 => vec![1; self.random.range(30, 120)],
            1 => vec![self.random.range(30, 120)],
            2..=3 => vec![1],
            _ => {
                let n = self.random.pick(&[1, 2, 2, 2, 3, 3, 4, 5]);
                let several = self.random.pick(&[0, 0, 30, 100]);
                (0..n).map(|_| if n == 1 || self.random.percent(several) { self.random.range(2, 5) } else { 1 }).collect()
            }
        }
    }

    // ---- clocks

    fn axis(&mut self) -> Axis {
        let kind = self.random.pick(&[2, 2, 2, 2, 2, 3]);
        let width = self.random.pick(&[1, 1, 2, 4, 8, 8, 9]);
        let bit = if self.random.percent(20) { self.random.below(8) as u8 } else { 0 };
        let less = if self.random.percent(20) { self.random.below(8 - bit as usize) as u32 } else { 0 };
        let bits = if kind == 3 || self.random.percent(3) { self.random.pick(&[0, 0, 64]) } else { 8 * width - bit as u32 - less };
        let flags = self.random.pick(&[0, 0, 0, 0, 1, 2, 2, 2, 3, 0x1000, 0x1002, 0x8000_0000]);
        let records = if self.random.percent(90) { self.usual } else { self.random.below(12) };
        let conversion = self.random.percent(40).then(|| self.conversion(1));
        let mut axis = Axis {
            kind,
            sync: self.random.pick(&[0, 1, 1, 1, 2]),
            data_type: self.random.below(16) as u8,
            bit,
            bits,
            flags,
            conversion,
            unit: None,
            keeps: self.random.percent(75),
            cells: Vec::new(),
            invalid: (0..records).map(|_| self.random.percent(30)).collect(),
        };
        axis.unit = self.unit();
        axis.cells = (0..records).map(|_| self.random.bytes(axis.width())).collect();
        axis
    }

    /// The axis, or one that is a step from it.
    fn near(&mut self, axis: &Axis) -> Axis {
        let mut near = axis.clone();
        if self.random.percent(55) {
            return near;
        }
        let what = match self.random.below(20) {
            0..=6 => self.records_apart(&mut near),
            7..=13 => self.fields_apart(&mut near),
            _ => self.links_apart(&mut near),
        };
        self.draft.mark(format!("clock: {what}"));
        near
    }

    fn records_apart(&mut self, near: &mut Axis) -> &'static str {
        let n = near.cells.len();
        match self.random.below(7) {
            0 => self.byte_apart(near, 0),
            1..=2 => self.byte_apart(near, n.saturating_sub(1)),
            3 => {
                let i = self.random.below(n);
                self.byte_apart(near, i)
            }
            4 => {
                near.invalid.iter_mut().take(1).for_each(|b| *b = !*b);
                "an invalidation bit apart"
            }
            5 => {
                near.invalid.push(true);
                near.cells.push(self.random.bytes(near.width()));
                "a record more"
            }
            _ => {
                near.cells.pop();
                "a record less"
            }
        }
    }

    fn fields_apart(&mut self, near: &mut Axis) -> &'static str {
        let shorter = near.bits > 1 && near.width() == (near.bit as usize + near.bits as usize - 1).div_ceil(8);
        match self.random.below(7) {
            0 => {
                near.flags ^= self.random.pick(&[0x1000, 1, 2, 4, 1 << 31]);
                "a flag apart"
            }
            1 => {
                near.sync ^= 1;
                "sync type apart"
            }
            2 => {
                near.data_type ^= 1;
                "data type apart"
            }
            3 => {
                near.keeps = !near.keeps;
                "kept invalidation bit apart"
            }
            4 if shorter => {
                near.bits -= 1;
                "bits apart, bytes equal"
            }
            5 if near.bits > 1 && near.bit < 7 => {
                (near.bit, near.bits) = (near.bit + 1, near.bits - 1);
                "bit offset apart, bytes equal"
            }
            _ => {
                near.kind = 5 - near.kind;
                near.cells = (0..near.cells.len()).map(|_| self.random.bytes(near.width())).collect();
                "type 2 and type 3"
            }
        }
    }

    fn links_apart(&mut self, near: &mut Axis) -> &'static str {
        match self.random.below(6) {
            0 => {
                near.conversion = near.conversion.map(|id| self.copied(id));
                "conversion equal at another address"
            }
            1 => {
                near.conversion = if near.conversion.is_some() { None } else { Some(self.conversion(1)) };
                "conversion apart"
            }
            2 => {
                near.unit = near.unit.map(|id| self.copied(id));
                "unit equal at another address"
            }
            _ => {
                near.unit = self.like(near.unit);
                "unit of another form"
            }
        }
    }

    fn byte_apart(&mut self, axis: &mut Axis, i: usize) -> &'static str {
        let Some(cell) = axis.cells.get_mut(i).filter(|c| !c.is_empty()) else { return "no byte to be apart" };
        let last = cell.len() - 1;
        cell[if self.random.percent(50) { 0 } else { last }] ^= 1 << self.random.below(8);
        match i {
            0 => "first record apart",
            _ if i + 1 == axis.cells.len() => "last record apart",
            _ => "a record between apart",
        }
    }

    /// A block with the same header and content.
    fn copied(&mut self, id: Id) -> Id {
        let b = &self.draft.blocks[id];
        let (kind, links, data, length, count) = (b.kind, b.links.clone(), b.data.clone(), b.length, b.count);
        let copy = self.draft.add(kind, links, data);
        (self.draft.blocks[copy].length, self.draft.blocks[copy].count) = (length, count);
        copy
    }

    // ---- units

    fn unit(&mut self) -> Link {
        let text = self.random.pick(&[&b"s"[..], b"s", b"ms", b"", b"a\xffb"]);
        let form = if self.random.percent(60) { self.random.pick(&[0, 1, 1]) } else { self.random.below(FORMS) };
        self.unit_of(text, form)
    }

    /// A unit that is mostly decoded alike: another form of the text that stands at the front of this one.
    fn like(&mut self, unit: Link) -> Link {
        let form = self.random.below(FORMS);
        let Some(id) = unit else { return self.unit_of(b"", form) };
        let data: Vec<u8> = self.draft.blocks[id].data.iter().copied().skip_while(|b| *b == 0).take_while(|b| *b != 0).collect();
        let text: Vec<u8> = if self.random.percent(15) { b"min".to_vec() } else { data };
        let other = |b: u8| if b == 0xff { 0xfe } else { b };
        let text = if self.random.percent(50) { text.into_iter().map(other).collect() } else { text };
        self.unit_of(&text, form)
    }

    fn unit_of(&mut self, text: &[u8], form: usize) -> Link {
        let padded = |front: &[u8], behind: &[u8]| {
            let mut data = [front, text, behind].concat();
            data.resize(data.len().next_multiple_of(8), 0);
            data
        };
        let (kind, data, what): (&Kind, Vec<u8>, &str) = match form {
            0 => return None,
            1 => (b"TX", padded(b"", b"\0"), "TX, padded"),
            2 => (b"TX", text.to_vec(), "TX without a zero"),
            3 => (b"TX", padded(b"", b"\0more"), "TX with bytes behind a zero"),
            4 => (b"MD", padded(b"", b"\0"), "MD, padded"),
            5 => (b"MD", padded(b"\0\0\0", b"\0"), "MD with zeros in front"),
            6 => (b"TX", padded(b"", b"\xff\0"), "TX that ends with ff"),
            7 => (b"TX", padded(b"", b"\xfe\0"), "TX that ends with fe"),
            8 => (*self.random.pick(&[&b"SI", &b"CC", &b"DT", &b"CA"]), padded(b"", b"\0"), "another kind"),
            9 => (b"TX", padded(b"", b"\0"), "TX with a wrong link count"),
            10 if self.random.percent(80) => (b"TX", padded(b"", b"\0\0\0\0\0\0\0\0\0"), "TX, longer padding"),
            11 if self.random.percent(80) => (b"MD", text.to_vec(), "MD without a zero"),
            11 => (b"MD", text.to_vec(), "length past the image"),
            _ => (b"TX", text.to_vec(), "length under 24"),
        };
        let id = self.draft.add(*kind, vec![], data);
        match what {
            "TX with a wrong link count" => self.draft.blocks[id].count = Some(self.random.pick(&[2, 9, 1 << 30])),
            "length under 24" => self.draft.blocks[id].length = Some(self.random.below(24) as u64),
            "length past the image" => self.draft.blocks[id].length = Some(self.random.pick(&[1 << 20, u64::MAX])),
            _ => {}
        }
        self.draft.mark(format!("clock's unit: {what}"));
        Some(id)
    }

    // ---- groups

    fn clock_group(&mut self, n: usize, axes: &[Axis], made: &mut Made) -> Id {
        let ids = if n < 2 && self.random.percent(50) { 0 } else { self.random.pick(&[if n > MANY { 2 } else { 1 }, 2, 4, 8]) };
        let mut shapes = Vec::new();
        let mut groups = Vec::new();
        for i in 0..n {
            let role = match self.random.below(100) {
                0..=76 => Role::Clocked,
                77..=91 => Role::RemoteUser,
                _ => Role::Other,
            };
            let (shape, cg) = self.group_of(i, n, ids, role, axes);
            match role {
                Role::Clocked => made.clocked.push(cg),
                Role::RemoteUser => made.users.push(cg),
                Role::Other => {}
            }
            shapes.push(shape);
            groups.push(cg);
        }
        if n > 1 {
            self.draft.mark("clock: several groups in a DG");
        }
        let data = self.data(ids, &shapes);
        let comment = self.metadata(10);
        let dg = self.draft.add(*b"DG", vec![None, None, data, comment], vec![ids as u8, 0, 0, 0, 0, 0, 0, 0]);
        self.chain_from(dg, 1, &groups);
        self.sometimes_dv(data);
        dg
    }

    /// Now and then a fragment is DV whatever the groups.
    fn sometimes_dv(&mut self, data: Link) {
        if let Some(id) = data.filter(|id| self.draft.blocks[*id].kind == *b"DT").filter(|_| self.random.percent(3)) {
            self.draft.mark("clock: DV whatever the groups");
            self.draft.blocks[id].kind = *b"DV";
        }
    }

    fn group_of(&mut self, i: usize, n: usize, ids: usize, role: Role, axes: &[Axis]) -> (Group, Id) {
        if role == Role::Clocked {
            let which = self.random.below(axes.len());
            let axis = self.near(&axes[which]);
            let id = self.id_of(i, n, ids);
            return self.clocked(id, &axis);
        }
        let mut g = self.shape(i, n, ids);
        g.storage &= role == Role::Other;
        g.id = if n > MANY { i as u64 + 1 } else { g.id };
        if role == Role::RemoteUser {
            g.records = if self.random.percent(90) { self.usual } else { g.records };
        }
        g.records = g.records.min(60);
        let cg = self.group_block(&g);
        let channels: Vec<Id> = (0..self.random.below(4)).map(|k| self.channel(k + 1, &g)).collect();
        self.chain_from(cg, 1, &channels);
        (g, cg)
    }

    fn id_of(&mut self, i: usize, n: usize, ids: usize) -> u64 {
        if n > MANY {
            i as u64 + 1
        } else {
            self.record_id(i, ids)
        }
    }

    /// A group with a clock, at any place of any record.
    fn clocked(&mut self, id: u64, axis: &Axis) -> (Group, Id) {
        let wants = axis.flags & 3 == 2;
        let inval = if wants && axis.keeps { self.random.range(1, 3) } else { self.random.pick(&[0, 0, 0, 1]) };
        let position = match (wants, axis.keeps) {
            (true, true) => self.random.below(8 * inval),
            (true, false) => 8 * inval + self.random.below(4),
            _ => self.random.below(12),
        };
        let byte = self.random.pick(&[0, 0, 0, 1, 2, 5]);
        let tail = self.random.pick(&[0, 0, 1, 2, 4, 7]);
        let empty = axis.kind == 3 && self.random.percent(30);
        let samples = if empty { 0 } else { byte + axis.width() + tail };
        let byte = byte.min(samples);
        let bit = (wants && axis.keeps).then(|| (position / 8, 1 << (position % 8), axis.invalid.clone()));
        let clock = Some(Clock { byte, cells: axis.cells.clone(), bit });
        let g = Group { samples, inval, storage: false, records: axis.cells.len(), id, clock };
        let cg = self.group_block(&g);
        let cn = self.clock_channel(axis, byte, position);
        let before = self.random.percent(10) as usize;
        let after = self.random.pick(&[0, 0, 1, 1, 1, 2, 3]);
        let mut channels: Vec<Id> = (0..before).map(|k| self.channel(k + 1, &g)).collect();
        channels.push(cn);
        channels.extend((0..after).map(|k| self.channel(k + 1, &g)));
        self.chain_from(cg, 1, &channels);
        (g, cg)
    }

    fn clock_channel(&mut self, axis: &Axis, byte: usize, position: usize) -> Id {
        let mut data = vec![axis.kind, axis.sync, axis.data_type, axis.bit];
        [byte as u32, axis.bits, axis.flags, position as u32].iter().for_each(|x| data.extend(x.to_le_bytes()));
        data.extend(self.random.bytes(52));
        let below = if self.random.percent(20) { self.composition() } else { None };
        let comment = if self.random.percent(2) { Some(self.broken()) } else { self.metadata(20) };
        let links = vec![None, below, self.name('t'), self.metadata(15), axis.conversion, None, axis.unit, comment];
        self.draft.add(*b"CN", links, data)
    }

    /// Metadata that can't be copied.
    fn broken(&mut self) -> Id {
        self.draft.mark("clock: a comment that can't be copied");
        let id = self.draft.add(*b"TX", vec![], b"comment\0".to_vec());
        match self.random.below(3) {
            0 => self.draft.blocks[id].length = Some(1 << 24),
            1 => self.draft.blocks[id].count = Some(7),
            _ => self.draft.blocks[id].links = vec![Some(id)],
        }
        id
    }

    /// Groups without a master of their own, with that of a group before or after them.
    fn remote_users(&mut self, made: &Made) {
        if made.clocked.is_empty() {
            return;
        }
        for &cg in &made.users {
            self.draft.mark("clock: remote user");
            let to = self.random.pick(&made.clocked);
            let block = &mut self.draft.blocks[cg];
            block.data[16] |= 8;
            block.links.push(Some(to));
        }
    }
}
