//! The rack's recordings, made in memory.

// A block: its kind, links and data.
struct Block<'a> {
    kind: &'a [u8; 2],
    links: Vec<u64>,
    data: Vec<u8>,
}

impl Block<'_> {
    fn bytes(&self) -> Vec<u8> {
        let size = 24 + 8 * self.links.len() + self.data.len();
        let mut b = vec![b'#', b'#', self.kind[0], self.kind[1], 0, 0, 0, 0];
        b.extend((size as u64).to_le_bytes());
        b.extend((self.links.len() as u64).to_le_bytes());
        self.links.iter().for_each(|l| b.extend(l.to_le_bytes()));
        b.extend(&self.data);
        b
    }
}

// An image that grows at its end, each block at a multiple of 8.
pub struct Image(pub Vec<u8>);

impl Image {
    fn put(&mut self, kind: &[u8; 2], links: Vec<u64>, data: Vec<u8>) -> u64 {
        self.0.resize(self.0.len().next_multiple_of(8), 0);
        let at = self.0.len() as u64;
        self.0.extend(Block { kind, links, data }.bytes());
        at
    }

    fn link(&mut self, block: u64, i: u64, to: u64) {
        let p = (block + 24 + 8 * i) as usize;
        self.0[p..p + 8].copy_from_slice(&to.to_le_bytes());
    }
}

// A group: the bytes of each channel, whether the first is its master, whether each has an invalidation bit, the id of its records, the
// bytes of signal data of its last channel, and, where its master counts records, by how much it is off in the last one.
#[derive(Clone, Default)]
pub struct Group {
    pub widths: Vec<u32>,
    pub master: bool,
    pub inval: bool,
    pub id: u64,
    pub signal: usize,
    pub clock: Option<u64>,
}

impl Group {
    // So many channels of so many bits.
    pub fn of(channels: usize, bits: u32, id: u64) -> Group {
        Group { widths: vec![bits / 8; channels], master: true, id, ..Default::default() }
    }

    fn samples(&self) -> u32 {
        self.widths.iter().sum()
    }

    fn inval_bytes(&self) -> u32 {
        if self.inval { (self.widths.len() as u32).div_ceil(8) } else { 0 }
    }

    fn record(&self) -> usize {
        (self.samples() + self.inval_bytes()) as usize
    }
}

// A CN: the first may be the master (type 2, sync 1), the last may have signal data (type 1), the others are plain.
fn channel_data(g: &Group, i: usize) -> Vec<u8> {
    let master = (g.master && i == 0) as u8;
    let signal = (g.signal > 0 && i + 1 == g.widths.len()) as u8;
    let mut d = vec![2 * master + signal, master, 0, 0];
    d.extend(g.widths[..i].iter().sum::<u32>().to_le_bytes());
    d.extend((8 * g.widths[i]).to_le_bytes());
    d.extend((if g.inval { 2u32 } else { 0 }).to_le_bytes());
    d.extend((i as u32).to_le_bytes());
    d.extend([0; 52]);
    d
}

fn group_data(g: &Group, cycles: u64, remote: bool) -> Vec<u8> {
    let mut d = g.id.to_le_bytes().to_vec();
    d.extend(cycles.to_le_bytes());
    d.extend([8 * remote as u8, 0, 0, 0, 0, 0, 0, 0]);
    d.extend(g.samples().to_le_bytes());
    d.extend(g.inval_bytes().to_le_bytes());
    d
}

// Bytes that look like measured values: not all alike, cheap to make.
fn fill(bytes: &mut [u8], state: &mut u64) {
    for b in bytes.iter_mut() {
        *state = state.wrapping_mul(6364136223846793005).wrapping_add(1442695040888963407);
        *b = (*state >> 56) as u8;
    }
}

// How the records of a DG with several groups follow each other: how many bytes an id has, and the groups in turn.
pub struct Order {
    pub id_size: usize,
    pub turn: Vec<usize>,
}

// One DG with these groups, records of each in turn, in DT blocks of at most `piece` bytes that a DL lists.
pub fn recording(groups: &[Group], cycles: u64, piece: usize) -> Vec<u8> {
    let id_size = (groups.len() > 1) as usize;
    mixed(groups, &Order { id_size, turn: (0..groups.len()).collect() }, cycles, piece)
}

// The same with records in that order, so many times.
pub fn mixed(groups: &[Group], order: &Order, cycles: u64, piece: usize) -> Vec<u8> {
    let (mut image, hd) = begun();
    let dg = image.data_group(groups, order, cycles, piece, &[]).0;
    image.link(hd, 0, dg);
    image.0
}

// The same with each group in a DG of its own, without ids.
pub fn apart(groups: &[Group], cycles: u64, piece: usize) -> Vec<u8> {
    let (mut image, hd) = begun();
    let mut last = None;
    for g in groups {
        let dg = image.data_group(std::slice::from_ref(g), &Order { id_size: 0, turn: vec![0] }, cycles, piece, &[]).0;
        image.link(last.unwrap_or(hd), 0, dg);
        last = Some(dg);
    }
    image.0
}

// Two DG of so many groups, records of each in turn: those of the first have a signal each, whose time is the master of a group of the second.
pub fn by_turns(groups: usize, cycles: u64) -> Vec<u8> {
    let (mut image, hd) = begun();
    let order = Order { id_size: 2, turn: (0..groups).collect() };
    let times = bus(groups as u64, 64, 1);
    let signals: Vec<Group> = times.iter().map(|g| Group { master: false, ..g.clone() }).collect();
    let (second, masters) = image.data_group(&times, &order, cycles, 4 << 20, &[]);
    let (first, _) = image.data_group(&signals, &order, cycles, 4 << 20, &masters);
    image.link(hd, 0, first);
    image.link(first, 0, second);
    image.0
}

fn begun() -> (Image, u64) {
    let mut image = Image(vec![0; 64]);
    image.0[..16].copy_from_slice(b"MDF     4.10    ");
    let hd = image.put(b"HD", vec![0; 6], vec![0; 32]);
    (image, hd)
}

impl Image {
    // Data in blocks of at most `piece` bytes that a DL lists.
    fn listed(&mut self, kind: &[u8; 2], data: &[u8], piece: usize) -> u64 {
        let pieces: Vec<&[u8]> = data.chunks(piece).collect();
        let flags = [&[1, 0, 0, 0][..], &(pieces.len() as u32).to_le_bytes(), &(piece as u64).to_le_bytes()].concat();
        let dl = self.put(b"DL", vec![0; pieces.len() + 1], flags);
        for (i, p) in pieces.iter().enumerate() {
            let at = self.put(kind, vec![], p.to_vec());
            self.link(dl, i as u64 + 1, at);
        }
        dl
    }

    // A CG and its channels.
    fn group(&mut self, g: &Group, cycles: u64, remote: Option<&u64>) -> u64 {
        let links = [vec![0; 6], remote.map_or(vec![], |&r| vec![r])].concat();
        let cg = self.put(b"CG", links, group_data(g, cycles, remote.is_some()));
        let mut last = 0;
        for i in 0..g.widths.len() {
            let name = self.put(b"TX", vec![], format!("channel {} {i:03}\0", g.id).into_bytes());
            let cn = self.put(b"CN", vec![0, 0, name, 0, 0, 0, 0, 0], channel_data(g, i));
            if last == 0 { self.link(cg, 1, cn) } else { self.link(last, 0, cn) }
            last = cn;
        }
        if g.signal > 0 {
            let mut bytes = vec![0; g.signal];
            fill(&mut bytes, &mut 5);
            let sd = self.listed(b"SD", &bytes, 4 << 20);
            self.link(last, 5, sd);
        }
        cg
    }

    // A DG with its groups, each with the group that its remote link leads to if there are such, and its data; its groups' addresses.
    fn data_group(&mut self, groups: &[Group], order: &Order, cycles: u64, piece: usize, remote: &[u64]) -> (u64, Vec<u64>) {
        let id_size = order.id_size;
        let dg = self.put(b"DG", vec![0; 4], vec![id_size as u8, 0, 0, 0, 0, 0, 0, 0]);
        let mut made: Vec<u64> = vec![];
        for (k, g) in groups.iter().enumerate() {
            let own = order.turn.iter().filter(|&&j| j == k).count() as u64;
            let cg = self.group(g, cycles * own, remote.get(k));
            match made.last() {
                None => self.link(dg, 1, cg),
                Some(&before) => self.link(before, 0, cg),
            }
            made.push(cg);
        }
        let mut rows = Vec::with_capacity((cycles as usize) * order.turn.iter().map(|&k| groups[k].record() + id_size).sum::<usize>());
        let mut state = 7;
        let mut numbers = vec![0; groups.len()];
        for cycle in 0..cycles {
            for &k in &order.turn {
                rows.extend(&groups[k].id.to_le_bytes()[..id_size]);
                let at = rows.len();
                rows.resize(at + groups[k].record(), 0);
                fill(&mut rows[at..], &mut state);
                if let Some(off) = groups[k].clock {
                    let time = numbers[k] + if cycle + 1 == cycles { off } else { 0u64 };
                    rows[at..at + groups[k].widths[0] as usize].copy_from_slice(&time.to_le_bytes()[..groups[k].widths[0] as usize]);
                }
                numbers[k] += 1;
            }
        }
        let dl = self.listed(b"DT", &rows, piece);
        self.link(dg, 2, dl);
        (dg, made)
    }
}

// Groups of a bus logger, with one channel of so many bits each.
pub fn bus(count: u64, bits: u32, step: u64) -> Vec<Group> {
    (1..=count).map(|i| Group::of(1, bits, i * step)).collect()
}

// A million records or so of groups in an order that looks random.
pub fn shuffled(groups: usize, records: usize) -> Vec<usize> {
    let mut state = 11u64;
    (0..records)
        .map(|_| {
            state = state.wrapping_mul(6364136223846793005).wrapping_add(1442695040888963407);
            ((state >> 33) as usize) % groups
        })
        .collect()
}

// As many records of each group in an order that looks random.
pub fn dealt(groups: usize, each: usize) -> Vec<usize> {
    let mut turn: Vec<usize> = (0..groups * each).map(|i| i % groups).collect();
    let places = shuffled(usize::MAX >> 33, turn.len());
    (1..turn.len()).for_each(|i| turn.swap(i, places[i] % (i + 1)));
    turn
}

// Channels of one record that have a name, a unit, a comment and a conversion of their own each.
pub fn described(channels: usize) -> Vec<u8> {
    let mut image = Image(recording(&[Group::of(channels, 32, 0)], 1, 4 << 20));
    let starts: Vec<u64> = (0..image.0.len() - 3).step_by(8).filter(|&p| image.0[p..p + 4] == *b"##CN").map(|p| p as u64).collect();
    for (i, &cn) in starts.iter().enumerate() {
        let unit = image.put(b"TX", vec![], format!("unit {i:04}\0").into_bytes());
        let comment = image.put(b"TX", vec![], format!("comment {i:04}\0").into_bytes());
        let conversion = image.put(b"CC", vec![0; 4], vec![0; 40]);
        [(4, conversion), (6, unit), (7, comment)].iter().for_each(|&(k, to)| image.link(cn, k, to));
    }
    image.0
}

// One record, and a history of so many FH.
pub fn history(blocks: usize) -> Vec<u8> {
    let mut image = Image(recording(&[Group::of(1, 32, 0)], 1, 4 << 20));
    let chain: Vec<u64> = (0..blocks).map(|_| image.put(b"FH", vec![0; 2], vec![0; 16])).collect();
    image.link(64, 1, chain[0]);
    chain.windows(2).for_each(|w| image.link(w[0], 0, w[1]));
    image.0
}

// 512 DG without records that use one DL, of so many links of 0.
pub fn zero_links(links: usize) -> Vec<u8> {
    let (mut image, hd) = begun();
    let dl = image.put(b"DL", vec![0; links + 1], vec![0; 16]);
    let mut last = 0;
    for _ in 0..512 {
        let dg = image.put(b"DG", vec![0, 0, dl, 0], vec![0; 8]);
        if last == 0 { image.link(hd, 0, dg) } else { image.link(last, 0, dg) }
        last = dg;
    }
    image.0
}

// One channel of one record whose conversion is a block with this many links, all to blocks that are copied: first to 2,000 of them, then to
// the last one over and over.
pub fn many_links(links: usize) -> Vec<u8> {
    let mut image = Image(recording(&[Group::of(1, 32, 0)], 1, 4 << 20));
    let texts: Vec<u64> = (0..2000).map(|_| image.put(b"TX", vec![], b"text\0\0\0\0".to_vec())).collect();
    let to = (0..links).map(|i| texts[i.min(1999)]).collect();
    let cc = image.put(b"CC", to, vec![0; 24]);
    let cn = image.0.windows(4).position(|w| w == b"##CN").unwrap() as u64;
    image.link(cn, 4, cc);
    image.0
}
