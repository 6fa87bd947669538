//! A plain reader of column files, written from document 02's first request apart from the port: whole lists, numbers of 128 bits, no cleverness.
use crate::blocks::{field, word};
use std::collections::HashSet;

/// Number and place.
pub type Refusal = (u64, u64);
type Checked<T> = Result<T, Refusal>;

const MOST_BYTES: u128 = 268_435_456;
const MOST_ITEMS: usize = 512;
const MOST_LISTS: usize = 256;

/// A data block that a DG's chain leads to: where its data begin, how many bytes it claims, and its kind.
#[derive(Clone, Copy)]
pub struct Fragment {
    pub offset: u128,
    pub size: u128,
    dv: bool,
}

struct Group {
    at: u64,
    channels: usize,
}

struct DataGroup {
    at: u64,
    fragments: Vec<Fragment>,
    groups: Vec<Group>,
}

pub struct Column {
    pub fragments: Vec<Fragment>,
    pub records: u128,
    pub width: u128,
}

/// What the second call hands back.
#[derive(Debug, PartialEq)]
pub enum Part {
    At { offset: u64, length: u64 },
    Split,
}

struct File<'a> {
    bytes: &'a [u8],
    met: HashSet<u64>,
    counts: [usize; 3],
}

/// A kind, and the least links and data bytes that are wanted of it.
struct Wanted {
    kind: &'static [u8; 4],
    links: u128,
    bytes: u128,
    level: usize,
}

const HD: Wanted = Wanted { kind: b"##HD", links: 6, bytes: 0, level: 0 };
const DG: Wanted = Wanted { kind: b"##DG", links: 4, bytes: 1, level: 0 };
const CG: Wanted = Wanted { kind: b"##CG", links: 6, bytes: 32, level: 1 };
const CN: Wanted = Wanted { kind: b"##CN", links: 8, bytes: 72, level: 2 };

impl File<'_> {
    fn len(&self) -> u128 {
        self.bytes.len() as u128
    }

    fn word(&self, at: u64, offset: u64) -> u64 {
        at.checked_add(offset).map_or(0, |p| word(self.bytes, p as usize))
    }

    fn kind(&self, at: u64) -> [u8; 4] {
        std::array::from_fn(|i| self.bytes[at as usize + i])
    }

    fn size(&self, at: u64) -> u128 {
        self.word(at, 8) as u128
    }

    fn links(&self, at: u64) -> u128 {
        self.word(at, 16) as u128
    }

    fn link(&self, at: u64, i: u64) -> u64 {
        self.word(at, 24 + 8 * i)
    }

    fn data(&self, at: u64) -> usize {
        (at as u128 + 24 + 8 * self.links(at)) as usize
    }

    fn header(&self, at: u64) -> Checked<()> {
        if at as u128 + 24 > self.len() {
            return Err((4, at));
        }
        Ok(())
    }

    /// 8, 9 for a length over the most, 4.
    fn length(&self, at: u64, most: u128) -> Checked<()> {
        if 24 + 8 * self.links(at) > self.size(at) {
            return Err((8, at));
        }
        if self.size(at) > most {
            return Err((9, at));
        }
        if at as u128 + self.size(at) > self.len() {
            return Err((4, at));
        }
        Ok(())
    }

    fn block(&self, at: u64, wanted: &Wanted) -> Checked<()> {
        self.header(at)?;
        self.length(at, MOST_BYTES)?;
        let fits = self.links(at) >= wanted.links && self.size(at) >= 24 + 8 * self.links(at) + wanted.bytes;
        if self.kind(at) != *wanted.kind || !fits {
            return Err((10, at));
        }
        Ok(())
    }

    /// The chain from a block on by first links; what is below each block is looked at before the next.
    fn level(&mut self, mut at: u64, wanted: &Wanted, below: &mut dyn FnMut(&mut Self, u64) -> Checked<()>) -> Checked<()> {
        while at != 0 {
            if self.met.contains(&at) {
                return Err((11, at));
            }
            self.block(at, wanted)?;
            if self.counts[wanted.level] == MOST_ITEMS {
                return Err((19, at));
            }
            self.counts[wanted.level] += 1;
            self.met.insert(at);
            below(self, at)?;
            at = self.link(at, 0);
        }
        Ok(())
    }

    fn name(&self, at: u64) -> Checked<()> {
        if at == 0 {
            return Ok(());
        }
        self.header(at)?;
        let text = self.kind(at) == *b"##TX" || self.kind(at) == *b"##MD";
        if text && (self.size(at) < 24 || at as u128 + self.size(at) > self.len()) {
            return Err((4, at));
        }
        Ok(())
    }

    fn fragment(&self, at: u64) -> Option<Fragment> {
        let dv = match &self.kind(at) {
            b"##DT" => false,
            b"##DV" => true,
            _ => return None,
        };
        Some(Fragment { offset: at as u128 + 24, size: self.size(at).saturating_sub(24), dv })
    }

    /// A data chain: no limit on fragments, none on a DL's length.
    fn chain(&self, mut at: u64) -> Checked<Vec<Fragment>> {
        let (mut all, mut seen) = (Vec::new(), Vec::new());
        while at != 0 {
            if seen.contains(&at) {
                return Err((11, at));
            }
            self.header(at)?;
            if let Some(f) = self.fragment(at) {
                all.push(f);
                return Ok(all);
            }
            let dl = match &self.kind(at) {
                b"##DL" => true,
                b"##HL" => false,
                _ => return Err((12, at)),
            };
            self.length(at, if dl { u128::MAX } else { MOST_BYTES })?;
            if seen.len() == MOST_LISTS {
                return Err((19, at));
            }
            seen.push(at);
            if dl {
                for link in (1..self.links(at) as u64).map(|i| self.link(at, i)).filter(|l| *l != 0) {
                    self.header(link)?;
                    all.push(self.fragment(link).ok_or((12, link))?);
                }
            }
            at = if self.links(at) == 0 { 0 } else { self.link(at, 0) };
        }
        Ok(all)
    }

    fn walk(&mut self) -> Checked<Vec<DataGroup>> {
        self.block(64, &HD)?;
        let mut all: Vec<DataGroup> = Vec::new();
        self.level(self.link(64, 0), &DG, &mut |file, dg| {
            let fragments = file.chain(file.link(dg, 2))?;
            if ![0, 1, 2, 4, 8].contains(&file.bytes[file.data(dg)]) {
                return Err((13, dg));
            }
            let mut groups: Vec<Group> = Vec::new();
            file.level(file.link(dg, 1), &CG, &mut |file, cg| {
                file.name(file.link(cg, 2))?;
                let mut channels = 0;
                file.level(file.link(cg, 1), &CN, &mut |file, cn| {
                    channels += 1;
                    file.name(file.link(cn, 2))
                })?;
                groups.push(Group { at: cg, channels });
                Ok(())
            })?;
            all.push(DataGroup { at: dg, fragments, groups });
            Ok(())
        })?;
        Ok(all)
    }

    /// "a data link that is 0 or leads straight to one DL with the equal-length bit set and only its first link zero"
    fn listed(&self, link: u64, fragments: &[Fragment]) -> bool {
        if link == 0 {
            return true;
        }
        if self.kind(link) != *b"##DL" || self.links(link) == 0 {
            return false;
        }
        let zeros: Vec<u64> = (0..self.links(link) as u64).filter(|i| self.link(link, *i) == 0).collect();
        let data = self.data(link);
        if zeros != [0] || self.size(link) < 24 + 8 * self.links(link) + 16 || self.bytes[data] & 1 == 0 {
            return false;
        }
        let length = word(self.bytes, data + 8) as u128;
        fragments.split_last().map_or(true, |(_, others)| others.iter().all(|f| f.size == length))
    }

    fn column(&self, d: &DataGroup) -> Option<Column> {
        let [g] = &d.groups[..] else { return None };
        let data = self.data(g.at);
        let inval = field(self.bytes, data + 28, 4) as u128;
        let width = field(self.bytes, data + 24, 4) as u128 + inval;
        let records = word(self.bytes, data + 8) as u128;
        let kinds = d.fragments.iter().all(|f| !f.dv) || d.fragments.iter().all(|f| f.dv) && inval == 0;
        let whole = d.fragments.iter().map(|f| f.size).sum::<u128>() == records * width;
        let form = g.channels == 1 && self.bytes[self.data(d.at)] == 0 && self.listed(self.link(d.at, 2), &d.fragments);
        (form && kinds && whole).then(|| Column { fragments: d.fragments.clone(), records, width })
    }
}

fn part_of_version(text: &[u8]) -> Option<u32> {
    let digits = text.strip_prefix(b"+").unwrap_or(text);
    let all = !digits.is_empty() && digits.iter().all(u8::is_ascii_digit);
    all.then(|| digits.iter().fold(0, |n: u32, d| n * 10 + (d - b'0') as u32)).filter(|n| *n <= 65_535)
}

fn identified(image: &[u8]) -> Checked<()> {
    if image.len() < 64 {
        return Err((4, 0));
    }
    if &image[..8] != b"MDF     " {
        return Err((5, 0));
    }
    let mut text = &image[8..16];
    if !text.is_ascii() {
        return Err((6, 0));
    }
    while let [front @ .., 0] = text {
        text = front;
    }
    let space = |b: &u8| matches!(b, 9..=13 | 32);
    let start = text.iter().position(|b| !space(b)).unwrap_or(text.len());
    let end = text.iter().rposition(|b| !space(b)).map_or(start, |last| last + 1);
    let mut parts = text[start..end].split(|b| *b == b'.');
    let first = parts.next().and_then(part_of_version).ok_or((6, 0))?;
    let second = parts.next().map_or(Some(0), part_of_version).ok_or((6, 0))?;
    if !(410..=65_535).contains(&(100 * first + second)) {
        return Err((7, 0));
    }
    Ok(())
}

/// The columns of a file; "tested in the order 24 for the image, 22, 23, 24 for the buffer" after 01's faults.
pub fn open(bytes: &[u8]) -> Checked<Vec<Column>> {
    identified(bytes)?;
    let mut file = File { bytes, met: HashSet::new(), counts: [0; 3] };
    let all = file.walk()?;
    for f in all.iter().flat_map(|d| &d.fragments) {
        if f.offset + f.size > file.len() {
            return Err((4, f.offset as u64));
        }
    }
    all.iter().map(|d| file.column(d)).collect::<Option<Vec<_>>>().ok_or((24, 0))
}

/// The column and the bytes of its joined data that a range is: from the first on, so many.
fn range(columns: &[Column], k: u64, first: u64, count: u64) -> Checked<(&Column, u128, u128)> {
    let c = columns.get(usize::try_from(k).unwrap()).ok_or((22, 0))?;
    if first as u128 + count as u128 > c.records {
        return Err((23, 0));
    }
    Ok((c, first as u128 * c.width, count as u128 * c.width))
}

/// How many bytes a range has.
pub fn bytes(columns: &[Column], k: u64, first: u64, count: u64) -> Checked<u128> {
    range(columns, k, first, count).map(|(_, _, n)| n)
}

/// The first call, with a buffer of so many bytes.
pub fn read(bytes: &[u8], columns: &[Column], k: u64, first: u64, count: u64, buffer: usize) -> Checked<Vec<u8>> {
    let (c, from, n) = range(columns, k, first, count)?;
    if n != buffer as u128 {
        return Err((24, 0));
    }
    let joined = c.fragments.iter().flat_map(|f| &bytes[f.offset as usize..(f.offset + f.size) as usize]);
    Ok(joined.skip(from as usize).take(buffer).copied().collect())
}

/// The second call.
pub fn part(columns: &[Column], k: u64, first: u64, count: u64) -> Checked<Part> {
    let (c, from, n) = range(columns, k, first, count)?;
    if n == 0 {
        return Ok(Part::At { offset: 0, length: 0 });
    }
    let mut start = 0;
    for f in &c.fragments {
        if from >= start && from + n <= start + f.size {
            return Ok(Part::At { offset: (f.offset + from - start) as u64, length: n as u64 });
        }
        start += f.size;
    }
    Ok(Part::Split)
}
