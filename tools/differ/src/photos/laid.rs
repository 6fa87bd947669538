//! A result with references, laid out anew from the one without: every CN is longer by its references, all that follows is where document 01 and the unit place
//! it then, and every link leads to where its block stands now.
use crate::blocks::{data_field, kind_at, link, link_count, put_word};
use crate::result::{columns, end_of, Column};
use crate::walk::chain;

/// A reference: 0, or the number of an attachment in the header's chain.
pub type Reference = Option<usize>;

const DG: usize = 64;
const CN: usize = 160;
const CN_DATA: usize = 72;
const COUNT: usize = 22;

/// Where a column's blocks stand: DG, CG, CN, DL, the first data block, SD.
#[derive(Default)]
struct Places {
    dg: usize,
    cg: usize,
    cn: usize,
    dl: usize,
    data: usize,
    signal: usize,
}

/// The new file, and where its metadata end.
pub fn laid(file: &[u8], metadata: usize, unit: usize, references: &[Vec<Reference>]) -> (Vec<u8>, usize) {
    let all = columns(file);
    let mut places: Vec<Places> = Vec::new();
    let mut end = all.first().map_or(metadata, |c| c.dg);
    for (c, references) in all.iter().zip(references) {
        let (dg, cg) = (end, end + DG);
        let cn = cg + size(file, c.cg);
        let dl = cn + CN + 8 * references.len();
        end = dl + if c.dl == 0 { 0 } else { size(file, c.dl) };
        places.push(Places { dg, cg, cn, dl, ..Places::default() });
    }
    let new_metadata = end;
    for (c, p) in all.iter().zip(&mut places) {
        if let (Some(first), Some(last)) = (c.blocks.first(), c.blocks.last()) {
            p.data = end.next_multiple_of(unit);
            end = p.data + end_of(file, *last) - first;
        }
        if let Some(sd) = c.signal {
            p.signal = end.next_multiple_of(unit);
            end = p.signal + size(file, sd);
        }
    }
    let last = all.iter().rev().find_map(|c| c.signal.or(c.blocks.last().copied()));
    let behind = last.map_or(metadata, |at| end_of(file, at)).next_multiple_of(8);
    let rest = Rest { behind, start: end.next_multiple_of(8) };
    let mut out = vec![0; rest.start + file.len() - behind];
    let front = all.first().map_or(metadata, |c| c.dg);
    out[..front].copy_from_slice(&file[..front]);
    rest.put(&mut out, file);
    let attachments: Vec<usize> = chain(file, link(file, 64, 3), b"##AT").into_iter().map(|at| rest.place(at)).collect();
    for (i, (c, references)) in all.iter().zip(references).enumerate() {
        put_structure(&mut out, file, &all, &places, i);
        put_cn(&mut out, file, c, &places[i], references, &attachments);
        put_data(&mut out, file, c, &places[i]);
    }
    (out, new_metadata)
}

fn size(file: &[u8], at: usize) -> usize {
    end_of(file, at) - at
}

fn put_block(out: &mut [u8], at: usize, file: &[u8], from: usize) {
    let block = &file[from..end_of(file, from)];
    out[at..at + block.len()].copy_from_slice(block);
}

fn put_link(out: &mut [u8], block: usize, i: usize, to: usize) {
    put_word(out, block + 24 + 8 * i, to as u64);
}

/// Attachments and the blocks copied for them, which follow the data.
struct Rest {
    behind: usize,
    start: usize,
}

impl Rest {
    fn place(&self, to: usize) -> usize {
        if to >= self.behind {
            to - self.behind + self.start
        } else {
            to
        }
    }

    fn put(&self, out: &mut [u8], file: &[u8]) {
        out[self.start..].copy_from_slice(&file[self.behind..]);
        put_link(out, 64, 3, self.place(link(file, 64, 3)));
        let mut at = self.behind;
        while at < file.len() {
            (0..link_count(file, at) as usize).for_each(|i| put_link(out, self.place(at), i, self.place(link(file, at, i))));
            at = end_of(file, at).next_multiple_of(8);
        }
    }
}

/// DG, CG and DL of column i.
fn put_structure(out: &mut [u8], file: &[u8], all: &[Column], places: &[Places], i: usize) {
    let (c, p) = (&all[i], &places[i]);
    put_block(out, p.dg, file, c.dg);
    put_link(out, p.dg, 0, places.get(i + 1).map_or(0, |next| next.dg));
    put_link(out, p.dg, 1, p.cg);
    put_block(out, p.cg, file, c.cg);
    put_link(out, p.cg, 1, p.cn);
    if let Some(master) = c.master(file).and_then(|cg| all.iter().position(|m| m.cg == cg)) {
        put_link(out, p.cg, 6, places[master].cg);
    }
    if c.dl != 0 {
        put_link(out, p.dg, 2, p.dl);
        put_block(out, p.dl, file, c.dl);
        c.blocks.iter().enumerate().for_each(|(k, b)| put_link(out, p.dl, k + 1, b - c.blocks[0] + p.data));
    }
}

/// The CN with its references behind the eighth link and their number in its data.
fn put_cn(out: &mut [u8], file: &[u8], c: &Column, p: &Places, references: &[Reference], attachments: &[usize]) {
    let n = references.len();
    let data = p.cn + CN - CN_DATA + 8 * n;
    out[p.cn..p.cn + CN - CN_DATA].copy_from_slice(&file[c.cn..c.cn + CN - CN_DATA]);
    out[data..data + CN_DATA].copy_from_slice(&file[c.cn + CN - CN_DATA..c.cn + CN]);
    put_word(out, p.cn + 8, (CN + 8 * n) as u64);
    put_word(out, p.cn + 16, 8 + n as u64);
    put_link(out, p.cn, 5, p.signal);
    references.iter().enumerate().for_each(|(k, r)| put_link(out, p.cn, 8 + k, r.map_or(0, |number| attachments[number])));
    out[data + COUNT..data + COUNT + 2].copy_from_slice(&(n as u16).to_le_bytes());
}

fn put_data(out: &mut [u8], file: &[u8], c: &Column, p: &Places) {
    if let (Some(&first), Some(&last)) = (c.blocks.first(), c.blocks.last()) {
        let blocks = &file[first..end_of(file, last)];
        out[p.data..p.data + blocks.len()].copy_from_slice(blocks);
    }
    if let Some(sd) = c.signal {
        put_block(out, p.signal, file, sd);
    }
}

/// Whether every reference of a result's columns, by links, leads to an attachment of its header's chain that is the recording's at `references`, 0 to 0.
pub fn shown(file: &[u8], image: &[u8], references: &[&[usize]]) -> bool {
    let attachments = chain(file, link(file, 64, 3), b"##AT");
    let leads = |to: usize, from: usize| match from {
        0 => to == 0,
        _ => attachments.contains(&to) && same_attachment(file, to, image, from),
    };
    let one = |c: &Column, references: &[usize]| {
        let n = references.len();
        let counted = data_field(file, c.cn, COUNT, 2) as usize == n && link_count(file, c.cn) as usize == 8 + n;
        counted && size(file, c.cn) == CN + 8 * n && references.iter().enumerate().all(|(k, from)| leads(link(file, c.cn, 8 + k), *from))
    };
    let all = columns(file);
    all.len() == references.len() && all.iter().zip(references).all(|(c, r)| one(c, r))
}

/// Header and data of two AT are the same.
fn same_attachment(file: &[u8], at: usize, image: &[u8], from: usize) -> bool {
    let data = 24 + 8 * link_count(image, from) as usize;
    let (a, b) = (&file[at..end_of(file, at)], &image[from..end_of(image, from)]);
    kind_at(image, from) == b"##AT" && a.len() == b.len() && a[..24] == b[..24] && a[data..] == b[data..]
}
