//! Column files to be read: results of the port, files made whole in the reader's form or close to it, and both damaged.
use crate::blocks::{kind_at, link, link_count, word, Draft, Id, Image, Link, Place, HD};
use crate::case::{edited, Case};
use crate::edit::{self, Edit};
use crate::port_side::{Call, Lent, Port};
use crate::random::Random;
use std::collections::{BTreeMap, BTreeSet};

/// Where a file comes from, for the table.
pub struct Made {
    pub bytes: Vec<u8>,
    pub from: &'static str,
}

/// File `k` of a seed.
pub fn file(port: &mut Port, seed: u64, k: u64) -> Made {
    let mut random = Random::of(seed ^ 0x6669_6c65, k);
    let (sound, from) = match result(port, seed, k).filter(|_| random.percent(60)) {
        Some(bytes) => (found(bytes), ["a result", "a result, damaged"]),
        None if random.below(60) == 0 => (crowded(&mut random), ["around a limit", "around a limit, damaged"]),
        None => (draft(&mut random).place_anyhow(&mut random), ["made whole", "made whole, damaged"]),
    };
    let n = random.pick(&[0, 0, 1, 1, 1, 1, 2]);
    let edits: Vec<Edit> = (0..n).flat_map(|_| damage(&sound, &mut random)).collect();
    Made { bytes: edited(&sound.bytes, &edits), from: from[!edits.is_empty() as usize] }
}

/// The port's result for the image of a seed, where it accepts it.
fn result(port: &mut Port, seed: u64, k: u64) -> Option<Vec<u8>> {
    let case = Case::of(seed, k);
    let image = case.bytes();
    let call = |out| Call::new(&image, case.size, Lent::fitting(), out);
    let (20, bytes) = port.convert(&call(0))?.refused? else { return None };
    (bytes < 1 << 20).then_some(())?;
    port.convert(&call(bytes as usize)).filter(|a| a.refused.is_none()).map(|a| a.bytes)
}

/// A result with the places of its blocks, found by links.
fn found(bytes: Vec<u8>) -> Image {
    let mut places = BTreeMap::new();
    let mut next = vec![64];
    while let Some(at) = next.pop() {
        let kind = kind_at(&bytes, at);
        if kind.len() < 4 || !kind.starts_with(b"##") || places.contains_key(&at) {
            continue;
        }
        let links = link_count(&bytes, at).min(bytes.len() as u64 / 8) as usize;
        places.insert(at, Place { at, kind: [kind[2], kind[3]], links, len: word(&bytes, at + 8) as usize });
        next.extend((0..links).map(|i| link(&bytes, at, i)).filter(|l| *l != 0));
    }
    Image { bytes, places: places.into_values().collect(), marks: BTreeSet::new() }
}

/// Columns made anyhow, mostly in the form.
fn draft(random: &mut Random) -> Draft {
    let mut draft = Draft::new();
    draft.version = *b"4.20    ";
    let n = random.pick(&[0, 1, 1, 2, 2, 3, 5, 9]);
    let mut lists = Vec::new();
    let all: Vec<Id> = (0..n).map(|_| column(&mut draft, random, &mut lists)).collect();
    chain(&mut draft, &[&[HD], &all[..]].concat());
    draft
}

/// Each block leads to the next by its first link.
fn chain(draft: &mut Draft, ids: &[Id]) {
    ids.windows(2).for_each(|w| draft.blocks[w[0]].links[0] = Some(w[1]));
}

/// A file around the walk's limits: 512 DG, CG and CN in all, 256 DL and HL in a chain.
fn crowded(random: &mut Random) -> Image {
    let mut draft = Draft::new();
    draft.version = *b"4.20    ";
    let all = match random.below(4) {
        0 => many(&mut draft, random),
        1 => one_longer(&mut draft, random),
        2 => long_groups(&mut draft, random),
        _ => long_lists(&mut draft, random),
    };
    chain(&mut draft, &[&[HD], &all[..]].concat());
    draft.place_anyhow(random)
}

/// Columns in the form.
fn many(draft: &mut Draft, random: &mut Random) -> Vec<Id> {
    (0..random.range(511, 514)).map(|_| plain(draft, random).dg).collect()
}

/// Columns of which one has further CG or CN.
fn one_longer(draft: &mut Draft, random: &mut Random) -> Vec<Id> {
    let all: Vec<Plain> = (0..random.range(509, 512)).map(|_| plain(draft, random)).collect();
    let crowded = random.pick(&all);
    let more: Vec<Plain> = (0..random.range(0, 3)).map(|_| plain(draft, random)).collect();
    let of = if random.percent(50) { |p: &Plain| p.cg } else { |p: &Plain| p.cn };
    let longer: Vec<Id> = std::iter::once(&crowded).chain(&more).map(of).collect();
    chain(draft, &longer);
    all.iter().map(|p| p.dg).collect()
}

/// A DG with as many CG, or a CG with as many CN.
fn long_groups(draft: &mut Draft, random: &mut Random) -> Vec<Id> {
    let all: Vec<Plain> = (0..random.range(511, 514)).map(|_| plain(draft, random)).collect();
    let of = if random.percent(50) { |p: &Plain| p.cg } else { |p: &Plain| p.cn };
    let longer: Vec<Id> = all.iter().map(of).collect();
    chain(draft, &longer);
    vec![all[0].dg]
}

/// A column with a chain of as many DL and HL.
fn long_lists(draft: &mut Draft, random: &mut Random) -> Vec<Id> {
    let lists: Vec<Id> = (0..random.range(255, 258)).map(|_| list(draft, random)).collect();
    chain(draft, &lists);
    let column = plain(draft, random);
    draft.blocks[column.dg].links[2] = Some(lists[0]);
    vec![column.dg]
}

/// A DL without blocks, or an HL.
fn list(draft: &mut Draft, random: &mut Random) -> Id {
    draft.add(random.pick(&[*b"DL", *b"DL", *b"HL"]), vec![None], vec![0; 16])
}

/// The blocks of a column.
#[derive(Clone, Copy)]
struct Plain {
    dg: Id,
    cg: Id,
    cn: Id,
}

/// A column of a few bytes in one block.
fn plain(draft: &mut Draft, random: &mut Random) -> Plain {
    let n = random.below(4);
    let data = draft.add(*b"DT", vec![], random.bytes(n));
    let length = [1, n as u64].map(u64::to_le_bytes).concat();
    let dl = draft.add(*b"DL", vec![None, Some(data)], length);
    place(draft, &Records { samples: 1, inval: 0, count: n as u64 }, None, 0, Some(dl))
}

/// DG, CG and CN of a column.
fn place(draft: &mut Draft, r: &Records, name: Link, kind: u8, data: Link) -> Plain {
    let mut cn_data = vec![0; 72];
    cn_data[0] = kind;
    let cn = draft.add(*b"CN", [&[None, None, name][..], &[None; 5]].concat(), cn_data);
    let cg = draft.add(*b"CG", vec![None, Some(cn), name, None, None, None], group_data(r));
    let dg = draft.add(*b"DG", vec![None, Some(cg), data, None], vec![0; 8]);
    Plain { dg, cg, cn }
}

/// What a column's records are.
struct Records {
    samples: u32,
    inval: u32,
    count: u64,
}

fn column(draft: &mut Draft, random: &mut Random, lists: &mut Vec<(Id, u64)>) -> Id {
    let dv = random.percent(50);
    let mut r = Records { samples: random.pick(&[0, 1, 2, 3, 4, 5, 8, 12]), inval: if dv { 0 } else { random.pick(&[0, 1, 1, 4]) }, count: 0 };
    let width = (r.samples + r.inval) as usize;
    let shared = random.percent(5).then(|| lists.last().copied()).flatten();
    let (data, bytes) = match shared {
        Some((dl, bytes)) => (Some(dl), bytes),
        None => blocks(draft, random, width, dv),
    };
    if let Some(dl) = data {
        lists.push((dl, bytes));
    }
    r.count = match width {
        0 => random.pick(&[0, 0, 7, 1 << 40, u64::MAX]),
        w => bytes / w as u64 + (random.percent(3) as u64),
    };
    let name = random.percent(40).then(|| draft.add(*b"TX", vec![], b"name\0\0\0\0".to_vec()));
    let kind = random.pick(&[0, 0, 2, 1, 6]);
    place(draft, &r, name, kind, data).dg
}

fn group_data(r: &Records) -> Vec<u8> {
    let mut data = vec![0; 8];
    data.extend_from_slice(&r.count.to_le_bytes());
    data.extend_from_slice(&[0; 8]);
    data.extend_from_slice(&r.samples.to_le_bytes());
    data.extend_from_slice(&r.inval.to_le_bytes());
    data
}

/// A DL with blocks of one length, the last of any, shorter or longer; one block now and then listed again.
fn blocks(draft: &mut Draft, random: &mut Random, width: usize, dv: bool) -> (Link, u64) {
    if random.percent(10) {
        return (None, 0);
    }
    let length = if width == 0 { 0 } else { random.pick(&[0, 1, 2, 3, 4, 6, 8, 12, 24, 40]) };
    let n = random.pick(&[0, 1, 1, 2, 3, 4, 7]);
    let kind = if dv { *b"DV" } else { *b"DT" };
    let mut sizes = vec![length; n];
    if let Some(last) = sizes.last_mut() {
        *last = if width == 0 { 0 } else { random.below(60) };
    }
    // the records come out even
    let over = if width == 0 { 0 } else { sizes.iter().sum::<usize>() % width };
    if let Some(last) = sizes.last_mut().filter(|_| over > 0) {
        *last += width - over;
    }
    let mut links: Vec<Link> = vec![None];
    for (i, &size) in sizes.iter().enumerate() {
        let again = i > 0 && i + 1 < n && random.percent(10);
        let block = if again { links[i] } else { Some(draft.add(kind, vec![], random.bytes(size))) };
        links.push(block);
    }
    let mut data = vec![random.pick(&[1, 1, 1, 1, 1, 1, 1, 1, 1, 3, 255, 0]), 0, 0, 0];
    data.extend_from_slice(&(n as u32).to_le_bytes());
    data.extend_from_slice(&(length as u64).to_le_bytes());
    (Some(draft.add(*b"DL", links, data)), sizes.iter().sum::<usize>() as u64)
}

/// Damage in the form: a field, link or length that the reader looks at; else as a recording is damaged.
fn damage(image: &Image, random: &mut Random) -> Vec<Edit> {
    let of = |kinds: &[&[u8; 2]]| -> Vec<&Place> { image.places.iter().filter(|p| kinds.contains(&&p.kind)).collect() };
    let (kinds, which): (&[&[u8; 2]], usize) = match random.below(14) {
        0..=3 => (&[b"DL"], 0),
        4..=5 => (&[b"DT", b"DV"], 1),
        6..=7 => (&[b"CG"], 2),
        8..=9 => (&[b"DG"], 3),
        10 => (&[b"CN"], 4),
        _ => return edit::some(image, random),
    };
    let all = of(kinds);
    if all.is_empty() {
        return edit::some(image, random);
    }
    let block = random.pick(&all);
    let data = block.at + 24 + 8 * block.links;
    let any = &image.places[random.below(image.places.len())];
    let put = |at, bytes: Vec<u8>| Edit::Put { at, bytes };
    let word_at = |at, x: u64| Edit::Put { at, bytes: x.to_le_bytes().to_vec() };
    let small = random.below(30) as u64;
    let huge = random.pick(&[1 << 28, (1 << 28) + 1, 1 << 32, 1 << 62, 1 << 63, u64::MAX]);
    let some = if random.percent(80) { small } else { huge };
    let edit = match (which, random.below(6)) {
        (0, 0) => put(data, vec![random.below(4) as u8]),
        (0, 1) => word_at(data + 8, some),
        (0, 2) => word_at(block.at + 16, random.below(block.links + 3) as u64),
        (0, 3) => word_at(block.at + 8, 24 + 8 * block.links as u64 + random.below(20) as u64),
        (0, _) if block.links > 0 => {
            let to = if random.percent(50) { 0 } else { any.at as u64 };
            word_at(block.at + 24 + 8 * random.below(block.links), to)
        }
        (1, 0..=3) => word_at(block.at + 8, 24 + some),
        (1, _) => put(block.at + 2, random.pick(&[b"DT", b"DV", b"SD", b"DZ"]).to_vec()),
        (2, 0..=2) => word_at(data + 8, some),
        (2, 3) => put(data + 24, (some as u32).to_le_bytes().to_vec()),
        (2, 4) => put(data + 28, (small as u32 % 5).to_le_bytes().to_vec()),
        (2, _) => word_at(block.at + 24, any.at as u64),
        (3, 0) => put(data, vec![random.pick(&[0, 1, 2, 3, 8])]),
        (3, 1) => word_at(block.at + 24 + 8, if random.percent(50) { 0 } else { any.at as u64 }),
        (3, 2..=3) => {
            let data = of(&[b"DT", b"DV", b"DL"]);
            word_at(block.at + 40, if data.is_empty() || random.percent(30) { 0 } else { random.pick(&data).at as u64 })
        }
        (3, _) => word_at(block.at + 24, any.at as u64),
        _ => word_at(block.at + 24 + 8 * random.below(3), if random.percent(30) { 0 } else { any.at as u64 }),
    };
    vec![edit]
}
