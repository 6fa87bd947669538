//! A plain walk over an image's DG, CG, CN and chains, apart from both converters: names for the omissions, and the counts behind listed differences.
//! A chain ends where it leads to another kind, out of the image, or back.
use crate::blocks::{data_field, field, kind_at, link, link_count, word};
use mf4_rs::blocks::common::read_string_block;
use std::collections::HashSet;

pub struct DataGroup {
    pub at: usize,
    pub groups: Vec<Group>,
}

pub struct Group {
    pub at: usize,
    pub channels: Vec<usize>,
}

/// Blocks of one kind from one to the next by their first links.
pub fn chain(image: &[u8], mut at: usize, kind: &[u8]) -> Vec<usize> {
    let mut met = HashSet::new();
    let mut all = Vec::new();
    while at != 0 && kind_at(image, at) == kind && met.insert(at) {
        all.push(at);
        at = link(image, at, 0);
    }
    all
}

pub fn data_groups(image: &[u8]) -> Vec<DataGroup> {
    let groups =
        |dg| chain(image, link(image, dg, 1), b"##CG").into_iter().map(|at| Group { at, channels: chain(image, link(image, at, 1), b"##CN") });
    chain(image, link(image, 64, 0), b"##DG").into_iter().map(|at| DataGroup { at, groups: groups(at).collect() }).collect()
}

/// A data chain: its fragments (addresses), and how many DL and HL it has.
pub fn fragments(image: &[u8], mut at: usize, kinds: &[&[u8]]) -> (Vec<usize>, usize) {
    let (mut all, mut met) = (Vec::new(), HashSet::new());
    while at != 0 && met.insert(at) {
        let kind = kind_at(image, at);
        if kinds.contains(&kind) {
            all.push(at);
            return (all, met.len() - 1);
        }
        if kind == b"##DL" {
            let n = link_count(image, at).min(image.len() as u64 / 8) as usize;
            all.extend((1..n).map(|i| link(image, at, i)).filter(|f| kinds.contains(&kind_at(image, *f))));
        } else if kind != b"##HL" {
            break;
        }
        at = link(image, at, 0);
    }
    (all, met.len())
}

pub const RECORDS: [&[u8]; 2] = [b"##DT", b"##DV"];
pub const SIGNALS: [&[u8]; 1] = [b"##SD"];

/// The data bytes that a fragment claims.
pub fn claimed(image: &[u8], fragment: usize) -> u64 {
    word(image, fragment + 8).saturating_sub(24)
}

/// A place in the data of a DG: the bytes from there on, and the id there if it lies in one fragment.
pub struct Data {
    pub left: u128,
    pub id: Option<u64>,
}

/// What stands at a place of the image, for each fragment of a DG that it lies in.
pub fn data_from(image: &[u8], place: u64) -> Vec<Data> {
    let mut all = Vec::new();
    for d in data_groups(image) {
        let (list, _) = fragments(image, link(image, d.at, 2), &RECORDS);
        let ids = data_field(image, d.at, 0, 1) as usize;
        for (i, &f) in list.iter().enumerate() {
            let end = f as u128 + 24 + claimed(image, f) as u128;
            if place >= f as u64 + 24 && (place as u128) < end {
                let later = list[i + 1..].iter().map(|f| claimed(image, *f) as u128).sum::<u128>();
                let whole = place as u128 + ids as u128 <= end;
                all.push(Data { left: end - place as u128 + later, id: whole.then(|| field(image, place as usize, ids)) });
            }
        }
    }
    all
}

/// Words in front of an omission's reason, as the Rust gives them.
pub struct Label {
    pub at: usize,
    pub words: String,
}

/// The labels of every CG and its CN, in the order of the walk.
pub fn labels(image: &[u8]) -> Vec<Label> {
    let name = |at: usize| read_string_block(image, link(image, at, 2) as u64).ok().flatten();
    let mut all = Vec::new();
    for g in data_groups(image).iter().flat_map(|d| &d.groups) {
        let group = name(g.at).unwrap_or_else(|| format!("group@{:#x}", g.at));
        all.push(Label { at: g.at, words: group.clone() });
        for &cn in &g.channels {
            let channel = name(cn).unwrap_or_else(|| "<unnamed>".into());
            all.push(Label { at: cn, words: format!("{group}/{channel}") });
        }
    }
    all
}
