//! The differences that docs/DIFFERENCES.md lists: whether one of them explains what was seen.
use crate::blocks::{data_field, field, kind_at, link, link_count, word};
use crate::rust_side::Told;
use crate::walk::{chain, claimed, data_groups, fragments, DataGroup, RECORDS, SIGNALS};
use mf4_rs::blocks::identification_block::IdentificationBlock;
use std::collections::HashSet;

/// Why the Rust may convert an image that the port refuses.
pub fn accepted(image: &[u8], number: u64, place: u64) -> Option<&'static str> {
    let place = place as usize;
    match number {
        6 if image[8..16].iter().any(|b| *b > 127) => Some("a byte over 127 in the version"),
        7 if version(image) > 65_535 => Some("a version over 65,535"),
        17 if history_without_links(image, place) => Some("a history block without links"),
        19 => past_limit(image, place),
        4 | 14 if wraps(image) => Some("a column of a multiple of 2^64 bytes (A1)"),
        _ => None,
    }
}

/// Why the Rust may refuse with another number: it went on where the port ended, or met two faults in the other order.
pub fn other_fault(image: &[u8], number: u64, place: u64, told: &Told) -> Option<&'static str> {
    if let Some(why) = accepted(image, number, place) {
        return Some(why);
    }
    let kind = |at: u64| kind_at(image, at as usize);
    let fragment = place >= 24 && [b"##DT", b"##DV", b"##SD"].iter().any(|k| kind(place - 24) == *k);
    let data = number == 14 || number == 15 || number == 4 && fragment;
    match (number, told.number) {
        (_, 4 | 8 | 9 | 16 | 18) if data => Some("data before metadata and attachments"),
        (4, 15) if fragment => Some("ranges before records (A3)"),
        (4, 4 | 8 | 9 | 16 | 18) if kind(place) == b"##AT" => Some("an attachment's range before its links (A3)"),
        _ => None,
    }
}

/// Why the Rust may end by a panic or for want of memory where the port refuses.
pub fn ended(image: &[u8], number: u64, place: u64) -> Option<&'static str> {
    let claims = (0..image.len()).any(|i| image[i..].starts_with(b"##") && word(image, i + 8) > image.len() as u64);
    match number {
        6 | 7 | 17 | 19 => accepted(image, number, place),
        4 | 14 | 15 if claims => Some("allocation (A2)"),
        _ => None,
    }
}

fn version(image: &[u8]) -> u32 {
    IdentificationBlock::parse_block_version(&image[8..16]).map_or(0, |(a, b)| a as u32 * 100 + b as u32)
}

fn copied_kind(image: &[u8], at: usize) -> bool {
    [b"##TX", b"##MD", b"##CC", b"##SI", b"##FH"].iter().any(|k| kind_at(image, at) == *k)
}

fn history_without_links(image: &[u8], place: usize) -> bool {
    let (mut at, mut met) = (link(image, 64, 1), HashSet::new());
    while at != place && copied_kind(image, at) && met.insert(at) {
        at = link(image, at, 0);
    }
    at == place && copied_kind(image, at) && link_count(image, at) == 0
}

/// The limit of the item at `place`, if it is passed; or the sums of the DG there, if they leave 64 bits.
fn past_limit(image: &[u8], place: usize) -> Option<&'static str> {
    let all = data_groups(image);
    let groups = || all.iter().flat_map(|d| &d.groups);
    let (passed, limit) = match kind_at(image, place) {
        b"##DG" if all.len() > 512 => (true, "over 512 DG"),
        b"##DG" => (all.iter().any(|d| d.at == place && wide(image, d)), "bytes or count over 2^64 - 1"),
        b"##CG" => (groups().count() > 512, "over 512 CG"),
        b"##CN" => (groups().map(|g| g.channels.len()).sum::<usize>() > 512, "over 512 CN"),
        b"##DT" | b"##DV" | b"##SD" => (chains(image, &all).iter().map(|c| c.0.len()).sum::<usize>() > 1024, "over 1,024 fragments"),
        b"##DL" | b"##HL" => (chains(image, &all).iter().any(|c| c.1 > 256), "over 256 DL and HL in a chain"),
        b"##AT" => (chain(image, link(image, 64, 3), b"##AT").len() > 64, "over 64 attachments"),
        _ => (copied(image, &all) > 2048, "over 2,048 copied blocks"),
    };
    passed.then_some(limit)
}

/// The data chains of all DG and of all type 1 channels.
fn chains(image: &[u8], all: &[DataGroup]) -> Vec<(Vec<usize>, usize)> {
    let data = all.iter().map(|d| fragments(image, link(image, d.at, 2), &RECORDS));
    let channels = all.iter().flat_map(|d| &d.groups).flat_map(|g| &g.channels);
    let signals = channels.filter(|cn| data_field(image, **cn, 0, 1) == 1).map(|cn| fragments(image, link(image, *cn, 5), &SIGNALS));
    data.chain(signals).collect()
}

/// Blocks of a copied kind that are reached from the links that copying begins at.
fn copied(image: &[u8], all: &[DataGroup]) -> usize {
    let mut left = vec![link(image, 64, 5), link(image, 64, 1)];
    for at in chain(image, link(image, 64, 3), b"##AT") {
        left.extend((1..link_count(image, at).min(image.len() as u64) as usize).map(|i| link(image, at, i)));
    }
    for d in all {
        left.push(link(image, d.at, 3));
        for g in &d.groups {
            left.extend([2, 3, 5].map(|i| link(image, g.at, i)));
            left.extend(g.channels.iter().flat_map(|cn| [2, 3, 4, 6, 7].map(|i| link(image, *cn, i))));
        }
    }
    let mut met = HashSet::new();
    while let Some(at) = left.pop() {
        if copied_kind(image, at) && met.insert(at) {
            left.extend((0..link_count(image, at).min(image.len() as u64) as usize).map(|i| link(image, at, i)));
        }
    }
    met.len()
}

/// DT bytes, DV bytes and count of a DG's one group.
fn sums(image: &[u8], d: &DataGroup) -> (u128, u128, u128) {
    let [g] = &d.groups[..] else { return (0, 0, 0) };
    let (all, _) = fragments(image, link(image, d.at, 2), &RECORDS);
    let bytes = |kind: &[u8]| all.iter().filter(|f| kind_at(image, **f) == kind).map(|f| claimed(image, *f) as u128).sum::<u128>();
    let (dt, dv) = (bytes(b"##DT"), bytes(b"##DV"));
    let (ids, samples, inval) = (data_field(image, d.at, 0, 1), data_field(image, g.at, 24, 4), data_field(image, g.at, 28, 4));
    let count = dt.checked_div((ids + samples + inval) as u128).unwrap_or(0) + dv.checked_div(samples as u128).unwrap_or(0);
    (dt, dv, count)
}

fn wide(image: &[u8], d: &DataGroup) -> bool {
    let (dt, dv, count) = sums(image, d);
    dt.max(dv).max(count) > u64::MAX as u128
}

/// Whether a channel of some width times its group's records gives a multiple of 2^64 bytes.
fn wraps(image: &[u8]) -> bool {
    let all = data_groups(image);
    all.iter().any(|d| {
        let count = sums(image, d).2;
        let widths = d.groups.iter().flat_map(|g| &g.channels).flat_map(|cn| widths(image, *cn));
        count > 0 && widths.into_iter().any(|w| w > 0 && (w * count) % (1 << 64) == 0)
    })
}

/// A channel's width without and with an invalidation byte.
fn widths(image: &[u8], cn: usize) -> [u128; 2] {
    let at = cn + 24 + 8 * link_count(image, cn) as usize;
    let bits = field(image, at + 3, 1) + field(image, at + 8, 4);
    let bytes = bits.div_ceil(8) as u128;
    [bytes, bytes + 1]
}
