//! The difference that docs/DIFFERENCES.md lists of shared clocks: the Rust compares decoded units, the port their kinds and bytes.
use super::model::{shared, By, Clocks};
use crate::blocks::{kind_at, link, link_count, word};
use crate::port_side;
use crate::rust_side::{Answer, Place};
use std::collections::HashSet;

pub const SHARES: &str = "units decoded alike over other bytes or kinds: the Rust shares more";
pub const READS: &str = "units decoded alike over other bytes or kinds: data that only the Rust compares";
pub const COPIES: &str = "units decoded alike over other bytes or kinds: metadata that only the port copies";
pub const ORDER: &str = "units decoded alike over other bytes or kinds: metadata of a time column that the Rust copies earlier";

/// Why the two may differ, where units of the image are such.
pub fn units(image: &[u8], rust: &Answer, port: &port_side::Answer) -> Option<&'static str> {
    let clocks = Clocks::of(image)?;
    match (clocks.start(By::Text), clocks.start(By::Bytes), rust) {
        // ranges come before records here (A3)
        (Err(r), bytes, Answer::Refused(told)) if Err(r) != bytes && (told.number == r.0 || (r.0, told.number) == (4, 15)) => return Some(READS),
        (Ok(()), Ok(()), _) => {}
        _ => return None,
    }
    let (theirs, ours) = (clocks.stands(By::Text), clocks.stands(By::Bytes));
    let apart: Vec<usize> = (0..ours.len()).filter(|g| ours[*g] != theirs[*g]).collect();
    let only_here = || apart.iter().filter(|g| ours[**g] == **g).flat_map(|g| below(image, clocks.places(*g)));
    let standing_there = || apart.iter().flat_map(|g| below(image, clocks.places(theirs[*g])));
    match (rust, port.refused) {
        _ if apart.is_empty() => None,
        (Answer::Converted(c), None) => ((c.counts[3], port.counts[3]) == (shared(&theirs), shared(&ours))).then_some(SHARES),
        (_, Some((4 | 8 | 9 | 16 | 19, place))) if only_here().any(|at| at as u64 == place) => Some(COPIES),
        (Answer::Refused(told), Some((4 | 8 | 9 | 16 | 19, _))) => standing_there().any(|at| is_told(image, told.place, at as u64)).then_some(ORDER),
        _ => None,
    }
}

/// Whether the Rust's words tell of the block at a place.
fn is_told(image: &[u8], told: Place, at: u64) -> bool {
    match told {
        Place::At(place) => place == at,
        Place::Ends(end) => [24, word(image, at as usize + 8)].iter().any(|n| at.saturating_add(*n) == end),
        _ => false,
    }
}

/// The blocks that a time column of these DG, CG and CN copies or looks at.
fn below(image: &[u8], places: Option<[usize; 3]>) -> HashSet<usize> {
    let Some([dg, cg, cn]) = places else { return HashSet::new() };
    let mut left = vec![link(image, dg, 3)];
    left.extend([2, 3, 5].map(|i| link(image, cg, i)));
    left.extend([2, 3, 4, 6, 7].map(|i| link(image, cn, i)));
    let mut met = HashSet::new();
    while let Some(at) = left.pop() {
        let copied = [b"##TX", b"##MD", b"##CC", b"##SI", b"##FH"].iter().any(|k| kind_at(image, at) == *k);
        if met.insert(at) && copied {
            left.extend((0..link_count(image, at).min(image.len() as u64) as usize).map(|i| link(image, at, i)));
        }
    }
    met
}
