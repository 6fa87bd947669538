//! A small image that still shows a disagreement.
use crate::blocks::{link_count, put_word, word};
use crate::case::{edited, Case};

/// Fewer edits, then a shorter image, ranges of zeros, and blocks moved over these, as long as the disagreement stays.
pub fn shrink(case: &Case, mut stays: impl FnMut(&[u8]) -> bool) -> Vec<u8> {
    let mut edits = case.edits.clone();
    let mut i = 0;
    while i < edits.len() {
        let mut fewer = edits.clone();
        fewer.remove(i);
        if stays(&edited(&case.sound.bytes, &fewer)) {
            edits = fewer;
        } else {
            i += 1;
        }
    }
    let mut bytes = edited(&case.sound.bytes, &edits);
    loop {
        let before = bytes.clone();
        cut(&mut bytes, &mut stays);
        clear(&mut bytes, &mut stays);
        close(&mut bytes, &mut stays);
        if bytes == before {
            return bytes;
        }
    }
}

/// The same disagreement up to the Rust's own words.
pub fn alike(a: &str, b: &str) -> bool {
    a.split(':').next() == b.split(':').next()
}

fn cut(bytes: &mut Vec<u8>, stays: &mut impl FnMut(&[u8]) -> bool) {
    let mut step = bytes.len() / 2;
    while step > 0 {
        if bytes.len() >= step && stays(&bytes[..bytes.len() - step]) {
            bytes.truncate(bytes.len() - step);
        } else {
            step /= 2;
        }
    }
}

fn clear(bytes: &mut [u8], stays: &mut impl FnMut(&[u8]) -> bool) {
    let mut step = (bytes.len() / 2).next_power_of_two();
    while step > 0 {
        for from in (0..bytes.len()).step_by(step) {
            let to = (from + step).min(bytes.len());
            let kept = bytes[from..to].to_vec();
            if kept.iter().all(|b| *b == 0) {
                continue;
            }
            bytes[from..to].fill(0);
            if !stays(bytes) {
                bytes[from..to].copy_from_slice(&kept);
            }
        }
        step /= 2;
    }
}

/// Takes out runs of zeros, with every link past them set back.
fn close(bytes: &mut Vec<u8>, stays: &mut impl FnMut(&[u8]) -> bool) {
    let mut from = 64;
    while from < bytes.len() {
        let n = bytes[from..].iter().take_while(|b| **b == 0).count() / 8 * 8;
        let mut part = n;
        while part > 0 {
            let closed = without(bytes, from, part);
            if stays(&closed) {
                *bytes = closed;
                break;
            }
            part = part / 16 * 8;
        }
        from += (n - part).max(1);
    }
}

fn without(bytes: &[u8], from: usize, n: usize) -> Vec<u8> {
    let mut closed = bytes.to_vec();
    for at in (64..bytes.len()).filter(|i| bytes[*i..].starts_with(b"##")) {
        let links = link_count(bytes, at).min(bytes.len().saturating_sub(at + 24) as u64 / 8) as usize;
        for link in (0..links).map(|i| at + 24 + 8 * i) {
            let to = word(bytes, link);
            if to >= (from + n) as u64 && to <= bytes.len() as u64 {
                put_word(&mut closed, link, to - n as u64);
            }
        }
    }
    closed.drain(from..from + n);
    closed
}
