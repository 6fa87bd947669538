//! The Rust's `skipped_channels` read as document 01's omission list.
//!
//! Every reason has words of its own, so the words always tell it. The label in front of them is a group's name, or a group's and a channel's; it
//! tells the address where no other CG or CN of the image has the same one. Where several have it (unnamed channels of one group, names that an edit
//! made equal), any of them fits. A channel of type 4 that lies outside its record is omitted with 4, as docs/DIFFERENCES.md lists: the Rust looks at the
//! record first.
use crate::blocks::{data_field, kind_at};
use crate::walk::{labels, Label};

const REASONS: [(u64, &str); 7] = [
    (1, ": remote master dropped ("),
    (2, ": lies outside the record"),
    (3, ": additional master channel"),
    (4, ": synchronization channels are not supported"),
    (5, ": array (##CA) channels are not supported"),
    (6, ": structure (##CN composition) channels are not supported"),
    (7, ": VLSD data stored in a VLSD channel group is not supported"),
];

/// One omission: the reason of its words, and the addresses that its label fits, in the order of the walk, each with the reason that is due there.
pub struct Omission {
    pub reason: u64,
    pub due: Vec<(u64, u64)>,
}

pub fn of(image: &[u8], skipped: &[String]) -> Vec<Omission> {
    if skipped.is_empty() {
        return Vec::new();
    }
    let labels = labels(image);
    skipped.iter().map(|words| one(image, words, &labels)).collect()
}

fn one(image: &[u8], words: &str, labels: &[Label]) -> Omission {
    for (reason, tail) in REASONS {
        let label = if reason == 1 { words.rfind(tail).map(|i| &words[..i]) } else { words.strip_suffix(tail) };
        if let Some(label) = label {
            let due = labels.iter().filter(|l| l.words == label).map(|l| (l.at as u64, due_at(image, l.at, reason))).collect();
            return Omission { reason, due };
        }
    }
    Omission { reason: 0, due: Vec::new() }
}

/// 4 in place of 2 exactly at a CN of type 4.
fn due_at(image: &[u8], at: usize, reason: u64) -> u64 {
    let sync = kind_at(image, at) == b"##CN" && data_field(image, at, 0, 1) == 4;
    if reason == 2 && sync {
        4
    } else {
        reason
    }
}

/// Whether a list of addresses and reasons is the Rust's, in its order.
pub fn agree(rust: &[Omission], port: &[(u64, u64)]) -> bool {
    rust.len() == port.len() && rust.iter().zip(port).all(|(r, p)| r.due.contains(p))
}

/// Whether every label has one address.
pub fn determined(rust: &[Omission]) -> bool {
    rust.iter().all(|o| o.due.len() == 1)
}
