//! References of channels to attachments, written from documents 01 and 02 apart from the port: the header's attachments as planning starts with them, and
//! the references of a channel whose column is planned.
use crate::blocks::{data_field, kind_at, link, link_count, word};
use crate::model::Refusal;

const MOST: usize = 64;
const MOST_FRONT: u128 = 268_435_456;

/// The attachments of the header's chain, in order: of each its header (4), 18, its whole range (4), 19. The chain ends quietly where it returns to an earlier
/// one and at another kind.
pub fn attachments(image: &[u8]) -> Result<Vec<usize>, Refusal> {
    let (mut all, mut at) = (Vec::new(), link(image, 64, 3));
    while at != 0 && !all.contains(&at) {
        let (place, past) = (at as u64, |bytes: u64| at as u128 + bytes as u128 > image.len() as u128);
        if past(24) {
            return Err((4, place));
        }
        if kind_at(image, at) != b"##AT" {
            break;
        }
        let (length, links) = (word(image, at + 8), link_count(image, at));
        let front = 24 + 8 * links as u128;
        match () {
            _ if links < 4 || front > length as u128 || front > MOST_FRONT => return Err((18, place)),
            _ if past(length) => return Err((4, place)),
            _ if all.len() == MOST => return Err((19, place)),
            _ => {}
        }
        all.push(at);
        at = link(image, at, 0);
    }
    Ok(all)
}

/// A channel's references: as many as the number at data byte 22 says, the links after its eighth. 28 where it has fewer links, or one that isn't 0 leads to
/// none of the attachments.
pub fn references(image: &[u8], cn: usize, attachments: &[usize]) -> Result<Vec<usize>, Refusal> {
    let count = data_field(image, cn, 22, 2) as usize;
    let all: Vec<usize> = (8..8 + count).map(|i| link(image, cn, i)).collect();
    if link_count(image, cn) < 8 + count as u64 || all.iter().any(|to| *to != 0 && !attachments.contains(to)) {
        return Err((28, cn as u64));
    }
    Ok(all)
}
