//! Recordings that are converted by what is built in as another one is by a table, so that the Rust can be asked: the types of its channels are changed
//! in place. A type 4 that is kept becomes 7, a type that is stored as 0 becomes 0, one that is omitted becomes 4, whose links aren't read.
use crate::blocks::{data_field, link_count, put_word, word};
use crate::model::{Treatment, Treatments};
use crate::walk::data_groups;

/// A type over 6, which is always kept.
const OTHER: u8 = 7;

/// The channels of a recording, each with the place of its type.
fn channels(image: &[u8]) -> Vec<(usize, usize)> {
    let type_at = |cn: usize| cn + 24 + 8 * link_count(image, cn).min(image.len() as u64) as usize;
    let all = data_groups(image).into_iter().flat_map(|d| d.groups).flat_map(|g| g.channels);
    all.map(|cn| (cn, type_at(cn))).filter(|(_, at)| *at < image.len()).collect()
}

/// Whether no channel's type lies in another block too, where changing it would change more.
pub fn is_plain(image: &[u8]) -> bool {
    let starts = (64..image.len()).filter(|i| image[*i..].starts_with(b"##"));
    let claims = starts.map(|i| (i, i.saturating_add(word(image, i + 8) as usize)));
    let blocks: Vec<(usize, usize)> = claims.filter(|(_, to)| *to <= image.len()).collect();
    channels(image).iter().all(|(cn, at)| !blocks.iter().any(|(from, to)| from != cn && (*from..*to).contains(at)))
}

fn with_types(image: &[u8], f: impl Fn(u8) -> u8) -> Vec<u8> {
    let mut made = image.to_vec();
    channels(image).iter().for_each(|(cn, at)| made[*at] = f(data_field(image, *cn, 0, 1) as u8));
    made
}

/// The recording that stands for the image by the treatments, but for the reasons of omissions and the number of a type 4 that is kept.
pub fn treated(image: &[u8], treatments: &Treatments) -> Vec<u8> {
    with_types(image, |kind| match treatments.treat(kind) {
        Treatment::Keep if kind == 4 => OTHER,
        Treatment::Keep => kind,
        Treatment::Omit(_) => 4,
        Treatment::StoreAs0 => 0,
    })
}

/// The recording of which no channel becomes a column.
pub fn bare(image: &[u8]) -> Vec<u8> {
    with_types(image, |_| 4)
}

/// The recording whose HD leads to no history, attachment or comment.
pub fn headless(image: &[u8]) -> Vec<u8> {
    let mut made = image.to_vec();
    if made.len() >= 64 + 24 + 48 {
        [1, 3, 5].iter().for_each(|i| put_word(&mut made, 64 + 24 + 8 * i, 0));
    }
    made
}
