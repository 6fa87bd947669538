//! The port's reader: `sitaungo_read_range`, `sitaungo_range_part` and `sitaungo_plot` of the static library.
use super::reader::Part;

#[repr(C)]
struct Read {
    accepted: bool,
    number: u64,
    place: u64,
}

#[repr(C)]
struct Handed {
    accepted: bool,
    split: bool,
    number: u64,
    place: u64,
    offset: u64,
    length: u64,
}

/// An entry of a plot.
#[repr(C)]
#[derive(Clone, Copy, Debug)]
pub struct Request {
    pub column: u64,
    pub first: u64,
    pub count: u64,
    pub place: u64,
}

#[repr(C)]
struct Plotting {
    accepted: bool,
    number: u64,
    place: u64,
    position: u64,
}

#[rustfmt::skip]
#[link(name = "sitaungo", kind = "static")]
extern "C" {
    fn sitaungo_read_range(image: *const u8, image_len: usize, column: u64, first: u64, count: u64, buffer: *mut u8, buffer_len: usize) -> Read;
    fn sitaungo_range_part(image: *const u8, image_len: usize, column: u64, first: u64, count: u64) -> Handed;
    fn sitaungo_plot(image: *const u8, image_len: usize, table: *const Request, entries: usize, destination: *mut u8, destination_len: usize) -> Plotting;
}

/// What stands in a buffer at entry.
const BUFFER_BYTE: u8 = 0xa5;

/// The answer with the bytes read; a refusal must leave the buffer as it was, and its other numbers zero.
pub fn read(image: &[u8], column: u64, first: u64, count: u64, buffer: usize) -> Result<Vec<u8>, (u64, u64)> {
    let mut bytes = vec![BUFFER_BYTE; buffer];
    // Safety: both pointers lead to as many bytes as the lengths after them say, and the buffer is apart from the image.
    let r = unsafe { sitaungo_read_range(image.as_ptr(), image.len(), column, first, count, bytes.as_mut_ptr(), buffer) };
    if r.accepted {
        assert!(r.number == 0 && r.place == 0, "an accepted read has number or place");
        return Ok(bytes);
    }
    assert!(bytes.iter().all(|b| *b == BUFFER_BYTE), "a refused read changed the buffer");
    Err((r.number, r.place))
}

pub fn part(image: &[u8], column: u64, first: u64, count: u64) -> Result<Part, (u64, u64)> {
    // Safety: the pointer leads to as many bytes as the length after it says.
    let h = unsafe { sitaungo_range_part(image.as_ptr(), image.len(), column, first, count) };
    assert!(h.accepted || !h.split, "a refusal is split");
    assert!(!h.accepted || h.number == 0 && h.place == 0, "an accepted part has number or place");
    assert!(h.accepted && !h.split || h.offset == 0 && h.length == 0, "offset or length without a part");
    match (h.accepted, h.split) {
        (false, _) => Err((h.number, h.place)),
        (true, true) => Ok(Part::Split),
        (true, false) => Ok(Part::At { offset: h.offset, length: h.length }),
    }
}

/// A refusal's number, place and position, and the destination, which holds some bytes at entry.
pub fn plot(image: &[u8], table: &[Request], before: &[u8]) -> (Option<(u64, u64, u64)>, Vec<u8>) {
    let mut bytes = before.to_vec();
    // Safety: each pointer leads to as many elements as the length after it says, and the destination is apart from image and table.
    let p = unsafe { sitaungo_plot(image.as_ptr(), image.len(), table.as_ptr(), table.len(), bytes.as_mut_ptr(), bytes.len()) };
    assert!(!p.accepted || p.number == 0 && p.place == 0 && p.position == 0, "an accepted plot has number, place or position");
    ((!p.accepted).then_some((p.number, p.place, p.position)), bytes)
}
