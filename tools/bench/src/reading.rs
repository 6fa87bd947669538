//! bench read TURNS: times reading ranges of column files by both calls, and plots, beside a plain copy of as many bytes.
use crate::loads::{recording, Group};
use crate::{convert, times, word};

#[repr(C)]
struct Read {
    accepted: bool,
    number: u64,
    place: u64,
}

#[repr(C)]
struct Part {
    accepted: bool,
    split: bool,
    number: u64,
    place: u64,
    offset: u64,
    length: u64,
}

#[repr(C)]
#[derive(Clone, Copy)]
struct Request {
    column: u64,
    first: u64,
    count: u64,
    place: u64,
}

#[repr(C)]
struct Plotting {
    accepted: bool,
    number: u64,
    place: u64,
    position: u64,
}

#[link(name = "sitaungo", kind = "static")]
extern "C" {
    fn sitaungo_read_range(image: *const u8, image_len: usize, column: u64, first: u64, count: u64, buffer: *mut u8, buffer_len: usize) -> Read;
    fn sitaungo_range_part(image: *const u8, image_len: usize, column: u64, first: u64, count: u64) -> Part;
    fn sitaungo_plot(image: *const u8, image_len: usize, table: *const Request, entries: usize, destination: *mut u8, destination_len: usize) -> Plotting;
    fn mmap(at: *mut u8, len: usize, protection: i32, flags: i32, file: i32, offset: i64) -> *mut u8;
}

fn read(file: &[u8], column: u64, first: u64, count: u64, buffer: &mut [u8]) {
    let r = unsafe { sitaungo_read_range(file.as_ptr(), file.len(), column, first, count, buffer.as_mut_ptr(), buffer.len()) };
    assert!(r.accepted, "refused {} place {}", r.number, r.place);
}

fn part(file: &[u8], column: u64, first: u64, count: u64) -> Part {
    let p = unsafe { sitaungo_range_part(file.as_ptr(), file.len(), column, first, count) };
    assert!(p.accepted, "refused {} place {}", p.number, p.place);
    p
}

fn plot(file: &[u8], table: &[Request], destination: &mut [u8]) {
    let p = unsafe { sitaungo_plot(file.as_ptr(), file.len(), table.as_ptr(), table.len(), destination.as_mut_ptr(), destination.len()) };
    assert!(p.accepted, "refused {} place {} position {}", p.number, p.place, p.position);
}

/// A plot of so many entries of so many records of 4 bytes, spread over all columns and their records: one call, single reads, a plain copy.
fn plot_line(name: &str, file: &[u8], turns: usize, columns: u64, all: u64, entries: u64, records: u64) {
    let bytes = 4 * records;
    let entry = |i| Request { column: i * columns / entries, first: i * (all - records) / entries, count: records, place: i * bytes };
    let table: Vec<Request> = (0..entries).map(entry).collect();
    let (mut drawn, mut read_out) = (vec![1u8; (entries * bytes) as usize], vec![2u8; (entries * bytes) as usize]);
    let plots = times(turns, || plot(file, &table, &mut drawn));
    let reads = times(turns, || {
        table.iter().for_each(|e| read(file, e.column, e.first, e.count, &mut read_out[e.place as usize..(e.place + bytes) as usize]))
    });
    assert!(drawn == read_out, "other bytes");
    let copy = times(turns, || read_out.copy_from_slice(std::hint::black_box(&drawn)));
    println!("| {name} | {} | {:.4} | {:.4} | {:.4} |", file.len() / 1_000_000, plots.0, reads.0, copy.0);
}

/// So many ranges of so many records of a column, spread over all its records; a record's bytes.
struct Ranges {
    column: u64,
    ranges: u64,
    records: u64,
    all: u64,
    width: usize,
}

/// The best of so many turns, each of one read, one part and one copy.
fn line(name: &str, file: &[u8], turns: usize, r: Ranges) {
    let bytes = r.records as usize * r.width;
    let (mut buffer, mut copied) = (vec![1u8; bytes], vec![1u8; bytes]);
    let starts: Vec<u64> = (0..r.ranges).map(|i| i * (r.all - r.records) / r.ranges).collect();
    let [mut reads, mut parts, mut copies] = [f64::MAX; 3];
    for _ in 0..turns {
        reads = reads.min(times(1, || starts.iter().for_each(|s| read(file, r.column, *s, r.records, &mut buffer))).0);
        parts = parts.min(times(1, || assert!(starts.iter().map(|s| part(file, r.column, *s, r.records).length).sum::<u64>() > 0)).0);
        copies = copies.min(times(1, || starts.iter().for_each(|_| copied.copy_from_slice(std::hint::black_box(&buffer)))).0);
    }
    println!("| {name} | {} | {reads:.4} | {parts:.4} | {copies:.4} |", file.len() / 1_000_000);
}

/// The last 8 records of a column of 8 bits.
fn last(name: &str, turns: usize, blocks: Blocks) {
    let (file, all) = one_column(blocks);
    let mut buffer = [0; 8];
    let reads = times(turns, || read(file, 0, all - 8, 8, &mut buffer));
    let parts = times(turns, || assert!(part(file, 0, all - 8, 8).accepted));
    println!("| the last 8 records of {name} | {} | {:.4} | {:.4} | |", file.len() / 1_000_000, reads.0, parts.0);
}

/// The blocks that a DL lists, over and over where fewer are there; the bytes of each.
struct Blocks {
    listed: u64,
    there: u64,
    bytes: u64,
}

/// A file of one 8-bit column of these blocks, of which only headers are touched, and its records.
fn one_column(blocks: Blocks) -> (&'static mut [u8], u64) {
    let Blocks { listed, there, bytes } = blocks;
    let dl = 64 + 104 + 64 + 104 + 160;
    let first = dl + 24 + 8 * (listed + 1) + 16;
    let size = (first + there * (24 + bytes)) as usize;
    // private, anonymous, without reserving memory
    let at = unsafe { mmap(std::ptr::null_mut(), size, 3, 0x4022, -1, 0) };
    assert!(at as isize != -1, "no room for {size} bytes");
    let file = unsafe { std::slice::from_raw_parts_mut(at, size) };
    file[..16].copy_from_slice(b"MDF     4.20    ");
    let mut put = |at: u64, bytes: &[u8]| file[at as usize..at as usize + bytes.len()].copy_from_slice(bytes);
    let mut block = |at: u64, kind: &[u8; 4], size: u64, links: &[u64]| {
        put(at, kind);
        put(at + 8, &size.to_le_bytes());
        put(at + 16, &(links.len() as u64).to_le_bytes());
        links.iter().enumerate().for_each(|(i, l)| put(at + 24 + 8 * i as u64, &l.to_le_bytes()));
    };
    let (dg, cg, cn) = (168, 232, 336);
    block(64, b"##HD", 104, &[dg, 0, 0, 0, 0, 0]);
    block(dg, b"##DG", 64, &[0, cg, dl, 0]);
    block(cg, b"##CG", 104, &[0, cn, 0, 0, 0, 0]);
    block(cn, b"##CN", 160, &[0; 8]);
    let place = |i: u64| first + i * (24 + bytes);
    let links: Vec<u64> = std::iter::once(0).chain((0..listed).map(|i| place(i % there))).collect();
    block(dl, b"##DL", first - dl, &links);
    (0..there).for_each(|i| block(place(i), b"##DV", 24 + bytes, &[]));
    put(cg + 72 + 8, &(listed * bytes).to_le_bytes());
    put(cg + 72 + 24, &1u32.to_le_bytes());
    put(first - 16, &1u32.to_le_bytes());
    put(first - 8, &bytes.to_le_bytes());
    (file, listed * bytes)
}

pub fn run(turns: usize) {
    println!("| ranges | MB of the file | read (ms) | part (ms) | copy (ms) |\n|---|---:|---:|---:|---:|");
    let (alone, all) = one_column(Blocks { listed: 1, there: 1, bytes: 240_000 });
    let data = alone.len() - all as usize;
    alone[data..].fill(7);
    line("a column of 240 kB, the only one, whole", alone, 200 * turns, Ranges { column: 0, ranges: 1, records: all, all, width: 1 });
    let rack = convert(&recording(&[Group::of(300, 32, 0)], 60_000, 4 << 20));
    assert_eq!(&rack[word(&rack, 88) as usize..][..4], b"##DG");
    line("a column of 240 kB of 300, whole", &rack, 200 * turns, Ranges { column: 150, ranges: 1, records: 60_000, all: 60_000, width: 4 });
    line("1,000 ranges of 100 records of it", &rack, turns, Ranges { column: 150, ranges: 1000, records: 100, all: 60_000, width: 4 });
    last("50,000 blocks of 8 bytes", 10 * turns, Blocks { listed: 50_000, there: 50_000, bytes: 8 });
    last("100,000 blocks of 8 bytes", 10 * turns, Blocks { listed: 100_000, there: 100_000, bytes: 8 });
    last("1,100 blocks of 4 MiB", 10 * turns, Blocks { listed: 1100, there: 1100, bytes: 4 << 20 });
    last("a DL of 272 MB, one block of 8 bytes 34 million times", turns, Blocks { listed: 34_000_000, there: 1, bytes: 8 });
    println!("\n| plots | MB of the file | one call (ms) | single reads (ms) | copy (ms) |\n|---|---:|---:|---:|---:|");
    plot_line("256 entries of 1,000 records over 300 columns", &rack, turns, 300, 60_000, 256, 1000);
    plot_line("one entry of 1,000 records", &rack, turns, 300, 60_000, 1, 1000);
    plot_line("256 entries of no record", &rack, turns, 300, 60_000, 256, 0);
}
