//! How a program in Rust converts a recording with libsitaungo: convert RECORDING [RESULT]. Prints the listing and where the parts of the result lie.
//!
//!     rustc -O --edition 2021 -L target/staticlib host/examples/convert.rs
use std::io::Write;

const WORK_WORDS: usize = 8192;
const LIST_WORDS: usize = 2049;
const LISTING_BYTES: usize = 119354;
const REFUSED_OUTPUT: u64 = 20;
const BLOCK_SIZE: u64 = 4194304;

#[repr(C)]
struct Outcome {
    accepted: bool,
    number: u64,
    place: u64,
    source_groups: u64,
    time_groups: u64,
    signal_groups: u64,
    shared_time_groups: u64,
    data_blocks: u64,
    metadata_size: u64,
    file_size: u64,
}

#[link(name = "sitaungo", kind = "static")]
extern "C" {
    fn sitaungo_convert(
        image: *const u8, image_length: usize, size: u64, ident: *const u8, ident_length: usize, text: *const u8, text_length: usize, time: u64,
        source: *mut u64, source_length: usize, fragments: *mut u64, fragments_length: usize, columns: *mut u64, columns_length: usize,
        copies: *mut u64, copies_length: usize, out: *mut u8, out_length: usize, list: *mut u64, list_length: usize,
    ) -> Outcome;
    fn sitaungo_list(
        image: *const u8, image_length: usize, size: u64, ident: *const u8, ident_length: usize, text: *const u8, text_length: usize,
        out: u64, list_words: u64,
        source: *mut u64, source_length: usize, fragments: *mut u64, fragments_length: usize, columns: *mut u64, columns_length: usize,
        copies: *mut u64, copies_length: usize, lines: *mut u8, lines_length: usize,
    ) -> usize;
}

/// What a call is lent besides image, output and list.
struct Lent {
    size: u64,
    ident: [u8; 64],
    text: &'static [u8],
    time: u64,
    work: [Vec<u64>; 4],
}

// Slices of Rust have true lengths, and mutable ones overlap no other: all that the library asks for.
fn convert(image: &[u8], lent: &mut Lent, out: &mut [u8], list: &mut [u64]) -> Outcome {
    let [a, b, c, d] = &mut lent.work;
    unsafe {
        sitaungo_convert(
            image.as_ptr(), image.len(), lent.size, lent.ident.as_ptr(), lent.ident.len(), lent.text.as_ptr(), lent.text.len(), lent.time,
            a.as_mut_ptr(), a.len(), b.as_mut_ptr(), b.len(), c.as_mut_ptr(), c.len(), d.as_mut_ptr(), d.len(),
            out.as_mut_ptr(), out.len(), list.as_mut_ptr(), list.len(),
        )
    }
}

fn listing(image: &[u8], lent: &mut Lent, out: u64) -> Vec<u8> {
    let mut lines = vec![0; LISTING_BYTES];
    let [a, b, c, d] = &mut lent.work;
    let length = unsafe {
        sitaungo_list(
            image.as_ptr(), image.len(), lent.size, lent.ident.as_ptr(), lent.ident.len(), lent.text.as_ptr(), lent.text.len(),
            out, LIST_WORDS as u64,
            a.as_mut_ptr(), a.len(), b.as_mut_ptr(), b.len(), c.as_mut_ptr(), c.len(), d.as_mut_ptr(), d.len(),
            lines.as_mut_ptr(), lines.len(),
        )
    };
    lines.truncate(length);
    lines
}

fn main() -> std::io::Result<()> {
    let arguments: Vec<String> = std::env::args().collect();
    if arguments.len() < 2 {
        eprintln!("usage: convert RECORDING [RESULT]");
        std::process::exit(1);
    }
    let image = std::fs::read(&arguments[1])?;
    let mut ident = [0; 64];
    ident[..24].copy_from_slice(b"MDF     4.20    sitaungo");
    ident[28..30].copy_from_slice(&420u16.to_le_bytes());
    let mut lent = Lent { size: BLOCK_SIZE, ident, text: b"convert", time: 0, work: std::array::from_fn(|_| vec![0; WORK_WORDS]) };
    let mut omissions = vec![0; LIST_WORDS];
    // an empty output: refusal 20 has the bytes needed as its place
    let mut answer = convert(&image, &mut lent, &mut [], &mut omissions);
    let mut out = Vec::new();
    if answer.number == REFUSED_OUTPUT {
        out = vec![0; answer.place as usize];
        answer = convert(&image, &mut lent, &mut out, &mut omissions);
    }
    if !answer.accepted {
        println!("refused {} place {}", answer.number, answer.place);
        std::process::exit(2);
    }
    std::io::stdout().write_all(&listing(&image, &mut lent, answer.file_size))?;
    println!("metadata {} bytes {}", answer.metadata_size, answer.file_size);
    if let Some(path) = arguments.get(2) {
        std::fs::write(path, out)?;
    }
    Ok(())
}
