//! How a program in Rust reads records of a column file with libsitaungo: read FILE COLUMN FIRST COUNT WIDTH. Prints the records' bytes.
//!
//!   rustc -O -L target/staticlib host/examples/read.rs

#[repr(C)]
struct Read {
    accepted: bool,
    number: u64,
    place: u64,
}

#[link(name = "sitaungo", kind = "static")]
extern "C" {
    fn sitaungo_read_range(image: *const u8, image_length: usize, column: u64, first: u64, count: u64, buffer: *mut u8, length: usize) -> Read;
}

/// The bytes of so many records of `width` bytes each, from one on; else the refusal's number and place.
fn read_range(file: &[u8], column: u64, first: u64, count: u64, width: usize) -> Result<Vec<u8>, (u64, u64)> {
    let mut buffer = vec![0; count as usize * width];
    // Safety: both pointers lead to as many bytes as the lengths after them say, and the buffer is apart from the file.
    let r = unsafe { sitaungo_read_range(file.as_ptr(), file.len(), column, first, count, buffer.as_mut_ptr(), buffer.len()) };
    if r.accepted {
        Ok(buffer)
    } else {
        Err((r.number, r.place))
    }
}

fn main() -> Result<(), Box<dyn std::error::Error>> {
    let words: Vec<String> = std::env::args().skip(1).collect();
    let [file, column, first, count, width] = &words[..] else { return Err("read FILE COLUMN FIRST COUNT WIDTH".into()) };
    let file = std::fs::read(file)?;
    match read_range(&file, column.parse()?, first.parse()?, count.parse()?, width.parse()?) {
        Ok(bytes) => println!("{}", bytes.iter().map(|b| format!("{b:02x}")).collect::<String>()),
        Err((number, place)) => println!("refused {number} place {place}"),
    }
    Ok(())
}
