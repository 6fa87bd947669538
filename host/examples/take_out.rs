//! How a program in Rust takes columns out of a column file with libsitaungo: take_out FILE NEW NUMBER... Prints the bytes of the new file.
//!
//!   rustc -O --edition 2021 -L target/staticlib host/examples/take_out.rs

const WORK_WORDS: usize = 8192;
const REFUSED_OUTPUT: u64 = 20;
const UNIT: u64 = 8;

#[repr(C)]
struct Taken {
    accepted: bool,
    number: u64,
    place: u64,
    bytes: u64,
}

#[link(name = "sitaungo", kind = "static")]
extern "C" {
    fn sitaungo_take_out(
        image: *const u8, image_length: usize, unit: u64, numbers: *const u64, numbers_length: usize,
        source: *mut u64, source_length: usize, fragments: *mut u64, fragments_length: usize, columns: *mut u64, columns_length: usize,
        copies: *mut u64, copies_length: usize, out: *mut u8, out_length: usize,
    ) -> Taken;
}

// Slices of Rust have true lengths, and mutable ones overlap no other: all that the library asks for.
fn call(file: &[u8], numbers: &[u64], work: &mut [Vec<u64>; 4], out: &mut [u8]) -> Taken {
    let [a, b, c, d] = work;
    unsafe {
        sitaungo_take_out(
            file.as_ptr(), file.len(), UNIT, numbers.as_ptr(), numbers.len(),
            a.as_mut_ptr(), a.len(), b.as_mut_ptr(), b.len(), c.as_mut_ptr(), c.len(), d.as_mut_ptr(), d.len(),
            out.as_mut_ptr(), out.len(),
        )
    }
}

/// The file without the columns of these numbers; else the refusal's number and place.
fn take_out(file: &[u8], numbers: &[u64]) -> Result<Vec<u8>, (u64, u64)> {
    let mut work: [Vec<u64>; 4] = std::array::from_fn(|_| vec![0; WORK_WORDS]);
    // an empty output: refusal 20 has the bytes needed as its place
    let asked = call(file, numbers, &mut work, &mut []);
    if asked.number != REFUSED_OUTPUT {
        return Err((asked.number, asked.place));
    }
    let mut out = vec![0; asked.place as usize];
    let answer = call(file, numbers, &mut work, &mut out);
    if answer.accepted && answer.bytes == asked.place {
        Ok(out)
    } else {
        Err((answer.number, answer.place))
    }
}

fn main() -> Result<(), Box<dyn std::error::Error>> {
    let words: Vec<String> = std::env::args().skip(1).collect();
    let [file, new, numbers @ ..] = &words[..] else { return Err("take_out FILE NEW NUMBER...".into()) };
    let numbers = numbers.iter().map(|word| word.parse()).collect::<Result<Vec<u64>, _>>()?;
    match take_out(&std::fs::read(file)?, &numbers) {
        Ok(bytes) => {
            println!("bytes {}", bytes.len());
            std::fs::write(new, bytes)?;
        }
        Err((number, place)) => println!("refused {number} place {place}"),
    }
    Ok(())
}
