//! How a program in Rust fetches many ranges of a column file in one call with libsitaungo: plot FILE COLUMN FIRST COUNT WIDTH ..,
//! four words an entry, WIDTH the bytes of a record. The ranges go one after the other. Prints the bytes in hexadecimal, those before a refused entry too.
//!
//!   rustc -O -L target/staticlib host/examples/plot.rs

/// An entry: so many records of a column, from one on, go to a place in the destination.
#[repr(C)]
struct Request {
    column: u64,
    first: u64,
    count: u64,
    place: u64,
}

#[repr(C)]
struct Plotting {
    accepted: bool,
    number: u64,
    place: u64,
    position: u64,
}

#[link(name = "sitaungo", kind = "static")]
extern "C" {
    fn sitaungo_plot(image: *const u8, image_length: usize, table: *const Request, entries: usize, destination: *mut u8, length: usize) -> Plotting;
}

/// The ranges of the table, one call; a refusal's number, place and position where an entry was refused.
fn plot(file: &[u8], table: &[Request], destination: &mut [u8]) -> Result<(), (u64, u64, u64)> {
    // Safety: each pointer leads to as many elements as the length after it says, and the destination is apart from file and table.
    let p = unsafe { sitaungo_plot(file.as_ptr(), file.len(), table.as_ptr(), table.len(), destination.as_mut_ptr(), destination.len()) };
    if p.accepted {
        Ok(())
    } else {
        Err((p.number, p.place, p.position))
    }
}

fn main() -> Result<(), Box<dyn std::error::Error>> {
    let words: Vec<String> = std::env::args().skip(1).collect();
    let [file, ranges @ ..] = &words[..] else { return Err("plot FILE COLUMN FIRST COUNT WIDTH ..".into()) };
    let file = std::fs::read(file)?;
    let (mut table, mut length) = (Vec::new(), 0);
    for r in ranges.chunks_exact(4) {
        let (column, first, count) = (r[0].parse()?, r[1].parse()?, r[2].parse::<u64>()?);
        table.push(Request { column, first, count, place: length });
        length += count * r[3].parse::<u64>()?;
    }
    let mut destination = vec![0; length as usize];
    let answer = plot(&file, &table, &mut destination);
    let fetched = match answer {
        Ok(()) => length,
        Err((_, _, position)) => table.get(position as usize).map_or(0, |e| e.place),
    };
    println!("{}", destination[..fetched as usize].iter().map(|b| format!("{b:02x}")).collect::<String>());
    if let Err((number, place, position)) = answer {
        println!("refused {number} place {place} position {position}");
    }
    Ok(())
}
