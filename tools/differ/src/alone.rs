//! Refusals that need short slices or bad arguments, which the Rust has no counterpart for: tried on the port alone with their expected answers.
use crate::blocks::Image;
use crate::generate::many_blocks;
use crate::port_side::{Call, Lent, Port, LIST, WORK};
use crate::random::Random;

/// A call and what it must give: number and place of a refusal, or none.
struct Try<'a> {
    call: Call<'a>,
    expected: Option<(u64, u64)>,
}

/// The numbers tried, or what went wrong.
pub type Tried = Result<Vec<u64>, String>;

/// Tries on a call that is accepted with exactly its output, and with so many omissions.
pub fn on_accepted(port: &mut Port, sound: &Call, omissions: usize, random: &mut Random) -> Tried {
    let words = 1 + 2 * omissions;
    let mut all = vec![Try { call: Call { list: words, ..sound.clone() }, expected: None }, longest_text(sound)];
    all.extend(short_slices(sound, words, random));
    all.extend(bad_arguments(sound, random));
    check(port, all)
}

/// A call that is refused stays so whatever the output and the list, and 1 and 2 come before it.
pub fn on_refused(port: &mut Port, image: &[u8], size: u64, refused: (u64, u64), random: &mut Random) -> Tried {
    let call = Call::new(image, size, Lent::fitting(), 0);
    let mut all = vec![Try { call: Call { list: 0, ..call.clone() }, expected: Some(refused) }];
    all.extend(bad_arguments(&call, random));
    check(port, all)
}

/// An image of 4 GiB is accepted, one byte more is refused with 3, after 1 and 2.
pub fn on_long_images(port: &mut Port, sound: &Call) -> Tried {
    let long = Call { image_len: (1 << 32) + 1, ..sound.clone() };
    let all = vec![
        Try { call: Call { image_len: 1 << 32, ..sound.clone() }, expected: None },
        Try { call: Call { size: 0, ..long.clone() }, expected: Some((2, 0)) },
        Try { call: Call { work: [WORK, WORK, 0, WORK], ..long.clone() }, expected: Some((1, 0)) },
        Try { call: long, expected: Some((3, 0)) },
    ];
    check(port, all)
}

/// A column of 4,294,967,296 blocks is refused with 19 at its CN; one of 1,024 blocks less only for its output.
pub fn on_many_blocks(port: &mut Port) -> Tried {
    let (over, cn) = many_blocks(1 << 25);
    let (under, _) = many_blocks((1 << 25) - 8);
    let blocks = (1 << 32) - 1024;
    // MD with `convert`, FH, DG, CG and CN end at 584; then DL, and for each block header and 8 bytes.
    let needed = 584 + (24 + 8 * (blocks + 1) + 16) + 32 * blocks;
    let call = |image| many_blocks_call(image);
    check(port, vec![Try { call: call(&over), expected: Some((19, cn)) }, Try { call: call(&under), expected: Some((20, needed)) }])
}

fn many_blocks_call(image: &Image) -> Call<'_> {
    Call { image_len: image.bytes.len() + (1 << 25), ..Call::new(&image.bytes, 1, Lent::fitting(), 0) }
}

fn check(port: &mut Port, all: Vec<Try>) -> Tried {
    let mut numbers = Vec::new();
    for Try { call, expected } in all {
        let Some(a) = port.convert(&call) else { return Err(format!("the port ended, expected {expected:?}")) };
        if a.refused != expected || !a.faults.is_empty() {
            let slices = format!("block size {}, output {}, list {}, work {:?}", call.size, call.out, call.list, call.work);
            return Err(format!("expected {expected:?}, got {:?} {:?}, {slices}", a.refused, a.faults));
        }
        numbers.extend(expected.map(|e| e.0));
    }
    Ok(numbers)
}

/// A history text of 4,096 bytes, with as much more output as its MD takes.
fn longest_text<'a>(sound: &Call<'a>) -> Try<'a> {
    let padded = |n: usize| (n + 1).next_multiple_of(8);
    let out = sound.out - padded(sound.lent.text.len()) + padded(4096);
    let lent = Lent { text: vec![b'a'; 4096], ..sound.lent.clone() };
    Try { call: Call { lent, out, ..sound.clone() }, expected: None }
}

/// 20 before 21; the place is what is needed.
fn short_slices<'a>(sound: &Call<'a>, words: usize, random: &mut Random) -> Vec<Try<'a>> {
    let short = random.below(sound.out);
    let few = random.below(words);
    let (bytes, list) = (Some((20, sound.out as u64)), Some((21, words as u64)));
    vec![
        Try { call: Call { out: sound.out - 1, ..sound.clone() }, expected: bytes },
        Try { call: Call { out: short, list: few, ..sound.clone() }, expected: bytes },
        Try { call: Call { out: 0, ..sound.clone() }, expected: bytes },
        Try { call: Call { list: words - 1, ..sound.clone() }, expected: list },
        Try { call: Call { list: few, ..sound.clone() }, expected: list },
    ]
}

/// 1 before 2, both before the image is looked at.
fn bad_arguments<'a>(sound: &Call<'a>, random: &mut Random) -> Vec<Try<'a>> {
    let mut work = [WORK; 4];
    work[random.below(4)] = random.pick(&[0, 1, WORK - 1]);
    let lent = bad_lent(&sound.lent, random);
    let first = Some((1, 0));
    vec![
        Try { call: Call { work, ..sound.clone() }, expected: first },
        Try { call: Call { work, size: 0, list: LIST, ..sound.clone() }, expected: first },
        Try { call: Call { lent, ..sound.clone() }, expected: first },
        Try { call: Call { size: 0, out: 0, list: 0, ..sound.clone() }, expected: Some((2, 0)) },
    ]
}

/// An identification of another length or beginning, or a text over 4,096 bytes.
fn bad_lent(lent: &Lent, random: &mut Random) -> Lent {
    let mut lent = lent.clone();
    match random.below(4) {
        0 => lent.ident.truncate(random.below(64)),
        1 => lent.ident.push(0),
        2 => lent.ident[random.below(16)] ^= 1 << random.below(8),
        _ => lent.text = vec![b'a'; 4097],
    }
    lent
}
