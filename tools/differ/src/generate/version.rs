//! Versions in an identification block.
use crate::random::Random;

#[rustfmt::skip]
const ACCEPTED: [&[u8; 8]; 12] = [
    b"4.10    ", b"4.20    ", b"4.11\0\0\0\0", b"4.+20   ", b"5       ", b"655.35  ",
    b" 4.10   ", b"\t4.20\r\n ", b"4.10.xyz", b"+4.10\0\0\0", b"004.0410", b"7.1.    ",
];

#[rustfmt::skip]
const REFUSED: [&[u8; 8]; 16] = [
    b"4.1     ", b"4.      ", b"4       ", b"04\0\0\0\0\0\0", b"4.65536 ", b"4.65535 ", b"4.x     ", b"        ",
    b"4.10\0   ", b"3.30    ", b"656.0   ", b".410    ", b"4.-1    ", b"4.10\xc2\xa0  ", b"4.10.\xc3\xa4 ", b"4.10\xff   ",
];

pub fn any(random: &mut Random) -> [u8; 8] {
    match random.below(100) {
        0..=79 => *b"4.10    ",
        80..=95 => *random.pick(&ACCEPTED),
        96..=98 => *random.pick(&REFUSED),
        _ => std::array::from_fn(|_| random.pick(b"0044556.. + -\0\t")),
    }
}
