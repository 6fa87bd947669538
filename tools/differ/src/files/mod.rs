//! differ files RUNS SEED: the port's reader of column files beside a plain one, over files made from a seed; see docs/COMPARED.md.
mod made;
pub mod plots;
mod port;
mod reader;

use crate::blocks::kind_at;
use crate::port_side::Port;
use crate::random::Random;
use reader::{Column, Refusal};
use std::collections::BTreeMap;

/// Disagreements printed in full.
const SHOWN: u64 = 20;
/// Ranges tried of a file; of a small column all.
const TRIES: usize = 12;
const SMALL: u128 = 12;
/// Bytes of the largest buffer.
const BUFFER: u128 = 1 << 16;

#[derive(Clone, Copy, Debug)]
struct Try {
    column: u64,
    first: u64,
    count: u64,
    buffer: usize,
}

#[derive(Default)]
struct Run {
    files: BTreeMap<&'static str, u64>,
    opened: BTreeMap<&'static str, u64>,
    refused: BTreeMap<(u64, String), u64>,
    reads: u64,
    bytes: u64,
    parts: u64,
    split: u64,
    disagreements: u64,
}

/// True where all agree.
pub fn compared(runs: u64, seed: u64) -> bool {
    let (mut run, mut converter) = (Run::default(), Port::new());
    for k in 0..runs {
        let made = made::file(&mut converter, seed, k);
        run.file(&made, seed, k);
    }
    run.print();
    run.disagreements == 0
}

impl Run {
    fn file(&mut self, made: &made::Made, seed: u64, k: u64) {
        *self.files.entry(made.from).or_default() += 1;
        let opened = reader::open(&made.bytes);
        let mut random = Random::of(seed ^ 0x7472_6965, k);
        let tries = match &opened {
            Ok(columns) => {
                *self.opened.entry(made.from).or_default() += 1;
                tries(columns, &mut random)
            }
            Err(_) => vec![Try { column: random.below(3) as u64, first: 0, count: random.below(3) as u64, buffer: random.below(9) }],
        };
        for t in tries {
            if !self.tried(&made.bytes, &opened, t) {
                self.disagreements += 1;
                if self.disagreements <= SHOWN {
                    println!("disagreement: file {k} of seed {seed}, {t:?}");
                    std::fs::write(format!("target/differ/file-{seed}-{k}"), &made.bytes).ok();
                }
            }
        }
    }

    /// Both calls, held to the plain reader; and the part to what was copied.
    fn tried(&mut self, file: &[u8], opened: &Result<Vec<Column>, Refusal>, t: Try) -> bool {
        let due = opened.as_ref().map_err(|r| *r).and_then(|cs| reader::read(file, cs, t.column, t.first, t.count, t.buffer));
        let due_part = opened.as_ref().map_err(|r| *r).and_then(|cs| reader::part(cs, t.column, t.first, t.count));
        let read = port::read(file, t.column, t.first, t.count, t.buffer);
        let part = port::part(file, t.column, t.first, t.count);
        let same = match (&read, &part) {
            (Ok(bytes), Ok(reader::Part::At { offset, length })) => file[*offset as usize..(*offset + *length) as usize] == bytes[..],
            _ => true,
        };
        let agree = read == due && part == due_part && same;
        match read {
            Ok(bytes) => {
                self.reads += 1;
                self.bytes += bytes.len() as u64;
            }
            Err((number, place)) => *self.refused.entry((number, limited(file, number, place))).or_default() += 1,
        }
        match part {
            Ok(reader::Part::Split) => self.split += 1,
            Ok(_) => self.parts += 1,
            Err(_) => {}
        }
        agree
    }

    fn print(&self) {
        println!("| Files | read | of these in the form |\n|---|---:|---:|");
        for (from, n) in &self.files {
            println!("| {from} | {n} | {} |", self.opened.get(from).unwrap_or(&0));
        }
        println!("\n| Ranges | |\n|---|---:|");
        println!("| copied, the same bytes | {} |\n| bytes of these | {} |", self.reads, self.bytes);
        println!("| handed back as a part, the same place | {} |\n| split | {} |", self.parts, self.split);
        self.refused.iter().for_each(|((number, at), n)| println!("| refused with {number}{at}, the same place | {n} |"));
        println!("| disagreements | {} |", self.disagreements);
    }
}

/// The kind of the block that a limit is passed at.
fn limited(file: &[u8], number: u64, place: u64) -> String {
    let kind = kind_at(file, place as usize);
    if number == 19 {
        format!(" at {}", String::from_utf8_lossy(kind.get(2..).unwrap_or(b"")))
    } else {
        String::new()
    }
}

/// Ranges of a file's columns and around their borders; every range of small columns.
fn tries(columns: &[Column], random: &mut Random) -> Vec<Try> {
    let mut all = Vec::new();
    for (k, c) in columns.iter().enumerate().filter(|(_, c)| c.records <= SMALL && columns.len() < 8) {
        for first in 0..=c.records + 1 {
            for count in 0..=(c.records + 1).saturating_sub(first) {
                all.push(Try { column: k as u64, first: first as u64, count: count as u64, buffer: (count * c.width).min(BUFFER) as usize });
            }
        }
    }
    for _ in 0..TRIES {
        let n = columns.len() as u64;
        let any = random.below(columns.len()) as u64;
        let column = random.pick(&[0, any, any, any, n.saturating_sub(1), n.saturating_sub(1), n, u64::MAX]);
        let (records, width) = columns.get(column as usize).map_or((5, 1), |c| (c.records as u64, c.width));
        let border = random.pick(&[0, records, records.wrapping_add(1), u64::MAX]);
        let inside = (random.word() % records.max(1)).min(random.pick(&[3, 20, u64::MAX]));
        let first = random.pick(&[0, inside, inside, border]);
        let left = records.saturating_sub(first);
        let few = random.below(4) as u64;
        let count = random.pick(&[left, left, left / 2, few, few, left.wrapping_add(1), u64::MAX]);
        let length = (count as u128 * width).min(BUFFER) as usize;
        let buffer = random.pick(&[length, length, length, length, length + 1, length.saturating_sub(1), 0]);
        all.push(Try { column, first, count, buffer });
    }
    all
}
