//! differ plots RUNS SEED: tables of ranges fetched by one call, beside single reads of the port and beside a plain reader.
use super::reader::{Column, Refusal};
use super::{made, port, reader};
use crate::port_side::Port;
use crate::random::Random;
use std::collections::BTreeMap;

/// Disagreements printed in full.
const SHOWN: u64 = 20;
/// Tables of a file.
const TABLES: u64 = 4;
/// Bytes of the largest destination.
const DESTINATION: usize = 4096;
/// Entries that a plot may have.
const MOST: usize = 256;
/// Small tables are held to single reads of the port too.
const SINGLE: usize = 12;

#[derive(Default)]
struct Run {
    tables: BTreeMap<&'static str, u64>,
    served: u64,
    entries: u64,
    bytes: u64,
    refused: BTreeMap<u64, u64>,
    later: u64,
    singles: u64,
    disagreements: u64,
}

/// What a call answers: number, place and position of a refusal; and the destination.
type Outcome = (Option<(u64, u64, u64)>, Vec<u8>);

/// So many tables over files made from a seed; true where all agree.
pub fn compared(runs: u64, seed: u64) -> bool {
    let (mut run, mut converter) = (Run::default(), Port::new());
    let mut left = runs;
    for k in 0.. {
        if left == 0 {
            break;
        }
        let made = made::file(&mut converter, seed, k);
        let opened = reader::open(&made.bytes);
        for j in 0..TABLES.min(left) {
            run.table(&made, &opened, seed, k, j);
        }
        left -= TABLES.min(left);
    }
    run.print();
    run.disagreements == 0
}

impl Run {
    fn table(&mut self, made: &made::Made, opened: &Result<Vec<Column>, Refusal>, seed: u64, k: u64, j: u64) {
        *self.tables.entry(made.from).or_default() += 1;
        let random = &mut Random::of(seed ^ 0x706c_6f74, k * TABLES + j);
        let before = random.bytes(random_length(seed, k, j));
        let table = table(opened.as_deref().unwrap_or(&[]), before.len(), random);
        let due = plain(&made.bytes, opened, &table, &before);
        let got = port::plot(&made.bytes, &table, &before);
        let mut agree = got == due;
        if table.len() <= SINGLE {
            self.singles += 1;
            agree &= got == singles(&made.bytes, opened, &table, &before);
        }
        match got.0 {
            None => {
                self.served += 1;
                self.entries += table.len() as u64;
                self.bytes += got.1.iter().zip(&before).filter(|(a, b)| a != b).count() as u64;
            }
            Some((number, _, position)) => {
                *self.refused.entry(number).or_default() += 1;
                self.later += u64::from(position > 0);
            }
        }
        if !agree {
            self.disagreements += 1;
            if self.disagreements <= SHOWN {
                println!("disagreement: file {k} of seed {seed}, table {j}: {table:?}, due {:?}, got {:?}", due.0, got.0);
                std::fs::write(format!("target/differ/plot-{seed}-{k}"), &made.bytes).ok();
            }
        }
    }

    fn print(&self) {
        println!("| Files | tables |\n|---|---:|");
        self.tables.iter().for_each(|(from, n)| println!("| {from} | {n} |"));
        println!("\n| Tables | |\n|---|---:|");
        println!(
            "| served, the same destination | {} |\n| entries of these | {} |\n| bytes that these changed | {} |",
            self.served, self.entries, self.bytes
        );
        self.refused.iter().for_each(|(number, n)| println!("| refused with {number}, the same place, position and destination | {n} |"));
        println!("| refused past entry 0 | {} |\n| compared with single reads too | {} |", self.later, self.singles);
        println!("| disagreements | {} |", self.disagreements);
    }
}

fn random_length(seed: u64, k: u64, j: u64) -> usize {
    let random = &mut Random::of(!seed, k * TABLES + j);
    let few = random.below(40);
    random.pick(&[0, few, few, 256, DESTINATION, DESTINATION])
}

/// A table, mostly of entries that are served, around the borders of a file's columns and of the destination.
fn table(columns: &[Column], length: usize, random: &mut Random) -> Vec<port::Request> {
    let few = random.below(6);
    let many = random.below(60);
    let n = random.pick(&[0, 1, few, few, few, few, many, MOST - 1, MOST, MOST + 1]);
    let wrong = random.pick(&[0, 1, 10]);
    (0..n).map(|_| entry(columns, length, wrong, random)).collect()
}

fn entry(columns: &[Column], length: usize, wrong: usize, random: &mut Random) -> port::Request {
    let off = random.percent(wrong);
    let n = columns.len() as u64;
    let any = random.below(columns.len()) as u64;
    let column = if off { random.pick(&[any, n.saturating_sub(1), n, u64::MAX]) } else { any };
    let (records, width) = columns.get(column as usize).map_or((5, 1), |c| (c.records as u64, c.width as u64));
    let border = random.pick(&[records, records.wrapping_add(1), u64::MAX]);
    let inside = random.word() % records.max(1).min(1 << 20);
    let first = if off { random.pick(&[inside, border]) } else { inside.min(records) };
    let left = records.saturating_sub(first);
    let room = length as u64 / width.max(1);
    let some = random.word() % room.min(left).saturating_add(1);
    let over = random.pick(&[left, left.wrapping_add(1), u64::MAX, some]);
    let count = if off { over } else { some };
    let bytes = count.saturating_mul(width);
    let last = (length as u64).saturating_sub(bytes);
    let far = random.pick(&[last + 1, length as u64, length as u64 + 1, u64::MAX, 0u64.wrapping_sub(bytes)]);
    let within = random.word() % (last + 1);
    let place = if off && random.percent(50) { far } else { random.pick(&[0, last, within, within, within]) };
    port::Request { column, first, count, place }
}

/// By the plain reader, in table order.
fn plain(file: &[u8], opened: &Result<Vec<Column>, Refusal>, table: &[port::Request], before: &[u8]) -> Outcome {
    let mut destination = before.to_vec();
    if table.len() > MOST {
        return (Some((25, 0, 0)), destination);
    }
    for (i, e) in table.iter().enumerate() {
        let read = opened.as_ref().map_err(|r| *r).and_then(|cs| {
            let bytes = reader::bytes(cs, e.column, e.first, e.count)?;
            if e.place as u128 + bytes > before.len() as u128 {
                return Err((25, 0));
            }
            reader::read(file, cs, e.column, e.first, e.count, bytes as usize)
        });
        match read {
            Ok(bytes) => destination[e.place as usize..][..bytes.len()].copy_from_slice(&bytes),
            Err((number, place)) => return (Some((number, place, i as u64)), destination),
        }
    }
    (None, destination)
}

/// By single reads of the port, in table order; which entry leaves the destination is by the plain reader's lengths.
fn singles(file: &[u8], opened: &Result<Vec<Column>, Refusal>, table: &[port::Request], before: &[u8]) -> Outcome {
    let mut destination = before.to_vec();
    for (i, e) in table.iter().enumerate() {
        let bytes = opened.as_ref().map_err(|r| *r).and_then(|cs| reader::bytes(cs, e.column, e.first, e.count));
        let read = match bytes {
            Ok(n) if e.place as u128 + n > before.len() as u128 => Err((25, 0)),
            Ok(n) => port::read(file, e.column, e.first, e.count, n as usize),
            Err(_) => port::read(file, e.column, e.first, e.count, 0),
        };
        match read {
            Ok(bytes) => destination[e.place as usize..][..bytes.len()].copy_from_slice(&bytes),
            Err((number, place)) => return (Some((number, place, i as u64)), destination),
        }
    }
    (None, destination)
}
