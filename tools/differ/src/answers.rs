//! A fixed list of small images with the Rust's answers, which the program of crates/answers compares the port with.
//!
//! The file is a 64-bit number of records. A record is 17 words: image length, block size, 1 if accepted else 0, number of a refusal, 1 if its place
//! is known else 0, that place, history text length, time, result length, omissions, the report's seven counts; then the identification (64 bytes),
//! the image, the history text, the result, the omissions' addresses and their reasons (words). Numbers are little-endian.
//!
//! All of it is the Rust's answer: a refusal's number and place are what its words mean, an omission's address and reason too, but for reason 4 of a
//! type 4 channel outside its record (docs/DIFFERENCES.md). The time, which it takes from the clock, is replaced in the result by the record's number, so
//! that the file comes out the same every time.
use crate::blocks::{kind_at, put_word, word};
use crate::case::Case;
use crate::child::Pack;
use crate::compare::{Finding, Pair, Verdict};
use crate::omissions::{self, Omission};
use crate::port_side::{last_history, Lent};
use crate::rust_side::{Answer, Converted, Place, Told};
use std::collections::BTreeMap;

const SEED: u64 = 2026;
/// Images looked at, for each bound on their length.
const LOOKED_AT: u64 = 30_000;
const LENGTHS: [usize; 3] = [1_200, 2_000, 3_000];
const RESULT: usize = 12_000;

/// Writes the list; false, with a line, where the two disagree.
pub fn write(file: &str) -> bool {
    let mut pair = Pair::new();
    let mut list = List::default();
    for length in LENGTHS {
        for k in 0..LOOKED_AT {
            let case = Case::of(SEED, k);
            let image = case.bytes();
            if image.len() > length || list.taken.contains_key(&k) {
                continue;
            }
            let finding = pair.run(&image, case.size, 0);
            if let Verdict::Disagreement(why) = &finding.verdict {
                println!("image {k} of seed {SEED}: {why}");
                return false;
            }
            list.consider(k, &case, image, &finding);
        }
    }
    let (records, refused) = (list.taken.len(), list.taken.values().filter(|p| word(p, 16) == 0).count());
    let mut all = Pack::default();
    all.word(records as u64);
    list.taken.values().enumerate().for_each(|(i, record)| all.0.extend(timed(record, i as u64)));
    println!("{records} answers, {} accepted, {refused} refused, {} bytes", records - refused, all.0.len());
    std::fs::write(file, all.0).unwrap();
    true
}

/// The images taken so far, in order, and how many of each class there are.
#[derive(Default)]
struct List {
    taken: BTreeMap<u64, Vec<u8>>,
    classes: BTreeMap<String, usize>,
}

impl List {
    /// Takes an image that belongs to a class which isn't full.
    fn consider(&mut self, k: u64, case: &Case, image: Vec<u8>, finding: &Finding) {
        let Some((classes, record)) = record(case, &image, finding) else { return };
        if classes.iter().all(|c| self.classes.get(c).is_some_and(|n| *n >= full(c))) {
            return;
        }
        classes.into_iter().for_each(|c| *self.classes.entry(c).or_default() += 1);
        self.taken.insert(k, record);
    }
}

fn full(class: &str) -> usize {
    match class.split(' ').next() {
        Some("refused" | "reason") => 9,
        Some("damaged") => 40,
        Some("large") => 20,
        Some("holds") => 4,
        _ => 2,
    }
}

/// An answer's classes and its record; none where the two differ as listed, or where a label doesn't tell an omission's address.
fn record(case: &Case, image: &[u8], finding: &Finding) -> Option<(Vec<String>, Vec<u8>)> {
    match (&finding.rust, &finding.verdict) {
        (Answer::Converted(c), Verdict::SameFile) if c.bytes.len() <= RESULT => {
            let omitted = omissions::of(image, &c.skipped);
            let told = omissions::determined(&omitted);
            told.then(|| (accepted_classes(case, image, c, &omitted), accepted_record(case.size, image, c, &omitted)))
        }
        (Answer::Refused(told), Verdict::SameRefusal { .. }) => Some((refused_classes(image, told, finding), refused_record(case.size, image, told))),
        _ => None,
    }
}

fn accepted_classes(case: &Case, image: &[u8], c: &Converted, omitted: &[Omission]) -> Vec<String> {
    let mut classes: Vec<String> = omitted.iter().map(|o| format!("reason {}", o.reason)).collect();
    classes.push(format!("block size {}", case.size));
    let large =
        [(image.len() > 2_000, "image"), (c.bytes.len() > 5_000, "result"), (omitted.len() > 2, "omissions"), (c.counts[4] > 9, "data blocks")];
    classes.extend(large.iter().filter(|l| l.0).map(|l| format!("large {}", l.1)));
    if case.edits.is_empty() {
        classes.extend(case.sound.marks.iter().map(|m| format!("holds {m}")));
    } else {
        classes.push("damaged".into());
    }
    classes
}

/// The number, the kind of block at its place (or 24 before it, for a fragment's data), and of some numbers the Rust's words.
fn refused_classes(image: &[u8], told: &Told, finding: &Finding) -> Vec<String> {
    let place = finding.port.as_ref().and_then(|p| p.refused).map_or(0, |r| r.1) as usize;
    let known = |at: usize| Some(kind_at(image, at)).filter(|k| KINDS.contains(k)).map(|k| String::from_utf8_lossy(k).into_owned());
    let kind = known(place).or_else(|| known(place.wrapping_sub(24)).map(|k| k + " data")).unwrap_or("no block".into());
    let mut classes = vec![format!("refused {}", told.number), format!("at {} {kind}", told.number)];
    if [6, 11, 14, 15].contains(&told.number) {
        let words: String = told.words.chars().filter(|c| !c.is_ascii_digit()).take(58).collect();
        classes.push(format!("words {}", words.split(" at x").next().unwrap_or("")));
    }
    classes
}

const KINDS: [&[u8]; 17] = [
    b"##HD", b"##DG", b"##CG", b"##CN", b"##DT", b"##DV", b"##DL", b"##HL", b"##SD", b"##DZ", b"##TX", b"##MD", b"##CC", b"##SI", b"##FH", b"##AT",
    b"##CA",
];

fn accepted_record(size: u64, image: &[u8], c: &Converted, omitted: &[Omission]) -> Vec<u8> {
    let lent = Lent::of(&c.bytes);
    let mut p = Pack::default();
    p.words(&[image.len() as u64, size, 1, 0, 0, 0, lent.text.len() as u64, 0, c.bytes.len() as u64, omitted.len() as u64]);
    p.words(&c.counts);
    p.0.extend_from_slice(&lent.ident);
    p.0.extend_from_slice(image);
    p.0.extend_from_slice(&lent.text);
    p.0.extend_from_slice(&c.bytes);
    omitted.iter().for_each(|o| p.word(o.due[0].0));
    omitted.iter().for_each(|o| p.word(o.due[0].1));
    p.0
}

fn refused_record(size: u64, image: &[u8], told: &Told) -> Vec<u8> {
    let mut p = Pack::default();
    let (known, place) = if let Place::At(at) = told.place { (1, at) } else { (0, 0) };
    p.words(&[image.len() as u64, size, 0, told.number, known, place]);
    p.words(&[0; 11]);
    p.0.extend_from_slice(&Lent::fitting().ident);
    p.0.extend_from_slice(image);
    p.0
}

/// The record with a time of its own, in its eighth word and in the result's last FH.
fn timed(record: &[u8], time: u64) -> Vec<u8> {
    let mut record = record.to_vec();
    if word(&record, 16) == 0 {
        return record;
    }
    put_word(&mut record, 56, time);
    let from = 136 + 64 + word(&record, 0) as usize + word(&record, 48) as usize;
    let result = &mut record[from..];
    let fh = last_history(result);
    put_word(result, fh + 40, time);
    record
}
