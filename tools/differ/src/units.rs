//! differ units RUNS SEED: images converted with a unit each, held to the Rust's result; see docs/COMPARED.md. Every image is converted without a choice
//! and with one of the ten units, every `ALL`th with each of them and with units that are refused.
use crate::blocks::{link, link_count};
use crate::case::Case;
use crate::compare::{Finding, Pair, Verdict};
use crate::omissions;
use crate::port_side::{Answer, Call, Choices, Lent, Port, WORK};
use crate::random::Random;
use crate::result::{columns, end_of, Column, Shown};
use crate::rust_side::{self, Converted};
use std::collections::BTreeMap;

pub const UNITS: [u64; 10] = [8, 16, 32, 64, 128, 256, 512, 1024, 2048, 4096];
const BAD: [u64; 14] = [0, 1, 2, 4, 7, 9, 12, 24, 4088, 4095, 8192, 1 << 32, 1 << 63, u64::MAX];
const ALL: u64 = 20;

/// Disagreements printed in full.
const SHOWN: u64 = 20;

/// The length of an image over 4 GiB, tried once.
const LONG: usize = (1 << 32) + 1;

/// What was met, for the table.
#[derive(Default)]
struct Run {
    images: u64,
    files: BTreeMap<u64, u64>,
    refused: BTreeMap<u64, u64>,
    bad: u64,
    held: BTreeMap<&'static str, u64>,
    bytes: u64,
    longest_gap: usize,
    long_tried: bool,
    disagreements: u64,
}

/// True where all agree.
pub fn compared(runs: u64, seed: u64) -> bool {
    let (mut run, mut pair) = (Run::default(), Pair::new());
    for k in 0..runs {
        let case = Case::of(seed, k);
        if let Err(why) = run.image(&mut pair, &case, seed, k) {
            run.disagreements += 1;
            if run.disagreements <= SHOWN {
                println!("image {k} of seed {seed}, block size {}: {why}", case.size);
            }
        }
    }
    run.print();
    run.disagreements == 0
}

impl Run {
    fn image(&mut self, pair: &mut Pair, case: &Case, seed: u64, k: u64) -> Result<(), String> {
        self.images += 1;
        let image = case.bytes();
        let found = pair.run(&image, case.size, (k % 13) as usize);
        if let Verdict::Disagreement(why) = &found.verdict {
            return Err(format!("without a choice: {why}"));
        }
        let random = &mut Random::of(seed ^ 0x7569_7473, k);
        let one = [random.pick(&UNITS)];
        let all = k % ALL == 0;
        for unit in if all { &UNITS[..] } else { &one[..] } {
            self.unit(&mut pair.port, &image, case.size, *unit, &found).map_err(|why| format!("unit {unit}: {why}"))?;
        }
        if all {
            self.bad(&mut pair.port, &image, case.size, random)?;
        }
        Ok(())
    }

    fn unit(&mut self, port: &mut Port, image: &[u8], size: u64, unit: u64, found: &Finding) -> Result<(), String> {
        match &found.rust {
            rust_side::Answer::Converted(c) if found.verdict == Verdict::SameFile => self.accepted(port, image, size, unit, c),
            _ => {
                let refused = found.port.as_ref().and_then(|p| p.refused);
                *self.refused.entry(refused.map_or(0, |r| r.0)).or_default() += 1;
                refuses(port, &Call { choices: Choices::unit(unit), ..Call::new(image, size, Lent::fitting(), 0) }, refused)
            }
        }
    }

    fn accepted(&mut self, port: &mut Port, image: &[u8], size: u64, unit: u64, c: &Converted) -> Result<(), String> {
        let due = moved(&c.bytes, c.counts[5] as usize, unit as usize);
        let call = Call { choices: Choices::unit(unit), ..Call::new(image, size, Lent::of(&c.bytes), due.len() + size as usize % 3) };
        let answer = port.convert(&call).ok_or("the port ended")?;
        held(image, c, &answer, unit)?;
        if answer.bytes != due || unit == 8 && answer.bytes != c.bytes {
            return Err("other bytes than the Rust's, moved".into());
        }
        refuses(port, &Call { out: due.len() - 1, ..call }, Some((20, due.len() as u64)))?;
        *self.files.entry(unit).or_default() += 1;
        self.bytes += due.len() as u64;
        self.count(&answer.bytes, c.counts[5] as usize);
        Ok(())
    }

    /// What the file holds, and its longest gap.
    fn count(&mut self, file: &[u8], metadata: usize) {
        let all = columns(file);
        let none = |c: &Column| c.blocks.is_empty() && c.signal.is_none();
        let first = all.iter().position(|c| !none(c));
        let last = all.iter().rposition(|c| !none(c));
        let mut met = |what, found: bool| *self.held.entry(what).or_default() += found as u64;
        met("an empty column before others", first.is_some_and(|i| i > 0));
        met("an empty column behind others", last.is_some_and(|i| i + 1 < all.len()));
        met("an empty column between others", first.is_some_and(|i| all[i..=last.unwrap()].iter().any(none)));
        met("columns, all empty", first.is_none() && !all.is_empty());
        met("SD without blocks", all.iter().any(|c| c.blocks.is_empty() && c.signal.is_some()));
        met("SD behind blocks", all.iter().any(|c| !c.blocks.is_empty() && c.signal.is_some()));
        met("attachments behind the data", link(file, 64, 3) != 0 && first.is_some());
        met("several blocks of a column", all.iter().any(|c| c.blocks.len() > 1));
        let longest = gaps(file, metadata).iter().map(|(from, to)| to - from).max().unwrap_or(0);
        self.longest_gap = self.longest_gap.max(longest);
    }

    /// 26 after 1 and 2 and before all else, 3 among it.
    fn bad(&mut self, port: &mut Port, image: &[u8], size: u64, random: &mut Random) -> Result<(), String> {
        let unit = random.pick(&BAD);
        let call = Call { choices: Choices::unit(unit), ..Call::new(image, size, Lent::fitting(), random.below(3)) };
        let mut work = [WORK; 4];
        work[random.below(4)] -= 1;
        refuses(port, &call, Some((26, 0)))?;
        refuses(port, &Call { size: 0, ..call.clone() }, Some((2, 0)))?;
        refuses(port, &Call { work, ..call.clone() }, Some((1, 0)))?;
        self.bad += 1;
        if !self.long_tried {
            self.long_tried = true;
            refuses(port, &Call { image_len: LONG, ..call.clone() }, Some((26, 0)))?;
            refuses(port, &Call { image_len: LONG, choices: Choices::unit(4096), ..call }, Some((3, 0)))?;
        }
        Ok(())
    }

    fn print(&self) {
        println!("| Images | {} |\n|---|---:|", self.images);
        self.files.iter().for_each(|(unit, n)| println!("| accepted with unit {unit}, the Rust's bytes where the unit says | {n} |"));
        println!("| bytes of these | {} |\n| longest gap | {} |", self.bytes, self.longest_gap);
        self.held.iter().for_each(|(what, n)| println!("| of these with {what} | {n} |"));
        self.refused.iter().for_each(|(number, n)| println!("| refused with {number}, as without a choice | {n} |"));
        println!("| with a unit that isn't one: 26, after 1 and 2 | {} |\n| disagreements | {} |", self.bad, self.disagreements);
    }
}

fn refuses(port: &mut Port, call: &Call, due: Option<(u64, u64)>) -> Result<(), String> {
    let a = port.convert(call).ok_or("the port ended")?;
    if a.refused != due || !a.faults.is_empty() {
        return Err(format!("expected {due:?}, got {:?} {:?}, {:?}", a.refused, a.faults, call.choices));
    }
    Ok(())
}

/// Report but for the size, omissions, payloads and signal data by links, starts, gaps.
pub fn held(image: &[u8], c: &Converted, answer: &Answer, unit: u64) -> Result<(), String> {
    if answer.refused.is_some() || !answer.faults.is_empty() {
        return Err(format!("refused {:?}, {:?}", answer.refused, answer.faults));
    }
    let file = &answer.bytes;
    let gaps = gaps(file, c.counts[5] as usize);
    let starts = |x: &Column| x.blocks.first().into_iter().chain(x.signal.iter()).all(|at| *at as u64 % unit == 0);
    let wrong = [
        (answer.counts[..6] != c.counts[..6], "another report"),
        (answer.counts[6] != file.len() as u64, "another size than the report's"),
        (!omissions::agree(&omissions::of(image, &c.skipped), &answer.omissions), "other omissions"),
        (!all_shown(file).eq(all_shown(&c.bytes)), "other payloads or signal data"),
        (!columns(file).iter().all(starts), "a start that is no multiple of the unit"),
        (gaps.iter().any(|(a, b)| a + unit as usize <= *b), "a gap as long as the unit"),
        (gaps.iter().any(|(a, b)| file.get(*a..*b).map_or(true, |gap| gap.iter().any(|x| *x != 0))), "a gap that isn't zero"),
    ];
    wrong.iter().find(|w| w.0).map_or(Ok(()), |w| Err(w.1.into()))
}

/// What links show of each column.
fn all_shown(file: &[u8]) -> impl Iterator<Item = Shown<'_>> {
    columns(file).into_iter().map(|c| c.shown(file))
}

/// Data blocks and SD in the order of the file, as ranges; the blocks of one column are one range.
fn ranges(file: &[u8]) -> Vec<(usize, usize)> {
    let one = |c: &Column| {
        let blocks = c.blocks.first().map(|first| (*first, end_of(file, *c.blocks.last().unwrap())));
        blocks.into_iter().chain(c.signal.map(|at| (at, end_of(file, at))))
    };
    columns(file).iter().flat_map(one).collect()
}

/// Between metadata, data blocks, SD and what follows them: from where to where nothing stands.
fn gaps(file: &[u8], metadata: usize) -> Vec<(usize, usize)> {
    let (mut end, mut all) = (metadata, Vec::new());
    for (from, to) in ranges(file) {
        all.push((end, from));
        end = to;
    }
    all.push((end, end.next_multiple_of(8).min(file.len())));
    all
}

fn put_link(file: &mut [u8], block: usize, i: usize, to: usize) {
    file[block + 24 + 8 * i..][..8].copy_from_slice(&(to as u64).to_le_bytes());
}

/// The Rust's result with its data blocks, SD and attachments where a unit has them; all links to them with them.
pub fn moved(file: &[u8], metadata: usize, unit: usize) -> Vec<u8> {
    let mut out = file[..metadata].to_vec();
    for c in columns(file) {
        if let Some(&first) = c.blocks.first() {
            let at = append(&mut out, &file[first..end_of(file, *c.blocks.last().unwrap())], unit);
            c.blocks.iter().enumerate().for_each(|(i, b)| put_link(&mut out, c.dl, i + 1, b - first + at));
        }
        if let Some(sd) = c.signal {
            let at = append(&mut out, &file[sd..end_of(file, sd)], unit);
            put_link(&mut out, c.cn, 5, at);
        }
    }
    let behind = ranges(file).last().map_or(metadata, |r| r.1.next_multiple_of(8));
    append_rest(&mut out, file, behind);
    out
}

/// At the next multiple of the unit; the end is at a multiple of 8 again.
fn append(out: &mut Vec<u8>, bytes: &[u8], unit: usize) -> usize {
    let at = out.len().next_multiple_of(unit);
    out.resize(at, 0);
    out.extend_from_slice(bytes);
    out.resize(out.len().next_multiple_of(8), 0);
    at
}

/// Attachments and their copies, which lie behind the data.
fn append_rest(out: &mut Vec<u8>, file: &[u8], behind: usize) {
    let (start, mut at) = (out.len(), behind);
    let place = |to: usize| if to >= behind { to - behind + start } else { to };
    out.extend_from_slice(&file[behind..]);
    put_link(out, 64, 3, place(link(file, 64, 3)));
    while at < file.len() {
        (0..link_count(file, at) as usize).for_each(|i| put_link(out, place(at), i, place(link(file, at, i))));
        at = end_of(file, at).next_multiple_of(8);
    }
}
