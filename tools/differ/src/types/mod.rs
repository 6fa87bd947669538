//! differ types RUNS SEED: images converted with a table of treatments each; see docs/COMPARED.md. Every image is converted without a choice, held to the
//! Rust; with an empty table, which changes nothing; and with a random one, held to a model of planning and to the Rust's result of the recording that
//! stands for it by what is built in. Every `ALL`th is tried with more tables, some of them wrong.
pub mod aim;
pub mod tables;
mod tally;
mod treated;

use crate::case::Case;
use crate::compare::{Finding, Pair, Verdict};
use crate::model::{joined, plan, Plan, Refusal, Treatments, BUILT_IN};
use crate::port_side::{Answer, Call, Choices, Lent, Port, WORK};
use crate::random::Random;
use crate::result::{columns, Column};
use crate::rust_side::{self, Converted};
use crate::FOUND;
use tally::{Stage, Tally};

const ALL: u64 = 20;
/// Tables of every `ALL`th image.
const MANY: usize = 12;

/// Disagreements printed in full, each with its image saved.
const SHOWN: u64 = 20;

/// The length of an image over 4 GiB, tried once.
const LONG: usize = (1 << 32) + 1;

/// Where a type stands in a column's CN.
const TYPE: usize = 24 + 8 * 8;

/// One image, and what is known of it without a table.
struct Subject<'a> {
    image: &'a [u8],
    size: u64,
    found: &'a Finding,
    /// The refusal that reading ends with, whatever the types; none where it goes on to planning.
    reading: Option<Refusal>,
    /// What the model plans by what is built in.
    usual: Result<Plan, Refusal>,
}

impl Subject<'_> {
    /// The result without a table.
    fn result(&self) -> Option<&Converted> {
        match &self.found.rust {
            rust_side::Answer::Converted(c) if self.found.verdict == Verdict::SameFile => Some(c),
            _ => None,
        }
    }

    fn refused(&self) -> Option<Refusal> {
        self.found.port.as_ref().and_then(|p| p.refused)
    }

    fn call(&self, table: &[u8], lent: Lent, out: usize) -> Call<'_> {
        Call { choices: Choices::types(table), ..Call::new(self.image, self.size, lent, out) }
    }
}

#[derive(Default)]
struct Run {
    tally: Tally,
    long_tried: bool,
    small_tried: bool,
}

/// True where all agree.
pub fn compared(runs: u64, seed: u64) -> bool {
    let (mut run, mut pair) = (Run::default(), Pair::new());
    for k in 0..runs {
        let random = &mut Random::of(seed ^ 0x7479_7065_73, k);
        let mut case = Case::of(seed, k);
        case.edits.extend(aim::some(&case.sound, random));
        let image = case.bytes();
        if let Err(why) = run.image(&mut pair, &image, case.size, k, random) {
            run.report(&image, case.size, seed, k, &why);
        }
    }
    run.tally.print();
    run.tally.disagreements == 0
}

impl Run {
    fn image(&mut self, pair: &mut Pair, image: &[u8], size: u64, k: u64, random: &mut Random) -> Result<(), String> {
        self.tally.images += 1;
        let found = without_a_choice(pair, image, size, k)?;
        let Some(reading) = reading(pair, image, size)? else {
            self.tally.overlapping += 1;
            return Ok(());
        };
        let usual = if reading.is_none() { plan(image, &BUILT_IN, &[], None) } else { Ok(Plan::default()) };
        let s = Subject { image, size, found: &found, reading, usual };
        empty_table(&mut pair.port, &s)?;
        usual_plan(&s)?;
        let all = k % ALL == 0;
        for _ in 0..if all { MANY } else { 1 } {
            let table = if all { tables::any(random) } else { tables::sound(random) };
            self.table(pair, &s, &table, all).map_err(|why| format!("table {table:?}: {why}"))?;
        }
        if !self.small_tried && s.result().is_some() {
            self.small_tried = true;
            tables::small().try_for_each(|t| self.table(pair, &s, &t, true).map_err(|why| format!("table {t:?}: {why}")))?;
        }
        Ok(())
    }

    fn table(&mut self, pair: &mut Pair, s: &Subject, table: &[u8], listed: bool) -> Result<(), String> {
        let Some(treatments) = Treatments::of(table) else { return self.wrong(&mut pair.port, s, table) };
        let due = match s.reading {
            Some(refusal) => Err((Stage::Reading, refusal)),
            None => plan(s.image, &treatments, &[], None).map_err(|refusal| (Stage::Planning, refusal)),
        };
        match due {
            Ok(plan) => self.planned(pair, s, table, &treatments, &plan, listed),
            Err((stage, refusal)) => self.refused(&mut pair.port, s, table, stage, refusal, listed),
        }
    }

    fn refused(&mut self, port: &mut Port, s: &Subject, table: &[u8], stage: Stage, due: Refusal, listed: bool) -> Result<(), String> {
        self.tally.count_refusal(stage, due.0);
        self.tally.only_without += s.result().is_some() as u64;
        let call = s.call(table, Lent::fitting(), 0);
        refuses(port, &call, due)?;
        if listed {
            self.lists(port, &call, &format!("refused {} place {}\n", due.0, due.1))?;
        }
        Ok(())
    }

    /// The model has a plan: the file is the Rust's of the recording that stands for this one, or refused as that is.
    fn planned(&mut self, pair: &mut Pair, s: &Subject, table: &[u8], t: &Treatments, plan: &Plan, listed: bool) -> Result<(), String> {
        let stands = treated::treated(s.image, t);
        let found = without_a_choice(pair, &stands, s.size, 0).map_err(|why| format!("the recording that stands for it: {why}"))?;
        let c = match (&found.rust, found.port.and_then(|p| p.refused)) {
            (_, Some(due)) => return self.refused(&mut pair.port, s, table, Stage::Later, due, listed),
            (rust_side::Answer::Converted(c), None) => c,
            _ => return Err("the recording that stands for it has no result".into()),
        };
        let due = with_kept_types(&c.bytes, plan);
        let call = s.call(table, Lent::of(&c.bytes), due.len() + plan.columns.len() % 3);
        let answer = pair.port.convert(&call).ok_or("the port ended")?;
        held(s, plan, &answer)?;
        if answer.bytes != due || answer.counts != c.counts {
            return Err("other bytes or counts than the Rust's of the recording that stands for it".into());
        }
        refuses(&mut pair.port, &Call { out: due.len() - 1, ..call.clone() }, (20, due.len() as u64))?;
        if listed {
            self.lists(&mut pair.port, &call, &listing(&answer))?;
        }
        self.tally.only_with += s.result().is_none() as u64;
        self.tally.count_file(s.image, due.len(), plan, s.usual.as_ref().ok());
        Ok(())
    }

    /// 27 after 1, 2 and 26, and before all else, 3 among it.
    fn wrong(&mut self, port: &mut Port, s: &Subject, table: &[u8]) -> Result<(), String> {
        let call = s.call(table, Lent::fitting(), table.len() % 3);
        let mut work = [WORK; 4];
        work[table.len() % 4] -= 1;
        refuses(port, &call, (27, 0))?;
        self.lists(port, &call, "refused 27 place 0\n")?;
        refuses(port, &Call { choices: Some(Choices { unit: 12, types: table.to_vec(), ..Choices::none() }), ..call.clone() }, (26, 0))?;
        refuses(port, &Call { size: 0, ..call.clone() }, (2, 0))?;
        refuses(port, &Call { work, ..call.clone() }, (1, 0))?;
        self.tally.wrong += 1;
        if !self.long_tried {
            self.long_tried = true;
            refuses(port, &Call { image_len: LONG, ..call.clone() }, (27, 0))?;
            refuses(port, &Call { image_len: LONG, choices: Choices::types(&[1, 4, 0]), ..call }, (3, 0))?;
        }
        Ok(())
    }

    fn lists(&mut self, port: &mut Port, call: &Call, due: &str) -> Result<(), String> {
        self.tally.listings += 1;
        match port.list(call) {
            Some(lines) if lines == due => Ok(()),
            other => Err(format!("expected the listing {due:?}, got {other:?}")),
        }
    }

    fn report(&mut self, image: &[u8], size: u64, seed: u64, k: u64, why: &str) {
        self.tally.disagreements += 1;
        if self.tally.disagreements <= SHOWN {
            let file = format!("{FOUND}/types-{seed}-{k}-block-size-{size}");
            println!("image {k} of seed {seed}, block size {size}, saved as {file}: {why}");
            std::fs::write(file, image).unwrap();
        }
    }
}

fn without_a_choice(pair: &mut Pair, image: &[u8], size: u64, k: u64) -> Result<Finding, String> {
    let found = pair.run(image, size, (k % 13) as usize);
    match &found.verdict {
        Verdict::Disagreement(why) => Err(format!("without a choice: {why}")),
        _ => Ok(found),
    }
}

/// The refusal that reading ends with: that of the recording without columns, and without what its HD leads to. None where one byte has two meanings,
/// so that types or links can't be changed alone.
pub fn reading(pair: &mut Pair, image: &[u8], size: u64) -> Result<Option<Option<Refusal>>, String> {
    if !treated::is_plain(image) {
        return Ok(None);
    }
    let mut refused = |image: &[u8]| Ok::<_, String>(without_a_choice(pair, image, size, 0)?.port.and_then(|p| p.refused));
    let bare = treated::bare(image);
    let Some(whole) = refused(&bare)? else { return Ok(Some(None)) };
    Ok(Some(refused(&treated::headless(&bare))?).filter(|headless| headless.map_or(true, |r| r == whole)))
}

fn refuses(port: &mut Port, call: &Call, due: Refusal) -> Result<(), String> {
    let a = port.convert(call).ok_or("the port ended")?;
    if a.refused != Some(due) || !a.faults.is_empty() {
        return Err(format!("expected {due:?}, got {:?} {:?}", a.refused, a.faults));
    }
    Ok(())
}

/// An empty table chooses nothing: every number and byte is that of the call without a choice.
fn empty_table(port: &mut Port, s: &Subject) -> Result<(), String> {
    let (lent, out) = s.result().map_or((Lent::fitting(), 0), |c| (Lent::of(&c.bytes), c.bytes.len()));
    let answer = port.convert(&s.call(&[], lent, out)).ok_or("the port ended")?;
    let usual = s.found.port.as_ref().ok_or("the port ended")?;
    let same = (answer.refused, answer.counts, &answer.bytes, &answer.omissions) == (usual.refused, usual.counts, &usual.bytes, &usual.omissions);
    if !same || !answer.faults.is_empty() {
        return Err(format!("an empty table: {:?} {:?}", answer.refused, answer.faults));
    }
    Ok(())
}

/// The model by what is built in, held to what was converted without a choice.
fn usual_plan(s: &Subject) -> Result<(), String> {
    match (&s.usual, &s.found.port) {
        _ if s.reading.is_some() && s.reading != s.refused() => Err(format!("reading gives {:?}, the conversion {:?}", s.reading, s.refused())),
        _ if s.reading.is_some() => Ok(()),
        (Err(due), _) if s.refused() != Some(*due) => Err(format!("the model refuses with {due:?}, the conversion gives {:?}", s.refused())),
        (Ok(plan), Some(answer)) if s.result().is_some() => held(s, plan, answer).map_err(|why| format!("without a choice: {why}")),
        _ => Ok(()),
    }
}

/// Columns, omissions and counts are those of the plan; columns that stand without a table too have the same data blocks and signal data.
fn held(s: &Subject, plan: &Plan, answer: &Answer) -> Result<(), String> {
    if answer.refused.is_some() || !answer.faults.is_empty() {
        return Err(format!("refused {:?}, {:?}", answer.refused, answer.faults));
    }
    let (file, all) = (&answer.bytes[..], columns(&answer.bytes));
    if all.len() != plan.columns.len() || answer.omissions != plan.omissions {
        return Err(format!("{} columns, {} are due; omissions {:?}, due {:?}", all.len(), plan.columns.len(), answer.omissions, plan.omissions));
    }
    let times = plan.columns.iter().filter(|c| c.time).count();
    let blocks = all.iter().map(|c| c.blocks.len() + c.signal.is_some() as usize).sum::<usize>();
    if answer.counts[..5] != [plan.groups, times as u64, (all.len() - times) as u64, 0, blocks as u64] {
        return Err(format!("counts {:?}", answer.counts));
    }
    for (i, (c, due)) in all.iter().zip(&plan.columns).enumerate() {
        let wrong = [
            (c.kind(file) != due.stored, "another type"),
            (c.records(file) as u128 != due.records, "another number of records"),
            (c.master(file) != due.master.map(|m| all[m].cg), "another master"),
            (c.shown(file).1 != due.signal.as_ref().map(|f| joined(s.image, f)).as_deref(), "other signal data"),
            (!same_as_usual(s, due.channel, c, file), "other data than without a table"),
        ];
        wrong.iter().find(|w| w.0).map_or(Ok(()), |w| Err(format!("column {i}: {}", w.1)))?;
    }
    Ok(())
}

/// The channel's column without a table, where it has one, shows the same; signal data only where both have it.
fn same_as_usual(s: &Subject, channel: usize, c: &Column, file: &[u8]) -> bool {
    let (Some(usual), Ok(plan)) = (s.result(), &s.usual) else { return true };
    let Some(i) = plan.columns.iter().position(|due| due.channel == channel) else { return true };
    let ((blocks, signal), (usual_blocks, usual_signal)) = (c.shown(file), columns(&usual.bytes)[i].shown(&usual.bytes));
    blocks == usual_blocks && (signal.is_none() || usual_signal.is_none() || signal == usual_signal)
}

/// The Rust's result with type 4 where it is kept.
fn with_kept_types(file: &[u8], plan: &Plan) -> Vec<u8> {
    let mut file = file.to_vec();
    for (c, due) in columns(&file).iter().zip(&plan.columns).filter(|(_, due)| due.stored == 4) {
        file[c.cn + TYPE] = due.stored;
    }
    file
}

pub fn listing(answer: &Answer) -> String {
    let (file, all) = (&answer.bytes, columns(&answer.bytes));
    let mut lines = vec![format!("columns {}", all.len())];
    lines.extend(all.iter().enumerate().map(|(i, c)| format!("{i} {}", c.line(file, &all))));
    lines.push(format!("omitted {}", answer.omissions.len()));
    lines.extend(answer.omissions.iter().map(|o| format!("{} {}", o.0, o.1)));
    lines.join("\n") + "\n"
}
