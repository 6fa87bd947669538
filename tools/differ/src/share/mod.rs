//! differ share RUNS SEED: images whose groups share clocks on purpose, converted with the choice of one clock for many groups, held to the Rust with its
//! own and to a model; see docs/COMPARED.md. Every image is converted without the choice too, and every `ALL`th with a unit, a table and a listing.
pub mod listed;
pub mod model;
mod tally;

use crate::case::Case;
use crate::compare::{Finding, Pair, Verdict};
use crate::model::{plan, Plan, Treatments, BUILT_IN};
use crate::port_side::{Answer, Call, Choices, Lent};
use crate::random::Random;
use crate::result::columns;
use crate::rust_side::{self, Converted};
use crate::types::{listing, tables};
use crate::{shrink, units, FOUND};
use model::{shared, By, Clocks};
use tally::Tally;

const ALL: u64 = 10;

/// Disagreements printed in full, each with its image saved.
const SHOWN: u64 = 20;

/// One image, and what both gave without the choice and with it.
struct Subject<'a> {
    image: &'a [u8],
    size: u64,
    without: Finding,
    with: Finding,
}

/// True where all agree.
pub fn compared(runs: u64, seed: u64) -> bool {
    let (mut tally, mut pair) = (Tally::default(), Pair::new());
    for k in 0..runs {
        let case = Case::clocks(seed, k);
        let image = case.bytes();
        match both(&mut pair, &image, case.size, k) {
            Ok(s) => match held(&mut pair, &s, k, seed, &mut tally) {
                Ok(()) => tally.count(&case, &image, &s.with),
                Err(why) => report(&mut pair, &case, seed, k, &why, &mut tally),
            },
            Err(why) => report(&mut pair, &case, seed, k, &why, &mut tally),
        }
    }
    tally.print();
    tally.disagreements() == 0
}

/// One image; true where all agree.
pub fn one(image: &[u8], size: u64) -> bool {
    let (mut tally, mut pair) = (Tally::default(), Pair::new());
    let with = pair.run_sharing(image, size, 0);
    println!("with the choice:");
    crate::print_finding(&with);
    let agrees = checked(&mut pair, image, size, 0, 0, &mut tally);
    println!("{agrees:?}");
    agrees.is_ok()
}

fn checked(pair: &mut Pair, image: &[u8], size: u64, k: u64, seed: u64, tally: &mut Tally) -> Result<(), String> {
    let s = both(pair, image, size, k)?;
    held(pair, &s, k, seed, tally)
}

/// The first disagreement is shrunk; each of the first ones is saved.
fn report(pair: &mut Pair, case: &Case, seed: u64, k: u64, why: &str, tally: &mut Tally) {
    let number = tally.count_disagreement();
    if number > SHOWN {
        return;
    }
    let mut image = case.bytes();
    if number == 1 {
        let stays = |image: &[u8]| matches!(checked(pair, image, case.size, k, seed, &mut Tally::default()), Err(w) if shrink::alike(&w, why));
        image = shrink::shrink(case, stays);
    }
    let file = format!("{FOUND}/share-{seed}-{k}-block-size-{}", case.size);
    println!("image {k} of seed {seed}, block size {}, {} bytes saved as {file}: {why}", case.size, image.len());
    std::fs::write(file, image).unwrap();
}

/// Without the choice all is as before, whichever call makes none; with it both agree or differ as listed.
fn both<'a>(pair: &mut Pair, image: &'a [u8], size: u64, k: u64) -> Result<Subject<'a>, String> {
    let slack = (k % 13) as usize;
    let without = pair.run(image, size, slack);
    if let Verdict::Disagreement(why) = &without.verdict {
        return Err(format!("without the choice: {why}"));
    }
    let (lent, out) = converted(&without).map_or((Lent::fitting(), 0), |c| (Lent::of(&c.bytes), c.bytes.len()));
    let off = pair.port.convert(&Call { choices: Choices::share(false), ..Call::new(image, size, lent, out) }).ok_or("the port ended")?;
    let usual = without.port.as_ref().ok_or("the port ended")?;
    if told(&off) != told(usual) || !off.faults.is_empty() {
        return Err(format!("the choice off: {:?} {:?}, without a choice {:?}", off.refused, off.faults, usual.refused));
    }
    let with = pair.run_sharing(image, size, slack);
    match &with.verdict {
        Verdict::Disagreement(why) => Err(format!("{why}: the port {:?}", with.port.as_ref().map(|p| (p.refused, p.counts)))),
        _ => Ok(Subject { image, size, without, with }),
    }
}

fn told(a: &Answer) -> (Option<(u64, u64)>, [u64; 7], &[u8], &[(u64, u64)]) {
    (a.refused, a.counts, &a.bytes, &a.omissions)
}

/// The Rust's result, where the port's is the same.
fn converted(found: &Finding) -> Option<&Converted> {
    match &found.rust {
        rust_side::Answer::Converted(c) if found.verdict == Verdict::SameFile => Some(c),
        _ => None,
    }
}

/// The port's answer with the choice, held to the model.
fn held(pair: &mut Pair, s: &Subject, k: u64, seed: u64, tally: &mut Tally) -> Result<(), String> {
    let with = s.with.port.as_ref().ok_or("the port ended")?;
    let sound = s.without.port.as_ref().is_some_and(|p| p.refused.is_none());
    if !sound && with.refused.is_some() {
        return Ok(());
    }
    let clocks = Clocks::of(s.image).ok_or("accepted, though the model can't tell records apart")?;
    match (clocks.start(By::Bytes), with.refused) {
        (Err(due), refused) if refused != Some(due) => return Err(format!("the model refuses with {due:?}, the port gives {refused:?}")),
        // how deep a block is copied depends on which columns come before (16); the Rust says the same
        (Ok(()), Some((16, _))) if matches!(s.with.verdict, Verdict::SameRefusal { placed: true }) => return Ok(()),
        (Ok(()), Some(refused)) => {
            return Err(format!("the model refuses nothing of what is accepted without the choice, the port gives {refused:?}"))
        }
        (Err(due), _) => {
            tally.count_model_refusal(due.0);
            return Ok(());
        }
        (Ok(()), None) => {}
    }
    if matches!(&s.with.rust, rust_side::Answer::Converted(c) if c.counts[3] != shared(&clocks.stands(By::Text))) {
        return Err("the model shares otherwise than the Rust by decoded units".into());
    }
    let stands = clocks.stands(By::Bytes);
    let due = plan(s.image, &BUILT_IN, &stands, None).map_err(|due| format!("the model refuses with {due:?}, the port accepts"))?;
    planned(&clocks, &stands, &due, with)?;
    tally.count_planned(&stands, &due, sound);
    if k % ALL == 0 {
        more(pair, s, &clocks, &stands, &mut Random::of(seed ^ 0x7368_6172, k), tally)?;
    }
    Ok(())
}

/// Columns, masters, omissions and counts are those of the plan; each signal names a time column with the times of the group whose master it has or uses.
fn planned(clocks: &Clocks, stands: &[usize], due: &Plan, answer: &Answer) -> Result<(), String> {
    let (file, all) = (&answer.bytes[..], columns(&answer.bytes));
    if answer.refused.is_some() || !answer.faults.is_empty() || all.len() != due.columns.len() || answer.omissions != due.omissions {
        return Err(format!("refused {:?}, {:?}, {} columns of {}", answer.refused, answer.faults, all.len(), due.columns.len()));
    }
    let times = due.columns.iter().filter(|c| c.time).count() as u64;
    if answer.counts[..4] != [due.groups, times, all.len() as u64 - times, shared(stands)] {
        return Err(format!("counts {:?}, shared {}", answer.counts, shared(stands)));
    }
    for (i, (c, due)) in all.iter().zip(&due.columns).enumerate() {
        let named = if due.time { Some(c) } else { c.master(file).and_then(|cg| all[..i].iter().find(|t| t.cg == cg)) };
        let shown = named.map(|t| (t.shown(file).0.concat_payloads(), t.records(file) as u128));
        let wrong = [
            (c.kind(file) != due.stored, "another type"),
            (c.records(file) as u128 != due.records, "another number of records"),
            (c.master(file) != due.master.map(|m| all[m].cg), "another master"),
            (shown != due.axis.and_then(|g| clocks.times(g)), "other times than its group's"),
        ];
        wrong.iter().find(|w| w.0).map_or(Ok(()), |w| Err(format!("column {i}, {}", w.1)))?;
    }
    Ok(())
}

/// The bytes of a column's blocks.
trait Payloads {
    fn concat_payloads(&self) -> Vec<u8>;
}

impl Payloads for Vec<(&[u8], &[u8])> {
    fn concat_payloads(&self) -> Vec<u8> {
        self.iter().flat_map(|block| block.1).copied().collect()
    }
}

/// The same with a unit, with a table, and as a listing.
fn more(pair: &mut Pair, s: &Subject, clocks: &Clocks, stands: &[usize], random: &mut Random, tally: &mut Tally) -> Result<(), String> {
    let with = s.with.port.as_ref().ok_or("the port ended")?;
    let lent = Lent::of(&with.bytes);
    let call = |choices: Choices, out: usize| Call { choices: Some(choices), ..Call::new(s.image, s.size, lent.clone(), out) };
    let choices = Choices { share: true, ..Choices::none() };
    match pair.port.list(&call(choices.clone(), with.bytes.len())) {
        Some(lines) if lines == listing(with) => tally.listings += 1,
        other => return Err(format!("the listing: {other:?}, due {:?}", listing(with))),
    }
    if let Some(c) = converted(&s.with) {
        let unit = random.pick(&units::UNITS);
        let moved = units::moved(&c.bytes, c.counts[5] as usize, unit as usize);
        let answer = pair.port.convert(&call(Choices { unit, ..choices.clone() }, moved.len())).ok_or("the port ended")?;
        units::held(s.image, c, &answer, unit).map_err(|why| format!("unit {unit}, {why}"))?;
        if answer.bytes != moved {
            return Err(format!("unit {unit}, other bytes than the Rust's, moved"));
        }
        tally.units += 1;
    }
    let table = tables::sound(random);
    let treatments = Treatments::of(&table).ok_or("no table")?;
    let Ok(due) = plan(s.image, &treatments, stands, None) else { return Ok(()) };
    let choices = Choices { types: table.clone(), ..choices };
    let out = match pair.port.convert(&call(choices.clone(), 0)).ok_or("the port ended")?.refused {
        Some((20, bytes)) => bytes as usize,
        _ => return Ok(()), // signal data or metadata that only this table keeps
    };
    let answer = pair.port.convert(&call(choices, out)).ok_or("the port ended")?;
    planned(clocks, stands, &due, &answer).map_err(|why| format!("table {table:?}, {why}"))?;
    tally.tables += 1;
    Ok(())
}
