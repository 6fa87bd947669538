//! differ photos RUNS SEED: images whose channels refer to attachments on purpose, converted with the choice of keeping references, alone and
//! together with the other choices, held to a model; see docs/COMPARED.md. Every image is converted without a choice too, held to the Rust, which
//! keeps no references: what is due is the result without the choice, laid out anew with longer CN, or a refusal that the model of planning meets.
pub mod aim;
mod laid;
pub mod model;
mod tally;

use crate::blocks::link;
use crate::case::Case;
use crate::compare::{Finding, Pair, Verdict};
use crate::model::{plan, Plan, Refusal, Treatments};
use crate::port_side::{Answer, Call, Choices, Lent, Port, WORK};
use crate::random::Random;
use crate::result::columns;
use crate::rust_side::{self, Converted};
use crate::share::model::{By, Clocks};
use crate::types::{self, listing, tables};
use crate::units::{self, UNITS};
use crate::walk::chain;
use crate::{number, shrink, FOUND};
use laid::{laid, Reference};
use tally::Tally;

/// Every so-manieth image is tried with more choices, as a listing and with bad arguments.
const ALL: u64 = 10;

/// Disagreements printed in full, each with its image saved.
const SHOWN: u64 = 20;

/// Output lent at first; the port is asked again with as much as it needs.
const OUT: usize = 65_536;

/// The length of an image over 4 GiB, tried once.
const LONG: usize = (1 << 32) + 1;

/// Where a refusal is met.
#[derive(Clone, Copy, PartialEq, Eq, PartialOrd, Ord)]
pub enum Refused {
    Choices,
    Reading,
    Attachments,
    Clocks,
    Planning,
    Later,
}

impl Refused {
    fn words(self) -> &'static str {
        match self {
            Refused::Choices => "before the recording is read",
            Refused::Reading => "in reading, as without the choice",
            Refused::Attachments => "for an attachment, before anything is planned",
            Refused::Clocks => "for clocks that are compared, before anything is planned",
            Refused::Planning => "in planning, as the model says",
            Refused::Later => "in later stages, as without the choice",
        }
    }
}

/// What is due with the choice.
enum Due {
    /// It isn't known where the refusal without the choice is met.
    Untold,
    Refused(Refused, Refusal),
    File(Plan),
}

/// True where all agree.
pub fn compared(runs: u64, seed: u64) -> bool {
    let (mut tally, mut pair) = (Tally::default(), Pair::new());
    let mut long_tried = false;
    for k in 0..runs {
        let case = Case::photos(seed, k);
        match checked(&mut pair, &case.bytes(), case.size, &chosen(seed, k), k, &mut tally) {
            Ok(accepted) => tally.count(&case, accepted),
            Err(why) => report(&mut pair, &case, seed, k, &why, &mut tally),
        }
        if !long_tried && k % ALL == 0 {
            long_tried = true;
            over_4_gib(&mut pair.port, &case).unwrap_or_else(|why| report(&mut pair, &case, seed, k, &why, &mut tally));
        }
    }
    tally.print();
    tally.disagreements == 0
}

/// One image with references kept and what the words choose besides: unit=N, types=A,B,.. and share; true where all agree.
pub fn one(image: &[u8], size: u64, words: &[&str]) -> bool {
    let mut choices = Choices::none();
    for word in words {
        match word.split_once('=') {
            Some(("unit", n)) => choices.unit = number(n),
            Some(("types", bytes)) => choices.types = bytes.split(',').map(|b| number(b) as u8).collect(),
            None if *word == "share" => choices.share = true,
            _ => panic!("{word} is no choice"),
        }
    }
    let mut pair = Pair::new();
    let mut call = Call { choices: Some(Choices { photos: true, ..choices.clone() }), ..Call::new(image, size, Lent::fitting(), OUT) };
    if let Some(a) = pair.convert(&mut call) {
        println!("with references: refused {:?}, counts {:?}, omissions {:?}, {:?}", a.refused, a.counts, a.omissions, a.faults);
    }
    let agrees = checked(&mut pair, image, size, &[choices], 0, &mut Tally::default());
    println!("{agrees:?}");
    agrees.is_ok()
}

/// What is chosen besides for image k of a seed: nothing, and mostly something else too; for every `ALL`th more, some of it wrong.
fn chosen(seed: u64, k: u64) -> Vec<Choices> {
    let random = &mut Random::of(seed ^ 0x6368_6f73_656e, k);
    let mut all = vec![Choices::none()];
    let n = if k % ALL == 0 { 4 } else { 1 };
    for _ in 0..n {
        let unit = if random.percent(60) { random.pick(&UNITS) } else { 8 };
        let types = if random.percent(40) { tables::sound(random) } else { Vec::new() };
        all.push(Choices { unit, types, share: random.percent(50), photos: false });
    }
    if k % ALL == 0 {
        all.push(Choices { unit: random.pick(&[0, 4, 12, 8192]), types: tables::any(random), share: true, photos: false });
        all.push(Choices { types: tables::any(random), ..Choices::none() });
    }
    all
}

/// The words by which `one` chooses the same.
fn words(c: &Choices) -> String {
    let types: Vec<String> = c.types.iter().map(|b| b.to_string()).collect();
    let parts = [(c.unit != 8, format!(" unit={}", c.unit)), (!types.is_empty(), format!(" types={}", types.join(","))), (c.share, " share".into())];
    parts.iter().filter(|p| p.0).fold("photos".into(), |words, p| words + &p.1)
}

/// The first disagreement is shrunk; each of the first ones is saved.
fn report(pair: &mut Pair, case: &Case, seed: u64, k: u64, why: &str, tally: &mut Tally) {
    tally.disagreements += 1;
    if tally.disagreements > SHOWN {
        return;
    }
    let mut image = case.bytes();
    if tally.disagreements == 1 {
        let all = chosen(seed, k);
        let stays = |image: &[u8]| matches!(checked(pair, image, case.size, &all, k, &mut Tally::default()), Err(w) if shrink::alike(&w, why));
        image = shrink::shrink(case, stays);
    }
    let file = format!("{FOUND}/photos-{seed}-{k}-block-size-{}", case.size);
    println!("image {k} of seed {seed}, block size {}, {} bytes saved as {file}: {why}", case.size, image.len());
    std::fs::write(file, image).unwrap();
}

/// Without a choice, with the choice off, and with it and each of these choices besides; whether it is accepted with nothing besides.
fn checked(pair: &mut Pair, image: &[u8], size: u64, all: &[Choices], k: u64, tally: &mut Tally) -> Result<bool, String> {
    let found = pair.run(image, size, (k % 13) as usize);
    if let Verdict::Disagreement(why) = &found.verdict {
        return Err(format!("without a choice, {why}"));
    }
    let mut accepted = false;
    for (i, choices) in all.iter().enumerate() {
        let s = Subject { image, size, choices, k };
        let kept = s.held(pair, &found, tally).map_err(|why| format!("{why}; {}", words(choices)))?;
        accepted |= kept && i == 0;
    }
    Ok(accepted)
}

/// The Rust's result, where the port's is the same.
fn converted(found: &Finding) -> Option<&Converted> {
    match &found.rust {
        rust_side::Answer::Converted(c) if found.verdict == Verdict::SameFile => Some(c),
        _ => None,
    }
}

fn refuses(port: &mut Port, call: &Call, due: Refusal) -> Result<(), String> {
    let a = port.convert(call).ok_or("the port ended")?;
    if a.refused != Some(due) || !a.faults.is_empty() {
        return Err(format!("another refusal: {:?} {:?}, due is {due:?}", a.refused, a.faults));
    }
    Ok(())
}

fn over_4_gib(port: &mut Port, case: &Case) -> Result<(), String> {
    let (image, choices) = (case.bytes(), Some(Choices { photos: true, ..Choices::none() }));
    let call = Call { choices, image_len: LONG, ..Call::new(&image, case.size, Lent::fitting(), 0) };
    refuses(port, &call, (3, 0)).map_err(|why| format!("over 4 GiB, {why}"))
}

/// One image, and what is chosen besides keeping references.
struct Subject<'a> {
    image: &'a [u8],
    size: u64,
    choices: &'a Choices,
    k: u64,
}

impl Subject<'_> {
    fn call(&self, photos: bool, lent: Lent, out: usize) -> Call<'_> {
        Call { choices: Some(Choices { photos, ..self.choices.clone() }), ..Call::new(self.image, self.size, lent, out) }
    }

    /// Whether the port's answer with the choice is a file; it is what is due.
    fn held(&self, pair: &mut Pair, found: &Finding, tally: &mut Tally) -> Result<bool, String> {
        let usual = self.usual(pair, found)?;
        match self.due(pair, &usual)? {
            Due::Untold => tally.untold += 1,
            Due::Refused(stage, refusal) => {
                self.refused(&mut pair.port, refusal)?;
                tally.listings += (self.k % ALL == 0) as u64;
                tally.count_refusal(self.image, stage, usual.refused, refusal);
            }
            Due::File(plan) => {
                let bytes = self.accepted(&mut pair.port, &usual, &plan)?;
                tally.listings += (self.k % ALL == 0) as u64;
                tally.count_file(self.choices, bytes, &plan);
                return Ok(true);
            }
        }
        Ok(false)
    }

    /// The port's answer without references, held to the Rust where that can choose the same: sharing, and a unit by moving its blocks.
    fn usual(&self, pair: &mut Pair, found: &Finding) -> Result<Answer, String> {
        let sharing = self.choices.share.then(|| pair.run_sharing(self.image, self.size, 0));
        let found = sharing.as_ref().unwrap_or(found);
        if let Verdict::Disagreement(why) = &found.verdict {
            return Err(format!("without references, {why}"));
        }
        let rust = converted(found);
        let lent = rust.map_or(Lent::fitting(), |c| Lent::of(&c.bytes));
        let answer = pair.convert(&mut self.call(false, lent, OUT)).ok_or("the port ended")?;
        let comparable = self.choices.types.is_empty() && UNITS.contains(&self.choices.unit);
        let due = |c: &Converted| units::moved(&c.bytes, c.counts[5] as usize, self.choices.unit as usize);
        let same = || answer.refused == found.port.as_ref().and_then(|p| p.refused) && rust.map_or(true, |c| due(c) == answer.bytes);
        if !answer.faults.is_empty() || comparable && !same() {
            return Err(format!("without references another answer than the Rust's: {:?} {:?}", answer.refused, answer.faults));
        }
        Ok(answer)
    }

    fn due(&self, pair: &mut Pair, usual: &Answer) -> Result<Due, String> {
        if !UNITS.contains(&self.choices.unit) {
            return Ok(Due::Refused(Refused::Choices, (26, 0)));
        }
        let Some(treatments) = Treatments::of(&self.choices.types) else { return Ok(Due::Refused(Refused::Choices, (27, 0))) };
        if let Some(refused) = usual.refused {
            match types::reading(pair, self.image, self.size)? {
                None => return Ok(Due::Untold),
                Some(Some(reading)) if reading != refused => return Err(format!("reading gives {reading:?}, the conversion {refused:?}")),
                Some(Some(reading)) => return Ok(Due::Refused(Refused::Reading, reading)),
                Some(None) => {}
            }
        }
        self.planned(&treatments, false).map_or_else(|(_, r)| same_refusal(usual.refused, r), |_| Ok(()))?;
        Ok(match (self.planned(&treatments, true), usual.refused) {
            (Err((stage, refusal)), _) => Due::Refused(stage, refusal),
            (Ok(_), Some(refusal)) => Due::Refused(Refused::Later, refusal),
            (Ok(plan), None) => Due::File(plan),
        })
    }

    /// Planning of a recording that reading accepts, with references or without.
    fn planned(&self, treatments: &Treatments, photos: bool) -> Result<Plan, (Refused, Refusal)> {
        let in_stage = |stage: Refused| move |refusal: Refusal| (stage, refusal);
        let attachments = if photos { Some(model::attachments(self.image).map_err(in_stage(Refused::Attachments))?) } else { None };
        let mut stands = Vec::new();
        if self.choices.share {
            let clocks = Clocks::of(self.image).expect("the records are sound");
            clocks.start(By::Bytes).map_err(in_stage(Refused::Clocks))?;
            stands = clocks.stands(By::Bytes);
        }
        plan(self.image, treatments, &stands, attachments.as_deref()).map_err(in_stage(Refused::Planning))
    }

    /// Refused so, whatever the output; as a listing too; after 1 and 2.
    fn refused(&self, port: &mut Port, due: Refusal) -> Result<(), String> {
        let call = self.call(true, Lent::fitting(), 0);
        refuses(port, &call, due)?;
        if self.k % ALL > 0 {
            return Ok(());
        }
        let mut work = [WORK; 4];
        work[self.image.len() % 4] -= 1;
        refuses(port, &Call { list: 0, ..call.clone() }, due)?;
        refuses(port, &Call { size: 0, ..call.clone() }, (2, 0))?;
        refuses(port, &Call { work, ..call.clone() }, (1, 0))?;
        lists(port, &call, &format!("refused {} place {}\n", due.0, due.1))
    }

    /// Every byte, the counts, the omissions, the listing and what links show; 20 for an output one byte short. The file's length.
    fn accepted(&self, port: &mut Port, usual: &Answer, plan: &Plan) -> Result<usize, String> {
        let (metadata, unit) = (usual.counts[5] as usize, self.choices.unit as usize);
        let references = self.references(usual, plan)?;
        let none = vec![Vec::new(); references.len()];
        if laid(&usual.bytes, metadata, unit, &none) != (usual.bytes.clone(), metadata) {
            return Err("the model doesn't lay out the result without references".into());
        }
        let (file, metadata) = laid(&usual.bytes, metadata, unit, &references);
        let call = self.call(true, Lent::of(&usual.bytes), file.len() + self.image.len() % 3);
        let answer = port.convert(&call).ok_or("the port ended")?;
        let mut counts = usual.counts;
        (counts[5], counts[6]) = (metadata as u64, file.len() as u64);
        let photos: Vec<&[usize]> = plan.columns.iter().map(|c| &c.photos[..]).collect();
        let wrong = [
            (answer.refused.is_some() || !answer.faults.is_empty(), "refused, or something changed that must stay"),
            (answer.counts != counts, "another report"),
            (answer.omissions != usual.omissions, "other omissions"),
            (answer.bytes != file, "other bytes than the model lays out"),
            (!laid::shown(&answer.bytes, self.image, &photos), "references that lead elsewhere"),
        ];
        let told = |why| format!("{why}: {:?} {:?} {:?}", answer.refused, answer.faults, answer.counts);
        wrong.iter().find(|w| w.0).map_or(Ok(()), |w| Err(told(w.1)))?;
        refuses(port, &Call { out: file.len() - 1, ..call.clone() }, (20, file.len() as u64))?;
        if self.k % ALL == 0 {
            lists(port, &call, &listing(usual))?;
        }
        Ok(file.len())
    }

    /// Each column's references as numbers of attachments.
    fn references(&self, usual: &Answer, plan: &Plan) -> Result<Vec<Vec<Reference>>, String> {
        let attachments = model::attachments(self.image).map_err(|r| format!("the model refuses the attachments: {r:?}"))?;
        let moved = chain(&usual.bytes, link(&usual.bytes, 64, 3), b"##AT").len();
        if (moved, columns(&usual.bytes).len()) != (attachments.len(), plan.columns.len()) {
            return Err("other attachments or columns than the model has".into());
        }
        let number = |to: &usize| attachments.iter().position(|at| at == to);
        Ok(plan.columns.iter().map(|c| c.photos.iter().map(number).collect()).collect())
    }
}

/// The model without the choice, held to the conversion.
fn same_refusal(refused: Option<Refusal>, due: Refusal) -> Result<(), String> {
    if refused != Some(due) {
        return Err(format!("without references the model gives another refusal: {due:?}, the conversion {refused:?}"));
    }
    Ok(())
}

fn lists(port: &mut Port, call: &Call, due: &str) -> Result<(), String> {
    match port.list(call) {
        Some(lines) if lines == due => Ok(()),
        other => Err(format!("another listing: {other:?}, due is {due:?}")),
    }
}
