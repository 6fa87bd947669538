//! What was compared, and the tables of docs/COMPARED.md.
use crate::case::Case;
use crate::compare::{Finding, Verdict};
use crate::{omissions, rust_side};
use std::collections::BTreeMap;
use std::fmt::{Display, Formatter, Result};

#[derive(Default)]
struct Refusals {
    port: u64,
    same: u64,
    placed: u64,
    other: u64,
    only_rust: u64,
}

#[derive(Default)]
pub struct Tally {
    images: u64,
    damaged: u64,
    accepted: u64,
    bytes: u64,
    refused: u64,
    only_rust: BTreeMap<(u64, &'static str), u64>,
    other: BTreeMap<(&'static str, &'static str), u64>,
    units: BTreeMap<&'static str, u64>,
    by_number: BTreeMap<u64, Refusals>,
    reasons: BTreeMap<u64, u64>,
    several_addresses: u64,
    /// Reason 4 where the Rust's is 2.
    outside: u64,
    sizes: BTreeMap<u64, u64>,
    held: BTreeMap<String, (u64, u64)>,
    alone: BTreeMap<u64, u64>,
    pub disagreements: u64,
}

impl Tally {
    pub fn count(&mut self, case: &Case, image: &[u8], finding: &Finding) {
        self.images += 1;
        self.damaged += !case.edits.is_empty() as u64;
        if let Some((number, _)) = finding.port.as_ref().and_then(|p| p.refused) {
            self.count_refusal(number, &finding.verdict);
        }
        match &finding.verdict {
            Verdict::SameFile => self.count_file(case, image, finding),
            Verdict::SameRefusal { .. } | Verdict::OtherFault(_) | Verdict::RustEnded(_) => {
                self.refused += 1;
                case.sound.marks.iter().for_each(|m| self.held.entry(m.clone()).or_default().1 += 1);
            }
            Verdict::OtherUnits(why) => *self.units.entry(why).or_default() += 1,
            Verdict::OnlyRust(_) => {}
            Verdict::Disagreement(_) => self.disagreements += 1,
        }
    }

    fn count_refusal(&mut self, number: u64, verdict: &Verdict) {
        let row = self.by_number.entry(number).or_default();
        row.port += 1;
        match verdict {
            Verdict::SameRefusal { placed } => {
                row.same += 1;
                row.placed += *placed as u64;
            }
            Verdict::OtherFault(why) => {
                row.other += 1;
                *self.other.entry(("another fault", why)).or_default() += 1;
            }
            Verdict::RustEnded(why) => {
                row.other += 1;
                *self.other.entry(("the Rust ends", why)).or_default() += 1;
            }
            Verdict::OnlyRust(why) => {
                row.only_rust += 1;
                *self.only_rust.entry((number, why)).or_default() += 1;
            }
            _ => {}
        }
    }

    fn count_file(&mut self, case: &Case, image: &[u8], finding: &Finding) {
        self.accepted += 1;
        *self.sizes.entry(case.size).or_default() += 1;
        case.sound.marks.iter().for_each(|m| self.held.entry(m.clone()).or_default().0 += 1);
        let port = finding.port.as_ref().unwrap();
        port.omissions.iter().for_each(|o| *self.reasons.entry(o.1).or_default() += 1);
        if let rust_side::Answer::Converted(c) = &finding.rust {
            self.bytes += c.bytes.len() as u64;
            let omitted = omissions::of(image, &c.skipped);
            self.several_addresses += omitted.iter().filter(|o| o.due.len() > 1).count() as u64;
            self.outside += omitted.iter().zip(&port.omissions).filter(|(rust, port)| rust.reason == 2 && port.1 == 4).count() as u64;
        }
    }

    /// Whether images of 4 GiB were tried: once is enough.
    pub fn long_tried(&self) -> bool {
        self.alone.contains_key(&3)
    }

    pub fn count_alone(&mut self, numbers: &[u64]) {
        numbers.iter().for_each(|n| *self.alone.entry(*n).or_default() += 1);
    }
}

/// 1234567 as 1,234,567.
pub fn grouped(n: u64) -> String {
    if n < 1000 {
        n.to_string()
    } else {
        format!("{},{:03}", grouped(n / 1000), n % 1000)
    }
}

impl Display for Tally {
    fn fmt(&self, f: &mut Formatter) -> Result {
        self.outcomes(f)?;
        self.refusals(f)?;
        self.listed(f)?;
        self.omitted(f)?;
        self.tried_alone(f)?;
        self.contents(f)
    }
}

impl Tally {
    fn outcomes(&self, f: &mut Formatter) -> Result {
        writeln!(f, "| Images | {} |\n|---|---:|", grouped(self.images))?;
        writeln!(f, "| of these damaged by one to three edits | {} |", grouped(self.damaged))?;
        writeln!(f, "| accepted by both, with the same bytes, seven counts and omissions in order | {} |", grouped(self.accepted))?;
        writeln!(f, "| bytes of these results | {} |", grouped(self.bytes))?;
        for (size, n) in &self.sizes {
            writeln!(f, "| accepted by both with block size {} | {} |", grouped(*size), grouped(*n))?;
        }
        writeln!(f, "| refused by both | {} |", grouped(self.refused))?;
        writeln!(f, "| accepted by the Rust alone, as listed | {} |", grouped(self.only_rust.values().sum()))?;
        writeln!(f, "| disagreements | {} |\n", grouped(self.disagreements))
    }

    fn refusals(&self, f: &mut Formatter) -> Result {
        let heads =
            ["Refusal", "by the port", "same number", "of these same place", "another fault or end, as listed", "the Rust accepts, as listed"];
        writeln!(f, "| {} |", heads.join(" | "))?;
        writeln!(f, "|---:|---:|---:|---:|---:|---:|")?;
        for (number, r) in &self.by_number {
            let row = [r.port, r.same, r.placed, r.other, r.only_rust].map(grouped).join(" | ");
            writeln!(f, "| {number} | {row} |")?;
        }
        writeln!(f)
    }

    fn listed(&self, f: &mut Formatter) -> Result {
        writeln!(f, "| Listed difference | images |\n|---|---:|")?;
        for ((number, why), n) in &self.only_rust {
            writeln!(f, "| {number}, the Rust accepts: {why} | {} |", grouped(*n))?;
        }
        for ((what, why), n) in &self.other {
            writeln!(f, "| {what}: {why} | {} |", grouped(*n))?;
        }
        for (why, n) in &self.units {
            writeln!(f, "| {why} | {} |", grouped(*n))?;
        }
        writeln!(f)
    }

    fn omitted(&self, f: &mut Formatter) -> Result {
        writeln!(f, "| Omission reason | omissions |\n|---:|---:|")?;
        for (reason, n) in &self.reasons {
            writeln!(f, "| {reason} | {} |", grouped(*n))?;
        }
        writeln!(f, "| all, with a label that several channels have | {} |", grouped(self.several_addresses))?;
        writeln!(f, "| 4, where the Rust has 2: type 4 outside its record | {} |\n", grouped(self.outside))
    }

    fn tried_alone(&self, f: &mut Formatter) -> Result {
        if self.alone.is_empty() {
            return Ok(());
        }
        writeln!(f, "| Refusal by the port alone | tried |\n|---:|---:|")?;
        for (number, n) in &self.alone {
            writeln!(f, "| {number} | {} |", grouped(*n))?;
        }
        writeln!(f)
    }

    fn contents(&self, f: &mut Formatter) -> Result {
        writeln!(f, "| What recordings held before damage | accepted by both | refused by both |\n|---|---:|---:|")?;
        for (what, (accepted, refused)) in &self.held {
            writeln!(f, "| {what} | {} | {} |", grouped(*accepted), grouped(*refused))?;
        }
        Ok(())
    }
}
