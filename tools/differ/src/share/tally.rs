//! What was met with shared clocks, for docs/COMPARED.md.
use crate::case::Case;
use crate::compare::{Finding, Verdict};
use crate::model::Plan;
use crate::tally::{self, grouped};
use std::collections::BTreeMap;

#[derive(Default)]
pub struct Tally {
    all: tally::Tally,
    /// Files, by how many groups another stands for.
    shared: BTreeMap<&'static str, u64>,
    groups: u64,
    /// Columns that name a time column which stands for their group's.
    signals: u64,
    /// Accepted with the choice, refused without it; and the other way, by number.
    only_with: u64,
    only_without: BTreeMap<u64, u64>,
    pub listings: u64,
    pub units: u64,
    pub tables: u64,
}

impl Tally {
    pub fn count(&mut self, case: &Case, image: &[u8], with: &Finding) {
        self.all.count(case, image, with);
        if let (Verdict::SameFile, Some(p)) = (&with.verdict, &with.port) {
            *self.shared.entry(few(p.counts[3])).or_default() += 1;
        }
    }

    /// How many there are with this one.
    pub fn count_disagreement(&mut self) -> u64 {
        self.all.disagreements += 1;
        self.disagreements()
    }

    pub fn disagreements(&self) -> u64 {
        self.all.disagreements
    }

    pub fn count_model_refusal(&mut self, number: u64) {
        *self.only_without.entry(number).or_default() += 1;
    }

    pub fn count_planned(&mut self, stands: &[usize], due: &Plan, sound: bool) {
        self.only_with += !sound as u64;
        self.groups += stands.iter().enumerate().filter(|(g, by)| g != *by).count() as u64;
        self.signals += due.columns.iter().filter(|c| !c.time && c.axis.is_some_and(|g| stands[g] != g)).count() as u64;
    }

    pub fn print(&self) {
        let row = |what: &str, n: u64| println!("| {what} | {} |", grouped(n));
        println!("{}", self.all);
        println!("| With the choice | images |\n|---|---:|");
        self.shared.iter().for_each(|(n, files)| row(&format!("accepted by both, groups that another stands for: {n}"), *files));
        row("refused without the choice, accepted with it", self.only_with);
        self.only_without.iter().for_each(|(number, n)| row(&format!("accepted without the choice, refused with {number} as the model says"), *n));
        row("also as a listing", self.listings);
        row("also with a unit, the Rust's bytes moved", self.units);
        row("also with a table, as the model plans", self.tables);
        println!("\n| By the model, of accepted images | |\n|---|---:|");
        row("groups that another stands for", self.groups);
        row("signals that name such a time column, with the times of their own group", self.signals);
    }
}

fn few(n: u64) -> &'static str {
    match n {
        0 => "0",
        1 => "1",
        2 => "2",
        3..=9 => "3 to 9",
        _ => "over 9",
    }
}
