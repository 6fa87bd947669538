//! What was met with tables of treatments, for docs/COMPARED.md.
use crate::blocks::data_field;
use crate::model::{Column, Plan};
use crate::tally::grouped;
use std::collections::BTreeMap;

/// Where a refusal is met.
#[derive(Clone, Copy, PartialEq, Eq, PartialOrd, Ord)]
pub enum Stage {
    Reading,
    Planning,
    Later,
}

#[derive(Default)]
pub struct Tally {
    pub images: u64,
    /// Images in which a byte has two meanings.
    pub overlapping: u64,
    /// Accepted with a table, refused without; and the other way.
    pub only_with: u64,
    pub only_without: u64,
    pub listings: u64,
    pub wrong: u64,
    pub disagreements: u64,
    files: u64,
    bytes: u64,
    columns: BTreeMap<String, u64>,
    reasons: BTreeMap<u64, u64>,
    moved: BTreeMap<String, u64>,
    refused: BTreeMap<(Stage, u64), u64>,
}

impl Tally {
    pub fn count_refusal(&mut self, stage: Stage, number: u64) {
        *self.refused.entry((stage, number)).or_default() += 1;
    }

    /// A file of so many bytes by a plan, and the plan by what is built in, if there is one.
    pub fn count_file(&mut self, image: &[u8], bytes: usize, plan: &Plan, usual: Option<&Plan>) {
        self.files += 1;
        self.bytes += bytes as u64;
        plan.columns.iter().for_each(|c| *self.columns.entry(column_words(image, c)).or_default() += 1);
        plan.omissions.iter().for_each(|o| *self.reasons.entry(o.1).or_default() += 1);
        let before = usual.map_or(BTreeMap::new(), |usual| fates(image, usual));
        for (channel, fate) in fates(image, plan) {
            if let Some(was) = before.get(&channel).filter(|was| **was != fate) {
                *self.moved.entry(format!("{was} becomes {fate}")).or_default() += 1;
            }
        }
    }

    pub fn print(&self) {
        println!("| Images | {} |\n|---|---:|", grouped(self.images));
        row("of these with a type or link that lies in another block too, not tried with tables", self.overlapping);
        row("accepted with a table, as the model plans and the Rust writes", self.files);
        row("bytes of these", self.bytes);
        row("of these refused without a table", self.only_with);
        self.refused.iter().for_each(|((stage, number), n)| row(&format!("refused with {number} in {}", stage_words(*stage)), *n));
        row("of these accepted without a table", self.only_without);
        row("with a table that is none: 27, after 1, 2 and 26", self.wrong);
        row("listings compared", self.listings);
        row("disagreements", self.disagreements);
        println!("\n| Accepted with a table | columns or omissions |\n|---|---:|");
        self.columns.iter().for_each(|(what, n)| row(what, *n));
        self.reasons.iter().for_each(|(reason, n)| row(&format!("omitted with reason {reason}"), *n));
        println!("\n| What a table changes of a channel | channels |\n|---|---:|");
        self.moved.iter().for_each(|(what, n)| row(what, *n));
    }
}

fn row(what: &str, n: u64) {
    println!("| {what} | {} |", grouped(n));
}

fn stage_words(stage: Stage) -> &'static str {
    match stage {
        Stage::Reading => "reading",
        Stage::Planning => "planning, as the model says",
        Stage::Later => "later stages, as the recording that stands for it",
    }
}

fn kind(image: &[u8], channel: usize) -> u8 {
    data_field(image, channel, 0, 1) as u8
}

fn type_words(kind: u8) -> String {
    if kind < 7 {
        format!("type {kind}")
    } else {
        "a type over 6".into()
    }
}

fn signal_words(c: &Column) -> &'static str {
    if c.signal.is_some() {
        " with signal data"
    } else {
        ""
    }
}

fn column_words(image: &[u8], c: &Column) -> String {
    let own = kind(image, c.channel);
    let stored = if own == c.stored { "kept".into() } else { format!("stored as {}", type_words(c.stored)) };
    format!("{} {stored}{}", type_words(own), signal_words(c))
}

/// What becomes of each channel.
fn fates(image: &[u8], plan: &Plan) -> BTreeMap<u64, String> {
    let column = |c: &Column| (c.channel as u64, format!("a column of {}{}", type_words(c.stored), signal_words(c)));
    let omitted = plan.omissions.iter().filter(|o| o.1 != 1);
    let omission = |o: &(u64, u64)| (o.0, format!("{}, reason {}", type_words(kind(image, o.0 as usize)), o.1));
    plan.columns.iter().map(column).chain(omitted.map(omission)).collect()
}
