//! What was met with references to attachments, for docs/COMPARED.md.
use super::Refused;
use crate::blocks::data_field;
use crate::case::Case;
use crate::model::{Plan, Refusal};
use crate::port_side::Choices;
use crate::tally::grouped;
use std::collections::BTreeMap;

#[derive(Default)]
pub struct Tally {
    images: u64,
    damaged: u64,
    /// Refusals of images in which a byte has two meanings, so that it can't be told where they are met.
    pub untold: u64,
    pub listings: u64,
    pub disagreements: u64,
    files: BTreeMap<String, u64>,
    bytes: u64,
    kept: BTreeMap<&'static str, u64>,
    longest: usize,
    refused: BTreeMap<(Refused, u64), u64>,
    /// 28 at a time column's channel.
    of_times: u64,
    /// What the choice changes of the answer, by the numbers without and with it; 0 is accepted.
    changed: BTreeMap<(u64, u64), u64>,
    held: BTreeMap<String, (u64, u64)>,
}

impl Tally {
    /// `accepted`: with references and nothing else chosen.
    pub fn count(&mut self, case: &Case, accepted: bool) {
        self.images += 1;
        self.damaged += !case.edits.is_empty() as u64;
        for mark in case.sound.marks.iter().filter_map(|m| m.strip_prefix("photos: ")) {
            let (yes, no) = self.held.entry(mark.into()).or_default();
            *(if accepted { yes } else { no }) += 1;
        }
    }

    pub fn count_refusal(&mut self, image: &[u8], stage: Refused, without: Option<Refusal>, with: Refusal) {
        *self.refused.entry((stage, with.0)).or_default() += 1;
        self.of_times += (with.0 == 28 && [2, 3].contains(&data_field(image, with.1 as usize, 0, 1))) as u64;
        if without != Some(with) {
            *self.changed.entry((without.map_or(0, |r| r.0), with.0)).or_default() += 1;
        }
    }

    pub fn count_file(&mut self, choices: &Choices, bytes: usize, plan: &Plan) {
        *self.files.entry(chosen(choices)).or_default() += 1;
        self.bytes += bytes as u64;
        let mut add = |what, n: usize| *self.kept.entry(what).or_default() += n as u64;
        for c in &plan.columns {
            let n = c.photos.len();
            let twice = (0..n).filter(|i| c.photos[*i] != 0 && c.photos[..*i].contains(&c.photos[*i])).count();
            add("columns", 1);
            add("columns with references", (n > 0) as usize);
            add("time columns with references", (n > 0 && c.time) as usize);
            add("references", n);
            add("references of 0", c.photos.iter().filter(|to| **to == 0).count());
            add("references to an attachment that the column has before", twice);
            self.longest = self.longest.max(n);
        }
    }

    pub fn print(&self) {
        println!("| Images | {} |\n|---|---:|", grouped(self.images));
        row("of these damaged by edits", self.damaged);
        self.files.iter().for_each(|(choices, n)| row(&format!("accepted with {choices}, every byte as the model lays it out"), *n));
        row("bytes of these", self.bytes);
        self.refused.iter().for_each(|((stage, number), n)| row(&format!("refused with {number} {}", stage.words()), *n));
        row("of these with 28 at a time column's channel", self.of_times);
        row("refused, not told where, since a byte has two meanings", self.untold);
        row("listings compared", self.listings);
        row("disagreements", self.disagreements);
        println!("\n| In accepted results | |\n|---|---:|");
        self.kept.iter().for_each(|(what, n)| row(what, *n));
        row("most references of a column", self.longest as u64);
        println!("\n| Without the choice | with it | |\n|---|---|---:|");
        let words = |number: u64| if number == 0 { "accepted".into() } else { format!("refused with {number}") };
        self.changed.iter().for_each(|((without, with), n)| println!("| {} | {} | {} |", words(*without), words(*with), grouped(*n)));
        println!("\n| What recordings held before damage | accepted with references | refused |\n|---|---:|---:|");
        self.held.iter().for_each(|(what, (yes, no))| println!("| {what} | {} | {} |", grouped(*yes), grouped(*no)));
    }
}

fn row(what: &str, n: u64) {
    println!("| {what} | {} |", grouped(n));
}

fn chosen(c: &Choices) -> String {
    let others = [(c.unit != 8, ", a unit"), (!c.types.is_empty(), ", a table"), (c.share, ", one clock for equal groups")];
    others.iter().filter(|o| o.0).fold("references".into(), |words, o| words + o.1)
}
