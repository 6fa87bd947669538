//! The Rust converter and the port over the same images, compared. See docs/COMPARED.md.
//!
//! differ RUNS SEED: images made from a seed; the tables of docs/COMPARED.md, and each disagreement; the first one is shrunk and saved.
//! differ image SEED K FILE: image K of a seed, written to a file.
//! differ one FILE SIZE [share]: one image with one block size, without a choice or with one clock for many groups.
//! differ one FILE SIZE photos [unit=N] [types=A,B,..] [share]: one image with references to attachments and what else is chosen.
//! differ answers FILE: the list of answers for crates/answers.
//! differ files RUNS SEED: the reader of column files beside a plain one.
//! differ plots RUNS SEED: tables of ranges beside single reads and the plain reader.
//! differ units RUNS SEED: the images of a seed with a unit each.
//! differ types RUNS SEED: the images of a seed with a table of treatments each, beside a model of planning.
//! differ share RUNS SEED: images whose groups share clocks, with that choice, beside the Rust and a model.
//! differ clocks SEED K FILE: image K of these, written to a file.
//! differ photos RUNS SEED: images whose channels refer to attachments, with that choice and others, beside a model.
//! differ references SEED K FILE: image K of these, written to a file.
mod alone;
mod answers;
mod blocks;
mod case;
mod child;
mod compare;
mod edit;
mod files;
mod generate;
mod listed;
mod model;
mod omissions;
mod photos;
mod port_side;
mod random;
mod result;
mod rust_side;
mod share;
mod shrink;
mod tally;
mod types;
mod units;
mod walk;

use case::Case;
use compare::{Finding, Pair, Verdict};
use port_side::{Call, Lent};
use random::Random;
use std::process::ExitCode;
use tally::Tally;

/// Where what is found is saved.
const FOUND: &str = "target/differ";

/// Disagreements printed in full.
const SHOWN: u64 = 20;

fn main() -> ExitCode {
    let args: Vec<String> = std::env::args().skip(1).collect();
    match args.iter().map(String::as_str).collect::<Vec<_>>()[..] {
        ["rust"] => rust_side::run(),
        ["port"] => port_side::run(),
        ["image", seed, k, file] => std::fs::write(file, Case::of(number(seed), number(k)).bytes()).unwrap(),
        ["clocks", seed, k, file] => std::fs::write(file, Case::clocks(number(seed), number(k)).bytes()).unwrap(),
        ["references", seed, k, file] => std::fs::write(file, Case::photos(number(seed), number(k)).bytes()).unwrap(),
        ["one", file, size] => return one(file, number(size)),
        ["one", file, size, "photos", ref words @ ..] => return status(photos::one(&std::fs::read(file).unwrap(), number(size), words)),
        ["one", file, size, "share"] => return status(share::one(&std::fs::read(file).unwrap(), number(size))),
        ["photos", runs, seed] => return status(photos::compared(number(runs), number(seed))),
        ["share", runs, seed] => return status(share::compared(number(runs), number(seed))),
        ["answers", file] => return status(answers::write(file)),
        ["files", runs, seed] => return status(files::compared(number(runs), number(seed))),
        ["plots", runs, seed] => return status(files::plots::compared(number(runs), number(seed))),
        ["units", runs, seed] => return status(units::compared(number(runs), number(seed))),
        ["types", runs, seed] => return status(types::compared(number(runs), number(seed))),
        [runs, seed] => return compared(number(runs), number(seed)),
        _ => {
            eprintln!("differ RUNS SEED | (image | clocks | references) SEED K FILE | one FILE SIZE [share | photos CHOICE...] | answers FILE");
            eprintln!("differ (files | plots | units | types | share | photos) RUNS SEED");
            return ExitCode::from(2);
        }
    }
    ExitCode::SUCCESS
}

fn number(s: &str) -> u64 {
    s.parse().unwrap_or_else(|_| panic!("{s} is not a number"))
}

fn status(agree: bool) -> ExitCode {
    if agree {
        ExitCode::SUCCESS
    } else {
        ExitCode::FAILURE
    }
}

/// The images of a seed, one after the other.
struct Run {
    seed: u64,
    pair: Pair,
    tally: Tally,
}

fn compared(runs: u64, seed: u64) -> ExitCode {
    let mut run = Run { seed, pair: Pair::new(), tally: Tally::default() };
    (0..runs).for_each(|k| run.image(k));
    let many = alone::on_many_blocks(&mut run.pair.port);
    run.tried(many);
    println!("{}", run.tally);
    status(run.tally.disagreements == 0)
}

impl Run {
    fn image(&mut self, k: u64) {
        let case = Case::of(self.seed, k);
        let image = case.bytes();
        let slack = (k % 13) as usize;
        let finding = self.pair.run(&image, case.size, slack);
        self.tally.count(&case, &image, &finding);
        if let Verdict::Disagreement(why) = &finding.verdict {
            self.report(k, &case, slack, why, &finding);
        }
        if k % 20 == 0 {
            self.alone(k, &image, case.size, &finding);
        }
    }

    /// Short slices and bad arguments on the port alone.
    fn alone(&mut self, k: u64, image: &[u8], size: u64, finding: &Finding) {
        let random = &mut Random::of(!self.seed, k);
        match (&finding.rust, finding.port.as_ref()) {
            (rust_side::Answer::Converted(c), Some(p)) if p.refused.is_none() => {
                let sound = Call::new(image, size, Lent::of(&c.bytes), c.bytes.len());
                let tried = alone::on_accepted(&mut self.pair.port, &sound, p.omissions.len(), random);
                self.tried(tried);
                if !self.tally.long_tried() {
                    let tried = alone::on_long_images(&mut self.pair.port, &sound);
                    self.tried(tried);
                }
            }
            (_, Some(p)) => {
                let tried = p.refused.map(|refused| alone::on_refused(&mut self.pair.port, image, size, refused, random));
                tried.into_iter().for_each(|t| self.tried(t));
            }
            _ => {}
        }
    }

    fn tried(&mut self, tried: alone::Tried) {
        match tried {
            Ok(numbers) => self.tally.count_alone(&numbers),
            Err(why) => {
                self.tally.disagreements += 1;
                println!("the port alone: {why}");
            }
        }
    }

    /// The first disagreement is shrunk and saved.
    fn report(&mut self, k: u64, case: &Case, slack: usize, why: &str, finding: &Finding) {
        if self.tally.disagreements > SHOWN {
            return;
        }
        let port = finding.port.as_ref().map(|p| p.refused);
        println!("image {k} of seed {}, block size {}: {why}; port {port:?}", self.seed, case.size);
        if self.tally.disagreements == 1 {
            let pair = &mut self.pair;
            let stays = |bytes: &[u8]| matches!(pair.run(bytes, case.size, slack).verdict, Verdict::Disagreement(w) if shrink::alike(&w, why));
            let small = shrink::shrink(case, stays);
            let file = format!("{FOUND}/disagreement-{}-{k}-block-size-{}", self.seed, case.size);
            println!("shrunk to {} bytes: {file}", small.len());
            std::fs::write(file, small).unwrap();
        }
    }
}

fn one(file: &str, size: u64) -> ExitCode {
    let image = std::fs::read(file).unwrap();
    let finding = Pair::new().run(&image, size, 0);
    print_finding(&finding);
    status(!matches!(finding.verdict, Verdict::Disagreement(_)))
}

fn print_finding(finding: &Finding) {
    match &finding.rust {
        rust_side::Answer::Converted(c) => println!("Rust: {} bytes, counts {:?}, {:?}", c.bytes.len(), c.counts, c.skipped),
        rust_side::Answer::Refused(told) => println!("Rust: {told:?}"),
        rust_side::Answer::Ended => println!("Rust: ended"),
    }
    if let Some(p) = &finding.port {
        println!("port: refused {:?}, counts {:?}, omissions {:?}", p.refused, p.counts, p.omissions);
    }
    println!("{:?}", finding.verdict);
}
