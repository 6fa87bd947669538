//! Both converters over one image, and what their answers say about each other.
use crate::port_side::{self, Call, Choices, Lent, Port};
use crate::rust_side::{self, Converted, Place, Rust, Told};
use crate::share::listed::units as listed_units;
use crate::{listed, omissions, walk};

/// Output lent where the Rust gives no result; a port that asks for more is asked again with as much.
const OUT: usize = 65_536;

pub struct Pair {
    pub rust: Rust,
    pub port: Port,
}

pub struct Finding {
    pub rust: rust_side::Answer,
    pub port: Option<port_side::Answer>,
    pub verdict: Verdict,
}

#[derive(Debug, Clone, PartialEq)]
pub enum Verdict {
    /// Both accept: the same bytes, seven counts and omissions.
    SameFile,
    /// Both refuse, and the Rust's words mean the port's number; whether they tell a place, which is then the port's.
    SameRefusal {
        placed: bool,
    },
    /// Both refuse for faults that they meet in another order, as docs/DIFFERENCES.md lists.
    OtherFault(&'static str),
    /// The port refuses, the Rust panics or runs out of memory or time, as docs/DIFFERENCES.md lists.
    RustEnded(&'static str),
    /// Only the Rust accepts, as docs/DIFFERENCES.md lists.
    OnlyRust(&'static str),
    /// With one clock for many groups: units that are decoded alike over other bytes or kinds, as docs/DIFFERENCES.md lists.
    OtherUnits(&'static str),
    Disagreement(String),
}

impl Pair {
    pub fn new() -> Pair {
        Pair { rust: Rust::new(), port: Port::new() }
    }

    /// Without a choice. `slack`: how many bytes and words the slices have beyond what is needed.
    pub fn run(&mut self, image: &[u8], size: u64, slack: usize) -> Finding {
        self.both(image, size, slack, false)
    }

    /// Both with the choice of one clock for many groups.
    pub fn run_sharing(&mut self, image: &[u8], size: u64, slack: usize) -> Finding {
        self.both(image, size, slack, true)
    }

    fn both(&mut self, image: &[u8], size: u64, slack: usize, share: bool) -> Finding {
        let rust = self.rust.convert(image, size, share);
        let (lent, out) = match &rust {
            rust_side::Answer::Converted(c) => (Lent::of(&c.bytes), c.bytes.len() + slack),
            _ => (Lent::fitting(), OUT),
        };
        let mut call = Call { choices: Choices::share(true).filter(|_| share), ..Call::new(image, size, lent, out) };
        call.work[slack % 4] += slack % 3;
        call.work[1] += [0, 500, 20_000][image.len() % 3];
        let port = self.convert(&mut call);
        let verdict = match (verdict(image, &rust, port.as_ref()), &port) {
            (Verdict::Disagreement(why), Some(p)) if share && p.faults.is_empty() => {
                listed_units(image, &rust, p).map_or(Verdict::Disagreement(why), Verdict::OtherUnits)
            }
            (verdict, _) => verdict,
        };
        Finding { rust, port, verdict }
    }

    /// The port's answer, with as much output as it asks for.
    pub fn convert(&mut self, call: &mut Call) -> Option<port_side::Answer> {
        let first = self.port.convert(call)?;
        match first.refused {
            Some((20, needed)) if needed > call.out as u64 && needed < 1 << 28 => {
                call.out = needed as usize;
                self.port.convert(call)
            }
            _ => Some(first),
        }
    }
}

fn verdict(image: &[u8], rust: &rust_side::Answer, port: Option<&port_side::Answer>) -> Verdict {
    let Some(port) = port else { return Verdict::Disagreement("the port ended".into()) };
    if !port.faults.is_empty() {
        return Verdict::Disagreement(port.faults.join(", "));
    }
    match (rust, port.refused) {
        (rust_side::Answer::Converted(c), None) => accepted(image, c, port),
        (rust_side::Answer::Refused(told), None) => Verdict::Disagreement(format!("only the port accepts: {}", told.words)),
        (rust_side::Answer::Ended, None) => Verdict::Disagreement("only the port accepts: the Rust ended".into()),
        (rust_side::Answer::Converted(_), Some((n, p))) => {
            listed::accepted(image, n, p).map_or(Verdict::Disagreement("only the Rust accepts".into()), Verdict::OnlyRust)
        }
        (rust_side::Answer::Ended, Some((n, p))) => {
            listed::ended(image, n, p).map_or(Verdict::Disagreement("the Rust ended".into()), Verdict::RustEnded)
        }
        (rust_side::Answer::Refused(told), Some((n, p))) => refused(image, told, n, p),
    }
}

fn accepted(image: &[u8], c: &Converted, port: &port_side::Answer) -> Verdict {
    let mut why = Vec::new();
    if port.counts != c.counts {
        why.push("another report");
    }
    if port.bytes != c.bytes {
        why.push("other bytes");
    }
    if !omissions::agree(&omissions::of(image, &c.skipped), &port.omissions) {
        why.push("other omissions");
    }
    if why.is_empty() {
        Verdict::SameFile
    } else {
        Verdict::Disagreement(why.join(", "))
    }
}

fn refused(image: &[u8], told: &Told, number: u64, place: u64) -> Verdict {
    if number == told.number {
        match placed(image, told.place, place) {
            Some(true) => return Verdict::SameRefusal { placed: true },
            None => return Verdict::SameRefusal { placed: false },
            Some(false) => {}
        }
    }
    match listed::other_fault(image, number, place, told) {
        Some(why) => Verdict::OtherFault(why),
        None if number == told.number => Verdict::Disagreement(format!("another place than the Rust's words: {}", told.words)),
        None => Verdict::Disagreement(format!("another number than the Rust's words: {}", told.words)),
    }
}

/// Whether the place is the one that the Rust's words tell; none where they tell none. Of a range past the image they tell its end, which is that of
/// a header, of a block, of a fragment's data (read in pieces of about 4 MiB) or of the identification that begins at the port's place.
fn placed(image: &[u8], told: Place, place: u64) -> Option<bool> {
    let word = |at: u64| crate::blocks::word(image, at as usize);
    match told {
        Place::Unsaid => None,
        Place::At(at) => Some(at == place),
        Place::Name => Some(word(place.wrapping_add(8)) < 24),
        Place::Left(n) => Some(walk::data_from(image, place).iter().any(|d| d.left == n as u128)),
        Place::Id(id) => Some(walk::data_from(image, place).iter().any(|d| d.id.map_or(true, |x| x == id))),
        Place::Ends(end) => {
            let data = || word(place.wrapping_sub(16)).saturating_sub(24);
            let lengths = [24, word(place.wrapping_add(8)), data(), if place == 0 { 64 } else { 24 }];
            let piece = data() > 4_000_000 && end > place && end - place <= data();
            Some(piece || lengths.iter().any(|n| place.saturating_add(*n) == end))
        }
    }
}
