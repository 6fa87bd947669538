//! The Rust converter: what it answers, and which of document 01's numbers its words mean.
use crate::child::{serve, Child, Pack, Unpack};
use mf4_rs::column::{to_column_oriented_bytes, ColumnOptions, ColumnReport};
use mf4_rs::error::MdfError;

/// More than any result of the images here needs; an image that claims far more ends the process soon.
const MEMORY: u64 = 128 << 20;

pub enum Answer {
    Converted(Converted),
    Refused(Told),
    /// It panicked, or ran out of memory or time.
    Ended,
}

#[derive(PartialEq)]
pub struct Converted {
    pub bytes: Vec<u8>,
    pub counts: [u64; 7],
    pub skipped: Vec<String>,
}

/// A refusal's number by its words (0 where they mean none), and what they say about its place.
#[derive(Debug)]
pub struct Told {
    pub number: u64,
    pub place: Place,
    pub words: String,
}

#[derive(Debug, Clone, Copy, PartialEq)]
pub enum Place {
    Unsaid,
    At(u64),
    /// Where the range ends that runs past the image.
    Ends(u64),
    /// A name of under 24 bytes.
    Name,
    /// How many bytes a DG's data still has from a record's start on.
    Left(u64),
    /// A record's id.
    Id(u64),
}

impl Place {
    fn words(self) -> [u64; 2] {
        match self {
            Place::Unsaid => [0, 0],
            Place::At(x) => [1, x],
            Place::Ends(x) => [2, x],
            Place::Name => [3, 0],
            Place::Left(x) => [4, x],
            Place::Id(x) => [5, x],
        }
    }

    fn of([form, x]: [u64; 2]) -> Place {
        [Place::Unsaid, Place::At(x), Place::Ends(x), Place::Name, Place::Left(x), Place::Id(x)][form as usize]
    }
}

pub struct Rust(Child);

impl Rust {
    pub fn new() -> Rust {
        Rust(Child::new("rust"))
    }

    /// `share`: whether groups with equal times get one time column.
    pub fn convert(&mut self, image: &[u8], size: u64, share: bool) -> Answer {
        let mut request = Pack::default();
        request.words(&[size, share as u64]);
        request.bytes(image);
        self.0.ask(&request.0).map_or(Answer::Ended, |a| unpack(&a))
    }
}

/// The process of this side.
pub fn run() {
    serve(MEMORY, |request| {
        let mut request = Unpack(request);
        let [size, share] = request.words();
        let image = request.bytes();
        let options = ColumnOptions { block_size: size, share_identical_time: share == 1, ..Default::default() };
        pack(std::panic::catch_unwind(|| to_column_oriented_bytes(image, &options)).ok())
    })
    .ok();
}

fn pack(answer: Option<Result<(Vec<u8>, ColumnReport), MdfError>>) -> Vec<u8> {
    let mut p = Pack::default();
    match answer {
        None => p.word(0),
        Some(Err(e)) => {
            p.word(1);
            let told = told(&e);
            p.word(told.number);
            p.words(&told.place.words());
            p.bytes(told.words.as_bytes());
        }
        Some(Ok((bytes, r))) => {
            p.word(2);
            let counts = [r.source_groups, r.time_groups, r.signal_groups, r.shared_time_groups, r.data_blocks].map(|n| n as u64);
            p.words(&counts);
            p.words(&[r.metadata_size, r.file_size, r.skipped_channels.len() as u64]);
            r.skipped_channels.iter().for_each(|s| p.bytes(s.as_bytes()));
            p.bytes(&bytes);
        }
    }
    p.0
}

fn unpack(answer: &[u8]) -> Answer {
    let mut u = Unpack(answer);
    match u.word() {
        0 => Answer::Ended,
        1 => {
            let number = u.word();
            let place = Place::of(u.words());
            Answer::Refused(Told { number, place, words: text(u.bytes()) })
        }
        _ => {
            let counts = u.words();
            let n = u.word();
            let skipped = (0..n).map(|_| text(u.bytes())).collect();
            Answer::Converted(Converted { counts, skipped, bytes: u.bytes().to_vec() })
        }
    }
}

fn text(b: &[u8]) -> String {
    String::from_utf8_lossy(b).into_owned()
}

/// Document 01's number for an error. A file over 4 GiB, limits and slices have none in the Rust.
fn told(e: &MdfError) -> Told {
    let (number, place) = match e {
        MdfError::TooShortBuffer { actual, expected: 24, .. } if *actual < 24 => (4, Place::Name),
        MdfError::TooShortBuffer { expected, .. } => (4, Place::Ends(*expected as u64)),
        MdfError::FileIdentifierError(_) => (5, Place::At(0)),
        MdfError::InvalidVersionString(_) => (6, Place::At(0)),
        MdfError::FileVersioningError(_) => (7, Place::At(0)),
        MdfError::BlockIDError { expected, .. } if expected == "##HD" => (10, Place::At(64)),
        MdfError::BlockIDError { expected, .. } if expected == "a data block" => (12, Place::Unsaid),
        MdfError::BlockLinkError(words) => (11, address(words)),
        MdfError::ConversionChainCycle { address } => (16, Place::At(*address)),
        MdfError::BlockSerializationError(words) => (meaning(words), place(words)),
        _ => (0, Place::Unsaid),
    };
    Told { number, place, words: e.to_string() }
}

/// The errors that column.rs has only words for.
fn meaning(words: &str) -> u64 {
    let known = [
        (2, "block_size must be"),
        (18, "##AT block at"),
        (8, "has an inconsistent link count"),
        (9, "is implausibly large"),
        (10, "expected a ##"),
        (12, "compressed ##DZ"),
        (13, "invalid record id size"),
        (14, "duplicate record id"),
        (14, "but no record ids"),
        (14, "##DV data blocks are only supported"),
        (15, "data ends inside a record"),
        (15, "a record straddles"),
        (15, "unknown record id"),
    ];
    known.iter().find(|(_, part)| words.contains(part)).map_or(0, |(n, _)| *n)
}

fn place(words: &str) -> Place {
    if let Some(n) = number_before(words, " bytes left") {
        return Place::Left(n);
    }
    number_before(words, " in unsorted data group").map_or_else(|| address(words), Place::Id)
}

fn number_before(words: &str, tail: &str) -> Option<u64> {
    words[..words.find(tail)?].rsplit(' ').next()?.parse().ok()
}

fn address(words: &str) -> Place {
    let digits = words.split("at 0x").nth(1).map(|rest| rest.split(|c: char| !c.is_ascii_hexdigit()).next().unwrap_or(""));
    digits.and_then(|d| u64::from_str_radix(d, 16).ok()).map_or(Place::Unsaid, Place::At)
}
