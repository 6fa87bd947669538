//! The port: conversion and listing of the static library, with what they must leave alone or clear looked at after each call.
use crate::blocks::word;
use crate::child::{serve, Child, Pack, Unpack};

/// Words of a work slice.
pub const WORK: usize = 8192;
/// Words of an omission list that always do.
pub const LIST: usize = 2049;
/// Bytes of a listing that always do.
const LINES: usize = 119_354;

/// What output bytes and list words hold at entry.
const OUT_BYTE: u8 = 0xa5;
const LIST_WORD: u64 = 0xc3c3_c3c3_c3c3_c3c3;

/// Enough for an image of over 4 GiB.
const MEMORY: u64 = 6 << 30;

#[repr(C)]
#[derive(Clone, Copy)]
struct Outcome {
    accepted: bool,
    number: u64,
    place: u64,
    counts: [u64; 7],
}

#[repr(C)]
#[derive(Clone, Copy)]
struct Options {
    unit: u64,
    share: bool,
    photos: bool,
}

#[rustfmt::skip]
#[link(name = "sitaungo", kind = "static")]
extern "C" {
    fn sitaungo_convert(
        image: *const u8, image_len: usize, size: u64, ident: *const u8, ident_len: usize, text: *const u8, text_len: usize, time: u64,
        source: *mut u64, source_len: usize, fragments: *mut u64, fragments_len: usize, columns: *mut u64, columns_len: usize,
        copies: *mut u64, copies_len: usize, out: *mut u8, out_len: usize, list: *mut u64, list_len: usize,
    ) -> Outcome;
    fn sitaungo_convert_with(
        image: *const u8, image_len: usize, size: u64, ident: *const u8, ident_len: usize, text: *const u8, text_len: usize, time: u64,
        options: Options, types: *const u8, types_len: usize,
        source: *mut u64, source_len: usize, fragments: *mut u64, fragments_len: usize, columns: *mut u64, columns_len: usize,
        copies: *mut u64, copies_len: usize, out: *mut u8, out_len: usize, list: *mut u64, list_len: usize,
    ) -> Outcome;
    fn sitaungo_list_with(
        image: *const u8, image_len: usize, size: u64, ident: *const u8, ident_len: usize, text: *const u8, text_len: usize,
        options: Options, types: *const u8, types_len: usize, out: u64, list_words: u64,
        source: *mut u64, source_len: usize, fragments: *mut u64, fragments_len: usize, columns: *mut u64, columns_len: usize,
        copies: *mut u64, copies_len: usize, lines: *mut u8, lines_len: usize,
    ) -> usize;
}

/// What is lent besides the image.
#[derive(Clone)]
pub struct Lent {
    pub ident: Vec<u8>,
    pub text: Vec<u8>,
    pub time: u64,
}

impl Lent {
    /// Lent where the Rust gives no result.
    pub fn fitting() -> Lent {
        Lent { ident: [&b"MDF     4.20    "[..], &[0; 48]].concat(), text: b"convert".to_vec(), time: 0 }
    }

    /// The identification, history text and time of a result, whose last FH is the conversion's own.
    pub fn of(result: &[u8]) -> Lent {
        let fh = last_history(result);
        let md = word(result, fh + 32) as usize;
        let text = result.get(md + 24..md + word(result, md + 8) as usize).unwrap_or(b"");
        let end = text.iter().rposition(|b| *b != 0).map_or(0, |last| last + 1);
        Lent { ident: result[..64].to_vec(), text: text[..end].to_vec(), time: word(result, fh + 40) }
    }
}

/// Where the last FH of a result stands.
pub fn last_history(result: &[u8]) -> usize {
    let next = |fh: &usize| Some(word(result, *fh + 24) as usize).filter(|next| *next != 0);
    std::iter::successors(Some(word(result, 96) as usize), next).take(result.len()).last().unwrap_or(0)
}

/// What a call chooses.
#[derive(Clone, Debug)]
pub struct Choices {
    pub unit: u64,
    /// The table of treatments.
    pub types: Vec<u8>,
    /// Whether groups with equal times get one time column.
    pub share: bool,
    /// Whether columns keep references to attachments.
    pub photos: bool,
}

impl Choices {
    /// What the call that chooses nothing stands for.
    pub fn none() -> Choices {
        Choices { unit: 8, types: Vec::new(), share: false, photos: false }
    }

    pub fn share(share: bool) -> Option<Choices> {
        Some(Choices { share, ..Choices::none() })
    }

    pub fn unit(unit: u64) -> Option<Choices> {
        Some(Choices { unit, ..Choices::none() })
    }

    pub fn types(types: &[u8]) -> Option<Choices> {
        Some(Choices { types: types.to_vec(), ..Choices::none() })
    }
}

/// A call's image, block size and lent values, and the lengths of its slices.
#[derive(Clone)]
pub struct Call<'a> {
    pub image: &'a [u8],
    /// The image goes on with zeros up to this length.
    pub image_len: usize,
    pub size: u64,
    /// None: the call that chooses nothing.
    pub choices: Option<Choices>,
    pub lent: Lent,
    pub out: usize,
    pub list: usize,
    pub work: [usize; 4],
}

impl<'a> Call<'a> {
    pub fn new(image: &'a [u8], size: u64, lent: Lent, out: usize) -> Call<'a> {
        Call { image, image_len: image.len(), size, choices: None, lent, out, list: LIST, work: [WORK; 4] }
    }
}

pub struct Answer {
    /// Number and place of a refusal.
    pub refused: Option<(u64, u64)>,
    pub counts: [u64; 7],
    pub bytes: Vec<u8>,
    /// Addresses and reasons.
    pub omissions: Vec<(u64, u64)>,
    /// What was changed that must stay, or isn't zero.
    pub faults: Vec<&'static str>,
}

const FAULTS: [&str; 6] = [
    "work words aren't zero",
    "refusal 1 changed work words",
    "a refusal changed output",
    "a refusal changed the list",
    "output past the result changed",
    "list words past the end changed",
];

pub struct Port(Child);

impl Port {
    pub fn new() -> Port {
        Port(Child::new("port"))
    }

    /// None where the process ended.
    pub fn convert(&mut self, call: &Call) -> Option<Answer> {
        self.0.ask(&packed(call, false)).map(|a| unpack(&a))
    }

    /// The listing of what the call chooses, unit 8 and no table where it chooses nothing; none also where it left something that must be zero or stay.
    pub fn list(&mut self, call: &Call) -> Option<String> {
        self.0.ask(&packed(call, true)).and_then(|a| String::from_utf8(a).ok()).filter(|lines| !lines.is_empty())
    }
}

fn packed(call: &Call, lists: bool) -> Vec<u8> {
    let none = Choices::none();
    let choices = call.choices.as_ref().unwrap_or(&none);
    let mut p = Pack::default();
    p.bytes(call.image);
    p.words(&[call.image_len as u64, call.size, call.lent.time, call.out as u64, call.list as u64]);
    p.words(&[lists as u64, call.choices.is_some() as u64, choices.unit, choices.share as u64, choices.photos as u64]);
    p.words(&call.work.map(|n| n as u64));
    p.bytes(&choices.types);
    p.bytes(&call.lent.ident);
    p.bytes(&call.lent.text);
    p.0
}

fn unpack(answer: &[u8]) -> Answer {
    let mut u = Unpack(answer);
    let [accepted, number, place, faults] = u.words();
    let counts = u.words();
    let n = u.word();
    let words: Vec<u64> = (0..2 * n).map(|_| u.word()).collect();
    let (addresses, reasons) = words.split_at(n as usize);
    Answer {
        refused: (accepted == 0).then_some((number, place)),
        counts,
        omissions: addresses.iter().copied().zip(reasons.iter().copied()).collect(),
        bytes: u.bytes().to_vec(),
        faults: (0..FAULTS.len()).filter(|i| faults >> i & 1 == 1).map(|i| FAULTS[i]).collect(),
    }
}

/// The process of this side. Its slices stay from call to call, holding their entry values between calls.
pub fn run() {
    let mut slices = Slices::default();
    serve(MEMORY, |request| slices.answer(request)).ok();
}

#[derive(Default)]
struct Slices {
    work: [Vec<u64>; 4],
    out: Vec<u8>,
    list: Vec<u64>,
    lines: Vec<u8>,
    /// What output and list hold at entry, and zero words.
    out_before: Vec<u8>,
    list_before: Vec<u64>,
    zeros: Vec<u64>,
    calls: u64,
}

/// A call as it comes over the pipe.
struct Request<'a> {
    image: &'a [u8],
    size: u64,
    chooses: bool,
    options: Options,
    types: &'a [u8],
    time: u64,
    out: usize,
    list: usize,
    work: [usize; 4],
    ident: &'a [u8],
    text: &'a [u8],
}

impl Slices {
    fn answer(&mut self, request: &[u8]) -> Vec<u8> {
        let mut u = Unpack(request);
        let bytes = u.bytes();
        let [image_len, size, time, out, list] = u.words();
        let [lists, chooses, unit, share, photos] = u.words();
        let work = u.words().map(|n| n as usize);
        let longer = lengthened(bytes, image_len as usize);
        let (image, out, list, chooses) = (longer.as_deref().unwrap_or(bytes), out as usize, list as usize, chooses == 1);
        let options = Options { unit, share: share == 1, photos: photos == 1 };
        let r = Request { image, size, chooses, options, types: u.bytes(), time, out, list, work, ident: u.bytes(), text: u.bytes() };
        self.prepare(&r);
        if lists == 1 {
            return self.list(&r);
        }
        let o = self.call(&r);
        let faults = self.faults(&o, &r);
        let answer = self.pack(&o, faults, r.list);
        self.restore(&o, faults);
        answer
    }

    fn word_before(&self) -> u64 {
        self.calls.wrapping_mul(0x9e37_79b9_7f4a_7c15) | 1
    }

    fn prepare(&mut self, r: &Request) {
        self.calls += 1;
        let before = self.word_before();
        for (slice, n) in self.work.iter_mut().zip(r.work) {
            slice.clear();
            slice.resize(n, before);
        }
        if self.out.len() < r.out {
            self.out.resize(r.out, OUT_BYTE);
            self.out_before.resize(r.out, OUT_BYTE);
        }
        if self.list.len() < r.list {
            self.list.resize(r.list, LIST_WORD);
            self.list_before.resize(r.list, LIST_WORD);
        }
        self.zeros.resize(r.work.into_iter().max().unwrap_or(0), 0);
    }

    #[rustfmt::skip]
    fn call(&mut self, r: &Request) -> Outcome {
        let [a, b, c, d] = &mut self.work;
        // Safety: each pointer leads to as many items as the length after it says, and no two slices overlap.
        unsafe {
            if r.chooses {
                sitaungo_convert_with(
                    r.image.as_ptr(), r.image.len(), r.size, r.ident.as_ptr(), r.ident.len(), r.text.as_ptr(), r.text.len(), r.time,
                    r.options, r.types.as_ptr(), r.types.len(),
                    a.as_mut_ptr(), r.work[0], b.as_mut_ptr(), r.work[1], c.as_mut_ptr(), r.work[2], d.as_mut_ptr(), r.work[3],
                    self.out.as_mut_ptr(), r.out, self.list.as_mut_ptr(), r.list,
                )
            } else {
                sitaungo_convert(
                    r.image.as_ptr(), r.image.len(), r.size, r.ident.as_ptr(), r.ident.len(), r.text.as_ptr(), r.text.len(), r.time,
                    a.as_mut_ptr(), r.work[0], b.as_mut_ptr(), r.work[1], c.as_mut_ptr(), r.work[2], d.as_mut_ptr(), r.work[3],
                    self.out.as_mut_ptr(), r.out, self.list.as_mut_ptr(), r.list,
                )
            }
        }
    }

    /// The lines; none where work words aren't zero, or as they were after refusal 1, or bytes past the lines changed.
    #[rustfmt::skip]
    fn list(&mut self, r: &Request) -> Vec<u8> {
        self.lines.clear();
        self.lines.resize(LINES, OUT_BYTE);
        let [a, b, c, d] = &mut self.work;
        // Safety: as above.
        let n = unsafe {
            sitaungo_list_with(
                r.image.as_ptr(), r.image.len(), r.size, r.ident.as_ptr(), r.ident.len(), r.text.as_ptr(), r.text.len(),
                r.options, r.types.as_ptr(), r.types.len(), r.out as u64, r.list as u64,
                a.as_mut_ptr(), r.work[0], b.as_mut_ptr(), r.work[1], c.as_mut_ptr(), r.work[2], d.as_mut_ptr(), r.work[3],
                self.lines.as_mut_ptr(), LINES,
            )
        };
        let word = if self.lines.starts_with(b"refused 1 ") { self.word_before() } else { 0 };
        let kept = self.work.iter().flatten().all(|w| *w == word) && self.lines[n..].iter().all(|x| *x == OUT_BYTE);
        self.lines[..if kept { n } else { 0 }].to_vec()
    }

    /// Bits of `FAULTS`.
    fn faults(&self, o: &Outcome, r: &Request) -> u64 {
        let first = !o.accepted && o.number == 1;
        let zero = self.work.iter().zip(r.work).all(|(w, n)| w[..] == self.zeros[..n]);
        let before = self.word_before();
        let kept = || self.work.iter().all(|w| w.iter().all(|x| *x == before));
        let (bytes, words) = if o.accepted { (o.counts[6] as usize, 1 + 2 * self.list[0] as usize) } else { (0, 0) };
        let out = self.out.get(bytes..r.out) == self.out_before.get(bytes..r.out);
        let list = self.list.get(words..r.list) == self.list_before.get(words..r.list);
        let found = [!first && !zero, first && !kept(), !o.accepted && !out, !o.accepted && !list, o.accepted && !out, o.accepted && !list];
        found.iter().enumerate().fold(0, |bits, (i, f)| bits | (*f as u64) << i)
    }

    fn pack(&self, o: &Outcome, faults: u64, list: usize) -> Vec<u8> {
        let mut p = Pack::default();
        p.words(&[o.accepted as u64, o.number, o.place, faults]);
        p.words(&o.counts);
        let n = if o.accepted { (self.list[0] as usize).min(list / 2) } else { 0 };
        p.word(n as u64);
        if o.accepted {
            p.words(&self.list[1..1 + 2 * n]);
        }
        let end = if o.accepted { (o.counts[6] as usize).min(self.out.len()) } else { 0 };
        p.bytes(&self.out[..end]);
        p.0
    }

    /// Entry values again where the call stored something.
    fn restore(&mut self, o: &Outcome, faults: u64) {
        let all = faults != 0;
        let end = if all {
            self.out.len()
        } else if o.accepted {
            o.counts[6] as usize
        } else {
            0
        };
        self.out[..end].fill(OUT_BYTE);
        let words = if o.accepted || all { self.list.len() } else { 0 };
        self.list[..words].fill(LIST_WORD);
    }
}

/// The image with zeros behind it, where it is to be longer.
fn lengthened(bytes: &[u8], len: usize) -> Option<Vec<u8>> {
    if len <= bytes.len() {
        return None;
    }
    let mut longer = vec![0; len];
    longer[..bytes.len()].copy_from_slice(bytes);
    Some(longer)
}
