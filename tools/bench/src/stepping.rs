//! bench steps TURNS [LOAD]: times all steps of a conversion beside one go, on every load; the longest step alone.
use crate::loads::{many_links, recording};
use crate::{call, clocks, framed, further, irregular, lend_work, racks, shared_records, spent, times, Lent, Options, Outcome, BLOCK, WORDS};

/// What a conversion in steps holds between two calls.
#[repr(C)]
#[derive(Clone, Copy)]
struct State {
    call: [u64; 3],
    share: bool,
    photos: bool,
    decided: [u64; 13],
    steps: u64,
    next: u64,
    names: [u64; 9],
}

#[repr(C)]
struct Begun {
    outcome: Outcome,
    state: State,
}

#[link(name = "sitaungo", kind = "static")]
extern "C" {
    fn sitaungo_begin(
        image: *const u8, image_len: usize, size: u64, ident: *const u8, ident_len: usize, text: *const u8, text_len: usize, time: u64,
        options: Options, types: *const u8, types_len: usize, out: u64, list_words: u64,
        source: *mut u64, source_len: usize, fragments: *mut u64, fragments_len: usize, columns: *mut u64, columns_len: usize,
        copies: *mut u64, copies_len: usize, stretches: *mut u64, stretches_len: usize, offsets: *mut u64, offsets_len: usize,
    ) -> Begun;
    fn sitaungo_advance(
        state: State, stores: u64, image: *const u8, image_len: usize, ident: *const u8, ident_len: usize, text: *const u8, text_len: usize,
        types: *const u8, types_len: usize,
        source: *mut u64, source_len: usize, fragments: *mut u64, fragments_len: usize, columns: *mut u64, columns_len: usize,
        copies: *mut u64, copies_len: usize, stretches: *mut u64, stretches_len: usize, offsets: *mut u64, offsets_len: usize,
        file: *mut u8, file_len: usize, list: *mut u64, list_len: usize,
    ) -> State;
}

/// The two slices that keep places of records, as the command lends them, and the four others.
struct Words {
    work: [Vec<u64>; 4],
    stretches: Vec<u64>,
    offsets: Vec<u64>,
}

impl Words {
    /// With words for places, or with none.
    fn lend(image: &[u8], places: bool) -> Words {
        let (stretches, offsets) = if places { (4096, 2056 + shared_records(image)) } else { (0, 0) };
        Words { work: lend_work(0), stretches: vec![0; stretches], offsets: vec![0; offsets] }
    }

    fn begin(&mut self, image: &[u8], lent: &Lent, out: usize) -> State {
        let ([a, b, c, d], p, q) = (&mut self.work, &mut self.stretches, &mut self.offsets);
        let begun = unsafe {
            sitaungo_begin(
                image.as_ptr(), image.len(), BLOCK, lent.ident.as_ptr(), 64, lent.text.as_ptr(), lent.text.len(), lent.time,
                Options { unit: 8, share: lent.share, photos: false }, [].as_ptr(), 0, out as u64, 2049,
                a.as_mut_ptr(), WORDS, b.as_mut_ptr(), WORDS, c.as_mut_ptr(), WORDS, d.as_mut_ptr(), WORDS,
                p.as_mut_ptr(), p.len(), q.as_mut_ptr(), q.len(),
            )
        };
        assert!(begun.outcome.accepted, "refused {} place {}", begun.outcome.number, begun.outcome.place);
        begun.state
    }

    fn advance(&mut self, image: &[u8], lent: &Lent, state: State, stores: u64, file: &mut [u8], list: &mut [u64]) -> State {
        let ([a, b, c, d], p, q) = (&mut self.work, &mut self.stretches, &mut self.offsets);
        unsafe {
            sitaungo_advance(
                state, stores, image.as_ptr(), image.len(), lent.ident.as_ptr(), 64, lent.text.as_ptr(), lent.text.len(), [].as_ptr(), 0,
                a.as_mut_ptr(), WORDS, b.as_mut_ptr(), WORDS, c.as_mut_ptr(), WORDS, d.as_mut_ptr(), WORDS,
                p.as_mut_ptr(), p.len(), q.as_mut_ptr(), q.len(), file.as_mut_ptr(), file.len(), list.as_mut_ptr(), list.len(),
            )
        }
    }
}

fn lent(share: bool) -> Lent {
    Lent { ident: [&b"MDF     4.20    "[..], &[0; 48]].concat(), text: b"steps".to_vec(), time: 0, share }
}

/// A line of the table: one go, beginning and all steps, the longest step; the ratio of all steps to those at half the length, where there is one.
fn line(name: &str, seconds: &str, image: &[u8], turns: usize, share: bool, before: Option<f64>) -> f64 {
    let lent = lent(share);
    let mut work = lend_work(shared_records(image));
    let mut list = vec![0; 2049];
    let need = call(image, &lent, &mut work, &mut [], &mut list).place as usize;
    let (mut whole, mut file) = (vec![1u8; need], vec![2u8; need]);
    let mut words = Words::lend(image, true);
    let once = times(turns, || assert!(call(image, &lent, &mut work, &mut whole, &mut list).accepted));
    let mut steps = 0;
    let all = times(turns, || {
        let state = words.begin(image, &lent, need);
        steps = state.steps;
        let state = words.advance(image, &lent, state, u64::MAX, &mut file, &mut list);
        assert_eq!(state.next, state.steps);
    });
    assert!(whole == file, "other bytes");
    let mut longest = 0f64;
    let mut state = words.begin(image, &lent, need);
    while state.next < state.steps {
        let from = spent();
        state = words.advance(image, &lent, state, 1, &mut file, &mut list);
        longest = longest.max(spent() - from);
    }
    let grown = before.map_or(String::new(), |b| format!("{:.2}", all.0 / b));
    println!(
        "| {name} | {seconds} | {:.1} | {steps} | {:.1} | {:.1} | {:.1} | {:.1} | {:.2} | {longest:.3} | {grown} |",
        image.len() as f64 / 1e6, once.0, once.1, all.0, all.1, all.0 / once.0
    );
    all.0
}

/// A line of the last table: single steps in as many places, without words to keep places of records in. A step frames the data from its front then.
fn single(name: &str, image: &[u8], places: u64) {
    let (lent, mut list) = (lent(false), vec![0; 2049]);
    let need = call(image, &lent, &mut lend_work(0), &mut [], &mut list).place as usize;
    let (mut file, mut words) = (vec![2u8; need], Words::lend(image, false));
    let begun = words.begin(image, &lent, need);
    let steps: Vec<f64> = (1..=places)
        .map(|k| {
            let from = spent();
            words.advance(image, &lent, State { next: k * (begun.steps - 2) / places, ..begun }, 1, &mut file, &mut list);
            spent() - from
        })
        .collect();
    let mean = steps.iter().sum::<f64>() / places as f64;
    println!("| {name} | {:.1} | {} | {mean:.3} | {:.3} |", image.len() as f64 / 1e6, begun.steps, steps.iter().copied().fold(0.0, f64::max));
}

fn head(what: &str) {
    println!("| {what} | s | MB | steps | one go best | median | all steps best | median | steps / one go | longest step | twice the length |");
    println!("|---|---|---|---|---|---|---|---|---|---|---|");
}

pub fn run(turns: usize, only: &str) {
    head("load");
    for (name, groups) in racks().iter().filter(|l| l.0.contains(only)) {
        let mut before = None;
        for seconds in [60, 120, 240] {
            before = Some(line(name, &seconds.to_string(), &recording(groups, 1000 * seconds, 4 << 20), turns, false, before));
        }
    }
    let name = "a conversion block with many links";
    if name.contains(only) {
        let once = line(name, "", &many_links(1 << 19), turns, false, None);
        line(name, "", &many_links(1 << 20), turns, false, Some(once));
    }
    for (name, make) in further().iter().filter(|l| l.0.contains(only)) {
        let once = line(name, "", &make(1), turns, false, None);
        line(name, "", &make(2), turns, false, Some(once));
    }
    for (name, image) in framed().iter().filter(|l| l.0.contains(only)) {
        line(name, "", image, turns, false, None);
    }
    println!();
    head("load, with one clock for equal groups");
    for (name, make) in clocks().iter().filter(|l| l.0.contains(only)) {
        let once = line(name, "", &make(1), turns, true, None);
        line(name, "", &make(2), turns, true, Some(once));
    }
    println!();
    println!("| load, with no words for places | MB | steps | mean of 20 steps | longest |");
    println!("|---|---|---|---|---|");
    for (name, image) in irregular().iter().filter(|l| l.0.contains(only)) {
        single(name, image, 20);
    }
}
