//! bench TURNS [LOAD]: times the port, the Rust converter and a plain copy on the rack's loads, each also at twice the length.
//! bench read TURNS: times reading ranges of column files.
//! bench steps TURNS [LOAD]: times all steps of a conversion beside one go.
mod loads;
mod reading;
mod stepping;
use loads::{apart, bus, by_turns, dealt, described, history, many_links, mixed, recording, shuffled, zero_links, Group, Order};
use mf4_rs::column::{to_column_oriented_bytes, to_column_oriented_with, ColumnOptions, ColumnSink};
use mf4_rs::error::MdfError;
use mf4_rs::index::ByteRangeReader;

#[repr(C)]
#[derive(Debug, Clone, Copy)]
struct Outcome {
    accepted: bool,
    number: u64,
    place: u64,
    counts: [u64; 7],
}

#[link(name = "sitaungo", kind = "static")]
extern "C" {
    fn sitaungo_convert(
        image: *const u8, image_len: usize, size: u64, ident: *const u8, ident_len: usize, text: *const u8, text_len: usize, time: u64,
        source: *mut u64, source_len: usize, fragments: *mut u64, fragments_len: usize, columns: *mut u64, columns_len: usize,
        copies: *mut u64, copies_len: usize, out: *mut u8, out_len: usize, list: *mut u64, list_len: usize,
    ) -> Outcome;
    fn sitaungo_convert_with(
        image: *const u8, image_len: usize, size: u64, ident: *const u8, ident_len: usize, text: *const u8, text_len: usize, time: u64,
        options: Options, types: *const u8, types_len: usize,
        source: *mut u64, source_len: usize, fragments: *mut u64, fragments_len: usize, columns: *mut u64, columns_len: usize,
        copies: *mut u64, copies_len: usize, out: *mut u8, out_len: usize, list: *mut u64, list_len: usize,
    ) -> Outcome;
}

#[repr(C)]
#[derive(Clone, Copy)]
struct Options {
    unit: u64,
    share: bool,
    photos: bool,
}

// Of C: the processor time of this thread.
#[repr(C)]
struct Clock {
    seconds: i64,
    nanoseconds: i64,
}

extern "C" {
    fn clock_gettime(which: i32, now: *mut Clock) -> i32;
}

const THREAD: i32 = 3;

// The thread's processor time in milliseconds.
fn spent() -> f64 {
    let mut now = Clock { seconds: 0, nanoseconds: 0 };
    assert_eq!(unsafe { clock_gettime(THREAD, &mut now) }, 0);
    now.seconds as f64 * 1e3 + now.nanoseconds as f64 / 1e6
}

const BLOCK: u64 = 4 << 20;

// What is lent besides image and slices, and whether equal clocks become one.
struct Lent {
    ident: Vec<u8>,
    text: Vec<u8>,
    time: u64,
    share: bool,
}

fn word(s: &[u8], p: usize) -> u64 {
    u64::from_le_bytes(s[p..p + 8].try_into().unwrap())
}

// The identification, history text and time of a result: those of its last FH.
fn lent_by(result: &[u8], share: bool) -> Lent {
    let mut fh = word(result, 96) as usize;
    while word(result, fh + 24) != 0 {
        fh = word(result, fh + 24) as usize;
    }
    let md = word(result, fh + 32) as usize;
    let mut text = result[md + 24..md + word(result, md + 8) as usize].to_vec();
    while text.last() == Some(&0) {
        text.pop();
    }
    Lent { ident: result[..64].to_vec(), text, time: word(result, fh + 40), share }
}

// The port, into a lent output.
fn call(image: &[u8], lent: &Lent, work: &mut [Vec<u64>; 4], out: &mut [u8], list: &mut [u64]) -> Outcome {
    let [a, b, c, d] = work;
    if lent.share {
        return unsafe {
            sitaungo_convert_with(
                image.as_ptr(), image.len(), BLOCK, lent.ident.as_ptr(), 64, lent.text.as_ptr(), lent.text.len(), lent.time,
                Options { unit: 8, share: true, photos: false }, [].as_ptr(), 0,
                a.as_mut_ptr(), a.len(), b.as_mut_ptr(), b.len(), c.as_mut_ptr(), c.len(), d.as_mut_ptr(), d.len(),
                out.as_mut_ptr(), out.len(), list.as_mut_ptr(), list.len(),
            )
        };
    }
    unsafe {
        sitaungo_convert(
            image.as_ptr(), image.len(), BLOCK, lent.ident.as_ptr(), 64, lent.text.as_ptr(), lent.text.len(), lent.time,
            a.as_mut_ptr(), a.len(), b.as_mut_ptr(), b.len(), c.as_mut_ptr(), c.len(), d.as_mut_ptr(), d.len(),
            out.as_mut_ptr(), out.len(), list.as_mut_ptr(), list.len(),
        )
    }
}

// The Rust's reader over a slice, as its own is.
struct Slice<'a>(&'a [u8]);

impl ByteRangeReader for Slice<'_> {
    type Error = MdfError;
    fn read_range(&mut self, offset: u64, length: u64) -> Result<Vec<u8>, MdfError> {
        Ok(self.0[offset as usize..(offset + length) as usize].to_vec())
    }
}

// The Rust's sink over a lent output that is there already.
struct Output<'a>(&'a mut [u8]);

impl ColumnSink for Output<'_> {
    fn write_at(&mut self, offset: u64, bytes: &[u8]) -> Result<(), MdfError> {
        self.0[offset as usize..offset as usize + bytes.len()].copy_from_slice(bytes);
        Ok(())
    }
}

fn options(share: bool) -> ColumnOptions {
    ColumnOptions { block_size: BLOCK, share_identical_time: share, ..Default::default() }
}

// Milliseconds of so many turns: best and median.
fn times(turns: usize, mut f: impl FnMut()) -> (f64, f64) {
    let mut t: Vec<f64> = (0..turns)
        .map(|_| {
            let from = spent();
            f();
            spent() - from
        })
        .collect();
    t.sort_by(f64::total_cmp);
    (t[0], t[turns / 2])
}

// Words that the port needs of each work slice at least.
const WORDS: usize = 8192;

fn link(s: &[u8], block: usize, i: usize) -> usize {
    word(s, block + 24 + 8 * i) as usize
}

// A word more of the second slice for each record of groups that share a DG, as the command lends it: what cycle counts say.
fn shared_records(image: &[u8]) -> usize {
    let data = |block: usize| block + 24 + 8 * word(image, block + 16) as usize;
    let mut records = 0;
    let mut dg = link(image, 64, 0);
    while dg != 0 {
        let mut cg = if image[data(dg)] == 0 { 0 } else { link(image, dg, 1) };
        while cg != 0 {
            records += word(image, data(cg) + 8) as usize;
            cg = link(image, cg, 0);
        }
        dg = link(image, dg, 0);
    }
    records.min(image.len() / 8)
}

fn lend_work(more: usize) -> [Vec<u64>; 4] {
    std::array::from_fn(|i| vec![0; WORDS + if i == 1 { more } else { 0 }])
}

struct Timed {
    decided: (f64, f64),
    port: (f64, f64),
    rust: (f64, f64),
    copy: (f64, f64),
    // with an output of new memory each time, the port's after a call for its size
    new_port: f64,
    new_rust: f64,
    // groups that another stands for
    shared: u64,
}

// All three in turn, on one image: outputs were written once before. The port is lent so many words more than it needs. `share`: both with one
// clock for equal groups.
fn time(image: &[u8], more: usize, turns: usize, share: bool) -> Timed {
    let mut work = lend_work(more);
    let mut list = vec![0; 2049];
    let (mut theirs, _) = to_column_oriented_bytes(image, &options(share)).unwrap();
    let lent = lent_by(&theirs, share);
    let need = call(image, &lent, &mut work, &mut [], &mut list);
    assert_eq!((need.accepted, need.number, need.place), (false, 20, theirs.len() as u64));
    let mut ours = vec![1u8; theirs.len()];
    let mut copied = vec![1u8; image.len()];
    let made = call(image, &lent, &mut work, &mut ours, &mut list);
    assert!(made.accepted && ours == theirs, "other bytes");
    let decided = times(turns, || assert_eq!(call(image, &lent, &mut work, &mut [], &mut list).number, 20));
    let port = times(turns, || assert!(call(image, &lent, &mut work, &mut ours, &mut list).accepted));
    let rust = times(turns, || assert!(to_column_oriented_with(&mut Slice(image), &mut Output(&mut theirs), &options(share)).is_ok()));
    let copy = times(turns, || copied.copy_from_slice(std::hint::black_box(image)));
    let mut least = lend_work(0);
    let new_port = times(turns, || {
        let need = call(image, &lent, &mut least, &mut [], &mut list);
        let mut out = vec![0u8; need.place as usize];
        let mut work = lend_work(more);
        assert!(call(image, &lent, &mut work, &mut out, &mut list).accepted);
    });
    let new_rust = times(turns, || assert!(to_column_oriented_bytes(image, &options(share)).is_ok()));
    Timed { decided, port, rust, copy, new_port: new_port.0, new_rust: new_rust.0, shared: made.counts[3] }
}

// The result of an image.
fn convert(image: &[u8]) -> Vec<u8> {
    let mut work = lend_work(0);
    let lent = Lent { ident: [&b"MDF     4.20    "[..], &[0; 48]].concat(), text: b"convert".to_vec(), time: 0, share: false };
    let mut list = vec![0; 2049];
    let need = call(image, &lent, &mut work, &mut [], &mut list);
    assert_eq!(need.number, 20);
    let mut out = vec![0; need.place as usize];
    assert!(call(image, &lent, &mut work, &mut out, &mut list).accepted);
    out
}

// A line of the table; the ratio of the port's time to that at half the length, where there is one.
fn line(name: &str, seconds: &str, image: &[u8], turns: usize, before: Option<f64>) -> f64 {
    let t = time(image, shared_records(image), turns, false);
    let grown = before.map_or(String::new(), |b| format!("{:.2}", t.port.0 / b));
    println!(
        "| {name} | {seconds} | {:.1} | {:.1} | {:.1} | {:.1} | {:.1} | {:.1} | {:.1} | {:.2} | {:.2} | {grown} |",
        image.len() as f64 / 1e6, t.port.0, t.port.1, t.rust.0, t.rust.1, t.copy.0, t.copy.1, t.port.0 / t.rust.0, t.new_port / t.new_rust
    );
    t.port.0
}

// A line of the second table: what comes before the output too, of which counting is nearly all.
fn framed_line(name: &str, image: &[u8], turns: usize) {
    let t = time(image, shared_records(image), turns, false);
    println!(
        "| {name} | {:.1} | {:.1} | {:.1} | {:.1} | {:.1} | {:.1} | {:.2} | {:.2} |",
        image.len() as f64 / 1e6, t.decided.0, t.port.0, t.port.1, t.rust.0, t.rust.1, t.port.0 / t.rust.0, t.new_port / t.new_rust
    );
}

// A line of the fourth table: both with one clock for equal groups.
fn clock_line(name: &str, image: &[u8], turns: usize, before: Option<f64>) -> f64 {
    let t = time(image, shared_records(image), turns, true);
    let grown = before.map_or(String::new(), |b| format!("{:.2}", t.port.0 / b));
    println!(
        "| {name} | {:.1} | {} | {:.1} | {:.1} | {:.1} | {:.1} | {:.1} | {:.2} | {grown} |",
        image.len() as f64 / 1e6, t.shared, t.decided.0, t.port.0, t.port.1, t.rust.0, t.rust.1, t.port.0 / t.rust.0
    );
    t.port.0
}

// A DG of many groups with short records, as a bus logger's.
fn framed() -> Vec<(&'static str, Vec<u8>)> {
    let turns = |n: usize| (0..n).collect::<Vec<usize>>();
    let rates = || (0..40).flat_map(|k| vec![k; if k == 0 { 2500 } else { 1 }]).collect::<Vec<usize>>();
    let no_bytes = || {
        let mut groups = bus(512, 32, 1);
        for g in groups.iter_mut() {
            g.widths.clear();
        }
        mixed(&groups, &Order { id_size: 2, turn: vec![511; 1000] }, 1000, 4 << 20)
    };
    vec![
        ("2 groups of 1 byte over 1,000 DT", mixed(&bus(2, 8, 1), &Order { id_size: 1, turn: turns(2) }, 500_000, 2000)),
        ("10 groups, 1 million records of 18 bytes", mixed(&bus(10, 128, 1), &Order { id_size: 2, turn: turns(10) }, 100_000, 4 << 20)),
        ("50 groups, 1 million records of 18 bytes", mixed(&bus(50, 128, 1), &Order { id_size: 2, turn: turns(50) }, 20_000, 4 << 20)),
        ("250 groups, 1 million records of 18 bytes", mixed(&bus(250, 128, 1), &Order { id_size: 2, turn: turns(250) }, 4_000, 4 << 20)),
        ("250 groups in random order, 1 million records of 18 bytes", mixed(&bus(250, 128, 1), &Order { id_size: 2, turn: shuffled(250, 1_000_000) }, 1, 4 << 20)),
        ("40 groups, ids of 8 bytes, rates 2,500 : 1", mixed(&bus(40, 64, 0x0123_4567_89ab), &Order { id_size: 8, turn: rates() }, 400, 4 << 20)),
        ("512 groups, 1 million records of 3 bytes", mixed(&bus(512, 8, 1), &Order { id_size: 2, turn: turns(512) }, 2_000, 4 << 20)),
        ("1 million records without bytes of the last of 512 groups", no_bytes()),
    ]
}

// Ten groups of 30 channels.
fn ten() -> Vec<Group> {
    (1..=10).map(|id| Group::of(30, 32, id)).collect()
}

// The rack's groups, which are recorded for some time.
fn racks() -> [(&'static str, Vec<Group>); 3] {
    [
        ("300 channels of 32 bits", vec![Group::of(300, 32, 0)]),
        ("300 channels of 16 bits with invalidation bits", vec![Group { inval: true, ..Group::of(300, 16, 0) }]),
        ("10 unsorted groups of 30 channels of 32 bits", ten()),
    ]
}

type Load = fn(u64) -> Vec<u8>;

// Further loads, each so many times its length.
fn further() -> Vec<(&'static str, Load)> {
    // at every tick a record of the first group, at each tenth one of the second, at each hundredth one of the third
    fn rates() -> Vec<usize> {
        (0..100).flat_map(|t| [vec![0], vec![1; (t % 10 == 0) as usize], vec![2; (t == 0) as usize]].concat()).collect()
    }
    vec![
        ("2 DG of 127 groups by turns, then of 254", |n| by_turns(127 * n as usize, 2)),
        ("2 DG of 255 groups by turns", |n| by_turns(255, 2 * n)),
        ("3 groups of 30 channels, rates 100, 10 and 1", |n| mixed(&ten()[..3], &Order { id_size: 1, turn: rates() }, 5_000 * n, 4 << 20)),
        ("10 groups of 30 channels in random order", |n| {
            mixed(&ten(), &Order { id_size: 1, turn: shuffled(10, 600_000 * n as usize) }, 1, 4 << 20)
        }),
        ("250 groups of one channel, then 500", |n| {
            let groups = 250 * n as usize;
            mixed(&bus(250 * n, 32, 1), &Order { id_size: 2, turn: (0..groups).collect() }, 4_000, 4 << 20)
        }),
        ("500 groups of one channel", |n| mixed(&bus(500, 32, 1), &Order { id_size: 2, turn: (0..500).collect() }, 2_000 * n, 4 << 20)),
        ("10 million records of 8 bits", |n| recording(&[Group::of(1, 8, 0)], 10_000_000 * n, 4 << 20)),
        ("300 channels of 32 bits in 1,000 DT", |n| recording(&[Group::of(300, 32, 0)], 60_000 * n, 72_001 * n as usize)),
        ("300 channels of 1, 2, 3, 5 and 8 bytes", |n| {
            let widths = (0..300).map(|i| [1, 2, 3, 5, 8][i % 5]).collect();
            recording(&[Group { widths, ..Group::of(0, 8, 0) }], 60_000 * n, 4 << 20)
        }),
        ("300 channels of 32 bits, 500 DT that split each record, then 1,000", |n| {
            recording(&[Group::of(300, 32, 0)], 250 * n, 601)
        }),
        ("100 MB of signal data", |n| recording(&[Group { signal: 100_000_000 * n as usize, ..Group::of(2, 64, 0) }], 1_000, 4 << 20)),
        ("1,000 metadata blocks of 250 channels, then 2,000 of 500", |n| described(250 * n as usize)),
        ("a history of 1,000 FH, then of 2,000", |n| history(1_000 * n as usize)),
        ("a DL of 100,000 links of 0 that 512 DG use, then of 200,000", |n| zero_links(100_000 * n as usize)),
    ]
}

// Groups that count their records: equal clocks, and keys that are equal over times that differ in the last record; each so many times its length.
fn clocks() -> Vec<(&'static str, Load)> {
    fn equal() -> Vec<Group> {
        ten().into_iter().map(|g| Group { clock: Some(0), ..g }).collect()
    }
    fn off(n: u64) -> Vec<Group> {
        bus(n, 64, 1).into_iter().map(|g| Group { clock: Some(g.id), ..g }).collect()
    }
    vec![
        ("10 equal groups of 30 channels, each in a DG of its own", |n| apart(&equal(), 60_000 * n, 4 << 20)),
        ("10 equal groups of 30 channels in one DG", |n| recording(&equal(), 60_000 * n, 4 << 20)),
        ("10 equal groups of 30 channels in one DG, in random order", |n| {
            mixed(&equal(), &Order { id_size: 1, turn: dealt(10, 60_000 * n as usize) }, 1, 4 << 20)
        }),
        ("512 groups of one channel, times that differ in the last record, each in a DG of its own", |n| apart(&off(512), 2_000 * n, 4 << 20)),
    ]
}

// Those of all these loads whose records of a group are at no equal distances.
fn irregular() -> Vec<(&'static str, Vec<u8>)> {
    let is = |name: &str| name.contains("random") || name.contains("rates 100");
    let further = further().into_iter().filter(|l| is(l.0)).map(|(name, make)| (name, make(1)));
    further.chain(framed().into_iter().filter(|l| is(l.0))).collect()
}

fn main() {
    if std::env::args().nth(1).as_deref() == Some("read") {
        return reading::run(std::env::args().nth(2).map_or(5, |t| t.parse().unwrap()));
    }
    if std::env::args().nth(1).as_deref() == Some("steps") {
        return stepping::run(std::env::args().nth(2).map_or(5, |t| t.parse().unwrap()), &std::env::args().nth(3).unwrap_or_default());
    }
    let turns: usize = std::env::args().nth(1).map_or(5, |t| t.parse().unwrap());
    let only = std::env::args().nth(2).unwrap_or_default();
    println!("| load | s | MB | port best | median | Rust best | median | copy best | median | port / Rust | with new memory | twice the length |");
    println!("|---|---|---|---|---|---|---|---|---|---|---|---|");
    for (name, groups) in racks().iter().filter(|l| l.0.contains(&only)) {
        let mut before = None;
        for seconds in [60, 120, 240] {
            before = Some(line(name, &seconds.to_string(), &recording(groups, 1000 * seconds, 4 << 20), turns, before));
        }
    }
    let name = "a conversion block with many links";
    if name.contains(&only) {
        let once = line(name, "", &many_links(1 << 19), turns, None);
        line(name, "", &many_links(1 << 20), turns, Some(once));
    }
    for (name, make) in further().iter().filter(|l| l.0.contains(&only)) {
        let once = line(name, "", &make(1), turns, None);
        line(name, "", &make(2), turns, Some(once));
    }
    println!();
    println!("| load | MB | port before output | port best | median | Rust best | median | port / Rust | with new memory |");
    println!("|---|---|---|---|---|---|---|---|---|");
    for (name, image) in framed().iter().filter(|l| l.0.contains(&only)) {
        framed_line(name, image, turns);
    }
    println!();
    println!("| load, with no more words than are needed | MB | port best | median | Rust best | median | port / Rust |");
    println!("|---|---|---|---|---|---|---|");
    for (name, image) in irregular().iter().filter(|l| l.0.contains(&only)) {
        let t = time(image, 0, turns.min(3), false);
        println!(
            "| {name} | {:.1} | {:.1} | {:.1} | {:.1} | {:.1} | {:.2} |",
            image.len() as f64 / 1e6, t.port.0, t.port.1, t.rust.0, t.rust.1, t.port.0 / t.rust.0
        );
    }
    println!();
    println!("| load, with one clock for equal groups | MB | shared groups | port before output | port best | median | Rust best | median | port / Rust | twice the length |");
    println!("|---|---|---|---|---|---|---|---|---|---|");
    for (name, make) in clocks().iter().filter(|l| l.0.contains(&only)) {
        let once = clock_line(name, &make(1), turns, None);
        clock_line(name, &make(2), turns, Some(once));
    }
}
