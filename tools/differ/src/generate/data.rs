//! Records, their fragments, and the chains that list these.
use super::Maker;
use crate::blocks::{Id, Kind, Link};
use std::collections::HashMap;

/// A channel group's record, and how many records it gets.
pub struct Group {
    pub samples: usize,
    pub inval: usize,
    pub storage: bool,
    pub records: usize,
    pub id: u64,
    /// What its master holds, where that isn't left to chance.
    pub clock: Option<Clock>,
}

/// A master's bytes in each record, and its invalidation bit.
#[derive(Clone)]
pub struct Clock {
    pub byte: usize,
    pub cells: Vec<Vec<u8>>,
    /// Its byte after the samples, its mask, and in which records it is set.
    pub bit: Option<(usize, u8, Vec<bool>)>,
}

impl Group {
    /// Lays its clock over record i, without the id; a DV has no invalidation bytes.
    fn lay(&self, i: usize, record: &mut [u8]) {
        let Some(clock) = &self.clock else { return };
        if let Some(cell) = clock.cells.get(i) {
            record[clock.byte..][..cell.len()].copy_from_slice(cell);
        }
        if let Some((byte, mask, set)) = &clock.bit {
            if let Some(b) = record.get_mut(self.samples + byte) {
                *b = *b & !mask | if set.get(i).copied().unwrap_or(false) { *mask } else { 0 };
            }
        }
    }
}

/// Records of one kind of block, one after the other, and where each ends.
struct Run {
    kind: Kind,
    bytes: Vec<u8>,
    ends: Vec<usize>,
}

impl Run {
    fn new(kind: Kind) -> Run {
        Run { kind, bytes: Vec::new(), ends: Vec::new() }
    }

    fn push(&mut self, record: &[u8]) {
        self.bytes.extend_from_slice(record);
        self.ends.push(self.bytes.len());
    }
}

impl Maker<'_> {
    /// The data chain of a DG.
    pub fn data(&mut self, ids: usize, groups: &[Group]) -> Link {
        let mut runs = match groups {
            [] => vec![],
            [one] => self.records_of_one(ids, one),
            _ => vec![self.records_of_several(ids, groups)],
        };
        if self.random.percent(self.parts) {
            self.part_record(&mut runs);
        }
        let dv = matches!(groups, [one] if one.inval == 0);
        let fragments = self.fragments(&runs, dv);
        self.claim_more(&fragments);
        self.chain(fragments)
    }

    /// A sorted group: DT, or DV too where it has no invalidation bytes.
    fn records_of_one(&mut self, ids: usize, g: &Group) -> Vec<Run> {
        let kinds: &[Kind] = match self.random.below(10) {
            0..=2 if g.inval == 0 => &[*b"DV"],
            3 if g.inval == 0 => &[*b"DT", *b"DV"],
            4 if g.inval == 0 => &[*b"DV", *b"DT", *b"DV"],
            _ => &[*b"DT"],
        };
        match kinds.len() {
            1 if kinds[0] == *b"DV" => self.draft.mark("DV"),
            1 => self.draft.mark("DT"),
            _ => self.draft.mark("DT and DV in one chain"),
        }
        let (mut left, mut laid) = (g.records, 0);
        let mut runs = Vec::new();
        for (i, &kind) in kinds.iter().enumerate() {
            let n = if i + 1 == kinds.len() { left } else { self.random.below(left + 1) };
            left -= n;
            let size = g.samples + if kind == *b"DV" { 0 } else { ids + g.inval };
            let mut run = Run::new(kind);
            for i in 0..n {
                let mut record = self.random.bytes(size);
                g.lay(laid + i, &mut record[if kind == *b"DV" { 0 } else { ids }..]);
                run.push(&record);
            }
            laid += n;
            runs.push(run);
        }
        runs
    }

    /// Records of all groups in turn, each after its id.
    fn records_of_several(&mut self, ids: usize, groups: &[Group]) -> Run {
        let fits = |g: &&Group| ids == 8 || g.id < 1 << (8 * ids);
        let mut turns: Vec<&Group> = groups.iter().filter(fits).flat_map(|g| std::iter::repeat(g).take(g.records.min(20))).collect();
        self.random.shuffle(&mut turns);
        let (mut run, mut laid) = (Run::new(*b"DT"), HashMap::new());
        for g in turns {
            let i = laid.entry(g.id).or_insert(0);
            *i += 1;
            let mut record = g.id.to_le_bytes()[..ids].to_vec();
            if g.storage {
                let n = self.random.below(10);
                record.extend((n as u32).to_le_bytes());
                record.extend(self.random.bytes(n));
            } else {
                record.extend(self.random.bytes(g.samples + g.inval));
                g.lay(*i - 1, &mut record[ids..]);
            }
            run.push(&record);
        }
        run
    }

    fn part_record(&mut self, runs: &mut [Run]) {
        let n = runs.len();
        if let Some(run) = runs.get_mut(self.random.below(n)) {
            self.draft.mark("part record at the end of a run of one kind");
            let n = self.random.range(1, 3);
            run.bytes.extend(self.random.bytes(n));
        }
    }

    /// Cuts runs into fragments, anywhere or only between records, with empty fragments and zero links among them.
    fn fragments(&mut self, runs: &[Run], dv: bool) -> Vec<Link> {
        let mut list = Vec::new();
        for run in runs {
            let whole = self.random.percent(40);
            let cuts = self.cuts(run, whole);
            for pair in cuts.windows(2) {
                self.fragment(run, pair[0], pair[1], whole, &mut list);
                let between = pair[1] == run.bytes.len() || run.ends.contains(&pair[1]);
                if dv && self.random.percent(if between { 4 } else { 1 }) {
                    list.push(Some(self.other_kind(run, between)));
                }
            }
        }
        list
    }

    fn other_kind(&mut self, run: &Run, between: bool) -> Id {
        let place = if between { "between records" } else { "inside a record" };
        self.draft.mark(format!("empty fragment of the other kind {place}"));
        let other = if run.kind == *b"DT" { *b"DV" } else { *b"DT" };
        self.draft.add(other, vec![], vec![])
    }

    fn cuts(&mut self, run: &Run, whole: bool) -> Vec<usize> {
        let n = self.random.pick(&[0, 0, 1, 1, 2, 3, 5, 9]);
        let mut cuts = vec![0, run.bytes.len()];
        for _ in 0..n {
            cuts.push(if !whole {
                self.random.below(run.bytes.len() + 1)
            } else if run.ends.is_empty() {
                0
            } else {
                self.random.pick(&run.ends)
            });
        }
        cuts.sort_unstable();
        if cuts.iter().any(|c| *c > 0 && *c < run.bytes.len() && !run.ends.contains(c)) {
            self.draft.mark("records over several fragments");
        }
        cuts
    }

    /// One fragment; one of whole records may be listed twice.
    fn fragment(&mut self, run: &Run, from: usize, to: usize, whole: bool, list: &mut Vec<Link>) {
        let id = self.draft.add(run.kind, vec![], run.bytes[from..to].to_vec());
        list.push(Some(id));
        if from == to {
            self.draft.mark("fragment without bytes");
            if self.random.percent(30) {
                self.draft.mark("fragment of under 24 bytes");
                self.draft.blocks[id].length = Some(self.random.below(24) as u64);
            }
        }
        if self.random.percent(3) {
            self.draft.mark("fragment with a link count");
            self.draft.blocks[id].count = Some(self.random.range(1, 1000) as u64);
        }
        if whole && self.random.percent(8) {
            self.draft.mark("fragment listed twice");
            list.push(Some(id));
        }
        if self.random.percent(6) {
            self.draft.mark("zero link in a DL");
            list.push(None);
        }
    }

    /// Now and then a fragment claims more than the image has: sound only if no column needs its bytes.
    fn claim_more(&mut self, fragments: &[Link]) {
        if !self.random.percent(1) {
            return;
        }
        if let Some(&Some(id)) = fragments.last() {
            self.draft.mark("fragment past the image");
            self.draft.blocks[id].length = Some(self.random.pick(&[9_000, 70_000, 1 << 20]));
        }
    }

    /// The chain that lists fragments in order.
    fn chain(&mut self, list: Vec<Link>) -> Link {
        if list.len() == 1 && self.random.percent(60) {
            return self.under_hl(list[0]);
        }
        if list.is_empty() && self.random.percent(70) {
            return None;
        }
        let (lists, mut next) = self.parts(list);
        if lists.len() > 1 {
            self.draft.mark("several DL in a chain");
        }
        for part in lists.into_iter().rev() {
            self.draft.mark("DL");
            let data = self.random.bytes(16);
            let links = std::iter::once(next).chain(part).collect();
            next = Some(self.draft.add(*b"DL", links, data));
            next = self.under_hl(next);
        }
        next
    }

    /// The fragments of each DL, and what the last one's first link leads to: nothing, a further fragment, or a list without links.
    fn parts(&mut self, mut list: Vec<Link>) -> (Vec<Vec<Link>>, Link) {
        let end = match self.random.below(20) {
            0..=2 => {
                self.draft.mark("fragment as the first link of a DL");
                list.pop().flatten()
            }
            3 => {
                let kind = self.random.pick(&[*b"DL", *b"HL"]);
                Some(self.draft.add(kind, vec![], vec![]))
            }
            _ => None,
        };
        let n = self.random.pick(&[1, 1, 1, 2, 3]);
        let each = list.len().div_ceil(n).max(1);
        let mut lists: Vec<Vec<Link>> = list.chunks(each).map(|c| c.to_vec()).collect();
        if lists.is_empty() {
            lists.push(vec![]);
        }
        (lists, end)
    }

    fn under_hl(&mut self, link: Link) -> Link {
        if !self.random.percent(12) {
            return link;
        }
        self.draft.mark("HL");
        Some(self.draft.add(*b"HL", vec![link], vec![0; 8]))
    }

    /// Signal data of a channel.
    pub fn signal_data(&mut self) -> Link {
        self.draft.mark("signal data");
        let mut run = Run::new(*b"SD");
        for _ in 0..self.random.below(6) {
            let n = self.random.below(12);
            run.push(&self.random.bytes(n));
        }
        let fragments = self.fragments(&[run], false);
        self.claim_more(&fragments);
        match self.chain(fragments) {
            None => Some(self.draft.add(*b"DL", vec![None], vec![])),
            some => some,
        }
    }
}
