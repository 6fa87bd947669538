//! Metadata trees, history and attachments.
use super::Maker;
use crate::blocks::{Id, Kind, Link};

/// Kinds that copies leave out, so that a link to them becomes 0.
const NOT_COPIED: [&Kind; 7] = [b"EV", b"CH", b"CA", b"DT", b"AT", b"SD", b"XX"];

impl Maker<'_> {
    fn share(&mut self, id: Id) -> Id {
        self.shared.push(id);
        id
    }

    /// A text of its own, for names.
    fn text_of(&mut self, kind: Kind, text: &str) -> Id {
        let mut data = text.as_bytes().to_vec();
        if self.random.percent(90) {
            data.push(0);
        }
        if self.random.percent(80) {
            data.resize(data.len().next_multiple_of(8), 0);
        }
        let id = self.draft.add(kind, vec![], data);
        self.share(id)
    }

    /// A name that no other block has, or now and then none, or a block of another kind.
    pub fn name(&mut self, letter: char) -> Link {
        self.named += 1;
        match self.random.below(100) {
            0..=2 => None,
            3 => Some(self.not_copied()),
            4..=11 => Some(self.text_of(*b"MD", &format!("{letter}{}", self.named))),
            _ => Some(self.text_of(*b"TX", &format!("{letter}{}", self.named))),
        }
    }

    /// A block that a metadata link may lead to, with the given chance.
    pub fn metadata(&mut self, percent: usize) -> Link {
        self.random.percent(percent).then(|| self.metadata_below(3))
    }

    fn metadata_below(&mut self, depth: usize) -> Id {
        if !self.shared.is_empty() && self.random.percent(40) {
            self.draft.mark("metadata shared by several links");
            return self.random.pick(&self.shared);
        }
        match self.random.below(1000) {
            0..=449 => self.text(depth),
            450..=649 => self.source(depth),
            650..=949 => self.conversion(depth),
            950..=979 => self.not_copied(),
            980..=995 => self.entry(depth),
            _ => self.deep(),
        }
    }

    fn some_below(&mut self, depth: usize, percent: usize) -> Link {
        (depth > 0 && self.random.percent(percent)).then(|| self.metadata_below(depth - 1))
    }

    /// TX or MD; one with a link is copied like any other.
    fn text(&mut self, depth: usize) -> Id {
        let kind = self.random.pick(&[*b"TX", *b"MD"]);
        let n = self.random.below(20);
        let data = self.random.bytes(n);
        let links = if self.random.percent(4) { vec![self.some_below(depth, 80)] } else { vec![] };
        let id = self.draft.add(kind, links, data);
        self.share(id)
    }

    fn source(&mut self, depth: usize) -> Id {
        let links = (0..3).map(|_| self.some_below(depth, 50)).collect();
        let data = self.random.bytes(8);
        let id = self.draft.add(*b"SI", links, data);
        self.share(id)
    }

    pub fn conversion(&mut self, depth: usize) -> Id {
        let n = self.random.range(4, 7);
        let links: Vec<Link> = (0..n).map(|_| self.some_below(depth, 35)).collect();
        if links.iter().flatten().any(|&id| self.draft.blocks[id].kind == *b"CC") {
            self.draft.mark("CC below CC");
        }
        let n = self.random.range(8, 40);
        let data = self.random.bytes(n);
        let id = self.draft.add(*b"CC", links, data);
        self.share(id)
    }

    pub fn not_copied(&mut self) -> Id {
        self.draft.mark("metadata link to a kind that isn't copied");
        let kind = *self.random.pick(&NOT_COPIED);
        let n = self.random.below(9);
        let data = self.random.bytes(n);
        self.draft.add(kind, vec![None], data)
    }

    /// FH outside the history, whose first link isn't followed.
    fn entry(&mut self, depth: usize) -> Id {
        self.draft.mark("FH outside the history");
        let links = vec![self.some_below(depth, 50), self.some_below(depth, 50)];
        self.draft.add(*b"FH", links, vec![0; 16])
    }

    /// A chain of blocks around the depth where copying ends: reached at depth 0, the last one is at 63 to 65.
    fn deep(&mut self) -> Id {
        self.draft.mark("metadata 64 to 66 blocks deep");
        let n = self.random.range(64, 66);
        let kind = self.random.pick(&[*b"TX", *b"SI", *b"CC"]);
        let mut below = self.draft.add(kind, vec![], vec![]);
        for _ in 1..n {
            below = self.draft.add(kind, vec![Some(below)], vec![]);
        }
        below
    }

    /// A history chain, now and then with other kinds in it or with an end of its own.
    pub fn history(&mut self) -> Link {
        let n = self.random.pick(&[0, 0, 0, 1, 1, 2, 3]);
        if n == 0 {
            return None;
        }
        self.draft.mark("history");
        let mut chain: Vec<Id> = (0..n).map(|_| self.history_entry()).collect();
        self.last_entry(&mut chain);
        for pair in chain.windows(2) {
            if let Some(next) = self.draft.blocks[pair[0]].links.first_mut() {
                *next = Some(pair[1]);
            }
        }
        chain.first().copied()
    }

    fn history_entry(&mut self) -> Id {
        let second = self.metadata(60);
        match self.random.below(100) {
            0..=89 => {
                let data = self.random.bytes(16);
                self.draft.add(*b"FH", vec![None, second], data)
            }
            90..=97 => {
                self.draft.mark("other kinds in the history");
                let kind = self.random.pick(&[*b"CC", *b"SI", *b"TX", *b"MD"]);
                self.draft.add(kind, vec![None, second], vec![1; 8])
            }
            _ => {
                self.draft.mark("history block without links");
                let kind = self.random.pick(&[*b"FH", *b"TX"]);
                self.draft.add(kind, vec![], vec![2; 16])
            }
        }
    }

    /// The end of a chain: mostly none; an earlier block or one of a kind that isn't copied ends it too.
    fn last_entry(&mut self, chain: &mut Vec<Id>) {
        match self.random.below(20) {
            0 => {
                let block = self.not_copied();
                chain.push(block);
            }
            1 if self.draft.blocks[chain[chain.len() - 1]].kind == *b"FH" => {
                self.draft.mark("history that returns to an earlier block");
                chain.push(self.random.pick(chain));
            }
            _ => {}
        }
    }

    /// A chain of attachments.
    pub fn attachments(&mut self) -> Link {
        let n = self.random.pick(&[0, 0, 0, 0, 1, 1, 2, 3]);
        if n == 0 {
            return None;
        }
        self.draft.mark("attachments");
        let mut chain: Vec<Id> = (0..n).map(|_| self.attachment()).collect();
        match self.random.below(20) {
            0 => {
                self.draft.mark("attachments that return to an earlier block");
                chain.push(self.random.pick(&chain));
            }
            1 => {
                self.draft.mark("attachments that end at another kind");
                let kind = self.random.pick(&[*b"TX", *b"FH"]);
                let end = self.draft.add(kind, vec![None], vec![]);
                self.draft.blocks[end].length = Some(4000);
                chain.push(end);
            }
            _ => {}
        }
        for pair in chain.windows(2) {
            self.draft.blocks[pair[0]].links[0] = Some(pair[1]);
        }
        Some(chain[0])
    }

    pub fn attachment(&mut self) -> Id {
        let n = if self.random.percent(10) { self.random.range(5, 8) } else { 4 };
        let mut links: Vec<Link> = (0..n).map(|_| self.metadata(50)).collect();
        links[0] = None;
        let n = match self.random.below(4) {
            0 => self.random.below(41),
            1 => 40,
            _ => 40 + self.random.below(60),
        };
        if n > 40 {
            self.draft.mark("embedded attachment");
        }
        let data = self.random.bytes(n);
        self.draft.add(*b"AT", links, data)
    }
}
