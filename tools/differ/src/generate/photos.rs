//! Recordings whose channels refer to attachments on purpose: none, a few, now and then thousands, zeros among them, one twice; and now and then references
//! that lead elsewhere, or more of them than there are links.
use super::{limits, Maker};
use crate::blocks::{Id, Image, Link, HD};
use crate::random::Random;

/// Numbers of attachments around the limit.
const NEAR_LIMIT: [usize; 4] = [63, 64, 65, 66];

/// The attachments of the header's chain, and other AT.
struct Attached {
    chained: Vec<Id>,
    outside: Vec<Id>,
}

pub fn image(random: &mut Random) -> Image {
    let kind = random.below(100);
    let mut m = if kind < 2 { limits::record(random) } else { Maker::new(random) };
    match kind {
        0..=1 => {}
        2..=41 => m.record_clocks(),
        _ => m.record(),
    }
    m.photograph();
    m.draft.place_anyhow(random)
}

impl Maker<'_> {
    /// References of every channel, those below a composition too.
    fn photograph(&mut self) {
        if self.random.percent(80) {
            self.attach();
        }
        let attached = self.attached();
        let bad = if self.random.percent(30) { self.random.pick(&[5, 20, 60]) } else { 0 };
        let channels = self.all_of(*b"CN");
        let many = if self.random.percent(3) { self.random.below(channels.len()) } else { usize::MAX };
        for (i, &cn) in channels.iter().enumerate() {
            let n = if i == many { self.random.range(200, 3000) } else { self.random.pick(&[0, 0, 1, 1, 1, 2, 2, 3, 4, 5]) };
            let percent = if self.wrong_signal(cn) { 60 } else { bad };
            let bad = self.random.percent(percent);
            self.refer(cn, n, &attached, bad);
        }
    }

    /// Now and then a type 1 channel leads to signal data that is none.
    fn wrong_signal(&mut self, cn: Id) -> bool {
        let wrong = self.draft.blocks[cn].data[0] == 1 && self.random.percent(5);
        if wrong {
            self.draft.mark("photos: signal data that is none");
            self.draft.blocks[cn].links[5] = Some(self.random.below(self.draft.blocks.len()));
        }
        wrong
    }

    fn all_of(&self, kind: [u8; 2]) -> Vec<Id> {
        (0..self.draft.blocks.len()).filter(|id| self.draft.blocks[*id].kind == kind).collect()
    }

    // ---- attachments

    /// A chain of attachments in place of what the header has, now and then one that ends early.
    fn attach(&mut self) {
        let n = if self.random.percent(4) { self.random.pick(&NEAR_LIMIT) } else { self.random.pick(&[0, 1, 1, 2, 2, 3, 3, 5, 8]) };
        if n > 8 {
            self.draft.mark("photos: 63 to 66 attachments");
        }
        let chain: Vec<Id> = (0..n).map(|_| if n > 8 { self.plain_attachment() } else { self.attachment() }).collect();
        self.draft.blocks[HD].links[3] = None;
        self.chain_from(HD, 3, &chain);
        if n > 0 && self.random.percent(15) {
            let at = self.random.below(n);
            self.end_early(&chain, at);
        }
    }

    fn plain_attachment(&mut self) -> Id {
        let n = self.random.below(50);
        let data = self.random.bytes(n);
        self.draft.add(*b"AT", vec![None; 4], data)
    }

    /// Attachment number `at` leads to itself or an earlier one, to another kind that leads on, or to nothing.
    fn end_early(&mut self, chain: &[Id], at: usize) {
        self.draft.mark("photos: a chain of attachments that ends early");
        let next = match self.random.below(4) {
            0 => None,
            1 => {
                let other = self.not_copied();
                self.draft.blocks[other].kind = *b"TX";
                self.draft.blocks[other].links[0] = chain.get(at + 1).copied();
                Some(other)
            }
            _ => Some(chain[self.random.below(at + 1)]),
        };
        self.draft.blocks[chain[at]].links[0] = next;
    }

    fn attached(&self) -> Attached {
        let mut chained: Vec<Id> = Vec::new();
        let mut next = self.draft.blocks[HD].links[3];
        while let Some(id) = next.filter(|id| self.draft.blocks[*id].kind == *b"AT" && !chained.contains(id)) {
            chained.push(id);
            next = self.draft.blocks[id].links[0];
        }
        let outside = self.all_of(*b"AT").into_iter().filter(|id| !chained.contains(id)).collect();
        Attached { chained, outside }
    }

    // ---- references

    /// So many references of a channel as its links from the ninth on, their count in its data, and now and then further links.
    fn refer(&mut self, cn: Id, n: usize, attached: &Attached, bad: bool) {
        let mut references: Vec<Link> = (0..n).map(|_| self.reference(attached)).collect();
        let count = if bad { self.spoil(&mut references, attached) } else { n };
        self.mark_references(&references);
        let more = self.further_links(cn);
        let zeros = count > references.len() && self.random.percent(40);
        let block = &mut self.draft.blocks[cn];
        if zeros {
            block.data[..8].fill(0); // what a link too many would read
        }
        block.links.truncate(8);
        block.links.extend(references.into_iter().chain(more));
        block.data[22..24].copy_from_slice(&(count as u16).to_le_bytes());
    }

    fn reference(&mut self, attached: &Attached) -> Link {
        let some = !attached.chained.is_empty() && self.random.percent(80);
        some.then(|| self.random.pick(&attached.chained))
    }

    fn mark_references(&mut self, references: &[Link]) {
        let twice = references.iter().enumerate().any(|(i, r)| r.is_some() && references[..i].contains(r));
        let zero = references.contains(&None);
        let what = [(references.len() > 5, "hundreds of references"), (twice, "one attachment twice"), (zero, "a reference of 0")];
        what.iter().filter(|w| w.0).for_each(|w| self.draft.mark(format!("photos: {}", w.1)));
    }

    /// One of them leads elsewhere, or there are fewer links than the count says, which is answered.
    fn spoil(&mut self, references: &mut Vec<Link>, attached: &Attached) -> usize {
        let n = references.len();
        let (what, to) = match self.random.below(4) {
            0 if !attached.outside.is_empty() => ("to an AT outside the chain", Some(self.random.pick(&attached.outside))),
            0 | 1 => ("to another block", Some(self.random.below(self.draft.blocks.len()))),
            _ => {
                self.draft.mark("photos: fewer links than references");
                let more = self.random.pick(&[1, 1, 1, 2, 3, 256]);
                return if self.random.percent(10) { u16::MAX as usize } else { n + more };
            }
        };
        self.draft.mark(format!("photos: a reference {what}"));
        match references.get_mut(self.random.below(n)) {
            Some(reference) => *reference = to,
            None => references.push(to),
        }
        references.len()
    }

    /// What follows the references: mostly nothing; the three links of a default X, with flag bit 12; or others.
    fn further_links(&mut self, cn: Id) -> Vec<Link> {
        match self.random.below(100) {
            0..=11 => {
                self.draft.mark("photos: default X behind the references");
                self.draft.blocks[cn].data[13] |= 0x10;
                [*b"DG", *b"CG", *b"CN"].map(|kind| self.one_of(kind)).to_vec()
            }
            12..=19 => (0..self.random.range(1, 3)).map(|_| self.metadata(50)).collect(),
            _ => Vec::new(),
        }
    }

    fn one_of(&mut self, kind: [u8; 2]) -> Link {
        let all = self.all_of(kind);
        (!all.is_empty()).then(|| self.random.pick(&all))
    }
}
