//! Pages one after the other, refused calls among them: what they wrote, joined, is the full list.
use super::Compare;
use crate::answer::{Hit, NO_MORE_DOCS, Paged};
use crate::buffer::Buffers;
use crate::expect::{self, written};
use crate::refusal::calls::Lengths;

impl Compare<'_> {
    pub fn pages(&mut self) {
        let mut joined = Vec::new();
        let mut target = 0;
        let lent = self.enough(0, 0);
        let mut buffers = Buffers::new(self.random, &lent);
        while target != NO_MORE_DOCS {
            if self.random.once_in(3) {
                self.spoiled(target);
            }
            let m = self.page_length();
            // the work buffers are mostly as the page before left them
            if self.random.once_in(4) {
                buffers = Buffers::new(self.random, &lent);
            }
            buffers.for_page(self.random, m);
            let number = self.entries.page(buffers.page(self.case, target));
            expect::given(&buffers, number, &Ok(self.from_list(target, m)));
            let written = written(&buffers);
            target = written.next;
            joined.extend(written.hits);
        }
        assert_eq!(joined, self.right.list);
        self.page(NO_MORE_DOCS, &lent);
    }

    fn page_length(&mut self) -> usize {
        let count = self.right.list.len();
        let some = self.random.below(8) as usize;
        self.random
            .pick(&[0, 1, some, some, count / 3 + 1, count, count + 1])
    }

    /// What the full list has at or after a target.
    fn from_list(&self, target: u32, m: usize) -> Paged {
        let list = &self.right.list;
        let from = list.partition_point(|hit| hit.document < target);
        let to = list.len().min(from + m);
        let next = list.get(to).map_or(NO_MORE_DOCS, |hit: &Hit| hit.document);
        let hits = list[from..to].to_vec();
        Paged { hits, next }
    }

    /// A call that is refused, at this target or beyond the last.
    fn spoiled(&mut self, target: u32) {
        let m = self.random.below(5) as usize;
        let lent = self.enough(0, m);
        let unequal = Lengths {
            scores: m + 1,
            ..lent
        };
        let after = self.case.n + 1;
        match self.random.below(5) {
            0 => self.page(target, &unequal),
            1 => self.page(u32::MAX, &unequal),
            2 => self.page(after, &lent),
            3 => {
                let short = self.too_short(lent, None);
                self.page(after, &short);
            }
            _ => {
                let short = self.too_short(lent, None);
                self.page(target, &short);
            }
        }
    }
}
