//! An order with a NaN end beside the same order with that range's ends crossed: each call gives
//! the same, bit for bit. Nothing here asks the Rust.
use super::{crossed, has_failed_end};
use crate::answer::NO_MORE_DOCS;
use crate::border::Entries;
use crate::buffer::{Buffers, enough};
use crate::case::Case;
use crate::expect::{self, Found, Given, told, written};
use crate::random::Random;
use crate::refusal::calls::{Judge, Lengths};

pub struct Beside<'a> {
    entries: &'a dyn Entries,
    case: &'a Case,
    crossed: Case,
    judge: Judge,
    random: &'a mut Random,
}

impl<'a> Beside<'a> {
    pub fn new(entries: &'a dyn Entries, case: &'a Case, random: &'a mut Random) -> Beside<'a> {
        assert!(has_failed_end(case), "no NaN end");
        Beside {
            entries,
            case,
            crossed: crossed(case),
            judge: Judge::new(case),
            random,
        }
    }

    /// Hits, count and mark, with the case's k and t and with others; the full list by pages, a page
    /// begun anywhere, and calls that the caller spoils. Gives how many documents match.
    pub fn all(&mut self) -> u64 {
        let (k, t) = (self.case.k, self.case.t);
        let lent = self.enough(k, 0);
        let count = self.search(k, t, &lent).expect("an accepted order").count;
        let around = count.clamp(1, 1023) as u32;
        let (k, t) = (around + self.random.below(2), around - self.random.below(2));
        let lent = self.enough(k, 0);
        self.search(k, t, &lent).expect("an accepted order");
        self.pages();
        let (target, m) = (self.random.below(self.case.n + 1), self.random.below(9));
        let lent = self.enough(0, m as usize);
        self.page(target, &lent).expect("an accepted order");
        self.spoiled();
        count
    }

    fn enough(&mut self, k: u32, m: usize) -> Lengths {
        enough(self.random, &self.judge.needed, k, m)
    }

    /// One call of Search with each order, in buffers that hold the same.
    fn search(&mut self, k: u32, t: u32, lent: &Lengths) -> Found {
        let buffers = Buffers::new(self.random, lent);
        let [found, right] = [self.case, &self.crossed].map(|case| {
            let mut own = buffers.clone();
            let number = self.entries.search(own.search(case, k, t));
            assert_eq!(number, self.judge.search(k, lent), "the number");
            let found = match number {
                0 => Ok(told(&own)),
                _ => Err(number),
            };
            expect::found(&own, number, &found);
            found
        });
        assert_eq!(found, right, "with the ends crossed");
        found
    }

    /// The same of Page.
    fn page(&mut self, target: u32, lent: &Lengths) -> Given {
        let buffers = Buffers::new(self.random, lent);
        let [given, right] = [self.case, &self.crossed].map(|case| {
            let mut own = buffers.clone();
            let number = self.entries.page(own.page(case, target));
            assert_eq!(number, self.judge.page(target, lent), "the number");
            let given = match number {
                0 => Ok(written(&own)),
                _ => Err(number),
            };
            expect::given(&own, number, &given);
            given
        });
        assert_eq!(given, right, "with the ends crossed");
        given
    }

    /// Pages of one length from 0 to the end.
    fn pages(&mut self) {
        let m = self.random.pick(&[1, 2, 3, 7, self.case.n as usize + 1]);
        let mut target = 0;
        while target != NO_MORE_DOCS {
            let lent = self.enough(0, m);
            let page = self.page(target, &lent).expect("an accepted order");
            assert!(page.next > target, "a page that does not go on");
            target = page.next;
        }
    }

    /// A wrong k, a target beyond the last, and a range buffer too short.
    fn spoiled(&mut self) {
        let lent = self.enough(1, 1);
        assert_eq!(self.search(0, 0, &lent), Err(11));
        assert_eq!(self.page(self.case.n + 1, &lent), Err(13));
        if self.case.n > 0 {
            let short = Lengths {
                ranges: self.judge.needed.ranges - 1,
                ..lent
            };
            assert_eq!(self.search(1, 0, &short), Err(12));
            assert_eq!(self.page(0, &short), Err(12));
        }
    }
}
