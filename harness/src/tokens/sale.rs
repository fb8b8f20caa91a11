//! A sale's tokens, of any number, by which the time of writing is measured: 512 leaves of which a
//! few have most tokens, ten tokens to a document, three fields.
use super::{MOST_LEAVES, Tokens};
use crate::random::Random;

/// Words of a lot's text at the most; positions lie below.
const LENGTH: u32 = 60;

/// Tokens of one posting.
const FREQUENCIES: [u32; 7] = [1, 1, 1, 2, 2, 3, 4];

const AVERAGE: u32 = 0x41c4_0000;

/// About so many tokens, in order.
pub fn sale(number: u32, seed: u64) -> Tokens {
    let mut random = Random::new(seed);
    let n = number / 10;
    // a text, a category without positions, a remark without norms
    let fields = [[AVERAGE, 1, 1], [AVERAGE, 1, 0], [AVERAGE, 0, 1]];
    let leaf_fields = (0..MOST_LEAVES).map(|_| random.pick(&[0, 0, 0, 0, 0, 1, 1, 2]));
    let mut made = Tokens {
        n,
        fields: fields.concat(),
        tokens: Vec::new(),
        leaf_fields: leaf_fields.collect(),
    };
    let mut ranks: Vec<_> = (1..=MOST_LEAVES as u32).collect();
    random.shuffle(&mut ranks);
    let weights: f64 = ranks.iter().map(|rank| 1.0 / f64::from(*rank)).sum();
    let mean = f64::from(FREQUENCIES.iter().sum::<u32>()) / FREQUENCIES.len() as f64;
    for (leaf, rank) in (0..).zip(ranks) {
        let postings = f64::from(number) / weights / f64::from(rank) / mean;
        let one_in = (f64::from(n) / postings).max(1.0);
        run(&mut made, leaf, one_in, &mut random);
    }
    made
}

/// The tokens of a leaf that stands in one document of so many.
fn run(made: &mut Tokens, leaf: u32, one_in: f64, random: &mut Random) {
    let share = |random: &mut Random| random.word() as f64 / u64::MAX as f64;
    // gaps from 1 to twice the mean, less 1
    let gap = |random: &mut Random| 1.0 + 2.0 * (one_in - 1.0) * share(random);
    let mut at = gap(random) - 1.0;
    while at < f64::from(made.n) {
        let many = random.pick(&FREQUENCIES) as usize;
        let mut places = [0; 4];
        places[..many].fill_with(|| random.below(LENGTH));
        places[..many].sort_unstable();
        for place in &places[..many] {
            made.tokens.extend([leaf, at as u32, *place]);
        }
        at += gap(random);
    }
}
