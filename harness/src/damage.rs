//! Damaged copies of a case: one or two words changed, added or taken away; boosts put above the
//! query, or a field's positions taken away, which no single word does.
use crate::case::Case;
use crate::query::{RECORD, boost, match_all};
use crate::random::Random;

/// Values at and beyond document 01's limits.
const LIMITS: [u32; 20] = [
    0,
    1,
    2,
    3,
    8,
    9,
    10,
    64,
    65,
    0x3f7f_ffff,
    0x3f80_0000,
    0x4280_0000,
    0x4280_0001,
    0x4780_0001,
    0x4b80_0001,
    0x7fc0_0000,
    0x8000_0000,
    2_147_483_647,
    16_777_217,
    u32::MAX,
];

/// The case with one or two places damaged. It may still be valid.
pub fn damaged(random: &mut Random, case: &Case) -> Case {
    let mut case = case.clone();
    for _ in 0..random.within(1, 2) {
        match random.below(14) {
            0 => {
                case.n = random.pick(&[
                    case.n.saturating_add(1),
                    case.n.saturating_sub(1),
                    1_048_577,
                    u32::MAX,
                ])
            }
            1 => case.k = random.pick(&[0, 1025, u32::MAX]),
            2 => length(random, &mut case.norms, 0),
            3 => length(random, &mut case.live, u64::MAX),
            4 => word(random, &mut case.fields),
            5 => word(random, &mut case.leaves),
            6 => word(random, &mut case.postings),
            7 => word(random, &mut case.positions),
            8 => word(random, &mut case.columns),
            9 => word(random, &mut case.values),
            10 => boosted(random, &mut case.query),
            11 => without_positions(random, &mut case),
            _ => word(random, &mut case.query),
        }
    }
    case
}

fn word(random: &mut Random, list: &mut Vec<u32>) {
    let value = match random.below(3) {
        0 => random.below(12),
        _ => random.pick(&LIMITS),
    };
    if list.is_empty() || random.below(6) == 0 {
        return length(random, list, value);
    }
    let at = random.below(list.len() as u32) as usize;
    list[at] = value;
}

/// Two boosts above the whole query, which come to 65,536 or a little more or less.
fn boosted(random: &mut Random, query: &mut Vec<u32>) {
    let other = random.pick(&[0x3f7f_ffff, 0x3f80_0000, 0x3f80_0001, 0x4000_0000]);
    let mut both = [0x4780_0000, other];
    random.shuffle(&mut both);
    let boosts = both.map(|bits| boost(bits, match_all()).words());
    query.splice(
        0..0,
        boosts.iter().flat_map(|words| &words[..RECORD]).copied(),
    );
}

/// A field has no positions any more, and the postings of its leaves no indexes.
fn without_positions(random: &mut Random, case: &mut Case) {
    let fields = (0..).zip(case.fields.chunks_exact(3));
    let with: Vec<u32> = fields
        .filter(|(_, f)| f[2] == 1)
        .map(|(at, _)| at)
        .collect();
    if with.is_empty() {
        return;
    }
    let field = random.pick(&with);
    case.fields[3 * field as usize + 2] = 0;
    for leaf in case.leaves.chunks_exact(4).filter(|leaf| leaf[0] == field) {
        let run = case.postings.chunks_exact_mut(3).skip(leaf[1] as usize);
        run.take(leaf[2] as usize)
            .for_each(|posting| posting[2] = 0);
    }
}

/// One more element, or one less.
fn length<T>(random: &mut Random, list: &mut Vec<T>, more: T) {
    if list.is_empty() || random.below(2) == 0 {
        list.push(more);
    } else {
        list.pop();
    }
}
