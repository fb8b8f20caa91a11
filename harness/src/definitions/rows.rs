//! The rows of a run: every number of every entry from small cases, then generated cases and
//! damaged copies of them, the entries in turn.
use super::{Row, entries};
use crate::boundary;
use crate::case::Case;
use crate::catalogue::Catalogue;
use crate::damage::damaged;
use crate::failed::example;
use crate::fuzz::Lists;
use crate::generate;
use crate::query::{PHRASE, RANGE, RECORD, boolean, match_all, phrase, range};
use crate::random::Random;
use crate::refusal::calls::{FOUND, Judge, Lengths};
use crate::refusal::order;

/// What antt computes in a fraction of a second: it looks a list's element up from the front.
fn small(case: &Case) -> bool {
    let [_, leaves, postings, positions, _, values, query] = case.words();
    case.n <= 40
        && case.k <= 64
        && leaves.len() <= 4 * 12
        && postings.len() <= 3 * 40
        && positions.len() <= 60
        && values.len() <= 3 * 60
        && query.len() <= RECORD * 20
}

/// Buffers exactly long enough.
fn enough(case: &Case, m: usize) -> Lengths {
    Lengths {
        hits: case.k as usize,
        documents: m,
        scores: m,
        answer: FOUND,
        ..Judge::new(case).needed
    }
}

/// Each row that a run of any length has.
pub fn every_number() -> Vec<Row> {
    let mut rows = vec![entries::lengths()];
    let mut random = Random::new(1);
    for number in 1..=10 {
        let mut cases: Vec<_> = boundary::all()
            .into_iter()
            .filter(|c| c.0 == number)
            .collect();
        cases.retain(|(_, case)| {
            small(&Case {
                n: 0,
                k: 1,
                ..case.clone()
            })
        });
        for entry in 0..8 {
            let at = random.below(cases.len() as u32) as usize;
            let case = Case {
                k: 2,
                ..cases[at].1.clone()
            };
            rows.push(order_row(entry, &case, &mut random));
        }
    }
    wrong_run(&mut rows);
    short_buffers(&mut rows);
    wrong_places(&mut rows);
    standing(&mut rows);
    ranges(&mut rows);
    failed_readings(&mut rows);
    picks(&mut rows);
    rows
}

/// Search, Page, Place or the text, two of each in eight.
fn order_row(entry: u32, case: &Case, random: &mut Random) -> Row {
    let m = random.below(4) as usize;
    let lent = enough(case, m);
    match entry % 4 {
        0 => entries::search(case, &lent),
        1 => entries::page(case, random.below(3), &lent),
        2 => entries::place(case, 1, random.below(3), &lent),
        _ => entries::text(case, None),
    }
}

/// A sound case, whose record 1 is a phrase.
fn sound() -> Case {
    Case {
        k: 2,
        ..boundary::sound()
    }
}

/// 11 of Search and the text, and the text for files that are not of whole words.
fn wrong_run(rows: &mut Vec<Row>) {
    let case = sound();
    for k in [0, 1025] {
        let wrong = Case { k, ..case.clone() };
        rows.push(entries::search(&wrong, &enough(&case, 0)));
        rows.push(entries::text(&wrong, None));
    }
    // norms.rec, the file 5, may have any length
    (0..10).for_each(|file| rows.push(entries::text(&case, (file != 5).then_some(file))));
    rows.push(entries::text_of_read(&too_many_ranges()));
}

/// 12 of Search, Page and Place.
fn short_buffers(rows: &mut Vec<Row>) {
    let case = sound();
    let shorter: [fn(&mut Lengths); 7] = [
        |lent| lent.states -= 1,
        |lent| lent.starts -= 1,
        |lent| lent.other_starts -= 1,
        |lent| lent.ranges -= 1,
        |lent| lent.hits -= 1,
        |lent| lent.documents -= 1,
        |lent| lent.scores -= 1,
    ];
    for short in shorter {
        let mut lent = enough(&case, 2);
        short(&mut lent);
        rows.push(entries::search(&case, &lent));
        rows.push(entries::page(&case, 0, &lent));
        rows.push(entries::place(&case, 1, 0, &lent));
    }
}

/// 13 of Page and Place, from both sides.
fn wrong_places(rows: &mut Vec<Row>) {
    let case = sound();
    let lent = enough(&case, 2);
    let targets = [0, 3, 4, u32::MAX].map(|target| entries::page(&case, target, &lent));
    rows.extend(targets);
    for (record, document) in [(1, 0), (1, 2), (1, 3), (0, 0), (2, 0), (6, 0), (99, 0)] {
        rows.push(entries::place(&case, record, document, &lent));
    }
}

/// An order for which the range buffer of `hits` is too short: 260 × 64 words.
fn too_many_ranges() -> Case {
    let mut catalogue = Catalogue::new(260);
    catalogue.column_of_i64(&[None; 260]);
    let clauses = vec![range(0, 0, 0, 0).should(); 63];
    catalogue.case(1, 0, &boolean(0, clauses))
}

/// The columns of a case, asked for one range.
fn columns(case: &Case, values: [u32; 6]) -> Case {
    let mut query = match_all().words();
    query[0] = RANGE;
    query[3..].copy_from_slice(&values);
    Case {
        n: case.n,
        columns: case.columns.clone(),
        values: case.values.clone(),
        query,
        ..Case::default()
    }
}

/// 1, 6, 8 and 12 of Range.
fn ranges(rows: &mut Vec<Row>) {
    let case = columns(&sound(), [0, 4, 0, 0, 9, 0]);
    let wrong: [fn(&mut Case); 8] = [
        |_| {},
        |case| case.n = 1_048_577,
        |case| _ = case.values.pop(),
        |case| case.columns[0] = 2,
        |case| case.values[0] = 2,
        |case| case.query[3] = 1,
        |case| case.query[4] = 9,
        |case| (case.query[4], case.query[5]) = (3, 1),
    ];
    for wrong in wrong {
        let mut case = case.clone();
        wrong(&mut case);
        rows.push(entries::range(&case, 3, 4));
    }
    rows.push(entries::range(&case, 2, 3));
    rows.push(entries::range(&case, 3, 2));
}

/// The worked examples of request 2026-03 as ranges and as searches; and some of those in which a NaN
/// bale would count in a range's cost.
fn failed_readings(rows: &mut Vec<Row>) {
    for (case, _) in example::ranges() {
        let values = case.query[3..RECORD].try_into().unwrap();
        rows.push(entries::range(&columns(&case, values), 7, 8));
        rows.push(entries::search(&case, &enough(&case, 0)));
    }
    for (case, _) in example::costs().into_iter().step_by(7) {
        rows.push(entries::list(&case));
    }
}

/// 11, 12 and 14 of Pick.
fn picks(rows: &mut Vec<Row>) {
    let wrong: [fn(&mut Lists); 9] = [
        |_| {},
        |lists| lists.k = 0,
        |lists| lists.k = 1025,
        |lists| _ = lists.scores.pop(),
        |lists| lists.documents[2] = 5,
        |lists| lists.documents[3] = 2_147_483_647,
        |lists| lists.scores[0] = 0x8000_0000,
        |lists| lists.scores[3] = 0x7f80_0001,
        |lists| lists.scores[3] = 0x7f80_0000,
    ];
    for wrong in wrong {
        let mut lists = Lists {
            documents: vec![3, 5, 9, 2_147_483_646],
            scores: vec![0x3f80_0000, 0x4000_0000, 0x3f80_0000, 0],
            k: 2,
            t: 1,
        };
        wrong(&mut lists);
        rows.push(entries::pick(&lists, 3));
        rows.push(entries::pick(&lists, 1));
    }
}

/// The row of a seed, where its case is small.
pub fn generated(seed: u64) -> Option<Row> {
    let mut random = Random::new(!seed);
    let mut case = match seed / 8 % 4 {
        0 => generate::with_failed_end(seed),
        _ => generate::case(seed),
    };
    if random.once_in(4) {
        case = damaged(&mut random, &case);
    }
    if !small(&case) {
        return None;
    }
    let lent = enough(&case, random.below(5) as usize);
    let row = match (seed % 8, order(&case)) {
        (0, 0) => entries::list(&case),
        (1, _) => entries::page(&case, random.below(case.n + 2), &lent),
        (2, _) => entries::text(&case, None),
        (3, _) => place(seed, &mut random)?,
        (4, _) => one_range(&case, &mut random)?,
        (5, _) => one_pick(&mut random),
        _ => entries::search(&case, &lent),
    };
    Some(row)
}

/// Place at the first phrase among the queries of a seed, mostly where its first term occurs.
fn place(seed: u64, random: &mut Random) -> Option<Row> {
    let phrase_of = |case: &Case| {
        let mut records = case.query.chunks(RECORD);
        records.position(|record| record[0] == PHRASE)
    };
    let mut cases = generate::cases(seed, 12).into_iter();
    let case = cases.find(|case| small(case) && phrase_of(case).is_some())?;
    let record = phrase_of(&case)?;
    let leaf = case.query[RECORD * (record + 1) + 3] as usize;
    let run = &case.leaves[4 * leaf + 1..][..2];
    let document = match run[1] {
        postings @ 1.. if !random.once_in(4) => {
            let posting = run[0] + random.below(postings);
            case.postings[3 * posting as usize]
        }
        _ => random.below(case.n + 1),
    };
    Some(entries::place(&case, record, document, &enough(&case, 0)))
}

/// Phrases that stand in a document: at the start 5 twice, and at −1.
fn standing(rows: &mut Vec<Row>) {
    let phrases: [&[(&[u32], u32)]; 3] = [
        &[(&[0, 5, 5], 0), (&[6, 6, 9], 1)],
        &[(&[0], 1)],
        &[(&[3, 4], 2), (&[2], 1), (&[8], 7)],
    ];
    for terms in phrases {
        let mut catalogue = Catalogue::new(2);
        let field = catalogue.field_with_positions();
        let leaf = |catalogue: &mut Catalogue, positions: &[u32]| {
            catalogue.leaf_of_positions(field, 1.0, &[(1, positions)])
        };
        let terms = terms
            .iter()
            .map(|(own, offset)| (leaf(&mut catalogue, own), *offset));
        let terms: Vec<_> = terms.collect();
        let case = catalogue.case(1, 1, &phrase(field, &terms));
        for document in [0, 1] {
            rows.push(entries::place(&case, 0, document, &enough(&case, 0)));
        }
    }
}

/// A range over one of the columns, its ends mostly values of the column.
fn one_range(case: &Case, random: &mut Random) -> Option<Row> {
    let column = random.below(case.columns.len().max(1) as u32);
    let mut end = || {
        let at = 3 * (column * case.n + random.below(case.n.max(1))) as usize;
        case.values
            .get(at + 1..at + 3)
            .map(|halves| [halves[0], halves[1]])
    };
    let [[a, b], [c, d]] = [end()?, end()?];
    let kinds = random.below(9);
    let [a, b] = if kinds % 3 == 0 { [0, 0] } else { [a, b] };
    let [c, d] = if kinds / 3 == 0 { [0, 0] } else { [c, d] };
    let case = columns(case, [column, kinds, a, b, c, d]);
    let n = case.n as usize;
    Some(entries::range(&case, n, n + random.below(3) as usize))
}

fn one_pick(random: &mut Random) -> Row {
    let length = random.below(12);
    let documents = random.documents(30, length);
    let score = |_: &u32| random.pick(&[0, 1, 0x3f80_0000, 0x3f80_0001, 0x7f80_0000]);
    let scores = documents.iter().map(score).collect();
    let k = random.within(1, 8);
    let lists = Lists {
        documents,
        scores,
        k,
        t: random.below(12),
    };
    entries::pick(&lists, k as usize + random.below(2) as usize)
}
