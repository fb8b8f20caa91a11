//! The row of a call of each entry: what is lent, and what the judge and the Rust say of it.
use super::place::starts;
use super::{Entry, Row, integer, integers, words, work};
use crate::answer::Hit;
use crate::case::Case;
use crate::expect::{self, Right, codes, found_numbers, page_numbers};
use crate::failed::{asks_failed_value, crossed, has_failed_end, listed};
use crate::fuzz::Lists;
use crate::oracle::{self, Oracle};
use crate::query::{PHRASE, RECORD};
use crate::refusal::calls::{FOUND, Judge, Lengths};
use crate::refusal::{order, refusal};
use std::iter::repeat_n;

/// What stands in an output before a call.
const BEFORE: i64 = 7;

fn of_case(entry: Entry, number: u32, case: &Case, equations: Vec<(String, String)>) -> Row {
    let mut row = of_ranges(entry, number, case, equations);
    row.case = Some(case.clone());
    row
}

/// A row that has the words of a case in its equations.
fn of_ranges(entry: Entry, number: u32, case: &Case, equations: Vec<(String, String)>) -> Row {
    let mut row = of_lists(entry, number, equations);
    row.failed_value = number == 0 && asks_failed_value(case);
    row.failed_end = number == 0 && has_failed_end(case);
    row
}

pub fn of_lists(entry: Entry, number: u32, equations: Vec<(String, String)>) -> Row {
    Row {
        entry,
        number,
        failed_value: false,
        failed_end: false,
        case: None,
        equations,
    }
}

/// A list, with what stood before from its end on.
fn filled<T: Clone>(front: Vec<T>, length: usize, before: T) -> Vec<T> {
    let beyond = repeat_n(before, length - front.len());
    front.into_iter().chain(beyond).collect()
}

/// The full list of an accepted order, and the cost of its root.
pub fn list(case: &Case) -> Row {
    let oracle = Oracle::new(&crossed(case));
    let list = oracle.list();
    let documents = list.iter().map(|hit: &Hit| u64::from(hit.document));
    let bits = list.iter().map(|hit| u64::from(hit.bits));
    let both: Vec<_> = documents.chain(bits).collect();
    let cost = oracle.cost().map_or(vec![0], |cost| vec![1, cost]);
    let listed = "pairs (full_list IX (query_tree QUERY))".to_string();
    let equations = vec![
        (listed, words(&both)),
        ("costed IX QUERY".into(), words(&cost)),
    ];
    of_case(Entry::List, 0, case, equations)
}

pub fn search(case: &Case, lent: &Lengths) -> Row {
    let (k, t, places) = (case.k, case.t, lent.hits);
    let (number, answer, hits) = match Right::new(case).search(k, t, lent) {
        Err(number) => (number, vec![u64::from(number)], vec![]),
        Ok(found) => {
            let answer = [&[0], &found_numbers(&found)[..]].concat();
            (0, answer, codes(&found.hits))
        }
    };
    let work = work(lent);
    let before = format!("(replicate {places} (pos {BEFORE}))");
    let equations = vec![
        (
            format!("search_answer IX QUERY {k} {t} {work} {places}"),
            words(&answer),
        ),
        (
            format!("search_hits IX QUERY {k} {work} {before}"),
            integers(&filled(hits, places, BEFORE)),
        ),
    ];
    of_case(Entry::Search, number, case, equations)
}

pub fn page(case: &Case, target: u32, lent: &Lengths) -> Row {
    let (number, answer, given) = match Right::new(case).page(target, lent) {
        Err(number) => (number, vec![u64::from(number)], vec![]),
        Ok(paged) => {
            let answer = [&[0], &page_numbers(&paged)[..]].concat();
            (0, answer, paged.hits)
        }
    };
    let documents = given.iter().map(|hit| hit.document).collect();
    let bits = given.iter().map(|hit| hit.bits).collect();
    let (m, scores) = (lent.documents, lent.scores);
    let both = [filled(documents, m, 7), filled(bits, scores, 9)].concat();
    let work = work(lent);
    let outputs = format!("{work} (replicate {m} 7) (replicate {scores} 9)");
    let documents = format!("page_documents IX QUERY {target} {outputs}");
    let scored = format!("page_scores IX QUERY {target} {outputs}");
    let equations = vec![
        (
            format!("page_answer IX QUERY {target} {work} {m} {scores}"),
            words(&answer),
        ),
        (format!("{documents} ++ {scored}"), words(&both)),
    ];
    of_case(Entry::Page, number, case, equations)
}

/// The lowest number of 1 to 10, 12 and 13 that holds for a call of Place.
fn place_number(case: &Case, record: usize, document: u32, lent: &Lengths) -> u32 {
    let judge = Judge::new(case);
    let needed = judge.needed;
    let short = lent.starts < needed.starts || lent.other_starts < needed.other_starts;
    let no_phrase = case.query.get(RECORD * record) != Some(&PHRASE);
    match judge.order {
        0 if short => 12,
        0 if document >= case.n || no_phrase => 13,
        number => number,
    }
}

/// Place leaves open which start is given: the definition is asked about some, and about none.
pub fn place(case: &Case, record: usize, document: u32, lent: &Lengths) -> Row {
    let number = place_number(case, record, document, lent);
    let refusal = format!("place_refusal IX QUERY {record} {document} {}", work(lent));
    let mut equations = vec![(refusal, number.to_string())];
    if number == 0 {
        let right = format!("place_right IX QUERY {record} {document}");
        let starts = starts(case, record, document);
        equations.push((format!("{right} none"), starts.is_empty().to_string()));
        let first = starts.first().copied().unwrap_or(0);
        for start in [first, first + 1] {
            let call = format!("{right} (some ({}))", integer(start));
            equations.push((call, starts.contains(&start).to_string()));
        }
    }
    of_case(Entry::Place, number, case, equations)
}

/// Range over a case's columns; its query is the range's record alone.
pub fn range(case: &Case, room: usize, output: usize) -> Row {
    let values: [u32; 6] = case.query[3..RECORD].try_into().unwrap();
    let short = room.min(output) < case.n as usize;
    let (number, answer, listed) = match order(case) {
        0 if short => (12, vec![12], vec![]),
        0 => {
            let listed = match has_failed_end(case) {
                true => listed(case, values),
                false => oracle::range(case, values),
            };
            (0, vec![0, listed.len() as u32], listed)
        }
        number => (number, vec![number], vec![]),
    };
    let [column, kinds, ends @ ..] = values;
    let [lower, upper] = [[ends[0], ends[1]], [ends[2], ends[3]]]
        .map(|[low, high]| u64::from(low) | u64::from(high) << 32);
    let lists = [&case.columns, &case.values].map(|list| words(list));
    let lent = format!("(columns_only {} ({}) ({}))", case.n, lists[0], lists[1]);
    let range = format!("(range {column} {kinds} {lower} {upper})");
    let equations = vec![
        (
            format!("range_answer {lent} {range} {room} {output}"),
            words(&answer),
        ),
        (
            format!("range_output {lent} {range} {room} (replicate {output} 7)"),
            words(&filled(listed, output, 7)),
        ),
    ];
    of_ranges(Entry::Range, number, case, equations)
}

pub fn pick(lists: &Lists, places: usize) -> Row {
    let Lists { k, t, .. } = *lists;
    let lent = Lengths {
        hits: places,
        answer: FOUND,
        ..Lengths::default()
    };
    let right = expect::pick(&lists.documents, &lists.scores, k, t, &lent);
    let (number, answer, hits) = match right {
        Err(number) => (number, vec![u64::from(number)], vec![]),
        Ok(found) => {
            let answer = [&[0], &found_numbers(&found)[..]].concat();
            (0, answer, codes(&found.hits))
        }
    };
    let lists = [&lists.documents, &lists.scores].map(|list| words(list));
    let lists = format!("({}) ({})", lists[0], lists[1]);
    let before = format!("(replicate {places} (pos {BEFORE}))");
    let equations = vec![
        (
            format!("pick_answer {lists} {k} {t} {places}"),
            words(&answer),
        ),
        (
            format!("pick_hits {lists} {k} {before}"),
            integers(&filled(hits, places, BEFORE)),
        ),
    ];
    of_lists(Entry::Pick, number, equations)
}

/// What each norm byte decodes to.
pub fn lengths() -> Row {
    let bytes: Vec<u8> = (0..=255).collect();
    let decoded: Vec<_> = bytes.iter().map(|byte| oracle::length(*byte)).collect();
    let call = format!("map length_answer ({})", words(&bytes));
    of_lists(Entry::Length, 0, vec![(call, words(&decoded))])
}

/// The text of `hits` for ten files, one of them a byte longer where `spoiled` names it.
pub fn text(case: &Case, spoiled: Option<usize>) -> Row {
    let mut files = files(case);
    let (number, text) = match (spoiled, refusal(case)) {
        (Some(file), _) => {
            files[file].push(0);
            (0, "refused 0\n".to_string())
        }
        (None, 0) => (0, Oracle::new(&crossed(case)).search().text()),
        (None, number) => (number, format!("refused {number}\n")),
    };
    let lists = files.iter().map(|bytes| format!(" ({})", words(bytes)));
    let call = format!("hits_text (files{})", lists.collect::<String>());
    let equations = vec![(call, words(text.as_bytes()))];
    of_ranges(Entry::Text, number, case, equations)
}

/// The text for an index and a query that were read already: antt takes half a minute to read the
/// files of an order that needs more than the range buffer of `hits`.
pub fn text_of_read(case: &Case) -> Row {
    let number = refusal(case);
    assert_ne!(number, 0);
    let call = format!("search_text IX QUERY {} {}", case.k, case.t);
    let text = format!("refused {number}\n");
    of_case(
        Entry::Text,
        number,
        case,
        vec![(call, words(text.as_bytes()))],
    )
}

/// The bytes of a case's files, in document 01's order.
fn files(case: &Case) -> Vec<Vec<u8>> {
    let run = [case.n, case.k, case.t];
    let of_words = |list: &[u32]| list.iter().flat_map(|word| word.to_le_bytes()).collect();
    vec![
        of_words(&run),
        of_words(&case.fields),
        of_words(&case.leaves),
        of_words(&case.postings),
        of_words(&case.positions),
        case.norms.clone(),
        case.live
            .iter()
            .flat_map(|word| word.to_le_bytes())
            .collect(),
        of_words(&case.columns),
        of_words(&case.values),
        of_words(&case.query),
    ]
}
