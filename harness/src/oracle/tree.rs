//! From query records to the source's own `Query`, and to the ends of its ranges.
use crate::case::Case;
use crate::failed::ends;
use crate::index::segment::{column_name, leaf_term};
use crate::query as records;
use crate::query::Node;
use crate::search::query::{BooleanQuery, Occur, PhraseQuery, Query};
use std::ops::Bound;

/// An end of a range: 0 is unbounded, 1 included, 2 excluded.
pub fn bound<T>(kind: u32, value: impl FnOnce() -> T) -> Bound<T> {
    match kind {
        0 => Bound::Unbounded,
        1 => Bound::Included(value()),
        2 => Bound::Excluded(value()),
        _ => panic!("range kind {kind}"),
    }
}

/// An end of a range of f64 values.
fn number(bits: u64) -> f64 {
    let end = f64::from_bits(bits);
    assert!(!end.is_nan(), "a NaN end for the Rust");
    end
}

pub fn query(case: &Case, node: &Node) -> Query {
    let first = node.values[0];
    let child = || query(case, &node.children[0]);
    match node.kind {
        records::TERM => Query::Term(leaf_term(case, first)),
        records::PHRASE => phrase(node),
        records::BOOLEAN => boolean(case, node),
        records::RANGE => range(case, node),
        records::MATCH_ALL => Query::MatchAll,
        records::CONSTANT_SCORE => child().constant_score(),
        records::BOOST => child().boost(f32::from_bits(first)),
        records::MATCH_NONE => Query::MatchNone,
        kind => panic!("kind {kind}"),
    }
}

fn phrase(node: &Node) -> Query {
    let mut phrase = PhraseQuery::new(node.values[0].to_string());
    for term in &node.children {
        assert_eq!(term.kind, records::PHRASE_TERM);
        let [leaf, offset, ..] = term.values;
        phrase.terms.push((leaf.to_le_bytes().to_vec(), offset));
    }
    phrase.build()
}

fn boolean(case: &Case, node: &Node) -> Query {
    let mut boolean = BooleanQuery::new().minimum_should_match(node.values[0] as usize);
    for clause in &node.children {
        let occur = match clause.occurrence {
            records::MUST => Occur::Must,
            records::SHOULD => Occur::Should,
            records::MUST_NOT => Occur::MustNot,
            records::FILTER => Occur::Filter,
            other => panic!("occurrence {other}"),
        };
        boolean = boolean.clause(query(case, clause), occur);
    }
    boolean.build()
}

fn range(case: &Case, node: &Node) -> Query {
    let [(lower, low), (upper, high)] = ends(node.values);
    let field = column_name(node.values[0]);
    match case.columns[node.values[0] as usize] {
        0 => Query::I64Range {
            field,
            lower: bound(lower, || low as i64),
            upper: bound(upper, || high as i64),
        },
        _ => Query::F64Range {
            field,
            lower: bound(lower, || number(low)),
            upper: bound(upper, || number(high)),
        },
    }
}
