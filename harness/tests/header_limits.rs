//! The limits that the header names are those of the definitions, crates/meaning/specs/Limits.antt.
mod common;

use common::text;
use std::collections::BTreeMap;

/// For each name its value.
type Values = BTreeMap<String, u32>;

/// A name of the header, and the limit that it has as a whole number.
const NUMBERS: [(&str, &str); 14] = [
    ("LOT_MAX_DOCUMENTS", "max_documents"),
    ("LOT_MAX_FIELDS", "max_fields"),
    ("LOT_MAX_LEAVES", "max_leaves"),
    ("LOT_MAX_COLUMNS", "max_columns"),
    ("LOT_MAX_FREQUENCY", "largest_frequency"),
    ("LOT_MAX_POSITION", "no_more_docs"),
    ("LOT_MAX_RECORDS", "max_records"),
    ("LOT_MAX_DEPTH", "max_depth"),
    ("LOT_MAX_PHRASE_TERMS", "max_phrase_terms"),
    ("LOT_MAX_CLAUSES", "max_clauses"),
    ("LOT_MAX_HITS", "max_hits"),
    ("LOT_NO_MORE_DOCS", "no_more_docs"),
    ("LOT_STATE_WORDS", "node_state_words"),
    ("LOT_MAX_TOKENS", "max_tokens"),
];

/// A name of the header, and the limit that has the bits of the same number as f32.
const FLOATS: [(&str, &str); 4] = [
    ("LOT_MIN_AVERAGE", "least_average"),
    ("LOT_MAX_AVERAGE", "largest_average"),
    ("LOT_MAX_IDF", "largest_idf"),
    ("LOT_MAX_BOOST", "largest_boost"),
];

/// Limits that the header says in words or in its own code.
const IN_WORDS: [&str; 1] = ["plus_infinity"];

/// A number as C or antt writes it: 1024, 4294967295u, 0x3f80_0000.
fn number(text: &str) -> Option<u32> {
    let plain = text.trim_end_matches('u').replace('_', "");
    match plain.strip_prefix("0x") {
        Some(digits) => u32::from_str_radix(digits, 16).ok(),
        None => plain.parse().ok(),
    }
}

/// The lines `#define NAME NUMBER`.
fn defines(header: &str) -> Values {
    let define = |line: &str| {
        let mut words = line.strip_prefix("#define ")?.split_whitespace();
        Some((words.next()?.to_string(), number(words.next()?)?))
    };
    header.lines().filter_map(define).collect()
}

/// The lines `NAME = NUMBER`.
fn limits(definitions: &str) -> Values {
    let limit = |line: &str| {
        let (name, value) = line.split_once(" = ")?;
        Some((name.to_string(), number(value.trim())?))
    };
    definitions.lines().filter_map(limit).collect()
}

fn of(values: &Values, name: &str) -> u32 {
    *values
        .get(name)
        .unwrap_or_else(|| panic!("there is no {name}"))
}

/// Each name of the header has its limit, and each limit a name or its words.
fn same(defines: &Values, limits: &Values) {
    for (name, limit) in NUMBERS {
        assert_eq!(of(defines, name), of(limits, limit), "{name}");
    }
    for (name, limit) in FLOATS {
        let bits = (of(defines, name) as f32).to_bits();
        assert_eq!(bits, of(limits, limit), "{name}");
    }
    let named: Vec<_> = NUMBERS.iter().chain(&FLOATS).map(|pair| pair.1).collect();
    for limit in limits.keys().map(String::as_str) {
        let told = named.contains(&limit) || IN_WORDS.contains(&limit);
        assert!(told, "the header does not say {limit}");
    }
    for name in defines.keys().filter(|name| name.contains("_MAX_")) {
        let told = NUMBERS.iter().chain(&FLOATS).any(|pair| pair.0 == name);
        assert!(told, "{name} is no limit");
    }
}

fn both(change: impl FnOnce(&mut Values, &mut Values)) {
    let mut defines = defines(&text("include/lot_search.h"));
    let mut limits = limits(&text("crates/meaning/specs/Limits.antt"));
    change(&mut defines, &mut limits);
    same(&defines, &limits);
}

#[test]
fn the_header_has_the_definitions_limits() {
    both(|_, _| {});
}

#[test]
#[should_panic(expected = "LOT_MAX_HITS")]
fn another_limit_is_seen() {
    both(|defines, _| _ = defines.insert("LOT_MAX_HITS".into(), 1023));
}

#[test]
#[should_panic(expected = "LOT_MAX_IDF")]
fn another_float_is_seen() {
    both(|_, limits| *limits.get_mut("largest_idf").unwrap() += 1);
}

#[test]
#[should_panic(expected = "the header does not say maxSections")]
fn a_limit_that_the_header_lacks_is_seen() {
    both(|_, limits| _ = limits.insert("maxSections".into(), 32));
}

#[test]
#[should_panic(expected = "LOT_MAX_ORDERS is no limit")]
fn a_name_that_is_no_limit_is_seen() {
    both(|defines, _| _ = defines.insert("LOT_MAX_ORDERS".into(), 64));
}
