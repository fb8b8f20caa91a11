//! The texts of `lot_refusal_text` in the header are those of docs/REFUSALS.md, number by number.
mod common;

use common::text;
use std::collections::BTreeMap;

/// For each number its sentence.
type Texts = BTreeMap<u32, String>;

const NUMBERS: std::ops::RangeInclusive<u32> = 1..=16;

/// No number has two texts.
fn put(texts: &mut Texts, number: u32, text: &str) {
    let before = texts.insert(number, text.into());
    assert_eq!(before, None, "{number} stands twice");
}

/// The rows `| N | who | sentence |` of a table.
fn table(text: &str) -> Texts {
    let mut texts = Texts::new();
    for line in text.lines() {
        let cells: Vec<_> = line.trim().split('|').map(str::trim).collect();
        if let ["", number, who, sentence, ""] = cells[..]
            && let Ok(number) = number.parse()
        {
            assert!(!who.is_empty() && !sentence.is_empty(), "{line}");
            put(&mut texts, number, sentence);
        }
    }
    texts
}

/// The lines `case N: return "sentence";` of the header's function.
fn cases(header: &str) -> Texts {
    let mut texts = Texts::new();
    let start = header.find("lot_refusal_text(").expect("the function");
    let body = &header[start..];
    for line in body[..body.find("\n}").expect("its end")].lines() {
        let Some((number, rest)) = line
            .trim()
            .strip_prefix("case ")
            .and_then(|l| l.split_once(": return \""))
        else {
            continue;
        };
        let text = rest.strip_suffix("\";").expect("a text on one line");
        put(&mut texts, number.parse().expect("a number"), text);
    }
    texts
}

fn has_all(texts: &Texts, name: &str) {
    let lacking: Vec<_> = NUMBERS.filter(|n| !texts.contains_key(n)).collect();
    assert!(lacking.is_empty(), "{name} lacks {lacking:?}");
}

/// The same sentence for every number in both, and every number in each.
fn same(table: &Texts, cases: &Texts) {
    has_all(table, "docs/REFUSALS.md");
    has_all(cases, "lot_refusal_text");
    for number in NUMBERS {
        assert_eq!(table[&number], cases[&number], "the text of {number}");
    }
}

#[test]
fn the_header_has_the_table_s_texts() {
    let table = table(&text("docs/REFUSALS.md"));
    same(&table, &cases(&text("include/lot_search.h")));
}

/// A table and a function of the agreed forms, with the texts changed.
fn made(change: impl FnOnce(&mut Texts, &mut Texts)) {
    let texts: Texts = NUMBERS.map(|n| (n, format!("sentence {n}."))).collect();
    let [mut rows, mut lines] = [texts.clone(), texts];
    change(&mut rows, &mut lines);
    let rows = rows
        .iter()
        .map(|(n, text)| format!("| {n} | who | {text} |\n"));
    let lines = lines
        .iter()
        .map(|(n, text)| format!("    case {n}: return \"{text}\";\n"));
    let head = "| number | whose fault | text |\n|---|---|---|\n";
    let name = "static inline const char *lot_refusal_text(uint32_t number)\n{\n";
    let table = table(&(head.to_string() + &rows.collect::<String>()));
    let header = name.to_string() + &lines.collect::<String>() + "    }\n}\n";
    same(&table, &cases(&header));
}

#[test]
fn equal_texts_pass() {
    made(|_, _| {});
}

#[test]
#[should_panic(expected = "docs/REFUSALS.md lacks [9]")]
fn a_row_that_lacks_is_seen() {
    made(|rows, _| _ = rows.remove(&9));
}

#[test]
#[should_panic(expected = "lot_refusal_text lacks [14]")]
fn a_case_that_lacks_is_seen() {
    made(|_, lines| _ = lines.remove(&14));
}

#[test]
#[should_panic(expected = "the text of 3")]
fn another_text_is_seen() {
    made(|rows, _| rows.get_mut(&3).unwrap().push('!'));
}
