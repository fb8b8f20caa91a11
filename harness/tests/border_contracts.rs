//! The functions that C calls (crates/lot_search) state the contracts of those of crates/border, of
//! which crates/demands_border has the theorems: parameters and clauses are the same text, and so
//! are the definitions that they name.
mod common;

use common::text;
use std::collections::BTreeMap;

const FILES: [&str; 2] = ["src/lib.rt", "src/write_index.rt"];
const ENTRIES: [&str; 4] = ["lot_page", "lot_pick", "lot_search", "lot_write_index"];
/// What the clauses of each entry name, in the order of ENTRIES.
const RECORDS: [&str; 4] = ["LotPages", "LotPicks", "LotSearches", "LotWritesIndex"];

/// For each entry what stands between its name and its body.
fn contracts(crate_name: &str, begin: &str) -> BTreeMap<String, String> {
    let files = FILES.map(|file| text(&format!("crates/{crate_name}/{file}")));
    let entries = files.iter().flat_map(|file| file.split(begin).skip(1));
    let named = entries.map(|entry| {
        let (name, rest) = entry.split_once('(').expect("parameters");
        let (contract, _) = rest.split_once("\n{\n").expect("a body");
        (name.to_string(), contract.to_string())
    });
    named.collect()
}

/// For each name in clauses where it comes from.
fn definitions(crate_name: &str) -> BTreeMap<String, String> {
    let files = FILES.map(|file| text(&format!("crates/{crate_name}/{file}")));
    let lines = files.iter().flat_map(|file| file.lines());
    let imports = lines.filter_map(|line| line.strip_prefix("ghost use ")?.strip_suffix("};"));
    let named = imports.flat_map(|import| {
        let (path, names) = import.split_once(".{").expect("names");
        let of_path = |name: &str| (name.to_string(), path.to_string());
        names.split(", ").map(of_path).collect::<Vec<_>>()
    });
    named.collect()
}

#[test]
fn exports_state_the_contracts_of_the_border() {
    let exported = contracts("lot_search", "#[unsafe(no_mangle)]\npub extern \"C\" fn ");
    assert_eq!(exported, contracts("border", "\npub fn "));
    assert!(exported.keys().eq(ENTRIES));
    let of_border = definitions("border");
    let of_exports = definitions("lot_search");
    for (contract, record) in exported.values().zip(RECORDS) {
        let (_, clauses) = contract.split_once("ensures").expect("clauses");
        assert!(clauses.contains(&format!("{{ {record} ")), "{record}");
        assert!(of_exports.contains_key(record), "{record}");
    }
    for (name, path) in of_exports {
        assert_eq!(of_border.get(&name), Some(&path), "{name}");
    }
}
