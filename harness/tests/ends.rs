//! What the Rust does when it is stepped once more at its end.
#![cfg_attr(not(oracle), allow(unused))]
#[macro_use]
mod common;

use common::*;
use harness::case::Case;
use harness::catalogue::Catalogue;
use harness::query::*;
use std::panic::catch_unwind;

fn case(query: fn(Node) -> Node) -> Case {
    let mut catalogue = Catalogue::new(3);
    let field = catalogue.field();
    let leaf = term(catalogue.leaf(field, &[0, 2]));
    catalogue.case(3, 3, &query(leaf))
}

/// The message of the panic that one step more brings.
#[cfg(oracle)]
fn panic_after_end(case: &Case) -> String {
    let oracle = ask(case);
    let stepped = catch_unwind(|| oracle.next_after_end()).unwrap_err();
    match stepped.downcast::<String>() {
        Ok(message) => *message,
        Err(other) => other.downcast::<&str>().unwrap().to_string(),
    }
}

#[test]
#[cfg_attr(not(oracle), ignore = "the Rust source is absent")]
#[cfg_attr(not(debug_assertions), ignore = "built without overflow checks")]
fn a_disjunction_overflows() {
    with_oracle!({
        let two = case(|leaf| boolean(0, [leaf.clone().should(), leaf.should()]));
        assert_eq!(panic_after_end(&two), "attempt to add with overflow");
    });
}

#[test]
#[cfg_attr(not(oracle), ignore = "the Rust source is absent")]
#[cfg_attr(not(debug_assertions), ignore = "built without overflow checks")]
fn match_all_overflows() {
    with_oracle!({
        assert_eq!(
            panic_after_end(&case(|_| match_all())),
            "attempt to add with overflow"
        );
    });
}

#[test]
#[cfg_attr(not(oracle), ignore = "the Rust source is absent")]
#[cfg_attr(not(debug_assertions), ignore = "built without overflow checks")]
fn the_list_cursor_sees_it() {
    with_oracle!({
        assert_eq!(panic_after_end(&case(|leaf| leaf)), "next_doc at the end");
    });
}

#[test]
#[cfg_attr(not(oracle), ignore = "the Rust source is absent")]
fn a_root_without_a_scorer_has_no_end() {
    with_oracle!({
        assert_eq!(ask(&case(|_| match_none())).next_after_end(), None);
    });
}
