//! A call takes no more stack than the federation allows, for every kind of file, and a thread that has
//! the stack that the package names clears the largest. A typed answer adds less than its own bytes.

use crate::common::cases;
use crate::examples::committed;
use crate::files::random_file;
use crate::painted::stack_used;
use clearing::{clear, clear_market, Market, ANSWER_LIMIT, STACK};
use std::hint::black_box;
use std::thread;

/// The most bytes of stack that the federation allows a call.
const CALL: usize = 60_000;

fn assert_allowed(market: &Market) {
    let mut area = [0; ANSWER_LIMIT];
    let bytes = stack_used(&mut || {
        let _ = black_box(clear(market.file(), &mut area));
    });
    let typed = stack_used(&mut || {
        black_box(&clear_market(market));
    });
    assert!(bytes <= CALL, "{bytes} bytes");
    assert!(
        typed <= bytes + ANSWER_LIMIT,
        "{bytes} bytes, {typed} typed"
    );
}

#[test]
fn a_call_takes_no_more_stack_than_is_allowed() {
    for name in [
        "star",
        "chain",
        "star_spans",
        "chain_spans",
        "street",
        "A",
        "D",
        "ring",
        "battery",
    ] {
        assert_allowed(&Market::from(committed(name)));
    }
    cases("CLEARING_RUNS", 300, |random| {
        assert_allowed(&Market::from(random_file(random)));
    });
}

#[test]
#[cfg_attr(debug_assertions, ignore = "`STACK` is for a release build")]
fn the_largest_files_clear_on_a_small_thread() {
    for name in ["star", "chain", "star_spans", "chain_spans"] {
        let market = Market::from(committed(name));
        let expected = clear_market(&market);
        let mut area = vec![0; ANSWER_LIMIT];
        let thread = thread::Builder::new()
            .name(name.to_string())
            .stack_size(STACK)
            .spawn(move || (clear(market.file(), &mut area), clear_market(&market)))
            .expect("a thread of that size starts");
        let (written, answer) = thread.join().expect("neither call panics");
        assert_eq!(written, Ok(ANSWER_LIMIT), "{name}");
        assert_eq!(answer, expected, "{name}");
    }
}
