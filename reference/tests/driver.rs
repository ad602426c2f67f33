//! The driver: input may be split anywhere, its last line may lack the line feed, and it may be empty.

use reference::driver::{self, Driver};
use reference::mistakes::Rules;

/// The answers to an input that comes in these pieces.
fn in_pieces<'a>(pieces: impl Iterator<Item = &'a [u8]>) -> Vec<u8> {
    let (mut driver, mut output) = (Driver::new(Rules::PAPER), Vec::new());
    for piece in pieces {
        driver.feed(piece, &mut output).expect("a vector takes writes");
    }
    driver.finish(&mut output).expect("a vector takes writes");
    output
}

fn answers(input: &str) -> String {
    String::from_utf8(driver::answers(Rules::PAPER, input.as_bytes())).expect("answers are digits")
}

#[test]
fn input_may_be_split_anywhere() {
    let input = b"f 3 8\nx 2\n\nw 0 7 99\nbad line of more than thirty-two bytes\nc\ns 99\n\n\ng 0 9";
    let whole = driver::answers(Rules::PAPER, input);
    for size in 1..=input.len() {
        assert_eq!(in_pieces(input.chunks(size)), whole, "pieces of {size}");
    }
    for at in 0..=input.len() {
        let (first, second) = input.split_at(at);
        assert_eq!(in_pieces([first, second].into_iter()), whole, "cut at {at}");
    }
}

#[test]
fn the_corpus_may_be_split_anywhere() {
    let input = reference::corpus::input();
    let whole = driver::answers(Rules::PAPER, &input);
    for size in [1, 7, 33, 4096] {
        assert!(in_pieces(input.chunks(size)) == whole, "pieces of {size}");
    }
}

#[test]
fn the_last_line_may_lack_its_line_feed() {
    assert_eq!(answers("f 1 1\ng 0 9"), "0 0 1 1 0\n0 0 1 1 0\n");
    assert_eq!(answers("f 1 1\ng 0 9\n"), "0 0 1 1 0\n0 0 1 1 0\n");
    assert_eq!(answers("f 1 1\ng 0 9\n\n"), "0 0 1 1 0\n0 0 1 1 0\n99 0 1 1 0\n");
    assert_eq!(answers("f 1 1\ng 0 9\n "), "0 0 1 1 0\n0 0 1 1 0\n99 0 1 1 0\n");
}

#[test]
fn empty_input_prints_nothing() {
    assert_eq!(answers(""), "");
    assert_eq!(answers("\n"), "99 0 0 0 0\n");
}

#[test]
fn a_long_line_is_one_line() {
    for length in [32, 33, 34, 100, 65536, 70000, 200000] {
        let input = format!("f 1 1\n{}\ng 0 9\n", "g".repeat(length));
        assert_eq!(answers(&input), "0 0 1 1 0\n99 0 1 1 0\n0 0 1 1 0\n", "{length}");
    }
}
