//! Completing and listing, for the five schemes, beside two ways of trying the candidates in Rust.

use std::hint::black_box;

use oracle::corrections::{completed, listed};
use oracle::library::{self, Done};
use oracle::original::open;

use crate::case::Case;
use crate::in_place::{self, DIGIT, Figure, PAIR, PAIR_IN_FRONT};
use crate::row::Function;

/// Bodies whose figure is about the middle of those that are tried, and refused numbers.
pub fn cases() -> Vec<Case> {
    vec![
        complete("0088", "401234500018", DIGIT, open::gln),
        complete("0192", "12345678", DIGIT, open::mod11),
        complete("0208", "12345627", PAIR, open::mod97_0208),
        complete("0007", "123456785", DIGIT, open::se_orgnr),
        complete("0151", "824753551", PAIR_IN_FRONT, open::abn),
        list("0088", "4012345000008", open::gln),
        list("0088", "12345678901234567891", open::gln),
        list("0192", "123456784", open::mod11),
        list("0208", "1234567895", open::mod97_0208),
        list("0007", "1234567896", open::se_orgnr),
        list("0151", "51824753557", open::abn),
    ]
}

static COMPLETE: Function = Function {
    name: "complete",
    lean: "every figure is tried in one buffer on the original's check alone (`gln`, `mod11` ..); that the body has the form is known",
    plain: "every figure is tried on the original's predicate, in a `String` of its own",
};

static LIST: Function = Function {
    name: "list",
    lean: "every candidate is tried in one buffer on the original's check alone; that the number has the form and is refused is known",
    plain: "every candidate is tried on the original's predicate, in a `String` of its own",
};

const ROOM: usize = 1024;

fn complete(
    scheme: &'static str,
    body: &'static str,
    figure: Figure,
    accepts: impl Fn(&str) -> bool + Copy + 'static,
) -> Case {
    let lean = move |out: &mut [u8]| in_place::complete(accepts, figure, black_box(body), out);
    let (code, bytes) = (scheme.as_bytes(), body.as_bytes());
    let library = move |out: &mut [u8]| library::complete(black_box(code), black_box(bytes), out);
    let plain = move || completed(black_box(code), black_box(bytes), ROOM);
    case(
        &COMPLETE,
        format!("{scheme}, {} digits", body.len()),
        library,
        lean,
        plain,
    )
}

fn list(
    scheme: &'static str,
    number: &'static str,
    accepts: impl Fn(&str) -> bool + Copy + 'static,
) -> Case {
    let lean = move |out: &mut [u8]| in_place::list(accepts, black_box(number), out);
    let (code, bytes) = (scheme.as_bytes(), number.as_bytes());
    let library = move |out: &mut [u8]| library::list(black_box(code), black_box(bytes), out);
    let plain = move || listed(black_box(code), black_box(bytes), ROOM);
    case(
        &LIST,
        format!("{scheme}, {} digits", number.len()),
        library,
        lean,
        plain,
    )
}

/// The three ways write the same, and something.
fn case(
    function: &'static Function,
    of: String,
    library: impl Fn(&mut [u8]) -> Done + 'static,
    lean: impl Fn(&mut [u8]) -> usize + 'static,
    plain: impl Fn() -> (Done, String) + 'static,
) -> Case {
    let (mut ours, mut theirs) = ([b'?'; ROOM], [b'?'; ROOM]);
    let (done, count) = (library(&mut ours), lean(&mut theirs));
    let (found, text) = plain();
    assert!(done == found && done.count == count && 0 < count, "{of}");
    assert!(ours == theirs && ours.starts_with(text.as_bytes()), "{of}");
    Case::new(function, of, move || library(black_box(&mut ours)))
        .lean(move || lean(black_box(&mut theirs)))
        .plain(plain)
}
