//! Whether a difference would be found: the field check is compared with an original that was made wrong.

use oracle::answers::{CHECK, refused};
use oracle::functions::{Call, Function, Input, Part, Rows};
use oracle::known::{KNOWN, TERMS, made_for};
use oracle::library::Answer;
use oracle::original::COMMON;
use oracle::random::Random;
use oracle::rules::{self, ByRule};

use super::tally::Tally;

struct Wrong;

impl Function for Wrong {
    type Found = Answer;
    const PARTS: &[Part] = ByRule::PARTS;
    const LIBRARY: Call<Answer> = ByRule::LIBRARY;
    /// As if rule 40 refused every number with two fives side by side.
    const ORIGINAL: Call<Answer> = |i| {
        let original = rules::answer(i.scheme, i.number as u32, i.content);
        let fives = i.content.windows(2).any(|two| two == b"55");
        match (original.verdict, original.rule) {
            (1, 40) if fives => refused(40, 1, CHECK),
            _ => original,
        }
    };
    const ROWS: Rows = || {
        let rows = ["made wrong", "never called"];
        rows.map(|name| (name.to_owned(), vec!["accepted"])).into()
    };
}

/// Stops the program unless the difference is found in two blocks, made as small as it can be, and an outcome that never came up is named; and unless
/// all the original's rules are known.
pub fn run() {
    let known = KNOWN.iter().map(|known| known.rule);
    assert!(known.zip(COMMON).all(|(a, b)| std::ptr::eq(a, b)));
    let mut tally = Tally::of::<Wrong>();
    (1..=2).for_each(|block| tally.join(compared(block)));
    let troubles = tally.troubles();
    let [difference, never] = &troubles[..] else {
        panic!("the self-test found {troubles:?}");
    };
    let smallest = "scheme b\"0088\", term 29, content b\"55\"";
    let (library, original) = ("verdict: 1", "reason: 4");
    for words in ["made wrong", smallest, library, original] {
        assert!(difference.contains(words), "self-test: {difference}");
    }
    assert_eq!(never, "never called: accepted never came up");
}

fn compared(block: u64) -> Tally {
    let mut tally = Tally::of::<Wrong>();
    let mut r = Random::of_block(0, block);
    for _ in 0..5000 {
        let content = made_for(&mut r, b"0088");
        let number = u64::from(*r.among(&TERMS));
        let scheme = b"0088";
        tally.begin_block();
        tally.compare(Input {
            scheme,
            number,
            ..Input::of(&content)
        });
    }
    tally
}
