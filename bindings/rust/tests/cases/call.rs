//! Calls a function by its name, and writes its answer as bindings/cases.txt does.

use partyid::{Answer, Reason, TALLY_COUNTS, Tally, Text, Withdrawal};

pub const FUNCTIONS: [&str; 15] = [
    "answer_line",
    "answer_lines",
    "check",
    "complete",
    "decode",
    "eas_value",
    "is_valid_creditor_identifier",
    "is_valid_iban_checksum",
    "is_white",
    "list",
    "normalize_space",
    "strip",
    "tally_line",
    "tally_lines",
    "withdrawn",
];

type Words = Vec<Vec<u8>>;

pub fn answer(function: &str, a: &[Vec<u8>]) -> Words {
    match function {
        "answer_line" => numbers([partyid::answer_line(&a[0])]),
        "answer_lines" => numbers(partyid::answer_lines(&a[0])),
        "check" => numbers([partyid::check(&a[0], decimal(&a[1]), &a[2])]),
        "complete" => text(partyid::complete(&a[0], &a[1])),
        "decode" => point(partyid::decode(&a[0], decimal(&a[1]))),
        "eas_value" => numbers([partyid::eas_value(&a[0], &a[1])]),
        "is_valid_creditor_identifier" => numbers([partyid::is_valid_creditor_identifier(&a[0])]),
        "is_valid_iban_checksum" => numbers([partyid::is_valid_iban_checksum(&a[0])]),
        "is_white" => white(a),
        "list" => list(&a[0], &a[1]),
        "normalize_space" => text(partyid::normalize_space(&a[0])),
        "strip" => text(partyid::strip(&a[0])),
        "tally_line" => tallied(&a[1..], |tally| numbers([tally.feed(&a[0])])),
        "tally_lines" => tallied(&a[1..], |tally| numbers(tally.feed_lines(&a[0]))),
        "withdrawn" => code(partyid::withdrawn(&a[0])),
        _ => panic!("{function} is no function"),
    }
}

fn word(number: impl ToString) -> Vec<u8> {
    number.to_string().into_bytes()
}

fn utf8(word: &[u8]) -> &str {
    std::str::from_utf8(word).expect("a number")
}

fn decimal<N: std::str::FromStr<Err: std::fmt::Debug>>(word: &[u8]) -> N {
    utf8(word).parse().expect("a decimal number")
}

fn numbers(answers: impl IntoIterator<Item = Answer>) -> Words {
    answers
        .into_iter()
        .flat_map(Answer::numbers)
        .map(word)
        .collect()
}

/// What comes of a tally of these counts, and its counts that are not 0.
fn tallied(counts: &[Vec<u8>], feed: impl FnOnce(&mut Tally) -> Words) -> Words {
    let mut given = [0; TALLY_COUNTS];
    for count in counts {
        let (place, number) = utf8(count).split_once(':').expect("a place and a count");
        given[decimal::<usize>(place.as_bytes())] = decimal(number.as_bytes());
    }
    let mut tally = Tally::from(given);
    let answers = feed(&mut tally);
    let counted = tally
        .counts()
        .iter()
        .enumerate()
        .filter(|(_, count)| **count > 0);
    answers
        .into_iter()
        .chain(counted.map(|(place, count)| word(format!("{place}:{count}"))))
        .collect()
}

fn text<const N: usize>(got: Result<Text<N>, Reason>) -> Words {
    match got {
        Ok(text) => vec![word(0), text.as_bytes().to_vec()],
        Err(reason) => vec![word(reason.number())],
    }
}

fn list(scheme: &[u8], content: &[u8]) -> Words {
    match partyid::corrections(scheme, content) {
        Ok(found) => [word(0)]
            .into_iter()
            .chain(found.iter().map(word))
            .collect(),
        Err(reason) => vec![word(reason.number())],
    }
}

fn code(got: Withdrawal) -> Words {
    [word(got.number())]
        .into_iter()
        .chain(got.successor().map(word))
        .collect()
}

fn point(got: Option<partyid::Point>) -> Words {
    let (code, len) = got.map_or((0, 0), |point| (u32::from(point.code), point.len));
    vec![word(format!("{code:x}")), word(len)]
}

/// One answer where it is the same for all.
fn white(codes: &[Vec<u8>]) -> Words {
    let hex = |code| u32::from_str_radix(utf8(code), 16).expect("a hexadecimal number");
    let mut found: Words = codes
        .iter()
        .map(|code| word(u8::from(partyid::is_white(hex(code)))))
        .collect();
    found.dedup();
    found
}
