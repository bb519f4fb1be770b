//! Contents of all kinds: any byte, any length, and the types that the functions take and give.

use partyid::{NotUtf8, Reason, Severity, Verdict, check, normalize_space, points, strip};

/// What rule 40 says of a content of one byte.
fn reason_of_a_byte(byte: u8) -> Reason {
    match byte {
        b'0' => Reason::NoReason,
        b'1'..=b'9' => Reason::Check,
        0x80.. => Reason::Utf8,
        _ => Reason::Form,
    }
}

#[test]
fn every_byte_has_an_answer() {
    for byte in 0..=255 {
        assert_eq!(
            check("0088", 34, [byte]).reason,
            reason_of_a_byte(byte),
            "byte {byte}"
        );
    }
}

#[test]
fn every_length_has_an_answer() {
    let zeros = [b'0'; 3000];
    for n in 0..=zeros.len() {
        let reason = match n {
            0 => Reason::Form,
            1..=1024 => Reason::NoReason,
            _ => Reason::Long,
        };
        assert_eq!(check("0088", 34, &zeros[..n]).reason, reason, "{n} zeros");
    }
}

#[test]
fn contents_of_many_types_are_taken() {
    let accepted = check("0088", 34, "17");
    assert_eq!(accepted.numbers(), [1, 40, 1, 0]);
    assert_eq!(check(b"0088", 34, b"17"), accepted);
    assert_eq!(check([48, 48, 56, 56], 34, vec![b'1', b'7']), accepted);
    assert_eq!(
        check(String::from("0088"), 34, String::from("17")),
        accepted
    );
    assert_eq!(
        check("0088", 34, normalize_space(" 17 ").unwrap()),
        accepted
    );
    assert_eq!(check([], 34, []).verdict, Verdict::NoRule);
    assert_eq!(check("0088", 34, Vec::new()).reason, Reason::Form);
}

#[test]
fn an_answer_is_told_in_words() {
    let told = |scheme, content| check(scheme, 34, content).to_string();
    assert_eq!(told("0088", "17"), "accepted by rule 40");
    assert_eq!(told("0211", "It1"), "let through unread by rule 47");
    assert_eq!(
        told("9944", "NL"),
        "refused by rule 561 (severity warning): the form is not met"
    );
    let iban = partyid::is_valid_iban_checksum("AA751").to_string();
    assert_eq!(
        iban,
        "refused: the form is met and the check figure is wrong"
    );
    assert_eq!(
        format!("{:>8}|{:<10}|", Severity::Fatal, Verdict::Refused),
        "   fatal|refused   |"
    );
    assert_eq!(
        partyid::withdrawn("9901").to_string(),
        "withdrawn, its successor is 0096"
    );
}

#[test]
fn a_successor_is_a_text() {
    let found = partyid::withdrawn("9901");
    assert_eq!(format!("{found:?}"), r#"Successor("0096")"#);
    let partyid::Withdrawal::Successor(code) = found else {
        panic!("{found}")
    };
    assert_eq!(format!("{code}|{code:>6}|{code:?}"), "0096|  0096|\"0096\"");
    assert_eq!(check(code, 34, "1234567890").verdict, Verdict::Accepted);
}

#[test]
fn white_points_are_asked_for_by_number_and_by_char() {
    assert!(partyid::is_white(0xa0) && partyid::is_white('\u{a0}') && partyid::is_white(32));
    assert!(!partyid::is_white(0x200b) && !partyid::is_white(0xffff_ffff));
}

#[test]
fn reasons_are_ordered_by_number() {
    assert!(Reason::ALL.is_sorted());
    assert!(Reason::Form < Reason::Check && Reason::Line > Reason::Term);
}

#[test]
fn a_reason_is_an_error() {
    fn normalized(content: &[u8]) -> Result<String, Box<dyn std::error::Error>> {
        Ok(normalize_space(content)?.to_string())
    }
    assert_eq!(normalized(b" 1  7").unwrap(), "1 7");
    let refused = normalized(b"\xff").unwrap_err();
    assert_eq!(refused.to_string(), "the content is not well-formed UTF-8");
}

#[test]
fn texts_are_compared_and_shown_by_what_they_hold() {
    let text = strip(" 1 7 ").unwrap();
    assert_eq!(text, normalize_space("17").unwrap());
    assert_ne!(text, strip("71").unwrap());
    assert_ne!(text, strip("1").unwrap());
    assert_eq!(format!("{text}|{text:>4}|{text:?}"), "17|  17|\"17\"");
    let as_str: &str = text.as_ref();
    assert_eq!(as_str, "17");
}

#[test]
fn points_go_to_the_end_or_to_the_first_bad_byte() {
    let text = "1é€\u{1f600}\0";
    assert!(points(text).eq(text.chars().map(Ok)));
    let mut cut = points(b"1\xe2\x82");
    assert_eq!(cut.next(), Some(Ok('1')));
    assert_eq!(cut.next(), Some(Err(NotUtf8 { at: 1 })));
    assert_eq!(cut.next(), None);
    assert_eq!(points("").next(), None);
    assert_eq!(
        NotUtf8 { at: 1 }.to_string(),
        "no well-formed UTF-8 at byte 1"
    );
}
