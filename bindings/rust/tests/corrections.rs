//! The list of corrections as a value and as an iterator.

use partyid::{LIST_DIGITS, Reason, Verdict, check, complete, corrections};

/// What rule 40 accepts about 19 zeros and a one: a weight of 3 wants a 3, a weight of 1 a 9, and the check digit a 0.
fn around_a_last_one() -> Vec<String> {
    let slip = |i: usize| {
        let mut digits = "0".repeat(19) + "1";
        let wanted = match 19 - i {
            0 => "0",
            distance if distance % 2 == 1 => "3",
            _ => "9",
        };
        digits.replace_range(i..=i, wanted);
        digits
    };
    (0..LIST_DIGITS).map(slip).collect()
}

#[test]
fn the_longest_number_has_its_list() {
    let found = corrections("0088", "0".repeat(19) + "1").unwrap();
    assert!(found.iter().eq(around_a_last_one()));
    let refused = corrections("0088", "0".repeat(20) + "1").unwrap_err();
    assert_eq!(refused, Reason::Form);
}

#[test]
fn a_list_is_walked_from_both_ends() {
    let found = corrections("0088", "71").unwrap();
    let mut entries = found.iter();
    assert_eq!(entries.len(), 3);
    assert_eq!(entries.next(), Some("31"));
    assert_eq!(entries.len(), 2);
    assert_eq!(entries.next_back(), Some("17"));
    assert_eq!(entries.clone().collect::<Vec<_>>(), ["79"]);
    assert_eq!(
        (entries.next(), entries.next(), entries.next_back()),
        (Some("79"), None, None)
    );
    assert_eq!(format!("{found:?}"), r#"["31", "79", "17"]"#);
}

#[test]
fn a_list_may_be_empty() {
    let found = corrections("0192", "000000000").unwrap();
    assert!(found.is_empty());
    assert_eq!(found.len(), 0);
    assert_eq!(found.iter().next(), None);
}

#[test]
fn every_entry_is_accepted() {
    for (scheme, number) in [
        ("0088", "1234567890182"),
        ("0192", "123456758"),
        ("0208", "1234567849"),
        ("0007", "1234567879"),
        ("0151", "51824753565"),
    ] {
        let found = corrections(scheme, number).unwrap();
        assert!(!found.is_empty(), "{scheme}");
        for entry in &found {
            assert_eq!(
                check(scheme, 34, entry).verdict,
                Verdict::Accepted,
                "{scheme} {entry}"
            );
        }
    }
}

#[test]
fn a_completed_body_is_accepted() {
    for (scheme, body) in [
        ("0088", "1234"),
        ("0192", "12345678"),
        ("0208", "00000097"),
        ("0007", "000000009"),
        ("0151", "824753556"),
    ] {
        let figure = complete(scheme, body).unwrap();
        let whole = if scheme == "0151" {
            format!("{figure}{body}")
        } else {
            format!("{body}{figure}")
        };
        assert_eq!(
            check(scheme, 34, &whole).verdict,
            Verdict::Accepted,
            "{scheme} {whole}"
        );
    }
}
