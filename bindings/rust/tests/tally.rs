//! A tally: where each line is counted, and what is refused where it is full.

use partyid::{Reason, RuleCounts, TALLY_COUNTS, TALLY_LIMIT, Tally, Verdict, answer_line};

/// A line of each kind that there is, and the place of its count.
const LINES: [(&str, usize); 39] = [
    ("0088 34 17", 0),
    ("0088 34 71", 1),
    ("0192 34 123456785", 3),
    ("0192 34 000000000", 4),
    ("0184 34 12345678", 6),
    ("0184 34 1", 7),
    ("0208 34 1234567894", 9),
    ("0208 34 0000009700", 10),
    ("0201 34 ABC123", 12),
    ("0201 34 ABC12", 13),
    ("0210 34 12345678901", 15),
    ("0210 34 1", 16),
    ("9907 49 12345678901", 18),
    ("9907 49 1", 19),
    ("0211 34 IT12345678903", 21),
    ("0211 34 IT12345678904", 22),
    ("0211 34 It1", 23),
    ("0007 34 1234567897", 24),
    ("0007 34 1234567896", 25),
    ("0151 34 51824753556", 27),
    ("0151 34 00000000000", 28),
    ("0096 34 1234567890", 30),
    ("0096 34 1", 31),
    ("0198 34 DK12345678", 33),
    ("0198 34 1", 34),
    ("0106 34 12345678", 36),
    ("0106 34 1", 37),
    ("0190 34 12345678901234567890", 39),
    ("0190 34 1", 40),
    ("0217 34 123456789012", 42),
    ("0217 34 1", 43),
    ("9944 34 NL123456789B12", 45),
    ("9944 34 1", 46),
    ("0088 31 NL123456789B12", 48),
    ("0088 63 NL1", 49),
    ("     48 DE1", 50),
    ("0060 34 x", 51),
    ("0088 33 17", 52),
    ("", 52),
];

/// Zeros, but for the counts at some places.
fn tally(counts: &[(usize, u32)]) -> Tally {
    let mut all = [0; TALLY_COUNTS];
    counts.iter().for_each(|&(place, count)| all[place] = count);
    all.into()
}

/// The counts 0, 1, 2 ..
fn places() -> Tally {
    Tally::from(std::array::from_fn(|place| place as u32))
}

#[test]
fn each_line_is_counted_by_its_rule_and_verdict() {
    for (line, place) in LINES {
        let mut found = Tally::default();
        let answer = found.feed(line);
        assert_eq!(answer, answer_line(line));
        assert_eq!(found, tally(&[(place, 1)]), "{line}");
        assert_eq!(found.count(answer.rule, answer.verdict), Some(1), "{line}");
        assert_eq!(found.total(), 1);
    }
}

#[test]
fn every_count_is_found_once() {
    let tally = places();
    let by_rule = tally
        .rules()
        .flat_map(|row| [row.accepted, row.refused, row.unread]);
    assert!(
        by_rule
            .chain([tally.no_rule(), tally.refused_without_rule()])
            .eq(0..53)
    );
    let last = RuleCounts {
        rule: 562,
        accepted: 48,
        refused: 49,
        unread: 50,
    };
    assert_eq!(tally.rules().last(), Some(last));
    assert_eq!(tally.rules().len(), 17);
    for row in tally.rules() {
        for &verdict in Verdict::ALL {
            assert_eq!(tally.count(row.rule, verdict), row.count(verdict));
        }
    }
    assert_eq!(tally.counts(), &<[u32; TALLY_COUNTS]>::from(tally.clone()));
}

#[test]
fn a_rule_and_a_verdict_that_no_line_has_have_no_count() {
    for rule in [1, 39, 48, 51, 56, 58, 560, 563, u32::MAX] {
        assert!(
            Verdict::ALL
                .iter()
                .all(|&verdict| places().count(rule, verdict).is_none()),
            "{rule}"
        );
    }
    assert_eq!(places().count(0, Verdict::NoRule), Some(51));
    assert_eq!(places().count(0, Verdict::Accepted), None);
    assert_eq!(places().count(0, Verdict::Refused), Some(52));
    assert_eq!(places().count(0, Verdict::Unread), None);
    assert_eq!(places().count(40, Verdict::NoRule), None);
}

#[test]
fn the_last_line_that_is_counted_is_followed_by_refusals() {
    for (line, place) in LINES {
        let mut found = tally(&[(place, TALLY_LIMIT - 1)]);
        assert_eq!(found.feed(line), answer_line(line));
        assert_eq!(found, tally(&[(place, TALLY_LIMIT)]));
        assert_eq!(found.feed(line).numbers(), [2, 0, 0, 12]);
        assert_eq!(found, tally(&[(place, TALLY_LIMIT)]));
    }
}

#[test]
fn a_tally_past_the_limit_counts_nothing() {
    let full = [
        tally(&[(0, u32::MAX), (52, 6)]), // 5, if the sum were cut to 32 bits
        tally(&[(0, u32::MAX), (1, u32::MAX), (2, 2)]),
        Tally::from([u32::MAX; TALLY_COUNTS]),
    ];
    for before in &full {
        for (line, _) in LINES {
            let mut found = before.clone();
            assert_eq!(found.feed(line).reason, Reason::Full);
            assert_eq!(&found, before);
        }
    }
    assert_eq!(full[0].total(), 4_294_967_301);
    assert_eq!(full[2].total(), 227_633_266_635);
}
