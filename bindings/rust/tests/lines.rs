//! Many lines at once: the same answers and the same counts as line by line, however many lines there are.

use partyid::{
    Answer, Reason, TALLY_COUNTS, TALLY_LIMIT, Tally, Verdict, answer_line, answer_lines,
};

const KINDS: [&[u8]; 6] = [
    b"0088 34 71",
    b"0088 34 17",
    b"0060 34 x",
    b"",
    b"0211 34 It1",
    b"0088 34 \xff\xff",
];

/// So many lines, of all kinds in turn, and longer and longer ones among them.
fn lines(count: usize) -> Vec<Vec<u8>> {
    let line = |i: usize| match i % 7 {
        6 => [b"0088 34 ".as_slice(), &b"0".repeat(i)].concat(),
        kind => KINDS[kind].to_vec(),
    };
    (0..count).map(line).collect()
}

fn text_of(lines: &[Vec<u8>]) -> Vec<u8> {
    lines
        .iter()
        .flat_map(|line| [line, b"\n".as_slice()].concat())
        .collect()
}

// on both sides of what is asked for at a time, and of twice as much
const COUNTS: [usize; 10] = [0, 1, 6, 127, 128, 129, 255, 256, 257, 1500];

#[test]
fn all_lines_are_answered_as_each_is_alone() {
    for count in COUNTS {
        let lines = lines(count);
        let alone: Vec<Answer> = lines.iter().map(answer_line).collect();
        assert_eq!(
            answer_lines(&text_of(&lines)).collect::<Vec<_>>(),
            alone,
            "{count} lines"
        );
    }
}

/// Tallies that are fresh, and full after 0, 1 and 200 lines.
fn tallies() -> impl Iterator<Item = Tally> {
    [TALLY_LIMIT, 0, 1, 200].into_iter().map(|left| {
        let mut counts = [0; TALLY_COUNTS];
        counts[8] = TALLY_LIMIT - left;
        Tally::from(counts)
    })
}

/// A line is counted where its answer is taken, and no line behind it.
#[test]
fn all_lines_are_counted_as_each_is_alone() {
    let lines = lines(1500);
    let text = text_of(&lines);
    for tally in tallies() {
        for count in COUNTS {
            let (mut one_by_one, mut at_once) = (tally.clone(), tally.clone());
            let alone: Vec<Answer> = lines[..count]
                .iter()
                .map(|line| one_by_one.feed(line))
                .collect();
            let taken: Vec<Answer> = at_once.feed_lines(&text).take(count).collect();
            assert_eq!((taken, at_once), (alone, one_by_one), "{count} lines");
        }
    }
}

#[test]
fn lines_that_are_not_asked_for_are_not_counted() {
    let mut tally = Tally::new();
    let _ = tally.feed_lines("0088 34 17\n");
    assert_eq!(tally, Tally::new());
    assert_eq!(tally.feed_lines("").next(), None);
    assert_eq!(tally, Tally::new());
}

fn written<const N: usize>(numbers: [u32; N]) -> String {
    numbers.map(|n| n.to_string()).join(" ") + "\n"
}

#[test]
fn the_line_programs_own_lines_have_its_answers_and_its_counts() {
    let lines = include_bytes!("../../../crates/checklines/stdin");
    let mut tally = Tally::new();
    let mut all: String = tally
        .feed_lines(lines)
        .map(|answer| written(answer.numbers()))
        .collect();
    all.extend(
        tally
            .rules()
            .map(|row| written([row.rule, row.accepted, row.refused, row.unread])),
    );
    all += &written([tally.no_rule(), tally.refused_without_rule()]);
    assert_eq!(all, include_str!("../../../crates/checklines/stdout"));
    assert!(answer_lines(lines).eq(Tally::new().feed_lines(lines)));
}

#[test]
fn a_last_line_counts_if_it_has_a_byte() {
    assert_eq!(answer_lines("0088 34 17\n").count(), 1);
    assert_eq!(answer_lines("0088 34 17\n0").count(), 2);
    assert_eq!(answer_lines("\n\n").count(), 2);
    assert_eq!(answer_lines(&[]).count(), 0);
}

#[test]
fn the_end_stays_the_end() {
    let mut answers = answer_lines("0088 34 17");
    assert_eq!(format!("{answers:?}"), "AnswerLines { ready: 0, rest: 10 }");
    assert_eq!(answers.next().map(|a| a.verdict), Some(Verdict::Accepted));
    assert_eq!((answers.next(), answers.next()), (None, None));
    let mut full = Tally::from([u32::MAX; TALLY_COUNTS]);
    let mut answers = full.feed_lines("0088 34 17\n0088 34 17");
    assert_eq!(answers.next().map(|a| a.reason), Some(Reason::Full));
    assert_eq!(format!("{answers:?}"), "TallyLines { ready: 1, rest: 0 }");
    assert_eq!(answers.by_ref().count(), 1);
    assert_eq!((answers.next(), answers.next()), (None, None));
}
