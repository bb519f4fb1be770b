//! The notation of bindings/cases.txt, which its own head explains.

pub struct Case<'a> {
    pub line: &'a str,
    pub function: &'a str,
    pub arguments: Vec<Vec<u8>>,
    pub answer: Vec<Vec<u8>>,
}

pub fn cases(text: &str) -> Vec<Case<'_>> {
    assert!(text.is_ascii());
    text.lines()
        .filter(|line| !line.is_empty() && !line.starts_with('#'))
        .map(case)
        .collect()
}

fn case(line: &str) -> Case<'_> {
    let (call, answer) = line.split_once(" =>").expect(line);
    let (function, arguments) = call.split_once(' ').expect(line);
    Case {
        line,
        function,
        arguments: words(arguments),
        answer: words(answer),
    }
}

fn words(line: &str) -> Vec<Vec<u8>> {
    let mut words = Vec::new();
    let mut rest = line.trim_start_matches(' ');
    while !rest.is_empty() {
        let (word, after) = match rest.strip_prefix('\'') {
            Some(quoted) => quoted.split_once('\'').expect(line),
            None => rest.split_once(' ').unwrap_or((rest, "")),
        };
        words.push(bytes(word));
        rest = after.trim_start_matches(' ');
    }
    words
}

fn bytes(word: &str) -> Vec<u8> {
    let mut bytes_of_word = Vec::new();
    let mut rest = word;
    while !rest.is_empty() {
        let (piece, after) = first_piece(rest);
        bytes_of_word.extend(piece);
        rest = after;
    }
    bytes_of_word
}

/// What a word begins with: \hh, {n:text} or a plain byte. And what is behind it.
fn first_piece(word: &str) -> (Vec<u8>, &str) {
    if let Some(behind) = word.strip_prefix('\\') {
        let (hex, after) = behind.split_at(2);
        (vec![u8::from_str_radix(hex, 16).expect(word)], after)
    } else if let Some(behind) = word.strip_prefix('{') {
        let (inside, after) = behind.split_once('}').expect(word);
        let (times, text) = inside.split_once(':').expect(word);
        (bytes(text).repeat(times.parse().expect(word)), after)
    } else {
        let (plain, after) = word.split_at(1);
        (plain.into(), after)
    }
}
