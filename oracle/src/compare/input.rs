//! How an input is made smaller.

use oracle::functions::Input;

/// An input that is kept. Of two, the one with fewer bytes is the smaller, then the one with the lower number.
#[derive(Clone, PartialEq, Eq, PartialOrd, Ord)]
pub struct Kept {
    bytes: usize,
    number: u64,
    content: Vec<u8>,
    scheme: Vec<u8>,
    counts: Vec<u32>,
}

impl From<Input<'_>> for Kept {
    fn from(input: Input<'_>) -> Self {
        Self {
            bytes: input.scheme.len() + input.content.len(),
            number: input.number,
            content: input.content.to_vec(),
            scheme: input.scheme.to_vec(),
            counts: input.counts.to_vec(),
        }
    }
}

impl Kept {
    pub fn input(&self) -> Input<'_> {
        Input {
            scheme: &self.scheme,
            number: self.number,
            counts: &self.counts,
            content: &self.content,
        }
    }
}

/// Leaves out bytes, lowers the number and the counts and makes bytes plainer, for as long as the input still `differs`.
pub fn smallest(input: Input<'_>, differs: impl Fn(Input<'_>) -> bool) -> Kept {
    let mut best = Kept::from(input);
    loop {
        let mut next = best.clone();
        for smaller in [fewer, plainer] {
            let now = next.input();
            let content = smaller(now.content, &|content| differs(Input { content, ..now }));
            next.content = content;
            let now = next.input();
            let scheme = smaller(now.scheme, &|scheme| differs(Input { scheme, ..now }));
            next.scheme = scheme;
            let now = next.input();
            next.number = lower(now.number, |number| differs(Input { number, ..now }));
            let now = next.input();
            next.counts = lower_each(now.counts, |counts| differs(Input { counts, ..now }));
        }
        next = Kept::from(next.input());
        if next == best {
            return best;
        }
        best = next;
    }
}

/// Drops bytes, in halves, quarters and so on; at last in fours, threes, twos and ones, as many as a point takes.
fn fewer(bytes: &[u8], differs: &dyn Fn(&[u8]) -> bool) -> Vec<u8> {
    let mut best = bytes.to_vec();
    let mut size = best.len();
    while 0 < size {
        let mut at = 0;
        while at < best.len() {
            let mut less = best.clone();
            less.drain(at..best.len().min(at + size));
            if differs(&less) {
                best = less;
            } else {
                at += size;
            }
        }
        size = if size <= 4 {
            size - 1
        } else {
            (size / 2).max(4)
        };
    }
    best
}

/// Takes off as much as can be taken off, in steps that become smaller.
fn lower(number: u64, differs: impl Fn(u64) -> bool) -> u64 {
    let mut best = number;
    let mut step = best;
    while 0 < step {
        if step <= best && differs(best - step) {
            best -= step;
        } else {
            step /= 2;
        }
    }
    best
}

/// Lowers one count after another, and leaves out the zeros behind the last one.
fn lower_each(counts: &[u32], differs: impl Fn(&[u32]) -> bool) -> Vec<u32> {
    let mut best = counts.to_vec();
    for at in 0..best.len() {
        let with = |count: u64| [&best[..at], &[count as u32], &best[at + 1..]].concat();
        best[at] = lower(u64::from(best[at]), |count| differs(&with(count))) as u32;
    }
    let end = best.iter().rposition(|&count| count != 0);
    best.truncate(end.map_or(0, |last| last + 1));
    best
}

/// Puts a zero for each byte.
fn plainer(bytes: &[u8], differs: &dyn Fn(&[u8]) -> bool) -> Vec<u8> {
    let mut best = bytes.to_vec();
    for at in 0..best.len() {
        let byte = std::mem::replace(&mut best[at], b'0');
        if byte != b'0' && !differs(&best) {
            best[at] = byte;
        }
    }
    best
}
