//! A completer and a lister as a Rust caller of the original would tune them: the digits are changed in one buffer, and one of the
//! original's checks is asked directly. They take it as known that body and number have the form.

/// The most digits of a number that is listed.
const MOST: usize = 20;

/// Digits as a text.
fn text(digits: &[u8]) -> &str {
    // SAFETY: the functions below write digits of ASCII over digits of ASCII.
    unsafe { str::from_utf8_unchecked(digits) }
}

// ---- completing

/// Where a figure stands, how many digits it has, and the first that is tried.
#[derive(Clone, Copy)]
pub struct Figure {
    in_front: bool,
    width: usize,
    first: u8,
}

pub const DIGIT: Figure = Figure {
    in_front: false,
    width: 1,
    first: 0,
};
pub const PAIR: Figure = Figure {
    in_front: false,
    width: 2,
    first: 0,
};
pub const PAIR_IN_FRONT: Figure = Figure {
    in_front: true,
    width: 2,
    first: 11,
};

/// How many digits were written to the area.
pub fn complete(
    accepts: impl Fn(&str) -> bool,
    figure: Figure,
    body: &str,
    out: &mut [u8],
) -> usize {
    let n = body.len() + figure.width;
    let (body_at, figure_at) = match figure.in_front {
        true => (figure.width, 0),
        false => (0, body.len()),
    };
    let mut buffer = [b'0'; MOST];
    buffer[body_at..][..body.len()].copy_from_slice(body.as_bytes());
    for number in figure.first..10_u8.pow(figure.width as u32) {
        if figure.width == 2 {
            buffer[figure_at] = b'0' + number / 10;
        }
        buffer[figure_at + figure.width - 1] = b'0' + number % 10;
        if accepts(text(&buffer[..n])) {
            out[..figure.width].copy_from_slice(&buffer[figure_at..][..figure.width]);
            return figure.width;
        }
    }
    0
}

// ---- listing

/// How many entries were written to the area.
pub fn list(accepts: impl Fn(&str) -> bool, number: &str, out: &mut [u8]) -> usize {
    let mut buffer = [0; MOST];
    let digits = &mut buffer[..number.len()];
    digits.copy_from_slice(number.as_bytes());
    let mut list = List {
        accepts,
        digits,
        out,
        count: 0,
    };
    (0..number.len()).for_each(|at| list.replace(at));
    (1..number.len()).for_each(|at| list.exchange(at));
    list.count
}

/// A number that is changed and put back, and the entries found of it.
struct List<'a, F> {
    accepts: F,
    digits: &'a mut [u8],
    out: &'a mut [u8],
    count: usize,
}

impl<F: Fn(&str) -> bool> List<'_, F> {
    fn replace(&mut self, at: usize) {
        let own = self.digits[at];
        for digit in (b'0'..=b'9').filter(|&d| d != own) {
            self.digits[at] = digit;
            self.keep();
        }
        self.digits[at] = own;
    }

    fn exchange(&mut self, at: usize) {
        if self.digits[at - 1] != self.digits[at] {
            self.digits.swap(at - 1, at);
            self.keep();
            self.digits.swap(at - 1, at);
        }
    }

    fn keep(&mut self) {
        if (self.accepts)(text(self.digits)) {
            let n = self.digits.len();
            self.out[n * self.count..][..n].copy_from_slice(self.digits);
            self.count += 1;
        }
    }
}
