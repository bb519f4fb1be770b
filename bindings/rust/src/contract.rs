//! What the library never answers, by its proofs. If it comes nevertheless, this crate was built for another library than the one that
//! is linked, and no answer of it can be trusted: so it is said at once, with the answer, instead of being taken for some case.

pub(crate) fn broken(what: &str, got: &dyn core::fmt::Debug) -> ! {
    panic!(
        "libpartyid answered the {what} {got:?}, which its header does not have: crate and library disagree"
    )
}

/// Bytes that the library promises to be a text.
pub(crate) fn text(bytes: &[u8]) -> &str {
    match core::str::from_utf8(bytes) {
        Ok(text) => text,
        Err(_) => broken("text", &bytes),
    }
}

#[cfg(test)]
mod tests {
    #[test]
    #[should_panic(expected = "answered the text [49, 255]")]
    fn bytes_that_are_no_text_are_named() {
        super::text(b"1\xff");
    }
}
