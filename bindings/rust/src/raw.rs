//! The functions of libpartyid as include/partyid.h declares them, with slices for pointers and lengths.

/// The size of the area that a text is written to.
pub const AREA: usize = 1024;

/// How many counts a tally has.
pub const TALLY_COUNTS: usize = 53;

/// A code point and how many bytes it takes; length 0 is the refusal.
#[repr(C)]
#[derive(Clone, Copy, Debug, PartialEq, Eq)]
pub struct Point {
    pub code: u32,
    pub len: usize,
}

/// The reason, and the length of the text in the area.
#[repr(C)]
#[derive(Clone, Copy, Debug, PartialEq, Eq)]
pub struct Text {
    pub reason: u32,
    pub len: usize,
}

/// The four numbers of an answer.
#[repr(C)]
#[derive(Clone, Copy, Debug, PartialEq, Eq)]
pub struct Answer {
    pub verdict: u32,
    pub rule: u32,
    pub severity: u32,
    pub reason: u32,
}

/// 0 not withdrawn, 1 with no successor, 2 with the successor's four bytes.
#[repr(C)]
#[derive(Clone, Copy, Debug, PartialEq, Eq)]
pub struct Code {
    pub answer: u32,
    pub successor: [u8; 4],
}

/// The reason of a completion or a listing, and what it counts.
#[repr(C)]
#[derive(Clone, Copy, Debug, PartialEq, Eq)]
pub struct Done {
    pub reason: u32,
    pub count: usize,
}

/// How many lines were answered, and how many bytes of the text they are.
#[repr(C)]
#[derive(Clone, Copy, Debug, PartialEq, Eq)]
pub struct Batch {
    pub count: usize,
    pub used: usize,
}

#[link(name = "partyid", kind = "static")]
unsafe extern "C" {
    fn partyid_decode(content: *const u8, len: usize, at: usize) -> Point;
    fn partyid_is_white(c: u32) -> bool;
    fn partyid_normalize_space(content: *const u8, len: usize, area: *mut [u8; AREA]) -> Text;
    fn partyid_strip(content: *const u8, len: usize, area: *mut [u8; AREA]) -> Text;
    fn partyid_check(
        scheme: *const u8,
        scheme_len: usize,
        term: u32,
        content: *const u8,
        len: usize,
    ) -> Answer;
    fn partyid_is_valid_iban_checksum(content: *const u8, len: usize) -> Answer;
    fn partyid_is_valid_creditor_identifier(content: *const u8, len: usize) -> Answer;
    fn partyid_eas_value(
        scheme: *const u8,
        scheme_len: usize,
        content: *const u8,
        len: usize,
    ) -> Answer;
    fn partyid_withdrawn(code: *const u8, len: usize) -> Code;
    fn partyid_complete(
        scheme: *const u8,
        scheme_len: usize,
        body: *const u8,
        len: usize,
        out: *mut u8,
        room: usize,
    ) -> Done;
    fn partyid_list(
        scheme: *const u8,
        scheme_len: usize,
        content: *const u8,
        len: usize,
        out: *mut u8,
        room: usize,
    ) -> Done;
    fn partyid_answer_line(line: *const u8, len: usize) -> Answer;
    fn partyid_answer_lines(text: *const u8, len: usize, out: *mut u32, room: usize) -> Batch;
    fn partyid_tally_line(line: *const u8, len: usize, counts: *mut [u32; TALLY_COUNTS]) -> Answer;
    fn partyid_tally_lines(
        text: *const u8,
        len: usize,
        counts: *mut [u32; TALLY_COUNTS],
        out: *mut u32,
        room: usize,
    ) -> Batch;
}

// Each function takes any bytes: what it asks of a caller, a pointer with its length, is what a slice is.

pub fn decode(content: &[u8], at: usize) -> Point {
    unsafe { partyid_decode(content.as_ptr(), content.len(), at) }
}

pub fn is_white(c: u32) -> bool {
    unsafe { partyid_is_white(c) }
}

pub fn normalize_space(content: &[u8], area: &mut [u8; AREA]) -> Text {
    unsafe { partyid_normalize_space(content.as_ptr(), content.len(), area) }
}

pub fn strip(content: &[u8], area: &mut [u8; AREA]) -> Text {
    unsafe { partyid_strip(content.as_ptr(), content.len(), area) }
}

pub fn check(scheme: &[u8], term: u32, content: &[u8]) -> Answer {
    unsafe {
        partyid_check(
            scheme.as_ptr(),
            scheme.len(),
            term,
            content.as_ptr(),
            content.len(),
        )
    }
}

pub fn is_valid_iban_checksum(content: &[u8]) -> Answer {
    unsafe { partyid_is_valid_iban_checksum(content.as_ptr(), content.len()) }
}

pub fn is_valid_creditor_identifier(content: &[u8]) -> Answer {
    unsafe { partyid_is_valid_creditor_identifier(content.as_ptr(), content.len()) }
}

pub fn eas_value(scheme: &[u8], content: &[u8]) -> Answer {
    unsafe {
        partyid_eas_value(
            scheme.as_ptr(),
            scheme.len(),
            content.as_ptr(),
            content.len(),
        )
    }
}

pub fn withdrawn(code: &[u8]) -> Code {
    unsafe { partyid_withdrawn(code.as_ptr(), code.len()) }
}

pub fn complete(scheme: &[u8], body: &[u8], out: &mut [u8]) -> Done {
    unsafe {
        partyid_complete(
            scheme.as_ptr(),
            scheme.len(),
            body.as_ptr(),
            body.len(),
            out.as_mut_ptr(),
            out.len(),
        )
    }
}

pub fn list(scheme: &[u8], content: &[u8], out: &mut [u8]) -> Done {
    unsafe {
        partyid_list(
            scheme.as_ptr(),
            scheme.len(),
            content.as_ptr(),
            content.len(),
            out.as_mut_ptr(),
            out.len(),
        )
    }
}

pub fn answer_line(line: &[u8]) -> Answer {
    unsafe { partyid_answer_line(line.as_ptr(), line.len()) }
}

/// Four numbers for each line, as many lines as there is room for.
pub fn answer_lines(text: &[u8], out: &mut [u32]) -> Batch {
    unsafe { partyid_answer_lines(text.as_ptr(), text.len(), out.as_mut_ptr(), out.len()) }
}

pub fn tally_line(line: &[u8], counts: &mut [u32; TALLY_COUNTS]) -> Answer {
    unsafe { partyid_tally_line(line.as_ptr(), line.len(), counts) }
}

/// As `answer_lines`, each line counted.
pub fn tally_lines(text: &[u8], counts: &mut [u32; TALLY_COUNTS], out: &mut [u32]) -> Batch {
    unsafe {
        partyid_tally_lines(
            text.as_ptr(),
            text.len(),
            counts,
            out.as_mut_ptr(),
            out.len(),
        )
    }
}
