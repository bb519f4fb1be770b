//! Where the code lies: the same program is built once for each place, with so many bytes before all its code.

use oracle::original;

/// The places that bench/run builds, by the bytes before the code.
pub const PLACES: [&str; 2] = ["0", "16"];

/// The place of this program.
pub const PLACE: &str = env!("PLACE");

// kept (R) although nothing refers to it
std::arch::global_asm!(
    ".section .text.place, \"axR\", @progbits",
    concat!(".skip ", env!("PLACE"), ", 0x90"),
    ".text"
);

/// How far into 32 bytes one of the original's functions begins.
pub fn offset() -> usize {
    original::is_valid_iban_checksum as *const () as usize % 32
}
