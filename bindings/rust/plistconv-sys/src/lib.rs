//! The functions of the C library libplistconv, as `plistconv.h` declares them. The crate `plistconv` is a safe
//! interface to them.
//!
//! That header says what each call requires and returns. It also has wrappers, which are not used here, so these calls
//! require more: no pointer is null, even if its count is 0 (that of a slice never is), a hash key is [`NO_KEY`] if
//! there is none, and all that a call writes is initialised.
#![no_std]

/// The unit of a refusal without a place.
pub const NO_PLACE: u8 = 0;
/// The place is the number of an object of a binary file.
pub const OBJECT: u8 = 1;
/// The place is the offset of a byte in a text.
pub const OCTET: u8 = 2;
/// The place is how many bytes were written.
pub const SENT: u8 = 3;

// The refusals by number. docs/FORMATS.md says when each is answered.
pub const TOO_SHORT: u8 = 1;
pub const BAD_HEADER: u8 = 2;
pub const BAD_TRAILER: u8 = 3;
pub const BAD_OFFSET: u8 = 4;
pub const BAD_REFERENCE: u8 = 5;
pub const CUT_OBJECT: u8 = 6;
pub const BAD_MARKER: u8 = 7;
pub const NULL_OBJECT: u8 = 8;
pub const UID_OBJECT: u8 = 9;
pub const SET_OBJECT: u8 = 10;
pub const NOT_ASCII: u8 = 11;
pub const WIDE_INTEGER: u8 = 12;
pub const KEY_NOT_TEXT: u8 = 13;
pub const DUPLICATE_KEY: u8 = 14;
pub const CYCLE: u8 = 15;
pub const TOO_DEEP: u8 = 16;
pub const TOO_MANY_NODES: u8 = 17;
pub const TOO_MUCH_PAYLOAD: u8 = 18;
pub const BAD_UTF8: u8 = 20;
pub const XML_FORM: u8 = 21;
pub const UNEXPECTED_CHARACTER: u8 = 23;
pub const UNCLOSED_STRING: u8 = 24;
pub const UNCLOSED_COMMENT: u8 = 25;
pub const BAD_ESCAPE: u8 = 26;
pub const OCTAL_RANGE: u8 = 27;
pub const ODD_DATA: u8 = 28;
pub const BAD_DATA: u8 = 29;
pub const EXPECTED: u8 = 30;
pub const JUNK: u8 = 31;
pub const BAD_UTF16: u8 = 32;
pub const NOT_IN_OPEN_STEP: u8 = 40;
pub const READ_FAILED: u8 = 50;
pub const WRITE_FAILED: u8 = 51;
pub const INPUT_TOO_LARGE: u8 = 52;
pub const OUT_OF_MEMORY: u8 = 60;

/// What [`plistconv_line`] returns for a refusal that no call sets.
pub const UNTOLD: u8 = 255;

/// The hash key of a call that hashes under a fixed seed. If somebody else picks the input, pass random bytes instead,
/// one key for the process: then nobody can pick scalars that collide. No answer depends on the key.
pub const NO_KEY: [u8; 16] = [0; 16];

/// Why a call was refused; all fields are 0 if it was not.
#[repr(C)]
#[derive(Clone, Copy, Debug, Default, PartialEq, Eq)]
pub struct Refusal {
    pub place: u64,
    pub number: u8,
    pub unit: u8,
    pub input: u8,
}

/// What [`plistconv_check`] finds; all fields are 0 if the input was refused.
#[repr(C)]
#[derive(Clone, Copy, Debug, Default, PartialEq, Eq)]
pub struct Finding {
    pub object: u64,
    pub canonical: u8,
    pub rule: u8,
}

extern "C" {
    pub fn plistconv_version() -> u32;
    pub fn plistconv_canonical(
        octets: *const u8,
        count: usize,
        key: *const [u8; 16],
        into: *mut u8,
        room: usize,
        length: *mut usize,
        refusal: *mut Refusal,
    ) -> u8;
    pub fn plistconv_text(
        octets: *const u8,
        count: usize,
        into: *mut u8,
        room: usize,
        length: *mut usize,
        refusal: *mut Refusal,
    ) -> u8;
    pub fn plistconv_print(
        octets: *const u8,
        count: usize,
        into: *mut u8,
        room: usize,
        length: *mut usize,
        refusal: *mut Refusal,
    ) -> u8;
    pub fn plistconv_same(
        first: *const u8,
        first_count: usize,
        second: *const u8,
        second_count: usize,
        key: *const [u8; 16],
        equal: *mut u8,
        refusal: *mut Refusal,
    ) -> u8;
    pub fn plistconv_lint(octets: *const u8, count: usize, refusal: *mut Refusal) -> u8;
    pub fn plistconv_check(
        octets: *const u8,
        count: usize,
        key: *const [u8; 16],
        finding: *mut Finding,
        refusal: *mut Refusal,
    ) -> u8;
    pub fn plistconv_line(
        path: *const u8,
        path_count: usize,
        refusal: *const Refusal,
        into: *mut u8,
        room: usize,
        length: *mut usize,
    ) -> u8;
}
