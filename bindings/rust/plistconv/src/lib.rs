//! Apple property lists in their canonical form, by the C library libplistconv.
//!
//! A property list is a tree of strings, numbers, booleans, dates, data, arrays and dictionaries. It can be written in
//! many ways; its *canonical file* is the same for all of them, which is proved of the library. Every function reads
//! binary property lists (`bplist00`) and OpenStep text.
//!
//! ```
//! # fn main() -> Result<(), plistconv::Refused> {
//! let by_tool = b"{ name = Ada; langs = (en, fr); }";
//! let by_hand = b"/* the same */ \"langs\" = (en, \"fr\",);\nname = Ada;";
//! assert!(plistconv::same(by_tool, by_hand)?);
//! assert_eq!(plistconv::canonicalise(by_tool)?, plistconv::canonicalise(by_hand)?);
//! # Ok(())
//! # }
//! ```
//!
//! Scalars are hashed under a random key, one for the process, so nobody can pick input that is slow because its
//! scalars collide. No answer depends on the key.
//!
//! A call needs up to 1 MiB of stack. The main thread and those of `std` have more; give a thread with a
//! [`stack_size`](std::thread::Builder::stack_size) of your own at least that.
#![warn(missing_docs)]
#![deny(unsafe_op_in_unsafe_fn)]

mod refusal;

#[cfg(doctest)]
#[doc = include_str!("../../README.md")]
struct Readme;

pub use refusal::{Place, Refusal, Refused, UnknownRefusal};

use plistconv_sys as sys;
use std::collections::hash_map::RandomState;
use std::hash::{BuildHasher, Hasher};
use std::sync::OnceLock;

/// What [`check`] finds of a binary property list.
#[derive(Clone, Copy, Debug, PartialEq, Eq, Hash)]
pub enum Verdict {
    /// It is a canonical file.
    Canonical,
    /// It is not: a rule is broken.
    Broken {
        /// The number of the rule, from 0 to 7.
        rule: u8,
        /// The number of the object at which it is broken.
        object: u64,
    },
}

/// Returns the canonical file of a property list: the binary file that is the same for all inputs with the same value.
///
/// ```
/// let file = plistconv::canonicalise(b"(a, b)")?;
/// assert!(file.starts_with(b"bplist00"));
/// assert_eq!(plistconv::canonicalise(&file)?, file);
/// # Ok::<(), plistconv::Refused>(())
/// ```
///
/// # Errors
///
/// Fails if the input is refused.
pub fn canonicalise(input: &[u8]) -> Result<Vec<u8>, Refused> {
    // SAFETY: as `filled` promises.
    filled(guess(input, 2), |into, room, length, refusal| unsafe {
        sys::plistconv_canonical(
            input.as_ptr(),
            input.len(),
            key(),
            into,
            room,
            length,
            refusal,
        )
    })
}

/// Returns the OpenStep text of a property list.
///
/// ```
/// assert_eq!(plistconv::to_openstep(b"a = <00ff>;")?, "{\na = <00ff>;\n}\n");
/// # Ok::<(), plistconv::Refused>(())
/// ```
///
/// # Errors
///
/// Fails if the input is refused, and with [`Refusal::NotInOpenStep`] if it has a number, a boolean or a date.
pub fn to_openstep(input: &[u8]) -> Result<String, Refused> {
    // SAFETY: as `filled` promises.
    let text = filled(guess(input, 2), |into, room, length, refusal| unsafe {
        sys::plistconv_text(input.as_ptr(), input.len(), into, room, length, refusal)
    })?;
    Ok(String::from_utf8(text).expect("OpenStep text is ASCII"))
}

/// Returns a property list as text for people. Two print the same if and only if they are equal.
///
/// ```
/// assert_eq!(plistconv::print(b"(a, b)")?, "[\n  \"a\"\n  \"b\"\n]\n");
/// # Ok::<(), plistconv::Refused>(())
/// ```
///
/// # Errors
///
/// Fails if the input is refused.
pub fn print(input: &[u8]) -> Result<String, Refused> {
    // SAFETY: as `filled` promises.
    let text = filled(guess(input, 4), |into, room, length, refusal| unsafe {
        sys::plistconv_print(input.as_ptr(), input.len(), into, room, length, refusal)
    })?;
    Ok(String::from_utf8(text).expect("the printed text is UTF-8"))
}

/// Returns whether two property lists are equal, which is whether their canonical files are identical.
///
/// ```
/// assert!(plistconv::same(b"{ a = b; }", b"\"a\" = b;")?);
/// assert!(plistconv::same(b"(a)", b"(").unwrap_err().is_second());
/// # Ok::<(), plistconv::Refused>(())
/// ```
///
/// # Errors
///
/// Fails if one of them is refused: the second only if the first is accepted.
pub fn same(first: &[u8], second: &[u8]) -> Result<bool, Refused> {
    let (mut equal, mut refusal) = (0, sys::Refusal::default());
    // SAFETY: pointers and lengths are those of slices, the key is 16 bytes, and what is written is initialised.
    let number = unsafe {
        sys::plistconv_same(
            first.as_ptr(),
            first.len(),
            second.as_ptr(),
            second.len(),
            key(),
            &mut equal,
            &mut refusal,
        )
    };
    answered(number, &refusal).map(|()| equal == 1)
}

/// Checks whether a property list is accepted.
///
/// ```
/// assert_eq!(plistconv::lint(b"(a, b)"), Ok(()));
/// assert_eq!(plistconv::lint(b"(a").unwrap_err().to_string(), "30 Expected at octet 2");
/// ```
///
/// # Errors
///
/// Fails if the input is refused.
pub fn lint(input: &[u8]) -> Result<(), Refused> {
    let mut refusal = sys::Refusal::default();
    // SAFETY: as for `same`.
    let number = unsafe { sys::plistconv_lint(input.as_ptr(), input.len(), &mut refusal) };
    answered(number, &refusal)
}

/// Checks whether a binary property list is already canonical.
///
/// ```
/// use plistconv::Verdict;
///
/// let mut file = plistconv::canonicalise(b"(a, b)")?;
/// assert_eq!(plistconv::check(&file)?, Verdict::Canonical);
///
/// let unused = file.len() - 32;
/// file[unused] = 1; // The trailer of a canonical file begins with six zeros.
/// assert_eq!(plistconv::check(&file)?, Verdict::Broken { rule: 1, object: 0 });
/// # Ok::<(), plistconv::Refused>(())
/// ```
///
/// # Errors
///
/// Fails with [`Refusal::TooShort`], [`Refusal::BadHeader`] or [`Refusal::BadTrailer`] if the input does not have the
/// layout of a binary file, as OpenStep text does not.
pub fn check(file: &[u8]) -> Result<Verdict, Refused> {
    let (mut finding, mut refusal) = (sys::Finding::default(), sys::Refusal::default());
    // SAFETY: as for `same`.
    let number = unsafe {
        sys::plistconv_check(file.as_ptr(), file.len(), key(), &mut finding, &mut refusal)
    };
    answered(number, &refusal).map(|()| match finding {
        sys::Finding { canonical: 1, .. } => Verdict::Canonical,
        sys::Finding { rule, object, .. } => Verdict::Broken { rule, object },
    })
}

/// Returns the version of the library, `"0.3.0"` for example.
pub fn library_version() -> String {
    // SAFETY: the call takes nothing.
    let number = unsafe { sys::plistconv_version() };
    format!(
        "{}.{}.{}",
        number / 10_000,
        number / 100 % 100,
        number % 100
    )
}

/// Returns the hash key of this process, which nobody outside learns.
fn key() -> &'static [u8; 16] {
    static KEY: OnceLock<[u8; 16]> = OnceLock::new();
    KEY.get_or_init(|| {
        let (first, second) = (
            RandomState::new().build_hasher().finish(),
            RandomState::new().build_hasher().finish(),
        );
        (u128::from(first) << 64 | u128::from(second)).to_ne_bytes()
    })
}

/// Returns a first guess at the size of an output: `factor` bytes for each byte of the input.
fn guess(input: &[u8], factor: usize) -> usize {
    input
        .len()
        .checked_mul(factor)
        .and_then(|size| size.checked_add(256))
        .unwrap_or(256)
}

/// Returns what `write` writes to a buffer: one of `room` bytes, or of as many as it asks for. The pointers that
/// `write` gets are valid for a call of the library: the first one for as many bytes as the room says, all initialised.
fn filled(
    mut room: usize,
    write: impl Fn(*mut u8, usize, *mut usize, *mut sys::Refusal) -> u8,
) -> Result<Vec<u8>, Refused> {
    loop {
        let mut into = vec![0; room];
        let (mut length, mut refusal) = (0, sys::Refusal::default());
        let number = write(into.as_mut_ptr(), room, &mut length, &mut refusal);
        answered(number, &refusal)?;
        if length <= room {
            into.truncate(length);
            into.shrink_to_fit();
            return Ok(into);
        }
        room = length;
    }
}

fn answered(number: u8, refusal: &sys::Refusal) -> Result<(), Refused> {
    if number == 0 {
        Ok(())
    } else {
        Err(Refused::told(refusal))
    }
}
