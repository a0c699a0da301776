//! Why an input is refused, and where.
use plistconv_sys as sys;
use std::fmt;

macro_rules! refusals {
    ($($(#[$doc:meta])* $name:ident = $number:literal,)*) => {
        /// Why an input is refused. The conversion to `u8` is the number of the refusal, and `TryFrom<u8>` its inverse.
        #[derive(Clone, Copy, Debug, PartialEq, Eq, Hash, PartialOrd, Ord)]
        #[non_exhaustive]
        #[repr(u8)]
        pub enum Refusal {
            $($(#[$doc])* $name = $number,)*
        }

        impl Refusal {
            /// Returns the name, as the program prints it.
            pub fn name(self) -> &'static str {
                match self {
                    $(Refusal::$name => stringify!($name),)*
                }
            }
        }

        impl TryFrom<u8> for Refusal {
            type Error = UnknownRefusal;

            fn try_from(number: u8) -> Result<Self, UnknownRefusal> {
                match number {
                    $($number => Ok(Refusal::$name),)*
                    _ => Err(UnknownRefusal(number)),
                }
            }
        }
    };
}

refusals! {
    /// A binary file has fewer than 42 bytes.
    TooShort = 1,
    /// A binary file does not begin with `bplist00`.
    BadHeader = 2,
    /// The trailer of a binary file does not fit the file.
    BadTrailer = 3,
    /// The offset of an object is in the header, or not before the offset table.
    BadOffset = 4,
    /// A reference is not below the number of objects.
    BadReference = 5,
    /// An object extends into the offset table.
    CutObject = 6,
    /// A marker is none of the format.
    BadMarker = 7,
    /// An object is a null.
    NullObject = 8,
    /// An object is a UID.
    UidObject = 9,
    /// An object is a set.
    SetObject = 10,
    /// An ASCII string has a byte above 7f.
    NotAscii = 11,
    /// An integer of 16 bytes does not fit into 8.
    WideInteger = 12,
    /// A key is not a string.
    KeyNotText = 13,
    /// Two keys of a dictionary are equal.
    DuplicateKey = 14,
    /// A reference leads back to a container on the path to it.
    Cycle = 15,
    /// The value is deeper than 512 levels.
    TooDeep = 16,
    /// The value has more than 16,777,216 nodes.
    TooManyNodes = 17,
    /// The strings and data of the value have more than 1,073,741,824 bytes.
    TooMuchPayload = 18,
    /// A text is not UTF-8.
    BadUtf8 = 20,
    /// A text begins as an XML property list does.
    XmlForm = 21,
    /// A character begins no token.
    UnexpectedCharacter = 23,
    /// A quoted string has no end.
    UnclosedString = 24,
    /// A comment has no end.
    UnclosedComment = 25,
    /// No hexadecimal digit follows `\U`.
    BadEscape = 26,
    /// An octal escape is above octal 177.
    OctalRange = 27,
    /// A hexadecimal digit of data has no second one.
    OddData = 28,
    /// Data has another character, or no end.
    BadData = 29,
    /// A token does not fit, or the text ends too early.
    Expected = 30,
    /// A token follows the end of the value.
    Junk = 31,
    /// A text with a UTF-16 byte order mark is not UTF-16.
    BadUtf16 = 32,
    /// The value has no OpenStep text, since it has a number, a boolean or a date.
    NotInOpenStep = 40,
    /// A file cannot be read. Only the program answers this.
    ReadFailed = 50,
    /// A file cannot be written. Only the program answers this.
    WriteFailed = 51,
    /// The input has more than 4,294,967,295 bytes.
    InputTooLarge = 52,
    /// Out of memory.
    OutOfMemory = 60,
}

impl From<Refusal> for u8 {
    fn from(refusal: Refusal) -> u8 {
        refusal as u8
    }
}

/// No refusal has this number.
#[derive(Clone, Copy, Debug, PartialEq, Eq)]
pub struct UnknownRefusal(pub u8);

impl fmt::Display for UnknownRefusal {
    fn fmt(&self, f: &mut fmt::Formatter<'_>) -> fmt::Result {
        write!(f, "{} is not the number of a refusal", self.0)
    }
}

impl std::error::Error for UnknownRefusal {}

/// Where an input is refused.
#[derive(Clone, Copy, Debug, PartialEq, Eq, Hash)]
#[non_exhaustive]
pub enum Place {
    /// The number of an object of a binary file.
    Object(u64),
    /// The offset of a byte in a text, its byte order mark included.
    Octet(u64),
}

/// An input is refused: why, and where.
///
/// It is displayed as the program prints it:
///
/// ```
/// use plistconv::{Place, Refusal};
///
/// let refused = plistconv::lint(b"{ a = b; a = c; }").unwrap_err();
/// assert_eq!(refused.refusal(), Refusal::DuplicateKey);
/// assert_eq!(refused.place(), Some(Place::Octet(9)));
/// assert_eq!(refused.to_string(), "14 DuplicateKey at octet 9");
/// ```
#[derive(Clone, Copy, Debug, PartialEq, Eq, Hash)]
pub struct Refused {
    refusal: Refusal,
    place: Option<Place>,
    is_second: bool,
}

impl Refused {
    /// Returns why the input is refused.
    pub fn refusal(&self) -> Refusal {
        self.refusal
    }

    /// Returns where the input is refused, or `None` if the refusal has no place.
    pub fn place(&self) -> Option<Place> {
        self.place
    }

    /// Returns whether the second input of [`same`](crate::same) is the one that is refused.
    pub fn is_second(&self) -> bool {
        self.is_second
    }

    /// Returns what a call of the library has set.
    ///
    /// # Panics
    ///
    /// Panics if the library answers a refusal that this crate does not have, which that of the same version does not.
    pub(crate) fn told(told: &sys::Refusal) -> Self {
        let refusal =
            Refusal::try_from(told.number).expect("libplistconv is of the version of this crate");
        let place = match told.unit {
            sys::OBJECT => Some(Place::Object(told.place)),
            sys::OCTET => Some(Place::Octet(told.place)),
            _ => None,
        };
        Refused {
            refusal,
            place,
            is_second: told.input == 2,
        }
    }
}

impl fmt::Display for Refused {
    fn fmt(&self, f: &mut fmt::Formatter<'_>) -> fmt::Result {
        write!(f, "{} {}", u8::from(self.refusal), self.refusal.name())?;
        match self.place {
            Some(Place::Object(number)) => write!(f, " at object {number}"),
            Some(Place::Octet(offset)) => write!(f, " at octet {offset}"),
            None => Ok(()),
        }
    }
}

impl std::error::Error for Refused {}
