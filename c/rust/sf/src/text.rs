//! Keys, Strings and Tokens, owned and borrowed. Each is checked when it is made, so it can be
//! written.

use crate::{Error, Refusal};
#[cfg(feature = "alloc")]
use alloc::{borrow::ToOwned, string::String as Owned};
use core::fmt;

/// Which bytes a text may have: bit b is set if byte b is allowed.
struct Class {
    first: u128,
    next: u128,
    may_be_empty: bool,
}

const fn has(set: u128, byte: u8) -> bool {
    byte < 128 && set >> byte & 1 == 1
}

/// The bytes of the ranges, which are given as pairs of ends, and of the others.
const fn set(ranges: &[u8], others: &[u8]) -> u128 {
    let mut set = 0;
    let mut index = 0;
    while index + 1 < ranges.len() {
        let mut byte = ranges[index];
        while byte <= ranges[index + 1] {
            set |= 1 << byte;
            byte += 1;
        }
        index += 2;
    }
    index = 0;
    while index < others.len() {
        set |= 1 << others[index];
        index += 1;
    }
    set
}

/// RFC 9651 section 3.1.2: `key = ( lcalpha / "*" ) *( lcalpha / DIGIT / "_" / "-" / "." / "*" )`.
const KEY: Class = Class {
    first: set(b"az", b"*"),
    next: set(b"az09", b"_-.*"),
    may_be_empty: false,
};

/// RFC 9651 section 3.3.4: `sf-token = ( ALPHA / "*" ) *( tchar / ":" / "/" )`.
const TOKEN: Class = Class {
    first: set(b"AZaz", b"*"),
    next: set(b"AZaz09", b"!#$%&'*+-.^_`|~:/"),
    may_be_empty: false,
};

/// RFC 9651 section 3.3.3: the characters between the quotes, unescaped.
const STRING: Class = Class {
    first: set(b" ~", b""),
    next: set(b" ~", b""),
    may_be_empty: true,
};

impl Class {
    /// The length of the longest prefix that can be continued to such a text, unless this is one.
    const fn fault(&self, text: &[u8]) -> Option<usize> {
        let mut index = 0;
        let mut allowed = self.first;
        while index < text.len() {
            if !has(allowed, text[index]) {
                return Some(index);
            }
            allowed = self.next;
            index += 1;
        }
        if text.is_empty() && !self.may_be_empty {
            return Some(0);
        }
        None
    }

    fn check(&self, text: &[u8]) -> Result<(), Error> {
        let offset = match self.fault(text) {
            None => return Ok(()),
            Some(offset) => offset,
        };
        let found = text.get(offset).copied();
        Err(Error::Refused(Refusal {
            offset: offset as u64,
            found,
            expected: if offset == 0 { self.first } else { self.next },
            may_end: found.is_some() && (offset > 0 || self.may_be_empty),
            words: None,
        }))
    }
}

macro_rules! checked_text {
    ($name:ident, $ref:ident, $class:ident, $what:literal, $good:literal, $bad:literal, $at:literal) => {
        #[doc = concat!($what, " Borrowed: see [`", stringify!($name), "`], which owns it.")]
        ///
        /// ```
        #[doc = concat!("let it = sf::", stringify!($ref), "::new(\"", $good, "\").unwrap();")]
        #[doc = concat!("assert_eq!(it, \"", $good, "\");")]
        #[doc = concat!("assert!(sf::", stringify!($ref), "::new(\"", $bad, "\").is_err());")]
        /// ```
        #[derive(Debug, PartialEq, Eq, PartialOrd, Ord, Hash)]
        #[repr(transparent)]
        pub struct $ref(str);

        impl $ref {
            /// Checks a text.
            ///
            /// # Errors
            ///
            /// [`Error::Refused`] if it is not valid.
            ///
            /// ```
            #[doc = concat!("assert!(sf::", stringify!($ref), "::new(\"", $good, "\").is_ok());")]
            #[doc = concat!("let refusal = sf::", stringify!($ref), "::new(\"", $bad, "\").unwrap_err().refusal().unwrap();")]
            #[doc = concat!("assert_eq!(refusal.offset, ", $at, ");")]
            /// ```
            pub fn new(text: &str) -> Result<&$ref, Error> {
                $class.check(text.as_bytes())?;
                Ok($ref::known(text))
            }

            /// Checks a text that is part of the program: when it is compiled, if the result is a
            /// constant.
            ///
            /// # Panics
            ///
            /// If it is not valid.
            ///
            /// ```
            #[doc = concat!("const IT: &sf::", stringify!($ref), " = sf::", stringify!($ref), "::constant(\"", $good, "\");")]
            #[doc = concat!("assert_eq!(IT, \"", $good, "\");")]
            /// ```
            #[must_use]
            pub const fn constant(text: &str) -> &$ref {
                assert!($class.fault(text.as_bytes()).is_none(), concat!("not a valid ", stringify!($name)));
                $ref::known(text)
            }

            /// What is known to be valid.
            #[allow(unsafe_code)]
            pub(crate) const fn known(text: &str) -> &$ref {
                // SAFETY: the representation is that of the text.
                unsafe { &*(text as *const str as *const $ref) }
            }

            /// Its text.
            ///
            /// ```
            #[doc = concat!("assert_eq!(sf::", stringify!($ref), "::constant(\"", $good, "\").as_str(), \"", $good, "\");")]
            /// ```
            #[must_use]
            pub const fn as_str(&self) -> &str {
                &self.0
            }
        }

        impl core::ops::Deref for $ref {
            type Target = str;

            fn deref(&self) -> &str {
                &self.0
            }
        }

        impl AsRef<str> for $ref {
            fn as_ref(&self) -> &str {
                &self.0
            }
        }

        impl AsRef<[u8]> for $ref {
            fn as_ref(&self) -> &[u8] {
                self.0.as_bytes()
            }
        }

        impl PartialEq<str> for $ref {
            fn eq(&self, other: &str) -> bool {
                self.0 == *other
            }
        }

        impl PartialEq<&str> for $ref {
            fn eq(&self, other: &&str) -> bool {
                self.0 == **other
            }
        }

        impl PartialEq<str> for &$ref {
            fn eq(&self, other: &str) -> bool {
                self.0 == *other
            }
        }

        impl fmt::Display for $ref {
            fn fmt(&self, f: &mut fmt::Formatter<'_>) -> fmt::Result {
                f.pad(&self.0)
            }
        }

        impl<'a> TryFrom<&'a str> for &'a $ref {
            type Error = Error;

            fn try_from(text: &'a str) -> Result<&'a $ref, Error> {
                $ref::new(text)
            }
        }

        impl<'a> TryFrom<&'a [u8]> for &'a $ref {
            type Error = Error;

            fn try_from(bytes: &'a [u8]) -> Result<&'a $ref, Error> {
                $class.check(bytes)?;
                // What the class allows is ASCII.
                core::str::from_utf8(bytes).map($ref::known).map_err(|_| Error::Invalid)
            }
        }

        #[doc = $what]
        ///
        /// ```
        #[doc = concat!("let it = sf::", stringify!($name), "::new(\"", $good, "\").unwrap();")]
        #[doc = concat!("assert_eq!(it.as_str(), \"", $good, "\");")]
        #[doc = concat!("assert!(sf::", stringify!($name), "::new(\"", $bad, "\").is_err());")]
        /// ```
        #[cfg(feature = "alloc")]
        #[derive(Clone, Debug, PartialEq, Eq, PartialOrd, Ord, Hash)]
        pub struct $name(Owned);

        #[cfg(feature = "alloc")]
        const _: () = {
            impl $name {
                /// Checks a text, and keeps it.
                ///
                /// # Errors
                ///
                /// [`Error::Refused`] if it is not valid.
                ///
                /// ```
                #[doc = concat!("assert!(sf::", stringify!($name), "::new(\"", $good, "\").is_ok());")]
                #[doc = concat!("let refusal = sf::", stringify!($name), "::new(\"", $bad, "\").unwrap_err().refusal().unwrap();")]
                #[doc = concat!("assert_eq!(refusal.offset, ", $at, ");")]
                /// ```
                pub fn new(text: impl Into<Owned>) -> Result<$name, Error> {
                    let text = text.into();
                    $class.check(text.as_bytes())?;
                    Ok($name(text))
                }

                /// A copy of what is known to be valid.
                pub(crate) fn copy_of(text: &$ref) -> Result<$name, Error> {
                    crate::buffer::copied_text(text).map($name)
                }
            }

            impl core::ops::Deref for $name {
                type Target = $ref;

                fn deref(&self) -> &$ref {
                    $ref::known(&self.0)
                }
            }

            impl core::borrow::Borrow<$ref> for $name {
                fn borrow(&self) -> &$ref {
                    self
                }
            }

            impl core::borrow::Borrow<str> for $name {
                fn borrow(&self) -> &str {
                    &self.0
                }
            }

            impl AsRef<$ref> for $name {
                fn as_ref(&self) -> &$ref {
                    self
                }
            }

            impl AsRef<str> for $name {
                fn as_ref(&self) -> &str {
                    &self.0
                }
            }

            impl AsRef<[u8]> for $name {
                fn as_ref(&self) -> &[u8] {
                    self.0.as_bytes()
                }
            }

            impl ToOwned for $ref {
                type Owned = $name;

                fn to_owned(&self) -> $name {
                    $name(self.0.to_owned())
                }
            }

            impl From<&$ref> for $name {
                fn from(text: &$ref) -> $name {
                    text.to_owned()
                }
            }

            impl From<$name> for Owned {
                fn from(text: $name) -> Owned {
                    text.0
                }
            }

            impl PartialEq<$ref> for $name {
                fn eq(&self, other: &$ref) -> bool {
                    self.0 == other.0
                }
            }

            impl PartialEq<$name> for $ref {
                fn eq(&self, other: &$name) -> bool {
                    self.0 == other.0
                }
            }

            impl PartialEq<str> for $name {
                fn eq(&self, other: &str) -> bool {
                    self.0 == *other
                }
            }

            impl PartialEq<&str> for $name {
                fn eq(&self, other: &&str) -> bool {
                    self.0 == **other
                }
            }

            impl PartialEq<str> for &$name {
                fn eq(&self, other: &str) -> bool {
                    self.0 == *other
                }
            }

            impl fmt::Display for $name {
                fn fmt(&self, f: &mut fmt::Formatter<'_>) -> fmt::Result {
                    f.pad(&self.0)
                }
            }

            impl TryFrom<&str> for $name {
                type Error = Error;

                fn try_from(text: &str) -> Result<$name, Error> {
                    $ref::new(text).map(ToOwned::to_owned)
                }
            }

            impl TryFrom<&[u8]> for $name {
                type Error = Error;

                fn try_from(bytes: &[u8]) -> Result<$name, Error> {
                    <&$ref>::try_from(bytes).map(ToOwned::to_owned)
                }
            }

            impl TryFrom<&Owned> for $name {
                type Error = Error;

                fn try_from(text: &Owned) -> Result<$name, Error> {
                    $name::try_from(text.as_str())
                }
            }

            impl TryFrom<Owned> for $name {
                type Error = Error;

                fn try_from(text: Owned) -> Result<$name, Error> {
                    $name::new(text)
                }
            }

            impl core::str::FromStr for $name {
                type Err = Error;

                fn from_str(text: &str) -> Result<$name, Error> {
                    $name::try_from(text)
                }
            }
        };
    };
}

checked_text!(
    Key,
    KeyRef,
    KEY,
    "The key of a parameter or of a member of a Dictionary (RFC 9651 sections 3.1.2 and 3.2): lowercase \
     letters, digits, `_`, `-`, `.` and `*`, of which the first is a letter or `*`.",
    "max-age",
    "max age",
    "3"
);
checked_text!(
    String,
    StringRef,
    STRING,
    "The text of a String (RFC 9651 section 3.3.3), unescaped: printable characters of ASCII.",
    "a b",
    "f\u{fc}",
    "1"
);
checked_text!(
    Token,
    TokenRef,
    TOKEN,
    "A Token (RFC 9651 section 3.3.4): letters, digits and some other characters of ASCII, of which the \
     first is a letter or `*`.",
    "text/html",
    "1.0",
    "0"
);
