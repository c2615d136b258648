//! `FromStr`, `TryFrom<&str>`, `TryFrom<&[u8]>` and `Display` of what has a text, by RFC 9651 and
//! with a random seed.

use crate::ffi::Rules;
use crate::nodes::Nodes;
use crate::{
    BareItem, CacheRules, Date, Decimal, Dictionary, Error, FwdStatus, GenericBareItem, InnerList,
    Integer, Item, Kind, List, ListEntry, Name, Parameters, Parser, Path, Policy, Priority,
    RefBareItem, ResponsePriority, Seconds, Urgency,
};
use alloc::string::String;
use core::fmt;
use core::str::FromStr;

macro_rules! read {
    ($name:ty, $read:expr) => {
        impl TryFrom<&[u8]> for $name {
            type Error = Error;

            fn try_from(text: &[u8]) -> Result<$name, Error> {
                let read: fn(&[u8]) -> Result<$name, Error> = $read;
                read(text)
            }
        }

        impl TryFrom<&str> for $name {
            type Error = Error;

            fn try_from(text: &str) -> Result<$name, Error> {
                <$name>::try_from(text.as_bytes())
            }
        }

        impl FromStr for $name {
            type Err = Error;

            fn from_str(text: &str) -> Result<$name, Error> {
                <$name>::try_from(text.as_bytes())
            }
        }
    };
}

read!(Item, |text| Parser::new().parse(text));
read!(List, |text| Parser::new().parse(text));
read!(Dictionary, |text| Parser::new().parse(text));
read!(ListEntry, |text| Parser::new().list_entry(text));
read!(InnerList, |text| Parser::new().inner_list(text));
read!(BareItem, |text| Parser::new().bare_item(text));
read!(Parameters, |text| Parser::new().parameters(text));
read!(Priority, |text| Parser::new().priority(text));
read!(ResponsePriority, |text| Parser::new()
    .response_priority(text));
read!(Policy, |text| Parser::new()
    .policy(text)?
    .ok_or(Error::Empty));
read!(CacheRules, |text| Parser::new()
    .cache_rules(text)?
    .ok_or(Error::Empty));
read!(Path, |text| Parser::new().path(text));

macro_rules! read_number {
    ($name:ident) => {
        read!($name, |text| match Parser::new().bare_item(text)? {
            GenericBareItem::$name(number) => Ok(number),
            _ => Err(Error::OtherType),
        });
    };
}

read_number!(Integer);
read_number!(Decimal);
read_number!(Date);

macro_rules! read_range {
    ($name:ident) => {
        read!($name, |text| {
            let number = Integer::try_from(text)?.get();
            $name::new(number.try_into().map_err(|_| Error::Invalid)?)
        });
    };
}

read_range!(Seconds);
read_range!(Urgency);
read_range!(FwdStatus);

macro_rules! field {
    ($name:ident, $text:literal, $canonical:literal) => {
        impl $name {
            /// Parses a text by RFC 9651. [`Parser`] has the other dialect, and fields of several
            /// lines.
            ///
            /// # Errors
            ///
            /// [`Error::Refused`] if the text is malformed.
            ///
            /// ```
            #[doc = concat!("assert!(sf::", stringify!($name), "::parse(\"", $text, "\").is_ok());")]
            #[doc = concat!("assert!(sf::", stringify!($name), "::parse(\"", $text, ",\").is_err());")]
            /// ```
            pub fn parse(text: impl AsRef<[u8]>) -> Result<$name, Error> {
                Parser::new().parse(text)
            }

            /// Writes the canonical text (RFC 9651 section 4.1). `to_string` does as well. If the
            /// text of a List or Dictionary is empty, the field is not to be sent.
            ///
            /// # Errors
            ///
            /// [`Error::OutOfMemory`], or [`Error::TooLong`] if its keys and bytes have 4 GiB or
            /// more. For these `to_string` panics, and so does `writeln!` to an `io::Write`.
            ///
            /// ```
            #[doc = concat!("let field = sf::", stringify!($name), "::parse(\"", $text, "\").unwrap();")]
            #[doc = concat!("assert_eq!(field.serialize().unwrap(), \"", $canonical, "\");")]
            #[doc = concat!("assert_eq!(field.to_string(), \"", $canonical, "\");")]
            /// ```
            pub fn serialize(&self) -> Result<String, Error> {
                Parser::new().serialize(self)
            }
        }

        impl fmt::Display for $name {
            fn fmt(&self, f: &mut fmt::Formatter<'_>) -> fmt::Result {
                f.pad(&self.serialize().map_err(|_| fmt::Error)?)
            }
        }
    };
}

field!(Item, "1; a", "1;a");
field!(List, "a,b", "a, b");
field!(Dictionary, "u=1, i=?1", "u=1, i");

/// The text of a part, which is the only member of a List.
fn part(put: impl FnOnce(&mut Nodes) -> Result<(), Error>) -> Result<String, Error> {
    let mut nodes = Nodes::default();
    put(&mut nodes)?;
    let rules: Rules = Parser::new().rules(Kind::List);
    nodes.text(&rules)
}

fn pad(text: Result<String, Error>, f: &mut fmt::Formatter<'_>) -> fmt::Result {
    f.pad(&text.map_err(|_| fmt::Error)?)
}

impl ListEntry {
    /// Writes its canonical text (RFC 9651 sections 4.1.1.1 and 4.1.3).
    ///
    /// # Errors
    ///
    /// [`Error::OutOfMemory`], or [`Error::TooLong`] if its keys and bytes have 4 GiB or more. For
    /// these `to_string` panics, and so does `writeln!` to an `io::Write`.
    ///
    /// ```
    /// let list = sf::List::parse("(a  b );q").unwrap();
    /// assert_eq!(list[0].serialize().unwrap(), "(a b);q");
    /// ```
    pub fn serialize(&self) -> Result<String, Error> {
        part(|nodes| nodes.member(None, self))
    }
}

impl fmt::Display for ListEntry {
    fn fmt(&self, f: &mut fmt::Formatter<'_>) -> fmt::Result {
        pad(self.serialize(), f)
    }
}

impl InnerList {
    /// Writes its canonical text (RFC 9651 section 4.1.1.1).
    ///
    /// # Errors
    ///
    /// Those of [`ListEntry::serialize`].
    ///
    /// ```
    /// let list = sf::List::parse("(a  b );q").unwrap();
    /// assert_eq!(list[0].as_inner_list().unwrap().serialize().unwrap(), "(a b);q");
    /// ```
    pub fn serialize(&self) -> Result<String, Error> {
        part(|nodes| nodes.inner_list(None, self))
    }
}

impl fmt::Display for InnerList {
    fn fmt(&self, f: &mut fmt::Formatter<'_>) -> fmt::Result {
        pad(self.serialize(), f)
    }
}

impl<S, B, T, D> fmt::Display for GenericBareItem<S, B, T, D>
where
    S: core::borrow::Borrow<crate::StringRef>,
    B: core::borrow::Borrow<[u8]>,
    T: core::borrow::Borrow<crate::TokenRef>,
    D: core::borrow::Borrow<str>,
{
    fn fmt(&self, f: &mut fmt::Formatter<'_>) -> fmt::Result {
        pad(self.serialize(), f)
    }
}

impl<S, B, T, D> GenericBareItem<S, B, T, D>
where
    S: core::borrow::Borrow<crate::StringRef>,
    B: core::borrow::Borrow<[u8]>,
    T: core::borrow::Borrow<crate::TokenRef>,
    D: core::borrow::Borrow<str>,
{
    /// Writes its canonical text (RFC 9651 section 4.1.3.1).
    ///
    /// # Errors
    ///
    /// [`Error::OutOfMemory`] only, for which `to_string` panics, and so does `writeln!` to an
    /// `io::Write`.
    ///
    /// ```
    /// let item: sf::BareItem = "1.50".parse().unwrap();
    /// assert_eq!(item.serialize().unwrap(), "1.5");
    /// ```
    pub fn serialize(&self) -> Result<String, Error> {
        let params = Parameters::new();
        part(|nodes| nodes.member_item(None, self.to_ref(), &params))
    }
}

impl Name<'_> {
    /// Writes its canonical text, that of a String with its quotes (RFC 9651 sections 4.1.6 and
    /// 4.1.7). [`Name::as_str`] and `to_string` write it without them.
    ///
    /// # Errors
    ///
    /// [`Error::OutOfMemory`] only.
    ///
    /// ```
    /// let name = |text| sf::Path::parse(text).unwrap().hops().next().unwrap().name.serialize();
    /// assert_eq!(name("edge;hit").unwrap(), "edge");
    /// assert_eq!(name("\"edge 1\"").unwrap(), "\"edge 1\"");
    /// ```
    pub fn serialize(self) -> Result<String, Error> {
        match self {
            Name::String(text) => RefBareItem::String(text).serialize(),
            Name::Token(text) => RefBareItem::Token(text).serialize(),
        }
    }
}

impl Parameters {
    /// Writes their canonical text (RFC 9651 section 4.1.1.2): each parameter with the semicolon
    /// before it.
    ///
    /// # Errors
    ///
    /// Those of [`ListEntry::serialize`].
    ///
    /// ```
    /// let item = sf::Item::parse("1; a;b=?0").unwrap();
    /// assert_eq!(item.params.serialize().unwrap(), ";a;b=?0");
    /// ```
    pub fn serialize(&self) -> Result<String, Error> {
        // They follow a Boolean, whose text is `?1`.
        let mut text = part(|nodes| nodes.member_item(None, true.into(), self))?;
        text.drain(.."?1".len());
        Ok(text)
    }
}

/// Each parameter with the semicolon before it.
impl fmt::Display for Parameters {
    fn fmt(&self, f: &mut fmt::Formatter<'_>) -> fmt::Result {
        pad(self.serialize(), f)
    }
}
