//! Bare items, owned, borrowed, or partly borrowed from a text.

use crate::{Date, Decimal, Integer, StringRef, TokenRef};
#[cfg(feature = "alloc")]
use crate::{Error, String, Token};
#[cfg(feature = "alloc")]
use alloc::{
    borrow::{Cow, ToOwned},
    string::String as DisplayText,
    vec::Vec,
};
use core::borrow::Borrow;

/// A bare item (RFC 9651 section 3.3), by what it has its Strings, Byte Sequences, Tokens and
/// Display Strings as. Programs use `BareItem`, which owns them, [`RefBareItem`], which borrows
/// them, and `BareItemFromInput`, which borrows what it can from a text that was parsed.
///
/// ```
/// use sf::{BareItem, Item, String, Token};
///
/// let tea = Item::parse("tea").unwrap().bare_item;
/// assert_eq!(tea, BareItem::Token(Token::new("tea").unwrap()));
/// assert_ne!(tea, BareItem::String(String::new("tea").unwrap()));
/// assert_eq!(BareItem::from(7), BareItem::Integer(7.into()));
/// ```
#[derive(Clone, Copy, Debug, PartialEq, Eq, Hash)]
pub enum GenericBareItem<S, B, T, D> {
    /// An Integer (3.3.1).
    Integer(Integer),
    /// A Decimal (3.3.2).
    Decimal(Decimal),
    /// A String (3.3.3), unescaped.
    String(S),
    /// A Token (3.3.4).
    Token(T),
    /// A Byte Sequence (3.3.5), decoded.
    ByteSequence(B),
    /// A Boolean (3.3.6).
    Boolean(bool),
    /// A Date (3.3.7).
    Date(Date),
    /// A Display String (3.3.8), decoded.
    DisplayString(D),
}

/// A bare item that owns what it has.
///
/// ```
/// let item: sf::BareItem = ":YQ==:".parse().unwrap();
/// assert_eq!(item, sf::BareItem::ByteSequence(b"a".to_vec()));
/// assert_eq!(item.to_string(), ":YQ==:");
/// ```
#[cfg(feature = "alloc")]
pub type BareItem = GenericBareItem<String, Vec<u8>, Token, DisplayText>;

/// A bare item that is borrowed, as from a [`View`](crate::View), a tree or a `BareItem`.
///
/// ```
/// let tree = sf::Parser::new().tree(sf::Kind::Item, "tea").unwrap();
/// let item = tree.members().next().unwrap().bare_item();
/// assert_eq!(item.unwrap().as_token(), Some("tea"));
/// ```
pub type RefBareItem<'a> = GenericBareItem<&'a StringRef, &'a [u8], &'a TokenRef, &'a str>;

/// A bare item of a text that was parsed, which lives as long as that text: it borrows from it what
/// is there as it is, and owns what was escaped or encoded. If a key of the text is repeated, it
/// owns all.
///
/// ```
/// use sf::{BareItemFromInput, Error, Kind, Parser};
///
/// // The tree is dropped before the result.
/// fn key_id(text: &str) -> Result<Option<BareItemFromInput<'_>>, Error> {
///     let tree = Parser::new().tree(Kind::Item, text)?;
///     let item = tree.members().next().unwrap();
///     let param = item.params().find(|param| param.key() == "keyid");
///     param.map_or(Ok(None), |param| param.bare_item_from_input())
/// }
/// let text = String::from("1;keyid=\"k\"");
/// assert_eq!(key_id(&text).unwrap().unwrap().as_string(), Some("k"));
/// ```
#[cfg(feature = "alloc")]
pub type BareItemFromInput<'t> =
    GenericBareItem<Cow<'t, StringRef>, Cow<'t, [u8]>, Cow<'t, TokenRef>, Cow<'t, str>>;

macro_rules! accessor {
    ($name:ident, $variant:ident, $value:ident: $type:ty = $given:expr, $words:literal, $example:literal) => {
        #[doc = concat!($words, ", or `None` if it is of another type.\n\n```\n", $example, "\n```")]
        #[must_use]
        pub fn $name(&self) -> Option<$type> {
            match self {
                GenericBareItem::$variant($value) => Some($given),
                _ => None,
            }
        }
    };
}

impl<S, B, T, D> GenericBareItem<S, B, T, D>
where
    S: Borrow<StringRef>,
    B: Borrow<[u8]>,
    T: Borrow<TokenRef>,
    D: Borrow<str>,
{
    accessor!(
        as_integer, Integer, number: i64 = number.get(), "Its number, if it is an Integer",
        "assert_eq!(sf::Item::parse(\"42\").unwrap().bare_item.as_integer(), Some(42));"
    );
    accessor!(
        as_decimal, Decimal, number: Decimal = *number, "Its number, if it is a Decimal",
        "assert!(sf::Item::parse(\"42\").unwrap().bare_item.as_decimal().is_none());"
    );
    accessor!(
        as_string, String, text: &str = text.borrow().as_str(), "Its text, if it is a String",
        "assert_eq!(sf::Item::parse(r#\"\"a\\\"b\"\"#).unwrap().bare_item.as_string(), Some(\"a\\\"b\"));"
    );
    accessor!(
        as_token, Token, text: &str = text.borrow().as_str(), "Its text, if it is a Token",
        "assert_eq!(sf::Item::parse(\"a/b\").unwrap().bare_item.as_token(), Some(\"a/b\"));"
    );
    accessor!(
        as_byte_sequence, ByteSequence, bytes: &[u8] = bytes.borrow(),
        "Its bytes, if it is a Byte Sequence",
        "assert_eq!(sf::Item::parse(\":YQ==:\").unwrap().bare_item.as_byte_sequence(), Some(&b\"a\"[..]));"
    );
    accessor!(
        as_boolean, Boolean, is_true: bool = *is_true, "Its value, if it is a Boolean",
        "assert_eq!(sf::Item::parse(\"?0\").unwrap().bare_item.as_boolean(), Some(false));"
    );
    accessor!(
        as_date, Date, date: Date = *date, "Its time, if it is a Date",
        "assert!(sf::Item::parse(\"@7\").unwrap().bare_item.as_date().is_some());"
    );
    accessor!(
        as_display_string, DisplayString, text: &str = text.borrow(),
        "Its text, if it is a Display String",
        "assert_eq!(sf::Item::parse(\"%\\\"f%c3%bc\\\"\").unwrap().bare_item.as_display_string(), Some(\"fü\"));"
    );

    /// The same, borrowed from this.
    ///
    /// ```
    /// let item = sf::Item::parse("tea").unwrap().bare_item;
    /// let token = sf::TokenRef::constant("tea");
    /// assert_eq!(item.to_ref(), sf::RefBareItem::Token(token));
    /// ```
    #[must_use]
    pub fn to_ref(&self) -> RefBareItem<'_> {
        match self {
            GenericBareItem::Integer(number) => GenericBareItem::Integer(*number),
            GenericBareItem::Decimal(number) => GenericBareItem::Decimal(*number),
            GenericBareItem::String(text) => GenericBareItem::String(text.borrow()),
            GenericBareItem::Token(text) => GenericBareItem::Token(text.borrow()),
            GenericBareItem::ByteSequence(bytes) => GenericBareItem::ByteSequence(bytes.borrow()),
            GenericBareItem::Boolean(is_true) => GenericBareItem::Boolean(*is_true),
            GenericBareItem::Date(date) => GenericBareItem::Date(*date),
            GenericBareItem::DisplayString(text) => GenericBareItem::DisplayString(text.borrow()),
        }
    }
}

#[cfg(feature = "alloc")]
impl BareItem {
    /// A copy, or the error if memory is short.
    pub(crate) fn copy_of(value: RefBareItem<'_>) -> Result<BareItem, Error> {
        use crate::buffer::{copied, copied_text};
        Ok(match value {
            GenericBareItem::Integer(number) => GenericBareItem::Integer(number),
            GenericBareItem::Decimal(number) => GenericBareItem::Decimal(number),
            GenericBareItem::String(text) => GenericBareItem::String(String::copy_of(text)?),
            GenericBareItem::Token(text) => GenericBareItem::Token(Token::copy_of(text)?),
            GenericBareItem::ByteSequence(bytes) => GenericBareItem::ByteSequence(copied(bytes)?),
            GenericBareItem::Boolean(is_true) => GenericBareItem::Boolean(is_true),
            GenericBareItem::Date(date) => GenericBareItem::Date(date),
            GenericBareItem::DisplayString(text) => {
                GenericBareItem::DisplayString(copied_text(text)?)
            }
        })
    }
}

#[cfg(feature = "alloc")]
impl From<RefBareItem<'_>> for BareItem {
    fn from(value: RefBareItem<'_>) -> BareItem {
        match value {
            GenericBareItem::Integer(number) => GenericBareItem::Integer(number),
            GenericBareItem::Decimal(number) => GenericBareItem::Decimal(number),
            GenericBareItem::String(text) => GenericBareItem::String(text.to_owned()),
            GenericBareItem::Token(text) => GenericBareItem::Token(text.to_owned()),
            GenericBareItem::ByteSequence(bytes) => GenericBareItem::ByteSequence(bytes.to_owned()),
            GenericBareItem::Boolean(is_true) => GenericBareItem::Boolean(is_true),
            GenericBareItem::Date(date) => GenericBareItem::Date(date),
            GenericBareItem::DisplayString(text) => GenericBareItem::DisplayString(text.to_owned()),
        }
    }
}

#[cfg(feature = "alloc")]
impl From<BareItemFromInput<'_>> for BareItem {
    fn from(value: BareItemFromInput<'_>) -> BareItem {
        value.to_ref().into()
    }
}

macro_rules! into_bare_item {
    ($($type:ty => $variant:ident;)*) => {
        $(
            impl<S, B, T, D> From<$type> for GenericBareItem<S, B, T, D> {
                fn from(value: $type) -> Self {
                    GenericBareItem::$variant(value.into())
                }
            }
        )*
    };
}

into_bare_item! {
    i8 => Integer;
    i16 => Integer;
    i32 => Integer;
    u8 => Integer;
    u16 => Integer;
    u32 => Integer;
    Integer => Integer;
    Decimal => Decimal;
    bool => Boolean;
    Date => Date;
}

macro_rules! try_into_bare_item {
    ($($type:ty => $variant:ident;)*) => {
        $(
            impl<S, B, T, D> TryFrom<$type> for GenericBareItem<S, B, T, D> {
                type Error = crate::Error;

                fn try_from(value: $type) -> Result<Self, crate::Error> {
                    Ok(GenericBareItem::$variant(value.try_into()?))
                }
            }
        )*
    };
}

try_into_bare_item! {
    i64 => Integer;
    isize => Integer;
    i128 => Integer;
    u64 => Integer;
    usize => Integer;
    u128 => Integer;
}

#[cfg(feature = "std")]
try_into_bare_item! {
    std::time::SystemTime => Date;
}

#[cfg(feature = "alloc")]
macro_rules! owned_into_bare_item {
    ($($type:ty => $variant:ident;)*) => {
        $(
            impl From<$type> for BareItem {
                fn from(value: $type) -> BareItem {
                    GenericBareItem::$variant(value.into())
                }
            }
        )*
    };
}

#[cfg(feature = "alloc")]
owned_into_bare_item! {
    String => String;
    &StringRef => String;
    Token => Token;
    &TokenRef => Token;
    Vec<u8> => ByteSequence;
}

macro_rules! ref_into_bare_item {
    ($($type:ty => $variant:ident;)*) => {
        $(
            impl<'a> From<&'a $type> for RefBareItem<'a> {
                fn from(value: &'a $type) -> RefBareItem<'a> {
                    GenericBareItem::$variant(value)
                }
            }
        )*
    };
}

ref_into_bare_item! {
    StringRef => String;
    TokenRef => Token;
    [u8] => ByteSequence;
}
