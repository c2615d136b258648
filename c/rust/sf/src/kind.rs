use crate::Error;
use sf_sys as raw;

/// The kind of a field, which the definition of the field states (RFC 9651 section 3).
///
/// ```
/// assert!(sf::check(sf::Kind::List, "a, b").is_ok());
/// assert!(sf::check(sf::Kind::Item, "a, b").is_err());
/// ```
#[derive(Clone, Copy, Debug, PartialEq, Eq, Hash)]
#[repr(u32)]
pub enum Kind {
    /// An Item (section 3.3).
    Item = raw::ITEM,
    /// A List (section 3.1).
    List = raw::LIST,
    /// A Dictionary (section 3.2).
    Dict = raw::DICT,
}

/// From the word that the command `sf` takes: `item`, `list` or `dict`.
///
/// ```
/// assert_eq!("list".parse(), Ok(sf::Kind::List));
/// assert_eq!("List".parse::<sf::Kind>(), Err(sf::Error::Invalid));
/// ```
impl core::str::FromStr for Kind {
    type Err = Error;

    fn from_str(word: &str) -> Result<Kind, Error> {
        match word {
            "item" => Ok(Kind::Item),
            "list" => Ok(Kind::List),
            "dict" => Ok(Kind::Dict),
            _ => Err(Error::Invalid),
        }
    }
}

/// The RFC by which a text is parsed. What RFC 8941 accepts has the same value by RFC 9651.
///
/// ```
/// let old = sf::Parser::new().with_dialect(sf::Dialect::Rfc8941);
/// assert!(old.check(sf::Kind::Item, "@1").is_err());
/// assert!(sf::check(sf::Kind::Item, "@1").is_ok());
/// ```
#[derive(Clone, Copy, Debug, Default, PartialEq, Eq, Hash)]
#[repr(u32)]
pub enum Dialect {
    /// RFC 9651.
    #[default]
    Rfc9651 = raw::RFC9651,
    /// Its predecessor, without Dates and Display Strings.
    Rfc8941 = raw::RFC8941,
}
