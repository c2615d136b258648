//! Texts of parts of a field: a member, an Inner List, a bare item, parameters. The library parses
//! fields alone, so a part is parsed as a field with this part and nothing else, and what the field
//! may have beside it is refused where it begins.

use crate::buffer::append;
use crate::{BareItem, Error, InnerList, Item, Kind, List, ListEntry, Parameters, Parser, Refusal};
use alloc::vec::Vec;

/// Where a byte is outside of all Strings and Display Strings.
enum Outside {
    /// At this offset first.
    At(usize),
    /// Nowhere, but it would be if it were appended.
    Appended,
    /// Nowhere: the text ends within a String.
    Within,
}

/// Looks for a byte in a text that can be continued to a well-formed one.
fn outside_strings(text: &[u8], wanted: u8) -> Outside {
    let mut index = 0;
    while let Some(&byte) = text.get(index) {
        if byte == wanted {
            return Outside::At(index);
        }
        if byte == b'"' {
            // A Display String has no escapes by backslashes (RFC 9651 section 3.3.8).
            let is_string = index == 0 || text.get(index - 1) != Some(&b'%');
            index += 1;
            loop {
                match text.get(index) {
                    None => return Outside::Within,
                    Some(b'"') => break,
                    Some(b'\\') if is_string => index += 2,
                    Some(_) => index += 1,
                }
            }
        }
        index += 1;
    }
    Outside::Appended
}

/// The refusal of a part that is followed by a byte, which may follow it in a field alone.
fn refused_before(parser: &Parser, kind: Kind, text: &[u8], offset: usize) -> Error {
    // No field has this byte, so the refusal is at the same place, with what a field may have
    // there.
    let mut prefix = Vec::new();
    let prefix = append(&mut prefix, text.get(..offset).unwrap_or_default())
        .and_then(|()| append(&mut prefix, &[0xff]))
        .and_then(|()| parser.check(kind, &prefix));
    match prefix {
        Err(Error::Refused(refusal)) => Error::Refused(Refusal {
            found: text.get(offset).copied(),
            ..refusal
        }),
        Err(error) => error,
        Ok(()) => Error::OtherLibrary,
    }
}

/// A text as a field, if it does not have this byte outside of Strings.
fn without<T: crate::FieldType>(parser: &Parser, text: &[u8], separator: u8) -> Result<T, Error> {
    let parsed = parser.parse(text);
    let viable = match &parsed {
        Err(Error::Refused(refusal)) => usize::try_from(refusal.offset).ok(),
        Err(error) => return Err(*error),
        Ok(_) => None,
    };
    let viable = text.get(..viable.unwrap_or(text.len())).unwrap_or_default();
    let refused = match outside_strings(viable, separator) {
        Outside::At(offset) => Err(refused_before(parser, T::KIND, text, offset)),
        Outside::Appended => parsed,
        Outside::Within => return parsed,
    };
    refused.map_err(|error| match error {
        Error::Refused(refusal) => Error::Refused(Refusal {
            expected: refusal.expected & !(1 << separator),
            ..refusal
        }),
        error => error,
    })
}

/// The first byte that is no space, at which the part begins.
fn beginning(text: &[u8]) -> usize {
    text.iter()
        .position(|&byte| byte != b' ')
        .unwrap_or(text.len())
}

impl Parser {
    /// Parses a bare item (RFC 9651 section 3.3), without parameters.
    ///
    /// # Errors
    ///
    /// [`Error::Refused`] if the text is malformed.
    ///
    /// ```
    /// let parser = sf::Parser::new();
    /// assert_eq!(parser.bare_item("tea").unwrap().as_token(), Some("tea"));
    /// assert_eq!(parser.bare_item("tea;a").unwrap_err().refusal().unwrap().offset, 3);
    /// ```
    pub fn bare_item(&self, text: impl AsRef<[u8]>) -> Result<BareItem, Error> {
        let text = text.as_ref();
        without::<Item>(self, text, b';').map(|item| item.bare_item)
    }

    /// Parses a member of a List or Dictionary.
    ///
    /// # Errors
    ///
    /// [`Error::Refused`] if the text is malformed.
    ///
    /// ```
    /// let parser = sf::Parser::new();
    /// assert!(parser.list_entry("(1 2);a").unwrap().as_inner_list().is_some());
    /// assert_eq!(parser.list_entry("a, b").unwrap_err().refusal().unwrap().offset, 1);
    /// ```
    pub fn list_entry(&self, text: impl AsRef<[u8]>) -> Result<ListEntry, Error> {
        let text = text.as_ref();
        let member = without::<List>(self, text, b',').and_then(|list| {
            let refused = || refused_before(self, Kind::List, text, text.len());
            list.into_iter().next().ok_or_else(refused)
        });
        member.map_err(|error| match error {
            // A List may end before its first member, but not a member.
            Error::Refused(refusal) if refusal.offset <= beginning(text) as u64 => {
                Error::Refused(Refusal {
                    may_end: false,
                    ..refusal
                })
            }
            error => error,
        })
    }

    /// Parses an Inner List (RFC 9651 section 3.1.1).
    ///
    /// # Errors
    ///
    /// [`Error::Refused`] if the text is malformed.
    ///
    /// ```
    /// let parser = sf::Parser::new();
    /// assert_eq!(parser.inner_list("(1 2);a").unwrap().items.len(), 2);
    /// assert_eq!(parser.inner_list("a").unwrap_err().refusal().unwrap().offset, 0);
    /// ```
    pub fn inner_list(&self, text: impl AsRef<[u8]>) -> Result<InnerList, Error> {
        let text = text.as_ref();
        let begins = beginning(text);
        if text.get(begins) != Some(&b'(') {
            return Err(Error::Refused(Refusal {
                offset: begins as u64,
                found: text.get(begins).copied(),
                expected: 1 << b' ' | 1 << b'(',
                may_end: false,
                words: None,
            }));
        }
        match self.list_entry(text)? {
            ListEntry::InnerList(inner) => Ok(inner),
            ListEntry::Item(_) => Err(Error::OtherLibrary),
        }
    }

    /// Parses parameters (RFC 9651 section 3.1.2), each with the semicolon before it.
    ///
    /// # Errors
    ///
    /// [`Error::Refused`] if the text is malformed.
    ///
    /// ```
    /// let params = sf::Parser::new().parameters(";a=1;b").unwrap();
    /// assert_eq!(params["a"].as_integer(), Some(1));
    /// ```
    pub fn parameters(&self, text: impl AsRef<[u8]>) -> Result<Parameters, Error> {
        // After a Boolean there is nothing but parameters.
        const BEFORE: &[u8] = b"?1";
        let text = text.as_ref();
        let mut field = Vec::new();
        append(&mut field, BEFORE)?;
        append(&mut field, text)?;
        match self.parse::<Item>(field) {
            Err(Error::Refused(refusal)) => Err(Error::Refused(Refusal {
                offset: refusal.offset.saturating_sub(BEFORE.len() as u64),
                ..refusal
            })),
            result => result.map(|item| item.params),
        }
    }
}
