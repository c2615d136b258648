//! Fields in and out of a `HeaderMap` of the crate `http`.

use crate::{
    join, select_rules_in, trim, CacheRules, Choice, Dialect, Dictionary, Error, FieldType, Hop,
    Item, List, Parser, Policy, Priority, Refusal, ResponsePriority, RulesChoice,
};
use alloc::string::String;
use alloc::vec::Vec;
use http::header::{AsHeaderName, HeaderMap, HeaderName, HeaderValue};

/// The names of RFC 9211 and RFC 9218.
const CACHE_STATUS: &str = "cache-status";
const PRIORITY: &str = "priority";

/// The lines of a field, trimmed and joined; empty if the head does not have the field.
fn text_of(headers: &HeaderMap, name: impl AsHeaderName) -> Result<Vec<u8>, Error> {
    join(headers.get_all(name).iter().map(trim))
}

/// A text of the library, which has visible characters of ASCII and spaces alone.
fn value_of(text: Result<String, Error>) -> Result<HeaderValue, Error> {
    HeaderValue::try_from(text?).map_err(|_| Error::OtherLibrary)
}

/// Sets a field to a text, or removes it if the text is empty (RFC 9651 section 4.1).
fn put(
    headers: &mut HeaderMap,
    name: HeaderName,
    text: Result<String, Error>,
) -> Result<(), Error> {
    let value = value_of(text)?;
    if value.is_empty() {
        headers.remove(name);
    } else {
        headers.insert(name, value);
    }
    Ok(())
}

impl Parser {
    /// Parses a field of a head, of one line or several; `None` if the head does not have the
    /// field.
    ///
    /// # Errors
    ///
    /// [`Error::Refused`] if it is malformed; its offset is one in the lines, without the white
    /// space around each, joined.
    ///
    /// ```
    /// use http::{HeaderMap, HeaderValue};
    /// use sf::{Dictionary, Parser};
    /// let mut headers = HeaderMap::new();
    /// headers.append("signature-input", HeaderValue::from_static("a=()"));
    /// headers.append("signature-input", HeaderValue::from_static("b=(\"@path\")"));
    /// let field = Parser::new().header::<Dictionary>(&headers, "signature-input").unwrap();
    /// assert_eq!(field.unwrap().len(), 2);
    /// assert_eq!(Parser::new().header::<Dictionary>(&headers, "signature"), Ok(None));
    /// ```
    pub fn header<T: FieldType>(
        &self,
        headers: &HeaderMap,
        name: impl AsHeaderName + Clone,
    ) -> Result<Option<T>, Error> {
        if !headers.contains_key(name.clone()) {
            return Ok(None);
        }
        self.parse(text_of(headers, name)?).map(Some)
    }
}

macro_rules! field {
    ($name:ident, $text:literal) => {
        impl $name {
            /// Parses a field of a head, of one line or several, by RFC 9651; `None` if the head
            /// does not have the field.
            ///
            /// # Errors
            ///
            /// [`Error::Refused`] if it is malformed; its offset is one in the joined lines.
            ///
            /// ```
            /// let mut headers = http::HeaderMap::new();
            #[doc = concat!("headers.insert(\"example\", http::HeaderValue::from_static(\"", $text, "\"));")]
            #[doc = concat!("let field = sf::", stringify!($name), "::from_headers(&headers, \"example\");")]
            #[doc = concat!("assert_eq!(field.unwrap().unwrap().to_string(), \"", $text, "\");")]
            /// ```
            pub fn from_headers(
                headers: &HeaderMap,
                name: impl AsHeaderName + Clone,
            ) -> Result<Option<$name>, Error> {
                Parser::new().header(headers, name)
            }

            /// Sets a field of a head to the canonical text of this, as one line; a List or
            /// Dictionary without members removes the field (RFC 9651 section 4.1).
            ///
            /// # Errors
            ///
            /// Those of [`serialize`](Self::serialize).
            ///
            /// ```
            /// let mut headers = http::HeaderMap::new();
            #[doc = concat!("let field = sf::", stringify!($name), "::parse(\"", $text, "\").unwrap();")]
            /// field.put_into_headers(&mut headers, http::header::HeaderName::from_static("example")).unwrap();
            #[doc = concat!("assert_eq!(headers[\"example\"], \"", $text, "\");")]
            /// ```
            pub fn put_into_headers(
                &self,
                headers: &mut HeaderMap,
                name: HeaderName,
            ) -> Result<(), Error> {
                put(headers, name, self.serialize())
            }
        }

        /// Its canonical text. That of a List or Dictionary without members is empty, and the field
        /// is not to be sent.
        impl TryFrom<&$name> for HeaderValue {
            type Error = Error;

            fn try_from(field: &$name) -> Result<HeaderValue, Error> {
                value_of(field.serialize())
            }
        }

        /// One line of a field.
        impl TryFrom<&HeaderValue> for $name {
            type Error = Error;

            fn try_from(line: &HeaderValue) -> Result<$name, Error> {
                $name::parse(line)
            }
        }
    };
}

field!(Item, "1;a");
field!(List, "a, b");
field!(Dictionary, "u=1, i");

impl Priority {
    /// Puts what this priority sets into the Priority field of a head, in which unknown members
    /// stay: see [`Priority::change`]. If nothing is set, a head without the field is left without
    /// it.
    ///
    /// # Errors
    ///
    /// [`Error::Refused`] if the head's field is malformed.
    ///
    /// ```
    /// let mut headers = http::HeaderMap::new();
    /// headers.insert("priority", http::HeaderValue::from_static("u=1, x"));
    /// let priority = sf::Priority { urgency: None, incremental: Some(true) };
    /// priority.put_into_headers(&mut headers).unwrap();
    /// assert_eq!(headers["priority"], "u=1, x, i");
    /// ```
    pub fn put_into_headers(self, headers: &mut HeaderMap) -> Result<(), Error> {
        let text = self.change(text_of(headers, PRIORITY)?);
        put(headers, HeaderName::from_static(PRIORITY), text)
    }
}

impl ResponsePriority {
    /// Puts what this priority sets, and nothing else, into the Priority field of the head of a
    /// response. If nothing is set, the head has no such field then.
    ///
    /// # Errors
    ///
    /// [`Error::OutOfMemory`] only.
    ///
    /// ```
    /// let mut headers = http::HeaderMap::new();
    /// let response: sf::ResponsePriority = "u=3, i=?0".parse().unwrap();
    /// response.put_into_headers(&mut headers).unwrap();
    /// assert_eq!(headers["priority"], "u=3, i=?0");
    /// ```
    pub fn put_into_headers(self, headers: &mut HeaderMap) -> Result<(), Error> {
        put(headers, HeaderName::from_static(PRIORITY), self.serialize())
    }
}

impl CacheRules {
    /// Chooses the field of a target list that a cache obeys, by the names of the list in order:
    /// see [`select_rules`](crate::select_rules).
    ///
    /// # Errors
    ///
    /// [`Error::OutOfMemory`] only.
    ///
    /// ```
    /// let mut headers = http::HeaderMap::new();
    /// headers.insert("cdn-cache-control", http::HeaderValue::from_static("no-store"));
    /// let choice = sf::CacheRules::select_from_headers(&headers, ["cdn-cache-control"]).unwrap();
    /// assert!(matches!(choice, sf::RulesChoice::Field { index: 0, .. }));
    /// ```
    pub fn select_from_headers(
        headers: &HeaderMap,
        names: impl IntoIterator<Item = impl AsHeaderName>,
    ) -> Result<RulesChoice, Error> {
        CacheRules::select_from_headers_in(Dialect::default(), headers, names)
    }

    /// The same by a dialect. RFC 9213 cites RFC 8941.
    ///
    /// # Errors
    ///
    /// Those of [`select_rules_in`].
    ///
    /// ```
    /// use sf::{CacheRules, Dialect};
    /// let mut headers = http::HeaderMap::new();
    /// headers.insert("cdn-cache-control", http::HeaderValue::from_static("no-store, x=@1"));
    /// let index = |dialect| {
    ///     let targets = ["cdn-cache-control"];
    ///     CacheRules::select_from_headers_in(dialect, &headers, targets).unwrap().index()
    /// };
    /// assert_eq!([Dialect::Rfc8941, Dialect::Rfc9651].map(index), [None, Some(0)]);
    /// ```
    pub fn select_from_headers_in(
        dialect: Dialect,
        headers: &HeaderMap,
        names: impl IntoIterator<Item = impl AsHeaderName>,
    ) -> Result<RulesChoice, Error> {
        for (index, name) in names.into_iter().enumerate() {
            let choice = select_rules_in(dialect, [text_of(headers, name)?])?;
            if let RulesChoice::Field { rules, .. } = choice {
                return Ok(RulesChoice::Field { index, rules });
            }
        }
        Ok(RulesChoice::Fallback)
    }
}

impl Policy {
    /// Chooses the field of a target list that a cache obeys, by the names of the list in order:
    /// see [`select`](crate::select).
    ///
    /// # Errors
    ///
    /// [`Error::OutOfMemory`] only.
    ///
    /// ```
    /// let mut headers = http::HeaderMap::new();
    /// headers.insert("cdn-cache-control", http::HeaderValue::from_static("max-age=600"));
    /// let targets = ["examplecdn-cache-control", "cdn-cache-control"];
    /// let choice = sf::Policy::select_from_headers(&headers, targets).unwrap();
    /// assert_eq!(choice.index(), Some(1));
    /// ```
    pub fn select_from_headers(
        headers: &HeaderMap,
        names: impl IntoIterator<Item = impl AsHeaderName>,
    ) -> Result<Choice, Error> {
        Policy::select_from_headers_in(Dialect::default(), headers, names)
    }

    /// The same by a dialect. RFC 9213 cites RFC 8941.
    ///
    /// # Errors
    ///
    /// Those of [`select_in`](crate::select_in).
    ///
    /// ```
    /// use sf::{Dialect, Policy};
    /// let mut headers = http::HeaderMap::new();
    /// headers.insert("cdn-cache-control", http::HeaderValue::from_static("max-age=60, x=@1"));
    /// let targets = ["cdn-cache-control"];
    /// let choice = Policy::select_from_headers_in(Dialect::Rfc8941, &headers, targets).unwrap();
    /// assert_eq!(choice.index(), None);
    /// ```
    pub fn select_from_headers_in(
        dialect: Dialect,
        headers: &HeaderMap,
        names: impl IntoIterator<Item = impl AsHeaderName>,
    ) -> Result<Choice, Error> {
        CacheRules::select_from_headers_in(dialect, headers, names).map(Choice::from)
    }
}

impl Hop<'_> {
    /// Appends this hop to the Cache-Status field of a head, whose lines become one.
    ///
    /// # Errors
    ///
    /// Those of [`Hop::append_to`]; the head is then unchanged.
    ///
    /// ```
    /// let mut headers = http::HeaderMap::new();
    /// let hop = sf::Hop::new(sf::TokenRef::constant("edge")).with_outcome(sf::Outcome::Hit);
    /// hop.append_to_headers(&mut headers).unwrap();
    /// assert_eq!(headers["cache-status"], "edge;hit");
    /// ```
    pub fn append_to_headers(&self, headers: &mut HeaderMap) -> Result<(), Error> {
        let text = self.append_to([text_of(headers, CACHE_STATUS)?]);
        put(headers, HeaderName::from_static(CACHE_STATUS), text)
    }

    /// Appends this hop to the Cache-Status field of a head, or replaces the field by it if the
    /// field is malformed, by a dialect: see [`Hop::append_or_replace`]. Returns where the field was
    /// malformed, if it was.
    ///
    /// # Errors
    ///
    /// Those of [`Hop::append_or_replace`]; the head is then unchanged.
    ///
    /// ```
    /// use sf::{Dialect, Hop, TokenRef};
    /// let mut headers = http::HeaderMap::new();
    /// headers.insert("cache-status", http::HeaderValue::from_static("a;;"));
    /// let hop = Hop::new(TokenRef::constant("edge"));
    /// let refusal = hop.append_or_replace_in_headers(Dialect::Rfc8941, &mut headers).unwrap();
    /// assert_eq!(refusal.unwrap().offset, 2);
    /// assert_eq!(headers["cache-status"], "edge");
    /// ```
    pub fn append_or_replace_in_headers(
        &self,
        dialect: Dialect,
        headers: &mut HeaderMap,
    ) -> Result<Option<Refusal>, Error> {
        let appended = self.append_or_replace_in(dialect, [text_of(headers, CACHE_STATUS)?])?;
        let refusal = appended.refusal();
        let text = Ok(appended.into());
        put(headers, HeaderName::from_static(CACHE_STATUS), text)?;
        Ok(refusal)
    }
}
