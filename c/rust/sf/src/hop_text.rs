//! Hops as the texts of fields.

use crate::buffer::{append, written};
use crate::ffi;
#[cfg(feature = "std")]
use crate::Dialect;
use crate::{Error, Forward, FwdStatus, Hop, Integer, Name, Outcome, Parser, Refusal, StringRef};
use alloc::string::String;
use alloc::vec::Vec;
use sf_sys as raw;

const NO_SPAN: raw::Span = raw::Span { at: 0, length: 0 };

pub(crate) const NO_HOP: raw::Hop = raw::Hop {
    name: NO_SPAN,
    why_token: NO_SPAN,
    key: NO_SPAN,
    detail: NO_SPAN,
    ttl: 0,
    outcome: raw::UNSAID,
    why: raw::NO_FORWARD,
    status: 0,
    has_status: 0,
    stored: 0,
    has_stored: 0,
    collapsed: 0,
    has_collapsed: 0,
    has_ttl: 0,
    has_key: 0,
    has_detail: 0,
    name_is_token: 0,
    detail_is_token: 0,
};

/// A text after the bytes so far.
fn put(bytes: &mut Vec<u8>, text: &str) -> Result<raw::Span, Error> {
    let at = bytes.len();
    append(bytes, text.as_bytes())?;
    let length = text.len();
    Ok(raw::Span { at, length })
}

/// A hop for the library, with the bytes that it refers to.
fn raw_hop(hop: &Hop<'_>, bytes: &mut Vec<u8>) -> Result<raw::Hop, Error> {
    let mut to = NO_HOP;
    to.name = put(bytes, hop.name.as_str())?;
    to.name_is_token = u8::from(matches!(hop.name, Name::Token(_)));
    to.outcome = match hop.outcome {
        Outcome::Unsaid => raw::UNSAID,
        Outcome::Hit => raw::HIT,
        Outcome::Forwarded(_) => raw::FORWARDED,
        Outcome::Conflict(_) => raw::CONFLICT,
    };
    if let Some(forwarded) = hop.outcome.forwarded() {
        to.why = match forwarded.why {
            Forward::Bypass => raw::BYPASS,
            Forward::Method => raw::METHOD,
            Forward::UriMiss => raw::URI_MISS,
            Forward::VaryMiss => raw::VARY_MISS,
            Forward::Miss => raw::MISS,
            Forward::Request => raw::REQUEST,
            Forward::Stale => raw::STALE,
            Forward::Partial => raw::PARTIAL,
            Forward::Other { .. } => raw::OTHER,
        };
        if let Forward::Other { token } = forwarded.why {
            to.why_token = put(bytes, token)?;
        }
        to.status = forwarded.status.map_or(0, FwdStatus::get);
        to.has_status = u8::from(forwarded.status.is_some());
        to.stored = u8::from(forwarded.stored == Some(true));
        to.has_stored = u8::from(forwarded.stored.is_some());
        to.collapsed = u8::from(forwarded.collapsed == Some(true));
        to.has_collapsed = u8::from(forwarded.collapsed.is_some());
    }
    to.ttl = hop.ttl.map_or(0, Integer::get);
    to.has_ttl = u8::from(hop.ttl.is_some());
    to.key = put(bytes, hop.key.map_or("", StringRef::as_str))?;
    to.has_key = u8::from(hop.key.is_some());
    to.detail = put(bytes, hop.detail.map_or("", Name::as_str))?;
    to.has_detail = u8::from(hop.detail.is_some());
    to.detail_is_token = u8::from(matches!(hop.detail, Some(Name::Token(_))));
    Ok(to)
}

impl Parser {
    /// Writes the text of a Cache-Status field whose only member is a hop: see [`Hop::serialize`].
    ///
    /// # Errors
    ///
    /// [`Error::OutOfMemory`] only.
    ///
    /// ```
    /// let hop = sf::Hop::new(sf::TokenRef::constant("edge")).with_outcome(sf::Outcome::Hit);
    /// assert_eq!(sf::Parser::new().serialize_hop(&hop).unwrap(), "edge;hit");
    /// ```
    pub fn serialize_hop(&self, hop: &Hop<'_>) -> Result<String, Error> {
        let mut bytes = Vec::new();
        let hop = raw_hop(hop, &mut bytes)?;
        let seed = self.seed();
        written(128, |buffer| ffi::hop_text(&seed, &hop, &bytes, buffer))
    }

    /// Appends a hop to the lines of a Cache-Status field, by the dialect of the parser: see
    /// [`Hop::append_to`]. RFC 9211 cites RFC 8941.
    ///
    /// # Errors
    ///
    /// Those of [`Hop::append_to`].
    ///
    /// ```
    /// let hop = sf::Hop::new(sf::TokenRef::constant("edge")).with_outcome(sf::Outcome::Hit);
    /// let old = sf::Parser::new().with_dialect(sf::Dialect::Rfc8941);
    /// assert_eq!(old.append_hop(&hop, ["a;hit", "b"]).unwrap(), "a;hit, b, edge;hit");
    /// assert!(old.append_hop(&hop, ["a;x=@1"]).is_err());
    /// ```
    pub fn append_hop(
        &self,
        hop: &Hop<'_>,
        lines: impl IntoIterator<Item = impl AsRef<[u8]>>,
    ) -> Result<String, Error> {
        let text = crate::join(lines)?;
        let mut bytes = Vec::new();
        let hop = raw_hop(hop, &mut bytes)?;
        let (seed, dialect) = (self.seed(), self.dialect());
        written(text.len() + 128, |buffer| {
            ffi::cache_status_append(&seed, dialect, &text, &hop, &bytes, buffer)
        })
    }

    /// Appends a hop, or writes it alone if the lines are malformed, by the dialect of the parser:
    /// see [`Hop::append_or_replace`].
    ///
    /// # Errors
    ///
    /// Those of [`Hop::append_or_replace`].
    ///
    /// ```
    /// let hop = sf::Hop::new(sf::TokenRef::constant("edge")).with_outcome(sf::Outcome::Hit);
    /// let old = sf::Parser::new().with_dialect(sf::Dialect::Rfc8941);
    /// let appended = old.append_or_replace_hop(&hop, ["a;x=@1"]).unwrap();
    /// assert_eq!((appended.as_str(), appended.refusal().is_some()), ("edge;hit", true));
    /// ```
    pub fn append_or_replace_hop(
        &self,
        hop: &Hop<'_>,
        lines: impl IntoIterator<Item = impl AsRef<[u8]>>,
    ) -> Result<Appended, Error> {
        match self.append_hop(hop, lines) {
            Ok(text) => Ok(Appended::Joined(text)),
            Err(Error::Refused(refusal)) => Ok(Appended::Apart {
                own: self.serialize_hop(hop)?,
                refusal,
            }),
            Err(error) => Err(error),
        }
    }
}

/// The text of Cache-Status that a cache sends on, in the place of the lines that it received: see
/// [`Hop::append_or_replace`]. Its `Display` is the text.
///
/// ```
/// let hop = sf::Hop::new(sf::TokenRef::constant("edge")).with_outcome(sf::Outcome::Hit);
/// let sent = hop.append_or_replace(["origin"]).unwrap();
/// assert!(matches!(sent, sf::Appended::Joined(_)));
/// assert_eq!(sent.to_string(), "origin, edge;hit");
/// ```
#[derive(Clone, Debug, PartialEq, Eq)]
pub enum Appended {
    /// The hops of the lines, and this cache's after them.
    Joined(String),
    /// The lines are malformed. Who reads them ignores all of them, and each line that is added, so
    /// this cache's hop takes their place.
    Apart {
        /// This cache's hop.
        own: String,
        /// Where the lines, joined, are malformed, and why.
        refusal: Refusal,
    },
}

impl Appended {
    /// The text to send on.
    ///
    /// ```
    /// let hop = sf::Hop::new(sf::TokenRef::constant("edge")).with_outcome(sf::Outcome::Hit);
    /// assert_eq!(hop.append_or_replace(["a;;"]).unwrap().as_str(), "edge;hit");
    /// ```
    #[must_use]
    pub fn as_str(&self) -> &str {
        match self {
            Appended::Joined(text) | Appended::Apart { own: text, .. } => text,
        }
    }

    /// Where the lines that came are malformed, if they are.
    ///
    /// ```
    /// let hop = sf::Hop::new(sf::TokenRef::constant("edge")).with_outcome(sf::Outcome::Hit);
    /// assert_eq!(hop.append_or_replace(["a"]).unwrap().refusal(), None);
    /// assert_eq!(hop.append_or_replace(["a;;"]).unwrap().refusal().unwrap().offset, 2);
    /// ```
    #[must_use]
    pub fn refusal(&self) -> Option<Refusal> {
        match self {
            Appended::Joined(_) => None,
            Appended::Apart { refusal, .. } => Some(*refusal),
        }
    }
}

impl From<Appended> for String {
    fn from(appended: Appended) -> String {
        match appended {
            Appended::Joined(text) | Appended::Apart { own: text, .. } => text,
        }
    }
}

impl core::fmt::Display for Appended {
    fn fmt(&self, f: &mut core::fmt::Formatter<'_>) -> core::fmt::Result {
        f.pad(self.as_str())
    }
}

#[cfg(feature = "std")]
impl Hop<'_> {
    /// Appends this hop to the lines of a Cache-Status field that came from the caches nearer the
    /// origin, and returns the canonical text of all, which is sent in their place. The lines are
    /// joined by [`join`](crate::join()), so an empty line beside others is a member without a
    /// value, as in `a, , b`, which is malformed (RFC 9110 section 5.3, RFC 9651 section 4.2); no
    /// line, and an empty one alone, are a List without members. A member that names no cache stays
    /// where it is.
    ///
    /// # Errors
    ///
    /// [`Error::Refused`] if the lines are not a well-formed List: who reads them ignores all of
    /// them, and each line that is added (RFC 9651 section 4.2), so nothing is appended. Send the
    /// text of [`Hop::serialize`] in their place. [`Error::Invalid`] if the outcome is
    /// [`Outcome::Conflict`], since only one of `hit` and `fwd` should appear (RFC 9211 section
    /// 2.1).
    ///
    /// ```
    /// let hop = sf::Hop::new(sf::TokenRef::constant("edge")).with_outcome(sf::Outcome::Hit);
    /// assert_eq!(hop.append_to(["origin; fwd=miss"]).unwrap(), "origin;fwd=miss, edge;hit");
    /// assert!(matches!(hop.append_to(["origin;;"]), Err(sf::Error::Refused(_))));
    /// ```
    pub fn append_to(
        &self,
        lines: impl IntoIterator<Item = impl AsRef<[u8]>>,
    ) -> Result<String, Error> {
        Parser::new().append_hop(self, lines)
    }

    /// Appends this hop to the lines by a dialect: see [`Hop::append_to`]. RFC 9211 cites RFC 8941.
    ///
    /// # Errors
    ///
    /// Those of [`Hop::append_to`].
    ///
    /// ```
    /// use sf::{Dialect, Hop, TokenRef};
    /// let hop = Hop::new(TokenRef::constant("edge"));
    /// assert!(hop.append_to_in(Dialect::Rfc8941, ["a;x=@1"]).is_err());
    /// assert_eq!(hop.append_to_in(Dialect::Rfc9651, ["a;x=@1"]).unwrap(), "a;x=@1, edge");
    /// ```
    pub fn append_to_in(
        &self,
        dialect: Dialect,
        lines: impl IntoIterator<Item = impl AsRef<[u8]>>,
    ) -> Result<String, Error> {
        let parser = Parser::new().with_dialect(dialect);
        parser.append_hop(self, lines)
    }

    /// Appends this hop, as [`Hop::append_to`] does, or writes it alone if the lines are malformed,
    /// and returns which it did. Either text is sent in the place of the lines.
    ///
    /// # Errors
    ///
    /// [`Error::Invalid`] if the outcome is [`Outcome::Conflict`], [`Error::OutOfMemory`].
    ///
    /// ```
    /// use sf::{Appended, Hop, Outcome, TokenRef};
    /// let hop = Hop::new(TokenRef::constant("edge")).with_outcome(Outcome::Hit);
    /// let appended = hop.append_or_replace(["a; fwd=miss"]).unwrap();
    /// assert_eq!(appended, Appended::Joined("a;fwd=miss, edge;hit".to_string()));
    /// let replaced = hop.append_or_replace(["origin;;"]).unwrap();
    /// assert!(matches!(replaced, Appended::Apart { ref own, .. } if own == "edge;hit"));
    /// ```
    pub fn append_or_replace(
        &self,
        lines: impl IntoIterator<Item = impl AsRef<[u8]>>,
    ) -> Result<Appended, Error> {
        Parser::new().append_or_replace_hop(self, lines)
    }

    /// The same by a dialect. RFC 9211 cites RFC 8941.
    ///
    /// # Errors
    ///
    /// Those of [`Hop::append_or_replace`].
    ///
    /// ```
    /// use sf::{Dialect, Hop, TokenRef};
    /// let hop = Hop::new(TokenRef::constant("edge"));
    /// let appended = hop.append_or_replace_in(Dialect::Rfc8941, ["a;x=@1"]).unwrap();
    /// assert_eq!((appended.as_str(), appended.refusal().unwrap().offset), ("edge", 4));
    /// ```
    pub fn append_or_replace_in(
        &self,
        dialect: Dialect,
        lines: impl IntoIterator<Item = impl AsRef<[u8]>>,
    ) -> Result<Appended, Error> {
        let parser = Parser::new().with_dialect(dialect);
        parser.append_or_replace_hop(self, lines)
    }

    /// Writes the text of a Cache-Status field whose only member is this hop: a field line of its
    /// own, which a cache adds after the lines that came from the caches nearer the origin. If these
    /// are malformed, so is the field with this line, and the hop is lost:
    /// [`Hop::append_or_replace_in`] tells. A hop of a [`Path`](crate::Path) has no parameters that
    /// RFC 9211 does not define, and none that count as absent: entry i of the
    /// [`List`](crate::List) of the field is hop i, with all parameters.
    ///
    /// # Errors
    ///
    /// [`Error::OutOfMemory`] only.
    ///
    /// ```
    /// let mut hop = sf::Hop::new(sf::StringRef::constant("edge 1"));
    /// hop.outcome = sf::Outcome::Forwarded(sf::Forwarded::new(sf::Forward::UriMiss));
    /// assert_eq!(hop.serialize().unwrap(), "\"edge 1\";fwd=uri-miss");
    /// ```
    pub fn serialize(&self) -> Result<String, Error> {
        Parser::new().serialize_hop(self)
    }
}

#[cfg(feature = "std")]
impl core::fmt::Display for Hop<'_> {
    fn fmt(&self, f: &mut core::fmt::Formatter<'_>) -> core::fmt::Result {
        f.pad(&self.serialize().map_err(|_| core::fmt::Error)?)
    }
}
