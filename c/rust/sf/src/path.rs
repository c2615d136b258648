use crate::buffer::resize;
use crate::ffi::{self, Fit};
use crate::hop_text::NO_HOP;
#[cfg(feature = "std")]
use crate::{field_text, FieldLine};
use crate::{
    Dialect, Error, Forward, Forwarded, FwdStatus, Hop, Integer, Name, Outcome, Parser, Place,
    Refusal, Seed, StringRef, TokenRef,
};
use alloc::string::String;
use alloc::vec::Vec;
use core::fmt;
use sf_sys as raw;

/// The path of a response, the cache nearest the origin first.
///
/// ```
/// let path = sf::Path::parse("origin; fwd=miss, edge; hit; ttl=30").unwrap();
/// let names: Vec<_> = path.hops().map(|hop| hop.name.as_str()).collect();
/// assert_eq!(names, ["origin", "edge"]);
/// assert_eq!(path.served_by(), Some(1));
/// ```
#[derive(Clone, Default)]
pub struct Path {
    hops: Vec<raw::Hop>,
    bytes: String,
    served_by: Option<usize>,
}

impl PartialEq for Path {
    fn eq(&self, other: &Path) -> bool {
        self.hops().eq(other.hops())
    }
}

impl Eq for Path {}

#[allow(clippy::missing_fields_in_debug)] // the bytes are those of the hops
impl fmt::Debug for Path {
    fn fmt(&self, f: &mut fmt::Formatter<'_>) -> fmt::Result {
        f.debug_struct("Path")
            .field("hops", &self.hops().collect::<Vec<_>>())
            .field("served_by", &self.served_by)
            .finish()
    }
}

impl Path {
    /// Reads the text of a Cache-Status field (RFC 9211 section 2), by RFC 9651.
    ///
    /// # Errors
    ///
    /// [`Error::Refused`] if the text is not a well-formed List, [`Error::NotACache`] if a member
    /// is not an Item of a String or a Token.
    ///
    /// ```
    /// assert_eq!(sf::Path::parse("a;hit").unwrap().served_by(), Some(0));
    /// let error = sf::Path::parse("a, 7").unwrap_err();
    /// assert_eq!(
    ///     error.to_string(),
    ///     "member 1 does not name a cache, expected a Token or a String"
    /// );
    /// assert_eq!(error.refusal().map(|refusal| refusal.offset), Some(3));
    /// ```
    #[cfg(feature = "std")]
    pub fn parse(text: impl AsRef<[u8]>) -> Result<Path, Error> {
        Parser::new().path(text)
    }

    /// Reads the text of a Cache-Status field by a dialect: see [`Path::parse`]. RFC 9211 cites RFC
    /// 8941.
    ///
    /// # Errors
    ///
    /// Those of [`Path::parse`].
    ///
    /// ```
    /// use sf::{Dialect, Path};
    /// assert!(Path::parse_in(Dialect::Rfc8941, "a;hit;x=@1").is_err());
    /// assert!(Path::parse_in(Dialect::Rfc9651, "a;hit;x=@1").is_ok());
    /// ```
    #[cfg(feature = "std")]
    pub fn parse_in(dialect: Dialect, text: impl AsRef<[u8]>) -> Result<Path, Error> {
        Parser::new().with_dialect(dialect).path(text)
    }

    /// Reads the Cache-Status field of a head, by RFC 9651; a path without hops if the head has none.
    /// The head is its field lines, such as a slice of pairs or a `&HeaderMap` of the crate `http`.
    ///
    /// # Errors
    ///
    /// Those of [`Path::parse`]. The offset of a refusal is one in the
    /// [`field_text`](crate::field_text).
    ///
    /// ```
    /// let head = [("Cache-Status", "origin; fwd=miss"), ("cache-status", "edge; hit")];
    /// assert_eq!(sf::Path::from_headers(&head).unwrap().served_by(), Some(1));
    /// ```
    #[cfg(feature = "std")]
    pub fn from_headers(head: impl IntoIterator<Item = impl FieldLine>) -> Result<Path, Error> {
        Path::parse(field_text(head, "Cache-Status")?)
    }

    /// The same by a dialect. RFC 9211 cites RFC 8941.
    ///
    /// # Errors
    ///
    /// Those of [`Path::from_headers`].
    ///
    /// ```
    /// use sf::{Dialect, Path};
    /// assert!(Path::from_headers_in(Dialect::Rfc8941, [("Cache-Status", "a;x=@1")]).is_err());
    /// ```
    #[cfg(feature = "std")]
    pub fn from_headers_in(
        dialect: Dialect,
        head: impl IntoIterator<Item = impl FieldLine>,
    ) -> Result<Path, Error> {
        Path::parse_in(dialect, field_text(head, "Cache-Status")?)
    }

    fn read(seed: &Seed, dialect: Dialect, text: &[u8]) -> Result<Path, Error> {
        let mut hops = Vec::new();
        let mut bytes = Vec::new();
        // Most paths have fewer hops and bytes; with more of them the text is parsed twice.
        resize(&mut hops, text.len() / 16 + 1, NO_HOP)?;
        resize(&mut bytes, text.len(), 0)?;
        loop {
            match ffi::cache_status(seed, dialect, text, &mut hops, &mut bytes)? {
                Fit::Written(sizes) => {
                    hops.truncate(sizes.hops);
                    bytes.truncate(sizes.bytes);
                    let path = Path {
                        hops,
                        bytes: crate::buffer::text(bytes)?,
                        served_by: (sizes.is_served != 0).then_some(sizes.served),
                    };
                    return path.is_sound().then_some(path).ok_or(Error::OtherLibrary);
                }
                Fit::Short(sizes) => {
                    resize(&mut hops, sizes.hops, NO_HOP)?;
                    resize(&mut bytes, sizes.bytes, 0)?;
                }
            }
        }
    }

    /// Whether all that the hops refer to is there, as it is if the library is the one that this
    /// crate is for. The methods below rely on it.
    fn is_sound(&self) -> bool {
        self.hops.iter().all(|hop| {
            [hop.name, hop.why_token, hop.key, hop.detail]
                .iter()
                .all(|&span| self.slice(span).is_some())
        })
    }

    /// The hops, the cache nearest the origin first.
    ///
    /// ```
    /// assert_eq!(sf::Path::parse("a, b").unwrap().hops().len(), 2);
    /// ```
    #[must_use]
    pub fn hops(&self) -> impl DoubleEndedIterator<Item = Hop<'_>> + ExactSizeIterator + Clone {
        self.hops.iter().map(|hop| self.hop(hop))
    }

    /// The index of the hop that served the response: the last one whose outcome is a hit. `None`
    /// if there is none: the response came from the origin, or the field does not say.
    ///
    /// ```
    /// assert_eq!(sf::Path::parse("a;hit, b;fwd=miss").unwrap().served_by(), Some(0));
    /// assert_eq!(sf::Path::parse("a;fwd=miss").unwrap().served_by(), None);
    /// ```
    #[must_use]
    pub fn served_by(&self) -> Option<usize> {
        self.served_by
    }

    /// The hop that served the response: see [`Path::served_by`].
    ///
    /// ```
    /// let path = sf::Path::parse("a;hit, b;fwd=miss").unwrap();
    /// assert_eq!(path.served_hop().unwrap().name.as_str(), "a");
    /// assert!(sf::Path::parse("a;fwd=miss").unwrap().served_hop().is_none());
    /// ```
    #[must_use]
    pub fn served_hop(&self) -> Option<Hop<'_>> {
        self.hops().nth(self.served_by?)
    }

    fn slice(&self, span: raw::Span) -> Option<&str> {
        self.bytes.get(span.at..span.at.checked_add(span.length)?)
    }

    fn text(&self, span: raw::Span) -> &str {
        self.slice(span).unwrap_or_default()
    }

    fn name(&self, span: raw::Span, is_token: u8) -> Name<'_> {
        match is_token {
            0 => Name::String(StringRef::known(self.text(span))),
            _ => Name::Token(TokenRef::known(self.text(span))),
        }
    }

    fn forwarded(&self, hop: &raw::Hop) -> Forwarded<'_> {
        Forwarded {
            why: match hop.why {
                raw::BYPASS => Forward::Bypass,
                raw::METHOD => Forward::Method,
                raw::URI_MISS => Forward::UriMiss,
                raw::VARY_MISS => Forward::VaryMiss,
                raw::MISS => Forward::Miss,
                raw::REQUEST => Forward::Request,
                raw::STALE => Forward::Stale,
                raw::PARTIAL => Forward::Partial,
                _ => Forward::of_token(TokenRef::known(self.text(hop.why_token))),
            },
            status: FwdStatus::new(hop.status).ok(),
            stored: (hop.has_stored != 0).then_some(hop.stored != 0),
            collapsed: (hop.has_collapsed != 0).then_some(hop.collapsed != 0),
        }
    }

    fn hop(&self, hop: &raw::Hop) -> Hop<'_> {
        Hop {
            name: self.name(hop.name, hop.name_is_token),
            outcome: match hop.outcome {
                raw::UNSAID => Outcome::Unsaid,
                raw::HIT => Outcome::Hit,
                raw::FORWARDED => Outcome::Forwarded(self.forwarded(hop)),
                _ => Outcome::Conflict(self.forwarded(hop)),
            },
            ttl: (hop.has_ttl != 0).then_some(Integer::known(hop.ttl)),
            key: (hop.has_key != 0).then(|| StringRef::known(self.text(hop.key))),
            detail: (hop.has_detail != 0).then(|| self.name(hop.detail, hop.detail_is_token)),
        }
    }
}

/// The error of a well-formed List of which a member is no Item of a String or a Token.
pub(crate) fn not_a_cache(list: &[u8], index: usize) -> Error {
    let offset = Place::index(index).offset_in(list);
    let begins_name = |byte: &u8| byte.is_ascii_alphabetic() || matches!(byte, b'"' | b'*');
    let refusal = Refusal {
        offset: offset as u64,
        found: list.get(offset).copied(),
        expected: (0..128)
            .filter(begins_name)
            .fold(0, |set, byte| set | 1 << byte),
        may_end: false,
        words: None,
    };
    Error::NotACache { index, refusal }
}

impl Parser {
    /// Reads the text of a Cache-Status field, by the dialect of the parser: see [`Path::parse`].
    /// RFC 9211 cites RFC 8941.
    ///
    /// # Errors
    ///
    /// [`Error::Refused`] if the text is not a well-formed List, [`Error::NotACache`] if a member
    /// does not name a cache.
    ///
    /// ```
    /// assert_eq!(sf::Parser::new().path("origin;fwd=miss, edge;hit").unwrap().served_by(), Some(1));
    /// let old = sf::Parser::new().with_dialect(sf::Dialect::Rfc8941);
    /// assert!(old.path("a;hit;x=@1").is_err());
    /// ```
    pub fn path(&self, text: impl AsRef<[u8]>) -> Result<Path, Error> {
        Path::read(&self.seed(), self.dialect(), text.as_ref())
    }
}

/// The text of a Cache-Status field of these hops, each as it would be written by its cache.
#[cfg(feature = "std")]
impl fmt::Display for Path {
    fn fmt(&self, f: &mut fmt::Formatter<'_>) -> fmt::Result {
        let mut text = String::new();
        for hop in self.hops() {
            let hop = hop.serialize().map_err(|_| fmt::Error)?;
            text.try_reserve(hop.len() + 2).map_err(|_| fmt::Error)?;
            if !text.is_empty() {
                text.push_str(", ");
            }
            text.push_str(&hop);
        }
        f.pad(&text)
    }
}
