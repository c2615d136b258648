//! A cache on the path of a response, and what it did (RFC 9211).

use crate::{Error, Integer, StringRef, TokenRef};
use core::fmt;

/// A name of a cache, or a detail. The String `a` and the Token `a` are two names; `Display` writes
/// both as `a`.
///
/// ```
/// let path = sf::Path::parse("edge;hit").unwrap();
/// let name = path.hops().next().unwrap().name;
/// assert_eq!(name, sf::Name::token("edge").unwrap());
/// assert_ne!(name, sf::Name::string("edge").unwrap());
/// assert_eq!(name.as_str(), "edge");
/// ```
#[derive(Clone, Copy, Debug, PartialEq, Eq, Hash)]
pub enum Name<'a> {
    /// It is a String.
    String(&'a StringRef),
    /// It is a Token.
    Token(&'a TokenRef),
}

impl<'a> Name<'a> {
    /// A Token as a name.
    ///
    /// # Errors
    ///
    /// [`Error::Refused`] if the text is not a Token.
    ///
    /// ```
    /// assert!(sf::Name::token("ExampleCDN").is_ok());
    /// assert!(sf::Name::token("Example CDN").is_err());
    /// ```
    pub fn token(text: &'a str) -> Result<Name<'a>, Error> {
        TokenRef::new(text).map(Name::Token)
    }

    /// A String as a name, unescaped.
    ///
    /// # Errors
    ///
    /// [`Error::Refused`] if the text is not that of a String.
    ///
    /// ```
    /// assert!(sf::Name::string("Example CDN").is_ok());
    /// assert!(sf::Name::string("f\u{fc}").is_err());
    /// ```
    pub fn string(text: &'a str) -> Result<Name<'a>, Error> {
        StringRef::new(text).map(Name::String)
    }

    /// Its text, whichever it is.
    ///
    /// ```
    /// let (string, token) = (sf::Name::string("a").unwrap(), sf::Name::token("a").unwrap());
    /// assert_eq!(string.as_str(), token.as_str());
    /// ```
    #[must_use]
    pub fn as_str(self) -> &'a str {
        match self {
            Name::String(text) => text.as_str(),
            Name::Token(text) => text.as_str(),
        }
    }
}

impl fmt::Display for Name<'_> {
    fn fmt(&self, f: &mut fmt::Formatter<'_>) -> fmt::Result {
        f.pad(self.as_str())
    }
}

impl<'a> From<&'a StringRef> for Name<'a> {
    fn from(text: &'a StringRef) -> Name<'a> {
        Name::String(text)
    }
}

impl<'a> From<&'a TokenRef> for Name<'a> {
    fn from(text: &'a TokenRef) -> Name<'a> {
        Name::Token(text)
    }
}

/// Why a cache forwarded a request (RFC 9211 section 2.2).
///
/// ```
/// let path = sf::Path::parse("edge;fwd=uri-miss").unwrap();
/// let forwarded = path.hops().next().unwrap().outcome.forwarded().unwrap();
/// assert_eq!(forwarded.why, sf::Forward::UriMiss);
/// ```
#[derive(Clone, Copy, Debug, PartialEq, Eq, Hash)]
pub enum Forward<'a> {
    /// `bypass`: the cache was configured not to handle the request.
    Bypass,
    /// `method`: the semantics of the request's method require it.
    Method,
    /// `uri-miss`: no stored response matched the URI.
    UriMiss,
    /// `vary-miss`: one matched the URI, but none matched the request's headers.
    VaryMiss,
    /// `miss`: one of the two above; the cache does not say which.
    Miss,
    /// `request`: a fresh one matched, but the request did not allow its use.
    Request,
    /// `stale`: the stored response was stale.
    Stale,
    /// `partial`: the stored response lacked a part of what was requested.
    Partial,
    /// Another token, which is made by [`Forward::of_token`] alone.
    #[non_exhaustive]
    Other {
        /// The token.
        token: &'a TokenRef,
    },
}

impl<'a> Forward<'a> {
    /// The reason of a token, whether the RFC defines it or not.
    ///
    /// ```
    /// use sf::{Forward, TokenRef};
    /// assert_eq!(Forward::of_token(TokenRef::constant("uri-miss")), Forward::UriMiss);
    /// assert!(matches!(Forward::of_token(TokenRef::constant("odd")), Forward::Other { .. }));
    /// ```
    #[must_use]
    pub fn of_token(token: &'a TokenRef) -> Forward<'a> {
        let known = [
            Forward::Bypass,
            Forward::Method,
            Forward::UriMiss,
            Forward::VaryMiss,
            Forward::Miss,
            Forward::Request,
            Forward::Stale,
            Forward::Partial,
        ];
        let is_it = |reason: &Forward<'_>| reason.as_str() == token.as_str();
        known
            .into_iter()
            .find(is_it)
            .unwrap_or(Forward::Other { token })
    }

    /// The token of the field.
    ///
    /// ```
    /// assert_eq!(sf::Forward::UriMiss.as_str(), "uri-miss");
    /// ```
    #[must_use]
    pub fn as_str(self) -> &'a str {
        match self {
            Forward::Bypass => "bypass",
            Forward::Method => "method",
            Forward::UriMiss => "uri-miss",
            Forward::VaryMiss => "vary-miss",
            Forward::Miss => "miss",
            Forward::Request => "request",
            Forward::Stale => "stale",
            Forward::Partial => "partial",
            Forward::Other { token } => token.as_str(),
        }
    }
}

impl fmt::Display for Forward<'_> {
    fn fmt(&self, f: &mut fmt::Formatter<'_>) -> fmt::Result {
        f.pad(self.as_str())
    }
}

/// The status code of a next hop's response, from 100 to 999 (RFC 9211 section 2.3).
///
/// ```
/// assert_eq!(sf::FwdStatus::new(304).unwrap().get(), 304);
/// assert_eq!(sf::FwdStatus::new(99), Err(sf::Error::Invalid));
/// ```
#[derive(Clone, Copy, Debug, PartialEq, Eq, PartialOrd, Ord, Hash)]
pub struct FwdStatus(u16);

impl FwdStatus {
    /// The status code of this number.
    ///
    /// # Errors
    ///
    /// [`Error::Invalid`] if it is below 100 or above 999.
    ///
    /// ```
    /// assert!(sf::FwdStatus::new(200).is_ok());
    /// ```
    pub fn new(status: u16) -> Result<FwdStatus, Error> {
        (100..=999)
            .contains(&status)
            .then_some(FwdStatus(status))
            .ok_or(Error::Invalid)
    }

    /// Its number.
    ///
    /// ```
    /// assert_eq!(sf::FwdStatus::new(200).unwrap().get(), 200);
    /// ```
    #[must_use]
    pub const fn get(self) -> u16 {
        self.0
    }

    /// Whether it is a valid status code, from 100 to 599: RFC 9110 section 15 calls the others
    /// invalid.
    ///
    /// ```
    /// assert!(sf::FwdStatus::new(599).unwrap().is_valid());
    /// assert!(!sf::FwdStatus::new(600).unwrap().is_valid());
    /// ```
    #[must_use]
    pub const fn is_valid(self) -> bool {
        self.0 <= 599
    }
}

impl TryFrom<u16> for FwdStatus {
    type Error = Error;

    fn try_from(status: u16) -> Result<FwdStatus, Error> {
        FwdStatus::new(status)
    }
}

impl From<FwdStatus> for u16 {
    fn from(status: FwdStatus) -> u16 {
        status.0
    }
}

impl PartialEq<u16> for FwdStatus {
    fn eq(&self, other: &u16) -> bool {
        self.0 == *other
    }
}

impl fmt::Display for FwdStatus {
    fn fmt(&self, f: &mut fmt::Formatter<'_>) -> fmt::Result {
        self.0.fmt(f)
    }
}

/// What the field says of a request that a cache forwarded.
///
/// ```
/// let path = sf::Path::parse("edge;fwd=stale;fwd-status=304;collapsed").unwrap();
/// let forwarded = path.hops().next().unwrap().outcome.forwarded().unwrap();
/// assert_eq!((forwarded.status.unwrap().get(), forwarded.collapsed), (304, Some(true)));
/// assert_eq!(forwarded.stored, None);
/// ```
#[derive(Clone, Copy, Debug, PartialEq, Eq, Hash)]
pub struct Forwarded<'a> {
    /// `fwd`: why (RFC 9211 section 2.2).
    pub why: Forward<'a>,
    /// `fwd-status`: the status code of the next hop's response (section 2.3).
    pub status: Option<FwdStatus>,
    /// `stored`: whether the cache stored the response (section 2.5).
    pub stored: Option<bool>,
    /// `collapsed`: whether the request was collapsed with others (section 2.6).
    pub collapsed: Option<bool>,
}

/// What a cache did with a request (RFC 9211 sections 2.1 and 2.2).
///
/// ```
/// let path = sf::Path::parse("a, b;hit").unwrap();
/// let outcomes: Vec<_> = path.hops().map(|hop| hop.outcome).collect();
/// assert_eq!(outcomes, [sf::Outcome::Unsaid, sf::Outcome::Hit]);
/// ```
#[derive(Clone, Copy, Debug, PartialEq, Eq, Hash)]
pub enum Outcome<'a> {
    /// `hit` is not true, and `fwd` is absent.
    Unsaid,
    /// It answered from its store: `hit` is true, and `fwd` is absent.
    Hit,
    /// It forwarded the request: `fwd` is present, and `hit` is not true.
    Forwarded(Forwarded<'a>),
    /// `hit` is true and `fwd` is present, though the RFC allows only one of them.
    Conflict(Forwarded<'a>),
}

impl<'a> From<Forwarded<'a>> for Outcome<'a> {
    fn from(forwarded: Forwarded<'a>) -> Outcome<'a> {
        Outcome::Forwarded(forwarded)
    }
}

impl<'a> Outcome<'a> {
    /// Its name: the words of `sf_outcome_name`. Its `Display` has the reason, too.
    ///
    /// ```
    /// let forwarded = sf::Forwarded::new(sf::Forward::Miss);
    /// assert_eq!(sf::Outcome::from(forwarded).as_str(), "forwarded");
    /// assert_eq!(sf::Outcome::Conflict(forwarded).as_str(), "hit and forwarded");
    /// ```
    #[must_use]
    pub fn as_str(self) -> &'static str {
        match self {
            Outcome::Unsaid => "unsaid",
            Outcome::Hit => "hit",
            Outcome::Forwarded(_) => "forwarded",
            Outcome::Conflict(_) => "hit and forwarded",
        }
    }

    /// What the field says of the forwarded request, if `fwd` is present.
    ///
    /// ```
    /// let path = sf::Path::parse("a;hit, b;fwd=miss").unwrap();
    /// let outcomes: Vec<_> = path.hops().map(|hop| hop.outcome.forwarded().is_some()).collect();
    /// assert_eq!(outcomes, [false, true]);
    /// ```
    #[must_use]
    pub fn forwarded(self) -> Option<Forwarded<'a>> {
        match self {
            Outcome::Forwarded(forwarded) | Outcome::Conflict(forwarded) => Some(forwarded),
            Outcome::Unsaid | Outcome::Hit => None,
        }
    }
}

/// The outcome, and the reason if the request was forwarded.
///
/// ```
/// let path = sf::Path::parse("a; fwd=uri-miss, b; hit").unwrap();
/// let outcomes: Vec<_> = path.hops().map(|hop| hop.outcome.to_string()).collect();
/// assert_eq!(outcomes, ["forwarded (uri-miss)", "hit"]);
/// ```
impl fmt::Display for Outcome<'_> {
    fn fmt(&self, f: &mut fmt::Formatter<'_>) -> fmt::Result {
        f.write_str(self.as_str())?;
        match self.forwarded() {
            Some(forwarded) => write!(f, " ({})", forwarded.why),
            None => Ok(()),
        }
    }
}

/// A cache on the path of a response, and what it did (RFC 9211 section 2). A parameter that the RFC
/// doesn't define is no part of it, nor is one of another type than the RFC states, nor what belongs
/// to `fwd` if that is absent: [`crate::List`] has them all.
///
/// ```
/// let path = sf::Path::parse("\"edge\"; hit; ttl=30; key=\"k\"").unwrap();
/// let hop = path.hops().next().unwrap();
/// assert_eq!((hop.ttl, hop.detail), (Some(30.into()), None));
/// assert_eq!(hop.key.unwrap(), "k");
/// ```
#[derive(Clone, Copy, Debug, PartialEq, Eq, Hash)]
pub struct Hop<'a> {
    /// The cache's name.
    pub name: Name<'a>,
    /// What it did with the request.
    pub outcome: Outcome<'a>,
    /// `ttl`: the remaining freshness lifetime in seconds; if negative, how long the response has
    /// been stale (section 2.4).
    pub ttl: Option<Integer>,
    /// `key`: the cache key (section 2.7).
    pub key: Option<&'a StringRef>,
    /// `detail`: further information from the cache (section 2.8).
    pub detail: Option<Name<'a>>,
}

impl<'a> Hop<'a> {
    /// A hop that says nothing but the cache's name. Set what it says by its fields.
    ///
    /// ```
    /// let hop = sf::Hop {
    ///     outcome: sf::Outcome::Hit,
    ///     ttl: Some(30.into()),
    ///     ..sf::Hop::new(sf::TokenRef::constant("edge"))
    /// };
    /// assert_eq!(hop.serialize().unwrap(), "edge;hit;ttl=30");
    /// ```
    #[must_use]
    pub fn new(name: impl Into<Name<'a>>) -> Hop<'a> {
        Hop {
            name: name.into(),
            outcome: Outcome::Unsaid,
            ttl: None,
            key: None,
            detail: None,
        }
    }

    /// The same with this outcome.
    ///
    /// ```
    /// let forwarded = sf::Forwarded::new(sf::Forward::UriMiss).with_stored(true);
    /// let hop = sf::Hop::new(sf::TokenRef::constant("edge")).with_outcome(forwarded);
    /// assert_eq!(hop.serialize().unwrap(), "edge;fwd=uri-miss;stored");
    /// ```
    #[must_use]
    pub fn with_outcome(self, outcome: impl Into<Outcome<'a>>) -> Hop<'a> {
        let outcome = outcome.into();
        Hop { outcome, ..self }
    }

    /// The same with this `ttl`, or without one: see [`Verdict::ttl`](crate::Verdict::ttl).
    ///
    /// ```
    /// use sf::{Hop, Integer, Outcome, TokenRef};
    /// let hop = Hop::new(TokenRef::constant("edge")).with_outcome(Outcome::Hit);
    /// assert_eq!(hop.with_ttl(Integer::from(-30)).to_string(), "edge;hit;ttl=-30");
    /// ```
    #[must_use]
    pub fn with_ttl(self, ttl: impl Into<Option<Integer>>) -> Hop<'a> {
        let ttl = ttl.into();
        Hop { ttl, ..self }
    }

    /// The same with this cache key.
    ///
    /// ```
    /// use sf::{Hop, StringRef, TokenRef};
    /// let hop = Hop::new(TokenRef::constant("edge")).with_key(StringRef::constant("/a"));
    /// assert_eq!(hop.to_string(), "edge;key=\"/a\"");
    /// ```
    #[must_use]
    pub fn with_key(self, key: &'a StringRef) -> Hop<'a> {
        let key = Some(key);
        Hop { key, ..self }
    }

    /// The same with this further information, a Token or a String.
    ///
    /// ```
    /// use sf::{Hop, TokenRef};
    /// let hop = Hop::new(TokenRef::constant("edge")).with_detail(TokenRef::constant("MEMORY"));
    /// assert_eq!(hop.to_string(), "edge;detail=MEMORY");
    /// ```
    #[must_use]
    pub fn with_detail(self, detail: impl Into<Name<'a>>) -> Hop<'a> {
        let detail = Some(detail.into());
        Hop { detail, ..self }
    }
}

impl<'a> Forwarded<'a> {
    /// A forwarded request of which the field says nothing but why.
    ///
    /// ```
    /// let forwarded = sf::Forwarded::new(sf::Forward::Stale);
    /// assert_eq!(forwarded.status, None);
    /// ```
    #[must_use]
    pub fn new(why: Forward<'a>) -> Forwarded<'a> {
        Forwarded {
            why,
            status: None,
            stored: None,
            collapsed: None,
        }
    }

    /// The same with a status code of the next hop's response.
    ///
    /// ```
    /// let status = sf::FwdStatus::new(304).unwrap();
    /// let forwarded = sf::Forwarded::new(sf::Forward::Stale).with_status(status);
    /// assert_eq!(forwarded.status, Some(status));
    /// ```
    #[must_use]
    pub fn with_status(self, status: FwdStatus) -> Forwarded<'a> {
        let status = Some(status);
        Forwarded { status, ..self }
    }

    /// The same with whether the cache stored the response: `stored`, or `stored=?0`.
    ///
    /// ```
    /// let forwarded = sf::Forwarded::new(sf::Forward::Miss).with_stored(true);
    /// assert_eq!(forwarded.stored, Some(true));
    /// ```
    #[must_use]
    pub fn with_stored(self, stored: bool) -> Forwarded<'a> {
        let stored = Some(stored);
        Forwarded { stored, ..self }
    }

    /// The same with whether the request was collapsed with others.
    ///
    /// ```
    /// let forwarded = sf::Forwarded::new(sf::Forward::Miss).with_collapsed(true);
    /// assert_eq!(forwarded.collapsed, Some(true));
    /// ```
    #[must_use]
    pub fn with_collapsed(self, collapsed: bool) -> Forwarded<'a> {
        let collapsed = Some(collapsed);
        Forwarded { collapsed, ..self }
    }
}
