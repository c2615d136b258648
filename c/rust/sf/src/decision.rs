use crate::ffi;
#[cfg(feature = "std")]
use crate::Dialect;
use crate::{Error, Parser, Policy, Seconds};
use core::fmt;
use sf_sys as raw;

/// A cache by who uses what it stores (RFC 9111 section 1).
#[derive(Clone, Copy, Debug, PartialEq, Eq, Hash)]
pub enum Cache {
    /// Stores responses for more than one user.
    Shared,
    /// Stores responses for one user.
    Private,
}

/// The directives that decide how a cache handles a response (RFC 9111 section 5.2.2): a
/// [`Policy`], and what it leaves out.
///
/// ```
/// use sf::{Cache, CacheRules, Cause, Response, Reuse};
/// let rules = CacheRules::parse("max-age=60, no-cache").unwrap().unwrap();
/// let decision = rules.decide(Cache::Shared, Response::default());
/// assert_eq!((decision.reuse, decision.cause), (Reuse::Revalidate, Some(Cause::NoCache)));
/// ```
#[derive(Clone, Copy, Debug, Default, PartialEq, Eq, Hash)]
#[allow(clippy::struct_excessive_bools)] // they are directives, each by its name
pub struct CacheRules {
    /// The directives of a policy.
    pub policy: Policy,
    /// `max-age` is present, but is not a number of seconds: the response is stale (section 4.2.1).
    /// [`Policy::max_age`] has no effect then.
    pub invalid_max_age: bool,
    /// `s-maxage` is present, but is not a number of seconds: in a shared cache the response is
    /// stale (section 4.2.1).
    pub invalid_s_maxage: bool,
    /// `proxy-revalidate`.
    pub proxy_revalidate: bool,
    /// `must-understand`.
    pub must_understand: bool,
    /// `public`.
    pub is_public: bool,
}

/// What a cache knows of a response beside its directives. The default is a new response without
/// another lifetime, whose status code is not understood.
///
/// ```
/// let response = sf::Response { age: 10, ..sf::Response::default() };
/// assert_eq!(response.lifetime, None);
/// ```
#[derive(Clone, Copy, Debug, Default, PartialEq, Eq, Hash)]
pub struct Response {
    /// Its age in seconds (RFC 9111 section 4.2.3); [`age`](crate::age()) reads a part of it, the
    /// `Age` field.
    pub age: u64,
    /// The lifetime in seconds by `Expires` less `Date` ([`Fallback::lifetime`]), or of a heuristic,
    /// if one may apply, which counts if no directive sets a lifetime (sections 4.2.1 and 4.2.2). If
    /// a targeted field decides, `Expires` is ignored (RFC 9213 section 2.2).
    ///
    /// [`Fallback::lifetime`]: crate::Fallback::lifetime
    pub lifetime: Option<u64>,
    /// Whether the cache understands the status code and implements its requirements (section
    /// 5.2.2.3).
    pub is_understood: bool,
}

/// Reads the `Age` field of a response, for [`Response::age`]: the number of the first member (RFC
/// 9111 section 5.1). A number above 2^31 counts as 2^31 (section 1.2.2). The text is that of the
/// lines, joined; white space around the number is no part of it. `None` if there is no field, or
/// if the first member is not one or more digits: a cache ignores the field then.
///
/// ```
/// assert_eq!(sf::age("20, 70"), Some(20));
/// assert_eq!(sf::age("99999999999999999999"), Some(1 << 31));
/// assert_eq!((sf::age("-5"), sf::age("90x"), sf::age("")), (None, None, None));
/// ```
#[must_use]
pub fn age(text: impl AsRef<[u8]>) -> Option<u64> {
    let first = text.as_ref().split(|byte| *byte == b',').next()?;
    let digits = crate::trim(first);
    let is_number = !digits.is_empty() && digits.iter().all(u8::is_ascii_digit);
    is_number.then(|| {
        digits.iter().fold(0, |age, digit| {
            (10 * age + u64::from(digit - b'0')).min(1 << 31)
        })
    })
}

/// How a cache may use a response (RFC 9111 sections 3 and 4).
///
/// ```
/// use sf::{Cache, CacheRules, Response, Reuse};
/// let rules = CacheRules::parse("max-age=60").unwrap().unwrap();
/// let decision = rules.decide(Cache::Shared, Response::default());
/// assert_eq!(decision.reuse, Reuse::Fresh { seconds: 60 });
/// ```
#[derive(Clone, Copy, Debug, PartialEq, Eq, Hash)]
pub enum Reuse {
    /// It is not stored, so it is never used again.
    NotStored,
    /// It may be stored, and is used without validation.
    Fresh {
        /// For how many seconds yet, at least 1.
        seconds: u64,
    },
    /// It may be stored. It is stale, and used without validation only if the cache is
    /// disconnected, or if the client or the origin permits it (section 4.2.4).
    Stale,
    /// It may be stored, by [`Cause::NoCache`] only if its status code, `Expires` or
    /// [`Decision::allows_storing`] permits it (section 3). It is never used without validation: if
    /// that fails, the answer is an error (section 5.2.2.2).
    Revalidate,
    /// No directive sets a lifetime: it may be stored if its status code or
    /// [`Decision::allows_storing`] permits it, and a heuristic may apply (section 4.2.2).
    Unspecified,
}

impl Reuse {
    /// Its name, which its `Display` is, too: the words of `sf_reuse_name`.
    ///
    /// ```
    /// assert_eq!(sf::Reuse::NotStored.as_str(), "not stored");
    /// assert_eq!(sf::Reuse::Fresh { seconds: 60 }.to_string(), "fresh");
    /// ```
    #[must_use]
    pub fn as_str(self) -> &'static str {
        match self {
            Reuse::NotStored => "not stored",
            Reuse::Fresh { .. } => "fresh",
            Reuse::Stale => "stale",
            Reuse::Revalidate => "revalidate",
            Reuse::Unspecified => "unspecified",
        }
    }
}

impl fmt::Display for Reuse {
    fn fmt(&self, f: &mut fmt::Formatter<'_>) -> fmt::Result {
        f.pad(self.as_str())
    }
}

/// The directive that decided (RFC 9111 section 5.2.2). Its `Display` is its name.
///
/// ```
/// use sf::{Cache, CacheRules, Cause, Response};
/// let rules = CacheRules::parse("max-age=60, private").unwrap().unwrap();
/// let decision = rules.decide(Cache::Shared, Response::default());
/// assert_eq!(decision.cause, Some(Cause::Private));
/// ```
#[derive(Clone, Copy, Debug, PartialEq, Eq, Hash)]
pub enum Cause {
    /// `no-store`.
    NoStore,
    /// `private`, in a shared cache.
    Private,
    /// `must-understand`.
    MustUnderstand,
    /// `no-cache`.
    NoCache,
    /// `max-age`.
    MaxAge,
    /// `s-maxage`, in a shared cache.
    SMaxage,
    /// A `max-age` that can't be used.
    InvalidMaxAge,
    /// An `s-maxage` that can't be used.
    InvalidSMaxage,
    /// [`Response::lifetime`].
    Expires,
    /// `must-revalidate`.
    MustRevalidate,
    /// `proxy-revalidate`, in a shared cache.
    ProxyRevalidate,
}

impl Cause {
    /// Its name: the words of `sf_cause_name`.
    ///
    /// ```
    /// assert_eq!(sf::Cause::InvalidMaxAge.as_str(), "invalid max-age");
    /// ```
    #[must_use]
    pub fn as_str(self) -> &'static str {
        match self {
            Cause::NoStore => "no-store",
            Cause::Private => "private",
            Cause::MustUnderstand => "must-understand",
            Cause::NoCache => "no-cache",
            Cause::MaxAge => "max-age",
            Cause::SMaxage => "s-maxage",
            Cause::InvalidMaxAge => "invalid max-age",
            Cause::InvalidSMaxage => "invalid s-maxage",
            Cause::Expires => "expires",
            Cause::MustRevalidate => "must-revalidate",
            Cause::ProxyRevalidate => "proxy-revalidate",
        }
    }
}

impl fmt::Display for Cause {
    fn fmt(&self, f: &mut fmt::Formatter<'_>) -> fmt::Result {
        f.pad(self.as_str())
    }
}

/// What a cache decides about a response.
///
/// ```
/// use sf::{Cache, CacheRules, Response};
/// let rules = CacheRules::parse("max-age=60").unwrap().unwrap();
/// let decision = rules.decide(Cache::Shared, Response::default());
/// assert!(decision.may_store());
/// assert_eq!(decision.fresh_for().map(u64::from), Some(60));
/// ```
#[derive(Clone, Copy, Debug, PartialEq, Eq, Hash)]
pub struct Decision {
    /// How the response may be used.
    pub reuse: Reuse,
    /// The directive that decided; `None` if there is none.
    pub cause: Option<Cause>,
    /// Whether a directive permits storing it, also if its status code is not heuristically
    /// cacheable (RFC 9111 section 3). [`Reuse::NotStored`] forbids it all the same.
    pub allows_storing: bool,
    /// Whether a directive permits a shared cache to store it, though the request had
    /// `Authorization` (section 3.5). [`Reuse::NotStored`] forbids it all the same.
    pub allows_authorized: bool,
}

impl From<raw::Rules> for CacheRules {
    fn from(rules: raw::Rules) -> CacheRules {
        CacheRules {
            policy: rules.policy.into(),
            invalid_max_age: rules.invalid_max_age != 0,
            invalid_s_maxage: rules.invalid_s_maxage != 0,
            proxy_revalidate: rules.proxy_revalidate != 0,
            must_understand: rules.must_understand != 0,
            is_public: rules.is_public != 0,
        }
    }
}

impl From<&CacheRules> for raw::Rules {
    fn from(rules: &CacheRules) -> raw::Rules {
        raw::Rules {
            policy: (&rules.policy).into(),
            invalid_max_age: u8::from(rules.invalid_max_age),
            invalid_s_maxage: u8::from(rules.invalid_s_maxage),
            proxy_revalidate: u8::from(rules.proxy_revalidate),
            must_understand: u8::from(rules.must_understand),
            is_public: u8::from(rules.is_public),
        }
    }
}

impl From<Response> for raw::Response {
    fn from(response: Response) -> raw::Response {
        raw::Response {
            age: response.age,
            lifetime: response.lifetime.unwrap_or(0),
            has_lifetime: u8::from(response.lifetime.is_some()),
            is_understood: u8::from(response.is_understood),
        }
    }
}

impl From<raw::Decision> for Decision {
    fn from(decision: raw::Decision) -> Decision {
        Decision {
            reuse: match decision.reuse {
                raw::REUSE_FRESH => Reuse::Fresh {
                    seconds: decision.seconds,
                },
                raw::REUSE_STALE => Reuse::Stale,
                raw::REUSE_REVALIDATE => Reuse::Revalidate,
                raw::REUSE_UNSPECIFIED => Reuse::Unspecified,
                _ => Reuse::NotStored,
            },
            cause: cause_of(decision.cause),
            allows_storing: decision.allows_storing != 0,
            allows_authorized: decision.allows_authorized != 0,
        }
    }
}

fn cause_of(cause: u8) -> Option<Cause> {
    Some(match cause {
        raw::BY_NO_STORE => Cause::NoStore,
        raw::BY_PRIVATE => Cause::Private,
        raw::BY_MUST_UNDERSTAND => Cause::MustUnderstand,
        raw::BY_NO_CACHE => Cause::NoCache,
        raw::BY_MAX_AGE => Cause::MaxAge,
        raw::BY_S_MAXAGE => Cause::SMaxage,
        raw::BY_INVALID_MAX_AGE => Cause::InvalidMaxAge,
        raw::BY_INVALID_S_MAXAGE => Cause::InvalidSMaxage,
        raw::BY_EXPIRES => Cause::Expires,
        raw::BY_MUST_REVALIDATE => Cause::MustRevalidate,
        raw::BY_PROXY_REVALIDATE => Cause::ProxyRevalidate,
        _ => return None,
    })
}

impl Decision {
    /// Whether the response may be stored by what was decided (RFC 9111 section 3), whatever its
    /// status code: it is not [`Reuse::NotStored`], and a directive or [`Response::lifetime`] sets
    /// how long it is fresh, or [`Decision::allows_storing`] is set. Otherwise it is not to be
    /// stored, or only if its status code is heuristically cacheable or, beside `no-cache`, if it
    /// has `Expires`. If the request had `Authorization`, [`Decision::allows_authorized`] counts in
    /// a shared cache, too.
    ///
    /// ```
    /// use sf::{Cache, CacheRules, Response};
    /// let may = |text| {
    ///     let rules = CacheRules::parse(text).unwrap().unwrap();
    ///     rules.decide(Cache::Shared, Response::default()).may_store()
    /// };
    /// assert!(may("max-age=60, no-cache") && may("public"));
    /// assert!(!may("max-age=60, no-store") && !may("a") && !may("no-cache"));
    /// ```
    #[must_use]
    pub fn may_store(&self) -> bool {
        match self.reuse {
            Reuse::NotStored => false,
            Reuse::Unspecified => self.allows_storing,
            Reuse::Revalidate => self.allows_storing || self.cause != Some(Cause::NoCache),
            Reuse::Fresh { .. } | Reuse::Stale => true,
        }
    }

    /// For how many seconds the response stays fresh, if it is fresh.
    ///
    /// ```
    /// use sf::{Cache, CacheRules, Response};
    /// let rules = CacheRules::parse("max-age=60").unwrap().unwrap();
    /// let aged = |age| rules.decide(Cache::Private, Response { age, ..Response::default() });
    /// assert_eq!(aged(59).fresh_for().map(u64::from), Some(1));
    /// assert_eq!(aged(60).fresh_for(), None);
    /// ```
    #[must_use]
    pub fn fresh_for(&self) -> Option<Seconds> {
        match self.reuse {
            Reuse::Fresh { seconds } => Seconds::new(seconds).ok(), // at most 2^31
            _ => None,
        }
    }
}

/// How the response may be used, and the directive that decided.
///
/// ```
/// use sf::{Cache, CacheRules, Response};
/// let decide = |text| {
///     let rules = CacheRules::parse(text).unwrap().unwrap();
///     rules.decide(Cache::Shared, Response::default()).to_string()
/// };
/// assert_eq!(decide("max-age=60"), "fresh for 60 s (max-age)");
/// assert_eq!(decide("no-cache"), "revalidate (no-cache)");
/// assert_eq!(decide("a"), "unspecified");
/// ```
impl fmt::Display for Decision {
    fn fmt(&self, f: &mut fmt::Formatter<'_>) -> fmt::Result {
        f.write_str(self.reuse.as_str())?;
        if let Reuse::Fresh { seconds } = self.reuse {
            write!(f, " for {seconds} s")?;
        }
        match self.cause {
            Some(cause) => write!(f, " ({cause})"),
            None => Ok(()),
        }
    }
}

impl CacheRules {
    /// Reads the text of one targeted field (RFC 9213 section 2.1), by RFC 9651; `None` if it has
    /// no members. After `None` and after [`Error::Refused`] a cache ignores this field and uses
    /// the next of its target list (section 2.2), as [`select_rules`] does.
    ///
    /// # Errors
    ///
    /// [`Error::Refused`] if the text is not a well-formed Dictionary.
    ///
    /// ```
    /// let rules = sf::CacheRules::parse("max-age=1.5").unwrap().unwrap();
    /// assert!(rules.invalid_max_age && rules.policy.max_age.is_none());
    /// ```
    #[cfg(feature = "std")]
    pub fn parse(text: impl AsRef<[u8]>) -> Result<Option<CacheRules>, Error> {
        Parser::new().cache_rules(text)
    }

    /// Reads the text of one targeted field by a dialect: see [`CacheRules::parse`].
    ///
    /// # Errors
    ///
    /// [`Error::Refused`] if the text is not a well-formed Dictionary.
    ///
    /// ```
    /// use sf::{CacheRules, Dialect};
    /// assert!(CacheRules::parse_in(Dialect::Rfc8941, "max-age=60, x=@1").is_err());
    /// assert!(CacheRules::parse_in(Dialect::Rfc9651, "max-age=60, x=@1").is_ok());
    /// ```
    #[cfg(feature = "std")]
    pub fn parse_in(dialect: Dialect, text: impl AsRef<[u8]>) -> Result<Option<CacheRules>, Error> {
        Parser::new().with_dialect(dialect).cache_rules(text)
    }

    /// Decides what a cache does with a response by these directives and its age (RFC 9111 sections
    /// 3, 4.2 and 5.2.2). Of directives that conflict, the most restrictive one decides. Ages and
    /// lifetimes above 2^31 seconds count as 2^31.
    ///
    /// ```
    /// use sf::{Cache, CacheRules, Cause, Response, Reuse};
    /// let rules = CacheRules::parse("max-age=60, must-revalidate").unwrap().unwrap();
    /// let aged = |age| rules.decide(Cache::Shared, Response { age, ..Response::default() });
    /// assert_eq!(aged(10).reuse, Reuse::Fresh { seconds: 50 });
    /// assert_eq!(aged(60).reuse, Reuse::Revalidate);
    /// assert_eq!(aged(60).cause, Some(Cause::MustRevalidate));
    /// ```
    #[must_use]
    pub fn decide(&self, cache: Cache, response: Response) -> Decision {
        let cache = match cache {
            Cache::Shared => raw::SHARED_CACHE,
            Cache::Private => raw::PRIVATE_CACHE,
        };
        match ffi::decide(&self.into(), cache, &response.into()) {
            Ok(decision) => decision.into(),
            // Another library: nothing is stored by what it says.
            Err(_) => Decision {
                reuse: Reuse::NotStored,
                cause: None,
                allows_storing: false,
                allows_authorized: false,
            },
        }
    }
}

/// The directives that are set, as the text of a targeted field. A lifetime that is not a number of
/// seconds is the Token `invalid`.
///
/// ```
/// let rules: sf::CacheRules = "public, max-age=1.5, no-store, x".parse().unwrap();
/// assert_eq!(rules.to_string(), "no-store, max-age=invalid, public");
/// assert_eq!(rules.to_string().parse(), Ok(rules));
/// ```
#[cfg(feature = "std")]
impl fmt::Display for CacheRules {
    fn fmt(&self, f: &mut fmt::Formatter<'_>) -> fmt::Result {
        let mut field = self.policy.to_dictionary().map_err(|_| fmt::Error)?;
        for (name, is_invalid) in [
            ("max-age", self.invalid_max_age),
            ("s-maxage", self.invalid_s_maxage),
        ] {
            if is_invalid {
                let invalid = crate::TokenRef::constant("invalid");
                field.insert(name, invalid).map_err(|_| fmt::Error)?;
            }
        }
        for (name, is_set) in [
            ("proxy-revalidate", self.proxy_revalidate),
            ("must-understand", self.must_understand),
            ("public", self.is_public),
        ] {
            if is_set {
                field.insert(name, true).map_err(|_| fmt::Error)?;
            }
        }
        field.fmt(f)
    }
}

/// Which field of a target list a cache obeys (RFC 9213 section 2.2), with what decides.
///
/// ```
/// use sf::{select_rules, RulesChoice};
/// let choice = select_rules(["a,", "no-store"]).unwrap();
/// assert!(matches!(choice, RulesChoice::Field { index: 1, .. }));
/// assert_eq!(select_rules(["a,"]).unwrap(), RulesChoice::Fallback);
/// ```
#[derive(Clone, Copy, Debug, PartialEq, Eq, Hash)]
pub enum RulesChoice {
    /// This field; those before it are ignored.
    Field {
        /// The index of the field in the target list, from 0.
        index: usize,
        /// Its directives.
        rules: CacheRules,
    },
    /// Each field is ignored: `Cache-Control` and `Expires` decide, by a
    /// [`Fallback`](crate::Fallback).
    Fallback,
}

impl RulesChoice {
    /// The index of the field that is obeyed in the target list, from 0, if there is one.
    ///
    /// ```
    /// assert_eq!(sf::select_rules(["a,", "no-store"]).unwrap().index(), Some(1));
    /// assert_eq!(sf::select_rules(["a,"]).unwrap().index(), None);
    /// ```
    #[must_use]
    pub fn index(&self) -> Option<usize> {
        match self {
            RulesChoice::Field { index, .. } => Some(*index),
            RulesChoice::Fallback => None,
        }
    }

    /// The directives of that field, if there is one.
    ///
    /// ```
    /// let choice = sf::select_rules(["a,", "no-store"]).unwrap();
    /// assert!(choice.rules().unwrap().policy.no_store);
    /// ```
    #[must_use]
    pub fn rules(&self) -> Option<CacheRules> {
        match self {
            RulesChoice::Field { rules, .. } => Some(*rules),
            RulesChoice::Fallback => None,
        }
    }
}

impl Parser {
    /// Reads the text of one targeted field, by the dialect of the parser; `None` if it has no
    /// members: see [`CacheRules::parse`]. RFC 9213 cites RFC 8941.
    ///
    /// # Errors
    ///
    /// [`Error::Refused`] if the text is not a well-formed Dictionary.
    ///
    /// ```
    /// let old = sf::Parser::new().with_dialect(sf::Dialect::Rfc8941);
    /// assert!(old.cache_rules("max-age=60").unwrap().is_some());
    /// assert!(old.cache_rules("max-age=60, x=@1").is_err());
    /// ```
    pub fn cache_rules(&self, text: impl AsRef<[u8]>) -> Result<Option<CacheRules>, Error> {
        let rules = ffi::cache_rules(&self.seed(), self.dialect(), text.as_ref())?;
        Ok(rules.map(CacheRules::from))
    }

    /// Chooses the field of a target list that a cache obeys, by the dialect of the parser: see
    /// [`select_rules`](crate::select_rules).
    ///
    /// # Errors
    ///
    /// [`Error::OutOfMemory`] only.
    ///
    /// ```
    /// use sf::{Dialect, Parser, RulesChoice};
    /// let old = Parser::new().with_dialect(Dialect::Rfc8941);
    /// let choice = old.select_rules(["max-age=60, x=@1", "no-store"]).unwrap();
    /// assert!(matches!(choice, RulesChoice::Field { index: 1, .. }));
    /// ```
    pub fn select_rules(
        &self,
        fields: impl IntoIterator<Item = impl AsRef<[u8]>>,
    ) -> Result<RulesChoice, Error> {
        for (index, field) in fields.into_iter().enumerate() {
            match self.cache_rules(field) {
                Ok(Some(rules)) => return Ok(RulesChoice::Field { index, rules }),
                Ok(None) | Err(Error::Refused(_)) => {}
                Err(error) => return Err(error),
            }
        }
        Ok(RulesChoice::Fallback)
    }
}

/// Chooses the field that a cache obeys, as [`select`](crate::select) does, with the directives
/// that decide how it handles the response.
///
/// # Errors
///
/// [`Error::OutOfMemory`] only.
///
/// ```
/// use sf::{Cache, Response, Reuse, RulesChoice};
/// match sf::select_rules(["a,", "no-store"]).unwrap() {
///     RulesChoice::Field { index, rules } => {
///         let decision = rules.decide(Cache::Shared, Response::default());
///         assert_eq!((index, decision.reuse), (1, Reuse::NotStored));
///     }
///     RulesChoice::Fallback => panic!("the second field can be used"),
/// }
/// ```
#[cfg(feature = "std")]
pub fn select_rules(
    fields: impl IntoIterator<Item = impl AsRef<[u8]>>,
) -> Result<RulesChoice, Error> {
    Parser::new().select_rules(fields)
}

/// Chooses the field that a cache obeys by a dialect: see [`select_rules`].
///
/// # Errors
///
/// [`Error::OutOfMemory`] only.
///
/// ```
/// use sf::{select_rules_in, Dialect};
/// let targets = ["max-age=60, x=@1", "no-store"];
/// assert_eq!(select_rules_in(Dialect::Rfc8941, targets).unwrap().index(), Some(1));
/// assert_eq!(select_rules_in(Dialect::Rfc9651, targets).unwrap().index(), Some(0));
/// ```
#[cfg(feature = "std")]
pub fn select_rules_in(
    dialect: Dialect,
    fields: impl IntoIterator<Item = impl AsRef<[u8]>>,
) -> Result<RulesChoice, Error> {
    Parser::new().with_dialect(dialect).select_rules(fields)
}
