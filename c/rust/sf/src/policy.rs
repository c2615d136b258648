use crate::ffi;
#[cfg(feature = "std")]
use crate::Dialect;
use crate::{Error, Integer, Parser, RulesChoice};
use core::fmt;
use core::time::Duration;
use sf_sys as raw;

/// A number of seconds, as `max-age` has it (RFC 9111 section 1.2.2): an Integer that is not
/// negative.
///
/// ```
/// use sf::Seconds;
/// assert_eq!(Seconds::from(60).get(), 60);
/// assert_eq!(Seconds::new(1_000_000_000_000_000), Err(sf::Error::Invalid));
/// ```
#[derive(Clone, Copy, Debug, Default, PartialEq, Eq, PartialOrd, Ord, Hash)]
pub struct Seconds(u64);

impl Seconds {
    /// So many seconds.
    ///
    /// # Errors
    ///
    /// [`Error::Invalid`] if they are more than the largest Integer, 999,999,999,999,999.
    ///
    /// ```
    /// assert!(sf::Seconds::new(600).is_ok());
    /// ```
    pub fn new(seconds: u64) -> Result<Seconds, Error> {
        Integer::try_from(seconds).map(|_| Seconds(seconds))
    }

    /// The number.
    ///
    /// ```
    /// assert_eq!(sf::Seconds::from(600).get(), 600);
    /// ```
    #[must_use]
    pub const fn get(self) -> u64 {
        self.0
    }

    /// The same for the standard library.
    ///
    /// ```
    /// assert_eq!(sf::Seconds::from(60).duration(), std::time::Duration::from_secs(60));
    /// ```
    #[must_use]
    pub const fn duration(self) -> Duration {
        Duration::from_secs(self.0)
    }
}

impl From<u32> for Seconds {
    fn from(seconds: u32) -> Seconds {
        Seconds(seconds.into())
    }
}

impl TryFrom<u64> for Seconds {
    type Error = Error;

    fn try_from(seconds: u64) -> Result<Seconds, Error> {
        Seconds::new(seconds)
    }
}

/// The whole seconds of it.
impl TryFrom<Duration> for Seconds {
    type Error = Error;

    fn try_from(duration: Duration) -> Result<Seconds, Error> {
        Seconds::new(duration.as_secs())
    }
}

impl From<Seconds> for u64 {
    fn from(seconds: Seconds) -> u64 {
        seconds.0
    }
}

impl From<Seconds> for Duration {
    fn from(seconds: Seconds) -> Duration {
        seconds.duration()
    }
}

#[allow(clippy::cast_possible_wrap)] // it is an Integer
impl From<Seconds> for Integer {
    fn from(seconds: Seconds) -> Integer {
        Integer::known(seconds.0 as i64)
    }
}

impl PartialEq<u64> for Seconds {
    fn eq(&self, other: &u64) -> bool {
        self.0 == *other
    }
}

impl fmt::Display for Seconds {
    fn fmt(&self, f: &mut fmt::Formatter<'_>) -> fmt::Result {
        self.0.fmt(f)
    }
}

/// The directives of a targeted field (RFC 9213 section 2.1, RFC 9111 section 5.2.2). Its `Display`
/// is the text of a field with these directives; if it is empty, the field is not to be sent.
///
/// ```
/// let policy: sf::Policy = "max-age=30, s-maxage=90".parse().unwrap();
/// assert_eq!(policy.lifetime(true), Some(90.into()));
/// assert_eq!(policy.lifetime(false), Some(30.into()));
/// let policy = sf::Policy { no_store: true, ..sf::Policy::default() };
/// assert_eq!(policy.to_string(), "no-store");
/// ```
#[derive(Clone, Copy, Debug, Default, PartialEq, Eq, Hash)]
#[allow(clippy::struct_excessive_bools)] // they are directives, each by its name
pub struct Policy {
    /// `max-age`.
    pub max_age: Option<Seconds>,
    /// `s-maxage`.
    pub s_maxage: Option<Seconds>,
    /// `must-revalidate`.
    pub must_revalidate: bool,
    /// `no-store`.
    pub no_store: bool,
    /// `no-cache`.
    pub no_cache: bool,
    /// `private`.
    pub is_private: bool,
}

impl From<raw::Policy> for Policy {
    fn from(policy: raw::Policy) -> Policy {
        Policy {
            max_age: (policy.has_max_age != 0).then_some(Seconds(policy.max_age)),
            s_maxage: (policy.has_s_maxage != 0).then_some(Seconds(policy.s_maxage)),
            must_revalidate: policy.must_revalidate != 0,
            no_store: policy.no_store != 0,
            no_cache: policy.no_cache != 0,
            is_private: policy.is_private != 0,
        }
    }
}

impl From<&Policy> for raw::Policy {
    fn from(policy: &Policy) -> raw::Policy {
        raw::Policy {
            max_age: policy.max_age.map_or(0, Seconds::get),
            s_maxage: policy.s_maxage.map_or(0, Seconds::get),
            has_max_age: u8::from(policy.max_age.is_some()),
            has_s_maxage: u8::from(policy.s_maxage.is_some()),
            must_revalidate: u8::from(policy.must_revalidate),
            no_store: u8::from(policy.no_store),
            no_cache: u8::from(policy.no_cache),
            is_private: u8::from(policy.is_private),
        }
    }
}

impl Policy {
    /// Reads the text of one targeted field (RFC 9213 section 2.1); `None` if it has no members.
    /// After `None` and after [`Error::Refused`] a cache ignores this field and uses the next of
    /// its target list (section 2.2), as [`select`] does.
    ///
    /// # Errors
    ///
    /// [`Error::Refused`] if the text is not a well-formed Dictionary.
    ///
    /// ```
    /// let policy = sf::Policy::parse("max-age=60, no-cache").unwrap().unwrap();
    /// assert!(policy.no_cache && policy.max_age == Some(60.into()));
    /// assert_eq!(sf::Policy::parse(""), Ok(None));
    /// ```
    #[cfg(feature = "std")]
    pub fn parse(text: impl AsRef<[u8]>) -> Result<Option<Policy>, Error> {
        Parser::new().policy(text)
    }

    /// Reads the text of one targeted field by a dialect: see [`Policy::parse`].
    ///
    /// # Errors
    ///
    /// [`Error::Refused`] if the text is not a well-formed Dictionary.
    ///
    /// ```
    /// use sf::{Dialect, Policy};
    /// assert!(Policy::parse_in(Dialect::Rfc8941, "max-age=60, x=@1").is_err());
    /// assert!(Policy::parse_in(Dialect::Rfc9651, "max-age=60, x=@1").is_ok());
    /// ```
    #[cfg(feature = "std")]
    pub fn parse_in(dialect: Dialect, text: impl AsRef<[u8]>) -> Result<Option<Policy>, Error> {
        Parser::new().with_dialect(dialect).policy(text)
    }

    /// The freshness lifetime of a response, in a shared or in a private cache; `None` if the
    /// policy sets none (RFC 9111 section 4.2.1).
    ///
    /// ```
    /// let policy = sf::Policy { s_maxage: Some(90.into()), ..sf::Policy::default() };
    /// assert_eq!(policy.lifetime(true), Some(90.into()));
    /// assert_eq!(policy.lifetime(false), None);
    /// ```
    #[must_use]
    pub fn lifetime(&self, shared: bool) -> Option<Seconds> {
        ffi::lifetime(&self.into(), shared).map(Seconds)
    }

    /// Whether a shared cache may store the response, as far as these directives say: neither
    /// `no-store` nor `private` is set (RFC 9111 section 3).
    ///
    /// ```
    /// assert!(sf::Policy::default().may_store_shared());
    /// assert!(!sf::Policy::parse("private").unwrap().unwrap().may_store_shared());
    /// ```
    #[must_use]
    pub fn may_store_shared(&self) -> bool {
        !self.no_store && !self.is_private
    }

    /// The directives that are set, by their names.
    #[cfg(feature = "std")]
    pub(crate) fn to_dictionary(self) -> Result<crate::Dictionary, Error> {
        let mut field = crate::Dictionary::new();
        for (name, seconds) in [("max-age", self.max_age), ("s-maxage", self.s_maxage)] {
            if let Some(seconds) = seconds {
                field.insert(name, Integer::from(seconds))?;
            }
        }
        let flags = [
            ("must-revalidate", self.must_revalidate),
            ("no-store", self.no_store),
            ("no-cache", self.no_cache),
            ("private", self.is_private),
        ];
        for (name, is_set) in flags {
            if is_set {
                field.insert(name, true)?;
            }
        }
        Ok(field)
    }
}

#[cfg(feature = "std")]
impl fmt::Display for Policy {
    fn fmt(&self, f: &mut fmt::Formatter<'_>) -> fmt::Result {
        self.to_dictionary().map_err(|_| fmt::Error)?.fmt(f)
    }
}

/// Which field of a target list a cache obeys (RFC 9213 section 2.2).
///
/// ```
/// let choice = sf::select(["max-age=60,", "", "max-age=600"]).unwrap();
/// assert!(matches!(choice, sf::Choice::Field { index: 2, .. }));
/// ```
#[derive(Clone, Copy, Debug, PartialEq, Eq, Hash)]
pub enum Choice {
    /// This field; those before it are ignored.
    Field {
        /// The index of the field in the target list, from 0.
        index: usize,
        /// Its directives.
        policy: Policy,
    },
    /// Each field is ignored: `Cache-Control` and `Expires` decide, by a
    /// [`Fallback`](crate::Fallback).
    Fallback,
}

impl Choice {
    /// The directives of the field that is obeyed, if there is one.
    ///
    /// ```
    /// let choice = sf::select(["", "max-age=600"]).unwrap();
    /// assert_eq!(choice.policy().and_then(|policy| policy.max_age), Some(600.into()));
    /// assert_eq!(sf::select([""]).unwrap().policy(), None);
    /// ```
    #[must_use]
    pub fn policy(&self) -> Option<Policy> {
        match self {
            Choice::Field { policy, .. } => Some(*policy),
            Choice::Fallback => None,
        }
    }

    /// The index of the field that is obeyed in the target list, if there is one.
    ///
    /// ```
    /// assert_eq!(sf::select(["", "max-age=600"]).unwrap().index(), Some(1));
    /// ```
    #[must_use]
    pub fn index(&self) -> Option<usize> {
        match self {
            Choice::Field { index, .. } => Some(*index),
            Choice::Fallback => None,
        }
    }
}

impl From<RulesChoice> for Choice {
    fn from(choice: RulesChoice) -> Choice {
        match choice {
            RulesChoice::Field { index, rules } => Choice::Field {
                index,
                policy: rules.policy,
            },
            RulesChoice::Fallback => Choice::Fallback,
        }
    }
}

impl Parser {
    /// Reads the text of one targeted field, by the dialect of the parser; `None` if it has no
    /// members: see [`Policy::parse`]. RFC 9213 cites RFC 8941.
    ///
    /// # Errors
    ///
    /// [`Error::Refused`] if the text is not a well-formed Dictionary.
    ///
    /// ```
    /// let policy = sf::Parser::new().policy("max-age=60").unwrap();
    /// assert_eq!(policy.and_then(|policy| policy.max_age), Some(60.into()));
    /// let old = sf::Parser::new().with_dialect(sf::Dialect::Rfc8941);
    /// assert!(old.policy("max-age=60, x=@1").is_err());
    /// ```
    pub fn policy(&self, text: impl AsRef<[u8]>) -> Result<Option<Policy>, Error> {
        Ok(self.cache_rules(text)?.map(|rules| rules.policy))
    }

    /// Chooses the field of a target list that a cache obeys, by the dialect of the parser: see
    /// [`select`](crate::select).
    ///
    /// # Errors
    ///
    /// [`Error::OutOfMemory`] only.
    ///
    /// ```
    /// let choice = sf::Parser::new().select(["", "no-store"]).unwrap();
    /// assert!(choice.policy().unwrap().no_store);
    /// ```
    pub fn select(
        &self,
        fields: impl IntoIterator<Item = impl AsRef<[u8]>>,
    ) -> Result<Choice, Error> {
        self.select_rules(fields).map(Choice::from)
    }
}

/// Chooses the field that a cache obeys: the first of its target list that is not ignored (RFC 9213
/// section 2.2). The texts of the fields are in the order of the list; that of a field that the
/// response does not have is empty. A field is ignored if its text is not a well-formed Dictionary,
/// or is one without members (section 2.1). The fields after the one that is obeyed are not read.
/// Texts are read by RFC 9651; [`select_in`] has a dialect.
///
/// # Errors
///
/// [`Error::OutOfMemory`] only.
///
/// ```
/// let own = sf::join(["max-age=60"]).unwrap(); // ExampleCDN-Cache-Control
/// let others = sf::join(["max-age=600", "no-store"]).unwrap(); // CDN-Cache-Control
/// let choice = sf::select([own, others]).unwrap();
/// assert_eq!(choice.policy().and_then(|policy| policy.max_age), Some(60.into()));
/// ```
#[cfg(feature = "std")]
pub fn select(fields: impl IntoIterator<Item = impl AsRef<[u8]>>) -> Result<Choice, Error> {
    Parser::new().select(fields)
}

/// Chooses the field that a cache obeys by a dialect: see [`select`].
///
/// # Errors
///
/// Those of [`select`].
///
/// ```
/// use sf::{select_in, Dialect};
/// let targets = ["max-age=60, x=@1", "no-store"];
/// assert_eq!(select_in(Dialect::Rfc8941, targets).unwrap().index(), Some(1));
/// assert_eq!(select_in(Dialect::Rfc9651, targets).unwrap().index(), Some(0));
/// ```
#[cfg(feature = "std")]
pub fn select_in(
    dialect: Dialect,
    fields: impl IntoIterator<Item = impl AsRef<[u8]>>,
) -> Result<Choice, Error> {
    Parser::new().with_dialect(dialect).select(fields)
}
