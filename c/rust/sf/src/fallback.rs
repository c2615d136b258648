use crate::line::is_of;
use crate::{directives, ffi, trim};
use crate::{Cache, CacheRules, Decision, FieldLine, Refusal, Response};
use core::fmt;
use sf_sys as raw;

/// What `Cache-Control`, `Expires` and `Date` of a response say, by which a cache decides if each
/// field of its target list is ignored ([`RulesChoice::Fallback`](crate::RulesChoice::Fallback)).
/// It begins without a line; add each line of these fields, in order. White space around a value is
/// skipped. Does not allocate. `Exchange::decide` reads these fields itself.
///
/// ```
/// use sf::{Cache, Cause, Fallback, Response, Reuse};
/// let mut fallback = Fallback::new();
/// fallback.add_cache_control("Public, ,");
/// fallback.add_expires("Sun, 06 Nov 1994 08:50:37 GMT");
/// fallback.add_date("Sun, 06 Nov 1994 08:49:37 GMT");
/// let decision = fallback.decide(Cache::Shared, 784_111_777, Response::default());
/// assert_eq!(decision.reuse, Reuse::Fresh { seconds: 60 });
/// assert_eq!(decision.cause, Some(Cause::Expires));
/// ```
#[derive(Clone, Copy, Debug, PartialEq, Eq)]
pub struct Fallback {
    fields: raw::Fallback,
    /// The number of lines of `Cache-Control`, and the first that is refused.
    lines: usize,
    refused: Option<LineRefusal>,
    /// Whether there are several lines of these.
    repeats_expires: bool,
    repeats_date: bool,
}

/// A line that is refused: its index, from 0, and the refusal, whose offset is in that line. In its
/// `Display`, lines are counted from 1.
///
/// ```
/// let mut fallback = sf::Fallback::new();
/// fallback.add_cache_control("max-age=60");
/// fallback.add_cache_control("private, a b");
/// let refused = fallback.refusal().unwrap();
/// assert_eq!((refused.line, refused.refusal.offset), (1, 11));
/// assert_eq!(
///     refused.to_string(),
///     "line 2: byte 0x62 'b' at place 11, expected `,` or the end"
/// );
/// ```
#[derive(Clone, Copy, Debug, PartialEq, Eq)]
pub struct LineRefusal {
    /// The index of the line.
    pub line: usize,
    /// Where the line is malformed, and why.
    pub refusal: Refusal,
}

impl fmt::Display for LineRefusal {
    fn fmt(&self, f: &mut fmt::Formatter<'_>) -> fmt::Result {
        write!(f, "line {}: {}", self.line + 1, self.refusal)
    }
}

/// What the lines of `Expires` or of `Date` say, each a field of one HTTP-date (RFC 9110 section
/// 5.6.7).
///
/// ```
/// use sf::{Fallback, FieldDate};
/// let mut fallback = Fallback::new();
/// fallback.add_expires("0");
/// fallback.add_date("Sun, 06 Nov 1994 08:49:37 GMT");
/// assert_eq!(fallback.expires(), FieldDate::Malformed);
/// assert_eq!(fallback.date().seconds(), Some(784_111_777));
/// ```
#[derive(Clone, Copy, Debug, PartialEq, Eq, Hash)]
pub enum FieldDate {
    /// There is no line.
    Absent,
    /// This time, in seconds since 1970.
    At(u64),
    /// The only line is no HTTP-date.
    Malformed,
    /// There are several lines, none of which counts.
    Repeated,
}

impl FieldDate {
    /// The time, in seconds since 1970, if there is one that counts.
    ///
    /// ```
    /// assert_eq!(sf::FieldDate::At(784_111_777).seconds(), Some(784_111_777));
    /// assert_eq!(sf::FieldDate::Repeated.seconds(), None);
    /// ```
    #[must_use]
    pub fn seconds(self) -> Option<u64> {
        match self {
            FieldDate::At(seconds) => Some(seconds),
            _ => None,
        }
    }

    fn of(time: raw::Time, is_repeated: bool) -> FieldDate {
        match (time.lines, is_repeated) {
            (0, _) => FieldDate::Absent,
            (1, _) => FieldDate::At(time.seconds),
            (_, false) => FieldDate::Malformed,
            (_, true) => FieldDate::Repeated,
        }
    }
}

impl Default for Fallback {
    fn default() -> Fallback {
        Fallback::new()
    }
}

impl Fallback {
    /// What the fields say before their first line: nothing.
    ///
    /// ```
    /// let none = sf::Fallback::new();
    /// assert_eq!((none.rules(), none.lifetime(0)), (sf::CacheRules::default(), None));
    /// ```
    #[must_use]
    pub const fn new() -> Fallback {
        Fallback {
            fields: ffi::NO_FALLBACK,
            lines: 0,
            refused: None,
            repeats_expires: false,
            repeats_date: false,
        }
    }

    /// Reads the lines of `Cache-Control`, `Expires` and `Date` of the head of a response. The head
    /// is its field lines, such as a slice of pairs or a `&HeaderMap` of the crate `http`.
    ///
    /// ```
    /// let head = [("Cache-Control", "Max-Age=60"), ("Age", "1"), ("cache-control", "No-Store")];
    /// assert!(sf::Fallback::from_headers(&head).rules().policy.no_store);
    /// ```
    #[must_use]
    pub fn from_headers(head: impl IntoIterator<Item = impl FieldLine>) -> Fallback {
        let mut fallback = Fallback::new();
        for line in head {
            if is_of(&line, "Cache-Control") {
                fallback.add_cache_control(line.value());
            } else if is_of(&line, "Expires") {
                fallback.add_expires(line.value());
            } else if is_of(&line, "Date") {
                fallback.add_date(line.value());
            }
        }
        fallback
    }

    /// Adds a line of `Cache-Control`. It is no structured field, and is read by RFC 9111 section
    /// 5.2: names of directives have no case, an argument is a token or a quoted-string, and empty
    /// members are skipped. Two values of `max-age`, or of `s-maxage`, that differ are invalid.
    ///
    /// ```
    /// let mut fallback = sf::Fallback::new();
    /// fallback.add_cache_control("No-Store, Max-Age=\"0\",,");
    /// assert!(fallback.rules().policy.no_store);
    /// assert_eq!(fallback.rules().policy.max_age.map(u64::from), Some(0));
    /// ```
    pub fn add_cache_control(&mut self, line: impl AsRef<[u8]>) {
        let line = line.as_ref();
        self.add(raw::FALLBACK_CACHE_CONTROL, line);
        if self.is_refused() && self.refused.is_none() {
            self.refused = Some(LineRefusal {
                line: self.lines,
                refusal: directives::refusal(line),
            });
        }
        self.lines += 1;
    }

    /// Adds a line of `Expires`. If there are several, or if it is no HTTP-date (RFC 9110 section
    /// 5.6.7), such as `0`, it is in the past (RFC 9111 sections 4.2.1 and 5.3).
    ///
    /// ```
    /// let mut fallback = sf::Fallback::new();
    /// fallback.add_expires("0");
    /// assert_eq!(fallback.lifetime(784_111_777), Some(0));
    /// ```
    pub fn add_expires(&mut self, line: impl AsRef<[u8]>) {
        self.repeats_expires = self.fields.expires.lines != 0;
        self.add(raw::FALLBACK_EXPIRES, line.as_ref());
    }

    /// Adds a line of `Date`. If there are several, or if it is no HTTP-date, it counts as absent.
    ///
    /// ```
    /// let mut fallback = sf::Fallback::new();
    /// fallback.add_expires("Sun, 06 Nov 1994 08:50:37 GMT");
    /// fallback.add_date("yesterday");
    /// assert_eq!(fallback.lifetime(784_111_827), Some(10));
    /// ```
    pub fn add_date(&mut self, line: impl AsRef<[u8]>) {
        self.repeats_date = self.fields.date.lines != 0;
        self.add(raw::FALLBACK_DATE, line.as_ref());
    }

    fn add(&mut self, field: u32, line: &[u8]) {
        ffi::add_fallback_line(field, trim(line), &mut self.fields);
    }

    /// The directives of `Cache-Control`; those of `no-store` if a line of it is no list of
    /// directives, since one that forbids storing may be lost.
    ///
    /// ```
    /// let mut fallback = sf::Fallback::new();
    /// fallback.add_cache_control("max-age=60");
    /// fallback.add_cache_control("private, a b");
    /// assert!(fallback.is_refused() && fallback.rules().policy.no_store);
    /// assert_eq!(fallback.rules().policy.max_age, None);
    /// ```
    #[must_use]
    pub fn rules(&self) -> CacheRules {
        self.fields.rules.into()
    }

    /// Whether a line of `Cache-Control` is no list of directives.
    ///
    /// ```
    /// let mut fallback = sf::Fallback::new();
    /// fallback.add_cache_control("a,,");
    /// assert!(!fallback.is_refused());
    /// fallback.add_cache_control("a b");
    /// assert!(fallback.is_refused());
    /// ```
    #[must_use]
    pub fn is_refused(&self) -> bool {
        self.fields.is_refused != 0
    }

    /// The first line of `Cache-Control` that is no list of directives: its index among these lines,
    /// and where it is none. The directives are then those of `no-store`. In a quoted-string bytes
    /// above 127 are allowed, too; [`Refusal::expected`] has none of them.
    ///
    /// ```
    /// let mut fallback = sf::Fallback::new();
    /// fallback.add_cache_control("max-age=60, x=");
    /// let refusal = fallback.refusal().unwrap().refusal;
    /// assert_eq!((refusal.offset, refusal.found), (14, None));
    /// assert!(refusal.expects(b'"') && refusal.expects(b'a') && !refusal.expects(b','));
    /// ```
    #[must_use]
    pub fn refusal(&self) -> Option<LineRefusal> {
        self.refused
    }

    /// What `Expires` says. If it is [`FieldDate::Malformed`] or [`FieldDate::Repeated`], it is in
    /// the past.
    ///
    /// ```
    /// use sf::{Fallback, FieldDate};
    /// let mut fallback = Fallback::new();
    /// assert_eq!(fallback.expires(), FieldDate::Absent);
    /// fallback.add_expires("Sun, 06 Nov 1994 08:50:37 GMT");
    /// assert_eq!(fallback.expires(), FieldDate::At(784_111_837));
    /// fallback.add_expires("Sun, 06 Nov 1994 08:50:37 GMT");
    /// assert_eq!(fallback.expires(), FieldDate::Repeated);
    /// ```
    #[must_use]
    pub fn expires(&self) -> FieldDate {
        FieldDate::of(self.fields.expires, self.repeats_expires)
    }

    /// What `Date` says. If it is [`FieldDate::Malformed`] or [`FieldDate::Repeated`], the time at
    /// which the response was received takes its place.
    ///
    /// ```
    /// let mut fallback = sf::Fallback::new();
    /// fallback.add_date("Sunday, 06-Nov-94 08:49:37 GMT");
    /// assert_eq!(fallback.date(), sf::FieldDate::At(784_111_777));
    /// ```
    #[must_use]
    pub fn date(&self) -> FieldDate {
        FieldDate::of(self.fields.date, self.repeats_date)
    }

    /// The lifetime by `Expires`, for [`Response::lifetime`]: the seconds from `Date` to `Expires`,
    /// or 0 if that is not later (RFC 9111 section 4.2.1); from the time at which the response was
    /// received, in seconds since 1970, if `Date` is absent. `None` without `Expires`.
    ///
    /// ```
    /// let mut fallback = sf::Fallback::new();
    /// fallback.add_expires("Sun, 06 Nov 1994 08:50:37 GMT");
    /// assert_eq!(fallback.lifetime(784_111_777), Some(60));
    /// ```
    #[must_use]
    pub fn lifetime(&self, received: u64) -> Option<u64> {
        ffi::fallback_lifetime(&self.fields, received)
    }

    /// Decides what a cache does with a response by these fields: [`CacheRules::decide`] with the
    /// lifetime by `Expires`, if there is one, in the place of that of the response, such as a
    /// heuristic.
    ///
    /// ```
    /// use sf::{Cache, Fallback, Response, Reuse};
    /// let heuristic = Response { lifetime: Some(5), ..Response::default() };
    /// let decide = |fallback: Fallback| fallback.decide(Cache::Private, 784_111_777, heuristic);
    /// let mut fallback = Fallback::new();
    /// assert_eq!(decide(fallback).reuse, Reuse::Fresh { seconds: 5 });
    /// fallback.add_expires("0");
    /// assert_eq!(decide(fallback).reuse, Reuse::Stale);
    /// ```
    #[must_use]
    pub fn decide(&self, cache: Cache, received: u64, response: Response) -> Decision {
        let lifetime = self.lifetime(received).or(response.lifetime);
        self.rules().decide(
            cache,
            Response {
                lifetime,
                ..response
            },
        )
    }
}
