//! What a cache decides about a response by its whole head.

use crate::directives;
use crate::line::{is_of, spaces_before};
use crate::malformed::{Fault, Malformed};
#[cfg(feature = "std")]
use crate::Dialect;
use crate::{
    age, field_text, has_field, trim, Cache, CacheRules, Cause, Decision, Error, Fallback,
    FieldDate, FieldLine, Forward, Forwarded, Head, HeadLine, Hop, Integer, Name, Parser, Place,
    Refusal, Response, Reuse, Seconds,
};
use alloc::vec::Vec;
use core::fmt;

/// What a cache knows of a response beside its head. Times are in seconds since 1970.
/// [`Exchange::decide`] is one call for all that the cache decides.
///
/// ```
/// use sf::{Cache, Exchange, Reuse};
/// let targets = ["ExampleCDN-Cache-Control", "CDN-Cache-Control"];
/// let head = [
///     ("ExampleCDN-Cache-Control", "max-age=60,"),
///     ("CDN-Cache-Control", "max-age=600"),
///     ("Cache-Control", "no-store"),
///     ("Age", "20"),
/// ];
/// let exchange = Exchange::at(Cache::Shared, 784_111_777).with_status(200);
/// let verdict = exchange.decide(&targets, &head).unwrap();
/// assert_eq!(verdict.field, Some("CDN-Cache-Control"));
/// assert_eq!(verdict.decision.reuse, Reuse::Fresh { seconds: 580 });
/// assert!(verdict.may_store());
/// assert_eq!(
///     verdict.malformed[0].to_string(),
///     "ExampleCDN-Cache-Control: the text ended at place 11, expected a lower-case letter, `*`, a \
///      tab or a space"
/// );
/// ```
#[derive(Clone, Copy, Debug, PartialEq, Eq, Hash)]
#[allow(clippy::struct_excessive_bools)] // they are facts, each by its name
pub struct Exchange {
    /// Who uses what the cache stores.
    pub cache: Cache,
    /// The status code. If it is `None`, that of a [`Head`]'s start line counts; without one, it
    /// is taken for a final one that is not heuristically cacheable.
    pub status: Option<u16>,
    /// Whether the cache understands the status code and implements its requirements, which counts
    /// for 206, 304 and `must-understand` (RFC 9111 sections 3 and 5.2.2.3).
    pub is_understood: bool,
    /// Whether the method of the request is neither `GET` nor `HEAD`, the only ones whose responses
    /// most caches store (RFC 9110 section 9.2.3). [`Exchange::with_request`] sets it, and the next
    /// three.
    pub is_other_method: bool,
    /// Whether `Cache-Control` of the request has `no-store` (RFC 9111 section 5.2.1.5), or is
    /// malformed, so that it may have had it.
    pub is_request_no_store: bool,
    /// Whether the request had `Authorization` (section 3.5).
    pub is_authorized: bool,
    /// Whether a line of the request's head is no field line, or that head did not end, or is that
    /// of a response: the request may have had `Authorization` or `no-store`.
    pub is_request_incomplete: bool,
    /// Whether a line of the head is no field line ([`crate::split_field_line`]), or the head did not
    /// end: a directive may be missing.
    pub is_incomplete: bool,
    /// When the request was sent: `request_time` (section 4.2.3).
    pub requested: u64,
    /// When the response was received: `response_time`.
    pub received: u64,
    /// When the response would be used.
    pub now: u64,
}

impl Exchange {
    /// A response that is received and used at this time, and the request was sent then. Its status
    /// code is not known, nor understood. Nothing in the request forbids storing, and both heads
    /// are complete.
    ///
    /// ```
    /// use sf::{Cache, Exchange};
    /// let exchange = Exchange::at(Cache::Shared, 784_111_777);
    /// assert_eq!((exchange.status, exchange.received), (None, 784_111_777));
    /// let slow = Exchange { requested: 784_111_775, ..exchange };
    /// let verdict = slow.decide(&[], [("Age", "20")]).unwrap();
    /// assert_eq!(verdict.response.age, 22);
    /// ```
    #[must_use]
    pub const fn at(cache: Cache, now: u64) -> Exchange {
        Exchange {
            cache,
            status: None,
            is_understood: false,
            is_other_method: false,
            is_request_no_store: false,
            is_authorized: false,
            is_request_incomplete: false,
            is_incomplete: false,
            requested: now,
            received: now,
            now,
        }
    }

    /// The same by the system's clock.
    ///
    /// ```
    /// use sf::{Cache, Exchange};
    /// assert!(Exchange::now(Cache::Shared).received > 784_111_777);
    /// ```
    #[cfg(feature = "std")]
    #[must_use]
    pub fn now(cache: Cache) -> Exchange {
        let since = std::time::SystemTime::UNIX_EPOCH.elapsed();
        Exchange::at(cache, since.map_or(0, |passed| passed.as_secs()))
    }

    /// The same with this status code.
    ///
    /// ```
    /// use sf::{Cache, Exchange};
    /// assert_eq!(Exchange::at(Cache::Shared, 0).with_status(404).status, Some(404));
    /// ```
    #[must_use]
    pub const fn with_status(self, code: u16) -> Exchange {
        Exchange {
            status: Some(code),
            ..self
        }
    }

    /// The same with whether the cache understands the status code and implements its requirements,
    /// as most caches do for 200. Without it, fewer responses are stored.
    ///
    /// ```
    /// use sf::{Cache, Exchange};
    /// let exchange = Exchange::at(Cache::Shared, 784_111_777).with_status(206);
    /// let decide = |exchange: Exchange| exchange.decide(&[], [("Cache-Control", "public")]).unwrap();
    /// assert!(!decide(exchange).may_store() && decide(exchange.with_understood(true)).may_store());
    /// ```
    #[must_use]
    pub const fn with_understood(self, is_understood: bool) -> Exchange {
        Exchange {
            is_understood,
            ..self
        }
    }

    /// The same with whether the request had `Authorization`.
    ///
    /// ```
    /// use sf::{Cache, Exchange, Obstacle};
    /// let exchange = Exchange::at(Cache::Shared, 784_111_777).with_authorization(true);
    /// let verdict = exchange.decide(&[], [("Cache-Control", "max-age=60")]).unwrap();
    /// assert_eq!(verdict.obstacle, Some(Obstacle::Authorization));
    /// ```
    #[must_use]
    pub const fn with_authorization(self, is_authorized: bool) -> Exchange {
        Exchange {
            is_authorized,
            ..self
        }
    }

    /// The same with what the head of the request says: [`Exchange::is_other_method`],
    /// [`Exchange::is_request_no_store`], [`Exchange::is_authorized`] and
    /// [`Exchange::is_request_incomplete`]. A line of its `Cache-Control` that is malformed becomes
    /// one of its [`Head::malformed`].
    ///
    /// # Errors
    ///
    /// [`Error::OutOfMemory`] only.
    ///
    /// ```
    /// use sf::{Cache, Exchange, Head, Obstacle, Parser};
    /// let obstacle = |request| {
    ///     let mut request = Head::parse_request(Parser::new(), request).unwrap();
    ///     let exchange = Exchange::at(Cache::Shared, 784_111_777);
    ///     let exchange = exchange.with_request(&mut request).unwrap();
    ///     exchange.decide(&[], [("Cache-Control", "max-age=60")]).unwrap().obstacle
    /// };
    /// assert_eq!(obstacle("POST / HTTP/1.1\r\n\r\n"), Some(Obstacle::Method));
    /// let no_store = obstacle("GET / HTTP/1.1\r\nCache-Control: no-store\r\n\r\n");
    /// assert_eq!(no_store, Some(Obstacle::RequestNoStore));
    /// let authorized = obstacle("GET / HTTP/1.1\r\nAuthorization: a\r\n\r\n");
    /// assert_eq!(authorized, Some(Obstacle::Authorization));
    /// assert_eq!(obstacle("GET / HTTP/1.1\r\n"), Some(Obstacle::RequestHead));
    /// assert_eq!(obstacle("GET / HTTP/1.1\r\n\r\n"), None);
    /// ```
    pub fn with_request(self, request: &mut Head<'_>) -> Result<Exchange, Error> {
        let is_other = |method| method != b"GET" && method != b"HEAD";
        Ok(Exchange {
            is_other_method: request.method().map_or(false, is_other),
            is_request_no_store: request.is_no_store()?,
            is_authorized: request.has_field("Authorization"),
            is_request_incomplete: request.is_incomplete() || request.status().is_some(),
            ..self
        })
    }

    /// The same with whether a line of the head is no field line, or the head did not end. A
    /// directive may be missing, so the response is not stored.
    ///
    /// ```
    /// use sf::{Cache, Exchange, Obstacle};
    /// let lines = ["Cache-Control: no-store\0", "Age: 1"].map(sf::split_field_line);
    /// let exchange = Exchange::at(Cache::Shared, 784_111_777)
    ///     .with_status(200)
    ///     .with_incomplete(lines.contains(&None));
    /// let verdict = exchange.decide(&[], lines.into_iter().flatten()).unwrap();
    /// assert_eq!(verdict.obstacle, Some(Obstacle::Incomplete));
    /// ```
    #[must_use]
    pub const fn with_incomplete(self, is_incomplete: bool) -> Exchange {
        Exchange {
            is_incomplete,
            ..self
        }
    }

    /// Decides what the cache does with the response, by RFC 9651: see [`Exchange::decide_in`].
    ///
    /// # Errors
    ///
    /// Those of [`Exchange::decide_in`].
    ///
    /// ```
    /// use sf::{Cache, Cause, Exchange};
    /// let head = [("Cache-Control", "max-age=60"), ("cache-control", "Private")];
    /// let decide = |cache| Exchange::at(cache, 784_111_777).decide(&[], &head).unwrap();
    /// let shared = decide(Cache::Shared);
    /// assert_eq!((shared.may_store(), shared.decision.cause), (false, Some(Cause::Private)));
    /// let private = decide(Cache::Private);
    /// assert_eq!((private.may_store(), private.decision.cause), (true, Some(Cause::MaxAge)));
    /// ```
    ///
    /// A `&HeaderMap` of the crate `http` is a head, too:
    ///
    /// ```
    /// # #[cfg(feature = "http")] {
    /// use sf::{Cache, Exchange};
    /// let response = http::Response::builder().header("Cache-Control", "max-age=60").body(());
    /// let response = response.unwrap();
    /// let exchange = Exchange::now(Cache::Shared).with_status(response.status().as_u16());
    /// let verdict = exchange.decide(&["CDN-Cache-Control"], response.headers()).unwrap();
    /// assert_eq!(verdict.to_string(), "Cache-Control: fresh for 60 s (max-age); may be stored");
    /// # }
    /// ```
    #[cfg(feature = "std")]
    pub fn decide<'a, H>(&self, targets: &[&'a str], head: H) -> Result<Verdict<'a>, Error>
    where
        H: IntoIterator + Clone,
        H::Item: FieldLine,
    {
        Parser::new().decide(self, targets, head)
    }

    /// Decides what the cache does with the response, with its targeted fields by a dialect. The
    /// head is its field lines, each a name and a value, as in a slice of pairs or a `&HeaderMap` of
    /// the crate `http`; lines of other fields may be among them. The target list has the names of
    /// the fields, in order (RFC 9213 section 2.2); without one, a [`Fallback`] decides.
    ///
    /// The first field of the target list that is there, well-formed and not empty is obeyed,
    /// otherwise `Cache-Control` with `Expires` and `Date`, as a [`Fallback`] reads them. The age of
    /// the response is the number in `Age` plus the seconds since the request, without the
    /// `apparent_age` by `Date` (RFC 9111 section 4.2.3).
    ///
    /// # Errors
    ///
    /// [`Error::OutOfMemory`] only. Malformed fields are no error: [`Verdict::malformed`] has them.
    ///
    /// ```
    /// use sf::{Cache, Dialect, Exchange};
    /// // By RFC 8941, which RFC 9213 cites, `@1` is malformed.
    /// let head = [("CDN-Cache-Control", "max-age=60, x=@1"), ("Cache-Control", "no-store")];
    /// let exchange = Exchange::at(Cache::Shared, 784_111_777);
    /// let field = |dialect| {
    ///     exchange.decide_in(dialect, &["CDN-Cache-Control"], &head).unwrap().field
    /// };
    /// assert_eq!(field(Dialect::Rfc8941), Some("Cache-Control"));
    /// assert_eq!(field(Dialect::Rfc9651), Some("CDN-Cache-Control"));
    /// ```
    #[cfg(feature = "std")]
    pub fn decide_in<'a, H>(
        &self,
        dialect: Dialect,
        targets: &[&'a str],
        head: H,
    ) -> Result<Verdict<'a>, Error>
    where
        H: IntoIterator + Clone,
        H::Item: FieldLine,
    {
        Parser::new()
            .with_dialect(dialect)
            .decide(self, targets, head)
    }

    /// The seconds from the request to the use.
    fn since_request(&self) -> u64 {
        self.now.saturating_sub(self.requested)
    }

    /// Whether the status code may be that of a stored response (RFC 9111 section 3).
    fn is_storable(&self) -> bool {
        match self.status {
            None => true,
            Some(206 | 304) => self.is_understood,
            Some(code) => code >= 200,
        }
    }

    /// Whether the status code is heuristically cacheable (RFC 9110 section 15.1).
    fn is_heuristically_cacheable(&self) -> bool {
        const CODES: [u16; 12] = [200, 203, 204, 206, 300, 301, 308, 404, 405, 410, 414, 501];
        self.status.map_or(false, |code| CODES.contains(&code))
    }

    /// Why the response may not be stored (RFC 9111 section 3).
    fn obstacle(
        &self,
        decision: &Decision,
        is_refused: bool,
        has_expires: bool,
    ) -> Option<Obstacle> {
        if decision.reuse == Reuse::NotStored {
            return Some(if is_refused {
                Obstacle::Malformed
            } else {
                Obstacle::Directive
            });
        }
        if self.is_other_method {
            return Some(Obstacle::Method);
        }
        if self.is_request_no_store {
            return Some(Obstacle::RequestNoStore);
        }
        if self.is_incomplete {
            return Some(Obstacle::Incomplete);
        }
        if self.is_request_incomplete {
            return Some(Obstacle::RequestHead);
        }
        if !self.is_storable() {
            return Some(Obstacle::Status);
        }
        if self.cache == Cache::Shared && self.is_authorized && !decision.allows_authorized {
            return Some(Obstacle::Authorization);
        }
        let is_permitted =
            decision.allows_storing || has_expires || self.is_heuristically_cacheable();
        (!is_permitted).then_some(Obstacle::Unpermitted)
    }
}

/// What a cache does with a response, by the whole of its head: see [`Exchange::decide`]. It
/// borrows the names of the target list, and nothing of the head. Its `Display` is the field that
/// decides, the decision, without a cause that has the name of the field, and "may be stored", or
/// the obstacle, unless the decision says it.
///
/// ```
/// use sf::{Cache, Exchange};
/// let head = [
///     ("Expires", "Sun, 06 Nov 1994 08:50:37 GMT"),
///     ("Date", "Sun, 06 Nov 1994 08:49:37 GMT"),
/// ];
/// let verdict = Exchange::at(Cache::Shared, 784_111_777).decide(&[], &head).unwrap();
/// assert_eq!(verdict.to_string(), "Expires: fresh for 60 s; may be stored");
/// assert_eq!(verdict.fresh_for().map(u64::from), Some(60));
/// ```
#[derive(Clone, Debug, PartialEq, Eq)]
#[non_exhaustive]
pub struct Verdict<'a> {
    /// Why the response may not be stored; `None` if it may: see [`Verdict::may_store`].
    pub obstacle: Option<Obstacle>,
    /// How it may be used, for how long it is fresh, and the directive that is the cause. If the
    /// response may not be stored, this is what the directives alone say.
    pub decision: Decision,
    /// The name of the field that decides: one of the target list, otherwise `Expires` or
    /// `Cache-Control`; `None` if no target decides and the head has neither.
    pub field: Option<&'a str>,
    /// The index of that field in the target list; `None` if none of it decides.
    pub target: Option<usize>,
    /// The directives of that target; otherwise those of `Cache-Control`.
    pub rules: CacheRules,
    /// What else counted: the age when the response is used, at most 2^31, to be sent in `Age` (RFC
    /// 9111 section 4), and the lifetime by `Expires`.
    pub response: Response,
    /// The lifetime that decided, less the age, both at most 2^31: the `ttl` of a hop (RFC 9211
    /// section 2.4). If negative, for how long the response has been stale; `None` if no lifetime
    /// decided, as by `no-cache`.
    ///
    /// ```
    /// use sf::{Cache, Exchange};
    /// let head = [("Cache-Control", "max-age=60"), ("Age", "100")];
    /// let verdict = Exchange::at(Cache::Shared, 784_111_777).decide(&[], &head).unwrap();
    /// assert_eq!(verdict.ttl, Some((-40).into()));
    /// ```
    pub ttl: Option<Integer>,
    /// Whether a heuristic lifetime may be used, since no field sets one (section 4.2.2): give it to
    /// [`CacheRules::decide`] as [`Response::lifetime`].
    ///
    /// ```
    /// use sf::{Cache, Exchange, Response, Reuse};
    /// let exchange = Exchange::at(Cache::Shared, 784_111_777).with_status(200);
    /// let verdict = exchange.decide(&[], [("Age", "20")]).unwrap();
    /// assert!(verdict.allows_heuristic);
    /// let response = Response { lifetime: Some(60), ..verdict.response };
    /// let decision = verdict.rules.decide(exchange.cache, response);
    /// assert_eq!(decision.reuse, Reuse::Fresh { seconds: 40 });
    /// ```
    pub allows_heuristic: bool,
    /// The fields that counted and are malformed: targeted fields, which are ignored;
    /// `Cache-Control`, which counts as `no-store` then; `Age`, which counts as 0; `Expires`, which
    /// is in the past then; and `Date`, for which [`Exchange::received`] counts. Those of the target
    /// list after the one that decides don't count, nor `Cache-Control`, `Expires` and `Date` then.
    /// `Expires` counts only if `Cache-Control` sets no lifetime, does not forbid storing and has
    /// no `no-cache`, and `Date` only if `Expires` does: `no-store` with `Expires: 0` is no fault,
    /// for `0` and the like have a meaning (section 5.3). A `max-age` or `s-maxage` that is no
    /// number of seconds makes the response stale (section 4.2.1), and is a fault if it counts
    /// likewise. `Age` always counts: if it is malformed it is ignored (section 5.1), and has no
    /// such meaning; and so does a second line or member of it, which is ignored, too.
    ///
    /// ```
    /// use sf::{Cache, Exchange};
    /// let count = |head: &[(&str, &str)]| {
    ///     let verdict = Exchange::at(Cache::Shared, 784_111_777).decide(&[], head);
    ///     verdict.unwrap().malformed.len()
    /// };
    /// assert_eq!(count(&[("Expires", "0")]), 1);
    /// assert_eq!(count(&[("Cache-Control", "no-store"), ("Expires", "0")]), 0);
    /// ```
    pub malformed: Vec<Malformed<'a>>,
    /// Whether no target decides and `Cache-Control` is malformed, so that it counts as `no-store`.
    ///
    /// ```
    /// use sf::{Cache, Exchange};
    /// let head = [("Cache-Control", "max-age=")];
    /// let verdict = Exchange::at(Cache::Shared, 784_111_777).decide(&[], &head).unwrap();
    /// assert!(verdict.is_refused && !verdict.may_store());
    /// assert_eq!(verdict.to_string(), "Cache-Control: not stored (malformed)");
    /// ```
    pub is_refused: bool,
}

/// Why a response may not be stored (RFC 9111 section 3).
///
/// ```
/// use sf::{Cache, Exchange, Obstacle};
/// let head = [("Cache-Control", "no-store")];
/// let verdict = Exchange::at(Cache::Shared, 784_111_777).decide(&[], &head).unwrap();
/// assert_eq!(verdict.obstacle, Some(Obstacle::Directive));
/// ```
#[derive(Clone, Copy, Debug, PartialEq, Eq, Hash)]
#[non_exhaustive]
pub enum Obstacle {
    /// The directive forbids it that is the cause of the decision.
    Directive,
    /// No target decides, and a line of `Cache-Control` is malformed, so that it counts as
    /// `no-store` ([`Verdict::is_refused`]).
    Malformed,
    /// The method of the request is neither `GET` nor `HEAD` ([`Exchange::is_other_method`]).
    Method,
    /// `Cache-Control` of the request has `no-store` or is malformed
    /// ([`Exchange::is_request_no_store`]).
    RequestNoStore,
    /// The status code is not final, or is 206 or 304 and not understood.
    Status,
    /// The request had `Authorization`, the cache is shared, and no directive permits it (section
    /// 3.5).
    Authorization,
    /// The head of the request is incomplete ([`Exchange::is_request_incomplete`]), so that
    /// `no-store` or `Authorization` may be missing.
    RequestHead,
    /// Nothing permits it: no directive, no `Expires` that counts, and the status code is not
    /// heuristically cacheable (RFC 9110 section 15.1).
    Unpermitted,
    /// A line of the head is no field line, or the head did not end, or does not begin with the
    /// status line that it requires ([`Exchange::is_incomplete`]).
    Incomplete,
    /// The [`Head`] is that of a request ([`Head::is_request`]).
    NotAResponse,
}

impl Obstacle {
    /// The obstacle in words: those of `sf_obstacle_name`.
    ///
    /// ```
    /// assert_eq!(sf::Obstacle::Status.as_str(), "the status code forbids it");
    /// ```
    #[must_use]
    pub fn as_str(self) -> &'static str {
        match self {
            Obstacle::Directive => "a directive forbids it",
            Obstacle::Malformed => "Cache-Control is malformed",
            Obstacle::Method => "the method of the request is neither GET nor HEAD",
            Obstacle::RequestNoStore => "the request has no-store or a malformed Cache-Control",
            Obstacle::Status => "the status code forbids it",
            Obstacle::Authorization => "the request had Authorization",
            Obstacle::RequestHead => "the head of the request is incomplete",
            Obstacle::Unpermitted => "nothing permits it",
            Obstacle::Incomplete => "the head is incomplete",
            Obstacle::NotAResponse => "the head is that of a request",
        }
    }
}

impl fmt::Display for Obstacle {
    fn fmt(&self, f: &mut fmt::Formatter<'_>) -> fmt::Result {
        f.pad(self.as_str())
    }
}

impl Verdict<'_> {
    /// Whether the response may be stored (RFC 9111 section 3): by the directives, `Expires`, the
    /// status code, whether the head is complete, and what [`Exchange::with_request`] takes from
    /// the request: its method, `no-store` and `Authorization`. The rest is the caller's: `Vary`,
    /// other directives of the request, and extensions.
    ///
    /// ```
    /// use sf::{Cache, Exchange};
    /// let may_store = |code, head: &[(&str, &str)]| {
    ///     let exchange = Exchange::at(Cache::Shared, 784_111_777).with_status(code);
    ///     exchange.decide(&[], head).unwrap().may_store()
    /// };
    /// assert!(may_store(404, &[]) && !may_store(500, &[]));
    /// assert!(may_store(500, &[("Cache-Control", "max-age=60")]));
    /// assert!(!may_store(404, &[("Cache-Control", "no-store")]));
    /// ```
    #[must_use]
    pub fn may_store(&self) -> bool {
        self.obstacle.is_none()
    }

    /// The hop of a cache with this name that forwarded the request for this reason, with `stored`
    /// and `ttl` by this verdict.
    ///
    /// ```
    /// use sf::{Cache, Exchange, Forward, TokenRef};
    /// let head = [("Cache-Control", "max-age=60"), ("Age", "20")];
    /// let verdict = Exchange::at(Cache::Shared, 784_111_777).decide(&[], &head).unwrap();
    /// let hop = verdict.hop(TokenRef::constant("ExampleCDN"), Forward::UriMiss);
    /// assert_eq!(hop.to_string(), "ExampleCDN;fwd=uri-miss;ttl=40;stored");
    /// ```
    #[must_use]
    pub fn hop<'n>(&self, name: impl Into<Name<'n>>, why: Forward<'n>) -> Hop<'n> {
        let forwarded = Forwarded::new(why).with_stored(self.may_store());
        Hop::new(name).with_outcome(forwarded).with_ttl(self.ttl)
    }

    /// For how many seconds the response stays fresh, if it is fresh.
    ///
    /// ```
    /// use sf::{Cache, Exchange};
    /// let head = [("Cache-Control", "max-age=60"), ("Age", "20")];
    /// let verdict = Exchange::at(Cache::Shared, 784_111_777).decide(&[], &head).unwrap();
    /// assert_eq!(verdict.fresh_for().map(u64::from), Some(40));
    /// ```
    #[must_use]
    pub fn fresh_for(&self) -> Option<Seconds> {
        self.decision.fresh_for()
    }
}

impl fmt::Display for Verdict<'_> {
    fn fmt(&self, f: &mut fmt::Formatter<'_>) -> fmt::Result {
        if let Some(field) = self.field {
            write!(f, "{field}: ")?;
        }
        if self.is_refused {
            write!(f, "{} (malformed)", self.decision.reuse)?;
        } else if self.decision.reuse == Reuse::Unspecified {
            f.write_str("no lifetime set")?;
        } else {
            // The name of the field says it.
            let cause = self.decision.cause.filter(|it| *it != Cause::Expires);
            let decision = Decision {
                cause,
                ..self.decision
            };
            write!(f, "{decision}")?;
        }
        match self.obstacle {
            None => f.write_str("; may be stored"),
            Some(Obstacle::Directive | Obstacle::Malformed) => Ok(()),
            Some(obstacle) => write!(f, "; not stored: {obstacle}"),
        }
    }
}

impl Parser {
    /// Decides what a cache does with a response, with its targeted fields by the dialect of the
    /// parser: see [`Exchange::decide_in`].
    ///
    /// # Errors
    ///
    /// Those of [`Exchange::decide_in`].
    ///
    /// ```
    /// use sf::{Cache, Exchange, Parser};
    /// let exchange = Exchange::at(Cache::Shared, 784_111_777);
    /// let head = [("CDN-Cache-Control", "max-age=60")];
    /// let verdict = Parser::new().decide(&exchange, &["CDN-Cache-Control"], &head).unwrap();
    /// assert_eq!(verdict.target, Some(0));
    /// ```
    pub fn decide<'a, H>(
        &self,
        exchange: &Exchange,
        targets: &[&'a str],
        head: H,
    ) -> Result<Verdict<'a>, Error>
    where
        H: IntoIterator + Clone,
        H::Item: FieldLine,
    {
        let mut malformed = Vec::new();
        let obeyed = self.obeyed(targets, &head, &mut malformed)?;
        let (rules, lifetime, is_refused) = if let Some((_, rules)) = obeyed {
            (rules, None, false)
        } else {
            let lines = head.clone().into_iter().enumerate();
            let fallback = Fallback::read(lines, &mut malformed)?;
            let lifetime = fallback.lifetime(exchange.received);
            (fallback.rules(), lifetime, fallback.is_refused())
        };
        let has_cache_control = has_field(head.clone(), "Cache-Control");
        let age = age_of(head.clone(), &mut malformed)?;
        let response = Response {
            age: age.saturating_add(exchange.since_request()).min(MOST),
            lifetime,
            is_understood: exchange.is_understood,
        };
        let decision = rules.decide(exchange.cache, response);
        if lifetime.is_none() || !counts_expires(&decision, &rules, exchange.cache) {
            malformed.retain(|one| !matches!(one.fault, Fault::NotADate | Fault::Repeated));
        }
        if let Some(name) = not_seconds(&decision, &rules, exchange.cache) {
            let found = match obeyed {
                Some((index, _)) => seconds_of_target(head.clone(), targets[index], name)?,
                None => seconds_of_lines(head, name),
            };
            if let Some(one) = found {
                note(&mut malformed, one)?;
            }
        }
        let field = match (obeyed, decision.cause) {
            (Some((index, _)), _) => Some(targets[index]),
            (None, Some(Cause::Expires)) => Some("Expires"),
            (None, _) => has_cache_control.then_some("Cache-Control"),
        };
        Ok(Verdict {
            obstacle: exchange.obstacle(&decision, is_refused, response.lifetime.is_some()),
            decision,
            field,
            target: obeyed.map(|(index, _)| index),
            ttl: ttl(&decision, &rules, &response, exchange.cache),
            rules,
            response,
            allows_heuristic: decision.reuse == Reuse::Unspecified
                && (rules.is_public || exchange.is_heuristically_cacheable()),
            malformed,
            is_refused,
        })
    }

    /// What is malformed in the fields that this reads, also if they don't count.
    pub(crate) fn faults<'a>(
        &self,
        targets: &[&'a str],
        head: &[HeadLine<'_>],
    ) -> Result<Vec<Malformed<'a>>, Error> {
        let mut malformed = Vec::new();
        for &name in targets {
            match self.cache_rules(field_text(head, name)?) {
                Ok(None) => {}
                Ok(Some(rules)) => {
                    for directive in invalid(&rules) {
                        if let Some(one) = seconds_of_target(head, name, directive)? {
                            note(&mut malformed, one)?;
                        }
                    }
                }
                Err(Error::Refused(refusal)) => note(&mut malformed, refusal.in_head(head, name))?,
                Err(error) => return Err(error),
            }
        }
        Fallback::read(head.iter().enumerate(), &mut malformed)?;
        let mut lists = Fallback::new();
        let of_field = head.iter().filter(|line| is_of(*line, "Cache-Control"));
        for line in of_field.filter(|line| is_list(line.value)) {
            lists.add_cache_control(line.value);
        }
        for directive in invalid(&lists.rules()) {
            if let Some(one) = seconds_of_lines(head, directive) {
                note(&mut malformed, one)?;
            }
        }
        age_of(head, &mut malformed)?;
        Ok(malformed)
    }

    /// The first field of a target list that is not ignored: its index, and its directives.
    fn obeyed<'a, H>(
        &self,
        targets: &[&'a str],
        head: &H,
        malformed: &mut Vec<Malformed<'a>>,
    ) -> Result<Option<(usize, CacheRules)>, Error>
    where
        H: IntoIterator + Clone,
        H::Item: FieldLine,
    {
        for (index, &name) in targets.iter().enumerate() {
            let text = field_text(head.clone(), name)?;
            match self.cache_rules(text) {
                Ok(None) => {}
                Ok(Some(rules)) => return Ok(Some((index, rules))),
                Err(Error::Refused(refusal)) => {
                    note(malformed, refusal.in_head(head.clone(), name))?;
                }
                Err(error) => return Err(error),
            }
        }
        Ok(None)
    }
}

/// Ages and lifetimes are at most this many seconds (RFC 9111 section 1.2.2).
const MOST: u64 = 1 << 31;

/// Whether a cache obeys `s-maxage`, which may be invalid.
fn has_s_maxage(rules: &CacheRules, cache: Cache) -> bool {
    cache == Cache::Shared && (rules.invalid_s_maxage || rules.policy.s_maxage.is_some())
}

/// Whether a lifetime by `Expires` counts beside these directives, which decided so.
fn counts_expires(decision: &Decision, rules: &CacheRules, cache: Cache) -> bool {
    let has_max_age = rules.invalid_max_age || rules.policy.max_age.is_some();
    let is_barred = decision.reuse == Reuse::NotStored || decision.cause == Some(Cause::NoCache);
    !has_max_age && !has_s_maxage(rules, cache) && !is_barred
}

/// The directive that counts as a lifetime, which makes the response stale as it is no number of
/// seconds (RFC 9111 section 4.2.1).
fn not_seconds(decision: &Decision, rules: &CacheRules, cache: Cache) -> Option<&'static str> {
    let is_barred = decision.reuse == Reuse::NotStored || decision.cause == Some(Cause::NoCache);
    let (is_invalid, name) = if has_s_maxage(rules, cache) {
        (rules.invalid_s_maxage, "s-maxage")
    } else {
        (rules.invalid_max_age, "max-age")
    };
    (is_invalid && !is_barred).then_some(name)
}

/// The directives that are no number of seconds, whether or not they count.
fn invalid(rules: &CacheRules) -> impl Iterator<Item = &'static str> {
    let max_age = rules.invalid_max_age.then_some("max-age");
    let s_maxage = rules.invalid_s_maxage.then_some("s-maxage");
    max_age.into_iter().chain(s_maxage)
}

/// Whether a line of `Cache-Control` is a list of directives.
fn is_list(line: &[u8]) -> bool {
    let mut fallback = Fallback::new();
    fallback.add_cache_control(line);
    !fallback.is_refused()
}

/// Where such a directive is in a targeted field.
fn seconds_of_target<'a, H>(
    head: H,
    field: &'a str,
    name: &str,
) -> Result<Option<Malformed<'a>>, Error>
where
    H: IntoIterator + Clone,
    H::Item: FieldLine,
{
    let text = field_text(head.clone(), field)?;
    let end = Place::member(name).offset_in(&text) + name.len();
    let offset = end + usize::from(text.get(end) == Some(&b'='));
    let malformed = Refusal::at(offset).in_head(head, field);
    Ok(match malformed.fault {
        Fault::Refused(refusal) => {
            let offset = usize::try_from(refusal.offset).unwrap_or(usize::MAX);
            let fault = Fault::NotSeconds { offset };
            Some(Malformed { fault, ..malformed })
        }
        _ => None,
    })
}

/// Where such a directive is in the lines of `Cache-Control` that are lists of directives.
fn seconds_of_lines<H>(head: H, name: &'static str) -> Option<Malformed<'static>>
where
    H: IntoIterator,
    H::Item: FieldLine,
{
    let mut before = None;
    head.into_iter().enumerate().find_map(|(line, of_head)| {
        if !is_of(&of_head, "Cache-Control") || !is_list(of_head.value()) {
            return None;
        }
        let begin = spaces_before(of_head.value());
        let found = directives::not_seconds(trim(of_head.value()), name, &mut before)?;
        let offset = begin + found.offset;
        let fault = if found.is_other {
            let directive = name;
            Fault::OtherSeconds { directive, offset }
        } else {
            Fault::NotSeconds { offset }
        };
        let field = "Cache-Control";
        Some(Malformed { field, line, fault })
    })
}

/// What is left of the lifetime by which was decided, if it was.
fn ttl(
    decision: &Decision,
    rules: &CacheRules,
    response: &Response,
    cache: Cache,
) -> Option<Integer> {
    let (is_invalid, of_policy) = if has_s_maxage(rules, cache) {
        (rules.invalid_s_maxage, rules.policy.s_maxage)
    } else {
        (rules.invalid_max_age, rules.policy.max_age)
    };
    let is_by_lifetime = matches!(
        decision.cause?,
        Cause::MaxAge
            | Cause::SMaxage
            | Cause::Expires
            | Cause::MustRevalidate
            | Cause::ProxyRevalidate
    );
    if is_invalid || !is_by_lifetime {
        return None;
    }
    let lifetime = of_policy.map(u64::from).or(response.lifetime)?;
    let left = i128::from(lifetime.min(MOST)) - i128::from(response.age);
    Integer::try_from(left).ok()
}

impl Fallback {
    /// Reads the lines that count of these lines of a head, which come with their indices in it.
    pub(crate) fn read(
        lines: impl Iterator<Item = (usize, impl FieldLine)>,
        malformed: &mut Vec<Malformed<'_>>,
    ) -> Result<Fallback, Error> {
        let mut fallback = Fallback::new();
        for (line, of_head) in lines {
            let value = of_head.value();
            let (field, fault) = if is_of(&of_head, "Cache-Control") {
                let was_refused = fallback.is_refused();
                fallback.add_cache_control(value);
                let refused = fallback.refusal().filter(|_| !was_refused);
                let fault = refused.map(|refused| Fault::Refused(refused.refusal));
                ("Cache-Control", fault)
            } else if is_of(&of_head, "Expires") {
                let before = fallback.expires();
                fallback.add_expires(value);
                ("Expires", new_fault(before, fallback.expires()))
            } else if is_of(&of_head, "Date") {
                let before = fallback.date();
                fallback.add_date(value);
                ("Date", new_fault(before, fallback.date()))
            } else {
                continue;
            };
            if let Some(fault) = fault {
                note(malformed, Malformed { field, line, fault })?;
            }
        }
        Ok(fallback)
    }
}

/// What is wrong with a field of one date after one more line, and was not before it.
fn new_fault(before: FieldDate, after: FieldDate) -> Option<Fault> {
    match after {
        _ if before == after => None,
        FieldDate::Absent | FieldDate::At(_) => None,
        FieldDate::Malformed => Some(Fault::NotADate),
        FieldDate::Repeated => Some(Fault::Repeated),
    }
}

/// The number in `Age`, 0 without one that counts. A second line or member is a fault.
fn age_of<H>(head: H, malformed: &mut Vec<Malformed<'_>>) -> Result<u64, Error>
where
    H: IntoIterator,
    H::Item: FieldLine,
{
    let field = "Age";
    let lines = head.into_iter().enumerate();
    let mut lines = lines.filter(|(_, line)| is_of(line, field));
    let (line, first) = match lines.next() {
        None => return Ok(0),
        Some(first) => first,
    };
    let read = age(first.value());
    if read.is_none() {
        let fault = Fault::NotAnAge;
        note(malformed, Malformed { field, line, fault })?;
    }
    let second = match second_member(first.value()) {
        Some(offset) => Some((line, offset)),
        None => lines
            .next()
            .map(|(line, other)| (line, spaces_before(other.value()))),
    };
    if let Some((line, offset)) = second {
        let fault = Fault::OtherAge { offset };
        note(malformed, Malformed { field, line, fault })?;
    }
    Ok(read.unwrap_or(0))
}

/// Where the second member of a line of `Age` begins, without those that are empty.
fn second_member(value: &[u8]) -> Option<usize> {
    let is_within = |byte: &u8| !matches!(byte, b',' | b' ' | b'\t');
    let first = value.iter().position(is_within)?;
    let comma = first + value[first..].iter().position(|byte| *byte == b',')?;
    let second = value[comma..].iter().position(is_within)?;
    Some(comma + second)
}

fn note<'a>(malformed: &mut Vec<Malformed<'a>>, one: Malformed<'a>) -> Result<(), Error> {
    crate::buffer::push(malformed, one)
}
