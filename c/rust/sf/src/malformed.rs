//! What is malformed in the head of a message.

use crate::line::{is_of, spaces_before};
use crate::{trim, FieldLine, Refusal};
use core::fmt;

/// A field that is malformed. Its `Display` is one line, such as for a log; [`Refusal::excerpt`] of
/// the line's value shows the place of a refusal in it.
///
/// ```
/// use sf::{Cache, Exchange, Fault};
/// let head = [("Server", "x"), ("Cache-Control", "max-age=60"), ("Cache-Control", "a b")];
/// let verdict = Exchange::at(Cache::Shared, 784_111_777).decide(&[], &head).unwrap();
/// let malformed = verdict.malformed[0];
/// assert_eq!((malformed.field, malformed.line), ("Cache-Control", 2));
/// assert!(matches!(malformed.fault, Fault::Refused(refusal) if refusal.offset == 2));
/// ```
#[derive(Clone, Copy, Debug, PartialEq, Eq)]
pub struct Malformed<'a> {
    /// The name of the field.
    pub field: &'a str,
    /// The index of the line among those of the head, from 0.
    pub line: usize,
    /// What is wrong.
    pub fault: Fault,
}

/// What is wrong with a field.
///
/// ```
/// assert_eq!(sf::Fault::Repeated.to_string(), "there are several lines");
/// ```
#[derive(Clone, Copy, Debug, PartialEq, Eq)]
#[non_exhaustive]
pub enum Fault {
    /// A targeted field that is no Dictionary, a line of `Cache-Control` that is no list of
    /// directives, or another structured field that is refused. The offset is in the value of the
    /// line if this is of a [`Malformed`], and in the whole line if it is of a
    /// [`HeadFault`](crate::HeadFault).
    Refused(Refusal),
    /// The first line of `Expires` or of `Date` is no HTTP-date.
    NotADate,
    /// There is a second line of `Expires` or of `Date`. The lines after it are not reported.
    Repeated,
    /// The first member of `Age` is not one or more digits.
    NotAnAge,
    /// `Age` has a second line, or in its first line a second member that is not empty: the first
    /// member counts (RFC 9111 section 5.1).
    OtherAge {
        /// Where it begins, in the value of the line if this is of a [`Malformed`], and in the whole
        /// line if it is of a [`HeadFault`](crate::HeadFault).
        offset: usize,
    },
    /// A member of Cache-Status that does not name a cache: see [`Error::NotACache`]. A
    /// [`Head`](crate::Head) reports each.
    ///
    /// [`Error::NotACache`]: crate::Error::NotACache
    NotACache,
    /// A line of a [`Head`](crate::Head) that is no field line: see
    /// [`split_field_line`](crate::split_field_line()).
    NotALine(Refusal),
    /// The first line of a [`Head`](crate::Head) that is not empty, if it is neither a start line
    /// nor a field line.
    NotAStartLine {
        /// Why it is no start line.
        start: StartFault,
        /// Why it is no field line, and where.
        line: Refusal,
    },
    /// A line of a [`Head`](crate::Head) that is not that of a request has white space before its
    /// colon, which a proxy must remove (RFC 9112 section 5.1). In a request it is
    /// [`Fault::NotALine`].
    SpaceBeforeColon,
    /// A head of [`Head::parse_request`](crate::Head::parse_request) without a request line.
    NoRequestLine,
    /// A head of [`Head::parse_response`](crate::Head::parse_response) without a status line.
    NoStatusLine,
    /// A [`Head`](crate::Head) that does not end with an empty line: the text ended before it, in a
    /// line or after one.
    NoEnd,
    /// `max-age` or `s-maxage` is no number of seconds: if it counts, the response is stale (RFC
    /// 9111 section 4.2.1).
    NotSeconds {
        /// Where the argument begins, in the value of the line if this is of a [`Malformed`], and
        /// in the whole line if it is of a [`HeadFault`](crate::HeadFault); the end of the name if
        /// there is none.
        offset: usize,
    },
    /// The same, since `Cache-Control` had it before with another number.
    OtherSeconds {
        /// `max-age` or `s-maxage`.
        directive: &'static str,
        /// Where the argument begins, likewise.
        offset: usize,
    },
    /// What the program found: see [`Head::add_fault`](crate::Head::add_fault).
    Own,
}

/// Why a line is no start line (RFC 9112 section 2.1): the first of these that holds.
///
/// ```
/// use sf::{Fault, Head, Parser, StartFault};
/// let head = Head::parse(Parser::new(), "HTTP/1.1 2x0 OK\r\n\r\n").unwrap();
/// let start = match head.malformed()[0].fault {
///     Fault::NotAStartLine { start, .. } => start,
///     fault => panic!("{fault:?}"),
/// };
/// assert_eq!(start, StartFault::NoStatusCode);
/// assert_eq!(start.to_string(), "no status code of three digits");
/// ```
#[derive(Clone, Copy, Debug, PartialEq, Eq, Hash)]
#[non_exhaustive]
pub enum StartFault {
    /// It has a CR, LF or NUL, which another recipient may take for its end (section 2.2).
    BarredByte,
    /// It begins with `HTTP/`, and no version follows (section 2.3).
    NoVersion,
    /// It begins with a version, and no space and three digits follow, of which the first is not 0
    /// (section 4).
    NoStatusCode,
    /// It does not begin with `HTTP/`, as the status line does that
    /// [`Head::parse_response`](crate::Head::parse_response) requires (section 4).
    NotAStatusLine,
    /// It has a method, a target and a version, and there is white space in the target (section
    /// 3.2).
    SpaceInTarget,
    /// It is neither of the others, and no request line (section 3).
    NotARequestLine,
}

impl StartFault {
    /// The fault in words.
    ///
    /// ```
    /// assert_eq!(sf::StartFault::NoVersion.as_str(), "no version");
    /// ```
    #[must_use]
    pub fn as_str(self) -> &'static str {
        match self {
            StartFault::BarredByte => "a CR, LF or NUL in it",
            StartFault::NoVersion => "no version",
            StartFault::NoStatusCode => "no status code of three digits",
            StartFault::NotAStatusLine => "a status line begins with HTTP/",
            StartFault::SpaceInTarget => "white space in the target",
            StartFault::NotARequestLine => "no method, target and version",
        }
    }
}

impl fmt::Display for StartFault {
    fn fmt(&self, f: &mut fmt::Formatter<'_>) -> fmt::Result {
        f.pad(self.as_str())
    }
}

impl fmt::Display for Fault {
    fn fmt(&self, f: &mut fmt::Formatter<'_>) -> fmt::Result {
        match self {
            Fault::Refused(refusal) => refusal.fmt(f),
            Fault::NotADate => write!(f, "expected {DATE}"),
            Fault::Repeated => f.pad("there are several lines"),
            Fault::NotAnAge | Fault::NotSeconds { .. } => f.pad("expected a number of seconds"),
            Fault::OtherAge { .. } => f.pad("there are several values"),
            Fault::OtherSeconds { directive, .. } => {
                write!(f, "{directive} had another value before")
            }
            Fault::Own => f.pad("a fault that the program found"),
            Fault::NotACache => {
                f.pad("the member does not name a cache, expected a Token or a String")
            }
            Fault::NotALine(refusal) => {
                let why = line_fault(refusal).unwrap_or("it continues the line before");
                write!(f, "not a field line: {why}")
            }
            Fault::NotAStartLine { start, line } => {
                let why = line_fault(line).unwrap_or("it begins with white space");
                write!(f, "neither a start line ({start}) nor a field line ({why})")
            }
            Fault::SpaceBeforeColon => f.pad("white space before the colon"),
            Fault::NoRequestLine => f.pad("the head of a request begins with a request line"),
            Fault::NoStatusLine => f.pad("the head of a response begins with a status line"),
            Fault::NoEnd => f.pad("the head does not end with an empty line"),
        }
    }
}

/// What is expected of a date, in words.
pub(crate) const DATE: &str = "an HTTP-date, such as Sun, 06 Nov 1994 08:49:37 GMT";

/// Why a line is no field line, in words; `None` if it begins with white space.
fn line_fault(refusal: &Refusal) -> Option<&'static str> {
    let is_space = matches!(refusal.found, Some(b' ' | b'\t'));
    Some(match refusal {
        Refusal { may_end: true, .. } => "a CR, LF or NUL in the value",
        Refusal { offset: 0, .. } if is_space => return None,
        Refusal { offset: 0, .. } => "no name",
        _ if is_space => "white space after the name",
        _ => "no colon after the name",
    })
}

impl fmt::Display for Malformed<'_> {
    fn fmt(&self, f: &mut fmt::Formatter<'_>) -> fmt::Result {
        write!(f, "{}: {}", self.field, self.fault)
    }
}

impl Refusal {
    /// The line of a head that this refusal is in, and the place in the value of that line, from 0.
    /// What was refused is the text of the field, its lines joined as by
    /// [`field_text`](crate::field_text()). If the head does not have the field, both are 0.
    ///
    /// ```
    /// let head = [("Server", "x"), ("Cache-Status", "a; hit"), ("cache-status", "7, b")];
    /// let error = sf::Path::from_headers(&head).unwrap_err();
    /// let malformed = error.refusal().unwrap().in_head(&head, "Cache-Status");
    /// assert_eq!(malformed.line, 2);
    /// assert!(matches!(malformed.fault, sf::Fault::Refused(refusal) if refusal.offset == 0));
    /// ```
    #[must_use]
    pub fn in_head<H>(self, head: H, field: &str) -> Malformed<'_>
    where
        H: IntoIterator + Clone,
        H::Item: FieldLine,
    {
        let lengths = head.clone().into_iter().filter(|line| is_of(line, field));
        let place = self.place_in(lengths.map(|line| trim(line.value()).len()));
        let lines = head.into_iter().enumerate();
        let mut of_field = lines.filter(|(_, line)| is_of(line, field));
        let (line, refusal) = match of_field.nth(place.line) {
            None => (0, self.at_line(0, 0)),
            Some((line, of_head)) => {
                let begin = spaces_before(of_head.value());
                let length = trim(of_head.value()).len();
                let refusal = self.at_line(place.offset, length);
                let offset = (begin + place.offset) as u64;
                (line, Refusal { offset, ..refusal })
            }
        };
        let fault = Fault::Refused(refusal);
        Malformed { field, line, fault }
    }
}
