//! The heads of messages, and what is malformed in them.

use crate::buffer::{copied_text, push};
use crate::http_date;
use crate::line::{is_barred, is_of, is_tchar, spaces_before, split, without_end, Parts};
use crate::malformed::{Fault, Malformed, StartFault};
use crate::place::nameless;
use crate::{
    field_text, has_field, trim, Appended, Error, Exchange, Fallback, FieldLine, FieldType,
    HeadFault, Hop, Kind, Obstacle, Parser, Path, Place, Priority, Refusal, ResponsePriority,
    Verdict,
};
use alloc::vec::Vec;

/// The head of a request or a response: its field lines, which it borrows, and what is malformed in
/// it. Its methods look a field up and read it by the dialect of a parser. A malformed structured
/// field counts as absent (RFC 9651 section 4.2), and [`Head::malformed`] has it.
///
/// ```
/// use sf::{Dialect, Head, Parser, Priority};
/// # fn main() -> Result<(), sf::Error> {
/// let received = b"GET / HTTP/1.1\r\nPriority: u=5\r\npriority: i=?2\r\n\r\n";
/// let mut head = Head::parse(Parser::new().with_dialect(Dialect::Rfc8941), received)?;
/// assert_eq!(head.priority()?, Priority::default());
/// assert_eq!(
///     head.malformed()[0].excerpt(40).to_string(),
///     "line 3, place 13: Priority: byte 0x32 '2', expected `0` or `1`\n\
///      priority: i=?2\n\
///      \x20            ^"
/// );
/// # Ok(())
/// # }
/// ```
#[derive(Clone, Debug)]
pub struct Head<'a> {
    parser: Parser,
    lines: Vec<HeadLine<'a>>,
    malformed: Vec<HeadFault<'a>>,
    /// The number of the line that is added next.
    number: usize,
    /// The start line, without its CR and LF.
    start: Option<&'a [u8]>,
    /// Its status code, if it is a status line.
    status: Option<u16>,
    is_request: bool,
    /// Whether a line was added that is not empty.
    is_begun: bool,
    is_incomplete: bool,
    content: Option<&'a [u8]>,
}

/// A field line of a [`Head`].
///
/// ```
/// let head = sf::Head::parse(sf::Parser::new(), "Age: 20\r\n\r\n").unwrap();
/// let line = head.lines()[0];
/// assert_eq!((line.name, line.value), (b"Age".as_slice(), b"20".as_slice()));
/// assert_eq!((line.received, line.number), (b"Age: 20".as_slice(), 1));
/// ```
#[derive(Clone, Copy, Debug, PartialEq, Eq)]
#[non_exhaustive]
pub struct HeadLine<'a> {
    /// The name of the field, in any case.
    pub name: &'a [u8],
    /// The value, without the white space around it.
    pub value: &'a [u8],
    /// The line as [`Head::add_line`] was given it, without its CR and LF; or the value as
    /// [`Head::add_field`] was given it.
    pub received: &'a [u8],
    /// The number of the line: see [`Head::set_number`].
    pub number: usize,
    /// Where the value begins in what was received.
    value_at: usize,
}

impl FieldLine for HeadLine<'_> {
    fn name(&self) -> &[u8] {
        self.name
    }

    fn value(&self) -> &[u8] {
        self.value
    }
}

impl<'a> Head<'a> {
    /// A head without lines.
    ///
    /// ```
    /// use sf::{Head, Parser};
    /// let mut head = Head::new(Parser::new());
    /// head.add_field("Priority", "u=1").unwrap();
    /// assert_eq!(head.priority().unwrap().to_string(), "u=1");
    /// ```
    #[must_use]
    pub fn new(parser: Parser) -> Head<'a> {
        Head {
            parser,
            lines: Vec::new(),
            malformed: Vec::new(),
            number: 1,
            start: None,
            status: None,
            is_request: false,
            is_begun: false,
            is_incomplete: false,
            content: None,
        }
    }

    /// The head that a text begins with: its lines up to the empty line that ends it. Empty lines
    /// before the first other one are skipped (RFC 9112 section 2.2). If there is no empty line at
    /// the end, lines may be missing: the head is incomplete, and [`Head::malformed`] has
    /// [`Fault::NoEnd`], with the place at which the text ends. A last line without a line end is
    /// added, too. A missing start line is no fault here, but [`Head::parse_request`] and
    /// [`Head::parse_response`] require one.
    ///
    /// # Errors
    ///
    /// [`Error::OutOfMemory`] only: a line that is no field line is one of [`Head::malformed`].
    ///
    /// ```
    /// let head = sf::Head::parse(sf::Parser::new(), "HTTP/1.1 200 OK\r\nAge: 1\r\n\r\nabc").unwrap();
    /// assert_eq!((head.lines().len(), head.content()), (1, Some(b"abc".as_slice())));
    /// assert!(sf::Head::parse(sf::Parser::new(), "HTTP/1.1 200 OK\r\nAge").unwrap().is_incomplete());
    /// ```
    pub fn parse<T: AsRef<[u8]> + ?Sized>(parser: Parser, text: &'a T) -> Result<Head<'a>, Error> {
        Head::read(parser, text.as_ref(), None)
    }

    /// The same for the head of a request. If it does not begin with a request line, it is
    /// incomplete, and [`Head::malformed`] has [`Fault::NoRequestLine`] or, if the first line is no
    /// field line either, [`Fault::NotAStartLine`]. The lines after it are read all the same, as
    /// those of a request.
    ///
    /// # Errors
    ///
    /// [`Error::OutOfMemory`] only.
    ///
    /// ```
    /// use sf::{Head, Parser};
    /// let head = Head::parse_request(Parser::new(), "HTTP/1.1 200 OK\r\n\r\n").unwrap();
    /// assert!(head.is_incomplete() && head.status() == Some(200));
    /// assert_eq!(
    ///     head.malformed()[0].to_string(),
    ///     "line 1, place 0: the head of a request begins with a request line"
    /// );
    /// ```
    pub fn parse_request<T>(parser: Parser, text: &'a T) -> Result<Head<'a>, Error>
    where
        T: AsRef<[u8]> + ?Sized,
    {
        Head::read(parser, text.as_ref(), Some(Fault::NoRequestLine))
    }

    /// The same for the head of a response. If it does not begin with a status line, it is
    /// incomplete, and [`Head::malformed`] has [`Fault::NoStatusLine`] or, if the first line is no
    /// field line either, [`Fault::NotAStartLine`].
    ///
    /// # Errors
    ///
    /// [`Error::OutOfMemory`] only.
    ///
    /// ```
    /// use sf::{Fault, Head, Parser};
    /// let head = Head::parse_response(Parser::new(), "Age: 20\r\n\r\n").unwrap();
    /// assert!(head.is_incomplete() && head.lines().len() == 1);
    /// assert_eq!(head.malformed()[0].fault, Fault::NoStatusLine);
    /// ```
    pub fn parse_response<T>(parser: Parser, text: &'a T) -> Result<Head<'a>, Error>
    where
        T: AsRef<[u8]> + ?Sized,
    {
        Head::read(parser, text.as_ref(), Some(Fault::NoStatusLine))
    }

    /// The head that a text begins with, with this fault if it lacks the start line that the fault
    /// is about.
    fn read(parser: Parser, text: &'a [u8], required: Option<Fault>) -> Result<Head<'a>, Error> {
        let mut head = Head::new(parser);
        let mut rest = text;
        let mut cut_off = None;
        while !rest.is_empty() {
            let end = rest.iter().position(|byte| *byte == b'\n');
            let (line, after) = rest.split_at(end.map_or(rest.len(), |end| end + 1));
            rest = after;
            if end.is_none() {
                cut_off = Some((head.number, line));
            }
            if line == b"\r" {
                break; // an empty line whose LF is missing
            }
            if head.is_begun && without_end(line).is_empty() {
                head.content = Some(rest);
                head.count_line();
                break;
            }
            head.add_line_of(line, required)?;
        }
        match required {
            Some(Fault::NoRequestLine) if head.is_request => {}
            Some(Fault::NoStatusLine) if head.status.is_some() => {}
            Some(fault) => head.note_first_line(text, fault)?,
            None => {}
        }
        if head.content.is_none() {
            head.is_incomplete = true;
            let (number, line) = cut_off.unwrap_or((head.number, b""));
            let fault = HeadFault::of_line(Fault::NoEnd, number, line, line.len());
            push(&mut head.malformed, fault)?;
        }
        Ok(head)
    }

    /// Notes that the first line of a text is not the start line that is required, unless it is a
    /// fault already.
    fn note_first_line(&mut self, text: &'a [u8], fault: Fault) -> Result<(), Error> {
        self.is_incomplete = true;
        let is_of_start = |one: &HeadFault<'_>| matches!(one.fault, Fault::NotAStartLine { .. });
        if self.malformed.iter().any(is_of_start) {
            return Ok(());
        }
        let lines = text.split_inclusive(|byte| *byte == b'\n').map(without_end);
        let first = (1..).zip(lines).find(|(_, line)| !line.is_empty());
        let (number, line) = first.unwrap_or((self.number, b""));
        self.insert(HeadFault::of_line(fault, number, line, 0))
    }

    /// Adds a field line as it was received (RFC 9112 section 5), with or without its CR and LF, and
    /// returns whether it is one: see [`split_field_line`](crate::split_field_line()). The first
    /// line may be the start line, a status line or a request line, without a CR, LF or NUL in it
    /// (section 2.2), and without white space in the target of a request (section 3.2); it is not
    /// added, and nor is an empty line. `HTTP/2 200`, which curl prints for HTTP/2, is a status
    /// line: a version may be one digit, and the space after the status code may be missing. Another
    /// line that is no field line makes the head incomplete, and is one of [`Head::malformed`]; in a
    /// request also a line with white space before its colon. In other heads, such a line is added,
    /// and the white space is one of [`Head::malformed`], since a proxy must remove it (section
    /// 5.1).
    ///
    /// # Errors
    ///
    /// [`Error::OutOfMemory`] only.
    ///
    /// ```
    /// let mut head = sf::Head::new(sf::Parser::new());
    /// assert!(!head.add_line("HTTP/1.1 200 OK").unwrap() && !head.is_incomplete());
    /// assert!(head.add_line("Cache-Control: no-store\r\n").unwrap());
    /// assert!(!head.add_line("Age 20").unwrap() && head.is_incomplete());
    /// ```
    pub fn add_line<T: AsRef<[u8]> + ?Sized>(&mut self, line: &'a T) -> Result<bool, Error> {
        self.add_line_of(line.as_ref(), None)
    }

    /// Adds a line of a head with the fault if it lacks the start line that the fault is about.
    fn add_line_of(&mut self, line: &'a [u8], required: Option<Fault>) -> Result<bool, Error> {
        // The fields after a malformed request line are those of a request, too.
        let is_request = self.is_request || required == Some(Fault::NoRequestLine);
        let received = without_end(line);
        if received.is_empty() || !self.is_begun && self.takes_start_line(received) {
            self.count_line();
            return Ok(false);
        }
        let refusal = match split(received, is_request) {
            Ok(parts) => {
                self.add_field_line(received, &parts)?;
                return Ok(true);
            }
            Err(refusal) => refusal,
        };
        let place = usize::try_from(refusal.offset).unwrap_or(usize::MAX);
        let (fault, offset) = if self.is_begun {
            (Fault::NotALine(refusal), place)
        } else {
            let (start, at) = start_fault(received, required == Some(Fault::NoStatusLine));
            let line = split(received, false).err().unwrap_or(refusal);
            (Fault::NotAStartLine { start, line }, at.unwrap_or(place))
        };
        let fault = HeadFault::of_line(fault, self.number, received, offset);
        push(&mut self.malformed, fault)?;
        self.is_incomplete = true;
        self.is_begun = true;
        self.count_line();
        Ok(false)
    }

    /// Sets the number of the next line.
    fn count_line(&mut self) {
        self.number = self.number.saturating_add(1);
    }

    /// Adds a field line that was received, and notes white space before its colon.
    fn add_field_line(&mut self, received: &'a [u8], parts: &Parts<'a>) -> Result<(), Error> {
        let (number, at) = (self.number, parts.name.len());
        self.push_line(HeadLine {
            name: parts.name,
            value: parts.value,
            received,
            number,
            value_at: parts.value_at,
        })?;
        if received.get(at) != Some(&b':') {
            let fault = HeadFault::of_line(Fault::SpaceBeforeColon, number, received, at);
            push(&mut self.malformed, fault)?;
        }
        Ok(())
    }

    /// Takes a start line, and returns whether the line is one (RFC 9112 section 2.1).
    fn takes_start_line(&mut self, line: &'a [u8]) -> bool {
        if line.iter().any(is_barred) {
            return false;
        }
        self.status = status_of(line);
        self.is_request = request_fault(line).is_none();
        self.is_begun = self.status.is_some() || self.is_request;
        self.start = self.is_begun.then_some(line);
        self.is_begun
    }

    /// Adds a field line.
    fn push_line(&mut self, line: HeadLine<'a>) -> Result<(), Error> {
        push(&mut self.lines, line)?;
        self.count_line();
        self.is_begun = true;
        Ok(())
    }

    /// Adds a field line by its name and its value, of which white space around it is no part.
    ///
    /// # Errors
    ///
    /// [`Error::OutOfMemory`] only.
    ///
    /// ```
    /// let mut head = sf::Head::new(sf::Parser::new());
    /// head.add_field("Priority", " u=1 ").unwrap();
    /// assert_eq!(head.lines()[0].value, b"u=1");
    /// ```
    ///
    /// These are the lines of a `HeaderMap` of the crate `http`:
    ///
    /// ```
    /// # #[cfg(feature = "http")] {
    /// let mut headers = http::HeaderMap::new();
    /// headers.insert("priority", http::HeaderValue::from_static("u=1"));
    /// let mut head = sf::Head::new(sf::Parser::new());
    /// for (name, value) in &headers {
    ///     head.add_field(name, value).unwrap();
    /// }
    /// assert_eq!(head.priority().unwrap().urgency(), 1);
    /// # }
    /// ```
    pub fn add_field<N, V>(&mut self, name: &'a N, value: &'a V) -> Result<(), Error>
    where
        N: AsRef<[u8]> + ?Sized,
        V: AsRef<[u8]> + ?Sized,
    {
        let line = HeadLine {
            name: trim(name),
            value: trim(value),
            received: value.as_ref(),
            number: self.number,
            value_at: spaces_before(value.as_ref()),
        };
        self.push_line(line)
    }

    /// Sets the number of the line that is added next, for messages: 1 at first, and then one more
    /// with each line.
    ///
    /// ```
    /// let mut head = sf::Head::new(sf::Parser::new());
    /// head.set_number(12);
    /// head.add_line("Age 20").unwrap();
    /// assert_eq!(head.malformed()[0].number, 12);
    /// ```
    pub fn set_number(&mut self, number: usize) {
        self.number = number;
    }

    /// The field lines, in order. A slice of them is a head for the calls that take
    /// [`FieldLine`]s.
    ///
    /// ```
    /// let head = sf::Head::parse(sf::Parser::new(), "Via: a\r\nvia: b\r\n\r\n").unwrap();
    /// assert_eq!(sf::field_text(head.lines(), "Via").unwrap(), b"a, b");
    /// ```
    #[must_use]
    pub fn lines(&self) -> &[HeadLine<'a>] {
        &self.lines
    }

    /// Whether the head has the field of this name, in any case.
    ///
    /// ```
    /// let head = sf::Head::parse(sf::Parser::new(), "Authorization: a\r\n\r\n").unwrap();
    /// assert!(head.has_field("authorization") && !head.has_field("Age"));
    /// ```
    #[must_use]
    pub fn has_field(&self, name: &str) -> bool {
        has_field(&self.lines, name)
    }

    /// The start line as it was received, without its CR and LF: a request line or a status line
    /// (RFC 9112 section 2.1).
    ///
    /// ```
    /// let head = sf::Head::parse(sf::Parser::new(), "HTTP/1.1 200 OK\r\n\r\n").unwrap();
    /// assert_eq!(head.start_line(), Some(b"HTTP/1.1 200 OK".as_slice()));
    /// let head = sf::Head::parse(sf::Parser::new(), "Age: 1\r\n\r\n").unwrap();
    /// assert_eq!(head.start_line(), None);
    /// ```
    #[must_use]
    pub fn start_line(&self) -> Option<&'a [u8]> {
        self.start
    }

    /// The method of the start line, if that is a request line. Methods have a case (RFC 9110
    /// section 9.1).
    ///
    /// ```
    /// let head = sf::Head::parse(sf::Parser::new(), "GET / HTTP/1.1\r\n\r\n").unwrap();
    /// assert_eq!(head.method(), Some(b"GET".as_slice()));
    /// ```
    #[must_use]
    pub fn method(&self) -> Option<&'a [u8]> {
        let line = self.start.filter(|_| self.is_request)?;
        line.split(|byte| *byte == b' ').next()
    }

    /// The status code of the start line, if that is a status line.
    ///
    /// ```
    /// let head = sf::Head::parse(sf::Parser::new(), "HTTP/2 404\r\n\r\n").unwrap();
    /// assert_eq!(head.status(), Some(404));
    /// ```
    #[must_use]
    pub fn status(&self) -> Option<u16> {
        self.status
    }

    /// Whether the start line is a request line: the head is that of a request.
    ///
    /// ```
    /// let head = sf::Head::parse(sf::Parser::new(), "GET / HTTP/1.1\r\n\r\n").unwrap();
    /// assert!(head.is_request() && head.status().is_none());
    /// ```
    #[must_use]
    pub fn is_request(&self) -> bool {
        self.is_request
    }

    /// Whether a line other than the start line is no field line, or the text of [`Head::parse`]
    /// ended before the head did, or the start line is not one that [`Head::parse_request`] or
    /// [`Head::parse_response`] requires. A directive may be missing, so [`Head::decide`] forbids
    /// storing.
    ///
    /// ```
    /// let head = sf::Head::parse(sf::Parser::new(), "Cache-Control no-store\r\n\r\n").unwrap();
    /// assert!(head.is_incomplete());
    /// ```
    #[must_use]
    pub fn is_incomplete(&self) -> bool {
        self.is_incomplete
    }

    /// What comes after the empty line of the text that [`Head::parse`] read; `None` if the text
    /// ended before the head did.
    ///
    /// ```
    /// let content = |text| sf::Head::parse(sf::Parser::new(), text).unwrap().content();
    /// assert_eq!(content("Age: 1\n\nabc"), Some(b"abc".as_slice()));
    /// assert_eq!(content("Age: 1\n"), None);
    /// ```
    #[must_use]
    pub fn content(&self) -> Option<&'a [u8]> {
        self.content
    }

    /// What was found to be malformed so far, in the order of the lines: lines that are no field
    /// lines or have white space before the colon, a missing start line or end, and fields that were
    /// read. [`Head::check`] adds what is malformed in the others.
    ///
    /// ```
    /// let mut head = sf::Head::parse(sf::Parser::new(), "Priority: u=\r\n\r\n").unwrap();
    /// assert!(head.malformed().is_empty());
    /// head.priority().unwrap();
    /// let fault = &head.malformed()[0];
    /// assert_eq!((fault.field.as_str(), fault.offset), ("Priority", 12));
    /// ```
    #[must_use]
    pub fn malformed(&self) -> &[HeadFault<'a>] {
        &self.malformed
    }

    /// Reads the Priority field of a request (RFC 9218 section 5); the default if it is absent or
    /// malformed.
    ///
    /// # Errors
    ///
    /// [`Error::OutOfMemory`] only.
    ///
    /// ```
    /// let mut head = sf::Head::parse(sf::Parser::new(), "Priority: u=5, i\r\n\r\n").unwrap();
    /// assert_eq!(head.priority().unwrap().urgency(), 5);
    /// ```
    pub fn priority(&mut self) -> Result<Priority, Error> {
        let said = self.parser.priority(field_text(&self.lines, "Priority")?);
        self.or_absent("Priority", said)
    }

    /// Reads the Priority field of a response (RFC 9218 section 8); the default, which sets nothing,
    /// if it is absent or malformed.
    ///
    /// # Errors
    ///
    /// [`Error::OutOfMemory`] only.
    ///
    /// ```
    /// let mut head = sf::Head::parse(sf::Parser::new(), "Priority: i=?0\r\n\r\n").unwrap();
    /// assert_eq!(head.response_priority().unwrap().incremental, Some(false));
    /// ```
    pub fn response_priority(&mut self) -> Result<ResponsePriority, Error> {
        let text = field_text(&self.lines, "Priority")?;
        let said = self.parser.response_priority(text);
        self.or_absent("Priority", said)
    }

    /// Reads the Cache-Status field of a response (RFC 9211 section 2); the path without hops if it
    /// is absent or malformed, or if a member names no cache: each of these is a fault
    /// ([`Fault::NotACache`]).
    ///
    /// # Errors
    ///
    /// [`Error::OutOfMemory`] only.
    ///
    /// ```
    /// let mut head = sf::Head::parse(sf::Parser::new(), "Cache-Status: edge; hit\r\n\r\n").unwrap();
    /// assert_eq!(head.path().unwrap().served_by(), Some(0));
    /// ```
    pub fn path(&mut self) -> Result<Path, Error> {
        let text = field_text(&self.lines, "Cache-Status")?;
        match self.parser.path(&text) {
            Err(Error::NotACache { .. }) => {
                self.note_nameless(&text)?;
                Ok(Path::default())
            }
            said => self.or_absent("Cache-Status", said),
        }
    }

    /// Reads a field of any name; `None` if it is absent or malformed.
    ///
    /// # Errors
    ///
    /// [`Error::OutOfMemory`], and [`Error::TooLong`] of 4 GiB or more.
    ///
    /// ```
    /// use sf::{Dictionary, Head, Parser};
    /// let mut head = Head::parse(Parser::new(), "Example: a=1\r\nexample: b\r\n\r\n").unwrap();
    /// let field: Dictionary = head.field("Example")?.unwrap();
    /// assert_eq!(field["a"].as_item().unwrap().bare_item.as_integer(), Some(1));
    /// assert_eq!(head.field::<Dictionary>("Other")?, None);
    /// # Ok::<(), sf::Error>(())
    /// ```
    pub fn field<T: FieldType>(&mut self, name: &str) -> Result<Option<T>, Error> {
        if !self.has_field(name) {
            return Ok(None);
        }
        let said = self.parser.parse(field_text(&self.lines, name)?);
        self.or_absent(name, said.map(Some))
    }

    /// Decides what a cache does with the response: see [`Exchange::decide_in`]. If the exchange has
    /// no status code, that of the start line counts. The head is incomplete if the exchange or this
    /// head says so. If it is that of a request, that forbids storing ([`Obstacle::NotAResponse`]).
    /// [`Head::malformed`] has what counts and is malformed; [`Head::check`] adds what does not
    /// count, such as a target after the one that decides.
    ///
    /// # Errors
    ///
    /// Those of [`Exchange::decide_in`].
    ///
    /// ```
    /// use sf::{Cache, Exchange, Head, Obstacle, Parser};
    /// let received = "HTTP/1.1 200 OK\r\nCache-Control: max-age=60\r\nAge 20\r\n\r\n";
    /// let mut head = Head::parse(Parser::new(), received).unwrap();
    /// let exchange = Exchange::at(Cache::Shared, 784_111_777).with_status(200);
    /// let verdict = head.decide(&exchange, &["CDN-Cache-Control"]).unwrap();
    /// assert_eq!(verdict.obstacle, Some(Obstacle::Incomplete));
    /// ```
    pub fn decide<'t>(
        &mut self,
        exchange: &Exchange,
        targets: &[&'t str],
    ) -> Result<Verdict<'t>, Error> {
        let exchange = Exchange {
            status: exchange.status.or(self.status),
            is_incomplete: exchange.is_incomplete || self.is_incomplete || self.is_request,
            ..*exchange
        };
        let mut verdict = self.parser.decide(&exchange, targets, &self.lines)?;
        if self.is_request && verdict.obstacle == Some(Obstacle::Incomplete) {
            verdict.obstacle = Some(Obstacle::NotAResponse);
        }
        for malformed in &verdict.malformed {
            self.note(*malformed)?;
        }
        Ok(verdict)
    }

    /// Appends a hop to the Cache-Status field, or writes the hop alone if the field is no
    /// well-formed List: see [`Hop::append_or_replace_in`]. A member that names no cache stays where
    /// it is.
    ///
    /// # Errors
    ///
    /// Those of [`Hop::append_or_replace_in`].
    ///
    /// ```
    /// use sf::{Head, Hop, Outcome, Parser, TokenRef};
    /// let mut head = Head::parse(Parser::new(), "Cache-Status: a; hit,\r\n\r\n").unwrap();
    /// let hop = Hop::new(TokenRef::constant("edge")).with_outcome(Outcome::Hit);
    /// assert_eq!(head.append_or_replace(&hop).unwrap().as_str(), "edge;hit");
    /// assert_eq!(head.malformed()[0].offset, 21);
    /// ```
    pub fn append_or_replace(&mut self, hop: &Hop<'_>) -> Result<Appended, Error> {
        let text = field_text(&self.lines, "Cache-Status")?;
        let sent = self.parser.append_or_replace_hop(hop, [text])?;
        if let Some(refusal) = sent.refusal() {
            self.note(refusal.in_head(&self.lines, "Cache-Status"))?;
        }
        Ok(sent)
    }

    /// The line that a part of a field is in, and the place in that line as it was received, from 0.
    /// `None` if the head does not have the field.
    ///
    /// # Errors
    ///
    /// [`Error::OutOfMemory`] only.
    ///
    /// ```
    /// use sf::{Head, Parser, Place};
    /// let received = "Example: a=1\r\nexample: b=2;q\r\n\r\n";
    /// let head = Head::parse(Parser::new(), received).unwrap();
    /// let (line, place) = head.locate("Example", Place::member("b").param("q")).unwrap().unwrap();
    /// assert_eq!((line.number, place), (2, 13));
    /// assert_eq!(head.locate("Other", "b").unwrap(), None);
    /// ```
    pub fn locate<'p>(
        &self,
        name: &str,
        place: impl Into<Place<'p>>,
    ) -> Result<Option<(HeadLine<'a>, usize)>, Error> {
        if !self.has_field(name) {
            return Ok(None);
        }
        let offset = place.into().offset_in(field_text(&self.lines, name)?);
        let found = self.found(Refusal::at(offset).in_head(&self.lines, name))?;
        Ok(Some((self.lines[found.index], found.offset)))
    }

    /// Adds a fault that the program finds itself to [`Head::malformed`]: at this place of a field,
    /// and with this message. If the head does not have the field, the message is one line, with the
    /// number of the line after the last field line; if the name is empty, it is left out. It takes
    /// time in proportion to the length of the field: call it for the first wrong part of a field
    /// from outside, not for each of many. It adds a fault again if it is one already.
    ///
    /// # Errors
    ///
    /// [`Error::OutOfMemory`] only.
    ///
    /// ```
    /// use sf::{Dictionary, Head, Parser};
    /// # fn main() -> Result<(), sf::Error> {
    /// let received = "GET / HTTP/1.1\r\nSignature-Input: a=(\"@path\"), b=1\r\n\r\n";
    /// let mut head = Head::parse_request(Parser::new(), received)?;
    /// let field: Dictionary = head.field("Signature-Input")?.unwrap_or_default();
    /// for (label, member) in &field {
    ///     if member.as_inner_list().is_none() {
    ///         head.add_fault("Signature-Input", label, "expected an Inner List")?;
    ///     }
    /// }
    /// assert_eq!(
    ///     head.malformed()[0].excerpt(60).to_string(),
    ///     "line 2, place 30: Signature-Input: expected an Inner List\n\
    ///      Signature-Input: a=(\"@path\"), b=1\n\
    ///      \x20                             ^"
    /// );
    /// # Ok(())
    /// # }
    /// ```
    pub fn add_fault<'p>(
        &mut self,
        name: &str,
        place: impl Into<Place<'p>>,
        message: &str,
    ) -> Result<(), Error> {
        let fault = if let Some((line, offset)) = self.locate(name, place)? {
            HeadFault::of_line(Fault::Own, line.number, line.received, offset)
        } else {
            let after = |line: &HeadLine<'_>| line.number.saturating_add(1);
            let number = self.lines.last().map_or(self.number, after);
            HeadFault::of_line(Fault::Own, number, b"", 0)
        };
        self.insert(HeadFault {
            field: copied_text(name)?,
            message: copied_text(message)?,
            ..fault
        })
    }

    /// Adds each malformed field that this crate reads to [`Head::malformed`], also if it does not
    /// count for a decision: Priority, Cache-Status, `Cache-Control`, `Expires`, `Date`, `Age` and
    /// the field of each target, and each `max-age` or `s-maxage` that is no number of seconds; of a
    /// request ([`Head::is_request`]), Priority and `Cache-Control`, as [`Exchange::with_request`]
    /// reads it. `Expires: 0` beside `no-store` is a fault, too. A fault that is there already is
    /// not added again: call it before or after the other methods, whose results it does not change.
    ///
    /// # Errors
    ///
    /// [`Error::OutOfMemory`] only.
    ///
    /// ```
    /// use sf::{Head, Parser};
    /// # fn main() -> Result<(), sf::Error> {
    /// let received = "HTTP/1.1 200 OK\r\nCDN-Cache-Control: max-age=60\r\n\
    ///                 Cache-Control: max-age=\r\nAge: 20, 30\r\n\r\n";
    /// let mut head = Head::parse_response(Parser::new(), received)?;
    /// head.check(&["CDN-Cache-Control"])?;
    /// let messages: Vec<_> = head.malformed().iter().map(ToString::to_string).collect();
    /// assert_eq!(
    ///     messages,
    ///     [
    ///         "line 3, place 23: Cache-Control: the text ended, expected a token or a quoted-string",
    ///         "line 4, place 9: Age: there are several values"
    ///     ]
    /// );
    /// # Ok(())
    /// # }
    /// ```
    pub fn check(&mut self, targets: &[&str]) -> Result<(), Error> {
        let priority = field_text(&self.lines, "Priority")?;
        let said = self.parser.check(Kind::Dict, priority);
        self.or_absent("Priority", said)?;
        if self.is_request {
            return self.is_no_store().map(|_| ());
        }
        let path = field_text(&self.lines, "Cache-Status")?;
        match self.parser.check(Kind::List, &path) {
            Ok(()) => self.note_nameless(&path)?,
            said => self.or_absent("Cache-Status", said)?,
        }
        for malformed in self.parser.faults(targets, &self.lines)? {
            self.note(malformed)?;
        }
        Ok(())
    }

    /// Whether a cache must not store the response to this request, by the `no-store` of its
    /// `Cache-Control` (RFC 9111 section 5.2.1.5), or may not for all that is known: if a line of
    /// it is malformed, which is noted, a directive may be lost.
    pub(crate) fn is_no_store(&mut self) -> Result<bool, Error> {
        let lines = self.lines.iter().enumerate();
        let of_field = lines.filter(|(_, line)| is_of(line, "Cache-Control"));
        let mut malformed = Vec::new();
        let directives = Fallback::read(of_field, &mut malformed)?;
        for one in malformed {
            self.note(one)?;
        }
        Ok(directives.rules().policy.no_store)
    }

    /// What a field says; the default if it is malformed, which is noted.
    fn or_absent<T: Default>(&mut self, name: &str, said: Result<T, Error>) -> Result<T, Error> {
        said.or_else(|error| {
            if let Some(refusal) = error.refusal() {
                self.note(refusal.in_head(&self.lines, name))?;
            }
            error.as_absent()
        })
    }

    /// Notes each member of Cache-Status, a well-formed List, that names no cache, in the order of
    /// the lines, after those that were noted before. It takes time in proportion to the text, the
    /// lines and the faults, however many there are of each.
    fn note_nameless(&mut self, list: &[u8]) -> Result<(), Error> {
        let is_noted = |one: &&HeadFault<'_>| one.fault == Fault::NotACache;
        let noted = self.malformed.iter().filter(is_noted).count();
        let is_of_field = |(_, line): &(usize, &HeadLine<'_>)| is_of(*line, "Cache-Status");
        let mut lines = self.lines.iter().enumerate().filter(is_of_field);
        let mut line = lines.next();
        let mut begin = 0; // the place of the value of this line in the text
        let mut found = Vec::new();
        for at in nameless(list).skip(noted) {
            while let Some((_, before)) = line.filter(|(_, line)| at >= begin + line.value.len()) {
                begin += before.value.len() + 2;
                line = lines.next();
            }
            let (index, line) = match line {
                Some(of_field) => of_field,
                None => break,
            };
            let offset = line.value_at + (at - begin);
            push(
                &mut found,
                HeadFault {
                    field: copied_text("Cache-Status")?,
                    index,
                    ..HeadFault::of_line(Fault::NotACache, line.number, line.received, offset)
                },
            )?;
        }
        merge(&mut self.malformed, found)
    }

    /// Notes a malformed field of this head.
    fn note(&mut self, malformed: Malformed<'_>) -> Result<(), Error> {
        let found = self.found(malformed)?;
        self.insert(found)
    }

    /// The fault of a malformed field of this head, with the place in the line as it was received.
    fn found(&self, malformed: Malformed<'_>) -> Result<HeadFault<'a>, Error> {
        let line = self.lines[malformed.line];
        let (place, part) = match malformed.fault {
            Fault::Refused(refusal) => {
                let place = usize::try_from(refusal.offset).unwrap_or(usize::MAX);
                (place, "")
            }
            // Of the first member what is no digit, or the end of the member if it is empty.
            Fault::NotAnAge => {
                let digits = line.value.iter().take_while(|byte| byte.is_ascii_digit());
                (digits.count(), "")
            }
            Fault::NotADate => http_date::fault(line.value),
            Fault::NotSeconds { offset }
            | Fault::OtherSeconds { offset, .. }
            | Fault::OtherAge { offset } => (offset, ""),
            _ => (0, ""),
        };
        let offset = line.value_at.saturating_add(place);
        let fault = match malformed.fault {
            Fault::Refused(refusal) => Fault::Refused(Refusal {
                offset: offset as u64,
                ..refusal
            }),
            Fault::NotSeconds { .. } => Fault::NotSeconds { offset },
            Fault::OtherSeconds { directive, .. } => Fault::OtherSeconds { directive, offset },
            Fault::OtherAge { .. } => Fault::OtherAge { offset },
            fault => fault,
        };
        Ok(HeadFault {
            field: copied_text(malformed.field)?,
            part,
            index: malformed.line,
            ..HeadFault::of_line(fault, line.number, line.received, offset)
        })
    }

    /// Inserts a fault after those of its line and of the lines before, unless it is one of them. One
    /// that the program found is added each time. It is compared with those of its line alone, so that
    /// many bad lines take no time in proportion to their square.
    fn insert(&mut self, found: HeadFault<'a>) -> Result<(), Error> {
        let is_before = |one: &HeadFault<'_>| one.number <= found.number;
        let after = self.malformed.iter().rposition(is_before);
        let after = after.map_or(0, |last| last + 1);
        let mut of_line = self.malformed[..after]
            .iter()
            .rev()
            .take_while(|one| one.number == found.number);
        if found.fault != Fault::Own
            && of_line.any(|one| one.offset == found.offset && *one == found)
        {
            return Ok(());
        }
        push(&mut self.malformed, found)?;
        self.malformed[after..].rotate_right(1);
        Ok(())
    }
}

/// Merges faults with others, both in the order of their lines, so that each is after those that
/// `faults` had of its line and of the lines before.
fn merge<'a>(faults: &mut Vec<HeadFault<'a>>, more: Vec<HeadFault<'a>>) -> Result<(), Error> {
    let mut all = Vec::new();
    all.try_reserve(faults.len() + more.len())
        .map_err(|_| Error::OutOfMemory)?;
    let mut before = core::mem::take(faults).into_iter().peekable();
    for one in more {
        while let Some(earlier) = before.next_if(|earlier| earlier.number <= one.number) {
            all.push(earlier);
        }
        all.push(one);
    }
    all.extend(before);
    *faults = all;
    Ok(())
}

/// Why a line is no start line, or no status line if that is required, and where, unless its end is
/// wrong.
fn start_fault(line: &[u8], is_status_required: bool) -> (StartFault, Option<usize>) {
    if let Some(at) = line.iter().position(is_barred) {
        return (StartFault::BarredByte, Some(at));
    }
    match version_length(line) {
        Some(length) => {
            let space = line[length..].starts_with(b" ");
            (StartFault::NoStatusCode, Some(length + usize::from(space)))
        }
        None if line.starts_with(b"HTTP/") => (StartFault::NoVersion, Some(5)),
        None if is_status_required => {
            let of_both = line.iter().zip(b"HTTP/").take_while(|(a, b)| a == b);
            (StartFault::NotAStatusLine, Some(of_both.count()))
        }
        None => request_fault(line).unwrap_or((StartFault::NotARequestLine, None)),
    }
}

/// The status code of a status line (RFC 9112 section 4).
fn status_of(line: &[u8]) -> Option<u16> {
    let rest = &line[version_length(line)?..];
    match *rest {
        [b' ', a @ b'1'..=b'9', b @ b'0'..=b'9', c @ b'0'..=b'9']
        | [b' ', a @ b'1'..=b'9', b @ b'0'..=b'9', c @ b'0'..=b'9', b' ', ..] => {
            let digits = [a, b, c].map(|digit| u16::from(digit - b'0'));
            Some(digits[0] * 100 + digits[1] * 10 + digits[2])
        }
        _ => None,
    }
}

/// Why a line is no request line (RFC 9112 section 3), and where it can't go on as one, if it begins
/// with a method and a space; `None` if it is one.
fn request_fault(line: &[u8]) -> Option<(StartFault, Option<usize>)> {
    let method = line.iter().take_while(|byte| is_tchar(**byte)).count();
    if method == 0 || line.get(method) != Some(&b' ') {
        return Some((StartFault::NotARequestLine, None));
    }
    // "No whitespace is allowed in the request-target" (section 3.2).
    let is_in_target = |byte: &u8| !b" \t\x0b\x0c".contains(byte);
    let target = &line[method + 1..];
    let length = target.iter().take_while(|byte| is_in_target(byte)).count();
    let at = method + 1 + length;
    // The space before the version, if the target is not empty.
    let last = line.iter().rposition(|byte| *byte == b' ');
    let last = last.filter(|space| *space > method + 1);
    let has_version = |space: usize| version_length(&line[space + 1..]);
    match last {
        Some(space) if has_version(space) == Some(line.len() - space - 1) => {
            (space != at).then_some((StartFault::SpaceInTarget, Some(at)))
        }
        _ if length > 0 && line.get(at) == Some(&b' ') => {
            let place = at + 1 + has_version(at).unwrap_or(0);
            Some((StartFault::NotARequestLine, Some(place)))
        }
        _ => Some((StartFault::NotARequestLine, Some(at))),
    }
}

/// The length of the HTTP version that a text begins with, such as `HTTP/1.1` or `HTTP/2` (RFC 9110
/// section 2.5).
fn version_length(text: &[u8]) -> Option<usize> {
    match text.strip_prefix(b"HTTP/")? {
        [major, b'.', minor, ..] if major.is_ascii_digit() && minor.is_ascii_digit() => Some(8),
        [major, ..] if major.is_ascii_digit() => Some(6),
        _ => None,
    }
}
