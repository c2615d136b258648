//! What is malformed in a head.

use crate::error::write_excerpt;
use crate::malformed::{Fault, DATE};
use crate::Refusal;
use alloc::string::String;
use core::fmt;

/// A line or a field of a [`Head`](crate::Head) that is malformed. It borrows nothing but the line,
/// from the text that the head borrows, so it can outlive the head. Its `Display` is one line, such
/// as for a log.
///
/// ```
/// use sf::{Fault, Head, Parser};
/// let received = "HTTP/1.1 200 OK\r\nAge 20\r\n\r\n";
/// let malformed = Head::parse(Parser::new(), received).unwrap().malformed().to_vec();
/// assert!(matches!(malformed[0].fault, Fault::NotALine(refusal) if refusal.offset == 4));
/// assert_eq!(
///     malformed[0].to_string(),
///     "line 2, place 4: not a field line: no colon after the name"
/// );
/// ```
#[derive(Clone, Debug, PartialEq, Eq)]
#[non_exhaustive]
pub struct HeadFault<'a> {
    /// The name by which the field was looked up; empty for a fault that is about no field, as those
    /// of lines, of the start line and of the end.
    pub field: String,
    /// The message of [`Head::add_fault`](crate::Head::add_fault); empty for other faults.
    pub message: String,
    /// What is wrong. The offset of a refusal is one in the line.
    pub fault: Fault,
    /// The number of the line: see [`Head::set_number`](crate::Head::set_number).
    pub number: usize,
    /// The line as it was received: [`HeadLine::received`](crate::HeadLine::received). For
    /// [`Fault::NoEnd`], the last line if it has no line end, with the CR that it may have;
    /// otherwise empty, and the number is that of the next line.
    pub line: &'a [u8],
    /// The place in the line, from 0: where it is refused; for [`Fault::NotACache`], where the
    /// member begins; for [`Fault::NotADate`], the part of the date that is wrong; for
    /// [`Fault::NotSeconds`], the argument of the directive; for [`Fault::NotAnAge`], where the
    /// first member has a byte that is no digit, or ends if it is empty; for [`Fault::OtherAge`],
    /// where the second member or line begins; for [`Fault::NotAStartLine`], the CR, LF or NUL, or
    /// where it can't go on as a status line if it begins with `HTTP/` or a status line is required,
    /// or as a request line if it begins with a method and a space, such as at a space in the
    /// target, otherwise where it is no field line; for a missing start line, 0; for a missing end,
    /// that of the text; for [`Fault::Own`], that of the program; otherwise where the value begins.
    pub offset: usize,
    /// The part that is expected of [`Fault::NotADate`], in words that go on with a date.
    pub(crate) part: &'static str,
    /// The index of the line in the head, for a fault of a field.
    pub(crate) index: usize,
}

impl<'a> HeadFault<'a> {
    /// A fault of a line, not of a field.
    pub(crate) fn of_line(fault: Fault, number: usize, line: &'a [u8], offset: usize) -> Self {
        HeadFault {
            field: String::new(),
            message: String::new(),
            fault,
            number,
            line,
            offset,
            part: "",
            index: 0,
        }
    }

    /// A message of three lines: the `Display` of the fault, at most so many bytes of the line
    /// around the place, with `...` at an end where more of it is left out, and a caret below the
    /// place. So it has a bound, whatever the length of the line. Bytes that are not printable are
    /// question marks. If there is no line to show, as for a [`Fault::NoEnd`] after a whole line,
    /// the message is the first of these lines alone.
    ///
    /// ```
    /// use sf::{Cache, Exchange, Head, Parser};
    /// let mut head = Head::parse(Parser::new(), "Age: 1 day\r\n\r\n").unwrap();
    /// head.decide(&Exchange::at(Cache::Shared, 784_111_777), &[]).unwrap();
    /// assert_eq!(
    ///     head.malformed()[0].excerpt(8).to_string(),
    ///     "line 1, place 6: Age: expected a number of seconds\n\
    ///      ...e: 1 day\n\
    ///      \x20      ^"
    /// );
    /// ```
    #[must_use]
    pub fn excerpt(&self, most: usize) -> HeadExcerpt<'_> {
        HeadExcerpt {
            file: None,
            fault: self,
            most,
        }
    }

    /// The same after the name of a file, such as a `&str` or the
    /// [`display`](std::path::Path::display) of a path.
    ///
    /// ```
    /// use sf::{Head, Parser};
    /// let head = Head::parse(Parser::new(), "Age: 1\r\nVia\r\n\r\n").unwrap();
    /// assert_eq!(
    ///     head.malformed()[0].excerpt_in("response.txt", 40).to_string(),
    ///     "response.txt, line 2, place 3: not a field line: no colon after the name\n\
    ///      Via\n\
    ///      \x20  ^"
    /// );
    /// ```
    #[must_use]
    pub fn excerpt_in<F: fmt::Display>(&self, file: F, most: usize) -> HeadExcerpt<'_, F> {
        HeadExcerpt {
            file: Some(file),
            fault: self,
            most,
        }
    }
}

impl fmt::Display for HeadFault<'_> {
    fn fmt(&self, f: &mut fmt::Formatter<'_>) -> fmt::Result {
        write!(f, "line {}, place {}: ", self.number, self.offset)?;
        if !self.field.is_empty() {
            write!(f, "{}: ", self.field)?;
        }
        match self.fault {
            Fault::Refused(refusal) => {
                if is_long_number(self.line, &refusal) {
                    f.write_str("too many digits: ")?;
                }
                refusal.write_without_place(f)
            }
            Fault::NotADate => write!(f, "expected {}{DATE}", self.part),
            Fault::Own => f.write_str(&self.message),
            Fault::NoEnd if !self.line.is_empty() => f.write_str(CUT_OFF),
            fault => write!(f, "{fault}"),
        }
    }
}

/// Whether a line is refused because a number has too many digits: more than 15, or 12 before a
/// point, or 3 after it (RFC 9651 sections 3.3.1, 3.3.2 and 3.3.7).
fn is_long_number(line: &[u8], refusal: &Refusal) -> bool {
    let at = usize::try_from(refusal.offset).unwrap_or(usize::MAX);
    if refusal.words.is_some() || at >= line.len() {
        return false;
    }
    let (before, from) = line.split_at(at);
    let digits = before.iter().rev().take_while(|byte| byte.is_ascii_digit());
    let digits = digits.count();
    let before = &before[..at - digits];
    match from[0] {
        b'0'..=b'9' => digits == 15 || digits == 3 && before.ends_with(b"."),
        b'.' => {
            let before = before.strip_suffix(b"-").unwrap_or(before);
            // In a Byte Sequence, letters are expected.
            digits > 12 && !before.ends_with(b"@") && !refusal.expects(b'a')
        }
        _ => false,
    }
}

/// The message of a head whose last line has no line end.
const CUT_OFF: &str = "the head is cut off: its last line has no line end";

/// A fault of a head with a part of its line: see [`HeadFault::excerpt`] and
/// [`HeadFault::excerpt_in`].
///
/// ```
/// let head = sf::Head::parse(sf::Parser::new(), "\0\r\n\r\n").unwrap();
/// assert!(head.malformed()[0].excerpt(2).to_string().ends_with("\n?\n^"));
/// ```
#[derive(Clone, Copy, Debug)]
pub struct HeadExcerpt<'a, F = &'static str> {
    file: Option<F>,
    fault: &'a HeadFault<'a>,
    most: usize,
}

impl<F: fmt::Display> fmt::Display for HeadExcerpt<'_, F> {
    fn fmt(&self, f: &mut fmt::Formatter<'_>) -> fmt::Result {
        if let Some(file) = &self.file {
            write!(f, "{file}, ")?;
        }
        write!(f, "{}", self.fault)?;
        let has_line = match self.fault.fault {
            Fault::NoEnd | Fault::NoRequestLine | Fault::NoStatusLine | Fault::Own => {
                !self.fault.line.is_empty()
            }
            _ => true,
        };
        if !has_line {
            return Ok(());
        }
        write_excerpt(f, self.fault.line, self.fault.offset, self.most)
    }
}
