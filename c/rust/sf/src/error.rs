use crate::ffi;
use crate::short::Short;
use core::fmt;
use sf_sys as raw;

/// The size of a buffer for any message of a refusal: `SF_REFUSAL_SIZE` of the header.
const MESSAGE_SIZE: usize = 1024;

/// Where and why a text is refused (RFC 9651 section 4.2). Its `Display` is the error message.
///
/// ```
/// let refusal = sf::check(sf::Kind::Item, "1 2").unwrap_err().refusal().unwrap();
/// assert_eq!(refusal.offset, 2);
/// assert_eq!(refusal.found, Some(b'2'));
/// assert!(refusal.expects(b' ') && refusal.may_end);
/// assert_eq!(refusal.to_string(), "byte 0x32 '2' at place 2, expected a space or the end");
/// ```
#[non_exhaustive]
#[derive(Clone, Copy, PartialEq, Eq)]
pub struct Refusal {
    /// The length of the text's longest prefix that some well-formed text of the kind begins with;
    /// of a member that names no cache, its place.
    pub offset: u64,
    /// The byte at that offset, or `None` if the text ended.
    pub found: Option<u8>,
    /// The bytes that are allowed there: bit b is set if byte b is.
    pub expected: u128,
    /// Whether the text could have ended there; false if it did.
    pub may_end: bool,
    /// What is expected, in words, of a line that is no structured field.
    pub(crate) words: Option<&'static str>,
}

impl Refusal {
    /// Whether this byte is allowed at the offset.
    ///
    /// ```
    /// let refusal = sf::check(sf::Kind::Item, "1.").unwrap_err().refusal().unwrap();
    /// assert!(refusal.expects(b'5') && !refusal.expects(b'.'));
    /// ```
    #[must_use]
    pub fn expects(&self, byte: u8) -> bool {
        byte < 128 && self.expected >> byte & 1 != 0
    }

    /// The bytes that are allowed at the offset, in order.
    ///
    /// ```
    /// let refusal = sf::check(sf::Kind::Item, "?2").unwrap_err().refusal().unwrap();
    /// assert!(refusal.expected_bytes().eq([b'0', b'1']));
    /// ```
    pub fn expected_bytes(&self) -> impl Iterator<Item = u8> + '_ {
        (0..128).filter(|byte| self.expects(*byte))
    }

    /// The error message, then the line of the text with a caret below the offset. Give the text
    /// that was refused. Each byte of it is one character there: a question mark if it is not
    /// printable.
    ///
    /// ```
    /// let text = "1 2";
    /// let refusal = sf::check(sf::Kind::Item, text).unwrap_err().refusal().unwrap();
    /// assert_eq!(
    ///     refusal.in_text(text).to_string(),
    ///     "byte 0x32 '2' at place 2, expected a space or the end\n\
    ///      line 1, place 2:\n\
    ///      1 2\n\
    ///      \x20 ^"
    /// );
    /// ```
    #[cfg(feature = "alloc")]
    #[must_use]
    pub fn in_text<'a>(&self, text: &'a (impl AsRef<[u8]> + ?Sized)) -> RefusalInText<'a> {
        RefusalInText {
            refusal: *self,
            text: text.as_ref(),
        }
    }
}

/// With the bytes as characters.
///
/// ```
/// let refusal = sf::check(sf::Kind::Item, "1;=").unwrap_err().refusal().unwrap();
/// let shown = format!("{refusal:?}");
/// assert!(shown.starts_with("Refusal { offset: 2, found: Some('='), expected: \" *abc"));
/// ```
impl fmt::Debug for Refusal {
    fn fmt(&self, f: &mut fmt::Formatter<'_>) -> fmt::Result {
        f.debug_struct("Refusal")
            .field("offset", &self.offset)
            .field("found", &self.found.map(char::from))
            .field("expected", &Set(self.expected))
            .field("may_end", &self.may_end)
            .finish_non_exhaustive()
    }
}

/// A set of bytes, which its `Debug` shows in order.
struct Set(u128);

impl fmt::Debug for Set {
    fn fmt(&self, f: &mut fmt::Formatter<'_>) -> fmt::Result {
        f.write_str("\"")?;
        for byte in (0..128).filter(|byte| self.0 >> byte & 1 != 0) {
            write!(f, "{}", char::from(byte).escape_default())?;
        }
        f.write_str("\"")
    }
}

/// The line that a refusal is in, of lines that were joined, and the place in it: see
/// [`Refusal::line`]. Both are counted from 0; in messages, lines are counted from 1.
///
/// ```
/// let refusal = sf::check(sf::Kind::List, "a, b,").unwrap_err().refusal().unwrap();
/// let place = refusal.line(["a", "b,"]);
/// assert_eq!((place.line, place.offset), (1, 2));
/// ```
#[derive(Clone, Copy, Debug, Default, PartialEq, Eq, Hash)]
pub struct LinePlace {
    /// The index of the line.
    pub line: usize,
    /// The offset in the line; its length if the place is after it.
    pub offset: usize,
}

impl Refusal {
    /// The line of a refusal, and the place in it, if the refused text is these lines, joined by
    /// [`join`](crate::join()) in this order. Without lines both are 0.
    ///
    /// ```
    /// let lines = ["a, b", "c, (d e, f"];
    /// let text = sf::join(lines).unwrap();
    /// let refusal = sf::check(sf::Kind::List, text).unwrap_err().refusal().unwrap();
    /// assert_eq!(refusal.line(lines), sf::LinePlace { line: 1, offset: 7 });
    /// ```
    #[must_use]
    pub fn line(&self, lines: impl IntoIterator<Item = impl AsRef<[u8]>>) -> LinePlace {
        self.place_in(lines.into_iter().map(|line| line.as_ref().len()))
    }

    /// A place alone, of which it is not known what is wrong.
    #[cfg(feature = "alloc")]
    pub(crate) fn at(offset: usize) -> Refusal {
        Refusal {
            offset: offset as u64,
            found: None,
            expected: 0,
            may_end: false,
            words: None,
        }
    }

    /// The same for lines of these lengths.
    pub(crate) fn place_in(&self, lengths: impl Iterator<Item = usize>) -> LinePlace {
        let mut left = usize::try_from(self.offset).unwrap_or(usize::MAX);
        let mut place = LinePlace::default();
        let mut before = 0; // the length of the line so far
        for (line, length) in lengths.enumerate() {
            if line > 0 {
                if left < before + 2 {
                    break;
                }
                left -= before + 2;
            }
            before = length;
            let offset = left.min(before);
            place = LinePlace { line, offset };
        }
        place
    }

    /// The refusal at this place of a line of this length: where the line ends too early, nothing was
    /// found, also if another line follows, since the comma between them is no byte of a line. After
    /// a whole Item, which has one line, the comma is told.
    pub(crate) fn at_line(self, offset: usize, length: usize) -> Refusal {
        let is_told = offset < length || (self.may_end && length > 0);
        Refusal {
            offset: offset as u64,
            found: self.found.filter(|_| is_told),
            may_end: self.may_end && is_told,
            ..self
        }
    }

    /// The error message, then at most so many bytes of the text around the offset, with `...` at an
    /// end where more of it is left out, and a caret below it. So it has a bound, whatever the length
    /// of the text. Give the text that was refused. Bytes that are not printable are question marks
    /// there.
    ///
    /// ```
    /// let text = "1 2";
    /// let refusal = sf::check(sf::Kind::Item, text).unwrap_err().refusal().unwrap();
    /// assert_eq!(
    ///     refusal.excerpt(text, 2).to_string(),
    ///     "byte 0x32 '2' at place 2, expected a space or the end\n... 2\n    ^"
    /// );
    /// ```
    #[must_use]
    pub fn excerpt<'a>(&self, text: &'a (impl AsRef<[u8]> + ?Sized), most: usize) -> Excerpt<'a> {
        Excerpt {
            refusal: *self,
            line: None,
            text: text.as_ref(),
            most,
        }
    }

    /// The same of the line that the refusal is in, of lines that were joined by
    /// [`join`](crate::join()) in this order. Both places in the message are in that line, not in
    /// the joined text, and from 0; the line is counted from 1. Where a line ends too early, the
    /// message says that the text ended there, also if another line follows; after an Item, which has
    /// one line, the comma is found.
    ///
    /// ```
    /// let lines = ["a, b", "c, (d e, f"];
    /// let text = sf::join(lines).unwrap();
    /// let refusal = sf::check(sf::Kind::List, text).unwrap_err().refusal().unwrap();
    /// assert_eq!(
    ///     refusal.excerpt_of_line(&lines, 8).to_string(),
    ///     "byte 0x2c ',' at place 7, expected a token character, `)`, `;` or a space\n\
    ///      line 2, place 7:\n\
    ///      ... (d e, f\n\
    ///      \x20       ^"
    /// );
    /// ```
    #[must_use]
    pub fn excerpt_of_line<'a>(&self, lines: &'a [impl AsRef<[u8]>], most: usize) -> Excerpt<'a> {
        let place = self.line(lines);
        let text = lines.get(place.line).map_or(&[][..], AsRef::as_ref);
        let refusal = self.at_line(place.offset, text.len());
        Excerpt {
            line: Some(place.line + 1),
            ..refusal.excerpt(text, most)
        }
    }
}

/// A refusal with a part of its text: see [`Refusal::excerpt`].
///
/// ```
/// let refusal = sf::check(sf::Kind::Item, "a\nb").unwrap_err().refusal().unwrap();
/// assert!(refusal.excerpt("a\nb", 2).to_string().ends_with("\na?...\n ^"));
/// ```
#[derive(Clone, Copy, Debug)]
pub struct Excerpt<'a> {
    refusal: Refusal,
    line: Option<usize>,
    text: &'a [u8],
    most: usize,
}

impl Excerpt<'_> {
    /// The same with another number of the line, such as that of the line in a message's head.
    ///
    /// ```
    /// let refusal = sf::check(sf::Kind::List, "a, b c").unwrap_err().refusal().unwrap();
    /// let shown = refusal.excerpt_of_line(&["a", "b c"], 8).with_line(7).to_string();
    /// assert!(shown.contains("\nline 7, place 2:\nb c\n"));
    /// ```
    #[must_use]
    pub fn with_line(self, number: usize) -> Self {
        Excerpt {
            line: Some(number),
            ..self
        }
    }
}

impl fmt::Display for Excerpt<'_> {
    fn fmt(&self, f: &mut fmt::Formatter<'_>) -> fmt::Result {
        write!(f, "{}", self.refusal)?;
        if let Some(line) = self.line {
            write!(f, "\nline {line}, place {}:", self.refusal.offset)?;
        }
        let offset = usize::try_from(self.refusal.offset).unwrap_or(usize::MAX);
        write_excerpt(f, self.text, offset, self.most)
    }
}

/// Writes two lines, each after a line feed: at most so many bytes of a text around the place, with
/// `...` where it is cut off, and a caret below the place.
pub(crate) fn write_excerpt(
    f: &mut fmt::Formatter<'_>,
    text: &[u8],
    offset: usize,
    most: usize,
) -> fmt::Result {
    let length = text.len();
    let at = offset.min(length);
    let from = at.saturating_sub(most / 2).min(length.saturating_sub(most));
    let to = length.min(from.saturating_add(most));
    let shown = text[from..to].iter().map(|byte| match byte {
        b' '..=b'~' => *byte,
        _ => b'?',
    });
    let dots = |is_cut| core::iter::repeat(b'.').take(if is_cut { 3 } else { 0 });
    let (before, after) = (dots(from > 0), dots(to < length));
    let spaces = before.clone().map(|_| b' ');
    let spaces = spaces.chain((from..at).map(|_| b' '));
    let end = |byte| core::iter::once(byte);
    let line = end(b'\n').chain(before).chain(shown).chain(after);
    write_ascii(f, line.chain(end(b'\n')).chain(spaces).chain(end(b'^')))
}

/// Writes bytes of ASCII, many with one call, since each may be a call of the system: a standard
/// error has no buffer.
fn write_ascii(f: &mut fmt::Formatter<'_>, mut bytes: impl Iterator<Item = u8>) -> fmt::Result {
    let mut run = [0; 128];
    loop {
        let mut length = 0;
        for (slot, byte) in run.iter_mut().zip(&mut bytes) {
            *slot = byte;
            length += 1;
        }
        f.write_str(core::str::from_utf8(&run[..length]).unwrap_or_default())?;
        if length < run.len() {
            return Ok(());
        }
    }
}

impl From<&raw::Refusal> for Refusal {
    fn from(refusal: &raw::Refusal) -> Refusal {
        Refusal {
            offset: refusal.offset,
            found: u8::try_from(refusal.found).ok(),
            expected: u128::from(refusal.expected_high) << 64 | u128::from(refusal.expected_low),
            may_end: refusal.may_end != 0,
            words: None,
        }
    }
}

impl From<&Refusal> for raw::Refusal {
    fn from(refusal: &Refusal) -> raw::Refusal {
        let [high, low] = halves(refusal.expected);
        raw::Refusal {
            offset: refusal.offset,
            expected_low: low,
            expected_high: high,
            found: refusal.found.map_or(-1, i32::from),
            may_end: u32::from(refusal.may_end),
        }
    }
}

/// The high and the low half of a set.
#[allow(clippy::cast_possible_truncation)] // that is what is required
fn halves(set: u128) -> [u64; 2] {
    [(set >> 64) as u64, set as u64]
}

impl fmt::Display for Refusal {
    fn fmt(&self, f: &mut fmt::Formatter<'_>) -> fmt::Result {
        match Short::<MESSAGE_SIZE>::written(|buffer| ffi::refusal_text(self, buffer)) {
            Ok(message) => match self.words {
                None => f.pad(message.as_str()),
                Some(words) => {
                    let found = message.as_str().split(", expected ").next();
                    write!(f, "{}, expected {words}", found.unwrap_or_default())
                }
            },
            // Out of memory: `format!` would panic if this returned an error.
            Err(_) => write!(f, "malformed at place {}", self.offset),
        }
    }
}

impl Refusal {
    /// Writes the error message without the place, for messages that have it elsewhere.
    #[cfg(feature = "alloc")]
    pub(crate) fn write_without_place(&self, f: &mut fmt::Formatter<'_>) -> fmt::Result {
        let refusal = Refusal { offset: 0, ..*self };
        match Short::<MESSAGE_SIZE>::written(|buffer| ffi::refusal_text(&refusal, buffer)) {
            Ok(message) => {
                let mut parts = message.as_str().splitn(2, " at place 0");
                f.write_str(parts.next().unwrap_or_default())?;
                match self.words {
                    None => f.write_str(parts.next().unwrap_or_default()),
                    Some(words) => write!(f, ", expected {words}"),
                }
            }
            Err(_) => f.write_str("malformed"), // out of memory, as above
        }
    }
}

/// A refusal with its text: see [`Refusal::in_text`].
///
/// ```
/// let refusal = sf::check(sf::Kind::Item, "a\nb").unwrap_err().refusal().unwrap();
/// assert!(refusal.in_text("a\nb").to_string().ends_with("\na?b\n ^"));
/// ```
#[cfg(feature = "alloc")]
#[derive(Clone, Copy, Debug)]
pub struct RefusalInText<'a> {
    refusal: Refusal,
    text: &'a [u8],
}

#[cfg(feature = "alloc")]
impl fmt::Display for RefusalInText<'_> {
    fn fmt(&self, f: &mut fmt::Formatter<'_>) -> fmt::Result {
        let shown = crate::buffer::written(MESSAGE_SIZE, |buffer| {
            ffi::refusal_in_text(&self.refusal, self.text, buffer)
        });
        match shown {
            Ok(shown) => f.pad(&shown),
            Err(_) => self.refusal.fmt(f),
        }
    }
}

/// Why a call has no result.
///
/// ```
/// let error = sf::check(sf::Kind::Item, "1 2").unwrap_err();
/// assert_eq!(error.to_string(), "byte 0x32 '2' at place 2, expected a space or the end");
/// let error = sf::equal(sf::Kind::Item, "1", "").unwrap_err();
/// assert!(matches!(error, sf::Error::SecondRefused(refusal) if refusal.offset == 0));
/// ```
#[non_exhaustive]
#[derive(Clone, Copy, Debug, PartialEq, Eq)]
pub enum Error {
    /// The text is malformed: where, and which bytes are allowed there.
    Refused(Refusal),
    /// Of two texts, the first is well-formed and the second malformed.
    SecondRefused(Refusal),
    /// The text is well-formed, but its value is of another type than the one that was asked for.
    OtherType,
    /// A targeted field without members, which a cache ignores (RFC 9213 section 2.1).
    Empty,
    /// A Cache-Status List has a member that does not name a cache.
    NotACache {
        /// The index of the first one.
        index: usize,
        /// Its place, and the bytes that a String or a Token begins with.
        refusal: Refusal,
    },
    /// A number is out of range, the dialect has no such type, or a hop that is appended has
    /// [`crate::Outcome::Conflict`].
    Invalid,
    /// A text to parse, or the keys and bytes of a value to write, of 4 GiB or more.
    TooLong,
    /// The caller's buffers are too small: how many nodes and bytes are enough.
    TooSmall {
        /// The nodes.
        nodes: usize,
        /// The bytes.
        bytes: usize,
    },
    /// An allocation failed, in the library or for a result.
    OutOfMemory,
    /// The library that is linked is not of this crate's version: it gave a status or bytes that
    /// the crate does not know.
    OtherLibrary,
}

impl Error {
    /// The place where a text is wrong: the refusal, if a text was refused, the first or the second;
    /// and of [`Error::NotACache`] the place of the member.
    ///
    /// ```
    /// let error = sf::List::parse("a, b c").unwrap_err();
    /// assert_eq!(error.refusal().map(|refusal| refusal.offset), Some(5));
    /// ```
    #[must_use]
    pub fn refusal(&self) -> Option<Refusal> {
        match self {
            Error::Refused(refusal)
            | Error::SecondRefused(refusal)
            | Error::NotACache { refusal, .. } => Some(*refusal),
            _ => None,
        }
    }

    /// The default if the field is malformed, as if it were absent; otherwise this error. Most
    /// definitions of fields let recipients ignore a field that is malformed (RFC 9651 section
    /// 4.2), but not one for which memory was short.
    ///
    /// # Errors
    ///
    /// This error, unless it is [`Error::Refused`] or [`Error::NotACache`].
    ///
    /// ```
    /// # fn main() -> Result<(), sf::Error> {
    /// let priority = sf::Priority::parse("u=5,").or_else(sf::Error::as_absent)?;
    /// assert_eq!(priority, sf::Priority::default());
    /// # Ok(())
    /// # }
    /// ```
    pub fn as_absent<T: Default>(self) -> Result<T, Error> {
        match self {
            Error::Refused(_) | Error::NotACache { .. } => Ok(T::default()),
            error => Err(error),
        }
    }
}

impl fmt::Display for Error {
    fn fmt(&self, f: &mut fmt::Formatter<'_>) -> fmt::Result {
        match self {
            Error::Refused(refusal) => refusal.fmt(f),
            Error::SecondRefused(refusal) => write!(f, "the second text: {refusal}"),
            Error::OtherType => f.write_str("the value is of another type"),
            Error::Empty => f.write_str("the field has no members"),
            Error::NotACache { index, .. } => write!(
                f,
                "member {index} does not name a cache, expected a Token or a String"
            ),
            Error::Invalid => f.write_str("the value is out of range or not allowed"),
            Error::TooLong => f.write_str("the text or the value has 4 GiB or more"),
            Error::TooSmall { nodes, bytes } => {
                write!(f, "space for {nodes} nodes and {bytes} bytes is required")
            }
            Error::OutOfMemory => f.write_str("out of memory"),
            Error::OtherLibrary => f.write_str("libsf has another version than the crate sf"),
        }
    }
}

// The same trait; in `core` it is of a newer Rust than the crate asks for with `std`.
#[cfg(not(feature = "std"))]
use core::error::Error as StdError;
#[cfg(feature = "std")]
use std::error::Error as StdError;

impl StdError for Refusal {}
impl StdError for Error {}

/// For functions that return what `std::io` does: the kind is `OutOfMemory` for
/// [`Error::OutOfMemory`], and otherwise `InvalidData`, with this error inside.
///
/// ```
/// use std::io::{self, ErrorKind};
/// fn label(text: &str) -> io::Result<sf::Key> {
///     Ok(sf::Key::new(text)?)
/// }
/// let error = label("A").unwrap_err();
/// assert_eq!(error.kind(), ErrorKind::InvalidData);
/// let inner = error.get_ref().unwrap().downcast_ref::<sf::Error>();
/// assert_eq!(inner.unwrap().refusal().unwrap().offset, 0);
/// assert_eq!(io::Error::from(sf::Error::OutOfMemory).kind(), ErrorKind::OutOfMemory);
/// ```
#[cfg(feature = "std")]
impl From<Error> for std::io::Error {
    fn from(error: Error) -> std::io::Error {
        match error {
            // Without the error inside, for which it would allocate.
            Error::OutOfMemory => std::io::ErrorKind::OutOfMemory.into(),
            error => std::io::Error::new(std::io::ErrorKind::InvalidData, error),
        }
    }
}

// For what is taken as `TryInto<Key>` and is a `Key`.
impl From<core::convert::Infallible> for Error {
    fn from(never: core::convert::Infallible) -> Error {
        match never {}
    }
}
