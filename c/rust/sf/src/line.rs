//! The field lines of a head.

use crate::{trim, Refusal};

/// A field line of a head: its name and its value (RFC 9110 section 5.2). A pair of both is one, and
/// a reference to one. So lists of pairs are the lines of a head, and so is a `&HeaderMap` of the
/// crate `http`.
///
/// ```
/// use sf::FieldLine;
/// let line = ("Priority", b"u=1");
/// assert_eq!((line.name(), line.value()), (b"Priority".as_slice(), b"u=1".as_slice()));
/// ```
pub trait FieldLine {
    /// Its name, whose case is of no importance. White space around it is skipped.
    fn name(&self) -> &[u8];
    /// Its value. White space around it is skipped.
    fn value(&self) -> &[u8];
}

impl<N: AsRef<[u8]>, V: AsRef<[u8]>> FieldLine for (N, V) {
    fn name(&self) -> &[u8] {
        self.0.as_ref()
    }

    fn value(&self) -> &[u8] {
        self.1.as_ref()
    }
}

impl<L: FieldLine> FieldLine for &L {
    fn name(&self) -> &[u8] {
        (*self).name()
    }

    fn value(&self) -> &[u8] {
        (*self).value()
    }
}

/// Whether a line is one of the field of this name (RFC 9110 section 5.1).
pub(crate) fn is_of(line: &impl FieldLine, name: &str) -> bool {
    trim(line.name()).eq_ignore_ascii_case(name.as_bytes())
}

/// Splits a field line as it was received (RFC 9112 section 5), with or without its CR and LF,
/// into its name and its value. `None` if it is no field line: it has no colon, as a status line, or
/// before it no name (RFC 9110 section 5.1); it has a CR, LF or NUL within (section 5.5); or it
/// begins with white space, as a line does that continues the one before (RFC 9112 section 5.2).
/// White space before the colon is skipped, as section 5.1 asks of a proxy that forwards a response;
/// a server has to reject such a request. A cache that skips a line that is no field line, other than
/// the status line, may miss a directive: see [`crate::Exchange::with_incomplete`].
///
/// ```
/// let line = sf::split_field_line("Cache-Status: edge; hit\r\n").unwrap();
/// assert_eq!(line, (b"Cache-Status".as_slice(), b"edge; hit".as_slice()));
/// for line in ["", "HTTP/1.1 200 OK", ": a", " b: c", "a b: c", "Age: 1\r0"] {
///     assert_eq!(sf::split_field_line(line), None);
/// }
/// ```
#[must_use]
pub fn split_field_line<T: AsRef<[u8]> + ?Sized>(line: &T) -> Option<(&[u8], &[u8])> {
    let parts = split(without_end(line.as_ref()), false).ok()?;
    Some((parts.name, parts.value))
}

/// A line without its CR and LF.
pub(crate) fn without_end(line: &[u8]) -> &[u8] {
    let line = line.strip_suffix(b"\n").unwrap_or(line);
    line.strip_suffix(b"\r").unwrap_or(line)
}

/// The parts of a field line.
#[derive(Clone, Copy)]
pub(crate) struct Parts<'a> {
    pub(crate) name: &'a [u8],
    /// The value without the white space around it.
    pub(crate) value: &'a [u8],
    /// Where the value begins in the line.
    #[cfg_attr(not(feature = "alloc"), allow(dead_code))] // a head asks for it
    pub(crate) value_at: usize,
}

/// Splits a line without its CR and LF at the colon, or says where it is no field line, and which
/// bytes may be there by the grammar. White space before the colon is skipped, but not in a request
/// (RFC 9112 section 5.1) that has a colon after it; in a value only CR, LF and NUL are refused (RFC
/// 9110 section 5.5).
pub(crate) fn split(line: &[u8], is_request: bool) -> Result<Parts<'_>, Refusal> {
    let named = line.iter().take_while(|byte| is_tchar(**byte)).count();
    let mut at = named;
    if named > 0 && !(is_request && line[named..].contains(&b':')) {
        at += spaces_before(&line[named..]);
    }
    if named == 0 || line.get(at) != Some(&b':') {
        let is_after_name = |byte| byte == b':' || !is_request && matches!(byte, b' ' | b'\t');
        let is_expected = |byte| named > 0 && is_after_name(byte) || at == named && is_tchar(byte);
        return Err(refusal(line, at, false, is_expected));
    }
    let value = &line[at + 1..];
    match value.iter().position(is_barred) {
        Some(bad) => Err(refusal(line, at + 1 + bad, true, |byte| {
            matches!(byte, b'\t' | b' '..=b'~')
        })),
        None => Ok(Parts {
            name: &line[..named],
            value: trim(value),
            value_at: at + 1 + spaces_before(value),
        }),
    }
}

/// Whether a byte may be neither in a start line nor in a value: a CR, LF or NUL (RFC 9112 section
/// 2.2, RFC 9110 section 5.5).
#[allow(clippy::trivially_copy_pass_by_ref)] // iterators over a line call it
pub(crate) fn is_barred(byte: &u8) -> bool {
    matches!(byte, b'\r' | b'\n' | 0)
}

/// The refusal of a line at this place, where these bytes are allowed.
fn refusal(line: &[u8], at: usize, may_end: bool, is_expected: impl Fn(u8) -> bool) -> Refusal {
    let allowed = (0..128).filter(|byte| is_expected(*byte));
    Refusal {
        offset: at as u64,
        found: line.get(at).copied(),
        expected: allowed.fold(0, |set, byte| set | 1 << byte),
        may_end,
        words: None,
    }
}

/// The number of spaces and tabs at the beginning of a value.
pub(crate) fn spaces_before(value: &[u8]) -> usize {
    let spaces = value.iter().take_while(|byte| matches!(byte, b' ' | b'\t'));
    spaces.count()
}

/// Whether a byte is one of a token, such as a field name (RFC 9110 section 5.6.2).
pub(crate) fn is_tchar(byte: u8) -> bool {
    byte.is_ascii_alphanumeric() || b"!#$%&'*+-.^_`|~".contains(&byte)
}
