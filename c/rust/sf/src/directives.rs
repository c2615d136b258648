//! The place where a line of `Cache-Control` is malformed. The library decides whether it is.

use crate::line::is_tchar;
use crate::Refusal;

/// What the bytes before a place are.
#[derive(Clone, Copy, PartialEq)]
enum State {
    /// The beginning, a comma, or white space after these.
    Before,
    /// A part of a directive's name.
    Name,
    /// A name and `=`.
    Equals,
    /// A part of a token after `=`.
    Token,
    /// A part of a quoted-string.
    Quoted,
    /// A backslash in a quoted-string.
    Escape,
    /// A quoted-string, or white space after a directive.
    After,
}

impl State {
    /// The state after one more byte; `None` if it is not allowed (RFC 9111 section 5.2, RFC 9110
    /// sections 5.6.1 to 5.6.4).
    fn with(self, byte: u8) -> Option<State> {
        let is_quotable = byte == b'\t' || byte >= b' ' && byte != 127;
        match (self, byte) {
            (State::Quoted, b'"') => Some(State::After),
            (State::Quoted, b'\\') => Some(State::Escape),
            (State::Quoted | State::Escape, _) => is_quotable.then_some(State::Quoted),
            (State::Equals, b'"') => Some(State::Quoted),
            (State::Equals | State::Token, _) if is_tchar(byte) => Some(State::Token),
            (State::Equals, _) => None,
            (_, b',') => Some(State::Before),
            (State::Before, _) if is_ows(byte) => Some(State::Before),
            (_, _) if is_ows(byte) => Some(State::After),
            (State::Name, b'=') => Some(State::Equals),
            (State::Before | State::Name, _) if is_tchar(byte) => Some(State::Name),
            _ => None,
        }
    }

    /// Whether the line may end there.
    fn may_end(self) -> bool {
        !matches!(self, State::Equals | State::Quoted | State::Escape)
    }

    /// What is expected there, in words.
    fn expected(self) -> &'static str {
        match self {
            State::Before => "a directive",
            State::Name => "a token character, `=`, `,` or the end",
            State::Equals => "a token or a quoted-string",
            State::Token => "a token character, `,` or the end",
            State::Quoted | State::Escape => "the rest of a quoted-string",
            State::After => "`,` or the end",
        }
    }

    /// The refusal of a byte there, or of the end.
    fn refusal(self, offset: usize, found: Option<u8>) -> Refusal {
        let allowed = (0..128).filter(|byte| self.with(*byte).is_some());
        Refusal {
            offset: offset as u64,
            found,
            expected: allowed.fold(0, |set, byte| set | 1 << byte),
            may_end: found.is_some() && self.may_end(),
            words: Some(self.expected()),
        }
    }
}

/// Whether a byte is white space (RFC 9110 section 5.6.3).
fn is_ows(byte: u8) -> bool {
    matches!(byte, b' ' | b'\t')
}

/// A directive of a line whose argument is no number of seconds, or another one than before.
#[cfg(feature = "alloc")]
pub(crate) struct NotSeconds {
    /// Where the argument begins, or the name ends if there is none.
    pub(crate) offset: usize,
    /// Whether it is another number.
    pub(crate) is_other: bool,
}

/// The first directive of this name that has no number of seconds or, in this line or before, another
/// one. The line is a list of directives.
#[cfg(feature = "alloc")]
pub(crate) fn not_seconds(line: &[u8], name: &str, before: &mut Option<u64>) -> Option<NotSeconds> {
    let mut at = 0;
    while at < line.len() {
        let length = token_length(&line[at..]);
        let is_it = line[at..at + length].eq_ignore_ascii_case(name.as_bytes());
        at += length;
        let has_argument = length > 0 && line.get(at) == Some(&b'=');
        at += usize::from(has_argument);
        let argument = &line[at..];
        let (end, found) = match argument.first() {
            Some(b'"') if has_argument => {
                let end = quoted_length(argument);
                (end, seconds(unescaped(&argument[1..end.max(2) - 1])))
            }
            _ if has_argument => {
                let end = token_length(argument);
                (end, seconds(argument[..end].iter().copied()))
            }
            _ => (0, None),
        };
        if is_it {
            let is_other = found.is_some();
            if !is_other || before.map_or(false, |number| Some(number) != found) {
                return Some(NotSeconds {
                    offset: at,
                    is_other,
                });
            }
            *before = found;
        }
        at += end;
        let between = line[at..].iter().take_while(|byte| !is_tchar(**byte));
        at += between.count();
    }
    None
}

/// The length of the quoted-string that a text begins with.
#[cfg(feature = "alloc")]
fn quoted_length(text: &[u8]) -> usize {
    let mut at = 1;
    loop {
        match text.get(at) {
            None => return text.len(),
            Some(b'"') => return at + 1,
            Some(b'\\') => at += 2,
            Some(_) => at += 1,
        }
    }
}

/// The bytes of a quoted-string without its quotes and the backslashes of escapes.
#[cfg(feature = "alloc")]
fn unescaped(quoted: &[u8]) -> impl Iterator<Item = u8> + '_ {
    let mut is_escape = false;
    quoted.iter().copied().filter(move |byte| {
        is_escape = *byte == b'\\' && !is_escape;
        !is_escape
    })
}

/// The number of seconds of an argument, at most 2^31 (RFC 9111 section 1.2.2).
#[cfg(feature = "alloc")]
fn seconds(argument: impl Iterator<Item = u8>) -> Option<u64> {
    let mut digits = argument.peekable();
    digits.peek()?;
    digits.try_fold(0, |seconds: u64, byte| {
        let digit = char::from(byte).to_digit(10)?;
        Some((seconds * 10 + u64::from(digit)).min(1 << 31))
    })
}

/// The length of the token that a text begins with.
#[cfg(feature = "alloc")]
fn token_length(text: &[u8]) -> usize {
    text.iter().take_while(|byte| is_tchar(**byte)).count()
}

/// The refusal of a line that is no list of directives. White space around it is no part of it.
pub(crate) fn refusal(line: &[u8]) -> Refusal {
    let end = line
        .iter()
        .rposition(|byte| !is_ows(*byte))
        .map_or(0, |last| last + 1);
    let mut state = State::Before;
    for (offset, &byte) in line[..end].iter().enumerate() {
        match state.with(byte) {
            Some(next) => state = next,
            None => return state.refusal(offset, Some(byte)),
        }
    }
    state.refusal(end, None)
}
