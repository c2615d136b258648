//! The texts of fields, of their lines.

use crate::buffer::lengthen;
use crate::ffi::{self, Fit};
use crate::line::is_of;
use crate::{trim, Error, FieldLine};
use alloc::vec::Vec;
use sf_sys as raw;

/// The text of a field: the values of its lines without the white space around each, joined as by
/// [`join`]. It is empty if the head doesn't have the field.
///
/// # Errors
///
/// [`Error::OutOfMemory`] only.
///
/// ```
/// let head = [("Priority", "u=1"), ("Age", "20"), ("priority", " i ")];
/// assert_eq!(sf::field_text(&head, "Priority").unwrap(), b"u=1, i");
/// assert_eq!(sf::field_text(&head, "Cache-Status").unwrap(), b"");
/// ```
pub fn field_text(
    head: impl IntoIterator<Item = impl FieldLine>,
    name: &str,
) -> Result<Vec<u8>, Error> {
    let mut text = Joining::new();
    for line in head {
        if is_of(&line, name) {
            text.add(trim(line.value()))?;
        }
    }
    Ok(text.finish())
}

/// Whether a head has the field of this name: an absent field and an empty one have the same text.
///
/// ```
/// let head = [("Priority", ""), ("Age", "20")];
/// assert!(sf::has_field(&head, "priority") && !sf::has_field(&head, "Cache-Status"));
/// ```
#[must_use]
pub fn has_field(head: impl IntoIterator<Item = impl FieldLine>, name: &str) -> bool {
    head.into_iter().any(|line| is_of(&line, name))
}

/// Joins the lines of a field, with a comma and a space between two (RFC 9651 section 4.2). The
/// result of no lines is empty. An empty line is a line: beside others it gives `a, , b`, which is
/// malformed (RFC 9110 section 5.3).
///
/// # Errors
///
/// [`Error::OutOfMemory`] only.
///
/// ```
/// assert_eq!(sf::join(["a, b", "c"]).unwrap(), b"a, b, c");
/// ```
pub fn join(lines: impl IntoIterator<Item = impl AsRef<[u8]>>) -> Result<Vec<u8>, Error> {
    let mut text = Joining::new();
    for line in lines {
        text.add(line.as_ref())?;
    }
    Ok(text.finish())
}

/// Lines that are joined.
struct Joining {
    buffer: Vec<u8>,
    joined: raw::Joined,
}

impl Joining {
    fn new() -> Joining {
        Joining {
            buffer: Vec::new(),
            joined: raw::Joined {
                length: 0,
                required: 0,
                begun: 0,
            },
        }
    }

    fn add(&mut self, line: &[u8]) -> Result<(), Error> {
        while let Fit::Short(length) = ffi::join(line, &mut self.buffer, &mut self.joined)? {
            lengthen(&mut self.buffer, length)?;
        }
        Ok(())
    }

    fn finish(mut self) -> Vec<u8> {
        self.buffer.truncate(self.joined.length);
        self.buffer
    }
}
