//! Buffers that grow, or say that they can't.

use crate::ffi::Fit;
use crate::Error;
use alloc::string::String;
use alloc::vec::Vec;

/// Gives a buffer the length, whatever its contents.
pub(crate) fn resize<T: Clone>(buffer: &mut Vec<T>, length: usize, filler: T) -> Result<(), Error> {
    reserve(buffer, length.saturating_sub(buffer.len()))?;
    buffer.resize(length, filler);
    Ok(())
}

/// Lengthens a buffer that may be lengthened again, so that it is seldom moved.
pub(crate) fn lengthen(buffer: &mut Vec<u8>, length: usize) -> Result<(), Error> {
    let more = length.saturating_sub(buffer.len());
    buffer.try_reserve(more).map_err(|_| Error::OutOfMemory)?;
    buffer.resize(length, 0);
    Ok(())
}

/// Appends elements to a buffer that may be lengthened again, so that it is seldom moved.
pub(crate) fn append<T: Clone>(buffer: &mut Vec<T>, more: &[T]) -> Result<(), Error> {
    buffer
        .try_reserve(more.len())
        .map_err(|_| Error::OutOfMemory)?;
    buffer.extend_from_slice(more);
    Ok(())
}

/// Appends an element to a buffer that may be lengthened again, so that it is seldom moved.
pub(crate) fn push<T>(buffer: &mut Vec<T>, one: T) -> Result<(), Error> {
    buffer.try_reserve(1).map_err(|_| Error::OutOfMemory)?;
    buffer.push(one);
    Ok(())
}

/// Makes space for so many elements more.
pub(crate) fn reserve<T>(buffer: &mut Vec<T>, more: usize) -> Result<(), Error> {
    buffer
        .try_reserve_exact(more)
        .map_err(|_| Error::OutOfMemory)
}

/// The text that a call writes to the buffer that it is given, of which most have no more bytes
/// than this.
pub(crate) fn written(
    most: usize,
    call: impl Fn(&mut [u8]) -> Result<Fit<usize>, Error>,
) -> Result<String, Error> {
    let mut buffer = Vec::new();
    resize(&mut buffer, most, 0)?;
    loop {
        match call(&mut buffer)? {
            Fit::Written(length) => {
                buffer.truncate(length);
                return text(buffer);
            }
            Fit::Short(length) => resize(&mut buffer, length, 0)?,
        }
    }
}

/// A copy of bytes.
pub(crate) fn copied(bytes: &[u8]) -> Result<Vec<u8>, Error> {
    let mut copy = Vec::new();
    reserve(&mut copy, bytes.len())?;
    copy.extend_from_slice(bytes);
    Ok(copy)
}

/// A copy of a text.
pub(crate) fn copied_text(given: &str) -> Result<String, Error> {
    let mut copy = String::new();
    copy.try_reserve_exact(given.len())
        .map_err(|_| Error::OutOfMemory)?;
    copy.push_str(given);
    Ok(copy)
}

/// Bytes that the library gives as text.
pub(crate) fn text(bytes: Vec<u8>) -> Result<String, Error> {
    String::from_utf8(bytes).map_err(|_| Error::OtherLibrary)
}
