//! Short texts, which are made without an allocation.

use crate::ffi::{self, Fit, Rules};
use crate::view::NO_NODE;
use crate::{Dialect, Error, Kind, Seed};
use sf_sys as raw;

/// A text of at most so many bytes.
#[derive(Clone, Copy)]
pub(crate) struct Short<const SIZE: usize> {
    bytes: [u8; SIZE],
    length: usize,
}

impl<const SIZE: usize> Short<SIZE> {
    /// What a call writes to the buffer that it is given.
    pub(crate) fn written(
        call: impl FnOnce(&mut [u8]) -> Result<Fit<usize>, Error>,
    ) -> Result<Self, Error> {
        let mut short = Short {
            bytes: [0; SIZE],
            length: 0,
        };
        match call(&mut short.bytes)? {
            Fit::Written(length) => short.length = length,
            Fit::Short(_) => return Err(Error::OtherLibrary),
        }
        Ok(short)
    }

    pub(crate) fn as_str(&self) -> &str {
        let bytes = self.bytes.get(..self.length).unwrap_or_default();
        core::str::from_utf8(bytes).unwrap_or_default()
    }
}

impl Short<32> {
    /// The canonical text of a number of a type of nodes, as an Item.
    pub(crate) fn of_number(kind: u8, number: i64) -> Result<Self, Error> {
        let node = raw::Node {
            number,
            kind,
            ..NO_NODE
        };
        let rules = Rules {
            seed: Seed::from_bytes([0; 16]), // of hashes of keys, and there are none
            dialect: Dialect::Rfc9651,
            kind: Kind::Item,
        };
        Short::written(|buffer| ffi::write(&rules, &[node], &[], &[], buffer))
    }
}
