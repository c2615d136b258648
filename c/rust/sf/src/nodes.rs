//! The nodes of a value that is to be written.

use crate::buffer::{append, written};
use crate::ffi::{self, Rules};
use crate::{Error, GenericBareItem, KeyRef, Parameters, RefBareItem};
use alloc::string::String;
use alloc::vec::Vec;
use sf_sys as raw;

/// Nodes, and the bytes that they point into.
#[derive(Default)]
pub struct Nodes {
    nodes: Vec<raw::Node>,
    bytes: Vec<u8>,
}

fn offset(length: usize) -> Result<u32, Error> {
    u32::try_from(length).map_err(|_| Error::TooLong)
}

impl Nodes {
    /// Appends bytes, and returns where they are and how many.
    fn keep(&mut self, bytes: &[u8]) -> Result<(u32, u32), Error> {
        let range = (offset(self.bytes.len())?, offset(bytes.len())?);
        append(&mut self.bytes, bytes)?;
        offset(self.bytes.len())?;
        Ok(range)
    }

    /// Appends a node, and returns its index. Its size is set at the end of its part.
    fn begin(
        &mut self,
        role: u8,
        key: &str,
        kind: u8,
        number: i64,
        bytes: &[u8],
    ) -> Result<usize, Error> {
        let (key_at, key_length) = self.keep(key.as_bytes())?;
        let (text_at, text_length) = self.keep(bytes)?;
        let node = raw::Node {
            number,
            key_at,
            key_length,
            text_at,
            text_length,
            size: 1,
            kind,
            role,
            coded: 0,
        };
        append(&mut self.nodes, &[node])?;
        Ok(self.nodes.len() - 1)
    }

    /// The part of this node has all nodes after it.
    fn end(&mut self, index: usize) -> Result<(), Error> {
        let size = offset(self.nodes.len().saturating_sub(index))?;
        if let Some(node) = self.nodes.get_mut(index) {
            node.size = size;
        }
        Ok(())
    }

    fn bare_item(&mut self, role: u8, key: &str, value: RefBareItem<'_>) -> Result<usize, Error> {
        let (kind, number, bytes): (u8, i64, &[u8]) = match value {
            GenericBareItem::Integer(number) => (raw::INTEGER, number.get(), &[]),
            GenericBareItem::Decimal(number) => (raw::DECIMAL, number.thousandths(), &[]),
            GenericBareItem::String(text) => (raw::STRING, 0, text.as_bytes()),
            GenericBareItem::Token(text) => (raw::TOKEN, 0, text.as_bytes()),
            GenericBareItem::ByteSequence(bytes) => (raw::BYTE_SEQUENCE, 0, bytes),
            GenericBareItem::Boolean(is_true) => (raw::BOOLEAN, i64::from(is_true), &[]),
            GenericBareItem::Date(date) => (raw::DATE, date.unix_seconds(), &[]),
            GenericBareItem::DisplayString(text) => (raw::DISPLAY_STRING, 0, text.as_bytes()),
        };
        self.begin(role, key, kind, number, bytes)
    }

    fn params(&mut self, role: u8, params: &Parameters) -> Result<(), Error> {
        for (key, value) in params {
            self.bare_item(role, key, value.to_ref())?;
        }
        Ok(())
    }

    /// Appends an Item with this role.
    fn item(
        &mut self,
        role: u8,
        key: &str,
        value: RefBareItem<'_>,
        params: &Parameters,
    ) -> Result<(), Error> {
        let index = self.bare_item(role, key, value)?;
        self.params(raw::PARAMETER, params)?;
        self.end(index)
    }

    /// Appends a member, with the key that it has in a Dictionary.
    pub(crate) fn member(
        &mut self,
        key: Option<&KeyRef>,
        member: &crate::ListEntry,
    ) -> Result<(), Error> {
        match member {
            crate::ListEntry::Item(item) => {
                self.member_item(key, item.bare_item.to_ref(), &item.params)
            }
            crate::ListEntry::InnerList(inner) => self.inner_list(key, inner),
        }
    }

    /// Appends an Item that is a member, with the key that it has in a Dictionary.
    pub(crate) fn member_item(
        &mut self,
        key: Option<&KeyRef>,
        value: RefBareItem<'_>,
        params: &Parameters,
    ) -> Result<(), Error> {
        self.item(raw::MEMBER, key.map_or("", KeyRef::as_str), value, params)
    }

    /// Appends an Inner List, with the key that it has in a Dictionary.
    pub(crate) fn inner_list(
        &mut self,
        key: Option<&KeyRef>,
        inner: &crate::InnerList,
    ) -> Result<(), Error> {
        let key = key.map_or("", KeyRef::as_str);
        let index = self.begin(raw::MEMBER, key, raw::INNER_LIST, 0, &[])?;
        for item in &inner.items {
            self.item(raw::INNER_ITEM, "", item.bare_item.to_ref(), &item.params)?;
        }
        self.params(raw::INNER_PARAMETER, &inner.params)?;
        self.end(index)
    }

    /// The canonical text of the value.
    pub(crate) fn text(&self, rules: &Rules) -> Result<String, Error> {
        written(128, |buffer| {
            ffi::write(rules, &self.nodes, &[], &self.bytes, buffer)
        })
    }
}
