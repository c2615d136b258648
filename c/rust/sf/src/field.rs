//! Lists, and fields of a known kind.

use crate::buffer::reserve;
use crate::nodes::Nodes;
use crate::{Dictionary, Error, FieldType, Item, Kind, ListEntry, View};
use alloc::vec::{self, Vec};
use core::ops::{Deref, DerefMut};
use core::slice;

/// A List (RFC 9651 section 3.1). It derefs to the vector of its members.
///
/// ```
/// let mut list = sf::List::parse("sugar, tea, rum").unwrap();
/// assert_eq!(list.len(), 3);
/// assert_eq!(list.iter().filter_map(|it| it.as_item()).count(), 3);
/// list.remove(2);
/// list.push(sf::InnerList::new([1, 2]).into());
/// assert_eq!(list.to_string(), "sugar, tea, (1 2)");
/// ```
#[derive(Clone, Debug, Default, PartialEq, Eq, Hash)]
pub struct List {
    members: Vec<ListEntry>,
}

impl List {
    /// A List without members.
    ///
    /// ```
    /// assert_eq!(sf::List::new().to_string(), "");
    /// ```
    #[must_use]
    pub fn new() -> List {
        List::default()
    }
}

impl Deref for List {
    type Target = Vec<ListEntry>;

    fn deref(&self) -> &Vec<ListEntry> {
        &self.members
    }
}

impl DerefMut for List {
    fn deref_mut(&mut self) -> &mut Vec<ListEntry> {
        &mut self.members
    }
}

impl<T: Into<ListEntry>> FromIterator<T> for List {
    fn from_iter<I: IntoIterator<Item = T>>(members: I) -> List {
        List {
            members: members.into_iter().map(Into::into).collect(),
        }
    }
}

impl<T: Into<ListEntry>> Extend<T> for List {
    fn extend<I: IntoIterator<Item = T>>(&mut self, members: I) {
        self.members.extend(members.into_iter().map(Into::into));
    }
}

impl From<Vec<ListEntry>> for List {
    fn from(members: Vec<ListEntry>) -> List {
        List { members }
    }
}

impl From<List> for Vec<ListEntry> {
    fn from(list: List) -> Vec<ListEntry> {
        list.members
    }
}

impl<'a> IntoIterator for &'a mut List {
    type Item = &'a mut ListEntry;
    type IntoIter = slice::IterMut<'a, ListEntry>;

    fn into_iter(self) -> slice::IterMut<'a, ListEntry> {
        self.members.iter_mut()
    }
}

impl<'a> IntoIterator for &'a List {
    type Item = &'a ListEntry;
    type IntoIter = slice::Iter<'a, ListEntry>;

    fn into_iter(self) -> slice::Iter<'a, ListEntry> {
        self.members.iter()
    }
}

impl IntoIterator for List {
    type Item = ListEntry;
    type IntoIter = vec::IntoIter<ListEntry>;

    fn into_iter(self) -> vec::IntoIter<ListEntry> {
        self.members.into_iter()
    }
}

impl crate::parser::Sealed for Item {
    const KIND: Kind = Kind::Item;

    fn of_view(view: View<'_, '_>) -> Result<Item, Error> {
        Item::of_node(view.members().next().ok_or(Error::OtherLibrary)?)
    }

    fn put_into(&self, nodes: &mut Nodes) -> Result<(), Error> {
        nodes.member_item(None, self.bare_item.to_ref(), &self.params)
    }
}

impl crate::parser::Sealed for List {
    const KIND: Kind = Kind::List;

    fn of_view(view: View<'_, '_>) -> Result<List, Error> {
        let mut members = Vec::new();
        reserve(&mut members, view.members().count())?;
        for node in view.members() {
            members.push(ListEntry::of_node(node)?);
        }
        Ok(List { members })
    }

    fn put_into(&self, nodes: &mut Nodes) -> Result<(), Error> {
        self.iter()
            .try_for_each(|member| nodes.member(None, member))
    }
}

impl crate::parser::Sealed for Dictionary {
    const KIND: Kind = Kind::Dict;

    fn of_view(view: View<'_, '_>) -> Result<Dictionary, Error> {
        Dictionary::of_members(view.members())
    }

    fn put_into(&self, nodes: &mut Nodes) -> Result<(), Error> {
        self.iter()
            .try_for_each(|(key, member)| nodes.member(Some(key), member))
    }
}

impl FieldType for Item {}
impl FieldType for List {}
impl FieldType for Dictionary {}
