//! Parsed values as nodes, in buffers of the caller.

use crate::event::Events;
use crate::ffi::{self, Fit, Rules};
use crate::{Date, Decimal, Error, GenericBareItem, Integer, KeyRef, Kind, RefBareItem};
use crate::{StringRef, TokenRef};
use core::fmt;
use sf_sys as raw;

/// The role of a node.
///
/// ```
/// let tree = sf::Parser::new().tree(sf::Kind::Item, "1;a").unwrap();
/// let item = tree.members().next().unwrap();
/// assert_eq!(item.children().next().unwrap().role(), sf::Role::Parameter);
/// ```
#[derive(Clone, Copy, Debug, PartialEq, Eq, Hash)]
pub enum Role {
    /// The Item of an Item field, or a member of a List or Dictionary.
    Member,
    /// An Item of an Inner List.
    InnerItem,
    /// A parameter of the Item or Inner List that it is a child of.
    Parameter,
}

pub(crate) const NO_NODE: raw::Node = raw::Node {
    number: 0,
    key_at: 0,
    key_length: 0,
    text_at: 0,
    text_length: 0,
    size: 1,
    kind: raw::INTEGER,
    role: raw::MEMBER,
    coded: 0,
};

/// Space for a value of so many nodes, and so many bytes that have to be decoded, without an
/// allocation. A node is required for each Item, each Inner List and each parameter. Four fifths as
/// many nodes as the text has bytes, and eight fifths as many bytes, are always enough; both are
/// rounded up.
///
/// ```
/// let mut space = sf::Space::<8, 32>::new();
/// let parser = sf::Parser::new();
/// let view = parser.view(sf::Kind::Dict, "u=1, i", &mut space).unwrap();
/// assert_eq!(view.get("u").and_then(|u| u.bare_item()), Some(1.into()));
/// ```
pub struct Space<const NODES: usize, const BYTES: usize> {
    nodes: [raw::Node; NODES],
    bytes: [u8; BYTES],
}

impl<const NODES: usize, const BYTES: usize> Space<NODES, BYTES> {
    /// Space that is not used.
    ///
    /// ```
    /// let space = sf::Space::<16, 64>::new();
    /// # let _ = space;
    /// ```
    #[must_use]
    pub const fn new() -> Self {
        Space {
            nodes: [NO_NODE; NODES],
            bytes: [0; BYTES],
        }
    }

    pub(crate) fn buffers(&mut self) -> (&mut [raw::Node], &mut [u8]) {
        (&mut self.nodes, &mut self.bytes)
    }
}

impl<const NODES: usize, const BYTES: usize> Default for Space<NODES, BYTES> {
    fn default() -> Self {
        Space::new()
    }
}

impl<const NODES: usize, const BYTES: usize> fmt::Debug for Space<NODES, BYTES> {
    fn fmt(&self, f: &mut fmt::Formatter<'_>) -> fmt::Result {
        write!(f, "Space<{NODES}, {BYTES}>")
    }
}

/// The value of a field of any kind as nodes, which are in other hands: in a [`Space`] or a tree.
/// Keys, Tokens, and Strings without escapes are those of the text, unless a key is repeated; only
/// what is escaped or encoded is decoded. Two views of fields of one kind are equal if and only if
/// their values are.
///
/// ```
/// let mut space = sf::Space::<8, 32>::new();
/// let view = sf::Parser::new().view(sf::Kind::List, "a;q=1, (b c)", &mut space).unwrap();
/// assert_eq!(view.members().count(), 2);
/// ```
#[derive(Clone, Copy)]
pub struct View<'a, 't: 'a> {
    pub(crate) kind: Kind,
    pub(crate) text: &'t [u8],
    pub(crate) nodes: &'a [raw::Node],
    pub(crate) bytes: &'a [u8],
}

impl PartialEq for View<'_, '_> {
    fn eq(&self, other: &Self) -> bool {
        let mut pairs = self.nodes.iter().zip(other.nodes);
        self.kind == other.kind
            && self.nodes.len() == other.nodes.len()
            && pairs.all(|(a, b)| {
                (a.role, a.kind, a.number, a.size) == (b.role, b.kind, b.number, b.size)
                    && self.bytes_at(a.key_at, a.key_length)
                        == other.bytes_at(b.key_at, b.key_length)
                    && self.bytes_at(a.text_at, a.text_length)
                        == other.bytes_at(b.text_at, b.text_length)
            })
    }
}

impl Eq for View<'_, '_> {}

impl fmt::Debug for View<'_, '_> {
    fn fmt(&self, f: &mut fmt::Formatter<'_>) -> fmt::Result {
        f.debug_tuple("View").field(&self.members()).finish()
    }
}

/// A number of a node as an index.
fn index_of(number: u32) -> Option<usize> {
    usize::try_from(number).ok()
}

impl<'a, 't: 'a> View<'a, 't> {
    /// Parses a text into buffers.
    pub(crate) fn read(
        rules: &Rules,
        text: &'t [u8],
        nodes: &'a mut [raw::Node],
        bytes: &'a mut [u8],
    ) -> Result<View<'a, 't>, Error> {
        match ffi::parse(rules, text, nodes, bytes)? {
            Fit::Short(sizes) => Err(Error::TooSmall {
                nodes: sizes.nodes,
                bytes: sizes.bytes,
            }),
            Fit::Written(sizes) => {
                let view = View {
                    kind: rules.kind,
                    text,
                    nodes: nodes.get(..sizes.nodes).unwrap_or_default(),
                    bytes: bytes.get(..sizes.bytes).unwrap_or_default(),
                };
                view.is_sound().then_some(view).ok_or(Error::OtherLibrary)
            }
        }
    }

    /// Whether all that the nodes refer to is there, as it is if the library is the one that this
    /// crate is for. The methods below rely on it.
    pub(crate) fn is_sound(&self) -> bool {
        self.nodes.iter().enumerate().all(|(index, node)| {
            let has_text = matches!(node.kind, raw::STRING | raw::TOKEN | raw::DISPLAY_STRING);
            let text = self.bytes_at(node.text_at, node.text_length);
            let key = self.bytes_at(node.key_at, node.key_length);
            let nodes = self.nodes.len() - index;
            (raw::INNER_LIST..=raw::DISPLAY_STRING).contains(&node.kind)
                && index_of(node.size).map_or(false, |size| (1..=nodes).contains(&size))
                && key.map_or(false, |key| core::str::from_utf8(key).is_ok())
                && text.map_or(false, |text| {
                    !has_text || core::str::from_utf8(text).is_ok()
                })
        })
    }

    /// The bytes of a range of a node that is in the text.
    fn in_text(&self, at: u32, length: u32) -> Option<&'t [u8]> {
        let (at, length) = (index_of(at)?, index_of(length)?);
        match length {
            0 => Some(&[]),
            _ => self.text.get(at..at.checked_add(length)?),
        }
    }

    /// The bytes of a range of a node: from the length of the text on, offsets are in the other
    /// bytes.
    fn bytes_at(&self, at: u32, length: u32) -> Option<&'a [u8]> {
        if let Some(bytes) = self.in_text(at, length) {
            return Some(bytes);
        }
        let at = index_of(at)?.checked_sub(self.text.len())?;
        self.bytes.get(at..at.checked_add(index_of(length)?)?)
    }

    /// The kind that it was parsed as.
    ///
    /// ```
    /// let mut space = sf::Space::<8, 32>::new();
    /// let view = sf::Parser::new().view(sf::Kind::List, "a", &mut space).unwrap();
    /// assert_eq!(view.kind(), sf::Kind::List);
    /// ```
    #[must_use]
    pub fn kind(&self) -> Kind {
        self.kind
    }

    /// The Item of an Item field, or the members of a List or Dictionary.
    ///
    /// ```
    /// let mut space = sf::Space::<8, 32>::new();
    /// let view = sf::Parser::new().view(sf::Kind::List, "a, b", &mut space).unwrap();
    /// assert_eq!(view.members().count(), 2);
    /// ```
    #[must_use]
    pub fn members(&self) -> Nodes<'a, 't> {
        Nodes {
            view: *self,
            index: 0,
            end: self.nodes.len(),
        }
    }

    /// The member of a Dictionary with this key. It compares the keys one by one.
    ///
    /// ```
    /// let mut space = sf::Space::<8, 32>::new();
    /// let view = sf::Parser::new().view(sf::Kind::Dict, "u=1, i", &mut space).unwrap();
    /// assert_eq!(view.get("i").and_then(|member| member.bare_item()), Some(true.into()));
    /// ```
    #[must_use]
    pub fn get(&self, key: &str) -> Option<Node<'a, 't>> {
        self.members().find(|member| member.key() == key)
    }

    /// What the value has, in the order of the text: see [`Event`](crate::Event).
    ///
    /// ```
    /// use sf::Event;
    /// let mut space = sf::Space::<8, 32>::new();
    /// let view = sf::Parser::new().view(sf::Kind::List, "a;q, (b)", &mut space).unwrap();
    /// let names = view.events().map(|event| match event {
    ///     Event::Item { .. } => "item",
    ///     Event::InnerListStart { .. } => "(",
    ///     Event::InnerItem { .. } => "inner item",
    ///     Event::InnerListEnd => ")",
    ///     Event::Parameter { .. } => "parameter",
    /// });
    /// assert!(names.eq(["item", "parameter", "(", "inner item", ")"]));
    /// ```
    #[must_use]
    pub fn events(&self) -> Events<'a, 't> {
        Events::new(self)
    }
}

/// A node: a member, an Item of an Inner List, or a parameter.
///
/// ```
/// let tree = sf::Parser::new().tree(sf::Kind::Item, "1;a=2").unwrap();
/// let item = tree.members().next().unwrap();
/// assert_eq!(item.bare_item(), Some(1.into()));
/// assert_eq!(item.param("a"), Some(2.into()));
/// ```
#[derive(Clone, Copy)]
pub struct Node<'a, 't: 'a> {
    view: View<'a, 't>,
    told: &'a raw::Node,
    index: usize,
}

/// An iterator over sibling nodes, in order.
///
/// ```
/// let tree = sf::Parser::new().tree(sf::Kind::List, "(1 2);a").unwrap();
/// let inner = tree.members().next().unwrap();
/// assert_eq!(inner.children().count(), 3);
/// ```
#[derive(Clone)]
pub struct Nodes<'a, 't: 'a> {
    view: View<'a, 't>,
    index: usize,
    end: usize,
}

impl fmt::Debug for Node<'_, '_> {
    fn fmt(&self, f: &mut fmt::Formatter<'_>) -> fmt::Result {
        f.debug_struct("Node")
            .field("role", &self.role())
            .field("key", &self.key().as_str())
            .field("bare_item", &self.bare_item())
            .field("children", &self.children())
            .finish()
    }
}

impl fmt::Debug for Nodes<'_, '_> {
    fn fmt(&self, f: &mut fmt::Formatter<'_>) -> fmt::Result {
        f.debug_list().entries(self.clone()).finish()
    }
}

impl<'a, 't: 'a> Nodes<'a, 't> {
    /// The next node, with its subtree skipped unless each node is to be told.
    pub(crate) fn advance(&mut self, each: bool) -> Option<Node<'a, 't>> {
        if self.index >= self.end {
            return None;
        }
        let node = Node {
            view: self.view,
            told: self.view.nodes.get(self.index)?,
            index: self.index,
        };
        self.index += if each { 1 } else { index_of(node.told.size)? };
        Some(node)
    }
}

impl<'a, 't: 'a> Iterator for Nodes<'a, 't> {
    type Item = Node<'a, 't>;

    fn next(&mut self) -> Option<Node<'a, 't>> {
        self.advance(false)
    }
}

impl<'a, 't: 'a> Node<'a, 't> {
    fn bytes(&self) -> &'a [u8] {
        let bytes = self.view.bytes_at(self.told.text_at, self.told.text_length);
        bytes.unwrap_or_default()
    }

    fn text(&self) -> &'a str {
        core::str::from_utf8(self.bytes()).unwrap_or_default()
    }

    /// The index after its subtree.
    pub(crate) fn end(&self) -> usize {
        let size = index_of(self.told.size).unwrap_or_default();
        self.index.saturating_add(size)
    }

    /// Its index among all nodes.
    pub(crate) fn index(&self) -> usize {
        self.index
    }

    /// The members of the field that it is a part of.
    pub(crate) fn members_of_field(&self) -> Nodes<'a, 't> {
        self.view.members()
    }

    /// Its role.
    ///
    /// ```
    /// let tree = sf::Parser::new().tree(sf::Kind::Item, "1").unwrap();
    /// assert_eq!(tree.members().next().unwrap().role(), sf::Role::Member);
    /// ```
    #[must_use]
    pub fn role(&self) -> Role {
        match self.told.role {
            raw::MEMBER => Role::Member,
            raw::INNER_ITEM => Role::InnerItem,
            _ => Role::Parameter,
        }
    }

    /// The key of a parameter or a Dictionary member, otherwise empty.
    ///
    /// ```
    /// let tree = sf::Parser::new().tree(sf::Kind::Dict, "u=1").unwrap();
    /// assert_eq!(tree.members().next().unwrap().key(), "u");
    /// ```
    #[must_use]
    pub fn key(&self) -> &'a KeyRef {
        let key = self.view.bytes_at(self.told.key_at, self.told.key_length);
        KeyRef::known(core::str::from_utf8(key.unwrap_or_default()).unwrap_or_default())
    }

    /// Its key, if it is a parameter or a Dictionary member.
    pub(crate) fn key_if_any(&self) -> Option<&'a KeyRef> {
        (self.told.key_length > 0).then(|| self.key())
    }

    /// The same key as [`key`](Node::key), but borrowed from the text, so that it outlives the
    /// tree. It is owned if the text has a repeated key, of which the tree has copies.
    ///
    /// # Errors
    ///
    /// [`Error::OutOfMemory`] only.
    ///
    /// ```
    /// let text = "u=1".to_string();
    /// let tree = sf::Parser::new().tree(sf::Kind::Dict, &text).unwrap();
    /// let key = tree.members().next().unwrap().key_from_input().unwrap();
    /// drop(tree);
    /// assert_eq!(&*key, "u");
    /// ```
    #[cfg(feature = "alloc")]
    pub fn key_from_input(&self) -> Result<alloc::borrow::Cow<'t, KeyRef>, Error> {
        use alloc::borrow::Cow;
        let key = self.view.in_text(self.told.key_at, self.told.key_length);
        Ok(
            match key.and_then(|bytes| core::str::from_utf8(bytes).ok()) {
                Some(key) => Cow::Borrowed(KeyRef::known(key)),
                None => Cow::Owned(crate::Key::copy_of(self.key())?),
            },
        )
    }

    /// Whether it is an Inner List; otherwise it has a bare item.
    ///
    /// ```
    /// let tree = sf::Parser::new().tree(sf::Kind::List, "(a)").unwrap();
    /// assert!(tree.members().next().unwrap().is_inner_list());
    /// ```
    #[must_use]
    pub fn is_inner_list(&self) -> bool {
        self.told.kind == raw::INNER_LIST
    }

    /// Its bare item, or `None` if it is an Inner List.
    ///
    /// ```
    /// let tree = sf::Parser::new().tree(sf::Kind::Item, ":YQ==:").unwrap();
    /// let item = tree.members().next().unwrap().bare_item();
    /// assert_eq!(item, Some(sf::RefBareItem::ByteSequence(b"a")));
    /// ```
    #[must_use]
    pub fn bare_item(&self) -> Option<RefBareItem<'a>> {
        Some(match self.told.kind {
            raw::INNER_LIST => return None,
            raw::INTEGER => GenericBareItem::Integer(Integer::known(self.told.number)),
            raw::DECIMAL => GenericBareItem::Decimal(Decimal::known(self.told.number)),
            raw::STRING => GenericBareItem::String(StringRef::known(self.text())),
            raw::TOKEN => GenericBareItem::Token(TokenRef::known(self.text())),
            raw::BYTE_SEQUENCE => GenericBareItem::ByteSequence(self.bytes()),
            raw::BOOLEAN => GenericBareItem::Boolean(self.told.number != 0),
            raw::DATE => GenericBareItem::Date(Date::known(self.told.number)),
            _ => GenericBareItem::DisplayString(self.text()),
        })
    }

    /// Its bare item, borrowed from the text as far as it is there, which outlives the tree: see
    /// [`BareItemFromInput`](crate::BareItemFromInput). `None` if it is an Inner List.
    ///
    /// # Errors
    ///
    /// [`Error::OutOfMemory`] only.
    ///
    /// ```
    /// let text = "tea".to_string();
    /// let tree = sf::Parser::new().tree(sf::Kind::Item, &text).unwrap();
    /// let item = tree.members().next().unwrap().bare_item_from_input().unwrap();
    /// drop(tree);
    /// assert_eq!(item.unwrap().as_token(), Some("tea"));
    /// ```
    #[cfg(feature = "alloc")]
    pub fn bare_item_from_input(&self) -> Result<Option<crate::BareItemFromInput<'t>>, Error> {
        use alloc::borrow::Cow;
        let value = match self.bare_item() {
            Some(value) => value,
            None => return Ok(None),
        };
        let here = self.view.in_text(self.told.text_at, self.told.text_length);
        let text = here.and_then(|bytes| core::str::from_utf8(bytes).ok());
        Ok(Some(match value {
            GenericBareItem::Integer(number) => GenericBareItem::Integer(number),
            GenericBareItem::Decimal(number) => GenericBareItem::Decimal(number),
            GenericBareItem::String(decoded) => GenericBareItem::String(match text {
                Some(text) => Cow::Borrowed(StringRef::known(text)),
                None => Cow::Owned(crate::String::copy_of(decoded)?),
            }),
            GenericBareItem::Token(copied) => GenericBareItem::Token(match text {
                Some(text) => Cow::Borrowed(TokenRef::known(text)),
                None => Cow::Owned(crate::Token::copy_of(copied)?),
            }),
            GenericBareItem::ByteSequence(decoded) => GenericBareItem::ByteSequence(match here {
                Some(bytes) => Cow::Borrowed(bytes),
                None => Cow::Owned(crate::buffer::copied(decoded)?),
            }),
            GenericBareItem::Boolean(is_true) => GenericBareItem::Boolean(is_true),
            GenericBareItem::Date(date) => GenericBareItem::Date(date),
            GenericBareItem::DisplayString(decoded) => GenericBareItem::DisplayString(match text {
                Some(text) => Cow::Borrowed(text),
                None => Cow::Owned(crate::buffer::copied_text(decoded)?),
            }),
        }))
    }

    /// Its children: the Items of an Inner List, then the parameters.
    ///
    /// ```
    /// let tree = sf::Parser::new().tree(sf::Kind::List, "(1 2);a").unwrap();
    /// let inner = tree.members().next().unwrap();
    /// let roles: Vec<_> = inner.children().map(|child| child.role()).collect();
    /// assert_eq!(roles, [sf::Role::InnerItem, sf::Role::InnerItem, sf::Role::Parameter]);
    /// ```
    #[must_use]
    pub fn children(&self) -> Nodes<'a, 't> {
        Nodes {
            view: self.view,
            index: self.index.saturating_add(1),
            end: self.end(),
        }
    }

    /// The Items of an Inner List.
    ///
    /// ```
    /// let tree = sf::Parser::new().tree(sf::Kind::List, "(1 2);a").unwrap();
    /// assert_eq!(tree.members().next().unwrap().items().count(), 2);
    /// ```
    pub fn items(&self) -> impl Iterator<Item = Node<'a, 't>> + Clone {
        self.children()
            .filter(|child| child.role() == Role::InnerItem)
    }

    /// Its parameters.
    ///
    /// ```
    /// let tree = sf::Parser::new().tree(sf::Kind::List, "(1 2);a").unwrap();
    /// assert_eq!(tree.members().next().unwrap().params().count(), 1);
    /// ```
    pub fn params(&self) -> impl Iterator<Item = Node<'a, 't>> + Clone {
        self.children()
            .filter(|child| child.role() == Role::Parameter)
    }

    /// The value of its parameter with this key. It compares the keys one by one.
    ///
    /// ```
    /// let tree = sf::Parser::new().tree(sf::Kind::Item, "text/html;q=0.5").unwrap();
    /// let item = tree.members().next().unwrap();
    /// let q = item.param("q").and_then(|q| q.as_decimal()).unwrap();
    /// assert_eq!(q.thousandths(), 500);
    /// ```
    #[must_use]
    pub fn param(&self, key: &str) -> Option<RefBareItem<'a>> {
        self.params().find(|param| param.key() == key)?.bare_item()
    }
}
