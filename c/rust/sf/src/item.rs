//! Items, Inner Lists, and the members of Lists and Dictionaries.

use crate::buffer::reserve;
use crate::{BareItem, Date, Decimal, Error, Integer, Key, Node, Parameters, RefBareItem};
use crate::{String, StringRef, Token, TokenRef};
use alloc::vec::Vec;

/// An Item (RFC 9651 section 3.3): a bare item with parameters.
///
/// ```
/// let item = sf::Item::parse("5;foo=bar").unwrap();
/// assert_eq!(item.bare_item.as_integer(), Some(5));
/// assert_eq!(item.params.get("foo").and_then(|it| it.as_token()), Some("bar"));
/// ```
#[derive(Clone, Debug, PartialEq, Eq, Hash)]
pub struct Item {
    /// Its bare item.
    pub bare_item: BareItem,
    /// Its parameters.
    pub params: Parameters,
}

impl Item {
    /// An Item without parameters.
    ///
    /// ```
    /// assert_eq!(sf::Item::new(7).to_string(), "7");
    /// assert_eq!(sf::Item::new(sf::Token::new("tea").unwrap()).to_string(), "tea");
    /// ```
    pub fn new(bare_item: impl Into<BareItem>) -> Item {
        Item {
            bare_item: bare_item.into(),
            params: Parameters::new(),
        }
    }

    /// An Item with these parameters.
    ///
    /// ```
    /// let params = ";a=1".parse().unwrap();
    /// assert_eq!(sf::Item::with_params(7, params).to_string(), "7;a=1");
    /// ```
    pub fn with_params(bare_item: impl Into<BareItem>, params: Parameters) -> Item {
        let bare_item = bare_item.into();
        Item { bare_item, params }
    }

    /// The same with a parameter, which replaces one with this key.
    ///
    /// # Errors
    ///
    /// [`Error::Refused`] if the key is not valid.
    ///
    /// ```
    /// let item = sf::Item::new(7).with_param("a", 1).unwrap().with_param("b", true).unwrap();
    /// assert_eq!(item.to_string(), "7;a=1;b");
    /// ```
    pub fn with_param<K>(mut self, key: K, value: impl Into<BareItem>) -> Result<Item, Error>
    where
        K: TryInto<Key>,
        K::Error: Into<Error>,
    {
        self.params.insert(key, value)?;
        Ok(self)
    }

    pub(crate) fn of_node(node: Node<'_, '_>) -> Result<Item, Error> {
        Ok(Item {
            bare_item: BareItem::copy_of(node.bare_item().ok_or(Error::OtherLibrary)?)?,
            params: Parameters::of_node(node)?,
        })
    }
}

/// An Inner List (RFC 9651 section 3.1.1): Items, and parameters of its own.
///
/// ```
/// let list = sf::List::parse("(\"foo\" \"bar\");lvl=1").unwrap();
/// let inner = list[0].as_inner_list().unwrap();
/// assert_eq!(inner.items.len(), 2);
/// assert_eq!(inner.params.get("lvl").and_then(|it| it.as_integer()), Some(1));
/// ```
#[derive(Clone, Debug, Default, PartialEq, Eq, Hash)]
pub struct InnerList {
    /// Its Items.
    pub items: Vec<Item>,
    /// Its parameters.
    pub params: Parameters,
}

impl InnerList {
    /// An Inner List of these Items, without parameters.
    ///
    /// ```
    /// assert_eq!(sf::InnerList::new([1, 2]).to_string(), "(1 2)");
    /// let none: [sf::Item; 0] = [];
    /// assert_eq!(sf::InnerList::new(none).to_string(), "()");
    /// ```
    pub fn new(items: impl IntoIterator<Item = impl Into<Item>>) -> InnerList {
        items.into_iter().collect()
    }

    /// An Inner List of these Items with these parameters.
    ///
    /// ```
    /// let params = ";a=1".parse().unwrap();
    /// assert_eq!(sf::InnerList::with_params([1, 2], params).to_string(), "(1 2);a=1");
    /// ```
    pub fn with_params(
        items: impl IntoIterator<Item = impl Into<Item>>,
        params: Parameters,
    ) -> InnerList {
        let items = items.into_iter().map(Into::into).collect();
        InnerList { items, params }
    }

    /// The same with a parameter, which replaces one with this key.
    ///
    /// # Errors
    ///
    /// [`Error::Refused`] if the key is not valid.
    ///
    /// ```
    /// let inner = sf::InnerList::new([1, 2]).with_param("a", 1).unwrap().with_param("b", true).unwrap();
    /// assert_eq!(inner.to_string(), "(1 2);a=1;b");
    /// ```
    pub fn with_param<K>(mut self, key: K, value: impl Into<BareItem>) -> Result<InnerList, Error>
    where
        K: TryInto<Key>,
        K::Error: Into<Error>,
    {
        self.params.insert(key, value)?;
        Ok(self)
    }
}

impl<T: Into<Item>> FromIterator<T> for InnerList {
    fn from_iter<I: IntoIterator<Item = T>>(items: I) -> InnerList {
        InnerList {
            items: items.into_iter().map(Into::into).collect(),
            params: Parameters::new(),
        }
    }
}

/// A member of a List or Dictionary.
///
/// ```
/// let list = sf::List::parse("a;x, (b c)").unwrap();
/// assert!(list[0].as_item().is_some());
/// assert_eq!(list[1].as_inner_list().map(|inner| inner.items.len()), Some(2));
/// ```
#[derive(Clone, Debug, PartialEq, Eq, Hash)]
pub enum ListEntry {
    /// An Item.
    Item(Item),
    /// An Inner List.
    InnerList(InnerList),
}

impl ListEntry {
    /// The Item, if it is one.
    ///
    /// ```
    /// let dict = sf::Dictionary::parse("u=1").unwrap();
    /// let urgency = dict.get("u").and_then(|member| member.as_item());
    /// assert_eq!(urgency.and_then(|item| item.bare_item.as_integer()), Some(1));
    /// ```
    #[must_use]
    pub fn as_item(&self) -> Option<&Item> {
        match self {
            ListEntry::Item(item) => Some(item),
            ListEntry::InnerList(_) => None,
        }
    }

    /// The Inner List, if it is one.
    ///
    /// ```
    /// let dict = sf::Dictionary::parse("sig1=(\"@method\" \"@path\")").unwrap();
    /// let covered = dict.get("sig1").and_then(|member| member.as_inner_list()).unwrap();
    /// assert_eq!(covered.items[1].bare_item.as_string(), Some("@path"));
    /// ```
    #[must_use]
    pub fn as_inner_list(&self) -> Option<&InnerList> {
        match self {
            ListEntry::InnerList(inner) => Some(inner),
            ListEntry::Item(_) => None,
        }
    }

    /// Its parameters, to be changed.
    ///
    /// ```
    /// let mut list = sf::List::parse("a;x=1, (b c);x=2").unwrap();
    /// for member in list.iter_mut() {
    ///     member.params_mut().remove("x");
    /// }
    /// assert_eq!(list.to_string(), "a, (b c)");
    /// ```
    pub fn params_mut(&mut self) -> &mut Parameters {
        match self {
            ListEntry::Item(item) => &mut item.params,
            ListEntry::InnerList(inner) => &mut inner.params,
        }
    }

    /// Its parameters.
    ///
    /// ```
    /// let list = sf::List::parse("a;x=1, (b c);x=2").unwrap();
    /// let xs: Vec<_> = list.iter().map(|it| it.params().get("x").unwrap().as_integer()).collect();
    /// assert_eq!(xs, [Some(1), Some(2)]);
    /// ```
    #[must_use]
    pub fn params(&self) -> &Parameters {
        match self {
            ListEntry::Item(item) => &item.params,
            ListEntry::InnerList(inner) => &inner.params,
        }
    }

    pub(crate) fn of_node(node: Node<'_, '_>) -> Result<ListEntry, Error> {
        if !node.is_inner_list() {
            return Item::of_node(node).map(ListEntry::Item);
        }
        let mut items = Vec::new();
        reserve(&mut items, node.items().count())?;
        for item in node.items() {
            items.push(Item::of_node(item)?);
        }
        Ok(ListEntry::InnerList(InnerList {
            items,
            params: Parameters::of_node(node)?,
        }))
    }
}

impl From<BareItem> for Item {
    fn from(bare_item: BareItem) -> Item {
        Item::new(bare_item)
    }
}

impl From<BareItem> for ListEntry {
    fn from(bare_item: BareItem) -> ListEntry {
        ListEntry::Item(bare_item.into())
    }
}

impl From<Item> for ListEntry {
    fn from(item: Item) -> ListEntry {
        ListEntry::Item(item)
    }
}

impl From<InnerList> for ListEntry {
    fn from(inner: InnerList) -> ListEntry {
        ListEntry::InnerList(inner)
    }
}

macro_rules! into_member {
    ($($type:ty)*) => {
        $(
            impl From<$type> for Item {
                fn from(value: $type) -> Item {
                    Item::new(value)
                }
            }

            impl From<$type> for ListEntry {
                fn from(value: $type) -> ListEntry {
                    ListEntry::Item(Item::new(value))
                }
            }
        )*
    };
}

into_member!(i8 i16 i32 u8 u16 u32 Integer Decimal String &StringRef Token &TokenRef Vec<u8> bool Date);
into_member!(RefBareItem<'_>);

macro_rules! try_into_member {
    ($($type:ty)*) => {
        $(
            impl TryFrom<$type> for Item {
                type Error = Error;

                fn try_from(value: $type) -> Result<Item, Error> {
                    BareItem::try_from(value).map(Item::new)
                }
            }

            impl TryFrom<$type> for ListEntry {
                type Error = Error;

                fn try_from(value: $type) -> Result<ListEntry, Error> {
                    Item::try_from(value).map(ListEntry::Item)
                }
            }
        )*
    };
}

try_into_member!(i64 isize i128 u64 usize u128);
#[cfg(feature = "std")]
try_into_member!(std::time::SystemTime);
