//! What has values by keys, in order: parameters and Dictionaries.

use crate::buffer::{push, reserve};
use crate::{BareItem, Date, Decimal, Error, Key, KeyRef, ListEntry, Node};
use alloc::vec::{self, Vec};
use core::iter::FusedIterator;
use core::ops::{Index, IndexMut};
use core::slice;

/// An iterator over keys with their values, in order.
///
/// ```
/// let dict = sf::Dictionary::parse("a=1, b=2").unwrap();
/// let mut entries = dict.iter();
/// assert_eq!(entries.len(), 2);
/// assert_eq!(entries.next_back().unwrap().0, "b");
/// ```
#[derive(Clone, Debug)]
pub struct Iter<'a, V> {
    entries: slice::Iter<'a, (Key, V)>,
}

/// An iterator over keys with their values, which may be changed, in order.
///
/// ```
/// let mut dict = sf::Dictionary::parse("a=1, b=2").unwrap();
/// for (_, value) in &mut dict {
///     *value = true.into();
/// }
/// assert_eq!(dict.to_string(), "a, b");
/// ```
#[derive(Debug)]
pub struct IterMut<'a, V> {
    entries: slice::IterMut<'a, (Key, V)>,
}

macro_rules! iterator {
    ($name:ident, $item:ty, |$key:ident, $value:ident| $pair:expr) => {
        impl<'a, V> Iterator for $name<'a, V> {
            type Item = $item;

            fn next(&mut self) -> Option<$item> {
                self.entries.next().map(|($key, $value)| $pair)
            }

            fn size_hint(&self) -> (usize, Option<usize>) {
                self.entries.size_hint()
            }
        }

        impl<'a, V> DoubleEndedIterator for $name<'a, V> {
            fn next_back(&mut self) -> Option<$item> {
                self.entries.next_back().map(|($key, $value)| $pair)
            }
        }

        impl<V> ExactSizeIterator for $name<'_, V> {}
        impl<V> FusedIterator for $name<'_, V> {}
    };
}

iterator!(Iter, (&'a Key, &'a V), |key, value| (key, value));
iterator!(IterMut, (&'a Key, &'a mut V), |key, value| (&*key, value));

/// The keys and values of nodes, in a vector that is allocated at once.
fn collected<'a, 't, V>(
    nodes: impl Iterator<Item = Node<'a, 't>> + Clone,
    made_of: impl Fn(Node<'a, 't>) -> Result<V, Error>,
) -> Result<Vec<(Key, V)>, Error>
where
    't: 'a,
{
    let mut all = Vec::new();
    reserve(&mut all, nodes.clone().count())?;
    for node in nodes {
        all.push((Key::copy_of(node.key())?, made_of(node)?));
    }
    Ok(all)
}

/// So many entries are put one by one, each after a search for its key.
const FEW: usize = 8;

/// Overwrites in place: of the entries with one key the first stays, with the value of the last.
fn settle<V>(entries: &mut Vec<(Key, V)>) {
    let mut order: Vec<usize> = (0..entries.len()).collect();
    order.sort_by_key(|index| entries[*index].0.as_str());
    let mut all: Vec<_> = core::mem::take(entries).into_iter().map(Some).collect();
    for pair in order.windows(2).rev() {
        let key_of = |index: usize| all[index].as_ref().map(|(key, _): &(Key, V)| key);
        if key_of(pair[0]) != key_of(pair[1]) {
            continue;
        }
        let last = all[pair[1]].take();
        if let (Some((_, value)), Some((_, last))) = (&mut all[pair[0]], last) {
            *value = last;
        }
    }
    entries.extend(all.into_iter().flatten());
}

macro_rules! keyed {
    ($name:ident, $value:ty, $things:literal, $mut_things:literal, $text:literal, $changed:literal, $kind:literal) => {
        impl $name {
            /// Without keys.
            ///
            /// ```
            #[doc = concat!("assert!(sf::", stringify!($name), "::new().is_empty());")]
            /// ```
            #[must_use]
            pub const fn new() -> $name {
                $name {
                    entries: Vec::new(),
                }
            }

            /// The number of keys.
            ///
            /// ```
            #[doc = concat!("let item = sf::", $kind, "::parse(\"", $text, "\").unwrap();")]
            #[doc = concat!("let all = ", $things, ";")]
            /// assert_eq!(all.len(), 2);
            /// ```
            #[must_use]
            pub fn len(&self) -> usize {
                self.entries.len()
            }

            /// Whether there are no keys.
            ///
            /// ```
            #[doc = concat!("let item = sf::", $kind, "::parse(\"", $text, "\").unwrap();")]
            #[doc = concat!("let all = ", $things, ";")]
            /// assert!(!all.is_empty());
            /// ```
            #[must_use]
            pub fn is_empty(&self) -> bool {
                self.entries.is_empty()
            }

            /// The value of a key. It compares the keys one by one.
            ///
            /// ```
            #[doc = concat!("let item = sf::", $kind, "::parse(\"", $text, "\").unwrap();")]
            #[doc = concat!("let all = ", $things, ";")]
            /// assert!(all.get("a").is_some() && all.get("c").is_none());
            /// ```
            #[must_use]
            pub fn get(&self, key: &str) -> Option<&$value> {
                self.iter()
                    .find(|(name, _)| name.as_str() == key)
                    .map(|(_, value)| value)
            }

            /// The value of a key, to be changed.
            ///
            /// ```
            #[doc = concat!("let mut item = sf::", $kind, "::parse(\"", $text, "\").unwrap();")]
            #[doc = concat!("let all = ", $mut_things, ";")]
            /// *all.get_mut("a").unwrap() = 7.into();
            #[doc = concat!("assert_eq!(item.to_string(), \"", $changed, "\");")]
            /// ```
            #[must_use]
            pub fn get_mut(&mut self, key: &str) -> Option<&mut $value> {
                self.iter_mut()
                    .find(|(name, _)| name.as_str() == key)
                    .map(|(_, value)| value)
            }

            /// Whether a key is present.
            ///
            /// ```
            #[doc = concat!("let item = sf::", $kind, "::parse(\"", $text, "\").unwrap();")]
            #[doc = concat!("let all = ", $things, ";")]
            /// assert!(all.contains_key("a") && !all.contains_key("c"));
            /// ```
            #[must_use]
            pub fn contains_key(&self, key: &str) -> bool {
                self.get(key).is_some()
            }

            /// The key and the value at an index, from 0.
            ///
            /// ```
            #[doc = concat!("let item = sf::", $kind, "::parse(\"", $text, "\").unwrap();")]
            #[doc = concat!("let all = ", $things, ";")]
            /// assert_eq!(all.get_index(1).unwrap().0, "b");
            /// ```
            #[must_use]
            pub fn get_index(&self, index: usize) -> Option<(&Key, &$value)> {
                self.entries.get(index).map(|(key, value)| (key, value))
            }

            /// The keys with their values, in order.
            ///
            /// ```
            #[doc = concat!("let item = sf::", $kind, "::parse(\"", $text, "\").unwrap();")]
            #[doc = concat!("let all = ", $things, ";")]
            /// let keys: Vec<_> = all.iter().map(|(key, _)| key).collect();
            /// assert_eq!(keys, ["a", "b"]);
            /// ```
            pub fn iter(&self) -> Iter<'_, $value> {
                let entries = self.entries.iter();
                Iter { entries }
            }

            /// The keys with their values, which may be changed, in order.
            ///
            /// ```
            #[doc = concat!("let mut item = sf::", $kind, "::parse(\"", $text, "\").unwrap();")]
            #[doc = concat!("let all = ", $mut_things, ";")]
            /// all.iter_mut().for_each(|(_, value)| *value = 7.into());
            /// ```
            pub fn iter_mut(&mut self) -> IterMut<'_, $value> {
                let entries = self.entries.iter_mut();
                IterMut { entries }
            }

            /// The keys, in order.
            ///
            /// ```
            #[doc = concat!("let item = sf::", $kind, "::parse(\"", $text, "\").unwrap();")]
            #[doc = concat!("let all = ", $things, ";")]
            /// assert!(all.keys().eq(["a", "b"]));
            /// ```
            pub fn keys(
                &self,
            ) -> impl DoubleEndedIterator<Item = &Key> + ExactSizeIterator + Clone {
                self.iter().map(|(key, _)| key)
            }

            /// The values, in the order of their keys.
            ///
            /// ```
            #[doc = concat!("let item = sf::", $kind, "::parse(\"", $text, "\").unwrap();")]
            #[doc = concat!("let all = ", $things, ";")]
            /// assert_eq!(all.values().len(), 2);
            /// ```
            pub fn values(
                &self,
            ) -> impl DoubleEndedIterator<Item = &$value> + ExactSizeIterator + Clone {
                self.iter().map(|(_, value)| value)
            }

            /// Sets the value of a key: in its place if the key is present, otherwise at the end.
            /// Returns the old value. It compares the keys one by one; for many, use `extend`.
            ///
            /// # Errors
            ///
            /// [`Error::Refused`] if the key is not valid.
            ///
            /// ```
            #[doc = concat!("let mut item = sf::", $kind, "::parse(\"", $text, "\").unwrap();")]
            #[doc = concat!("let all = ", $mut_things, ";")]
            /// assert!(all.insert("a", 7).unwrap().is_some());
            /// assert!(all.insert("c", true).unwrap().is_none());
            /// assert!(all.insert("C", 1).is_err());
            /// assert!(all.keys().eq(["a", "b", "c"]));
            /// ```
            pub fn insert<K>(
                &mut self,
                key: K,
                value: impl Into<$value>,
            ) -> Result<Option<$value>, Error>
            where
                K: TryInto<Key>,
                K::Error: Into<Error>,
            {
                let key = key.try_into().map_err(Into::into)?;
                let value = value.into();
                if let Some(place) = self.get_mut(&key) {
                    return Ok(Some(core::mem::replace(place, value)));
                }
                push(&mut self.entries, (key, value))?;
                Ok(None)
            }

            /// Removes a key, and returns its value. The others keep their order.
            ///
            /// ```
            #[doc = concat!("let mut item = sf::", $kind, "::parse(\"", $text, "\").unwrap();")]
            #[doc = concat!("let all = ", $mut_things, ";")]
            /// assert!(all.remove("a").is_some() && all.remove("a").is_none());
            /// assert_eq!(all.len(), 1);
            /// ```
            pub fn remove(&mut self, key: &str) -> Option<$value> {
                let place = self.keys().position(|name| name.as_str() == key)?;
                Some(self.entries.remove(place).1)
            }

            /// Removes the keys of which this is not true. The others keep their order.
            ///
            /// ```
            #[doc = concat!("let mut item = sf::", $kind, "::parse(\"", $text, "\").unwrap();")]
            #[doc = concat!("let all = ", $mut_things, ";")]
            /// all.retain(|key, _| key != "a");
            /// assert!(all.keys().eq(["b"]));
            /// ```
            pub fn retain(&mut self, mut stays: impl FnMut(&KeyRef, &$value) -> bool) {
                self.entries.retain(|(key, value)| stays(key, value));
            }
        }

        /// Panics if the key is absent.
        impl Index<&str> for $name {
            type Output = $value;

            fn index(&self, key: &str) -> &$value {
                self.get(key).expect("no such key")
            }
        }

        /// Panics if the key is absent.
        impl IndexMut<&str> for $name {
            fn index_mut(&mut self, key: &str) -> &mut $value {
                self.get_mut(key).expect("no such key")
            }
        }

        /// The value at an index, from 0. Panics if there are no more than that.
        impl Index<usize> for $name {
            type Output = $value;

            fn index(&self, index: usize) -> &$value {
                &self.entries[index].1
            }
        }

        impl<V: Into<$value>> Extend<(Key, V)> for $name {
            fn extend<I: IntoIterator<Item = (Key, V)>>(&mut self, entries: I) {
                let mut entries = entries.into_iter().map(|(key, value)| (key, value.into()));
                for (key, value) in entries.by_ref().take(FEW) {
                    match self.get_mut(&key) {
                        Some(place) => *place = value,
                        None => self.entries.push((key, value)),
                    }
                }
                let few = self.entries.len();
                self.entries.extend(entries);
                if self.entries.len() > few {
                    settle(&mut self.entries);
                }
            }
        }

        impl<V: Into<$value>> FromIterator<(Key, V)> for $name {
            fn from_iter<I: IntoIterator<Item = (Key, V)>>(entries: I) -> $name {
                let mut all = $name::new();
                all.extend(entries);
                all
            }
        }

        impl IntoIterator for $name {
            type Item = (Key, $value);
            type IntoIter = vec::IntoIter<(Key, $value)>;

            fn into_iter(self) -> vec::IntoIter<(Key, $value)> {
                self.entries.into_iter()
            }
        }

        impl<'a> IntoIterator for &'a $name {
            type Item = (&'a Key, &'a $value);
            type IntoIter = Iter<'a, $value>;

            fn into_iter(self) -> Iter<'a, $value> {
                self.iter()
            }
        }

        impl<'a> IntoIterator for &'a mut $name {
            type Item = (&'a Key, &'a mut $value);
            type IntoIter = IterMut<'a, $value>;

            fn into_iter(self) -> IterMut<'a, $value> {
                self.iter_mut()
            }
        }
    };
}

/// The parameters of an Item or Inner List (RFC 9651 section 3.1.2), in order.
///
/// ```
/// let item = sf::Item::parse("text/html;q=0.5;level").unwrap();
/// assert_eq!(item.params["level"].as_boolean(), Some(true));
/// for (key, value) in &item.params {
///     println!("{key}: {value}");
/// }
/// ```
#[derive(Clone, Debug, Default, PartialEq, Eq, Hash)]
pub struct Parameters {
    entries: Vec<(Key, BareItem)>,
}

keyed!(
    Parameters,
    BareItem,
    "&item.params",
    "&mut item.params",
    "1;a=2;b",
    "1;a=7;b",
    "Item"
);

impl Parameters {
    pub(crate) fn of_node(node: Node<'_, '_>) -> Result<Parameters, Error> {
        let entries = collected(node.params(), |param| {
            BareItem::copy_of(param.bare_item().ok_or(Error::OtherLibrary)?)
        })?;
        Ok(Parameters { entries })
    }
}

macro_rules! parameter {
    ($name:ident, $as_type:ident: $type:ty, $what:literal, $text:literal, $value:literal) => {
        #[doc = concat!("The ", $what, "; `None` if it is absent, or of another type.")]
        ///
        /// ```
        #[doc = concat!("let params: sf::Parameters = r#\"", $text, "\"#.parse().unwrap();")]
        #[doc = concat!("assert_eq!(params.", stringify!($name), "(\"a\"), ", $value, ");")]
        #[doc = concat!("assert!(params.", stringify!($name), "(\"b\").is_none());")]
        #[doc = concat!("assert!(params.", stringify!($name), "(\"c\").is_none());")]
        /// ```
        #[must_use]
        pub fn $name(&self, key: &str) -> Option<$type> {
            self.get(key)?.$as_type()
        }
    };
}

/// Parameters of one type.
impl Parameters {
    parameter!(
        integer, as_integer: i64,
        "number of a parameter that is an Integer", ";a=7;b=x", "Some(7)"
    );
    parameter!(
        decimal, as_decimal: Decimal,
        "number of a parameter that is a Decimal", ";a=0.5;b=1", "\"0.5\".parse().ok()"
    );
    parameter!(
        string, as_string: &str,
        "text of a parameter that is a String", ";a=\"k\";b=k", "Some(\"k\")"
    );
    parameter!(
        token, as_token: &str,
        "text of a parameter that is a Token", ";a=k;b=\"k\"", "Some(\"k\")"
    );
    parameter!(
        byte_sequence, as_byte_sequence: &[u8],
        "bytes of a parameter that is a Byte Sequence", ";a=:YQ==:;b=YQ", "Some(b\"a\".as_slice())"
    );
    parameter!(
        boolean, as_boolean: bool,
        "value of a parameter that is a Boolean", ";a;b=1", "Some(true)"
    );
    parameter!(
        date, as_date: Date,
        "time of a parameter that is a Date", ";a=@7;b=7", "\"@7\".parse().ok()"
    );
    parameter!(
        display_string, as_display_string: &str,
        "text of a parameter that is a Display String", ";a=%\"k\";b=\"k\"", "Some(\"k\")"
    );
}

/// A Dictionary (RFC 9651 section 3.2), in order. Two Dictionaries with the same members in another
/// order are not equal.
///
/// ```
/// let dict = sf::Dictionary::parse("en=\"Applepie\", da=:w4ZibGV0w6ZydGU=:").unwrap();
/// let english = dict["en"].as_item().unwrap();
/// assert_eq!(english.bare_item.as_string(), Some("Applepie"));
/// for (key, member) in &dict {
///     println!("{key}: {member}");
/// }
/// ```
#[derive(Clone, Debug, Default, PartialEq, Eq, Hash)]
pub struct Dictionary {
    entries: Vec<(Key, ListEntry)>,
}

keyed!(
    Dictionary,
    ListEntry,
    "&item",
    "&mut item",
    "a=1, b",
    "a=7, b",
    "Dictionary"
);

impl Dictionary {
    pub(crate) fn of_members<'a, 't: 'a>(
        members: impl Iterator<Item = Node<'a, 't>> + Clone,
    ) -> Result<Dictionary, Error> {
        let entries = collected(members, ListEntry::of_node)?;
        Ok(Dictionary { entries })
    }
}
