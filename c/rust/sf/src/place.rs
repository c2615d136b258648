//! Where the parts of a structured field are in its text.

use crate::{Node, Role};

/// A place in the text of a field: an offset, or a part of a structured field, by what leads to it.
/// [`Head::add_fault`](crate::Head::add_fault) takes it. A `usize` is an offset, and a key, as a
/// `&str` or a `&Key`, is the member of a Dictionary.
///
/// ```
/// use sf::Place;
/// let text = "a=1, b=(\"@path\" \"x\";req);created=7";
/// assert_eq!(Place::member("b").offset_in(text), 5);
/// assert_eq!(Place::member("b").item(1).offset_in(text), 16);
/// assert_eq!(Place::member("b").item(1).param("req").offset_in(text), 20);
/// assert_eq!(Place::member("b").param("created").offset_in(text), 25);
/// assert_eq!(Place::index(1).offset_in("a, (b c)"), 3);
/// ```
#[derive(Clone, Copy, Debug, PartialEq, Eq, Hash)]
pub struct Place<'k> {
    member: Member<'k>,
    /// The number of an Item of the Inner List, from 1; 0 is the member itself.
    item: usize,
    /// The key of a parameter.
    param: Option<&'k str>,
}

#[derive(Clone, Copy, Debug, PartialEq, Eq, Hash)]
enum Member<'k> {
    Offset(usize),
    Index(usize),
    Key(&'k str),
}

impl<'k> Place<'k> {
    const fn of(member: Member<'k>) -> Place<'k> {
        Place {
            member,
            item: 0,
            param: None,
        }
    }

    /// This offset in the text of a field, as [`field_text`](crate::field_text()) joins it.
    ///
    /// ```
    /// assert_eq!(sf::Place::offset(4).offset_in("a, b c"), 4);
    /// ```
    #[must_use]
    pub const fn offset(offset: usize) -> Place<'k> {
        Place::of(Member::Offset(offset))
    }

    /// The member of a Dictionary with this key: where the key begins. If it is repeated, the last
    /// one counts (RFC 9651 section 3.2).
    ///
    /// ```
    /// assert_eq!(sf::Place::member("a").offset_in("a=1, b, a=2"), 8);
    /// ```
    #[must_use]
    pub const fn member(key: &'k str) -> Place<'k> {
        Place::of(Member::Key(key))
    }

    /// The member of a List with this index, or the Item of an Item field with the index 0.
    ///
    /// ```
    /// assert_eq!(sf::Place::index(2).offset_in("a, \"b, c\", 7"), 11);
    /// ```
    #[must_use]
    pub const fn index(index: usize) -> Place<'k> {
        Place::of(Member::Index(index))
    }

    /// The Item with this index of the member, which is an Inner List.
    ///
    /// ```
    /// assert_eq!(sf::Place::index(0).item(1).offset_in("(a b)"), 3);
    /// ```
    #[must_use]
    pub const fn item(self, index: usize) -> Place<'k> {
        Place {
            item: index.saturating_add(1),
            ..self
        }
    }

    /// The parameter of it with this key: where the key begins.
    ///
    /// ```
    /// assert_eq!(sf::Place::index(0).param("q").offset_in("a;x;q=1"), 4);
    /// ```
    #[must_use]
    pub const fn param(self, key: &'k str) -> Place<'k> {
        Place {
            param: Some(key),
            ..self
        }
    }

    /// The offset in a well-formed text of the field. If the text doesn't have the part, it is that
    /// of what it would be a part of, or 0. Does not allocate.
    ///
    /// ```
    /// let text = "a=1;x, b";
    /// assert_eq!(sf::Place::member("a").param("x").offset_in(text), 4);
    /// assert_eq!(sf::Place::member("b").param("x").offset_in(text), 7);
    /// assert_eq!(sf::Place::member("c").param("x").offset_in(text), 0);
    /// ```
    #[must_use]
    pub fn offset_in(self, text: impl AsRef<[u8]>) -> usize {
        if let Member::Offset(offset) = self.member {
            return offset;
        }
        let mut walk = Walk {
            text: text.as_ref(),
            at: 0,
            place: 0,
        };
        walk.spaces();
        let mut index = 0;
        while walk.peek().is_some() {
            walk.one_of_field(self, index);
            walk.comma();
            index += 1;
        }
        walk.place
    }
}

impl From<usize> for Place<'_> {
    fn from(offset: usize) -> Self {
        Place::offset(offset)
    }
}

impl<'k> From<&'k str> for Place<'k> {
    fn from(key: &'k str) -> Self {
        Place::member(key)
    }
}

impl<'k> From<&'k crate::KeyRef> for Place<'k> {
    fn from(key: &'k crate::KeyRef) -> Self {
        Place::member(key.as_str())
    }
}

#[cfg(feature = "alloc")]
impl<'k> From<&'k crate::Key> for Place<'k> {
    fn from(key: &'k crate::Key) -> Self {
        Place::member(key.as_str())
    }
}

impl<'a, 't: 'a> Node<'a, 't> {
    /// What leads to this node in the text of its field: its [`Place::offset_in`] that text is
    /// where it begins, with its key if it has one.
    ///
    /// ```
    /// let text = "a=1, b=(c d);e";
    /// let tree = sf::Parser::new().tree(sf::Kind::Dict, text).unwrap();
    /// let inner_list = tree.get("b").unwrap();
    /// assert_eq!(inner_list.place(), sf::Place::member("b"));
    /// let places = inner_list.children().map(|node| node.place().offset_in(text));
    /// assert!(places.eq([8, 10, 13]));
    /// ```
    #[must_use]
    pub fn place(&self) -> Place<'a> {
        let members = self.members_of_field();
        let (index, member) = members
            .enumerate()
            .find(|(_, member)| self.index() < member.end())
            .unwrap_or((0, *self));
        let place = match member.key_if_any() {
            Some(key) => Place::member(key.as_str()),
            None => Place::index(index),
        };
        if member.index() == self.index() {
            return place;
        }
        // The last child of the member that begins before this node, or is it.
        let is_before = |child: &Node<'a, 't>| child.index() <= self.index();
        let children = member.children().take_while(is_before);
        let (count, child) = children.enumerate().last().unwrap_or((0, *self));
        let place = match child.role() {
            Role::InnerItem => place.item(count),
            _ => place,
        };
        match self.key_if_any() {
            Some(key) => place.param(key.as_str()),
            None => place,
        }
    }
}

/// The places of the members of a well-formed List that are no Items of a String or a Token.
#[cfg(feature = "alloc")]
pub(crate) fn nameless(list: &[u8]) -> impl Iterator<Item = usize> + '_ {
    let mut walk = Walk {
        text: list,
        at: 0,
        place: 0,
    };
    walk.spaces();
    let is_nameless = |at: &usize| !matches!(list[*at], b'"' | b'*' | b'a'..=b'z' | b'A'..=b'Z');
    let members = core::iter::from_fn(move || {
        let begin = walk.at;
        walk.peek()?;
        walk.member(None);
        walk.comma();
        Some(begin)
    });
    members.filter(is_nameless)
}

/// A walk over a text of a field, which ends there whatever the text is.
struct Walk<'t> {
    text: &'t [u8],
    at: usize,
    /// The place that is looked for.
    place: usize,
}

impl Walk<'_> {
    fn peek(&self) -> Option<u8> {
        self.text.get(self.at).copied()
    }

    /// Goes past a byte if it is there, and returns whether it is.
    fn takes(&mut self, byte: u8) -> bool {
        let is_there = self.peek() == Some(byte);
        self.at += usize::from(is_there);
        is_there
    }

    fn spaces(&mut self) {
        while let Some(b' ' | b'\t') = self.peek() {
            self.at += 1;
        }
    }

    /// Goes past a comma and the white space around it.
    fn comma(&mut self) {
        self.spaces();
        self.at += 1;
        self.spaces();
    }

    /// Goes past the bare item or key that begins here, in a text that has none past a byte.
    fn bare(&mut self) {
        let is_display = self.takes(b'%');
        let first = self.peek();
        let is_string = first == Some(b'"') && !is_display;
        loop {
            self.at += usize::from(is_string && self.peek() == Some(b'\\'));
            self.at += 1;
            let is_end = match (first, self.peek()) {
                (_, None) => true,
                (Some(b'"' | b':'), byte) => byte == first,
                (_, Some(byte)) => b",;() \t=".contains(&byte),
            };
            if is_end {
                break;
            }
        }
        self.at += usize::from(matches!(first, Some(b'"' | b':')));
        self.at = self.at.min(self.text.len());
    }

    /// Goes past the key that begins here, and returns whether it is this one.
    fn key(&mut self, key: Option<&str>) -> bool {
        let begin = self.at;
        self.bare();
        key.map(str::as_bytes) == Some(&self.text[begin..self.at])
    }

    /// Goes past parameters, and finds the last with this key.
    fn params(&mut self, key: Option<&str>) {
        while self.takes(b';') {
            self.spaces();
            let begin = self.at;
            if self.key(key) {
                self.place = begin;
            }
            if self.takes(b'=') {
                self.bare();
            }
        }
    }

    /// Goes past an Item or Inner List, and finds its part that leads to a place.
    fn member(&mut self, wanted: Option<Place<'_>>) {
        let number = wanted.map_or(0, |place| place.item);
        let param = wanted.and_then(|place| place.param);
        let mut count = 0;
        if self.takes(b'(') {
            self.spaces();
            while !matches!(self.peek(), None | Some(b')')) {
                count += 1;
                let is_it = count == number;
                if is_it {
                    self.place = self.at;
                }
                self.bare();
                self.params(param.filter(|_| is_it));
                self.spaces();
            }
            self.takes(b')');
        } else {
            self.bare();
        }
        self.params(param.filter(|_| number == 0));
    }

    /// Goes past a member of the field, with its key in a Dictionary.
    fn one_of_field(&mut self, wanted: Place<'_>, index: usize) {
        let begin = self.at;
        let is_it = match wanted.member {
            Member::Key(key) => self.key(Some(key)),
            Member::Index(of) => of == index,
            Member::Offset(_) => false,
        };
        if is_it {
            self.place = begin;
        }
        let wanted = Some(wanted).filter(|_| is_it);
        if self.at == begin || self.takes(b'=') {
            self.member(wanted);
        } else {
            let own = wanted.filter(|place| place.item == 0);
            self.params(own.and_then(|place| place.param));
        }
    }
}
