use crate::buffer::{resize, written};
use crate::ffi::{self, Fit, Rules};
use crate::view::{Nodes, NO_NODE};
use crate::{Error, Events, Kind, Node, Parser, View};
use alloc::string::String;
use alloc::vec::Vec;
use core::fmt;
use sf_sys as raw;

/// The value of a field of any kind, borrowed from its text: keys, Tokens, and Strings without
/// escapes are those of the text, and only what is escaped or encoded is decoded to a buffer of the
/// tree. If a key is repeated, and rarely otherwise, all is copied there. It has at most two
/// allocations, however long the field is; a [`View`] has none. Two trees of fields of one kind are
/// equal if and only if their values are.
///
/// ```
/// let text = String::from("u=1, i;x");
/// let tree = sf::Parser::new().tree(sf::Kind::Dict, &text).unwrap();
/// let keys: Vec<_> = tree.members().map(|member| member.key()).collect();
/// assert_eq!(keys, ["u", "i"]);
/// ```
#[derive(Clone)]
pub struct Tree<'t> {
    kind: Kind,
    text: &'t [u8],
    nodes: Vec<raw::Node>,
    bytes: Vec<u8>,
}

impl PartialEq for Tree<'_> {
    fn eq(&self, other: &Tree<'_>) -> bool {
        self.view() == other.view()
    }
}

impl Eq for Tree<'_> {}

impl fmt::Debug for Tree<'_> {
    fn fmt(&self, f: &mut fmt::Formatter<'_>) -> fmt::Result {
        f.debug_tuple("Tree").field(&self.members()).finish()
    }
}

impl<'t> Tree<'t> {
    pub(crate) fn read(rules: &Rules, text: &'t [u8]) -> Result<Tree<'t>, Error> {
        let mut tree = Tree {
            kind: rules.kind,
            text,
            nodes: Vec::new(),
            bytes: Vec::new(),
        };
        // Most fields have fewer nodes; with more of them the text is parsed twice. Bytes are
        // decoded of Strings with a backslash, Byte Sequences and Display Strings alone.
        resize(&mut tree.nodes, text.len() / 4 + 1, NO_NODE)?;
        if text.iter().any(|byte| b"\\:%".contains(byte)) {
            resize(&mut tree.bytes, text.len(), 0)?;
        }
        loop {
            match ffi::parse(rules, text, &mut tree.nodes, &mut tree.bytes)? {
                Fit::Written(sizes) => {
                    tree.nodes.truncate(sizes.nodes);
                    tree.bytes.truncate(sizes.bytes);
                    let is_sound = tree.view().is_sound();
                    return is_sound.then_some(tree).ok_or(Error::OtherLibrary);
                }
                Fit::Short(sizes) => {
                    let (nodes, bytes) = (tree.nodes.len(), tree.bytes.len());
                    resize(&mut tree.nodes, sizes.nodes.max(nodes), NO_NODE)?;
                    resize(&mut tree.bytes, sizes.bytes.max(bytes), 0)?;
                }
            }
        }
    }

    /// Its value as a view.
    ///
    /// ```
    /// let tree = sf::Parser::new().tree(sf::Kind::List, "a, b").unwrap();
    /// assert_eq!(tree.view().members().count(), 2);
    /// ```
    #[must_use]
    pub fn view(&self) -> View<'_, 't> {
        View {
            kind: self.kind,
            text: self.text,
            nodes: &self.nodes,
            bytes: &self.bytes,
        }
    }

    /// The Item of an Item field, or the members of a List or Dictionary.
    ///
    /// ```
    /// let tree = sf::Parser::new().tree(sf::Kind::List, "a, b").unwrap();
    /// assert_eq!(tree.members().count(), 2);
    /// ```
    #[must_use]
    pub fn members(&self) -> Nodes<'_, 't> {
        self.view().members()
    }

    /// The member of a Dictionary with this key. It compares the keys one by one.
    ///
    /// ```
    /// let tree = sf::Parser::new().tree(sf::Kind::Dict, "u=1, i").unwrap();
    /// assert_eq!(tree.get("i").and_then(|member| member.bare_item()), Some(true.into()));
    /// ```
    #[must_use]
    pub fn get(&self, key: &str) -> Option<Node<'_, 't>> {
        self.view().get(key)
    }

    /// What the value has, in the order of the text: see [`Event`](crate::Event).
    ///
    /// ```
    /// let tree = sf::Parser::new().tree(sf::Kind::Item, "a;b").unwrap();
    /// assert_eq!(tree.events().count(), 2);
    /// ```
    #[must_use]
    pub fn events(&self) -> Events<'_, 't> {
        self.view().events()
    }
}

impl Parser {
    /// Writes the canonical text of the value of a view or tree, by RFC 9651 whatever the dialect
    /// (RFC 9651 section 4.1).
    ///
    /// # Errors
    ///
    /// [`Error::OutOfMemory`] only.
    ///
    /// ```
    /// let parser = sf::Parser::new();
    /// let tree = parser.tree(sf::Kind::List, "a ,b").unwrap();
    /// assert_eq!(parser.serialize_view(tree.view()).unwrap(), "a, b");
    /// assert_eq!(tree.to_string(), "a, b");
    /// ```
    pub fn serialize_view(&self, view: View<'_, '_>) -> Result<String, Error> {
        let rules = Rules {
            dialect: crate::Dialect::Rfc9651,
            ..self.rules(view.kind)
        };
        written(128, |buffer| {
            ffi::write(&rules, view.nodes, view.text, view.bytes, buffer)
        })
    }
}

#[cfg(feature = "std")]
impl Tree<'_> {
    /// Writes the canonical text of the value (RFC 9651 section 4.1).
    ///
    /// # Errors
    ///
    /// [`Error::OutOfMemory`] only, for which `to_string` panics, and so does `writeln!` to an
    /// `io::Write`.
    ///
    /// ```
    /// let tree = sf::Parser::new().tree(sf::Kind::List, "a ,b").unwrap();
    /// assert_eq!(tree.serialize().unwrap(), "a, b");
    /// assert_eq!(tree.to_string(), "a, b");
    /// ```
    pub fn serialize(&self) -> Result<String, Error> {
        Parser::new().serialize_view(self.view())
    }
}

#[cfg(feature = "std")]
impl fmt::Display for Tree<'_> {
    fn fmt(&self, f: &mut fmt::Formatter<'_>) -> fmt::Result {
        f.pad(&self.serialize().map_err(|_| fmt::Error)?)
    }
}

#[cfg(feature = "std")]
impl fmt::Display for View<'_, '_> {
    fn fmt(&self, f: &mut fmt::Formatter<'_>) -> fmt::Result {
        let text = Parser::new().serialize_view(*self);
        f.pad(&text.map_err(|_| fmt::Error)?)
    }
}
