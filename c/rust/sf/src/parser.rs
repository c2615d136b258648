//! The calls that read a text by a dialect and with a seed.

use crate::ffi::{self, Fit, Rules};
use crate::seed::SeedSource;
use crate::{Dialect, Error, Event, Kind, Seed, Space, View};
use core::ops::ControlFlow;

#[cfg(feature = "alloc")]
mod sealed {
    pub trait Sealed: Sized {
        const KIND: crate::Kind;
        fn of_view(view: crate::View<'_, '_>) -> Result<Self, crate::Error>;
        fn put_into(&self, nodes: &mut crate::nodes::Nodes) -> Result<(), crate::Error>;
    }
}
#[cfg(feature = "alloc")]
pub(crate) use sealed::Sealed;

/// A field of a known kind: an [`Item`](crate::Item), a [`List`](crate::List) or a
/// [`Dictionary`](crate::Dictionary).
///
/// ```
/// fn canonical<T: sf::FieldType>(text: &str) -> Result<String, sf::Error> {
///     let parser = sf::Parser::new();
///     parser.serialize(&parser.parse::<T>(text)?)
/// }
/// assert_eq!(canonical::<sf::List>("a,b").unwrap(), "a, b");
/// ```
#[cfg(feature = "alloc")]
pub trait FieldType: Sealed {}

/// Parses texts by a dialect, RFC 9651 unless another is chosen, and with a seed: a random one for
/// each call unless one is chosen.
///
/// ```
/// let parser = sf::Parser::new().with_dialect(sf::Dialect::Rfc8941);
/// let field = parser.parse::<sf::Dictionary>("u=1, i").unwrap();
/// assert_eq!(field.len(), 2);
/// ```
#[derive(Clone, Copy, Debug)]
pub struct Parser {
    seed: SeedSource,
    dialect: Dialect,
}

#[cfg(feature = "std")]
impl Default for Parser {
    fn default() -> Parser {
        Parser::new()
    }
}

/// Texts of no more bytes are parsed without an allocation for their nodes: they have at most 32,
/// and 64 bytes to be decoded, as `SF_NODES_SIZE` and `SF_BYTES_SIZE` of the header say.
#[cfg(feature = "alloc")]
const SMALL: usize = 40;

impl Parser {
    /// A parser by RFC 9651, with a random seed for each call.
    ///
    /// ```
    /// assert!(sf::Parser::new().check(sf::Kind::Item, "@1").is_ok());
    /// ```
    #[cfg(feature = "std")]
    #[must_use]
    pub const fn new() -> Parser {
        Parser {
            seed: SeedSource::Random,
            dialect: Dialect::Rfc9651,
        }
    }

    /// A parser by RFC 9651, with this seed in each call. Attackers must not be able to predict it.
    /// Without the feature `std` there is no other, since there is no source of random numbers.
    ///
    /// ```
    /// let parser = sf::Parser::seeded(sf::Seed::from_bytes(*b"sixteen bytes of"));
    /// assert!(parser.check(sf::Kind::Item, "@1").is_ok());
    /// ```
    #[must_use]
    pub const fn seeded(seed: Seed) -> Parser {
        Parser {
            seed: SeedSource::Chosen(seed),
            dialect: Dialect::Rfc9651,
        }
    }

    /// The same parser by another RFC.
    ///
    /// ```
    /// let old = sf::Parser::new().with_dialect(sf::Dialect::Rfc8941);
    /// assert!(old.check(sf::Kind::Item, "%\"a\"").is_err());
    /// ```
    #[must_use]
    pub const fn with_dialect(self, dialect: Dialect) -> Parser {
        let seed = self.seed;
        Parser { seed, dialect }
    }

    /// The same parser with this seed in each call. A random seed for each call costs less than a
    /// hundred nanoseconds; attackers must not be able to predict this one.
    ///
    /// ```
    /// let parser = sf::Parser::new().with_seed(sf::Seed::random());
    /// assert!(parser.check(sf::Kind::Item, "1").is_ok());
    /// ```
    #[must_use]
    pub const fn with_seed(self, seed: Seed) -> Parser {
        let seed = SeedSource::Chosen(seed);
        let dialect = self.dialect;
        Parser { seed, dialect }
    }

    /// The RFC by which texts are parsed.
    pub(crate) const fn dialect(&self) -> Dialect {
        self.dialect
    }

    /// A seed for one call.
    pub(crate) fn seed(&self) -> Seed {
        self.seed.seed()
    }

    /// What a call for a kind goes by.
    pub(crate) fn rules(&self, kind: Kind) -> Rules {
        Rules {
            seed: self.seed(),
            dialect: self.dialect,
            kind,
        }
    }

    /// Checks whether a text is a well-formed field of the kind (RFC 9651 section 4.2).
    ///
    /// # Errors
    ///
    /// [`Error::Refused`] if it is not.
    ///
    /// ```
    /// assert!(sf::Parser::new().check(sf::Kind::Dict, "u=1, i").is_ok());
    /// ```
    pub fn check(&self, kind: Kind, text: impl AsRef<[u8]>) -> Result<(), Error> {
        ffi::check(&self.rules(kind), text.as_ref())
    }

    /// Compares the values of two texts of a kind. The order of members, items and parameters
    /// counts.
    ///
    /// # Errors
    ///
    /// [`Error::Refused`] if the first text is malformed, [`Error::SecondRefused`] if only the
    /// second is.
    ///
    /// ```
    /// assert!(sf::Parser::new().equal(sf::Kind::Dict, "u=1,i", "u=1, i=?1").unwrap());
    /// ```
    pub fn equal(
        &self,
        kind: Kind,
        first: impl AsRef<[u8]>,
        second: impl AsRef<[u8]>,
    ) -> Result<bool, Error> {
        ffi::equal(&self.rules(kind), first.as_ref(), second.as_ref())
    }

    /// Parses a field of any kind into space of the caller, without an allocation.
    ///
    /// # Errors
    ///
    /// [`Error::Refused`] if the text is malformed, [`Error::TooSmall`] if the space is.
    ///
    /// ```
    /// let parser = sf::Parser::new();
    /// let mut space = sf::Space::<2, 0>::new();
    /// let view = parser.view(sf::Kind::List, "a;q=1", &mut space).unwrap();
    /// assert_eq!(view.members().next().unwrap().param("q"), Some(1.into()));
    /// let error = parser.view(sf::Kind::List, "a, b, c", &mut space).unwrap_err();
    /// assert!(matches!(error, sf::Error::TooSmall { nodes: 3, .. }));
    /// ```
    pub fn view<'a, 't, const NODES: usize, const BYTES: usize>(
        &self,
        kind: Kind,
        text: &'t (impl AsRef<[u8]> + ?Sized),
        space: &'a mut Space<NODES, BYTES>,
    ) -> Result<View<'a, 't>, Error> {
        let (nodes, bytes) = space.buffers();
        View::read(&self.rules(kind), text.as_ref(), nodes, bytes)
    }

    /// Calls a function with each [`Event`] of a field, in the order of the text, until it breaks;
    /// returns what it broke with. The field is not built, and a malformed text has no event at
    /// all.
    ///
    /// # Errors
    ///
    /// [`Error::Refused`] if the text is malformed. Without the feature `alloc`,
    /// [`Error::TooSmall`] if it has more than 32 nodes or more than 64 bytes that have to be
    /// decoded: see [`view`](Parser::view).
    ///
    /// ```
    /// use sf::{Event, Kind, Parser};
    /// use std::ops::ControlFlow;
    ///
    /// let quality = Parser::new().visit(Kind::List, "text/html;q=0.5, */*;q=0.1", |event| match event {
    ///     Event::Parameter { key, value } if key == "q" => ControlFlow::Break(value.as_decimal()),
    ///     _ => ControlFlow::Continue(()),
    /// });
    /// assert_eq!(quality.unwrap().flatten().unwrap().thousandths(), 500);
    /// ```
    pub fn visit<B>(
        &self,
        kind: Kind,
        text: impl AsRef<[u8]>,
        mut visit: impl FnMut(Event<'_>) -> ControlFlow<B>,
    ) -> Result<Option<B>, Error> {
        self.with_view(kind, text.as_ref(), |view| {
            Ok(view.events().find_map(|event| match visit(event) {
                ControlFlow::Break(value) => Some(value),
                ControlFlow::Continue(()) => None,
            }))
        })
    }

    /// Uses the nodes of a text, which are on the stack if they are few.
    fn with_view<R>(
        &self,
        kind: Kind,
        text: &[u8],
        used: impl FnOnce(View<'_, '_>) -> Result<R, Error>,
    ) -> Result<R, Error> {
        #[cfg(feature = "alloc")]
        if text.len() > SMALL {
            return used(self.tree(kind, text)?.view());
        }
        used(self.view(kind, text, &mut Space::<32, 64>::new())?)
    }

    /// Writes the canonical text (RFC 9651 section 4.1) of the value of a text to a buffer of the
    /// caller, and returns what it wrote. Eight fifths of the text's length are always enough.
    ///
    /// # Errors
    ///
    /// [`Error::Refused`] if the text is malformed, [`Error::TooSmall`] if the buffer is.
    ///
    /// ```
    /// let mut buffer = [0; 16];
    /// let text = sf::Parser::new().normalise_into(sf::Kind::Dict, "u=1,  i=?1", &mut buffer);
    /// assert_eq!(text, Ok("u=1, i"));
    /// ```
    pub fn normalise_into<'b>(
        &self,
        kind: Kind,
        text: impl AsRef<[u8]>,
        buffer: &'b mut [u8],
    ) -> Result<&'b str, Error> {
        match ffi::normalise(&self.rules(kind), text.as_ref(), buffer)? {
            Fit::Short(bytes) => Err(Error::TooSmall { nodes: 0, bytes }),
            Fit::Written(length) => {
                let written = buffer.get(..length).ok_or(Error::OtherLibrary)?;
                core::str::from_utf8(written).map_err(|_| Error::OtherLibrary)
            }
        }
    }
}

#[cfg(feature = "alloc")]
mod owned {
    use super::{FieldType, Kind, Parser};
    use crate::buffer::written;
    use crate::ffi;
    use crate::nodes::Nodes;
    use crate::{join, Error, Tree};
    use alloc::string::String;

    impl Parser {
        /// Parses a field of the kind of `T`.
        ///
        /// # Errors
        ///
        /// [`Error::Refused`] if the text is malformed.
        ///
        /// ```
        /// let item = sf::Parser::new().parse::<sf::Item>("1;a").unwrap();
        /// assert_eq!(item.bare_item.as_integer(), Some(1));
        /// ```
        pub fn parse<T: FieldType>(&self, text: impl AsRef<[u8]>) -> Result<T, Error> {
            self.with_view(T::KIND, text.as_ref(), T::of_view)
        }

        /// Writes the canonical text of a field by the dialect (RFC 9651 section 4.1). If the text
        /// of a List or Dictionary is empty, the field is not to be sent.
        ///
        /// # Errors
        ///
        /// [`Error::Invalid`] if it has a Date or Display String, and the dialect does not.
        ///
        /// ```
        /// let parser = sf::Parser::new().with_dialect(sf::Dialect::Rfc8941);
        /// assert_eq!(parser.serialize(&sf::Item::new(7)).unwrap(), "7");
        /// let date = sf::Date::from_unix_seconds(7).unwrap();
        /// assert_eq!(parser.serialize(&sf::Item::new(date)), Err(sf::Error::Invalid));
        /// ```
        pub fn serialize<T: FieldType>(&self, field: &T) -> Result<String, Error> {
            let mut nodes = Nodes::default();
            field.put_into(&mut nodes)?;
            nodes.text(&self.rules(T::KIND))
        }

        /// Parses the lines of a field: see [`join`](crate::join).
        ///
        /// # Errors
        ///
        /// [`Error::Refused`] if they are malformed; its offset is one in the joined text.
        ///
        /// ```
        /// let list = sf::Parser::new().parse_lines::<sf::List>(["a, b", "c"]).unwrap();
        /// assert_eq!(list.len(), 3);
        /// ```
        pub fn parse_lines<T: FieldType>(
            &self,
            lines: impl IntoIterator<Item = impl AsRef<[u8]>>,
        ) -> Result<T, Error> {
            self.parse(join(lines)?)
        }

        /// Parses a field of any kind as a tree, which borrows what it can from the text.
        ///
        /// # Errors
        ///
        /// [`Error::Refused`] if the text is malformed.
        ///
        /// ```
        /// let tree = sf::Parser::new().tree(sf::Kind::List, "a;q=1, b").unwrap();
        /// assert_eq!(tree.members().count(), 2);
        /// ```
        pub fn tree<'t>(
            &self,
            kind: Kind,
            text: &'t (impl AsRef<[u8]> + ?Sized),
        ) -> Result<Tree<'t>, Error> {
            Tree::read(&self.rules(kind), text.as_ref())
        }

        /// Writes the canonical text (RFC 9651 section 4.1) of the value of a text. Two texts of a
        /// kind have equal values if and only if their canonical texts are equal.
        ///
        /// # Errors
        ///
        /// [`Error::Refused`] if the text is malformed.
        ///
        /// ```
        /// let text = sf::Parser::new().normalise(sf::Kind::Dict, "u=1,  i=?1");
        /// assert_eq!(text.unwrap(), "u=1, i");
        /// ```
        pub fn normalise(&self, kind: Kind, text: impl AsRef<[u8]>) -> Result<String, Error> {
            let (rules, text) = (self.rules(kind), text.as_ref());
            // Most canonical texts are no longer than the text.
            written(text.len(), |buffer| ffi::normalise(&rules, text, buffer))
        }
    }
}

/// A field line's value without the spaces and tabs around it, which are no part of it (RFC 9110
/// section 5.5). What reads a text accepts spaces there, but refuses a tab at the beginning, and one
/// after an Item (RFC 9651 section 4.2).
///
/// ```
/// assert_eq!(sf::trim(" \tu=1, i\t"), b"u=1, i");
/// assert!(sf::Parser::seeded(sf::Seed::from_bytes([0; 16])).check(sf::Kind::Dict, "\tu=1").is_err());
/// ```
#[must_use]
pub fn trim<T: AsRef<[u8]> + ?Sized>(line: &T) -> &[u8] {
    let mut rest = line.as_ref();
    while let [b' ' | b'\t', shorter @ ..] = rest {
        rest = shorter;
    }
    while let [shorter @ .., b' ' | b'\t'] = rest {
        rest = shorter;
    }
    rest
}

/// Checks whether a text is a well-formed field of the kind, by RFC 9651: see [`Parser::check`].
///
/// # Errors
///
/// [`Error::Refused`] if it is not.
///
/// ```
/// assert!(sf::check(sf::Kind::Item, "1;a").is_ok());
/// ```
#[cfg(feature = "std")]
pub fn check(kind: Kind, text: impl AsRef<[u8]>) -> Result<(), Error> {
    Parser::new().check(kind, text)
}

/// Writes the canonical text of the value of a text, by RFC 9651: see [`Parser::normalise`].
///
/// # Errors
///
/// [`Error::Refused`] if the text is malformed.
///
/// ```
/// assert_eq!(sf::normalise(sf::Kind::List, ":YQ:,:YQ:").unwrap(), ":YQ==:, :YQ==:");
/// ```
#[cfg(feature = "std")]
pub fn normalise(kind: Kind, text: impl AsRef<[u8]>) -> Result<alloc::string::String, Error> {
    Parser::new().normalise(kind, text)
}

/// Compares the values of two texts of a kind, by RFC 9651: see [`Parser::equal`].
///
/// # Errors
///
/// [`Error::Refused`] if the first text is malformed, [`Error::SecondRefused`] if only the second
/// is.
///
/// ```
/// assert!(!sf::equal(sf::Kind::Dict, "a=1, b=2", "b=2, a=1").unwrap());
/// ```
#[cfg(feature = "std")]
pub fn equal(kind: Kind, first: impl AsRef<[u8]>, second: impl AsRef<[u8]>) -> Result<bool, Error> {
    Parser::new().equal(kind, first, second)
}
