use crate::ffi;
use crate::short::Short;
#[cfg(feature = "alloc")]
use crate::Dialect;
#[cfg(feature = "std")]
use crate::{field_text, FieldLine};
use crate::{Error, Parser};
use core::fmt;
use sf_sys as raw;

/// The urgency of a response, from 0, the most urgent, to 7 (RFC 9218 section 4.1).
///
/// ```
/// use sf::Urgency;
/// assert_eq!(Urgency::new(1).unwrap().get(), 1);
/// assert_eq!(Urgency::new(8), Err(sf::Error::Invalid));
/// assert_eq!(Urgency::default().get(), 3);
/// assert!(Urgency::MOST < Urgency::LEAST);
/// ```
#[derive(Clone, Copy, Debug, PartialEq, Eq, PartialOrd, Ord, Hash)]
pub struct Urgency(u8);

impl Urgency {
    /// 0, the most urgent.
    pub const MOST: Urgency = Urgency(0);
    /// 3, that of a field that sets none.
    pub const DEFAULT: Urgency = Urgency(3);
    /// 7, the least urgent: for background tasks, such as updates of software.
    pub const LEAST: Urgency = Urgency(7);

    /// The urgency of this number.
    ///
    /// # Errors
    ///
    /// [`Error::Invalid`] if it is above 7.
    ///
    /// ```
    /// assert!(sf::Urgency::new(7).is_ok());
    /// assert!(sf::Urgency::new(9).is_err());
    /// ```
    pub fn new(number: u8) -> Result<Urgency, Error> {
        (number <= Urgency::LEAST.0)
            .then_some(Urgency(number))
            .ok_or(Error::Invalid)
    }

    /// The urgency of a number that is known when the program is compiled.
    ///
    /// # Panics
    ///
    /// If it is above 7: in a constant, the program does not compile then.
    ///
    /// ```
    /// const SOON: sf::Urgency = sf::Urgency::constant(1);
    /// assert_eq!(SOON.get(), 1);
    /// ```
    #[must_use]
    pub const fn constant(number: u8) -> Urgency {
        assert!(number <= Urgency::LEAST.0, "an urgency above 7");
        Urgency(number)
    }

    /// Its number.
    ///
    /// ```
    /// assert_eq!(sf::Urgency::DEFAULT.get(), 3);
    /// ```
    #[must_use]
    pub const fn get(self) -> u8 {
        self.0
    }
}

impl Default for Urgency {
    fn default() -> Urgency {
        Urgency::DEFAULT
    }
}

impl TryFrom<u8> for Urgency {
    type Error = Error;

    fn try_from(number: u8) -> Result<Urgency, Error> {
        Urgency::new(number)
    }
}

impl From<Urgency> for u8 {
    fn from(urgency: Urgency) -> u8 {
        urgency.0
    }
}

impl PartialEq<u8> for Urgency {
    fn eq(&self, other: &u8) -> bool {
        self.0 == *other
    }
}

impl fmt::Display for Urgency {
    fn fmt(&self, f: &mut fmt::Formatter<'_>) -> fmt::Result {
        self.0.fmt(f)
    }
}

/// The parameters of the Priority field of a request (RFC 9218 section 4); `None` is one that the
/// field does not set, which has its default. Its `Display` is the text of a field that sets what it
/// sets, and nothing else. [`ResponsePriority`] is that of a response.
///
/// ```
/// let request: sf::Priority = "u=5, i".parse().unwrap();
/// let response: sf::ResponsePriority = "u=1".parse().unwrap();
/// let merged = request.merged_with(response);
/// assert_eq!((merged.urgency().get(), merged.incremental()), (1, true));
/// assert_eq!(merged.to_string(), "u=1, i");
/// ```
#[derive(Clone, Copy, Debug, Default, PartialEq, Eq, Hash)]
pub struct Priority {
    /// The urgency (section 4.1).
    pub urgency: Option<Urgency>,
    /// Whether the response is of use as it arrives (section 4.2).
    pub incremental: Option<bool>,
}

impl From<raw::PriorityFlags> for Priority {
    fn from(flags: raw::PriorityFlags) -> Priority {
        let urgency = (flags.has_urgency != 0).then_some(flags.urgency);
        Priority {
            urgency: urgency.and_then(|number| Urgency::new(number).ok()),
            incremental: (flags.has_incremental != 0).then_some(flags.incremental != 0),
        }
    }
}

impl From<Priority> for raw::PriorityFlags {
    fn from(priority: Priority) -> raw::PriorityFlags {
        raw::PriorityFlags {
            urgency: priority.urgency().get(),
            incremental: u8::from(priority.incremental()),
            has_urgency: u8::from(priority.urgency.is_some()),
            has_incremental: u8::from(priority.incremental.is_some()),
        }
    }
}

impl Priority {
    /// Reads the text of a Priority field (RFC 9218 section 5), by RFC 9651. Members that are unknown, of
    /// another type or out of range are ignored.
    ///
    /// # Errors
    ///
    /// [`Error::Refused`] if the text is not a well-formed Dictionary. RFC 9218 lets a recipient
    /// treat that as a field that is absent, as [`Error::as_absent`] does.
    ///
    /// ```
    /// let priority = sf::Priority::parse("u=8, i").unwrap(); // 8 is out of range
    /// assert_eq!((priority.urgency, priority.incremental), (None, Some(true)));
    /// ```
    #[cfg(feature = "std")]
    pub fn parse(text: impl AsRef<[u8]>) -> Result<Priority, Error> {
        Parser::new().priority(text)
    }

    /// Reads the text of a Priority field by a dialect: see [`Priority::parse`]. RFC 9218 cites RFC
    /// 8941.
    ///
    /// # Errors
    ///
    /// [`Error::Refused`] if the text is not a well-formed Dictionary.
    ///
    /// ```
    /// use sf::{Dialect, Priority};
    /// assert!(Priority::parse_in(Dialect::Rfc8941, "u=1, x=@1").is_err());
    /// assert!(Priority::parse_in(Dialect::Rfc9651, "u=1, x=@1").is_ok());
    /// ```
    #[cfg(feature = "std")]
    pub fn parse_in(dialect: Dialect, text: impl AsRef<[u8]>) -> Result<Priority, Error> {
        Parser::new().with_dialect(dialect).priority(text)
    }

    /// Reads the Priority field of a request's head, by RFC 9651; the default if the head has none.
    /// The head is its field lines, such as a slice of pairs or a `&HeaderMap` of the crate `http`.
    ///
    /// # Errors
    ///
    /// [`Error::Refused`] if it is malformed: see [`Priority::parse`]. The offset is one in the
    /// [`field_text`](crate::field_text).
    ///
    /// ```
    /// let head = [("Priority", "u=1"), ("Host", "a.example"), ("Priority", "i")];
    /// assert_eq!(sf::Priority::from_headers(&head).unwrap().to_string(), "u=1, i");
    /// ```
    #[cfg(feature = "std")]
    pub fn from_headers(head: impl IntoIterator<Item = impl FieldLine>) -> Result<Priority, Error> {
        Priority::parse(field_text(head, "Priority")?)
    }

    /// The same by a dialect. RFC 9218 cites RFC 8941.
    ///
    /// # Errors
    ///
    /// Those of [`Priority::from_headers`].
    ///
    /// ```
    /// use sf::{Dialect, Priority};
    /// assert!(Priority::from_headers_in(Dialect::Rfc8941, [("Priority", "u=1, x=@1")]).is_err());
    /// ```
    #[cfg(feature = "std")]
    pub fn from_headers_in(
        dialect: Dialect,
        head: impl IntoIterator<Item = impl FieldLine>,
    ) -> Result<Priority, Error> {
        Priority::parse_in(dialect, field_text(head, "Priority")?)
    }

    /// Merges the priority of a client's request, this one, with that of a server's response (RFC
    /// 9218 section 8). Each parameter is the server's if the server sets it, otherwise the
    /// client's. The result is for the sender of the response to this client; the field of the
    /// response is end-to-end (section 5), and is passed on as the server wrote it.
    ///
    /// ```
    /// let request = sf::Priority::parse("u=5, i").unwrap();
    /// let response = sf::ResponsePriority::parse("i=?0").unwrap();
    /// let merged = request.merged_with(response);
    /// assert_eq!((merged.urgency().get(), merged.incremental), (5, Some(false)));
    /// ```
    #[must_use]
    pub fn merged_with(self, response: ResponsePriority) -> Priority {
        ffi::priority_merge(self.into(), response.into()).into()
    }

    /// Writes the text of a Priority field that sets what this priority sets, and nothing else, as
    /// `to_string` does. If the text is empty, the field is not to be sent.
    ///
    /// # Errors
    ///
    /// [`Error::OutOfMemory`] only.
    ///
    /// ```
    /// let urgency = Some(sf::Urgency::new(1).unwrap());
    /// let priority = sf::Priority { urgency, incremental: Some(true) };
    /// assert_eq!(priority.serialize().unwrap(), "u=1, i");
    /// assert_eq!(sf::Priority::default().serialize().unwrap(), "");
    /// ```
    #[cfg(feature = "alloc")]
    pub fn serialize(self) -> Result<alloc::string::String, Error> {
        crate::buffer::copied_text(self.text()?.as_str())
    }

    fn text(self) -> Result<Short<16>, Error> {
        Short::written(|buffer| ffi::priority_text(&self.into(), buffer))
    }

    /// Writes the canonical text of a Priority field with what this priority sets put into it, for
    /// a field that is passed on: members that are unknown stay (RFC 9218 section 4), and so does
    /// what this priority does not set.
    ///
    /// # Errors
    ///
    /// [`Error::Refused`] if the text is not a well-formed Dictionary.
    ///
    /// ```
    /// let urgency = Some(sf::Urgency::new(1).unwrap());
    /// let priority = sf::Priority { urgency, incremental: None };
    /// assert_eq!(priority.change("u=5, x=(a  b), i").unwrap(), "u=1, x=(a b), i");
    /// ```
    #[cfg(feature = "std")]
    pub fn change(self, text: impl AsRef<[u8]>) -> Result<alloc::string::String, Error> {
        Parser::new().change_priority(self, text)
    }

    /// Puts what this priority sets into the text of a Priority field by a dialect: see
    /// [`Priority::change`].
    ///
    /// # Errors
    ///
    /// [`Error::Refused`] if the text is not a well-formed Dictionary.
    ///
    /// ```
    /// use sf::{Dialect, Priority};
    /// let priority = Priority { urgency: None, incremental: Some(true) };
    /// assert!(priority.change_in(Dialect::Rfc8941, "u=1, x=@1").is_err());
    /// assert_eq!(priority.change_in(Dialect::Rfc8941, "u=1, x").unwrap(), "u=1, x, i");
    /// ```
    #[cfg(feature = "std")]
    pub fn change_in(
        self,
        dialect: Dialect,
        text: impl AsRef<[u8]>,
    ) -> Result<alloc::string::String, Error> {
        Parser::new()
            .with_dialect(dialect)
            .change_priority(self, text)
    }

    /// The urgency, 3 if it is not set (RFC 9218 section 4.1).
    ///
    /// ```
    /// assert_eq!(sf::Priority::default().urgency(), sf::Urgency::DEFAULT);
    /// ```
    #[must_use]
    pub fn urgency(self) -> Urgency {
        self.urgency.unwrap_or_default()
    }

    /// Whether the response is of use as it arrives, false if it is not set (RFC 9218 section 4.2).
    ///
    /// ```
    /// assert!(!sf::Priority::default().incremental());
    /// ```
    #[must_use]
    pub fn incremental(self) -> bool {
        self.incremental.unwrap_or(false)
    }
}

impl fmt::Display for Priority {
    fn fmt(&self, f: &mut fmt::Formatter<'_>) -> fmt::Result {
        f.pad(self.text().map_err(|_| fmt::Error)?.as_str())
    }
}

/// What a server sets by the Priority field of a response (RFC 9218 section 8). `None` is a
/// parameter that the field does not set, which leaves what the client asked for: it has no default
/// there. Its `Display` is the text of a field that sets what it sets, and nothing else.
///
/// ```
/// use sf::{Priority, ResponsePriority};
/// let response: ResponsePriority = "u=1".parse().unwrap();
/// assert_eq!((response.urgency.map(u8::from), response.incremental), (Some(1), None));
/// let fixed = ResponsePriority::fixed(Priority::default());
/// assert_eq!(fixed.to_string(), "u=3, i=?0");
/// ```
#[derive(Clone, Copy, Debug, Default, PartialEq, Eq, Hash)]
pub struct ResponsePriority {
    /// The urgency (section 4.1).
    pub urgency: Option<Urgency>,
    /// Whether the response is of use as it arrives (section 4.2).
    pub incremental: Option<bool>,
}

impl From<raw::ResponsePriorityFlags> for ResponsePriority {
    fn from(flags: raw::ResponsePriorityFlags) -> ResponsePriority {
        let urgency = (flags.has_urgency != 0).then_some(flags.urgency);
        ResponsePriority {
            urgency: urgency.and_then(|number| Urgency::new(number).ok()),
            incremental: (flags.has_incremental != 0).then_some(flags.incremental != 0),
        }
    }
}

impl From<ResponsePriority> for raw::ResponsePriorityFlags {
    fn from(priority: ResponsePriority) -> raw::ResponsePriorityFlags {
        raw::ResponsePriorityFlags {
            urgency: priority.urgency.map_or(0, Urgency::get),
            incremental: u8::from(priority.incremental == Some(true)),
            has_urgency: u8::from(priority.urgency.is_some()),
            has_incremental: u8::from(priority.incremental.is_some()),
        }
    }
}

impl ResponsePriority {
    /// Reads the text of the Priority field of a response (RFC 9218 section 8), as
    /// [`Priority::parse`] reads that of a request.
    ///
    /// # Errors
    ///
    /// [`Error::Refused`] if the text is not a well-formed Dictionary.
    ///
    /// ```
    /// let response = sf::ResponsePriority::parse("i=?0").unwrap();
    /// assert_eq!((response.urgency, response.incremental), (None, Some(false)));
    /// ```
    #[cfg(feature = "std")]
    pub fn parse(text: impl AsRef<[u8]>) -> Result<ResponsePriority, Error> {
        Parser::new().response_priority(text)
    }

    /// Reads the text of the Priority field of a response by a dialect: see
    /// [`ResponsePriority::parse`]. RFC 9218 cites RFC 8941.
    ///
    /// # Errors
    ///
    /// [`Error::Refused`] if the text is not a well-formed Dictionary.
    ///
    /// ```
    /// use sf::{Dialect, ResponsePriority};
    /// assert!(ResponsePriority::parse_in(Dialect::Rfc8941, "u=1, x=@1").is_err());
    /// assert!(ResponsePriority::parse_in(Dialect::Rfc9651, "u=1, x=@1").is_ok());
    /// ```
    #[cfg(feature = "std")]
    pub fn parse_in(dialect: Dialect, text: impl AsRef<[u8]>) -> Result<ResponsePriority, Error> {
        Parser::new().with_dialect(dialect).response_priority(text)
    }

    /// Reads the Priority field of a response's head, by RFC 9651; the default if the head has none:
    /// see [`Priority::from_headers`].
    ///
    /// # Errors
    ///
    /// [`Error::Refused`] if it is malformed: see [`Priority::parse`].
    ///
    /// ```
    /// let response = sf::ResponsePriority::from_headers([("priority", "u=1")]).unwrap();
    /// assert_eq!((response.urgency.map(u8::from), response.incremental), (Some(1), None));
    /// ```
    #[cfg(feature = "std")]
    pub fn from_headers(
        head: impl IntoIterator<Item = impl FieldLine>,
    ) -> Result<ResponsePriority, Error> {
        ResponsePriority::parse(field_text(head, "Priority")?)
    }

    /// The same by a dialect. RFC 9218 cites RFC 8941.
    ///
    /// # Errors
    ///
    /// Those of [`ResponsePriority::from_headers`].
    ///
    /// ```
    /// use sf::{Dialect, ResponsePriority};
    /// let head = [("Priority", "u=1, x=@1")];
    /// assert!(ResponsePriority::from_headers_in(Dialect::Rfc8941, head).is_err());
    /// ```
    #[cfg(feature = "std")]
    pub fn from_headers_in(
        dialect: Dialect,
        head: impl IntoIterator<Item = impl FieldLine>,
    ) -> Result<ResponsePriority, Error> {
        ResponsePriority::parse_in(dialect, field_text(head, "Priority")?)
    }

    /// The priority of a response that sets both parameters, so that it has them whatever the
    /// client asked for.
    ///
    /// ```
    /// let fixed = sf::ResponsePriority::fixed(sf::Priority::default());
    /// let request = sf::Priority::parse("u=5, i").unwrap();
    /// assert_eq!(request.merged_with(fixed).to_string(), "u=3, i=?0");
    /// ```
    #[must_use]
    pub fn fixed(priority: Priority) -> ResponsePriority {
        ResponsePriority {
            urgency: Some(priority.urgency()),
            incremental: Some(priority.incremental()),
        }
    }

    /// Puts what this priority sets into the text of the Priority field of a response, and keeps its
    /// other members: see [`Priority::change`].
    ///
    /// # Errors
    ///
    /// [`Error::Refused`] if the text is not a well-formed Dictionary.
    ///
    /// ```
    /// use sf::{ResponsePriority, Urgency};
    /// let priority = ResponsePriority { urgency: Some(Urgency::DEFAULT), incremental: None };
    /// assert_eq!(priority.change("x, u=5").unwrap(), "x, u=3");
    /// ```
    #[cfg(feature = "std")]
    pub fn change(self, text: impl AsRef<[u8]>) -> Result<alloc::string::String, Error> {
        Parser::new().change_priority(self.as_set(), text)
    }

    /// Puts what this priority sets into the text by a dialect: see [`ResponsePriority::change`].
    ///
    /// # Errors
    ///
    /// [`Error::Refused`] if the text is not a well-formed Dictionary.
    ///
    /// ```
    /// use sf::{Dialect, ResponsePriority};
    /// let priority = ResponsePriority { urgency: None, incremental: Some(false) };
    /// assert_eq!(priority.change_in(Dialect::Rfc8941, "u=1, i").unwrap(), "u=1, i=?0");
    /// ```
    #[cfg(feature = "std")]
    pub fn change_in(
        self,
        dialect: Dialect,
        text: impl AsRef<[u8]>,
    ) -> Result<alloc::string::String, Error> {
        let parser = Parser::new().with_dialect(dialect);
        parser.change_priority(self.as_set(), text)
    }

    /// A priority of a request that sets the same.
    #[cfg(feature = "std")]
    fn as_set(self) -> Priority {
        Priority {
            urgency: self.urgency,
            incremental: self.incremental,
        }
    }

    /// Writes the text of the Priority field of a response that sets what this priority sets, and
    /// nothing else, as `to_string` does. If the text is empty, the field is not to be sent.
    ///
    /// # Errors
    ///
    /// [`Error::OutOfMemory`] only.
    ///
    /// ```
    /// let priority = sf::ResponsePriority { urgency: None, incremental: Some(false) };
    /// assert_eq!(priority.serialize().unwrap(), "i=?0");
    /// ```
    #[cfg(feature = "alloc")]
    pub fn serialize(self) -> Result<alloc::string::String, Error> {
        crate::buffer::copied_text(self.text()?.as_str())
    }

    fn text(self) -> Result<Short<16>, Error> {
        Short::written(|buffer| ffi::response_priority_text(&self.into(), buffer))
    }
}

impl fmt::Display for ResponsePriority {
    fn fmt(&self, f: &mut fmt::Formatter<'_>) -> fmt::Result {
        f.pad(self.text().map_err(|_| fmt::Error)?.as_str())
    }
}

impl Parser {
    /// Reads the text of the Priority field of a response, by the dialect of the parser: see
    /// [`ResponsePriority::parse`]. RFC 9218 cites RFC 8941.
    ///
    /// # Errors
    ///
    /// [`Error::Refused`] if the text is not a well-formed Dictionary.
    ///
    /// ```
    /// let old = sf::Parser::new().with_dialect(sf::Dialect::Rfc8941);
    /// assert_eq!(old.response_priority("u=1").unwrap().to_string(), "u=1");
    /// assert!(old.response_priority("u=1, x=@1").is_err());
    /// ```
    pub fn response_priority(&self, text: impl AsRef<[u8]>) -> Result<ResponsePriority, Error> {
        ffi::response_priority(&self.seed(), self.dialect(), text.as_ref())
            .map(ResponsePriority::from)
    }

    /// Reads the text of a Priority field, by the dialect of the parser: see [`Priority::parse`].
    /// RFC 9218 cites RFC 8941.
    ///
    /// # Errors
    ///
    /// [`Error::Refused`] if the text is not a well-formed Dictionary.
    ///
    /// ```
    /// assert_eq!(sf::Parser::new().priority("u=1").unwrap().urgency().get(), 1);
    /// let old = sf::Parser::new().with_dialect(sf::Dialect::Rfc8941);
    /// assert!(old.priority("u=1, x=@1").is_err());
    /// ```
    pub fn priority(&self, text: impl AsRef<[u8]>) -> Result<Priority, Error> {
        ffi::priority(&self.seed(), self.dialect(), text.as_ref()).map(Priority::from)
    }

    /// Puts what a priority sets into the text of a Priority field, by the dialect of the parser:
    /// see [`Priority::change`]. RFC 9218 cites RFC 8941.
    ///
    /// # Errors
    ///
    /// [`Error::Refused`] if the text is not a well-formed Dictionary.
    ///
    /// ```
    /// let priority = sf::Priority { urgency: None, incremental: Some(true) };
    /// let old = sf::Parser::new().with_dialect(sf::Dialect::Rfc8941);
    /// assert_eq!(old.change_priority(priority, "u=1, x").unwrap(), "u=1, x, i");
    /// assert!(old.change_priority(priority, "u=1, x=@1").is_err());
    /// ```
    #[cfg(feature = "alloc")]
    pub fn change_priority(
        &self,
        priority: Priority,
        text: impl AsRef<[u8]>,
    ) -> Result<alloc::string::String, Error> {
        let (seed, text) = (self.seed(), text.as_ref());
        if self.dialect() != Dialect::default() {
            // The call for it reads RFC 9651, by which a text has the same value if it is accepted.
            ffi::priority(&seed, self.dialect(), text)?;
        }
        crate::buffer::written(128, |buffer| {
            ffi::priority_change(&seed, text, &priority.into(), buffer)
        })
    }
}
