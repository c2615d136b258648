//! Values as their texts, in formats of the crate `serde`: what `Display` writes, and `FromStr`
//! reads. Of numbers that have a range, and not more, it is the number.

use crate::{
    BareItem, CacheRules, Date, Decimal, Dictionary, FwdStatus, InnerList, Integer, Item, Key,
    List, ListEntry, Parameters, Path, Policy, Priority, ResponsePriority, Seconds, String, Token,
    Urgency,
};
use core::fmt;
use core::marker::PhantomData;
use serde::de::{Deserialize, Deserializer, Error as _, Visitor};
use serde::ser::{Serialize, Serializer};

/// Reads a text as a value, by its bytes.
struct Text<T>(PhantomData<T>);

impl<T> Visitor<'_> for Text<T>
where
    T: for<'a> TryFrom<&'a [u8], Error = crate::Error>,
{
    type Value = T;

    fn expecting(&self, f: &mut fmt::Formatter<'_>) -> fmt::Result {
        f.write_str("the text of a structured field, or of a part of one")
    }

    fn visit_str<E: serde::de::Error>(self, text: &str) -> Result<T, E> {
        self.visit_bytes(text.as_bytes())
    }

    fn visit_bytes<E: serde::de::Error>(self, text: &[u8]) -> Result<T, E> {
        T::try_from(text).map_err(E::custom)
    }
}

macro_rules! as_text {
    ($($name:ty)*) => {
        $(
            impl Serialize for $name {
                fn serialize<S: Serializer>(&self, serializer: S) -> Result<S::Ok, S::Error> {
                    serializer.collect_str(self)
                }
            }

            impl<'de> Deserialize<'de> for $name {
                fn deserialize<D: Deserializer<'de>>(deserializer: D) -> Result<$name, D::Error> {
                    deserializer.deserialize_str(Text(PhantomData))
                }
            }
        )*
    };
}

as_text!(Item List Dictionary ListEntry InnerList BareItem Parameters);
as_text!(Key String Token Decimal Date);
as_text!(Priority ResponsePriority Path);

// Without directives their text is empty, which a cache ignores; here it is no directives.
macro_rules! as_directives {
    ($($name:ty)*) => {
        $(
            impl Serialize for $name {
                fn serialize<S: Serializer>(&self, serializer: S) -> Result<S::Ok, S::Error> {
                    serializer.collect_str(self)
                }
            }

            impl<'de> Deserialize<'de> for $name {
                fn deserialize<D: Deserializer<'de>>(deserializer: D) -> Result<$name, D::Error> {
                    let field: Dictionary = deserializer.deserialize_str(Text(PhantomData))?;
                    let text = field.serialize().map_err(D::Error::custom)?;
                    let read = <$name>::parse(text).map_err(D::Error::custom)?;
                    Ok(read.unwrap_or_default())
                }
            }
        )*
    };
}

as_directives!(Policy CacheRules);

macro_rules! as_number {
    ($($name:ident: $number:ty;)*) => {
        $(
            impl Serialize for $name {
                fn serialize<S: Serializer>(&self, serializer: S) -> Result<S::Ok, S::Error> {
                    self.get().serialize(serializer)
                }
            }

            impl<'de> Deserialize<'de> for $name {
                fn deserialize<D: Deserializer<'de>>(deserializer: D) -> Result<$name, D::Error> {
                    let number = <$number>::deserialize(deserializer)?;
                    $name::new(number).map_err(D::Error::custom)
                }
            }
        )*
    };
}

as_number! {
    Integer: i64;
    Seconds: u64;
    Urgency: u8;
    FwdStatus: u16;
}
