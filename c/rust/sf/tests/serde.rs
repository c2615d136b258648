//! Values as their texts. Needs the feature `serde`; the formats are those that `serde` itself has:
//! of one string, of one number, and of a formatter.
#![cfg(feature = "serde")]

use serde::de::value::{BytesDeserializer, Error, I64Deserializer, StrDeserializer};
use serde::de::{Deserialize, IntoDeserializer};
use serde::ser::Serialize;
use sf::{
    BareItem, CacheRules, Date, Decimal, Dictionary, Integer, Item, Key, List, Path, Policy,
    Priority, ResponsePriority, Urgency,
};
use std::fmt;

fn read<'a, T: Deserialize<'a>>(text: &'a str) -> Result<T, Error> {
    let text: StrDeserializer<'a, Error> = text.into_deserializer();
    T::deserialize(text)
}

// What `T` serializes to, by the serializer that `fmt::Formatter` is.
struct Shown<'a, T>(&'a T);

impl<T: Serialize> fmt::Display for Shown<'_, T> {
    fn fmt(&self, f: &mut fmt::Formatter<'_>) -> fmt::Result {
        self.0.serialize(f)
    }
}

#[test]
fn values_are_their_texts() {
    let dict: Dictionary = read("u=1,  i=?1").unwrap();
    assert_eq!(Shown(&dict).to_string(), "u=1, i");
    assert_eq!(Shown(&read::<List>("a,(b)").unwrap()).to_string(), "a, (b)");
    assert_eq!(Shown(&read::<Item>("1; a").unwrap()).to_string(), "1;a");
    assert_eq!(
        Shown(&read::<BareItem>("\"a\"").unwrap()).to_string(),
        "\"a\""
    );
    assert_eq!(
        Shown(&read::<Key>("max-age").unwrap()).to_string(),
        "max-age"
    );
    assert_eq!(Shown(&read::<Decimal>("1.50").unwrap()).to_string(), "1.5");
    assert_eq!(Shown(&read::<Date>("@7").unwrap()).to_string(), "@7");
    assert_eq!(
        Shown(&read::<Priority>("u=1,i").unwrap()).to_string(),
        "u=1, i"
    );
    assert_eq!(Shown(&read::<Path>("a; hit").unwrap()).to_string(), "a;hit");
    assert_eq!(
        Shown(&read::<Policy>("no-store").unwrap()).to_string(),
        "no-store"
    );
    assert_eq!(read::<Policy>("").unwrap(), Policy::default());
    let rules: CacheRules = read("public, s-maxage=a, no-cache").unwrap();
    assert_eq!(
        Shown(&rules).to_string(),
        "no-cache, s-maxage=invalid, public"
    );
    assert_eq!(read::<CacheRules>("").unwrap(), CacheRules::default());
    assert!(read::<CacheRules>("a b").is_err());
    let response: ResponsePriority = read("i=?0, u=3").unwrap();
    assert_eq!(Shown(&response).to_string(), "u=3, i=?0");
    let bytes: BytesDeserializer<'_, Error> = BytesDeserializer::new(b"a, b");
    assert_eq!(List::deserialize(bytes).unwrap().len(), 2);
    let refused = read::<Item>("1 2").unwrap_err();
    assert_eq!(
        refused.to_string(),
        "byte 0x32 '2' at place 2, expected a space or the end"
    );
}

#[test]
fn numbers_are_numbers() {
    let number = |number: i64| -> I64Deserializer<Error> { number.into_deserializer() };
    assert_eq!(Integer::deserialize(number(-7)), Ok(Integer::from(-7)));
    assert_eq!(Shown(&Integer::from(-7)).to_string(), "-7");
    assert_eq!(Urgency::deserialize(number(7)), Ok(Urgency::LEAST));
    assert!(Urgency::deserialize(number(8)).is_err());
    assert!(Integer::deserialize(number(i64::MAX)).is_err());
}
