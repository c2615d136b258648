//! Each type that has a text: `FromStr`, `TryFrom<&str>`, `TryFrom<&[u8]>` and `Display`; and
//! numbers and times as values.

use sf::{
    BareItem, Cache, CacheRules, Cause, Date, Decimal, Dictionary, Error, FwdStatus,
    GenericBareItem, InnerList, Integer, Item, Key, KeyRef, List, ListEntry, Parameters, Path,
    Policy, Priority, Refusal, Response, ResponsePriority, Seconds, StringRef, Token, TokenRef,
    Urgency,
};
use std::fmt::{Debug, Display};
use std::str::FromStr;
use std::time::{Duration, SystemTime, UNIX_EPOCH};

// Reads a text by each of the three, which agree, and writes it.
fn written<T>(text: &str) -> Result<String, Error>
where
    T: FromStr<Err = Error> + Display + Debug + PartialEq,
    T: for<'a> TryFrom<&'a str, Error = Error> + for<'a> TryFrom<&'a [u8], Error = Error>,
{
    let value: Result<T, Error> = text.parse();
    assert_eq!(T::try_from(text), value);
    assert_eq!(T::try_from(text.as_bytes()), value);
    value.map(|value| value.to_string())
}

fn refused<T>(text: &str) -> Refusal
where
    T: FromStr<Err = Error> + Display + Debug + PartialEq,
    T: for<'a> TryFrom<&'a str, Error = Error> + for<'a> TryFrom<&'a [u8], Error = Error>,
{
    match written::<T>(text) {
        Err(Error::Refused(refusal)) => refusal,
        other => panic!("{other:?}"),
    }
}

fn of(result: Result<String, Error>) -> String {
    result.unwrap()
}

// The examples of RFC 9651 sections 3.1 to 3.3.
#[test]
fn texts_are_read_and_written() {
    assert_eq!(of(written::<List>("sugar, tea, rum")), "sugar, tea, rum");
    let inner = "(\"foo\" \"bar\"), (\"baz\"), (\"bat\" \"one\"), ()";
    assert_eq!(of(written::<List>(inner)), inner);
    let dict = "a=?0, b, c; foo=bar";
    assert_eq!(of(written::<Dictionary>(dict)), "a=?0, b, c;foo=bar");
    assert_eq!(of(written::<Item>("5; foo=bar")), "5;foo=bar");
    assert_eq!(
        of(written::<ListEntry>("(\"foo\"; a=1;b=2);lvl=5")),
        "(\"foo\";a=1;b=2);lvl=5"
    );
    assert_eq!(of(written::<ListEntry>(" abc;a=1 ")), "abc;a=1");
    assert_eq!(
        of(written::<InnerList>("( \"bar\"  \"baz\" );lvl=1")),
        "(\"bar\" \"baz\");lvl=1"
    );
    for (text, canonical) in [
        ("42", "42"),
        ("4.50", "4.5"),
        ("\"hello world\"", "\"hello world\""),
        ("foo123/456", "foo123/456"),
        (
            ":cHJldGVuZCB0aGlzIGlzIGJpbmFyeSBjb250ZW50Lg==:",
            ":cHJldGVuZCB0aGlzIGlzIGJpbmFyeSBjb250ZW50Lg==:",
        ),
        ("?1", "?1"),
        ("@1659578233", "@1659578233"),
        (
            "%\"This is intended for display to %c3%bcsers.\"",
            "%\"This is intended for display to %c3%bcsers.\"",
        ),
    ] {
        assert_eq!(of(written::<BareItem>(text)), canonical);
        assert_eq!(
            BareItem::from_str(text).unwrap().to_ref().to_string(),
            canonical
        );
    }
    assert_eq!(of(written::<Parameters>("; q=0.50;a")), ";q=0.5;a");
    assert_eq!(of(written::<Parameters>("")), "");
    assert_eq!(of(written::<Key>("max-age")), "max-age");
    assert_eq!(of(written::<Token>("text/html")), "text/html");
    assert_eq!(of(written::<sf::String>("a \"b\"")), "a \"b\"");
    assert_eq!(of(written::<Integer>(" -42 ")), "-42");
    assert_eq!(of(written::<Decimal>("-0.50")), "-0.5");
    assert_eq!(of(written::<Date>("@-1")), "@-1");
    assert_eq!(of(written::<Urgency>("7")), "7");
    assert_eq!(of(written::<Seconds>("600")), "600");
    assert_eq!(of(written::<FwdStatus>("304")), "304");
    assert_eq!(written::<Urgency>("8"), Err(Error::Invalid));
    assert_eq!(written::<Seconds>("-1"), Err(Error::Invalid));
    assert_eq!(written::<FwdStatus>("99"), Err(Error::Invalid));
    assert_eq!(written::<Integer>("1.0"), Err(Error::OtherType));
    assert_eq!(written::<Decimal>("1"), Err(Error::OtherType));
    assert_eq!(written::<Date>("1"), Err(Error::OtherType));
}

// A part is refused at the first byte that no text of such a part has there, with what it may have.
#[test]
fn parts_are_refused_at_their_places() {
    let set = |bytes: &[u8]| bytes.iter().fold(0, |set, byte| set | 1_u128 << byte);
    let at = |refusal: Refusal| (refusal.offset, refusal.found, refusal.may_end);

    let refusal = refused::<BareItem>("?1;a");
    assert_eq!(at(refusal), (2, Some(b';'), true));
    assert_eq!(refusal.expected, set(b" "));
    assert_eq!(
        at(refused::<BareItem>("\"a;\\\";\";a")),
        (7, Some(b';'), true)
    );
    assert_eq!(at(refused::<BareItem>("%\"\\\";")), (4, Some(b';'), true));
    assert_eq!(at(refused::<BareItem>("%\";\" ;")), (5, Some(b';'), true));
    assert_eq!(at(refused::<BareItem>("?2")), (1, Some(b'2'), false));
    assert!(!refused::<BareItem>("?1 x").expects(b';'));
    assert_eq!(at(refused::<BareItem>("")), (0, None, false));

    let refusal = refused::<ListEntry>("\"a,\", b c");
    assert_eq!(at(refusal), (4, Some(b','), true));
    assert_eq!(refusal.expected, set(b" \t;"));
    assert_eq!(at(refused::<ListEntry>("a b, c")), (2, Some(b'b'), true));
    assert!(!refused::<ListEntry>("a b").expects(b','));
    assert_eq!(at(refused::<ListEntry>("(a,b)")), (2, Some(b','), false));
    assert_eq!(at(refused::<ListEntry>("a,")), (1, Some(b','), true));
    let refusal = refused::<ListEntry>("  ");
    assert_eq!(at(refusal), (2, None, false));
    assert!(refusal.expects(b'(') && refusal.expects(b'a') && !refusal.expects(b','));

    let refusal = refused::<InnerList>(" a");
    assert_eq!(at(refusal), (1, Some(b'a'), false));
    assert_eq!(refusal.expected, set(b" ("));
    assert_eq!(at(refused::<InnerList>("")), (0, None, false));
    assert_eq!(at(refused::<InnerList>("(1), (2)")), (3, Some(b','), true));
    assert_eq!(at(refused::<InnerList>("(1")), (2, None, false));

    let refusal = refused::<Parameters>("a");
    assert_eq!(at(refusal), (0, Some(b'a'), true));
    assert_eq!(refusal.expected, set(b" ;"));
    assert_eq!(at(refused::<Parameters>(";a=")), (3, None, false));

    let key = refused::<Key>("Max");
    assert_eq!(at(key), (0, Some(b'M'), false));
    assert_eq!(key.expected, set(b"abcdefghijklmnopqrstuvwxyz*"));
    assert!(key
        .to_string()
        .starts_with("byte 0x4d 'M' at place 0, expected "));
    assert_eq!(at(refused::<Key>("a b")), (1, Some(b' '), true));
    assert_eq!(at(refused::<Token>("")), (0, None, false));
    assert_eq!(at(refused::<sf::String>("a\u{fc}")), (1, Some(0xc3), true));
    assert_eq!(
        <&StringRef>::try_from(&b"\xff"[..])
            .unwrap_err()
            .refusal()
            .unwrap()
            .offset,
        0
    );
}

#[test]
fn an_error_is_an_error() {
    fn is_error<T: std::error::Error + Send + Sync + 'static>(
        error: T,
    ) -> Box<dyn std::error::Error> {
        Box::new(error)
    }
    let error = "1 2".parse::<Item>().unwrap_err();
    let message = "byte 0x32 '2' at place 2, expected a space or the end";
    assert_eq!(is_error(error).to_string(), message);
    assert_eq!(is_error(error.refusal().unwrap()).to_string(), message);
    let refusal = error.refusal().unwrap();
    assert!(refusal.expected_bytes().eq([b' ']));
    assert_eq!(Error::OtherType.to_string(), "the value is of another type");
}

#[test]
fn numbers_are_values() {
    let items: [BareItem; 8] = [
        1_i8.into(),
        2_u8.into(),
        3_i16.into(),
        4_u16.into(),
        5_i32.into(),
        6_u32.into(),
        Integer::constant(7).into(),
        true.into(),
    ];
    let texts: Vec<String> = items.iter().map(ToString::to_string).collect();
    assert_eq!(texts, ["1", "2", "3", "4", "5", "6", "7", "?1"]);
    assert_eq!(BareItem::try_from(7_i64), Ok(7.into()));
    assert_eq!(BareItem::try_from(u64::MAX), Err(Error::Invalid));
    assert_eq!(Item::try_from(7_usize), Ok(7.into()));
    assert_eq!(ListEntry::try_from(-7_i128), Ok((-7).into()));
    assert_eq!(
        ListEntry::try_from(1_000_000_000_000_000_i64),
        Err(Error::Invalid)
    );
    assert_eq!(Decimal::from(5).thousandths(), 5000);
    assert_eq!(Decimal::from(u32::MAX).to_string(), "4294967295.0");
    let items = [
        BareItem::from(StringRef::constant("s")),
        BareItem::from(TokenRef::constant("t")),
        BareItem::from(GenericBareItem::DisplayString("d")),
    ];
    let texts: Vec<String> = items.iter().map(ToString::to_string).collect();
    assert_eq!(texts, ["\"s\"", "t", "%\"d\""]);
}

// RFC 9651 section 4.1.5: to the nearest thousandth, and of two to the even one.
#[test]
fn floats_are_rounded() {
    for (number, text) in [
        (0.0, "0.0"),
        (-0.0, "0.0"),
        (1.0, "1.0"),
        (-1.5, "-1.5"),
        (0.1, "0.1"),
        (2.0 / 3.0, "0.667"),
        // Halves of a thousandth, as exact as an f64 has them.
        (0.0625, "0.062"),
        (0.1875, "0.188"),
        (-0.3125, "-0.312"),
        (-0.4375, "-0.438"),
        (1.0625, "1.062"),
        // Not halves: the f64 is a little more or less.
        (0.0005, "0.001"),
        (0.0015, "0.002"),
        (0.000_499, "0.0"),
        (1e-300, "0.0"),
        (f64::MIN_POSITIVE / 2.0, "0.0"),
        (999_999_999_999.999, "999999999999.999"),
        (-999_999_999_999.999, "-999999999999.999"),
        (999_999_999_999.999_4, "999999999999.999"),
    ] {
        assert_eq!(
            Decimal::round_half_even(number).unwrap().to_string(),
            text,
            "{number}"
        );
    }
    for number in [
        f64::NAN,
        f64::INFINITY,
        f64::NEG_INFINITY,
        1e12,
        -1e12,
        f64::MAX,
        4.6e15,
        1e16,
    ] {
        assert_eq!(
            Decimal::round_half_even(number),
            Err(Error::Invalid),
            "{number}"
        );
    }
    // Beyond the largest when it is rounded: 999999999999.9996 or so.
    assert_eq!(
        Decimal::round_half_even(999_999_999_999.999_6),
        Err(Error::Invalid)
    );
    let mut number = 1_i64;
    while number < 999_999_999_999_999 {
        for thousandths in [number, -number, number + 1] {
            let decimal = Decimal::from_thousandths(thousandths).unwrap();
            assert_eq!(Decimal::round_half_even(decimal.as_f64()), Ok(decimal));
        }
        number = number * 3 + 7;
    }
}

// RFC 9651 sections 4.1.4, 4.1.5 and 4.1.10.
#[test]
fn numbers_are_written() {
    for (thousandths, text) in [
        (0, "0.0"),
        (1, "0.001"),
        (-1, "-0.001"),
        (10, "0.01"),
        (500, "0.5"),
        (-500, "-0.5"),
        (999, "0.999"),
        (1000, "1.0"),
        (1010, "1.01"),
        (-123_456, "-123.456"),
        (999_999_999_999_999, "999999999999.999"),
    ] {
        let decimal = Decimal::from_thousandths(thousandths).unwrap();
        assert_eq!(decimal.to_string(), text);
        assert_eq!(text.parse(), Ok(decimal));
    }
    assert_eq!(Decimal::MIN.to_string(), "-999999999999.999");
    assert_eq!(Integer::MIN.to_string(), "-999999999999999");
    assert_eq!(Date::from_unix_seconds(-7).unwrap().to_string(), "@-7");
    assert_eq!(
        format!("{:>6}|{:<6}|", Decimal::from(1), Date::UNIX_EPOCH),
        "   1.0|@0    |"
    );
}

#[test]
fn times_are_dates() {
    let time = |seconds: u64| UNIX_EPOCH + Duration::from_secs(seconds);
    let date = Date::try_from(time(1_659_578_233)).unwrap();
    assert_eq!(date.to_string(), "@1659578233");
    assert_eq!(SystemTime::try_from(date), Ok(time(1_659_578_233)));
    let before = |nanos: u64| Date::try_from(UNIX_EPOCH - Duration::from_nanos(nanos)).unwrap();
    assert_eq!(before(1).unix_seconds(), -1);
    assert_eq!(before(1_000_000_000).unix_seconds(), -1);
    assert_eq!(before(1_000_000_001).unix_seconds(), -2);
    assert_eq!(Date::try_from(UNIX_EPOCH), Ok(Date::UNIX_EPOCH));
    let item = BareItem::try_from(time(7)).unwrap();
    assert_eq!(item.to_string(), "@7");
    assert_eq!(Item::try_from(time(7)).unwrap().to_string(), "@7");
    if let Some(late) = UNIX_EPOCH.checked_add(Duration::from_secs(1_000_000_000_000_000)) {
        assert_eq!(Date::try_from(late), Err(Error::Invalid));
    }
}

#[test]
fn keys_are_looked_up() {
    const U: &KeyRef = KeyRef::constant("u");
    let mut dict: Dictionary = "u=1, i;x, (a)=".parse().unwrap_or_default();
    assert!(dict.is_empty());
    dict = "u=1, i;x".parse().unwrap();
    assert!(dict.contains_key(U) && dict.contains_key("i") && !dict.contains_key("x"));
    assert_eq!(dict["u"], 1.into());
    assert_eq!(dict[1].params()["x"].as_boolean(), Some(true));
    let mut seen = Vec::new();
    for (key, member) in &dict {
        seen.push(format!("{key}={member}"));
    }
    assert_eq!(seen, ["u=1", "i=?1;x"]);
    for (key, member) in &mut dict {
        if key == "u" {
            *member = 7.into();
        }
    }
    dict["i"].params_mut().insert(U, 2).unwrap();
    dict["i"].params_mut()["x"] = false.into();
    assert_eq!(dict.to_string(), "u=7, i;x=?0;u=2");
    let params = dict[1].params();
    let values: Vec<_> = params
        .into_iter()
        .map(|(_, value)| value.to_string())
        .collect();
    assert_eq!(values, ["?0", "2"]);
    assert!(params.keys().rev().eq(["u", "x"]));
    assert_eq!(params.values().len(), 2);
    assert_eq!(params.iter().next_back().unwrap().0, "u");
    assert_eq!(dict.get_index(0).unwrap().0, U);
    assert!(dict.get_index(2).is_none());
    dict.retain(|key, _| key != "u");
    assert_eq!(dict.to_string(), "i;x=?0;u=2");
    let mut list: List = "a;x, b".parse().unwrap();
    for member in &mut list {
        member.params_mut().remove("x");
    }
    list.extend([1, 2]);
    assert_eq!(list.to_string(), "a, b, 1, 2");
}

/// Each parameter has a value of one type, and only that one returns it.
#[test]
fn parameters_have_types() {
    let text = ";i=-7;d=1.5;s=\"a b\";t=a/b;x=:YQ==:;y;n=?0;z=@7;u=%\"f%c3%bc\"";
    let params: Parameters = text.parse().unwrap();
    let date = Date::from_unix_seconds(7).unwrap();
    let decimal: Decimal = "1.5".parse().unwrap();
    for key in params.keys().map(|key| key.as_str()).chain(["a", ""]) {
        let only = |own: &str| key == own;
        assert_eq!(params.integer(key), only("i").then_some(-7), "{key}");
        assert_eq!(params.decimal(key), only("d").then_some(decimal), "{key}");
        assert_eq!(params.string(key), only("s").then_some("a b"), "{key}");
        assert_eq!(params.token(key), only("t").then_some("a/b"), "{key}");
        let bytes = params.byte_sequence(key);
        assert_eq!(bytes, only("x").then_some(&b"a"[..]), "{key}");
        let is_boolean = only("y") || only("n");
        assert_eq!(
            params.boolean(key),
            is_boolean.then_some(only("y")),
            "{key}"
        );
        assert_eq!(params.date(key), only("z").then_some(date), "{key}");
        assert_eq!(
            params.display_string(key),
            only("u").then_some("fü"),
            "{key}"
        );
    }
    // Of a key that is repeated, the last value counts (RFC 9651 section 3.1.2).
    let params: Parameters = ";a=1;a=\"b\"".parse().unwrap();
    assert_eq!((params.integer("a"), params.string("a")), (None, Some("b")));
}

#[test]
#[should_panic(expected = "no such key")]
fn an_absent_key_is_no_index() {
    let dict: Dictionary = "u=1".parse().unwrap();
    let _ = &dict["i"];
}

// What the three fields say is read and written likewise.
#[test]
fn what_fields_say_is_read_and_written() {
    assert_eq!(of(written::<Priority>("x, u=5,i")), "u=5, i");
    assert_eq!(of(written::<ResponsePriority>("i=?0, u=3")), "u=3, i=?0");
    assert_eq!(of(written::<Policy>("x, max-age=060")), "max-age=60");
    assert_eq!(
        of(written::<CacheRules>("public, max-age=a, x, s-maxage=1")),
        "s-maxage=1, max-age=invalid, public"
    );
    let all = "must-revalidate, no-store, no-cache, private, max-age=invalid, s-maxage=invalid, \
               proxy-revalidate, must-understand, public";
    assert_eq!(of(written::<CacheRules>(all)), all);
    assert_eq!(written::<CacheRules>(""), Err(Error::Empty));
    let mut rules: CacheRules = "max-age=60".parse().unwrap();
    rules.invalid_max_age = true; // beside a valid one, which then has no effect
    let read: CacheRules = rules.to_string().parse().unwrap();
    let decided = |rules: CacheRules| rules.decide(Cache::Shared, Response::default());
    assert_eq!(decided(rules), decided(read));
    assert_eq!(decided(rules).cause, Some(Cause::InvalidMaxAge));
    assert_eq!(refused::<CacheRules>("max-age=60,").offset, 11);
    assert_eq!(of(written::<Path>("a; hit,\"b\"")), "a;hit, \"b\"");
}

/// Many entries at once: a key stays where it first is, with its last value, as one by one.
#[test]
fn many_entries() {
    let key = |number: usize| Key::new(format!("k{}", number % 20)).unwrap();
    let all: Dictionary = (0..60).map(|number| (key(number), number as i32)).collect();
    let names: Vec<String> = (0..20).map(|number| format!("k{number}")).collect();
    assert!(all.keys().eq(names.iter().map(String::as_str)));
    let values = all.values().map(|value| value.as_item().unwrap());
    assert!(values
        .map(|item| item.bare_item.as_integer())
        .eq((40..60).map(Some)));

    // Few are put one by one, and many at once: the same for each number of them.
    for count in 0..24 {
        let key = |number: usize| Key::new(format!("k{}", number * 7 % 11)).unwrap();
        let mut singly = Dictionary::new();
        for number in 0..count {
            singly.insert(key(number), number as i32).unwrap();
        }
        let at_once: Dictionary = (0..count)
            .map(|number| (key(number), number as i32))
            .collect();
        assert_eq!(at_once, singly);
    }

    let mut one = Dictionary::new();
    one.insert("k3", true).unwrap();
    one.insert("z", true).unwrap();
    one.extend((0..60).map(|number| (key(number), number as i32)));
    let firsts: Vec<&str> = one.keys().take(4).map(|key| key.as_str()).collect();
    assert_eq!(firsts, ["k3", "z", "k0", "k1"]);
    assert_eq!((one.len(), &one["k3"]), (21, &ListEntry::from(43)));
    assert_eq!(one["z"], ListEntry::from(true));
}
