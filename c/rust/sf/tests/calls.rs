//! The crate from outside: what each call returns.

use sf::{
    check, equal, join, normalise, BareItem, Date, Decimal, Dialect, Dictionary, Error, InnerList,
    Integer, Item, Key, Kind, List, ListEntry, Name, Parameters, Parser, Path, RefBareItem,
    Refusal, Role, Seed, StringRef, Token, TokenRef,
};

fn old() -> Parser {
    Parser::new().with_dialect(Dialect::Rfc8941)
}

#[allow(clippy::needless_pass_by_value)]
fn refusal<T>(result: Result<T, Error>) -> Refusal {
    match result {
        Err(Error::Refused(refusal)) => refusal,
        Err(error) => panic!("{error}"),
        Ok(_) => panic!("accepted"),
    }
}

#[test]
fn a_text_is_refused_at_its_offset() {
    let refused = refusal(check(Kind::Item, "1 2"));
    assert_eq!((refused.offset, refused.found), (2, Some(b'2')));
    assert_eq!((refused.expected, refused.may_end), (1 << b' ', true));
    assert!(refused.expects(b' ') && !refused.expects(b'2') && !refused.expects(0xff));

    let ended = refusal(check(Kind::Item, "1."));
    let digits = (b'0'..=b'9').fold(0, |set, digit| set | 1u128 << digit);
    assert_eq!((ended.offset, ended.found), (2, None));
    assert_eq!((ended.expected, ended.may_end), (digits, false));

    assert_eq!(check(Kind::Item, "@1"), Ok(()));
    assert!(old().check(Kind::Item, "@1").is_err());
    assert!(check(Kind::Item, b"\xff").is_err());
}

#[test]
fn a_refusal_is_shown() {
    let shown = |kind, text: &str| refusal(check(kind, text)).in_text(text).to_string();
    assert_eq!(
        shown(Kind::Item, "1 2"),
        "byte 0x32 '2' at place 2, expected a space or the end\nline 1, place 2:\n1 2\n  ^"
    );
    assert_eq!(
        shown(Kind::Item, "1."),
        "the text ended at place 2, expected a digit\nline 1, place 2:\n1.\n  ^"
    );
    // A text that is not the one that was refused.
    let other = refusal(check(Kind::Item, "1 2")).in_text("").to_string();
    assert!(other.ends_with("\n\n^"));
    let message = refusal(check(Kind::Item, "1 2")).to_string();
    assert_eq!(
        message,
        "byte 0x32 '2' at place 2, expected a space or the end"
    );
    // Longer than the first buffer.
    let long = format!("\"{}\" 1", "a".repeat(1000));
    assert!(shown(Kind::Item, &long).contains(&long));
    // A place that is wider than a format can pad.
    let long = format!("1{}2", " ".repeat(70_000));
    let refused = refusal(check(Kind::Item, &long));
    let excerpt = refused.excerpt(&long, 200_000).to_string();
    assert_eq!(excerpt.lines().last().map(str::len), Some(70_002));
}

#[test]
fn texts_are_normalised_and_compared() {
    assert_eq!(
        normalise(Kind::List, ":YQ:,:YQ:").unwrap(),
        ":YQ==:, :YQ==:"
    );
    assert_eq!(normalise(Kind::List, "").unwrap(), "");
    assert_eq!(equal(Kind::Dict, "u=1,i", "u=1, i=?1"), Ok(true));
    assert_eq!(equal(Kind::Dict, "a=1, b=2", "b=2, a=1"), Ok(false));
    let second = equal(Kind::Item, "a", "a,");
    assert!(matches!(second, Err(Error::SecondRefused(refusal)) if refusal.offset == 1));
}

#[test]
fn a_dialect_is_chosen() {
    let new = Parser::new().with_seed(Seed::from_bytes(*b"sixteen bytes of"));
    assert_eq!(new.normalise(Kind::Item, "@01").unwrap(), "@1");
    assert_eq!(old().normalise(Kind::Item, "01").unwrap(), "1");
    let refused = refusal(old().normalise(Kind::Item, "@01"));
    assert_eq!((refused.offset, refused.found), (0, Some(b'@')));
    assert_eq!(new.equal(Kind::List, "@1", "@01"), Ok(true));
    assert_eq!(old().equal(Kind::List, "1", "01"), Ok(true));
    assert!(matches!(
        old().equal(Kind::List, "1", "1, @1"),
        Err(Error::SecondRefused(refusal)) if refusal.offset == 3
    ));
    let text = "a=%\"b\"";
    assert!(new.parse::<Dictionary>(text).is_ok());
    assert_eq!(refusal(old().parse::<Dictionary>(text)).offset, 2);
    assert_eq!(refusal(old().tree(Kind::Dict, text)).offset, 2);
}

#[test]
fn an_error_has_a_message() {
    let message = |error: Error| error.to_string();
    assert_eq!(
        message(check(Kind::Item, "1 2").unwrap_err()),
        "byte 0x32 '2' at place 2, expected a space or the end"
    );
    assert!(message(equal(Kind::Item, "1", "").unwrap_err())
        .starts_with("the second text: the text ended at place 0, expected "));
    assert_eq!(
        message(Path::parse("7").unwrap_err()),
        "member 0 does not name a cache, expected a Token or a String"
    );
    // What is after the name of a file, such as `a.txt: out of memory`.
    for (error, expected) in [
        (Error::OtherType, "the value is of another type"),
        (Error::Empty, "the field has no members"),
        (Error::Invalid, "the value is out of range or not allowed"),
        (Error::TooLong, "the text or the value has 4 GiB or more"),
        (
            Error::TooSmall { nodes: 3, bytes: 5 },
            "space for 3 nodes and 5 bytes is required",
        ),
        (Error::OutOfMemory, "out of memory"),
        (
            Error::OtherLibrary,
            "libsf has another version than the crate sf",
        ),
    ] {
        assert_eq!(message(error), expected);
    }
    let boxed: Box<dyn std::error::Error + Send + Sync> = Error::OutOfMemory.into();
    assert_eq!(boxed.to_string(), "out of memory");
}

#[test]
fn lines_are_joined() {
    assert_eq!(join([] as [&str; 0]).unwrap(), b"");
    assert_eq!(join([""]).unwrap(), b"");
    assert_eq!(join(["", ""]).unwrap(), b", ");
    assert_eq!(join(["a;q=1.0,b", "(c  d)"]).unwrap(), b"a;q=1.0,b, (c  d)");
    let list = Parser::new().parse_lines::<List>(["a", "b, c"]).unwrap();
    assert_eq!(list.len(), 3);
    assert_eq!(list.to_string(), "a, b, c");
    let refused = refusal(Parser::new().parse_lines::<List>(["a", "b c"]));
    assert_eq!(refused.offset, 5);
    let none = Parser::new().parse_lines::<List>([] as [&str; 0]).unwrap();
    assert!(none.is_empty());
}

#[test]
fn each_type_is_read() {
    let text = "-2, 3.5, \"s\\\"\", t/*, :Yg==:, ?0, @-7, %\"%c3%bc\"";
    let list = List::parse(text).unwrap();
    let items: Vec<_> = list
        .iter()
        .filter_map(ListEntry::as_item)
        .map(|item| item.bare_item.clone())
        .collect();
    assert_eq!(
        items,
        [
            BareItem::Integer(Integer::from(-2)),
            BareItem::Decimal(Decimal::from_thousandths(3500).unwrap()),
            BareItem::String(sf::String::new("s\"").unwrap()),
            BareItem::Token(Token::new("t/*").unwrap()),
            BareItem::ByteSequence(b"b".to_vec()),
            BareItem::Boolean(false),
            BareItem::Date(Date::from_unix_seconds(-7).unwrap()),
            BareItem::DisplayString("\u{fc}".to_string()),
        ]
    );
    let text = format!("(1), {text}");
    let tree = Parser::new().tree(Kind::List, &text).unwrap();
    let types: Vec<_> = tree.members().map(|member| member.bare_item()).collect();
    assert_eq!(
        types,
        [
            None,
            Some(RefBareItem::Integer(Integer::from(-2))),
            Some(RefBareItem::Decimal(
                Decimal::from_thousandths(3500).unwrap()
            )),
            Some(RefBareItem::String(StringRef::constant("s\""))),
            Some(RefBareItem::Token(TokenRef::constant("t/*"))),
            Some(RefBareItem::ByteSequence(b"b")),
            Some(RefBareItem::Boolean(false)),
            Some(RefBareItem::Date(Date::from_unix_seconds(-7).unwrap())),
            Some(RefBareItem::DisplayString("\u{fc}")),
        ]
    );
}

#[test]
fn an_accessor_is_of_one_type() {
    let texts = ["1", "1.0", "\"a\"", "a", ":YQ==:", "?1", "@1", "%\"a\""];
    for (index, text) in texts.iter().enumerate() {
        let item = Item::parse(text).unwrap().bare_item;
        let is = [
            item.as_integer().is_some(),
            item.as_decimal().is_some(),
            item.as_string().is_some(),
            item.as_token().is_some(),
            item.as_byte_sequence().is_some(),
            item.as_boolean().is_some(),
            item.as_date().is_some(),
            item.as_display_string().is_some(),
        ];
        let expected: Vec<_> = (0..8).map(|number| number == index).collect();
        assert_eq!(is[..], expected[..], "{text}");
    }
}

#[test]
fn a_dictionary_is_read() {
    let field = Dictionary::parse("a=1,b;x, a=(1  2;z );y=:YQ:").unwrap();
    let keys: Vec<_> = field.iter().map(|(key, _)| key).collect();
    assert_eq!(keys, ["a", "b"]);
    let inner = field.get("a").and_then(ListEntry::as_inner_list).unwrap();
    let numbers: Vec<_> = inner
        .items
        .iter()
        .map(|item| item.bare_item.as_integer())
        .collect();
    assert_eq!(numbers, [Some(1), Some(2)]);
    assert_eq!(inner.items[1].params.len(), 1);
    assert_eq!(
        inner.params.get("y").and_then(BareItem::as_byte_sequence),
        Some(&b"a"[..])
    );
    let b = field.get("b").unwrap();
    assert_eq!(b.as_item().unwrap().bare_item, BareItem::Boolean(true));
    assert!(b.as_inner_list().is_none());
    assert_eq!(b.params().get("x"), Some(&BareItem::Boolean(true)));
    assert_eq!(b.params().get("y"), None);
    assert!(field.get("c").is_none());
    assert!(Dictionary::parse("").unwrap().is_empty());
    assert_eq!(field.to_string(), "a=(1 2;z);y=:YQ==:, b;x");
    assert_eq!(format!("{:>6}|", Item::parse("a; b").unwrap()), "   a;b|");
}

#[test]
fn fields_are_compared_and_cloned() {
    let field = Dictionary::parse("u=1,i").unwrap();
    assert_eq!(field, Dictionary::parse("u=1,  i=?1").unwrap());
    assert_ne!(field, Dictionary::parse("i, u=1").unwrap());
    assert_eq!(field.clone(), field);
    assert_ne!(Item::parse("a").unwrap(), Item::parse("\"a\"").unwrap());
    assert_ne!(Item::parse("1").unwrap(), Item::parse("1.0").unwrap());
    let parsed: Item = "1".parse().unwrap();
    assert_eq!(parsed, Item::parse(" 1 ").unwrap());
    assert!("1 2".parse::<Item>().is_err());
    let dict = |text| Parser::new().tree(Kind::Dict, text).unwrap();
    assert_eq!(dict("u=1,i"), dict("u=1,  i=?1"));
    assert_eq!(dict("u=1,i"), dict("u=2,  i=?1, u=1"));
    assert_ne!(dict("u=1,i"), dict("u=2,i"));
    assert_ne!(dict("u=1,i"), dict("u=1"));
    assert_ne!(dict("u=1,i"), dict("u=1,j"));
    assert_ne!(dict("u=a"), dict("u=\"a\""));
    let list = |text| Parser::new().tree(Kind::List, text).unwrap();
    assert_eq!(list("\"a\""), list(" \"a\" "));
    assert_eq!(list("\"a\\\"\", :YQ:"), list("\"a\\\"\",:YQ==:"));
    assert_ne!(list("a;b, c"), list("a, c;b"));
    assert_ne!(list("(a;b)"), list("(a);b"));
    assert_ne!(list("\"a\\\"\""), list("\"b\\\"\""));
}

#[test]
fn a_field_is_built() {
    let text = |text: &str| sf::String::new(text).unwrap();
    let covered = InnerList::new([text("@method"), text("@path")])
        .with_param("created", 1)
        .unwrap()
        .with_param("keyid", text("k"))
        .unwrap();
    let mut field = Dictionary::new();
    assert_eq!(field.insert("sig1", covered), Ok(None));
    let expected = "sig1=(\"@method\" \"@path\");created=1;keyid=\"k\"";
    assert_eq!(field.to_string(), expected);
    assert_eq!(field, Dictionary::parse(expected).unwrap());

    let items: [BareItem; 11] = [
        7.into(),
        Integer::new(-999_999_999_999_999).unwrap().into(),
        Decimal::from_thousandths(-500).unwrap().into(),
        text("a\"b\\").into(),
        Token::new("*a/b:c").unwrap().into(),
        b"a".to_vec().into(),
        Vec::new().into(),
        true.into(),
        false.into(),
        Date::from_unix_seconds(1_659_578_233).unwrap().into(),
        BareItem::DisplayString("f\u{fc}\0".to_string()),
    ];
    let list: List = items.iter().cloned().collect();
    let expected = "7, -999999999999999, -0.5, \"a\\\"b\\\\\", *a/b:c, :YQ==:, ::, ?1, ?0, \
                    @1659578233, %\"f%c3%bc%00\"";
    assert_eq!(list.to_string(), expected);
    assert_eq!(list, List::parse(expected).unwrap());
    for (item, member) in items.iter().zip(expected.split(", ")) {
        assert_eq!(item.to_string(), member);
        assert_eq!(Item::new(item.clone()).to_string(), member);
        assert_eq!(ListEntry::from(item.clone()).to_string(), member);
    }

    let mut item = Item::new(Token::new("t").unwrap());
    for (key, value) in ["a", "*b", "c_-.*9"].iter().zip(items) {
        item = item.with_param(*key, value).unwrap();
    }
    assert_eq!(item.to_string(), "t;a=7;*b=-999999999999999;c_-.*9=-0.5");
    let inner: InnerList = [item.clone(), Item::new(true)].into_iter().collect();
    let inner = inner.with_param("a", true).unwrap();
    let expected = "(t;a=7;*b=-999999999999999;c_-.*9=-0.5 ?1);a";
    assert_eq!(inner.to_string(), expected);
    let list: List = [
        ListEntry::from(inner),
        InnerList::default().into(),
        item.into(),
    ]
    .into_iter()
    .collect();
    assert_eq!(
        list.to_string(),
        format!("{expected}, (), t;a=7;*b=-999999999999999;c_-.*9=-0.5")
    );
    assert_eq!(List::new().to_string(), "");
    assert_eq!(Dictionary::new().to_string(), "");
    assert_eq!(format!("{:>4}|", List::new()), "    |");
}

#[test]
fn a_parsed_field_is_changed() {
    let mut field = Dictionary::parse("a=1,  b=(x \"y\\\"\");z, c;q=0.5").unwrap();
    let was = field.insert("a", Token::new("t").unwrap()).unwrap();
    assert_eq!(was, Some(ListEntry::from(1)));
    assert_eq!(field.insert(String::from("d"), false), Ok(None));
    assert_eq!(field.insert(Key::new("e").unwrap(), 5_u8), Ok(None));
    assert_eq!(field.remove("x"), None);
    let inner = match field.get_mut("b") {
        Some(ListEntry::InnerList(inner)) => inner,
        other => panic!("{other:?}"),
    };
    inner.items.remove(0);
    inner.items.push(Item::new(2));
    inner.params.insert("z", 3).unwrap();
    let c = field.get_mut("c").unwrap();
    assert_eq!(
        c.params_mut().remove("q"),
        Some(Decimal::from_thousandths(500).unwrap().into())
    );
    c.params_mut().insert("*r", true).unwrap();
    assert_eq!(
        field.to_string(),
        "a=t, b=(\"y\\\"\" 2);z=3, c;*r, d=?0, e=5"
    );
    assert_eq!(field.remove("b").unwrap().to_string(), "(\"y\\\"\" 2);z=3");
    assert_eq!(field.to_string(), "a=t, c;*r, d=?0, e=5");

    let mut list = List::parse("a, b").unwrap();
    list.insert(1, InnerList::new([1, 2]).into());
    list.swap(0, 2);
    for member in &mut list {
        member.params_mut().insert("n", 1).unwrap();
    }
    assert_eq!(list.to_string(), "b;n=1, (1 2);n=1, a;n=1");

    let key = |key: &str| Key::new(key).unwrap();
    let mut params: Parameters = [(key("a"), 1), (key("b"), 2), (key("a"), 3)]
        .into_iter()
        .collect();
    assert_eq!(params.len(), 2);
    params.extend([(key("c"), true), (key("b"), false)]);
    let item = Item {
        bare_item: 0.into(),
        params,
    };
    assert_eq!(item.to_string(), "0;a=3;b=?0;c");
    let dict: Dictionary = item
        .params
        .into_iter()
        .map(|(key, value)| (key, Item::new(value)))
        .collect();
    assert_eq!(dict.to_string(), "a=3, b=?0, c");
}

// Every text of one character, and of two of ASCII: it is a key, a Token or the text of a String if
// and only if the library has it as one.
#[test]
fn what_is_checked_is_what_the_library_accepts() {
    let mut counts = [0; 3];
    let mut compare = |text: &str| {
        let of = |kind: Kind, field: &str, canonical: &str| {
            normalise(kind, field).map_or(false, |found| found == canonical)
        };
        let dict = format!("{text}=1");
        let quoted = format!("\"{}\"", text.replace('\\', "\\\\").replace('"', "\\\""));
        let is_key = of(Kind::Dict, &dict, &dict);
        let is_token =
            matches!(Item::parse(text), Ok(item) if item.bare_item.as_token() == Some(text));
        let is_text = of(Kind::Item, &quoted, &quoted);
        assert_eq!(Key::new(text).is_ok(), is_key, "{text:?}");
        assert_eq!(Token::new(text).is_ok(), is_token, "{text:?}");
        assert_eq!(sf::String::new(text).is_ok(), is_text, "{text:?}");
        for (count, is) in counts.iter_mut().zip([is_key, is_token, is_text]) {
            *count += i32::from(is);
        }
        if let Ok(key) = Key::new(text) {
            let field: Dictionary = [(key, 1)].into_iter().collect();
            assert_eq!(field.to_string(), dict);
        }
        if let Ok(token) = Token::new(text) {
            assert_eq!(Item::new(token).to_string(), text);
        }
        if let Ok(it) = sf::String::new(text) {
            assert_eq!(Item::new(it).to_string(), quoted);
        }
    };
    compare("");
    for first in (0..=0x2ff).filter_map(char::from_u32) {
        compare(&first.to_string());
    }
    for first in 0..128_u8 {
        for second in 0..128_u8 {
            compare(std::str::from_utf8(&[first, second]).unwrap());
        }
    }
    // Of one byte 27, 53 and 95; of two these times 40, 79 and 95; and the empty String.
    assert_eq!(counts, [27 * 41, 53 * 80, 95 * 96 + 1]);
}

#[test]
fn a_number_is_in_range() {
    let most = 999_999_999_999_999;
    for number in [most, -most, 0] {
        assert!(Integer::new(number).is_ok() && Date::from_unix_seconds(number).is_ok());
        assert!(Decimal::from_thousandths(number).is_ok());
        assert_eq!(
            Item::new(Integer::new(number).unwrap()).to_string(),
            number.to_string()
        );
    }
    for number in [most + 1, -most - 1, i64::MAX, i64::MIN] {
        assert_eq!(Integer::new(number), Err(Error::Invalid));
        assert_eq!(Date::from_unix_seconds(number), Err(Error::Invalid));
        assert_eq!(Decimal::from_thousandths(number), Err(Error::Invalid));
    }
    assert_eq!(Integer::try_from(7_usize).map(Integer::get), Ok(7));
    assert!(Integer::try_from(u64::MAX).is_err() && Integer::try_from(i128::MIN).is_err());
    let most = Decimal::from_thousandths(most).unwrap();
    assert_eq!(Item::new(most).to_string(), "999999999999.999");
}

#[test]
fn a_field_is_written_in_a_dialect() {
    let mut list: List = [1, 2].into_iter().collect();
    assert_eq!(old().serialize(&list).unwrap(), "1, 2");
    list.push(Date::from_unix_seconds(1).unwrap().into());
    assert_eq!(old().serialize(&list), Err(Error::Invalid));
    assert_eq!(Parser::new().serialize(&list).unwrap(), "1, 2, @1");
}

#[test]
fn a_tree_is_written_and_borrows_its_text() {
    for (kind, text, canonical) in [
        (Kind::Item, " 1;a ", "1;a"),
        (Kind::List, "a ,\"b\\\"\",:YQ:", "a, \"b\\\"\", :YQ==:"),
        (Kind::Dict, "a=1, b=(c  d);e, a=2", "a=2, b=(c d);e"),
        (Kind::Dict, "", ""),
    ] {
        let tree = Parser::new().tree(kind, text).unwrap();
        assert_eq!(tree.to_string(), canonical);
        assert_eq!(tree, Parser::new().tree(kind, canonical).unwrap());
    }
    let text = "key=\"text\", t=token, e=\"\\\"\"";
    let tree = Parser::new().tree(Kind::Dict, text).unwrap();
    let within = |part: &str| text.as_bytes().as_ptr_range().contains(&part.as_ptr());
    let strings: Vec<_> = tree
        .members()
        .map(|member| match member.bare_item() {
            Some(RefBareItem::String(part)) => (within(member.key()), within(part)),
            Some(RefBareItem::Token(part)) => (within(member.key()), within(part)),
            other => panic!("{other:?}"),
        })
        .collect();
    assert_eq!(strings, [(true, true), (true, true), (true, false)]);
}

#[test]
fn a_tree_is_walked() {
    let tree = Parser::new()
        .tree(Kind::Dict, "a=1,b;x, a=(1  2 );y=:YQ:")
        .unwrap();
    let members: Vec<_> = tree.members().collect();
    assert_eq!(members.len(), 2);
    assert_eq!(
        (members[0].key().as_str(), members[0].role()),
        ("a", Role::Member)
    );
    assert_eq!(members[0].bare_item(), None);
    assert!(members[0].is_inner_list() && !members[1].is_inner_list());
    let inside: Vec<_> = members[0]
        .children()
        .map(|child| (child.role(), child.key().as_str(), child.bare_item()))
        .collect();
    assert_eq!(
        inside,
        [
            (Role::InnerItem, "", Some(1.into())),
            (Role::InnerItem, "", Some(2.into())),
            (Role::Parameter, "y", Some(RefBareItem::ByteSequence(b"a"))),
        ]
    );
    assert_eq!(members[0].param("y"), Some(RefBareItem::ByteSequence(b"a")));
    assert_eq!(members[1].bare_item(), Some(true.into()));
    assert_eq!(members[1].children().count(), 1);
    assert!(tree.get("b").is_some() && tree.get("x").is_none());
    let empty = Parser::new().tree(Kind::List, "").unwrap();
    assert_eq!(empty.members().count(), 0);
}

// With more nodes than the first call has space for.
#[test]
fn a_text_of_many_nodes_is_parsed() {
    let text = vec!["1"; 1000].join(",");
    assert_eq!(List::parse(&text).unwrap().len(), 1000);
    let text = vec!["%\"%c3%bc\""; 1000].join(",");
    assert_eq!(List::parse(&text).unwrap().len(), 1000);
    let text = vec!["a"; 1000].join(",");
    let path = Path::parse(&text).unwrap();
    assert_eq!(path.hops().len(), 1000);
    assert!(path.hops().all(|hop| hop.name == Name::token("a").unwrap()));
}

#[test]
fn values_are_shown() {
    let tree = Parser::new().tree(Kind::Item, "1;a").unwrap();
    assert_eq!(
        format!("{tree:?}"),
        "Tree([Node { role: Member, key: \"\", bare_item: Some(Integer(Integer(1))), children: [Node { \
         role: Parameter, key: \"a\", bare_item: Some(Boolean(true)), children: [] }] }])"
    );
    assert_eq!(
        format!("{:?}", Path::parse("a;hit").unwrap()),
        "Path { hops: [Hop { name: Token(TokenRef(\"a\")), outcome: Hit, ttl: None, key: None, \
         detail: None }], served_by: Some(0) }"
    );
    assert_eq!(format!("{:?}", Seed::from_bytes([7; 16])), "Seed(..)");
}
