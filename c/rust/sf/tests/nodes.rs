//! Values as nodes and as events, and what is borrowed from a text.

use sf::{
    BareItem, BareItemFromInput, Error, Event, GenericBareItem, KeyRef, Kind, Parser, RefBareItem,
    Seed, Space, View,
};
use std::borrow::Cow;
use std::ops::ControlFlow;

// An event as a short text.
fn told(event: Event<'_>) -> String {
    let named = |key: Option<&KeyRef>| key.map_or(String::new(), |key| format!("{key}="));
    match event {
        Event::Item { key, value } => format!("{}{value}", named(key)),
        Event::InnerListStart { key } => format!("{}(", named(key)),
        Event::InnerItem { value } => format!("{value}"),
        Event::InnerListEnd => ")".to_string(),
        Event::Parameter { key, value } => format!(";{key}={value}"),
    }
}

#[test]
fn events_are_in_the_order_of_the_text() {
    for (kind, text, expected) in [
        (Kind::Item, "a;b;c=1", &["a", ";b=?1", ";c=1"][..]),
        (Kind::List, "", &[]),
        (Kind::List, "(), 1", &["(", ")", "1"]),
        (Kind::List, "();a, ()", &["(", ")", ";a=?1", "(", ")"]),
        (
            Kind::List,
            "(a;x b);y;z, (c)",
            &["(", "a", ";x=?1", "b", ")", ";y=?1", ";z=?1", "(", "c", ")"],
        ),
        (
            Kind::Dict,
            "a=(1 2;p), b;q=\"\\\"\", c=3",
            &["a=(", "1", "2", ";p=?1", ")", "b=?1", ";q=\"\\\"\"", "c=3"],
        ),
        // Of a repeated key the last value, at the first place (RFC 9651 section 4.2.2).
        (Kind::Dict, "a=1, b=2, a=3", &["a=3", "b=2"]),
    ] {
        let tree = Parser::new().tree(kind, text).unwrap();
        assert_eq!(
            tree.events().map(told).collect::<Vec<_>>(),
            expected,
            "{text}"
        );
        let mut visited = Vec::new();
        let end = Parser::new().visit(kind, text, |event| {
            visited.push(told(event));
            ControlFlow::<()>::Continue(())
        });
        assert_eq!(
            (end, visited),
            (Ok(None), tree.events().map(told).collect())
        );
    }
    let long = vec!["a;b"; 1000].join(",");
    let mut count = 0;
    let end = Parser::new().visit(Kind::List, long, |_| {
        count += 1;
        if count < 100 {
            ControlFlow::Continue(())
        } else {
            ControlFlow::Break("enough")
        }
    });
    assert_eq!((end, count), (Ok(Some("enough")), 100));
    let refused = Parser::new().visit(Kind::List, "a, b c", |_| -> ControlFlow<()> {
        panic!("an event of a malformed text")
    });
    assert_eq!(refused.unwrap_err().refusal().unwrap().offset, 5);
}

#[test]
fn a_view_is_in_space_of_the_caller() {
    let parser = Parser::seeded(Seed::from_bytes([7; 16]));
    let text = "a=(b c), d=:YQ==:";
    let mut space = Space::<4, 8>::new();
    let view = parser.view(Kind::Dict, text, &mut space).unwrap();
    assert_eq!(view.members().count(), 2);
    let d = view.get("d").unwrap();
    assert_eq!(d.bare_item(), Some(RefBareItem::ByteSequence(b"a")));
    assert_eq!(view.get("a").unwrap().items().count(), 2);
    assert_eq!(view.to_string(), "a=(b c), d=:YQ==:");
    assert_eq!(view.kind(), Kind::Dict);
    let mut space = Space::<3, 8>::new();
    let error = parser.view(Kind::Dict, text, &mut space);
    assert!(matches!(error, Err(Error::TooSmall { nodes: 4, .. })));
    let mut space = Space::<4, 0>::new();
    let error = parser.view(Kind::Dict, text, &mut space);
    assert!(matches!(
        error,
        Err(Error::TooSmall {
            nodes: 4,
            bytes: 1..=8
        })
    ));
    let error = Error::TooSmall { nodes: 4, bytes: 1 };
    assert_eq!(
        error.to_string(),
        "space for 4 nodes and 1 bytes is required"
    );
    let (mut one, mut two) = (Space::<8, 8>::new(), Space::<8, 8>::new());
    let one: View<'_, '_> = parser.view(Kind::List, "a ,:YQ:", &mut one).unwrap();
    let two = parser.view(Kind::List, "a,:YQ==:", &mut two).unwrap();
    assert_eq!(one, two);
}

#[test]
fn a_text_is_normalised_into_a_buffer() {
    let parser = Parser::new();
    let mut buffer = [0; 6];
    let text = parser.normalise_into(Kind::Dict, "u=1,  i=?1", &mut buffer);
    assert_eq!(text, Ok("u=1, i"));
    let short = parser.normalise_into(Kind::Dict, "u=1,  i=?1", &mut buffer[..5]);
    assert_eq!(short, Err(Error::TooSmall { nodes: 0, bytes: 6 }));
    let refused = parser.normalise_into(Kind::Dict, "u=", &mut buffer);
    assert_eq!(refused.unwrap_err().refusal().unwrap().offset, 2);
}

// Values that live as long as the text, of a tree that is gone.
fn values(text: &str) -> Vec<(Cow<'_, KeyRef>, BareItemFromInput<'_>)> {
    let tree = Parser::new().tree(Kind::Dict, text).unwrap();
    let mut values = Vec::new();
    for member in tree.members() {
        let value = member.bare_item_from_input().unwrap().unwrap();
        values.push((member.key_from_input().unwrap(), value));
    }
    values
}

#[test]
fn values_outlive_the_tree() {
    let text = String::from(
        "s=\"plain\", e=\"a\\\"b\", t=tok, b=:YQ==:, d=%\"ok\", f=%\"f%c3%bc\", n=1, z=:: , q=1.5, o=?0, w=@7",
    );
    let values = values(&text);
    let keys: Vec<_> = values.iter().map(|(key, _)| key.as_str()).collect();
    assert_eq!(
        keys,
        ["s", "e", "t", "b", "d", "f", "n", "z", "q", "o", "w"]
    );
    let within = |part: &str| text.as_bytes().as_ptr_range().contains(&part.as_ptr());
    assert!(values.iter().all(|(key, _)| within(key)));
    let borrowed: Vec<_> = values
        .iter()
        .map(|(_, value)| match value {
            GenericBareItem::String(Cow::Borrowed(text)) => within(text),
            GenericBareItem::Token(Cow::Borrowed(text)) => within(text),
            _ => false,
        })
        .collect();
    assert_eq!(
        borrowed,
        [true, false, true, false, false, false, false, false, false, false, false]
    );
    assert_eq!(values[1].1.as_string(), Some("a\"b"));
    assert_eq!(values[3].1.as_byte_sequence(), Some(&b"a"[..]));
    assert_eq!(values[5].1.as_display_string(), Some("f\u{fc}"));
    assert_eq!(values[7].1.as_byte_sequence(), Some(&b""[..]));
    let owned: Vec<BareItem> = values.into_iter().map(|(_, value)| value.into()).collect();
    let texts: Vec<_> = owned.iter().map(ToString::to_string).collect();
    assert_eq!(
        texts,
        [
            "\"plain\"",
            "\"a\\\"b\"",
            "tok",
            ":YQ==:",
            "%\"ok\"",
            "%\"f%c3%bc\"",
            "1",
            "::",
            "1.5",
            "?0",
            "@7"
        ]
    );
    let tree = Parser::new().tree(Kind::List, "(a)").unwrap();
    assert_eq!(
        tree.members().next().unwrap().bare_item_from_input(),
        Ok(None)
    );
}
