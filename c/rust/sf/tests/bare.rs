//! What the crate has without `std` and without `alloc`: what writes to the caller's memory. These
//! tests run with any features: `cargo test --no-default-features --test bare`.

use sf::{
    Choice, Decimal, Error, Event, KeyRef, Kind, Parser, Priority, RefBareItem, Seed, Space,
    StringRef, TokenRef, Urgency,
};
use std::ops::ControlFlow;

fn parser() -> Parser {
    Parser::seeded(Seed::from_bytes(*b"sixteen bytes of"))
}

#[test]
fn texts_are_checked_and_compared() {
    let parser = parser();
    assert_eq!(parser.check(Kind::Dict, "u=1, i"), Ok(()));
    let refusal = parser
        .check(Kind::Item, "1 2")
        .unwrap_err()
        .refusal()
        .unwrap();
    assert_eq!((refusal.offset, refusal.found), (2, Some(b'2')));
    let error: Box<dyn std::error::Error> = Box::new(Error::Refused(refusal));
    assert_eq!(
        error.to_string(),
        "byte 0x32 '2' at place 2, expected a space or the end"
    );
    assert_eq!(parser.equal(Kind::Dict, "u=1,i", "u=1, i=?1"), Ok(true));
    let mut buffer = [0; 16];
    let canonical = parser.normalise_into(Kind::List, ":YQ:,a", &mut buffer);
    assert_eq!(canonical, Ok(":YQ==:, a"));
}

#[test]
fn values_are_nodes_and_events() {
    let mut space = Space::<8, 8>::new();
    let view = parser()
        .view(Kind::Dict, "a=(1 \"\\\"\");x, b=t", &mut space)
        .unwrap();
    let inner = view.get("a").unwrap();
    assert_eq!(inner.items().count(), 2);
    assert_eq!(inner.param("x"), Some(true.into()));
    assert_eq!(
        inner
            .items()
            .nth(1)
            .unwrap()
            .bare_item()
            .unwrap()
            .as_string(),
        Some("\"")
    );
    let token = RefBareItem::Token(TokenRef::constant("t"));
    assert_eq!(view.get("b").unwrap().bare_item(), Some(token));
    assert_eq!(view.events().count(), 6);
    let sum = parser().visit(Kind::List, "1, 2, a", |event| match event {
        Event::Item { value, .. } if value.as_token().is_some() => ControlFlow::Break("token"),
        _ => ControlFlow::Continue(()),
    });
    assert_eq!(sum, Ok(Some("token")));
}

#[test]
fn fields_are_interpreted() {
    let parser = parser();
    let client = parser.priority("u=5, i").unwrap();
    let merged = client.merged_with(parser.response_priority("u=1").unwrap());
    assert_eq!(merged.urgency(), Urgency::new(1).unwrap());
    assert_eq!(merged.to_string(), "u=1, i");
    assert_eq!(Priority::default().to_string(), "");
    let policy = parser.policy("s-maxage=90").unwrap().unwrap();
    assert_eq!(policy.lifetime(true), Some(90.into()));
    let choice = parser.select(["max-age=60,", "", "max-age=600"]).unwrap();
    assert_eq!(choice.index(), Some(2));
    assert_eq!(parser.select([""; 2]), Ok(Choice::Fallback));
}

#[test]
fn parts_are_checked() {
    const KEY: &KeyRef = KeyRef::constant("max-age");
    assert_eq!(KEY, "max-age");
    assert_eq!(
        TokenRef::new("a b").unwrap_err().refusal().unwrap().offset,
        1
    );
    assert!(StringRef::new("f\u{fc}").is_err());
    assert_eq!(
        Decimal::round_half_even(0.0625).unwrap().to_string(),
        "0.062"
    );
    assert_eq!(RefBareItem::try_from(7_i64), Ok(7.into()));
}

#[cfg(feature = "alloc")]
#[test]
fn values_are_built_and_written_with_a_seed() {
    let parser = parser();
    let mut dict: sf::Dictionary = parser.parse("a=1,  b=(x y)").unwrap();
    dict.insert("c", TokenRef::constant("t")).unwrap();
    assert_eq!(parser.serialize(&dict).unwrap(), "a=1, b=(x y), c=t");
    let tree = parser.tree(Kind::List, "a ,b").unwrap();
    assert_eq!(parser.serialize_view(tree.view()).unwrap(), "a, b");
    assert_eq!(parser.normalise(Kind::Item, "01").unwrap(), "1");
    let path = parser.path("a;hit").unwrap();
    let hop = path.hops().next().unwrap();
    assert_eq!(parser.serialize_hop(&hop).unwrap(), "a;hit");
    let urgent = parser.priority("u=0").unwrap();
    assert_eq!(parser.change_priority(urgent, "u=5, x").unwrap(), "u=0, x");
    assert_eq!(parser.bare_item("tea").unwrap().as_token(), Some("tea"));
    let appended = parser.append_or_replace_hop(&hop, ["b;;"]).unwrap();
    assert_eq!(
        (appended.as_str(), appended.refusal().unwrap().offset),
        ("a;hit", 2)
    );
    let exchange = sf::Exchange::at(sf::Cache::Private, 784_111_777).with_status(200);
    let head = [("CDN-Cache-Control", "max-age=60"), ("Age", "20")];
    let verdict = parser
        .decide(&exchange, &["CDN-Cache-Control"], head)
        .unwrap();
    assert_eq!(
        verdict.to_string(),
        "CDN-Cache-Control: fresh for 40 s (max-age); may be stored"
    );
    assert_eq!(sf::field_text(head, "age").unwrap(), b"20");
}

#[test]
fn the_fallback_is_read() {
    let mut fallback = sf::Fallback::new();
    fallback.add_cache_control("max-age=60, x=");
    fallback.add_expires("Sun, 06 Nov 1994 08:50:37 GMT");
    assert_eq!(fallback.expires().seconds(), Some(784_111_837));
    let refused = fallback.refusal().unwrap();
    assert_eq!((refused.line, refused.refusal.offset), (0, 14));
}
