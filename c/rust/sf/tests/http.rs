//! Fields in and out of heads. Needs the feature `http`.
#![cfg(feature = "http")]

use http::header::{HeaderMap, HeaderName, HeaderValue};
use sf::{
    Cache, Dialect, Dictionary, Error, Exchange, Fallback, Forward, Forwarded, Hop, Item, List,
    Parser, Path, Policy, Priority, ResponsePriority, TokenRef,
};

fn head(lines: &[(&'static str, &'static str)]) -> HeaderMap {
    let mut headers = HeaderMap::new();
    for (name, value) in lines {
        headers.append(*name, HeaderValue::from_static(value));
    }
    headers
}

#[test]
fn white_space_around_a_value_is_no_part_of_it() {
    let headers = head(&[("priority", "\tu=5"), ("priority", " i \t"), ("a", "\t1\t")]);
    let client = Priority::from_headers(&headers).unwrap();
    assert_eq!(client.to_string(), "u=5, i");
    let item = Item::from_headers(&headers, "a").unwrap().unwrap();
    assert_eq!(item.to_string(), "1");
}

#[test]
fn the_priority_of_a_response_is_put() {
    let mut headers = head(&[("priority", "u=1, x"), ("priority", "i")]);
    let response = ResponsePriority::parse("u=3, i=?0").unwrap();
    response.put_into_headers(&mut headers).unwrap();
    assert_eq!(headers.get_all("priority").iter().count(), 1);
    assert_eq!(headers["priority"], "u=3, i=?0");
    let none = ResponsePriority::default();
    none.put_into_headers(&mut headers).unwrap();
    assert!(!headers.contains_key("priority"));
}

#[test]
fn a_head_is_read() {
    let headers = head(&[
        ("accept", "a;q=1, b"),
        ("accept", "c"),
        ("priority", "u=5"),
        ("priority", "i"),
        ("cache-status", "origin; fwd=miss"),
        ("cache-status", "edge; hit"),
        ("examplecdn-cache-control", "max-age=60,"),
        ("cdn-cache-control", "max-age=600"),
        ("bad", "a b"),
        ("empty", ""),
    ]);
    let list = List::from_headers(&headers, "accept").unwrap().unwrap();
    assert_eq!(list.to_string(), "a;q=1, b, c");
    assert_eq!(List::from_headers(&headers, "absent"), Ok(None));
    assert_eq!(List::from_headers(&headers, "empty"), Ok(Some(List::new())));
    let name = HeaderName::from_static("bad");
    let refused = Item::from_headers(&headers, &name).unwrap_err();
    assert_eq!(refused.refusal().unwrap().offset, 2);
    let dict = Parser::new()
        .header::<Dictionary>(&headers, "priority")
        .unwrap();
    assert_eq!(dict.unwrap().to_string(), "u=5, i");
    assert_eq!(
        Priority::from_headers(&headers).unwrap().to_string(),
        "u=5, i"
    );
    assert_eq!(
        Priority::from_headers(&HeaderMap::new()),
        Ok(Priority::default())
    );
    assert_eq!(Path::from_headers(&headers).unwrap().served_by(), Some(1));
    assert_eq!(Path::from_headers(&HeaderMap::new()), Ok(Path::default()));
    let targets = ["examplecdn-cache-control", "cdn-cache-control"];
    let choice = Policy::select_from_headers(&headers, targets).unwrap();
    assert_eq!(choice.index(), Some(1));
    assert_eq!(
        choice.policy().and_then(|policy| policy.max_age),
        Some(600.into())
    );
    let none = Policy::select_from_headers(&HeaderMap::new(), targets).unwrap();
    assert_eq!(none, sf::Choice::Fallback);
    let item = Item::try_from(&headers["cdn-cache-control"]);
    assert!(matches!(item, Err(Error::Refused(_))));
}

#[test]
fn a_cache_falls_back() {
    let headers = head(&[
        ("cache-control", "\tPublic"),
        ("expires", "Sun, 06 Nov 1994 08:50:37 GMT"),
        ("cache-control", "x=\"no-store\" "),
        ("date", " Sun, 06 Nov 1994 08:49:37 GMT"),
    ]);
    let fallback = Fallback::from_headers(&headers);
    assert_eq!(fallback.rules().to_string(), "public");
    assert_eq!(fallback.lifetime(0), Some(60));
    let none = Fallback::from_headers(&HeaderMap::new());
    assert_eq!((none, none.lifetime(0)), (Fallback::new(), None));
    let two = [("expires", "Sun"), ("expires", "06 Nov 1994 08:50:37 GMT")];
    assert_eq!(Fallback::from_headers(&head(&two)).lifetime(0), Some(0));
}

#[test]
fn a_head_is_written() {
    let mut headers = head(&[
        ("example", "old"),
        ("example", "lines"),
        ("priority", "x=1, u=1"),
    ]);
    let name = HeaderName::from_static("example");
    let mut dict: Dictionary = "u=1,i".parse().unwrap();
    dict.put_into_headers(&mut headers, name.clone()).unwrap();
    assert_eq!(
        headers.get_all("example").iter().collect::<Vec<_>>(),
        ["u=1, i"]
    );
    assert_eq!(HeaderValue::try_from(&dict).unwrap(), "u=1, i");
    dict.remove("u");
    dict.remove("i");
    dict.put_into_headers(&mut headers, name).unwrap();
    assert!(!headers.contains_key("example"));

    let priority: Priority = "u=3, i".parse().unwrap();
    priority.put_into_headers(&mut headers).unwrap();
    assert_eq!(headers["priority"], "x=1, u=3, i");
    let mut none = HeaderMap::new();
    Priority::default().put_into_headers(&mut none).unwrap();
    assert!(none.is_empty());

    let hop = Hop::new(TokenRef::constant("edge"))
        .with_outcome(Forwarded::new(Forward::UriMiss).with_stored(true));
    hop.append_to_headers(&mut headers).unwrap();
    hop.append_to_headers(&mut headers).unwrap();
    let lines: Vec<_> = headers.get_all("cache-status").iter().collect();
    assert_eq!(
        lines,
        ["edge;fwd=uri-miss;stored, edge;fwd=uri-miss;stored"]
    );
    assert_eq!(Path::from_headers(&headers).unwrap().hops().len(), 2);
    let mut malformed = head(&[("cache-status", "a;hit,")]);
    assert!(hop.append_to_headers(&mut malformed).is_err());
    assert_eq!(malformed["cache-status"], "a;hit,");
}

#[test]
fn a_head_is_decided_about() {
    let lines = [
        ("examplecdn-cache-control", "max-age=60, x=@1"),
        ("cdn-cache-control", "max-age=600,"),
        ("cache-control", "public"),
        ("expires", "Sun, 06 Nov 1994 08:50:37 GMT"),
        ("date", "Sun, 06 Nov 1994 08:49:37 GMT"),
        ("age", "20"),
    ];
    let targets = ["ExampleCDN-Cache-Control", "CDN-Cache-Control"];
    let exchange = Exchange::at(Cache::Shared, 784_111_777).with_status(200);
    for dialect in [Dialect::Rfc8941, Dialect::Rfc9651] {
        let verdict = exchange.decide_in(dialect, &targets, &lines).unwrap();
        let of_map = exchange.decide_in(dialect, &targets, &head(&lines));
        assert_eq!(of_map, Ok(verdict));
    }
    let verdict = exchange.decide_in(Dialect::Rfc8941, &targets, &head(&lines));
    let verdict = verdict.unwrap();
    assert_eq!(
        verdict.to_string(),
        "Expires: fresh for 40 s; may be stored"
    );
    assert_eq!(verdict.malformed.len(), 2);
    let two = head(&[("priority", "u=1"), ("priority", " i")]);
    assert_eq!(sf::field_text(&two, "Priority").unwrap(), b"u=1, i");
}

#[test]
fn each_field_has_a_dialect() {
    let [old, new] = [Dialect::Rfc8941, Dialect::Rfc9651];
    let mut headers = head(&[("priority", "u=1, x=@1"), ("cache-status", "a;x=@1")]);
    assert!(Priority::from_headers_in(old, &headers).is_err());
    assert_eq!(
        Priority::from_headers_in(new, &headers),
        Priority::from_headers(&headers)
    );
    assert!(ResponsePriority::from_headers_in(old, &headers).is_err());
    assert!(ResponsePriority::from_headers_in(new, &headers).is_ok());
    assert!(Path::from_headers_in(old, &headers).is_err());
    assert_eq!(
        Path::from_headers_in(new, &headers),
        Path::from_headers(&headers)
    );
    let hop = Hop::new(TokenRef::constant("edge"));
    assert_eq!(
        hop.append_or_replace_in_headers(new, &mut headers),
        Ok(None)
    );
    assert_eq!(headers["cache-status"], "a;x=@1, edge");
    let refusal = hop.append_or_replace_in_headers(old, &mut headers).unwrap();
    assert_eq!(refusal.unwrap().offset, 4);
    assert_eq!(headers["cache-status"], "edge");
    let mut none = HeaderMap::new();
    assert_eq!(hop.append_or_replace_in_headers(old, &mut none), Ok(None));
    assert_eq!(none["cache-status"], "edge");
}
