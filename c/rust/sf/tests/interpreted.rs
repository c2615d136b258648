//! What the fields say of which RFCs tell the meaning: Priority, targeted cache control,
//! Cache-Status.

use sf::{
    equal, select, select_rules, Cache, CacheRules, Cause, Choice, Decision, Dialect, Error,
    Fallback, Forward, Forwarded, FwdStatus, Hop, Kind, Name, Outcome, Parser, Path, Policy,
    Priority, Response, ResponsePriority, Reuse, RulesChoice, Seconds, StringRef, TokenRef,
    Urgency,
};

#[test]
fn priorities_are_merged() {
    let client = Priority::parse("u=5, i").unwrap();
    let server = ResponsePriority::parse("u=1").unwrap();
    let merged = client.merged_with(server);
    let one = Urgency::new(1).unwrap();
    assert_eq!(
        (merged.urgency, merged.incremental),
        (Some(one), Some(true))
    );
    assert_eq!((merged.urgency(), merged.incremental()), (one, true));
    for text in ["u=1, i", "u=0", "u=7, i=?0", "i", ""] {
        assert_eq!(Priority::parse(text).unwrap().serialize().unwrap(), text);
    }
    let change = |urgency: Option<u8>, incremental, text: &str| {
        let priority = Priority {
            urgency: urgency.map(|number| Urgency::new(number).unwrap()),
            incremental,
        };
        priority.change(text)
    };
    assert_eq!(change(Some(1), Some(true), "").unwrap(), "u=1, i");
    assert_eq!(change(None, None, "u=5,i").unwrap(), "u=5, i");
    assert_eq!(
        change(Some(0), Some(false), "x=(a  b);c, u=7, y=%\"%c3%bc\"").unwrap(),
        "x=(a b);c, u=0, y=%\"%c3%bc\", i=?0"
    );
    let refused = change(Some(1), None, "u=1,").unwrap_err();
    assert_eq!(refused.refusal().unwrap().offset, 4);
    let nothing = Priority::parse("u=8").unwrap();
    assert_eq!(nothing, Priority::default());
    assert_eq!((nothing.urgency().get(), nothing.incremental()), (3, false));
}

#[test]
fn ages_are_read() {
    let most = Some(1 << 31);
    for (text, seconds) in [
        ("20", Some(20)),
        ("0", Some(0)),
        ("00020", Some(20)),
        (" \t20\t ", Some(20)),
        ("20, 70", Some(20)),
        ("20\t,x", Some(20)),
        ("20,", Some(20)),
        ("2147483647", Some(2_147_483_647)),
        ("2147483648", most),
        ("2147483649", most),
        ("18446744073709551616", most),
        ("99999999999999999999999999999999", most),
        ("99999999999999999999x", None),
        ("", None),
        (" \t", None),
        ("-5", None),
        ("+5", None),
        ("90x", None),
        ("1.5", None),
        ("2 0", None),
        (", 20", None),
        ("x, 20", None),
        ("\"20\"", None),
        ("20\0", None),
    ] {
        assert_eq!(sf::age(text), seconds, "{text}");
    }
}

/// `c/tests/few_arguments.c` has the same rows.
#[test]
fn what_may_be_stored() {
    let fresh = Reuse::Fresh { seconds: 60 };
    for (reuse, cause, allows_storing, may) in [
        (Reuse::NotStored, Some(Cause::NoStore), false, false),
        (Reuse::NotStored, Some(Cause::NoStore), true, false),
        (Reuse::NotStored, Some(Cause::Private), true, false),
        (Reuse::NotStored, Some(Cause::MustUnderstand), true, false),
        (fresh, Some(Cause::MaxAge), true, true),
        (fresh, Some(Cause::Expires), false, true),
        (fresh, Some(Cause::SMaxage), true, true),
        (Reuse::Stale, Some(Cause::MaxAge), true, true),
        (Reuse::Stale, Some(Cause::Expires), false, true),
        (Reuse::Stale, Some(Cause::InvalidMaxAge), false, true),
        (Reuse::Revalidate, Some(Cause::NoCache), false, false),
        (Reuse::Revalidate, Some(Cause::NoCache), true, true),
        (Reuse::Revalidate, Some(Cause::MustRevalidate), false, true),
        (Reuse::Revalidate, Some(Cause::ProxyRevalidate), false, true),
        (Reuse::Revalidate, Some(Cause::SMaxage), true, true),
        (Reuse::Revalidate, Some(Cause::InvalidSMaxage), false, true),
        (Reuse::Unspecified, None, false, false),
        (Reuse::Unspecified, None, true, true),
    ] {
        let decision = Decision {
            reuse,
            cause,
            allows_storing,
            allows_authorized: false,
        };
        assert_eq!(decision.may_store(), may, "{decision:?}");
    }
}

/// `c/tests/few_arguments.c` has the same rows.
#[test]
fn excerpts_of_lines() {
    let lines = ["a, b", "", "c, (d e, f"];
    let mut refusal = sf::check(Kind::Item, "1 2").unwrap_err().refusal().unwrap();
    let mut shown = |offset, most| {
        refusal.offset = offset;
        refusal.excerpt_of_line(&lines, most).to_string()
    };
    let head = |place| format!("byte 0x32 '2' at place {place}, expected a space or the end\n");
    assert_eq!(shown(2, 20), head(2) + "line 1, place 2:\na, b\n  ^");
    assert_eq!(shown(5, 20), head(4) + "line 1, place 4:\na, b\n    ^");
    let ended = |place| format!("the text ended at place {place}, expected a space\n");
    assert_eq!(shown(6, 20), ended(0) + "line 2, place 0:\n\n^");
    assert_eq!(
        shown(15, 4),
        head(7) + "line 3, place 7:\n... e, ...\n     ^"
    );
    assert_eq!(
        shown(99, 4),
        head(10) + "line 3, place 10:\n...e, f\n       ^"
    );
    assert_eq!(
        shown(u64::MAX, 0),
        head(10) + "line 3, place 10:\n...\n   ^"
    );
    let none: [&str; 0] = [];
    let shown = refusal.excerpt_of_line(&none, 4).to_string();
    assert_eq!(shown, ended(0) + "line 1, place 0:\n\n^");
    assert_eq!(refusal.line(none), sf::LinePlace::default());
    refusal.offset = 5; // a List that can't end there
    refusal.may_end = false;
    let shown = refusal.excerpt_of_line(&lines, 20).to_string();
    assert_eq!(shown, ended(4) + "line 1, place 4:\na, b\n    ^");
}

#[test]
fn a_refused_field_counts_as_absent() {
    let refused = Priority::parse("u=1,").or_else(Error::as_absent);
    assert_eq!(refused, Ok(Priority::default()));
    let refused = Policy::parse("max-age=1,").or_else(Error::as_absent);
    assert_eq!(refused, Ok(None));
    let short: Result<Priority, _> = Error::OutOfMemory.as_absent();
    assert_eq!(short, Err(Error::OutOfMemory));
    let second = equal(Kind::Item, "1", "").unwrap_err();
    assert_eq!(second.as_absent::<bool>(), Err(second));
}

#[test]
fn a_hop_is_appended() {
    let forwarded = Forwarded::new(Forward::UriMiss)
        .with_status(FwdStatus::new(200).unwrap())
        .with_stored(true)
        .with_collapsed(false);
    let hop = Hop::new(Name::token("here").unwrap()).with_outcome(forwarded);
    let own = "here;fwd=uri-miss;fwd-status=200;stored;collapsed=?0";
    let of = |lines: &[&str]| hop.append_to(lines).unwrap();
    assert_eq!(of(&[]), own);
    assert_eq!(of(&[""]), own);
    assert_eq!(of(&["a;hit"]), format!("a;hit, {own}"));
    assert_eq!(of(&["a, 7"]), format!("a, 7, {own}"));
    assert_eq!(of(&["a; hit,b"]), format!("a;hit, b, {own}"));
    let path = Path::parse(of(&["a", "b"])).unwrap();
    assert_eq!(path.hops().last(), Some(hop));
    // Nothing is appended to what is malformed: it would be ignored with the rest.
    for text in ["a;hit,", "a b", "a;;b", "(", "\u{e9}"] {
        let refused = hop.append_to([text]).unwrap_err();
        assert_eq!(refused.as_absent(), Ok(std::string::String::new()));
        let replaced = hop.append_or_replace([text]).unwrap();
        assert_eq!(replaced.as_str(), own);
        assert_eq!(replaced.refusal(), refused.refusal());
    }
    // An empty line is one, as it is for join.
    for lines in [&["a", ""], &["", "a"], &["", ""]] {
        let joined = sf::join(lines).unwrap();
        let refused = hop.append_to(lines);
        assert_eq!(refused, hop.append_to([joined]));
        assert!(matches!(refused, Err(Error::Refused(_))));
        assert_eq!(hop.append_or_replace(lines).unwrap().to_string(), own);
    }
    // Only one of hit and fwd should appear (RFC 9211 section 2.1).
    let both = Hop::new(TokenRef::constant("here")).with_outcome(Outcome::Conflict(forwarded));
    assert_eq!(both.append_to(["a;hit"]), Err(Error::Invalid));
    assert_eq!(both.append_to(["a;hit,"]), Err(Error::Invalid));
    assert_eq!(both.append_or_replace(["a;hit,"]), Err(Error::Invalid));
    let old = Parser::new().with_dialect(Dialect::Rfc8941);
    assert!(old.append_hop(&hop, ["a;x=@1"]).is_err());
    assert_eq!(of(&["a;x=@1"]), format!("a;x=@1, {own}"));
}

// RFC 9218 section 8: an absent parameter leaves what the client asked for.
#[test]
fn priorities_of_responses() {
    let of = |text: &str| ResponsePriority::parse(text).unwrap();
    for text in ["", "u=3", "u=0", "i", "i=?0", "u=3, i=?0", "u=7, i"] {
        assert_eq!(of(text).to_string(), text);
        assert_eq!(of(text).serialize().unwrap(), text);
    }
    assert_eq!(of("u=8, i=1, x"), ResponsePriority::default());
    let request = Priority::parse("u=5, i").unwrap();
    let sent = |text: &str| {
        let merged = request.merged_with(of(text));
        (merged.urgency().get(), merged.incremental())
    };
    assert_eq!(sent(""), (5, true));
    assert_eq!(sent("u=3"), (3, true));
    assert_eq!(sent("i=?0"), (5, false));
    let fixed = ResponsePriority::fixed(Priority::default());
    assert_eq!(fixed.to_string(), "u=3, i=?0");
    assert!(ResponsePriority::parse("u=1,").is_err());
    let old = Parser::new().with_dialect(Dialect::Rfc8941);
    assert!(old.response_priority("u=1, x=@1").is_err());
    assert_eq!(of("u=1, x=@1").to_string(), "u=1");
}

// RFC 9111 sections 3, 4.2 and 5.2.2.
#[test]
fn a_cache_decides() {
    let rows: [(&str, Cache, u64, Reuse, Option<Cause>); 12] = [
        (
            "max-age=60",
            Cache::Shared,
            59,
            Reuse::Fresh { seconds: 1 },
            Some(Cause::MaxAge),
        ),
        (
            "max-age=60",
            Cache::Private,
            60,
            Reuse::Stale,
            Some(Cause::MaxAge),
        ),
        (
            "max-age=60, no-cache",
            Cache::Shared,
            0,
            Reuse::Revalidate,
            Some(Cause::NoCache),
        ),
        (
            "max-age=60, no-store",
            Cache::Private,
            0,
            Reuse::NotStored,
            Some(Cause::NoStore),
        ),
        (
            "private, max-age=60",
            Cache::Shared,
            0,
            Reuse::NotStored,
            Some(Cause::Private),
        ),
        (
            "private, max-age=60",
            Cache::Private,
            0,
            Reuse::Fresh { seconds: 60 },
            Some(Cause::MaxAge),
        ),
        (
            "must-revalidate, max-age=1",
            Cache::Private,
            1,
            Reuse::Revalidate,
            Some(Cause::MustRevalidate),
        ),
        (
            "s-maxage=1",
            Cache::Shared,
            1,
            Reuse::Revalidate,
            Some(Cause::SMaxage),
        ),
        (
            "proxy-revalidate, max-age=1",
            Cache::Shared,
            1,
            Reuse::Revalidate,
            Some(Cause::ProxyRevalidate),
        ),
        (
            "max-age=1.5, x",
            Cache::Shared,
            0,
            Reuse::Stale,
            Some(Cause::InvalidMaxAge),
        ),
        (
            "s-maxage=a, max-age=9",
            Cache::Shared,
            0,
            Reuse::Revalidate,
            Some(Cause::InvalidSMaxage),
        ),
        ("a", Cache::Shared, 0, Reuse::Unspecified, None),
    ];
    for (text, cache, age, reuse, by) in rows {
        let rules = CacheRules::parse(text).unwrap().unwrap();
        let decision = rules.decide(
            cache,
            Response {
                age,
                ..Response::default()
            },
        );
        assert_eq!((decision.reuse, decision.cause), (reuse, by), "{text}");
    }
    let rules = CacheRules::parse("must-understand, no-store, max-age=5")
        .unwrap()
        .unwrap();
    let understood = Response {
        is_understood: true,
        ..Response::default()
    };
    assert_eq!(
        rules.decide(Cache::Shared, Response::default()).cause,
        Some(Cause::NoStore)
    );
    assert_eq!(
        rules.decide(Cache::Shared, understood).fresh_for(),
        Some(5.into())
    );
    let public = CacheRules::parse("public").unwrap().unwrap();
    let other = Response {
        lifetime: Some(u64::MAX),
        age: 1,
        is_understood: false,
    };
    let decision = public.decide(Cache::Shared, other);
    assert_eq!(
        decision.reuse,
        Reuse::Fresh {
            seconds: (1 << 31) - 1
        }
    ); // section 1.2.2
    assert_eq!(decision.cause, Some(Cause::Expires));
    assert!(decision.allows_storing && decision.allows_authorized && decision.may_store());
    assert_eq!(CacheRules::parse(""), Ok(None));
    assert_eq!(select_rules(["", "a b"]), Ok(RulesChoice::Fallback));
    assert_eq!(Cause::InvalidSMaxage.to_string(), "invalid s-maxage");
}

/// What the lines of `Cache-Control`, `Expires` and `Date` say.
fn fallback(cache_control: &[&str], expires: &[&str], date: &[&str]) -> Fallback {
    let mut fallback = Fallback::new();
    for line in cache_control {
        fallback.add_cache_control(line);
    }
    for line in expires {
        fallback.add_expires(line);
    }
    for line in date {
        fallback.add_date(line);
    }
    fallback
}

// RFC 9111 section 5.2.
#[test]
fn cache_control_is_read_line_by_line() {
    let rules = |lines: &[&str]| fallback(lines, &[], &[]).rules().to_string();
    assert_eq!(rules(&[]), "");
    assert_eq!(rules(&["No-Store, Max-Age=0,,"]), "max-age=0, no-store");
    assert_eq!(
        rules(&["max-age=60", " PRIVATE, s-maxage=\"9\""]),
        "max-age=60, s-maxage=9, private"
    );
    assert_eq!(rules(&["max-age=60", "Max-Age=060"]), "max-age=60");
    assert_eq!(rules(&["max-age=60", "max-age=5"]), "max-age=invalid");
    assert_eq!(rules(&["x=\"no-store\", public"]), "public");
    for lines in [
        &["max-age=60", "a b"][..],
        &["a b", "max-age=60, must-understand"],
        &["max-age=60, x=\"a", "b\""],
    ] {
        let refused = fallback(lines, &[], &[]);
        assert!(refused.is_refused(), "{lines:?}");
        assert_eq!(refused.rules().to_string(), "no-store", "{lines:?}");
    }
    assert!(!fallback(&["", " , "], &[], &[]).is_refused());
}

// RFC 9111 sections 4.2.1 and 5.3; the dates are those of RFC 9110 section 5.6.7, and a minute later.
#[test]
fn expires_sets_a_lifetime() {
    const FIRST: &str = "Sun, 06 Nov 1994 08:49:37 GMT";
    const LATER: &str = "Sun, 06 Nov 1994 08:50:37 GMT";
    let received = 784_111_827; // 50 seconds after the first
    let lifetime = |expires, date| fallback(&[], expires, date).lifetime(received);
    assert_eq!(lifetime(&[], &[FIRST]), None);
    assert_eq!(lifetime(&[LATER], &[FIRST]), Some(60));
    assert_eq!(
        lifetime(&["\tSunday, 06-Nov-94 08:50:37 GMT "], &[FIRST]),
        Some(60)
    );
    assert_eq!(lifetime(&[LATER], &["Sun Nov  6 08:49:37 1994"]), Some(60));
    assert_eq!(lifetime(&[FIRST], &[LATER]), Some(0));
    assert_eq!(lifetime(&["0"], &[FIRST]), Some(0));
    assert_eq!(lifetime(&[LATER, LATER], &[FIRST]), Some(0));
    assert_eq!(
        lifetime(&["Sun", "06 Nov 1994 08:50:37 GMT"], &[FIRST]),
        Some(0)
    );
    assert_eq!(lifetime(&[LATER], &[]), Some(10));
    assert_eq!(lifetime(&[LATER], &["x"]), Some(10));
    assert_eq!(lifetime(&[LATER], &[FIRST, FIRST]), Some(10));
    let both = fallback(&["max-age=5"], &[LATER], &[FIRST]);
    let decision = both.decide(Cache::Shared, received, Response::default());
    assert_eq!(decision.cause, Some(Cause::MaxAge)); // section 5.3
    let old = Response {
        age: 60,
        ..Response::default()
    };
    let decision = fallback(&["public"], &[LATER], &[FIRST]).decide(Cache::Shared, received, old);
    assert_eq!(
        (decision.reuse, decision.cause),
        (Reuse::Stale, Some(Cause::Expires))
    );
}

#[test]
fn a_field_of_a_target_list_is_chosen() {
    type Chosen = Option<(usize, u32)>;
    let fields: [(&[&str], Chosen); 9] = [
        (&[], None),
        (&[""], None),
        (&["max-age=60,", "", "  "], None),
        (&["max-age=60"], Some((0, 60))),
        (&["max-age=60", "max-age=600"], Some((0, 60))),
        (&["", "max-age=600"], Some((1, 600))),
        (&["max-age=60,", "max-age=600", "max-age=1"], Some((1, 600))),
        (&["a b", "", "(a)", "max-age=9, x", ""], Some((3, 9))),
        (&["max-age=1, max-age=2"], Some((0, 2))),
    ];
    for (texts, expected) in fields {
        let choice = select(texts).unwrap();
        let expected = expected.map(|(index, seconds)| Choice::Field {
            index,
            policy: Policy {
                max_age: Some(seconds.into()),
                ..Policy::default()
            },
        });
        assert_eq!(choice, expected.unwrap_or(Choice::Fallback), "{texts:?}");
        assert_eq!(choice.index(), expected.and_then(|choice| choice.index()));
        assert_eq!(
            choice.policy().is_none(),
            matches!(choice, Choice::Fallback)
        );
    }
    // RFC 8941 has no Dates.
    let fields = ["@1", "max-age=60;x=@1", "max-age=5"];
    let old = Parser::new().with_dialect(Dialect::Rfc8941);
    assert_eq!(select(fields).unwrap().index(), Some(1));
    assert_eq!(old.select(fields).unwrap().index(), Some(2));
    assert_eq!(sf::select_in(Dialect::Rfc8941, fields), old.select(fields));
    assert!(old.policy("max-age=60;x=@1").is_err());
}

#[test]
fn policies_are_read() {
    let policy = Policy::parse("max-age=30, s-maxage=90, no-store=?0").unwrap();
    let expected = Policy {
        max_age: Some(30.into()),
        s_maxage: Some(90.into()),
        ..Policy::default()
    };
    assert_eq!(policy, Some(expected));
    assert_eq!(expected.lifetime(true), Some(90.into()));
    assert_eq!(expected.lifetime(false), Some(30.into()));
    assert_eq!(Policy::default().lifetime(true), None);
    assert_eq!(Policy::parse(""), Ok(None));
    assert!(Policy::parse("max-age=60,").is_err());
    let all = "must-revalidate, no-store, no-cache, private";
    let all = Policy::parse(all).unwrap().unwrap();
    assert!(all.must_revalidate && all.no_store && all.no_cache && all.is_private);
}

#[test]
fn a_path_is_read() {
    let text = "origin; fwd=stale; fwd-status=304; collapsed, \"edge\"; hit; ttl=30; key=\"k\"";
    let path = Path::parse(text).unwrap();
    let forwarded = Forwarded {
        why: Forward::Stale,
        status: Some(FwdStatus::new(304).unwrap()),
        stored: None,
        collapsed: Some(true),
    };
    let origin = Hop {
        name: Name::token("origin").unwrap(),
        outcome: Outcome::Forwarded(forwarded),
        ttl: None,
        key: None,
        detail: None,
    };
    let edge = Hop {
        name: Name::string("edge").unwrap(),
        outcome: Outcome::Hit,
        ttl: Some(30.into()),
        key: Some(StringRef::constant("k")),
        detail: None,
    };
    assert_eq!(path.hops().collect::<Vec<_>>(), [origin, edge]);
    assert_eq!(path.served_by(), Some(1));
    assert_eq!(path, path.clone());

    let reasons: [(&str, Forward<'_>); 9] = [
        ("bypass", Forward::Bypass),
        ("method", Forward::Method),
        ("uri-miss", Forward::UriMiss),
        ("vary-miss", Forward::VaryMiss),
        ("miss", Forward::Miss),
        ("request", Forward::Request),
        ("stale", Forward::Stale),
        ("partial", Forward::Partial),
        ("odd", Forward::of_token(TokenRef::constant("odd"))),
    ];
    for (word, why) in reasons {
        let path = Path::parse(format!("c;fwd={word}")).unwrap();
        let hop = path.hops().next().unwrap();
        assert!(matches!(hop.outcome, Outcome::Forwarded(forwarded) if forwarded.why == why));
        assert_eq!(why.as_str(), word);
    }
    let path = Path::parse("c").unwrap();
    assert_eq!(path.hops().next().unwrap().outcome, Outcome::Unsaid);

    let path = Path::parse("c;hit;fwd=odd;detail=d").unwrap();
    let hop = path.hops().next().unwrap();
    let odd = Forward::of_token(TokenRef::constant("odd"));
    assert!(matches!(hop.outcome, Outcome::Conflict(forwarded) if forwarded.why == odd));
    assert_eq!(hop.detail, Some(Name::token("d").unwrap()));
    assert_eq!(path.served_by(), None);
    assert_eq!(Path::parse("").unwrap().hops().len(), 0);
    let list = r#"a;x="\",";y=%",\", ("b,"), 7"#;
    let (index, refusal) = match Path::parse(list) {
        Err(Error::NotACache { index, refusal }) => (index, refusal),
        other => panic!("{other:?}"),
    };
    assert_eq!((index, refusal.offset, refusal.found), (1, 19, Some(b'(')));
    assert!(refusal
        .expected_bytes()
        .eq((0..128)
            .filter(|byte: &u8| { byte.is_ascii_alphabetic() || matches!(byte, b'"' | b'*') })));
}

#[test]
fn a_hop_is_written() {
    let lines = [
        "ExampleCache;hit",
        "\"CDN Company Here\";hit;ttl=545",
        "OriginCache;hit;ttl=1100",
        "a;fwd=bypass",
        "a;fwd=odd;fwd-status=304;stored;collapsed",
        "a;fwd=stale;stored=?0;collapsed=?0",
        "a;hit;fwd=miss",
        "\"a\\\"b\";key=\"k\";detail=\"d\"",
        "a;ttl=-412;detail=d",
    ];
    for line in lines {
        let path = Path::parse(line).unwrap();
        let hop = path.hops().next().unwrap();
        let again = hop.serialize().unwrap();
        assert_eq!(Path::parse(&again).unwrap(), path, "{line}");
    }
    for why in [
        Forward::Bypass,
        Forward::Method,
        Forward::UriMiss,
        Forward::VaryMiss,
        Forward::Miss,
        Forward::Request,
        Forward::Stale,
        Forward::Partial,
        Forward::of_token(TokenRef::constant("odd")),
    ] {
        let mut hop = Hop::new(Name::token("a").unwrap());
        hop.outcome = Outcome::Forwarded(Forwarded::new(why));
        let path = Path::parse(hop.serialize().unwrap()).unwrap();
        assert_eq!(path.hops().collect::<Vec<_>>(), [hop]);
    }
}

// What can't be said by a field can't be made.
#[test]
fn no_invalid_value_is_made() {
    assert_eq!(Urgency::new(8), Err(Error::Invalid));
    assert_eq!(Urgency::try_from(9), Err(Error::Invalid));
    assert!((0..=7).all(|number| Urgency::new(number).unwrap() == number));
    assert!([0, 99, 1000, u16::MAX]
        .iter()
        .all(|&status| FwdStatus::new(status) == Err(Error::Invalid)));
    assert!([100, 304, 999]
        .iter()
        .all(|&status| FwdStatus::new(status).unwrap() == status));
    assert!(Name::token("").is_err() && Name::token("a b").is_err());
    assert!(Name::string("\u{fc}").is_err() && Name::string("").is_ok());
    assert_eq!(Seconds::new(1_000_000_000_000_000), Err(Error::Invalid));
    let most = Seconds::new(999_999_999_999_999).unwrap();
    assert_eq!(sf::Integer::from(most), sf::Integer::MAX);
    // A reason that the RFC defines is never another token.
    for word in [
        "bypass",
        "method",
        "uri-miss",
        "vary-miss",
        "miss",
        "request",
        "stale",
        "partial",
    ] {
        let why = Forward::of_token(TokenRef::new(word).unwrap());
        assert!(!matches!(why, Forward::Other { .. }) && why.as_str() == word);
    }
}

// RFC 9211 section 2.1 and following, and section 4.
#[test]
fn the_examples_of_cache_status() {
    let path = Path::parse("ExampleCache; hit; ttl=376").unwrap();
    assert_eq!(path.to_string(), "ExampleCache;hit;ttl=376");
    let hop = path.hops().next().unwrap();
    assert_eq!((hop.outcome, hop.ttl), (Outcome::Hit, Some(376.into())));

    let path = Path::parse("ExampleCache; fwd=uri-miss").unwrap();
    assert_eq!(path.to_string(), "ExampleCache;fwd=uri-miss");
    let path = Path::parse("ExampleCache; fwd=uri-miss; stored").unwrap();
    assert_eq!(path.to_string(), "ExampleCache;fwd=uri-miss;stored");
    let path = Path::parse("ExampleCache; fwd=stale; fwd-status=304").unwrap();
    let forwarded = path.hops().next().unwrap().outcome.forwarded().unwrap();
    assert_eq!(forwarded.status.map(FwdStatus::get), Some(304));
    let path = Path::parse("ExampleCache; hit; ttl=-412").unwrap();
    assert_eq!(path.hops().next().unwrap().ttl, Some((-412).into()));

    let text = "OriginCache; hit; ttl=1100, \"CDN Company Here\"; hit; ttl=545";
    let path: Path = text.parse().unwrap();
    let canonical = "OriginCache;hit;ttl=1100, \"CDN Company Here\";hit;ttl=545";
    assert_eq!(path.to_string(), canonical);
    assert_eq!(Path::try_from(canonical.as_bytes()), Ok(path.clone()));
    assert_eq!(path.served_by(), Some(1));
    assert_eq!(Path::default().to_string(), "");
    assert_eq!(Path::default(), Path::parse("").unwrap());
}

// RFC 9213 section 2.1 and 3.1, RFC 9218 sections 4 and 5.
#[test]
fn the_examples_of_policies_and_priorities() {
    let policy: Policy = "max-age=600".parse().unwrap();
    assert_eq!(policy.to_string(), "max-age=600");
    assert_eq!(policy.lifetime(true).unwrap().duration().as_secs(), 600);
    let policy = Policy::try_from("none, no-store").unwrap();
    assert_eq!(policy.to_string(), "no-store");
    let all = "max-age=1, s-maxage=2, must-revalidate, no-store, no-cache, private";
    assert_eq!(Policy::try_from(all.as_bytes()).unwrap().to_string(), all);
    assert_eq!("".parse::<Policy>(), Err(Error::Empty));
    assert_eq!(Policy::default().to_string(), "");

    let priority: Priority = "u=5, i".parse().unwrap();
    assert_eq!(priority.to_string(), "u=5, i");
    assert_eq!(
        Priority::try_from("u=0".as_bytes()).unwrap().urgency,
        Some(Urgency::MOST)
    );
    assert_eq!(
        format!("{:>5}|", Priority::try_from("i").unwrap()),
        "    i|"
    );
}

// RFC 9218 section 8: the server's parameters override the client's, one by one.
#[test]
fn the_servers_parameters_override() {
    for (client, server, merged) in [
        ("u=5, i", "u=1", "u=1, i"),
        ("u=5, i", "i=?0", "u=5, i=?0"),
        ("", "u=3", "u=3"),
        ("i", "", "i"),
        ("", "", ""),
    ] {
        let client: Priority = client.parse().unwrap();
        let server: ResponsePriority = server.parse().unwrap();
        assert_eq!(client.merged_with(server).to_string(), merged);
    }
}
