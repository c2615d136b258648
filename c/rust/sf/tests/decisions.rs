//! What a cache decides about a response by its whole head: the rows of `tests/decisions.txt`, and
//! what `Exchange` adds to the directives.

use sf::{Cache, Dialect, Error, Exchange, Fault, FieldDate, Malformed, Obstacle, Reuse, Verdict};
use std::fmt::Write;

const TARGETS: [&str; 2] = ["ExampleCDN-Cache-Control", "CDN-Cache-Control"];

/// `Date` of the rows that have one, Thu, 01 Dec 1994 15:59:00 GMT, is no later.
const RECEIVED: u64 = 786_297_540;

const NOW: Exchange = Exchange::at(Cache::Shared, RECEIVED);

fn decide<'a>(exchange: Exchange, head: &[(&str, &str)]) -> Verdict<'a> {
    exchange.decide(&TARGETS, head).unwrap()
}

/// The words of the table for what is decided.
fn words(verdict: &Verdict<'_>) -> String {
    let mut words = verdict.decision.reuse.to_string().replace(' ', "-");
    let seconds = verdict.fresh_for().map_or(0, sf::Seconds::get);
    write!(words, " {seconds} ").unwrap();
    match verdict.decision.cause {
        None => words.push_str("nothing"),
        Some(cause) => words.push_str(&cause.to_string().replace(' ', "-")),
    }
    words
}

/// The table is in the repository, which the crate may be packed without.
#[test]
fn rows_of_the_table() {
    let top = std::path::Path::new(env!("CARGO_MANIFEST_DIR")).join("../../..");
    if !top.join("crates.txt").exists() {
        println!("skipped: this is not the repository");
        return;
    }
    let table = std::fs::read_to_string(top.join("tests/decisions.txt")).unwrap();
    let mut count = 0;
    for row in table.split("\n\n").filter(|row| row.starts_with("row ")) {
        let all = |word: &str| {
            let lines = row.lines().filter_map(|line| line.strip_prefix(word));
            lines.map(str::to_string).collect::<Vec<_>>()
        };
        let head: Vec<(String, String)> = all("head ")
            .iter()
            .map(|line| line.split_once(':').unwrap())
            .map(|(name, value)| (name.to_string(), value.to_string()))
            .collect();
        let asked = all("for ").remove(0);
        let (cache, understood) = match asked.split(' ').next().unwrap() {
            "shared" => (Cache::Shared, asked.ends_with(" understood")),
            "private" => (Cache::Private, asked.ends_with(" understood")),
            other => panic!("{other}"),
        };
        let age: u64 = asked.split(' ').nth(1).unwrap().parse().unwrap();
        let exchange = Exchange::at(cache, RECEIVED).with_understood(understood);
        // A response that was stored for so long, one whose request was sent so long before, and
        // one that has the age in its head.
        let stored = Exchange {
            now: RECEIVED.saturating_add(age),
            ..exchange
        };
        let slow = Exchange {
            requested: exchange.received.saturating_sub(age),
            now: exchange.received.max(age),
            ..exchange
        };
        let mut aged = head.clone();
        aged.push(("age".to_string(), age.to_string()));
        for (exchange, head) in [(stored, &head), (slow, &head), (exchange, &aged)] {
            let verdict = exchange.decide(&TARGETS, head).unwrap();
            let (from, want) = (all("from ").remove(0), all("want ").remove(0));
            // A row that no target decides is from Cache-Control, also if Expires beside it decides.
            let by_expires = want.ends_with(" expires") && from == "Cache-Control";
            let field = if by_expires { "Expires" } else { from.as_str() };
            let is_there = field != "Cache-Control" || sf::has_field(head, field);
            assert_eq!(verdict.field, is_there.then_some(field), "{row}");
            match verdict.decision.reuse {
                Reuse::Fresh { seconds } => {
                    assert_eq!(verdict.ttl, seconds.try_into().ok(), "{row}");
                }
                _ => assert!(verdict.ttl.map_or(true, |left| left.get() <= 0), "{row}"),
            }
            assert_eq!(words(&verdict), want, "{row}");
            let [seen, asked] = [verdict.response.age, age].map(|age| age.min(1 << 31));
            assert_eq!(seen, asked, "{row}"); // greater ages count as 2^31
        }
        count += 1;
    }
    assert_eq!(count, 74);
}

// RFC 9111 section 3.
#[test]
fn what_may_be_stored() {
    let obstacle = |exchange: Exchange, head: &[(&str, &str)]| {
        let verdict = decide(exchange, head);
        assert_eq!(verdict.may_store(), verdict.obstacle.is_none());
        verdict.obstacle
    };
    let control = |directives| [("Cache-Control", directives)];
    // A status code that is heuristically cacheable (RFC 9110 section 15.1).
    for code in [200, 203, 204, 300, 301, 308, 404, 405, 410, 414, 501] {
        let exchange = NOW.with_status(code);
        assert_eq!(obstacle(exchange, &[]), None, "{code}");
        assert_eq!(obstacle(exchange, &control("no-cache")), None, "{code}");
        let forbidden = obstacle(exchange, &control("no-store"));
        assert_eq!(forbidden, Some(Obstacle::Directive), "{code}");
        assert!(decide(exchange, &[]).allows_heuristic, "{code}");
    }
    for code in [201, 302, 307, 400, 403, 500, 503] {
        let exchange = NOW.with_status(code);
        let unpermitted = Some(Obstacle::Unpermitted);
        assert_eq!(obstacle(exchange, &[]), unpermitted, "{code}");
        assert!(!decide(exchange, &[]).allows_heuristic, "{code}");
        for directive in ["public", "max-age=60", "max-age=x", "s-maxage=60"] {
            assert_eq!(obstacle(exchange, &control(directive)), None, "{code}");
        }
        let expires = [("Expires", "0"), ("Cache-Control", "no-cache")];
        assert_eq!(obstacle(exchange, &expires), None, "{code}");
        assert_eq!(obstacle(exchange, &expires[1..]), unpermitted, "{code}");
        // RFC 9213 section 2.2: Expires is ignored if a targeted field decides.
        let targeted = [("CDN-Cache-Control", "no-cache"), ("Expires", "0")];
        assert_eq!(obstacle(exchange, &targeted), unpermitted, "{code}");
        let private = Exchange::at(Cache::Private, RECEIVED).with_status(code);
        assert_eq!(obstacle(private, &control("private")), None, "{code}");
        assert_eq!(
            obstacle(private, &control("s-maxage=60")),
            unpermitted,
            "{code}"
        );
    }
    let fresh = control("max-age=60, public");
    for code in [100, 103, 199] {
        let exchange = NOW.with_status(code).with_understood(true);
        assert_eq!(obstacle(exchange, &fresh), Some(Obstacle::Status), "{code}");
    }
    for code in [206, 304] {
        let exchange = NOW.with_status(code);
        assert_eq!(obstacle(exchange, &fresh), Some(Obstacle::Status), "{code}");
        let understood = exchange.with_understood(true);
        assert_eq!(obstacle(understood, &fresh), None, "{code}");
    }
    assert_eq!(
        obstacle(NOW.with_status(206).with_understood(true), &[]),
        None
    );
    assert_eq!(obstacle(NOW, &[]), Some(Obstacle::Unpermitted));
    assert_eq!(obstacle(NOW, &fresh), None);
    // Section 3.5.
    let authorized = NOW.with_status(200).with_authorization(true);
    let cut_off = Exchange {
        is_request_incomplete: true,
        ..NOW.with_status(200)
    };
    let both = Exchange {
        is_authorized: true,
        ..cut_off
    };
    for (directives, expected) in [
        ("max-age=60", Some(Obstacle::Authorization)),
        ("max-age=60, public", None),
        ("s-maxage=60", None),
        ("max-age=60, must-revalidate", None),
        ("public, no-store", Some(Obstacle::Directive)),
    ] {
        let head = control(directives);
        assert_eq!(obstacle(authorized, &head), expected, "{directives}");
        let directive = expected.filter(|obstacle| *obstacle == Obstacle::Directive);
        let private = Exchange {
            cache: Cache::Private,
            ..authorized
        };
        assert_eq!(obstacle(private, &head), directive, "{directives}");
        // no-store may be missing, too
        let of_cut_off = directive.or(Some(Obstacle::RequestHead));
        for exchange in [cut_off, both] {
            let private = Exchange {
                cache: Cache::Private,
                ..exchange
            };
            assert_eq!(obstacle(exchange, &head), of_cut_off, "{directives}");
            assert_eq!(obstacle(private, &head), of_cut_off, "{directives}");
        }
    }
    // Section 4.2.2: public permits a heuristic, but not if a field sets a lifetime.
    let allows_heuristic =
        |code, directives| decide(NOW.with_status(code), &control(directives)).allows_heuristic;
    assert!(allows_heuristic(500, "public") && allows_heuristic(200, "x"));
    assert!(!allows_heuristic(200, "max-age=1") && !allows_heuristic(200, "no-store"));
}

/// `c/tests/few_arguments.c` has these rows, and the sentences of the RFCs.
#[test]
fn what_is_left_of_a_lifetime() {
    const EXPIRES: &str = "Sun, 06 Nov 1994 08:50:37 GMT";
    let left = |cache, age, head: &[(&str, &str)]| {
        let exchange = Exchange::at(cache, RECEIVED);
        let now = exchange.now + age;
        let verdict = Exchange { now, ..exchange }.decide(&["T"], head);
        verdict.unwrap().ttl.map(i64::from)
    };
    for (directives, age, shared, private) in [
        ("max-age=60", 100, Some(-40), Some(-40)),
        ("max-age=60, s-maxage=10", 30, Some(-20), Some(30)),
        ("s-maxage=60", 62, Some(-2), None),
        ("max-age=60, must-revalidate", 61, Some(-1), Some(-1)),
        ("max-age=60, proxy-revalidate", 62, Some(-2), Some(-2)),
        ("max-age=60, no-cache", 5, None, None),
        ("max-age=60, private", 5, None, Some(55)),
        ("max-age=-1, must-revalidate", 5, None, None),
        ("max-age=60, s-maxage=1.5", 5, None, Some(55)),
        (
            "max-age=60, s-maxage=1.5, must-revalidate",
            62,
            None,
            Some(-2),
        ),
        (
            "s-maxage=60, max-age=x, must-revalidate",
            62,
            Some(-2),
            None,
        ),
        (
            "max-age=99999999999",
            8,
            Some(2_147_483_640),
            Some(2_147_483_640),
        ),
        ("max-age=99999999999", 99_999_999_999, Some(0), Some(0)),
        ("public", 5, None, None),
    ] {
        let head = [("Cache-Control", directives)];
        assert_eq!(left(Cache::Shared, age, &head), shared, "{directives}");
        assert_eq!(left(Cache::Private, age, &head), private, "{directives}");
    }
    let expires = ("Expires", EXPIRES);
    let date = ("Date", "Sun, 06 Nov 1994 08:49:37 GMT");
    assert_eq!(left(Cache::Shared, 70, &[expires, date]), Some(-10));
    assert_eq!(left(Cache::Shared, 5, &[("Expires", "0")]), Some(-5));
    let invalid = ("Cache-Control", "max-age=x, must-revalidate");
    assert_eq!(left(Cache::Shared, 5, &[invalid, expires]), None);
    let targeted = [("T", "s-maxage=10"), ("Expires", "0")];
    assert_eq!(left(Cache::Shared, 9, &targeted), Some(1));
}

#[test]
fn malformed_fields_are_listed() {
    let mut head = [
        ("Server", "x"),
        (" examplecdn-cache-control\t", " max-age=60"),
        ("Age", "x"),
        ("ExampleCDN-Cache-Control", "\t a, b="),
        ("CDN-Cache-Control", ""),
        ("Expires", "0"),
        ("Date", "yesterday"),
        ("Cache-Control", "max-age=60"),
        ("expires", "0"),
        ("Cache-Control", " a b"),
        ("Cache-Control", "c d"),
    ];
    let found = |head: &[(&str, &str)]| -> Vec<_> {
        let malformed = decide(NOW, head).malformed.into_iter();
        let places = malformed.map(|malformed| {
            let offset = match malformed.fault {
                Fault::Refused(refusal) => Some(refusal.offset),
                _ => None,
            };
            (malformed.field, malformed.line, offset)
        });
        places.collect()
    };
    let expected = [
        ("ExampleCDN-Cache-Control", 3, Some(7)),
        ("Cache-Control", 9, Some(3)),
        ("Age", 2, None),
    ];
    assert_eq!(found(&head), expected);
    let verdict = decide(NOW, &head);
    let shown: Vec<_> = verdict.malformed.iter().map(|it| it.to_string()).collect();
    assert!(shown[1].starts_with("Cache-Control: byte 0x62 'b' at place 3, expected "));
    assert_eq!(shown[2], "Age: expected a number of seconds");
    assert_eq!(verdict.field, Some("Cache-Control"));
    assert!(verdict.rules.policy.no_store && !verdict.may_store());
    // Expires and Date count if Cache-Control sets no lifetime and is well-formed.
    head[7].1 = "public";
    let of_dates = &head[..9];
    let expected = [
        ("ExampleCDN-Cache-Control", 3, Some(7)),
        ("Expires", 5, None),
        ("Date", 6, None),
        ("Expires", 8, None),
        ("Age", 2, None),
    ];
    assert_eq!(found(of_dates), expected);
    let verdict = decide(NOW, of_dates);
    let shown: Vec<_> = verdict.malformed.iter().map(|it| it.to_string()).collect();
    assert_eq!(
        shown[1],
        "Expires: expected an HTTP-date, such as Sun, 06 Nov 1994 08:49:37 GMT"
    );
    assert_eq!(shown[3], "Expires: there are several lines");
    // Of many lines the second is reported.
    let lines = [
        [("Date", "0"); 100].as_slice(),
        &[("Expires", "Sun, 06 Nov 1994 08:49:37 GMT")],
    ]
    .concat();
    let many = Exchange::at(Cache::Shared, 784_111_777)
        .decide(&[], &lines)
        .unwrap();
    let faults: Vec<_> = many
        .malformed
        .iter()
        .map(|it| (it.line, it.fault))
        .collect();
    assert_eq!(faults, [(0, Fault::NotADate), (1, Fault::Repeated)]);
    // What is not read has no fault.
    let obeyed = [
        ("CDN-Cache-Control", "max-age=1"),
        ("Cache-Control", "a b"),
        ("Expires", "0"),
    ];
    assert_eq!(decide(NOW, &obeyed).malformed, []);
    let refused = [
        ("CDN-Cache-Control", "a"),
        ("ExampleCDN-Cache-Control", "a,"),
    ];
    let verdict = decide(NOW, &refused);
    assert_eq!((verdict.target, verdict.malformed.len()), (Some(1), 1));
    // White space before another line: the comma between them is no byte of it.
    let blank = [("CDN-Cache-Control", " \t"), ("CDN-Cache-Control", "a")];
    match decide(NOW, &blank).malformed[..] {
        [Malformed {
            line: 0,
            fault: Fault::Refused(refusal),
            ..
        }] => assert_eq!((refusal.found, refusal.may_end), (None, false)),
        ref other => panic!("{other:?}"),
    }
    // A name that is both a target and what decides without one: only the target is malformed.
    let both = [("Cache-Control", "Max-Age=60")];
    let verdict = NOW.decide(&["Cache-Control"], &both).unwrap();
    assert_eq!((verdict.target, verdict.malformed.len()), (None, 1));
    assert_eq!(
        verdict.to_string(),
        "Cache-Control: fresh for 60 s (max-age); may be stored"
    );
}

#[test]
fn ages_and_dates_count() {
    let expires = ("Expires", "Thu, 01 Dec 1994 16:00:00 GMT");
    let date = ("Date", "Thu, 01 Dec 1994 15:59:00 GMT");
    let seconds = |received, head: &[(&str, &str)]| {
        let response = decide(Exchange::at(Cache::Shared, received), head).response;
        (response.lifetime, response.age)
    };
    assert_eq!(seconds(0, &[expires, date]), (Some(60), 0));
    let aged = [expires, date, ("Age", "20, 30")];
    assert_eq!(seconds(0, &aged), (Some(60), 20));
    assert_eq!(seconds(786_297_590, &[expires]), (Some(10), 0));
    assert_eq!(seconds(786_297_700, &[expires]), (Some(0), 0));
    let malformed = [expires, ("Date", "x")];
    assert_eq!(seconds(786_297_590, &malformed), (Some(10), 0));
    assert_eq!(seconds(786_297_590, &[expires, date, date]), (Some(10), 0));
    assert_eq!(seconds(786_297_590, &[date]), (None, 0));
    // The lifetime is that from the receipt, and the age that from the request.
    let exchange = Exchange {
        requested: 786_297_588,
        received: 786_297_590,
        now: 786_297_593,
        ..NOW
    };
    let verdict = decide(exchange, &[expires, ("Age", "1")]);
    assert_eq!(
        (verdict.response.lifetime, verdict.response.age),
        (Some(10), 6)
    );
    assert_eq!(verdict.to_string(), "Expires: fresh for 4 s; may be stored");
    // A clock that was set back.
    let exchange = Exchange { now: 0, ..exchange };
    assert_eq!(decide(exchange, &[("Age", "1")]).response.age, 1);
    let exchange = Exchange {
        requested: 0,
        now: u64::MAX,
        ..NOW
    };
    let verdict = decide(exchange, &[("Age", "20"), ("Cache-Control", "max-age=60")]);
    assert_eq!(verdict.response.age, 1 << 31);
    assert_eq!(verdict.decision.to_string(), "stale (max-age)");
}

/// Of each short line, the library says whether it is a list of directives. The place of a refusal
/// is the end of the longest viable prefix: what is before it can be completed to a list, and with
/// one more byte it can if and only if the byte is expected.
#[test]
fn lines_of_cache_control_are_refused_at_a_place() {
    const BYTES: &[u8] = b"a=,\"\\ \x01\xe9";
    let is_list = |parts: [&[u8]; 2]| {
        let mut fallback = sf::Fallback::new();
        fallback.add_cache_control(parts.concat());
        !fallback.is_refused()
    };
    // Each prefix of a list can be completed by one of these.
    let is_viable = |line: &[u8]| {
        let ends: [&[u8]; 4] = [b"", b"a", b"\"", b"a\""];
        ends.iter().any(|end| is_list([line, end]))
    };
    let (mut refused, mut most) = (0, 1);
    for length in 0..=4 {
        for number in 0..most {
            let mut line = vec![b' ']; // white space around a line is no part of it
            let mut left = number;
            for _ in 0..length {
                line.push(BYTES[left % BYTES.len()]);
                left /= BYTES.len();
            }
            let mut fallback = sf::Fallback::new();
            fallback.add_cache_control(&line);
            assert_eq!(fallback.is_refused(), fallback.refusal().is_some());
            let refusal = match fallback.refusal() {
                None => continue,
                Some(refusal) => refusal.refusal,
            };
            let place = usize::try_from(refusal.offset).unwrap();
            let before = &line[..place];
            assert_eq!(
                refusal.found,
                line.get(place).copied().filter(|_| place < trimmed(&line))
            );
            assert!(is_viable(before), "{line:?}");
            assert_eq!(
                refusal.may_end,
                refusal.found.is_some() && is_list([before, b""])
            );
            for byte in BYTES
                .iter()
                .copied()
                .filter(u8::is_ascii)
                .chain([0, 127, b'\t'])
            {
                let more = [before, &[byte]].concat();
                assert_eq!(refusal.expects(byte), is_viable(&more), "{line:?} {byte}");
            }
            refused += 1;
        }
        most *= BYTES.len();
    }
    assert!(refused > 1_000);
}

fn trimmed(line: &[u8]) -> usize {
    let end = line.iter().rposition(|byte| *byte != b' ');
    end.map_or(0, |last| last + 1)
}

#[test]
fn what_dates_say() {
    let mut fallback = sf::Fallback::new();
    assert_eq!(
        (fallback.expires(), fallback.date()),
        (FieldDate::Absent, FieldDate::Absent)
    );
    fallback.add_date("x");
    fallback.add_expires("");
    assert_eq!(
        (fallback.expires(), fallback.date()),
        (FieldDate::Malformed, FieldDate::Malformed)
    );
    fallback.add_date("Sun, 06 Nov 1994 08:49:37 GMT");
    assert_eq!(
        (fallback.expires(), fallback.date()),
        (FieldDate::Malformed, FieldDate::Repeated)
    );
    fallback.add_date("Sun, 06 Nov 1994 08:49:37 GMT");
    fallback.add_expires("x");
    assert_eq!(
        (fallback.expires(), fallback.date()),
        (FieldDate::Repeated, FieldDate::Repeated)
    );
    let mut fallback = sf::Fallback::new();
    for form in [
        "Sun, 06 Nov 1994 08:49:37 GMT",
        "Sunday, 06-Nov-94 08:49:37 GMT",
    ] {
        let mut fallback = fallback;
        fallback.add_date(form);
        assert_eq!(fallback.date(), FieldDate::At(784_111_777));
    }
    fallback.add_expires("Thu, 01 Jan 1970 00:00:00 GMT");
    assert_eq!(fallback.expires(), FieldDate::At(0));
}

#[test]
fn each_call_has_a_dialect() {
    let text = "max-age=60, x=@1";
    let [old, new] = [Dialect::Rfc8941, Dialect::Rfc9651];
    assert!(sf::CacheRules::parse_in(old, text).is_err());
    assert_eq!(
        sf::CacheRules::parse_in(new, text),
        sf::CacheRules::parse(text)
    );
    assert!(sf::Policy::parse_in(old, text).is_err());
    assert_eq!(sf::Policy::parse_in(new, text), sf::Policy::parse(text));
    assert!(sf::Priority::parse_in(old, text).is_err());
    assert_eq!(sf::Priority::parse_in(new, text), sf::Priority::parse(text));
    assert!(sf::ResponsePriority::parse_in(old, text).is_err());
    assert_eq!(
        sf::ResponsePriority::parse_in(new, text),
        sf::ResponsePriority::parse(text)
    );
    assert!(sf::Path::parse_in(old, "a;x=@1").is_err());
    assert_eq!(sf::Path::parse_in(new, "a;x=@1"), sf::Path::parse("a;x=@1"));
    let nothing = sf::Priority::default();
    let refused = nothing.change_in(old, text).unwrap_err();
    assert_eq!(refused, sf::Priority::parse_in(old, text).unwrap_err());
    assert_eq!(nothing.change_in(new, text), nothing.change(text));
    assert!(matches!(
        nothing.change_in(old, "u=1,"),
        Err(Error::Refused(_))
    ));
    let head = [("CDN-Cache-Control", text), ("Cache-Control", "no-store")];
    let by = |dialect| NOW.decide_in(dialect, &TARGETS, &head).unwrap();
    assert_eq!(
        (by(old).field, by(old).malformed.len()),
        (Some("Cache-Control"), 1)
    );
    assert_eq!(by(new), NOW.decide(&TARGETS, &head).unwrap());
}

// RFC 9112 sections 5, 5.1 and 5.2.
#[test]
fn field_lines_are_split() {
    for (line, name, value) in [
        ("Age: 20", "Age", "20"),
        ("Age:20\r\n", "Age", "20"),
        ("Age:\t20 \t\r\n", "Age", "20"),
        ("Age : 20\n", "Age", "20"),
        ("Age:", "Age", ""),
        ("a:b:c", "a", "b:c"),
        ("a: b\r", "a", "b"),
        ("!#$%&'*+-.^_`|~09azAZ: b", "!#$%&'*+-.^_`|~09azAZ", "b"),
    ] {
        let split = sf::split_field_line(line).unwrap();
        assert_eq!(split, (name.as_bytes(), value.as_bytes()), "{line:?}");
    }
    for line in [
        "",
        "\r\n",
        "Age",
        ": 20",
        " : 20",
        " Age: 20",
        "\tAge: 20",
        "\n",
        "a: b\r\r\n",
        "a: b\rc",
        "a: b\nc",
        "a: b\0",
        "Cache Control: no-store",
        "Age\u{b}: 20",
        "Age\0: 20",
        "\u{e9}: 20",
    ] {
        assert_eq!(sf::split_field_line(line), None, "{line:?}");
    }
}
