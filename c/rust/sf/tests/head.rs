//! Heads of messages, and what is malformed in them.

use sf::Verdict;
use sf::{Cache, Dialect, Dictionary, Exchange, Fault, Forward, Head, HeadFault, Hop, Item, Kind};
use sf::{
    List, Obstacle, Outcome, Parser, Place, Priority, ResponsePriority, StartFault, TokenRef,
};

fn parser() -> Parser {
    Parser::new().with_dialect(Dialect::Rfc8941)
}

fn messages(head: &Head<'_>, most: usize) -> Vec<String> {
    let malformed = head.malformed().iter();
    malformed.map(|one| one.excerpt(most).to_string()).collect()
}

/// The first lines of messages (RFC 9112 sections 2.1, 3 and 4).
#[test]
fn start_lines() {
    let status_lines = [
        ("HTTP/1.1 200 OK", 200),
        ("HTTP/1.1 404", 404),
        ("HTTP/1.0 100 \r\n", 100),
        ("HTTP/2 999 ", 999),
        ("HTTP/2 200", 200), // as curl prints it
    ];
    let request_lines = [
        "GET / HTTP/1.1",
        "GET http://a:80/ HTTP/1.1",
        "OPTIONS * HTTP/1.1\r\n",
        "GET / HTTP/3",
    ];
    let others = [
        "HTTP/1.1",
        "HTTP/1.1 ",
        "HTTP/1.1 20",
        "HTTP/1.1 2000 OK",
        "HTTP/1.1 2x0 OK",
        "HTTP/1.1 099 OK",
        "HTTP/1.1  200 OK",
        "HTTP/1.1x 200 OK",
        "HTTP/1. 200 OK",
        "HTTP/x.1 200 OK",
        "http/1.1 200 OK",
        "GET /",
        "GET /HTTP/1.1",
        "GET / HTTP/1.1 ",
        "GET / HTTP/1.1x",
        "GET  HTTP/1.1",
        "GET HTTP/1.1",
        "G\"T / HTTP/1.1",
        " / HTTP/1.1",
        "  HTTP/1.1",
        "ICY 200 OK",
        // "No whitespace is allowed in the request-target" (RFC 9112 section 3.2), and what is
        // white space for some recipients is "SP, HTAB, VT (%x0B), FF (%x0C), or bare CR" (3).
        "GET /a b HTTP/1.1",
        "GET /a\tb HTTP/1.1",
        "GET /a\x0bb HTTP/1.1",
        "GET /a\x0cb HTTP/1.1",
        "GET  / HTTP/1.1",
        "GET /  HTTP/1.1",
        "GET /\t HTTP/1.1",
        "GET  HTTP/1.1 HTTP/2",
    ];
    let statuses = status_lines.map(|(line, status)| (line, Some(status), false));
    let requests = request_lines.map(|line| (line, None, true));
    let no_start = others.map(|line| (line, None, false));
    for (line, status, is_request) in [&statuses[..], &requests[..], &no_start[..]].concat() {
        let is_start = status.is_some() || is_request;
        let mut head = Head::new(parser());
        assert!(!head.add_line(line).unwrap());
        assert_eq!(
            (head.status(), head.is_incomplete()),
            (status, !is_start),
            "{line}"
        );
        assert_eq!(head.malformed().len(), usize::from(!is_start));
        let is_fault_of_first =
            |one: &HeadFault<'_>| matches!(one.fault, Fault::NotAStartLine { .. });
        assert!(head.malformed().iter().all(is_fault_of_first));
        // White space before the colon: in a request the line is refused (RFC 9112 section 5.1).
        assert_eq!(head.add_line("Age \t: 1").unwrap(), !is_request);
        let count = head.malformed().len();
        assert_eq!(count, 1 + usize::from(!is_start));
        // Only the first line is a start line.
        assert!(!head.add_line(line).unwrap() && head.is_incomplete());
        assert_eq!((head.status(), head.malformed().len()), (status, count + 1));
        assert!(matches!(head.malformed()[count].fault, Fault::NotALine(_)));
        for before in ["a: b", "a", "a : b"] {
            let mut head = Head::new(parser());
            head.add_line(before).unwrap();
            let count = head.malformed().len();
            assert!(!head.add_line(line).unwrap() && head.status().is_none());
            assert_eq!(head.malformed().len(), count + 1);
            assert!(matches!(head.malformed()[count].fault, Fault::NotALine(_)));
        }
        let mut head = Head::new(parser());
        assert!(!head.add_line("\r\n").unwrap() && !head.add_line(line).unwrap());
        assert_eq!(head.status(), status);
        assert!(head.malformed().iter().all(is_fault_of_first));
    }
    // A field that was added is a first line, too.
    let mut head = Head::new(parser());
    head.add_field("a", "b").unwrap();
    head.add_line("HTTP/1.1 2x0 OK").unwrap();
    assert!(matches!(head.malformed()[0].fault, Fault::NotALine(_)));
}

/// A CR, LF or NUL in a start line may be its end for another recipient (RFC 9112 section 2.2), so
/// the line is refused, and what it says doesn't count.
#[test]
fn start_lines_with_a_barred_byte() {
    for (line, at) in [
        ("HTTP/1.1 200 OK\rCache-Control: no-store", 15),
        ("HTTP/1.1 200 OK\nCache-Control: no-store", 15),
        ("HTTP/1.1 200 OK\0", 15),
        ("HTTP/1.1 200 O\0\r\r\n", 14),
        ("HTTP/1.1 200 OK\r\r\n", 15),
        ("HTTP/1.1 200 OK\n\n", 15),
        ("GET /\0 HTTP/1.1", 5),
        ("GET /\r HTTP/1.1", 5),
        ("GET / HTTP/1.1\nAuthorization: a HTTP/1.1", 14),
        ("CONNECT :443\0 HTTP/1.1", 12),
    ] {
        let mut head = Head::new(parser());
        assert!(
            !head.add_line(line).unwrap() && head.is_incomplete(),
            "{line:?}"
        );
        assert_eq!((head.status(), head.is_request()), (None, false));
        assert_eq!((head.start_line(), head.method()), (None, None));
        assert_eq!(head.malformed().len(), 1);
        let one = &head.malformed()[0];
        assert!(matches!(
            one.fault,
            Fault::NotAStartLine {
                start: StartFault::BarredByte,
                ..
            }
        ));
        assert_eq!((one.number, one.offset), (1, at), "{line:?}");
        assert!(head.add_line("Age : 1").unwrap() && !head.add_line(line).unwrap());
        let exchange = Exchange::at(Cache::Shared, 784_111_777).with_status(200);
        let verdict = head.decide(&exchange, &[]).unwrap();
        assert_eq!(verdict.obstacle, Some(Obstacle::Incomplete));
    }
    // Other bytes have no such meaning.
    for (line, method) in [
        (&b"GET /\x01\xe9\x7f HTTP/1.1"[..], Some(&b"GET"[..])),
        (b"HTTP/1.1 200 \xe9\x01\t", None),
    ] {
        let mut head = Head::new(parser());
        head.add_line(line).unwrap();
        assert_eq!((head.start_line(), head.method()), (Some(line), method));
        assert!(!head.is_incomplete());
    }
}

/// The start line is kept as it was received, and the method of a request line.
#[test]
fn what_start_lines_say() {
    for (text, line, method) in [
        (
            "GET / HTTP/1.1\r\n\r\n",
            Some("GET / HTTP/1.1"),
            Some("GET"),
        ),
        (
            "\r\n\nget HTTP/1.1 HTTP/2\n",
            Some("get HTTP/1.1 HTTP/2"),
            Some("get"),
        ),
        ("get  HTTP/1.1 HTTP/2\n", None, None),
        (
            "M-SEARCH * HTTP/1.1",
            Some("M-SEARCH * HTTP/1.1"),
            Some("M-SEARCH"),
        ),
        ("HTTP/1.1 200 OK \r\n\r\n", Some("HTTP/1.1 200 OK "), None),
        ("HTTP/2 404", Some("HTTP/2 404"), None),
        ("HTTP/1.1 2x0\r\n\r\n", None, None),
        ("Age: 1\nGET / HTTP/1.1\n\n", None, None),
        ("a\nGET / HTTP/1.1\n\n", None, None),
        ("\r\n", None, None),
        ("", None, None),
    ] {
        let head = Head::parse(parser(), text).unwrap();
        assert_eq!(head.start_line(), line.map(str::as_bytes), "{text:?}");
        assert_eq!(head.method(), method.map(str::as_bytes), "{text:?}");
    }
    // What is returned outlives the head.
    let text = String::from("PUT / HTTP/1.1\n\n");
    let (line, method) = {
        let head = Head::parse(parser(), &text).unwrap();
        (head.start_line(), head.method())
    };
    assert_eq!(line.map(<[u8]>::len), Some(14));
    assert_eq!(method, Some(&b"PUT"[..]));
}

/// Heads whose kind is known (RFC 9112 section 2.1).
#[test]
fn heads_of_a_kind() {
    let request = "the head of a request begins with a request line";
    let response = "the head of a response begins with a status line";
    let end = "the head does not end with an empty line";
    let cut_off = "the head is cut off: its last line has no line end";
    let no_colon = "not a field line: no colon after the name";
    let neither =
        "neither a start line (no method, target and version) nor a field line (no colon \
                   after the name)";
    let no_status_line = "neither a start line (a status line begins with HTTP/) nor a field line \
                          (no colon after the name)";
    // Of each fault the number of the line, the place and the words, in a request and a response.
    type Faults<'a> = Vec<(usize, usize, &'a str)>;
    let both = |line, more: Faults<'static>| {
        [request, response].map(|words| [vec![(line, 0, words)], more.clone()].concat())
    };
    let rows = [
        ("GET / HTTP/1.1\r\n\r\n", [vec![], vec![(1, 0, response)]]),
        ("HTTP/1.1 200 OK\r\n\r\n", [vec![(1, 0, request)], vec![]]),
        (
            "\r\n\nHTTP/1.1 200 OK\r\nAge: 1\r\n\r\n",
            [vec![(3, 0, request)], vec![]],
        ),
        ("Age: 1\nVia: a\n\n", both(1, vec![])),
        ("\nAge: 1", both(2, vec![(2, 6, cut_off)])),
        ("\nAge: 1\r", both(2, vec![(2, 7, cut_off)])),
        ("\nAge: 1\r\n", both(2, vec![(3, 0, end)])),
        ("Age: 1\nAge 1\n\n", both(1, vec![(2, 4, no_colon)])),
        (
            "HTTP/1.1 200\nAge 1\n\n",
            [
                vec![(1, 0, request), (2, 4, no_colon)],
                vec![(2, 4, no_colon)],
            ],
        ),
        (
            "GET /\nAge: 1\n\n",
            [vec![(1, 5, neither)], vec![(1, 0, no_status_line)]],
        ),
        ("", both(1, vec![(1, 0, end)])),
        ("\r\n\n", both(3, vec![(3, 0, end)])),
        ("\r", both(1, vec![(1, 1, cut_off)])),
    ];
    for (text, expected) in rows {
        let head = Head::parse(parser(), text).unwrap();
        let heads = [
            Head::parse_request(parser(), text).unwrap(),
            Head::parse_response(parser(), text).unwrap(),
        ];
        for (of_kind, expected) in heads.iter().zip(expected) {
            let shown: Vec<_> = of_kind
                .malformed()
                .iter()
                .map(ToString::to_string)
                .collect();
            let lines = expected.iter();
            let wanted: Vec<_> = lines
                .map(|(line, place, words)| format!("line {line}, place {place}: {words}"))
                .collect();
            assert_eq!(shown, wanted, "{text:?}");
            assert_eq!(of_kind.is_incomplete(), !expected.is_empty(), "{text:?}");
            // All else is as without a kind.
            assert_eq!(of_kind.lines(), head.lines());
            assert_eq!(of_kind.content(), head.content());
            assert_eq!(of_kind.start_line(), head.start_line());
            assert_eq!(of_kind.status(), head.status());
        }
    }
    // The line is shown, if there is one.
    let shown = |text| {
        let head = Head::parse_response(parser(), text).unwrap();
        messages(&head, 40)
    };
    assert_eq!(
        shown("\nGET /\u{e9} HTTP/1.1\r\n\n"),
        [
            "line 2, place 0: the head of a response begins with a status line\n\
          GET /?? HTTP/1.1\n^"
        ]
    );
    assert_eq!(
        shown("\n"),
        [
            "line 2, place 0: the head of a response begins with a status line",
            "line 2, place 0: the head does not end with an empty line"
        ]
    );
    // A start line of the other kind forbids storing, and so does a missing one.
    let exchange = Exchange::at(Cache::Shared, 784_111_777).with_status(200);
    for (text, obstacle) in [
        ("HTTP/1.1 200 OK\n\n", None),
        ("GET / HTTP/1.1\n\n", Some(Obstacle::NotAResponse)),
        ("Cache-Control: max-age=60\n\n", Some(Obstacle::Incomplete)),
    ] {
        let mut head = Head::parse_response(parser(), text).unwrap();
        assert_eq!(
            head.decide(&exchange, &[]).unwrap().obstacle,
            obstacle,
            "{text:?}"
        );
    }
}

/// What the head of a request says of storing (RFC 9110 section 9.2.3, RFC 9111 section 5.2.1.5).
#[test]
fn what_requests_say_of_storing() {
    let method = Some(Obstacle::Method);
    let no_store = Some(Obstacle::RequestNoStore);
    let authorization = Some(Obstacle::Authorization);
    let request_head = Some(Obstacle::RequestHead);
    let get = "GET / HTTP/1.1\n";
    let rows = [
        ("GET / HTTP/1.1\n\n", None, None),
        ("HEAD / HTTP/1.1\n\n", None, None),
        ("POST / HTTP/1.1\n\n", method, method),
        ("get / HTTP/1.1\n\n", method, method),
        ("GETS / HTTP/1.1\n\n", method, method),
        ("HEA / HTTP/1.1\n\n", method, method),
        ("Age: 1\n\n", None, None), // its method is not known
        ("POST /\n\n", request_head, request_head),
        ("HTTP/1.1 200 OK\n\n", request_head, request_head),
        (
            "GET / HTTP/1.1\nAuthorization: a\n",
            request_head,
            request_head,
        ),
        ("POST / HTTP/1.1\nCache-Control: no-store\n", method, method),
        ("POST / HTTP/1.1\nAuthorization: a\n", method, method),
    ];
    let with_get = [
        ("Cache-Control: no-store\n\n", no_store, no_store),
        (
            "cache-control: max-age=0\nCache-Control: a, No-Store\n\n",
            no_store,
            no_store,
        ),
        (
            "Cache-Control: max-age=0, no-cache, private\n\n",
            None,
            None,
        ),
        ("Cache-Control:\n\n", None, None),
        ("Cache-Control: x=\"no-store\"\n\n", None, None),
        ("Cache-Control: no-store=1\n\n", no_store, no_store),
        ("Cache-Control: a b\n\n", no_store, no_store),
        ("Cache-Control: \u{e9}\n\n", no_store, no_store),
        (
            "CDN-Cache-Control: no-store\nExpires: 0\nPragma: x\n\n",
            None,
            None,
        ),
        (
            "Cache-Control: no-store\nAuthorization: a\n",
            no_store,
            no_store,
        ),
        ("Authorization: a\n\n", authorization, None),
    ];
    let with_get =
        with_get.map(|(lines, shared, private)| ([get, lines].concat(), shared, private));
    let rows = rows.map(|(text, shared, private)| (text.to_string(), shared, private));
    for (text, shared, private) in rows.iter().chain(&with_get) {
        for (cache, expected) in [(Cache::Shared, shared), (Cache::Private, private)] {
            let decide = |exchange: Exchange, response: &str| {
                let mut request = Head::parse(parser(), text).unwrap();
                let exchange = exchange.with_request(&mut request).unwrap();
                let mut response = Head::parse(parser(), response).unwrap();
                response.decide(&exchange, &[]).unwrap().obstacle
            };
            let exchange = Exchange::at(cache, 784_111_777);
            let obstacle = decide(exchange, "HTTP/1.1 200 OK\n\n");
            assert_eq!(obstacle, *expected, "{text:?}");
            // A directive comes before what the request says, its method and no-store before the
            // head of the response, and a head of its own that is incomplete before the status.
            let obstacle = decide(exchange, "HTTP/1.1 200 OK\nCache-Control: no-store\n");
            assert_eq!(obstacle, Some(Obstacle::Directive));
            let of_request = expected.filter(|it| [method, no_store].contains(&Some(*it)));
            let before_status = expected.filter(|it| Some(*it) != authorization);
            let seen = decide(exchange, "HTTP/1.1 100 Go\n\n");
            assert_eq!(seen, before_status.or(Some(Obstacle::Status)), "{text:?}");
            let rest = [
                ("HTTP/1.1 200 OK\n", Obstacle::Incomplete),
                ("GET / HTTP/1.1\n\n", Obstacle::NotAResponse),
            ];
            for (response, obstacle) in rest {
                let seen = decide(exchange, response);
                assert_eq!(seen, of_request.or(Some(obstacle)), "{text:?}");
            }
            let unpermitted = expected.or(Some(Obstacle::Unpermitted));
            assert_eq!(decide(exchange, "HTTP/1.1 500 No\n\n"), unpermitted);
        }
    }
    // What was set before doesn't count, and without the call nothing is known.
    let exchange = Exchange {
        is_other_method: true,
        is_request_no_store: true,
        is_authorized: true,
        is_request_incomplete: true,
        ..Exchange::at(Cache::Shared, 784_111_777)
    };
    let mut request = Head::parse(parser(), "GET / HTTP/1.1\n\n").unwrap();
    assert_eq!(
        exchange.with_request(&mut request).unwrap(),
        Exchange::at(Cache::Shared, 784_111_777)
    );
    // The faults of the request: the first line that is malformed, once.
    let text = "GET / HTTP/1.1\nCache-Control:  no-store\nExpires: 0\nCache-Control:\ta b\n\
                Cache-Control: =\nAge: x\n\n";
    let mut request = Head::parse_request(parser(), text).unwrap();
    assert!(
        exchange
            .with_request(&mut request)
            .unwrap()
            .is_request_no_store
    );
    assert!(
        exchange
            .with_request(&mut request)
            .unwrap()
            .is_request_no_store
    );
    assert_eq!(
        messages(&request, 40),
        [
            "line 4, place 17: Cache-Control: byte 0x62 'b', expected `,` or the end\n\
          Cache-Control:?a b\n                 ^"
        ]
    );
    assert!(!request.is_incomplete());
    let words = [Obstacle::Method, Obstacle::RequestNoStore].map(Obstacle::as_str);
    assert_eq!(
        words,
        [
            "the method of the request is neither GET nor HEAD",
            "the request has no-store or a malformed Cache-Control"
        ]
    );
}

/// `Expires` and `Date` have faults only if the lifetime by `Expires` counts.
#[test]
fn dates_that_count() {
    let rows = [
        // The directives, and whether the dates count in a shared and in a private cache.
        ("", true, true),
        ("public", true, true),
        ("must-revalidate, proxy-revalidate", true, true),
        ("max-age=60", false, false),
        ("max-age=x", false, false),
        ("s-maxage=60", false, true),
        ("s-maxage=x", false, true),
        ("s-maxage=60, max-age=1", false, false),
        ("no-store", false, false),
        ("private", false, true),
        ("no-cache", false, false),
        ("must-understand", false, false),
        ("a b", false, false),
    ];
    let malformed = "Expires: 0\nDate: x\n";
    let repeated = "Expires: Sun, 06 Nov 1994 08:49:37 GMT\nExpires: 0\n\
                    Date: Sun, 06 Nov 1994 08:49:37 GMT\nDate: x\n";
    for (directives, shared, private) in rows {
        for dates in [malformed, repeated] {
            let text = format!("Cache-Control: {directives}\n{dates}\n");
            for (cache, counts) in [(Cache::Shared, shared), (Cache::Private, private)] {
                let exchange = Exchange::at(cache, 784_111_777).with_status(200);
                let mut head = Head::parse(parser(), &text).unwrap();
                let verdict = head.decide(&exchange, &[]).unwrap();
                let of_dates = |field: &str| field == "Expires" || field == "Date";
                let of_verdict = verdict.malformed.iter().filter(|one| of_dates(one.field));
                let of_head = head.malformed().iter().filter(|one| of_dates(&one.field));
                let seen = (of_verdict.count(), of_head.count());
                let expected = if counts { (2, 2) } else { (0, 0) };
                assert_eq!(seen, expected, "{directives}, {cache:?}");
            }
        }
    }
    // A status code that is understood.
    let exchange = Exchange::at(Cache::Shared, 784_111_777).with_understood(true);
    let head = [
        ("Cache-Control", "must-understand, no-store"),
        ("Expires", "0"),
    ];
    assert_eq!(exchange.decide(&[], head).unwrap().malformed.len(), 1);
    // Age counts in each case, and what is told of it comes after the dates.
    let head = [("Age", "x"), ("Expires", "0"), ("Date", "x")];
    let fields = |more: &[(&'static str, &'static str)]| -> Vec<&str> {
        let verdict = exchange.decide(&[], [more, &head].concat()).unwrap();
        verdict.malformed.iter().map(|one| one.field).collect()
    };
    assert_eq!(fields(&[]), ["Expires", "Date", "Age"]);
    assert_eq!(fields(&[("Cache-Control", "max-age=1")]), ["Age"]);
    assert_eq!(
        fields(&[("Cache-Control", "a b")]),
        ["Cache-Control", "Age"]
    );
    // A target with the name of such a field is a structured field.
    let head = [("Expires", "0"), ("Cache-Control", "max-age=1")];
    let verdict = exchange.decide(&["Expires"], head).unwrap();
    assert_eq!(verdict.malformed.len(), 1);
    assert!(matches!(verdict.malformed[0].fault, Fault::Refused(_)));
}

/// A message is written in few parts, however long its excerpt is, since each part may be a call of
/// the system.
#[test]
fn messages_are_written_in_few_parts() {
    use std::fmt::Write;
    #[derive(Default)]
    struct Parts(usize, String);
    impl Write for Parts {
        fn write_str(&mut self, text: &str) -> std::fmt::Result {
            self.0 += 1;
            self.1.write_str(text)
        }
    }
    let line = [&[b'a'; 1000][..], &[0; 1000]].concat();
    let head = Head::parse(parser(), &line).unwrap();
    let parts = |most| {
        let mut parts = Parts::default();
        write!(parts, "{}", head.malformed()[0].excerpt(most)).unwrap();
        assert_eq!(parts.1, head.malformed()[0].excerpt(most).to_string());
        parts
    };
    let (short, long) = (parts(0), parts(usize::MAX));
    assert!(short.1.ends_with("\n......\n   ^"));
    let expected = [
        "\n",
        &"a".repeat(1000),
        &"?".repeat(1000),
        "\n",
        &" ".repeat(1000),
        "^",
    ]
    .concat();
    assert!(long.1.ends_with(&expected));
    assert!(long.0 < short.0 + 30, "{} {}", long.0, short.0);
    // At and around the length of a run.
    for most in 100..150 {
        let shown = parts(most).1;
        let from = 1000 - most / 2;
        let expected = format!(
            "\n...{}{}...\n   {}^",
            "a".repeat(1000 - from),
            "?".repeat(most - (1000 - from)),
            " ".repeat(1000 - from)
        );
        assert!(shown.ends_with(&expected), "{shown}");
    }
    let refusal = sf::check(sf::Kind::Item, &line)
        .unwrap_err()
        .refusal()
        .unwrap();
    let mut parts = Parts::default();
    write!(parts, "{}", refusal.excerpt(&line, 2000)).unwrap();
    assert!(parts.0 < 40 && parts.1.len() > 3000, "{}", parts.0);
}

/// Why a line is no start line and no field line, if it is the first of a head, and why it is no
/// field line, if it is another one.
#[test]
fn words_of_lines() {
    let no_colon = "no colon after the name";
    let bad_byte = "a CR, LF or NUL in the value";
    let [begins, continues] = ["it begins with white space", "it continues the line before"];
    let within = "a CR, LF or NUL in it";
    let no_code = "no status code of three digits";
    let at_end = "no method, target and version";
    let in_target = "white space in the target";
    for (line, at, start, place, first, other) in [
        (" x", 0, at_end, 0, begins, continues),
        ("\t: x", 0, at_end, 0, begins, continues),
        (" / HTTP/1.1", 0, at_end, 0, begins, continues),
        (": x", 0, at_end, 0, "no name", "no name"),
        ("\u{e9}", 0, at_end, 0, "no name", "no name"),
        ("\0", 0, within, 0, "no name", "no name"),
        ("Age", 3, at_end, 3, no_colon, no_colon),
        ("a b: c", 5, at_end, 2, no_colon, no_colon),
        ("GET ", 4, at_end, 4, no_colon, no_colon),
        ("GET /", 5, at_end, 4, no_colon, no_colon),
        ("GET / HTTP/", 6, at_end, 4, no_colon, no_colon),
        ("GET / HTTP/1.1x", 14, at_end, 4, no_colon, no_colon),
        ("GET / HTTP/1.1 ", 14, at_end, 4, no_colon, no_colon),
        ("GET /\tHTTP/1.1", 5, at_end, 4, no_colon, no_colon),
        ("GET  HTTP/1.1", 4, at_end, 5, no_colon, no_colon),
        ("ICY 200 OK", 8, at_end, 4, no_colon, no_colon),
        ("HTTP 1.1", 8, at_end, 5, no_colon, no_colon),
        ("GET /a b HTTP/1.1", 6, in_target, 4, no_colon, no_colon),
        ("GET /a\tb HTTP/1.1", 6, in_target, 4, no_colon, no_colon),
        ("GET  / HTTP/2", 4, in_target, 5, no_colon, no_colon),
        ("GET /  HTTP/1.1", 5, in_target, 4, no_colon, no_colon),
        ("a: \0", 3, within, 3, bad_byte, bad_byte),
        ("a:b\rc\0", 3, within, 3, bad_byte, bad_byte),
        ("GET / HTTP/1.1\0", 14, within, 4, no_colon, no_colon),
        ("GET /\n HTTP/1.1", 5, within, 4, no_colon, no_colon),
        ("\r\r", 0, within, 0, "no name", "no name"),
        ("HTTP/", 5, "no version", 4, no_colon, no_colon),
        ("HTTP/x.1 200 OK", 5, "no version", 4, no_colon, no_colon),
        ("HTTP/\0", 5, within, 4, no_colon, no_colon),
        ("HTTP", 4, at_end, 4, no_colon, no_colon),
        ("http/1.1 200 OK", 4, at_end, 4, no_colon, no_colon),
        ("HTTP/1.1", 8, no_code, 4, no_colon, no_colon),
        ("HTTP/1.1 ", 9, no_code, 4, no_colon, no_colon),
        ("HTTP/2", 6, no_code, 4, no_colon, no_colon),
        ("HTTP/1. 200 OK", 6, no_code, 4, no_colon, no_colon),
        ("HTTP/1.1x 200 OK", 8, no_code, 4, no_colon, no_colon),
        ("HTTP/1.1  200 OK", 9, no_code, 4, no_colon, no_colon),
        ("HTTP/1.1 2x0 OK", 9, no_code, 4, no_colon, no_colon),
        ("HTTP/1.1 099", 9, no_code, 4, no_colon, no_colon),
        ("HTTP/1.1 2000", 9, no_code, 4, no_colon, no_colon),
        ("HTTP/1.1 200 \r: x", 13, within, 4, no_colon, no_colon),
        ("HTTP/1.1 2x0 \0", 13, within, 4, no_colon, no_colon),
    ] {
        let mut head = Head::new(parser());
        for text in ["\r\n", line, line, "", line] {
            assert!(!head.add_line(text).unwrap());
        }
        let shown: Vec<_> = head.malformed().iter().map(ToString::to_string).collect();
        let expected = [
            format!(
                "line 2, place {at}: neither a start line ({start}) nor a field line ({first})"
            ),
            format!("line 3, place {place}: not a field line: {other}"),
            format!("line 5, place {place}: not a field line: {other}"),
        ];
        assert_eq!(shown, expected, "{line}");
    }
    let mut head = Head::new(parser());
    head.add_line("GET / HTTP/1.1").unwrap();
    head.add_line("Age : 1").unwrap();
    for (line, place, why) in [
        ("Foo bar", 4, no_colon),
        ("Foo \t ", 6, no_colon),
        ("Foo", 3, no_colon),
        ("Foo bar: x", 3, "white space after the name"),
    ] {
        head.add_line(line).unwrap();
        let shown = head.malformed().last().unwrap().to_string();
        let number = head.malformed().len() + 1;
        assert_eq!(
            shown,
            format!("line {number}, place {place}: not a field line: {why}")
        );
    }
    assert_eq!(
        head.malformed()[0].to_string(),
        "line 2, place 3: not a field line: white space after the name"
    );
}

/// Where a date is malformed, in each of its formats (RFC 9110 section 5.6.7).
#[test]
fn parts_of_dates() {
    let month = "a day of that month in ";
    let weekday = "the weekday of that day in ";
    let year = "a year from 1970 on in ";
    for (value, place, part) in [
        ("0", 0, ""),
        ("", 0, ""),
        ("sun, 06 Nov 1994 08:49:37 GMT", 0, ""),
        ("Sun", 3, "a comma in "),
        ("Sun 06 Nov 1994 08:49:37 GMT", 3, "a comma in "),
        ("Sun,06 Nov 1994 08:49:37 GMT", 4, "a space in "),
        ("Sun, 6 Nov 1994 08:49:37 GMT", 5, "the day in "),
        ("Sun, 32 Nov 1994 08:49:37 GMT", 5, "the day in "),
        ("Sun, 06-Nov-1994 08:49:37 GMT", 7, "a space in "),
        ("Sun, 06 nov 1994 08:49:37 GMT", 8, "the month in "),
        ("Sun, 06 Nov 94 08:49:37 GMT", 12, "the year in "),
        ("Sun, 06 Nov 1994 8:49:37 GMT", 17, "the time in "),
        ("Sun, 06 Nov 1994 24:00:00 GMT", 17, "the time in "),
        ("Sun, 06 Nov 1994 08:49:60 GMT", 17, "the time in "),
        ("Sun, 06 Nov 1994 08:49 GMT", 17, "the time in "),
        ("Sun, 06 Nov 1994 08:49:37", 25, "a space in "),
        ("Sun, 06 Nov 1994 08:49:37 UTC", 26, "GMT in "),
        ("Sun, 06 Nov 1994 08:49:37 GMT+1", 29, "the end of "),
        ("Mon, 06 Nov 1994 08:49:37 GMT", 0, weekday),
        ("Fri, 31 Feb 1995 08:49:37 GMT", 5, month),
        ("Wed, 31 Dec 1969 23:59:59 GMT", 12, year),
        ("Thu, 29 Feb 1900 08:49:37 GMT", 5, month),
        ("Wed, 29 Feb 2023 08:49:37 GMT", 5, month),
        ("Wed, 29 Feb 2024 08:49:37 GMT", 0, weekday),
        ("Fri, 31 Apr 2026 08:49:37 GMT", 5, month),
        ("Monday, 29-Feb-99 08:49:37 GMT", 8, month),
        ("Friday, 29-Feb-00 08:49:37 GMT", 0, weekday),
        ("Monday, 06-Nov-94 08:49:37 GMT", 0, weekday),
        ("Sun Sep 31 08:49:37 1994", 8, month),
        ("Sat Nov  6 08:49:37 1994", 0, weekday),
        ("Wed Dec 31 23:59:59 1969", 20, year),
        ("Sunday 06-Nov-94 08:49:37 GMT", 6, "a comma in "),
        ("Sunday, 06 Nov 1994 08:49:37 GMT", 10, "a hyphen in "),
        ("Sunday, 06-Nov-9 08:49:37 GMT", 15, "the year in "),
        ("Sun Nov 6 08:49:37 1994", 8, "the day in "),
        ("Sun Nov 00 08:49:37 1994", 8, "the day in "),
        ("Sun Nov  6 08:49:37 94", 20, "the year in "),
        ("Sun Nov  6 08:49:37 1994 GMT", 24, "the end of "),
        ("Sun \u{e9}", 4, "the month in "),
    ] {
        let text = format!("Expires: \t{value}\n\n");
        let mut head = Head::parse(parser(), &text).unwrap();
        let exchange = Exchange::at(Cache::Shared, 784_111_777);
        let verdict = head.decide(&exchange, &[]).unwrap();
        let date = "an HTTP-date, such as Sun, 06 Nov 1994 08:49:37 GMT";
        assert_eq!(
            head.malformed()[0].to_string(),
            format!(
                "line 1, place {}: Expires: expected {part}{date}",
                10 + place
            )
        );
        let alone = verdict.malformed[0].to_string();
        assert_eq!(alone, format!("Expires: expected {date}"));
    }
}

/// Lifetimes that are no numbers of seconds, and where (RFC 9111 sections 1.2.2, 4.2.1 and 5.2.2.1).
/// `c/tests/few_arguments.c` has the same rows.
#[test]
fn numbers_of_seconds() {
    let none = None;
    let (seconds, other) = ("", "max-age");
    for (text, shared, private, number, directive) in [
        (
            r#"Cache-Control: max-age=60, s-maxage="6\0""#,
            none,
            none,
            0,
            seconds,
        ),
        ("Cache-Control: max-age=6o", Some(23), Some(23), 1, seconds),
        (
            r#"Cache-Control: a="max-age=x", Max-Age"#,
            Some(37),
            Some(37),
            1,
            seconds,
        ),
        (
            r#"Cache-Control: max-age="""#,
            Some(23),
            Some(23),
            1,
            seconds,
        ),
        (
            r#"Cache-Control: max-age="6\o""#,
            Some(23),
            Some(23),
            1,
            seconds,
        ),
        (
            "Cache-Control: max-age=-1 , public",
            Some(23),
            Some(23),
            1,
            seconds,
        ),
        (
            "Cache-Control: max-age=60\nX: y\n\
             cache-control: public,, max-age=\"60\", max-age=061",
            Some(46),
            Some(46),
            3,
            other,
        ),
        (
            "Cache-Control: max-age=99999999999, max-age=99999999998",
            none,
            none,
            0,
            seconds,
        ),
        (
            "Cache-Control: max-age=5, s-maxage=6\nCache-Control: S-Maxage=7",
            Some(24),
            none,
            2,
            "s-maxage",
        ),
        (
            "Cache-Control: s-maxage=x, max-age=60",
            Some(24),
            none,
            1,
            seconds,
        ),
        (
            "Cache-Control: s-maxage=60, max-age=x",
            none,
            Some(36),
            1,
            seconds,
        ),
        (
            "Cache-Control: max-age=x, must-revalidate",
            Some(23),
            Some(23),
            1,
            seconds,
        ),
        ("Cache-Control: max-age=x, no-store", none, none, 0, seconds),
        ("Cache-Control: max-age=x, no-cache", none, none, 0, seconds),
        (
            "Cache-Control: max-age=x, private",
            none,
            Some(23),
            1,
            seconds,
        ),
        ("T: max-age=1.5", Some(11), Some(11), 1, seconds),
        (
            r#"T: a="max-age=1", max-age"#,
            Some(25),
            Some(25),
            1,
            seconds,
        ),
        (
            "T: a=(max-age)\nT: b;max-age=1, max-age=\"60\"",
            Some(24),
            Some(24),
            2,
            seconds,
        ),
        (
            "T: max-age=5\nT: max-age=-5",
            Some(11),
            Some(11),
            2,
            seconds,
        ),
        ("T: max-age=-5\nT: max-age=5", none, none, 0, seconds),
        ("T: s-maxage=?0, max-age=6", Some(12), none, 1, seconds),
        ("T: max-age=a, no-cache", none, none, 0, seconds),
    ] {
        for (cache, place) in [(Cache::Shared, shared), (Cache::Private, private)] {
            let text = format!("{text}\n\n");
            let mut head = Head::parse(parser(), &text).unwrap();
            let exchange = Exchange::at(cache, 784_111_777);
            let verdict = head.decide(&exchange, &["T"]).unwrap();
            assert_eq!(head.decide(&exchange, &["T"]).unwrap(), verdict);
            let found: Vec<_> = head
                .malformed()
                .iter()
                .map(|one| (one.number, one.offset, one.fault))
                .collect();
            let expected = place.map(|offset| {
                let fault = if directive.is_empty() {
                    Fault::NotSeconds { offset }
                } else {
                    Fault::OtherSeconds { directive, offset }
                };
                (number, offset, fault)
            });
            assert_eq!(found, Vec::from_iter(expected), "{text}");
            // In the value of a line of other heads, with the white space before it.
            let lines = [(" T", "\t max-age=1.5"), ("X", "y")];
            let verdict = parser().decide(&exchange, &["T"], lines).unwrap();
            let fault = verdict.malformed[0].fault;
            assert_eq!(fault, Fault::NotSeconds { offset: 10 });
            assert_eq!(verdict.malformed[0].line, 0);
        }
    }
    let words = [
        Fault::NotSeconds { offset: 0 },
        Fault::OtherSeconds {
            directive: "s-maxage",
            offset: 0,
        },
    ];
    assert_eq!(
        words.map(|fault| fault.to_string()),
        [
            "expected a number of seconds",
            "s-maxage had another value before"
        ]
    );
}

/// What is expected in a line of `Cache-Control`.
#[test]
fn words_of_directives() {
    for (line, expected) in [
        ("a b", "byte 0x62 'b', expected `,` or the end"),
        ("a=\"b\"c", "byte 0x63 'c', expected `,` or the end"),
        ("a=", "the text ended, expected a token or a quoted-string"),
        ("a==", "byte 0x3d '=', expected a token or a quoted-string"),
        ("=a", "byte 0x3d '=', expected a directive"),
        ("a, =", "byte 0x3d '=', expected a directive"),
        (
            "a\"",
            "byte 0x22 '\"', expected a token character, `=`, `,` or the end",
        ),
        (
            "a=b\"",
            "byte 0x22 '\"', expected a token character, `,` or the end",
        ),
        (
            "a=\"b",
            "the text ended, expected the rest of a quoted-string",
        ),
        (
            "a=\"\\",
            "the text ended, expected the rest of a quoted-string",
        ),
        (
            "a=\"\x01\"",
            "byte 0x01, expected the rest of a quoted-string",
        ),
    ] {
        let mut head = Head::new(parser());
        head.add_field("Cache-Control", line).unwrap();
        let exchange = Exchange::at(Cache::Shared, 784_111_777);
        let verdict = head.decide(&exchange, &[]).unwrap();
        let shown = head.malformed()[0].to_string();
        assert!(
            shown.ends_with(&format!(": Cache-Control: {expected}")),
            "{shown}"
        );
        // The same with the place, in other messages.
        let (found, words) = expected.split_once(", ").unwrap();
        let shown = verdict.malformed[0].to_string();
        assert!(shown.starts_with(&format!("Cache-Control: {found} at place ")));
        assert!(shown.ends_with(&format!(", {words}")), "{shown}");
    }
}

/// Where nodes begin in the text of their field. `c/tests/few_arguments.c` has the same rows.
#[test]
fn places_of_nodes() {
    let rows: [(Kind, &str, &[usize]); 7] = [
        (Kind::Item, "  7;a;b=1", &[2, 4, 6]),
        (
            Kind::List,
            "a;x,(b  \"),;\\\"(\";y;z=\":\" 1.5);w ,\t:YQ==:, ?0;  k",
            &[0, 2, 4, 5, 8, 17, 19, 25, 30, 34, 42, 47],
        ),
        (
            Kind::List,
            "%\"\\%22,\", (%\"(\" @7);a, -1",
            &[0, 10, 11, 16, 20, 23],
        ),
        (
            Kind::Dict,
            "a=1, b;x;y=2,c=(d e;f);g",
            &[0, 5, 7, 9, 13, 16, 18, 20, 23],
        ),
        (Kind::Dict, "b1=(a;q=*:/),b", &[0, 4, 6, 13]),
        // The last of a key that is repeated counts.
        (
            Kind::Dict,
            "a=1, b=2;x;x=3, a=(1 2);q, a=(\"b\" c;y=1;y);z;z",
            &[27, 30, 34, 40, 45, 5, 11],
        ),
        (
            Kind::Dict,
            "sig=(\"a\" \"b\";p);q, sig=(\"a\";p \"b\";p);q;q",
            &[19, 24, 28, 30, 34, 39],
        ),
    ];
    fn offsets(nodes: sf::Nodes<'_, '_>, text: &str, found: &mut Vec<usize>) {
        for node in nodes {
            found.push(node.place().offset_in(text));
            offsets(node.children(), text, found);
        }
    }
    for (kind, text, expected) in rows {
        let tree = Parser::new().tree(kind, text).unwrap();
        let mut found = Vec::new();
        offsets(tree.members(), text, &mut found);
        assert_eq!(found, expected, "{text}");
    }
    // Any text, and any place.
    for text in [
        "", " ", "(", "a=(", "a=", "\"", ":", "%", "a;", "(a;", "a,", "(,", "\"\\", "a=%",
    ] {
        for place in [Place::member("a"), Place::index(1), Place::from(7)] {
            for place in [
                place,
                place.item(0),
                place.item(usize::MAX),
                place.param("x"),
            ] {
                assert!(place.offset_in(text) <= 7);
            }
        }
    }
}

/// Each of very many faults is added without looking at all others, which would take minutes.
#[test]
fn very_many_faults() {
    let text = "x\n".repeat(200_000) + "\n";
    let mut head = Head::parse(parser(), &text).unwrap();
    assert_eq!(head.malformed().len(), 200_000);
    for _ in 0..200_000 {
        head.add_fault("", 0, "").unwrap();
    }
    assert_eq!(head.malformed().len(), 400_000);
}

/// What is malformed in whole heads: "A server MUST reject .. any received request message that
/// contains whitespace between a header field name and colon", and "A proxy MUST remove any such
/// whitespace from a response message" (RFC 9112 section 5.1); "No whitespace is allowed in the
/// request-target" (section 3.2). `c/tests/few_arguments.c` has the same rows.
#[test]
fn faults_of_whole_heads() {
    type Row<'a> = (&'a str, &'a str, usize, bool, &'a [&'a str]);
    let rows: &[Row<'_>] = &[
        (
            "request",
            "GET /a b HTTP/1.1\r\nHost : x\r\nPriority: u=1\r\n\r\n",
            1,
            true,
            &[
                "line 1, place 6: neither a start line (white space in the target) \
                 nor a field line (no colon after the name)\n\
                 GET /a b HTTP/1.1\n\
                 \x20     ^",
                "line 2, place 4: not a field line: white space after the name\n\
                 Host : x\n\
                 \x20   ^",
            ],
        ),
        (
            "head",
            "GET /a b HTTP/1.1\r\nHost : x\r\nPriority: u=1\r\n\r\n",
            2,
            true,
            &[
                "line 1, place 6: neither a start line (white space in the target) \
                 nor a field line (no colon after the name)\n\
                 GET /a b HTTP/1.1\n\
                 \x20     ^",
                "line 2, place 4: white space before the colon\n\
                 Host : x\n\
                 \x20   ^",
            ],
        ),
        (
            "response",
            "GET /a b HTTP/1.1\r\nHost : x\r\nPriority: u=1\r\n\r\n",
            2,
            true,
            &[
                "line 1, place 0: neither a start line (a status line begins with HTTP/) \
                 nor a field line (no colon after the name)\n\
                 GET /a b HTTP/1.1\n\
                 ^",
                "line 2, place 4: white space before the colon\n\
                 Host : x\n\
                 \x20   ^",
            ],
        ),
        (
            "request",
            "\r\nGET /\nA : b\nC: d\n\n",
            1,
            true,
            &[
                "line 2, place 5: neither a start line (no method, target and version) \
                 nor a field line (no colon after the name)\n\
                 GET /\n\
                 \x20    ^",
                "line 3, place 1: not a field line: white space after the name\n\
                 A : b\n\
                 \x20^",
            ],
        ),
        (
            "response",
            "HTTP/1.1 2x0 OK\r\nAge \t: 1\r\n\r\n",
            1,
            true,
            &[
                "line 1, place 9: neither a start line (no status code of three digits) \
                 nor a field line (no colon after the name)\n\
                 HTTP/1.1 2x0 OK\n\
                 \x20        ^",
                "line 2, place 3: white space before the colon\n\
                 Age ?: 1\n\
                 \x20  ^",
            ],
        ),
        (
            "response",
            "HTTP/1.1 200 OK\r\nAge\t : 1\r\nVia: a\r\n\r\n",
            2,
            false,
            &["line 2, place 3: white space before the colon\n\
                 Age? : 1\n\
                 \x20  ^"],
        ),
        (
            "request",
            "HTTP/1.1 200 OK\r\nAge\t : 1\r\nVia: a\r\n\r\n",
            1,
            true,
            &[
                "line 1, place 0: the head of a request begins with a request line\n\
                 HTTP/1.1 200 OK\n\
                 ^",
                "line 2, place 3: not a field line: white space after the name\n\
                 Age? : 1\n\
                 \x20  ^",
            ],
        ),
        (
            "response",
            "GET / HTTP/1.1\nAge : 1\n\n",
            0,
            true,
            &[
                "line 1, place 0: the head of a response begins with a status line\n\
                 GET / HTTP/1.1\n\
                 ^",
                "line 2, place 3: not a field line: white space after the name\n\
                 Age : 1\n\
                 \x20  ^",
            ],
        ),
        (
            "request",
            "Age : 1\n\n",
            0,
            true,
            &[
                "line 1, place 6: neither a start line (no method, target and version) \
                 nor a field line (white space after the name)\n\
                 Age : 1\n\
                 \x20     ^",
            ],
        ),
        (
            "request",
            "Age\t: 1\n\n",
            0,
            true,
            &[
                "line 1, place 3: neither a start line (no method, target and version) \
                 nor a field line (white space after the name)\n\
                 Age?: 1\n\
                 \x20  ^",
            ],
        ),
        (
            "response",
            "Age : 1\n\n",
            1,
            true,
            &[
                "line 1, place 3: white space before the colon\n\
                 Age : 1\n\
                 \x20  ^",
                "line 1, place 0: the head of a response begins with a status line\n\
                 Age : 1\n\
                 ^",
            ],
        ),
        (
            "head",
            "Age : 1\n\n",
            1,
            false,
            &["line 1, place 3: white space before the colon\n\
                 Age : 1\n\
                 \x20  ^"],
        ),
        ("response", "HTTP/2 200\n\n", 0, false, &[]),
        // "HTTP-name is case-sensitive" (RFC 9112 section 2.3)
        (
            "response",
            "http/1.1 200 OK\nAge: 1\n\n",
            1,
            true,
            &[
                "line 1, place 0: neither a start line (a status line begins with HTTP/) \
                 nor a field line (no colon after the name)\n\
                 http/1.1 200 OK\n\
                 ^",
            ],
        ),
        (
            "head",
            "http/1.1 200 OK\nAge: 1\n\n",
            1,
            true,
            &[
                "line 1, place 4: neither a start line (no method, target and version) \
                 nor a field line (no colon after the name)\n\
                 http/1.1 200 OK\n\
                 \x20   ^",
            ],
        ),
        (
            "request",
            "http/1.1 200 OK\n\n",
            0,
            true,
            &[
                "line 1, place 4: neither a start line (no method, target and version) \
                 nor a field line (no colon after the name)\n\
                 http/1.1 200 OK\n\
                 \x20   ^",
            ],
        ),
        (
            "response",
            "HTTP\n\n",
            0,
            true,
            &[
                "line 1, place 4: neither a start line (a status line begins with HTTP/) \
                 nor a field line (no colon after the name)\n\
                 HTTP\n\
                 \x20   ^",
            ],
        ),
        (
            "response",
            "HTTP/x\n\n",
            0,
            true,
            &["line 1, place 5: neither a start line (no version) \
                 nor a field line (no colon after the name)\n\
                 HTTP/x\n\
                 \x20    ^"],
        ),
        (
            "response",
            "200\rOK\n\n",
            0,
            true,
            &[
                "line 1, place 3: neither a start line (a CR, LF or NUL in it) \
                 nor a field line (no colon after the name)\n\
                 200?OK\n\
                 \x20  ^",
            ],
        ),
        (
            "request",
            "GET / HTTP/1.1\nHost: x",
            1,
            true,
            &[
                "line 2, place 7: the head is cut off: its last line has no line end\n\
                 Host: x\n\
                 \x20      ^",
            ],
        ),
        (
            "request",
            "GET / HTTP/1.1\nHost",
            0,
            true,
            &[
                "line 2, place 4: not a field line: no colon after the name\n\
                 Host\n\
                 \x20   ^",
                "line 2, place 4: the head is cut off: its last line has no line end\n\
                 Host\n\
                 \x20   ^",
            ],
        ),
        (
            "request",
            "GET / HTTP/1.1\nHost: x\r",
            1,
            true,
            &[
                "line 2, place 8: the head is cut off: its last line has no line end\n\
                 Host: x?\n\
                 \x20       ^",
            ],
        ),
        (
            "request",
            "GET / HTTP/1.1",
            0,
            true,
            &[
                "line 1, place 14: the head is cut off: its last line has no line end\n\
                 GET / HTTP/1.1\n\
                 \x20             ^",
            ],
        ),
        (
            "response",
            "HTTP/1.1 20",
            0,
            true,
            &[
                "line 1, place 9: neither a start line (no status code of three digits) \
                 nor a field line (no colon after the name)\n\
                 HTTP/1.1 20\n\
                 \x20        ^",
                "line 1, place 11: the head is cut off: its last line has no line end\n\
                 HTTP/1.1 20\n\
                 \x20          ^",
            ],
        ),
        (
            "request",
            "GET / HTTP/1.1\r\n",
            0,
            true,
            &["line 2, place 0: the head does not end with an empty line"],
        ),
        (
            "head",
            "Host: x\r\n\r",
            1,
            true,
            &[
                "line 2, place 1: the head is cut off: its last line has no line end\n\
                 ?\n\
                 \x20^",
            ],
        ),
        (
            "response",
            "",
            0,
            true,
            &[
                "line 1, place 0: the head of a response begins with a status line",
                "line 1, place 0: the head does not end with an empty line",
            ],
        ),
    ];
    for (kind, text, lines, is_incomplete, expected) in rows {
        let head = match *kind {
            "request" => Head::parse_request(parser(), text).unwrap(),
            "response" => Head::parse_response(parser(), text).unwrap(),
            _ => Head::parse(parser(), text).unwrap(),
        };
        assert_eq!(messages(&head, 60), *expected, "{kind} {text:?}");
        assert_eq!(head.lines().len(), *lines, "{kind} {text:?}");
        assert_eq!(head.is_incomplete(), *is_incomplete, "{kind} {text:?}");
    }
}

/// Each member of Cache-Status that names no cache is a fault: "Each List member identifies the cache
/// that inserted it, and this identifier MUST be a String or Token" (RFC 9211 section 2).
/// `c/tests/few_arguments.c` has the same rows.
#[test]
fn members_that_name_no_cache() {
    let rows: &[(&str, &[&str])] = &[
        (
            "Cache-Status: 7, a, (b c), \"d, 1\"; x=\", 2\", ?1,*e\n\n",
            &[
                "line 1, place 14: Cache-Status: the member does not name a cache, \
                 expected a Token or a String\n\
                 Cache-Status: 7, a, (b c), \"d, 1\"; x=\", 2\", ?1,*e\n\
                 \x20             ^",
                "line 1, place 20: Cache-Status: the member does not name a cache, \
                 expected a Token or a String\n\
                 Cache-Status: 7, a, (b c), \"d, 1\"; x=\", 2\", ?1,*e\n\
                 \x20                   ^",
                "line 1, place 44: Cache-Status: the member does not name a cache, \
                 expected a Token or a String\n\
                 Cache-Status: 7, a, (b c), \"d, 1\"; x=\", 2\", ?1,*e\n\
                 \x20                                           ^",
            ],
        ),
        (
            "Cache-Status: a; hit, 1.5\nAge: 1\ncache-status:\t:YQ==:, *b;hit\n\n",
            &[
                "line 1, place 22: Cache-Status: the member does not name a cache, \
                 expected a Token or a String\n\
                 Cache-Status: a; hit, 1.5\n\
                 \x20                     ^",
                "line 3, place 14: Cache-Status: the member does not name a cache, \
                 expected a Token or a String\n\
                 cache-status:?:YQ==:, *b;hit\n\
                 \x20             ^",
            ],
        ),
        (
            "Cache-Status: \"c\nCache-Status: 1\", 2\nCache-Status: -3\n\n",
            &[
                "line 2, place 18: Cache-Status: the member does not name a cache, \
                 expected a Token or a String\n\
                 Cache-Status: 1\", 2\n\
                 \x20                 ^",
                "line 3, place 14: Cache-Status: the member does not name a cache, \
                 expected a Token or a String\n\
                 Cache-Status: -3\n\
                 \x20             ^",
            ],
        ),
        (
            "HTTP/2 200\nCache-Status : 1, 2\nx\nCache-Status: 3\n\n",
            &[
                "line 2, place 12: white space before the colon\n\
                 Cache-Status : 1, 2\n\
                 \x20           ^",
                "line 2, place 15: Cache-Status: the member does not name a cache, \
                 expected a Token or a String\n\
                 Cache-Status : 1, 2\n\
                 \x20              ^",
                "line 2, place 18: Cache-Status: the member does not name a cache, \
                 expected a Token or a String\n\
                 Cache-Status : 1, 2\n\
                 \x20                 ^",
                "line 3, place 1: not a field line: no colon after the name\n\
                 x\n\
                 \x20^",
                "line 4, place 14: Cache-Status: the member does not name a cache, \
                 expected a Token or a String\n\
                 Cache-Status: 3\n\
                 \x20             ^",
            ],
        ),
        ("Cache-Status: a, \"b\", *c\n\n", &[]),
        (
            "Cache-Status: 1, 2,\n\n",
            &[
                "line 1, place 19: Cache-Status: the text ended, expected a letter, \
                 a digit, a quote, `(`, `*`, `-`, `:`, `?`, a tab or a space\n\
                 Cache-Status: 1, 2,\n\
                 \x20                  ^",
            ],
        ),
    ];
    for (text, expected) in rows {
        let mut head = Head::parse(parser(), text).unwrap();
        for _ in 0..2 {
            let hops = if expected.is_empty() { 3 } else { 0 };
            assert_eq!(head.path().unwrap().hops().len(), hops);
            assert_eq!(messages(&head, 60), *expected, "{text:?}");
        }
    }
    // A line that is added later.
    let mut head = Head::new(parser());
    head.add_line("Cache-Status: 1, 2").unwrap();
    head.add_line("x").unwrap();
    head.path().unwrap();
    head.add_line("cache-status: a, 3, 4").unwrap();
    head.path().unwrap();
    let places = head.malformed().iter().map(|one| (one.number, one.offset));
    assert!(places.eq([(1, 14), (1, 17), (2, 1), (3, 17), (3, 20)]));
    let is_refused = |one: &HeadFault<'_>| matches!(one.fault, Fault::NotALine(_));
    assert!(is_refused(&head.malformed()[2]) && head.malformed()[4].fault == Fault::NotACache);
    // Very many members, and very many faults of other lines after them: this would take minutes
    // if each moved all others.
    const MANY: usize = 100_000;
    let text =
        "Cache-Status:1".to_string() + &",1".repeat(MANY - 1) + "\n" + &"x\n".repeat(MANY) + "\n";
    let mut head = Head::parse(parser(), &text).unwrap();
    for _ in 0..2 {
        head.path().unwrap();
        assert_eq!(head.malformed().len(), 2 * MANY);
    }
    assert_eq!(head.malformed()[MANY].number, 2);
    assert_eq!(head.malformed()[MANY - 1].offset, 13 + 2 * (MANY - 1));
}

/// Numbers with too many digits (RFC 9651 sections 3.3.1, 3.3.2 and 3.3.7), and what is like them.
/// `c/tests/few_arguments.c` has the same rows.
#[test]
fn numbers_with_too_many_digits() {
    for (value, place, is_long) in [
        ("1234567890123456", 15, true),
        ("-1234567890123456", 16, true),
        ("a;q=1234567890123456", 19, true),
        ("a, 1234567890123.5", 16, true),
        ("-1234567890123.5", 14, true),
        ("123456789012345.", 15, true),
        ("1.2345", 5, true),
        ("-123456789012.1234", 17, true),
        ("@1234567890123456", 16, true),
        ("@-1234567890123456", 17, true),
        ("@1234567890123.5", 14, false),
        ("@-1234567890123.5", 15, false),
        ("?11", 2, false),
        (":1234567890123.:", 14, false),
        ("1.2.3", 3, false),
        ("1..2", 2, false),
        ("%\"%c31\"", 5, false),
        ("123456789012345a", 15, false),
        ("1.234.", 5, false),
    ] {
        let line = format!("A:{value}");
        let mut received = Head::new(Parser::new());
        received.add_line(&line).unwrap();
        let mut other = Head::new(Parser::new());
        other.add_field("A", value).unwrap();
        for (mut head, place) in [(received, place + 2), (other, place)] {
            assert_eq!(head.field::<List>("A").unwrap(), None);
            let words = if is_long { "too many digits: " } else { "" };
            let shown = head.malformed()[0].to_string();
            let expected = format!("line 1, place {place}: A: {words}byte 0x");
            assert!(shown.starts_with(&expected), "{shown}");
        }
    }
}

/// Lines to which the program gives one number are several lines all the same.
#[test]
fn lines_of_one_number() {
    let mut head = Head::new(parser());
    for line in ["A: (1)", "A: )", "B: x y", "?", "?"] {
        head.set_number(7);
        head.add_line(line).unwrap();
    }
    assert_eq!(head.malformed().len(), 2);
    for _ in 0..2 {
        assert_eq!(head.field::<List>("A").unwrap(), None);
        assert_eq!(head.field::<Dictionary>("A").unwrap(), None);
    }
    assert_eq!(head.malformed().len(), 4);
    let found = |at: usize| (head.malformed()[at].line, head.malformed()[at].offset);
    assert_eq!(found(2), (&b"A: )"[..], 3));
    assert_eq!(found(3), (&b"A: (1)"[..], 3));
    assert_eq!(head.locate("B", 2).unwrap(), Some((head.lines()[2], 5)));
    assert_eq!(head.locate("A", 5).unwrap(), Some((head.lines()[1], 3)));
    head.add_fault("B", 2, "not so").unwrap();
    assert_eq!(head.malformed()[4].line, b"B: x y");
}

/// Faults that a program finds.
#[test]
fn faults_of_programs() {
    let text = "GET / HTTP/1.1\r\nSignature-Input:  a=(\"@path\");created=1, b=1\r\nHost: x\r\n\
                signature-input: c;created=\"7\", d=()\r\n\r\n";
    let name = "Signature-Input";
    let mut head = Head::parse_request(parser(), text).unwrap();
    let field: Dictionary = head.field(name).unwrap().unwrap();
    for (key, _) in field.iter().filter(|(_, it)| it.as_inner_list().is_none()) {
        head.add_fault(name, key, "not an Inner List").unwrap();
    }
    assert_eq!(
        head.malformed()[0].excerpt_in("a.txt", 80).to_string(),
        "a.txt, line 2, place 41: Signature-Input: not an Inner List\n\
         Signature-Input:  a=(\"@path\");created=1, b=1\n\
         \x20                                        ^"
    );
    assert_eq!(
        messages(&head, 8)[1],
        "line 4, place 17: Signature-Input: not an Inner List\n...ut: c;cr...\n       ^"
    );
    assert_eq!(head.malformed()[1].fault, Fault::Own);
    assert_eq!(head.malformed()[1].message, "not an Inner List");
    let (line, place) = head
        .locate(name, Place::member("c").param("created"))
        .unwrap()
        .unwrap();
    assert_eq!((line, place), (head.lines()[2], 19));
    // Another message at a place, other fields, an offset after all lines, no field, no name.
    head.add_fault(name, "c", "not signed").unwrap();
    head.add_fault("Host", 0, "an unknown host").unwrap();
    head.add_fault("host", usize::MAX, "no port").unwrap();
    head.add_fault("Signature", 5, "it is missing").unwrap();
    head.add_fault("", 0, &format!("{} more", 1)).unwrap();
    assert_eq!(
        messages(&head, 80)[1..],
        [
            "line 3, place 6: Host: an unknown host\nHost: x\n      ^",
            "line 3, place 7: host: no port\nHost: x\n       ^",
            "line 4, place 17: Signature-Input: not an Inner List\n\
             signature-input: c;created=\"7\", d=()\n                 ^",
            "line 4, place 17: Signature-Input: not signed\n\
             signature-input: c;created=\"7\", d=()\n                 ^",
            "line 5, place 0: Signature: it is missing",
            "line 5, place 0: 1 more",
        ]
    );
    // The same once more is one more.
    head.add_fault("Host", 0, "an unknown host").unwrap();
    assert_eq!(head.malformed()[3], head.malformed()[1]);
    assert_eq!(head.malformed().len(), 8);
    assert_eq!(head.locate("Signature", 5).unwrap(), None);
    // Without lines; the faults outlive the head.
    let mut head = Head::new(parser());
    head.add_fault("A", "a", "b").unwrap();
    let faults = head.malformed().to_vec();
    drop(head);
    assert_eq!(faults[0].to_string(), "line 1, place 0: A: b");
}

/// Lines with one number, such as those of a head that has no numbers, and with the largest.
#[test]
fn lines_of_the_last_number() {
    let mut head = Head::new(parser());
    for line in ["Host: x", "A: b=1", "a", "A: c", "b", ""] {
        head.set_number(usize::MAX);
        head.add_line(line).unwrap();
    }
    let (line, place) = head.locate("A", "c").unwrap().unwrap();
    assert_eq!((line, place), (head.lines()[2], 3));
    head.add_fault("A", "b", "no number").unwrap();
    head.add_fault("B", "b", "it is missing").unwrap();
    let number = usize::MAX;
    assert_eq!(
        messages(&head, 40),
        [
            format!("line {number}, place 1: not a field line: no colon after the name\na\n ^"),
            format!("line {number}, place 1: not a field line: no colon after the name\nb\n ^"),
            format!("line {number}, place 3: A: no number\nA: b=1\n   ^"),
            format!("line {number}, place 0: B: it is missing"),
        ]
    );
}

/// A request line whose target has a colon is no field line, and an empty line whose LF is missing
/// does not end a head.
#[test]
fn lines_like_others() {
    let mut head = Head::new(parser());
    assert!(!head.add_line("CONNECT :443 HTTP/1.1").unwrap() && head.lines().is_empty());
    assert!(!head.add_line("Authorization : x").unwrap());
    assert_eq!((head.malformed().len(), head.malformed()[0].number), (1, 2));

    let head = Head::parse(parser(), "HTTP/1.1 200\r\na: b\r\n\r").unwrap();
    assert!(head.is_incomplete() && head.content().is_none());
    assert_eq!(
        messages(&head, 40),
        ["line 3, place 1: the head is cut off: its last line has no line end\n?\n ^"]
    );
}

/// Where lines are no field lines, and some of the bytes that are expected there.
#[test]
fn lines_that_are_no_field_lines() {
    type Row<'a> = (&'a [u8], u64, Option<u8>, bool, &'a [u8], &'a [u8]);
    let rows: [Row<'_>; 9] = [
        (b"Age", 3, None, false, b":a! \t", b"\"("),
        (b"Age 20", 4, Some(b'2'), false, b": \t", b"2a"),
        (b" x", 0, Some(b' '), false, b"a0~", b": \t"),
        (b": x", 0, Some(b':'), false, b"a0~", b": \t"),
        (b"a\xe9: x", 1, Some(0xe9), false, b":a ", b"("),
        (b"a: b\0c", 4, Some(0), true, b"c \t~", b"\r\n\0\x01"),
        (b"a: b\r\r\n", 4, Some(b'\r'), true, b"c \t", b"\r"),
        (b"a: b\n\n", 4, Some(b'\n'), true, b"c", b"\n"),
        (b"a b: c", 2, Some(b'b'), false, b":", b"b"),
    ];
    for (line, offset, found, may_end, expected, barred) in rows {
        let mut head = Head::new(parser());
        head.add_line("HTTP/1.1 200").unwrap();
        assert!(!head.add_line(line).unwrap());
        assert_eq!(sf::split_field_line(line), None);
        let one = &head.malformed()[0];
        assert_eq!((one.number, one.offset as u64), (2, offset));
        let refusal = match one.fault {
            Fault::NotALine(refusal) => refusal,
            fault => panic!("{fault:?}"),
        };
        assert_eq!((refusal.offset, refusal.found), (offset, found));
        assert_eq!(refusal.may_end, may_end);
        assert!(
            expected.iter().all(|byte| refusal.expects(*byte)),
            "{refusal:?}"
        );
        assert!(
            !barred.iter().any(|byte| refusal.expects(*byte)),
            "{refusal:?}"
        );
    }
}

#[test]
fn lines_of_a_head() {
    let text = "\r\n\nHTTP/1.1 200 OK\r\nAge: 1\r\nVia\r\n\tx\r\nVia: \ta \r\n\r\nDate: x\r\n";
    let head = Head::parse(parser(), text).unwrap();
    assert_eq!(head.content(), Some(b"Date: x\r\n".as_slice()));
    assert_eq!((head.lines().len(), head.status()), (2, Some(200)));
    let (age, via) = (head.lines()[0], head.lines()[1]);
    assert_eq!(
        (age.name, age.value, age.number),
        (&b"Age"[..], &b"1"[..], 4)
    );
    assert_eq!((via.value, via.received), (&b"a"[..], &b"Via: \ta "[..]));
    assert_eq!(via.number, 7);
    let found: Vec<_> = head
        .malformed()
        .iter()
        .map(|one| (one.number, one.line))
        .collect();
    assert_eq!(found, [(5, &b"Via"[..]), (6, &b"\tx"[..])]);
    assert_eq!(
        messages(&head, 9)[0],
        "line 5, place 3: not a field line: no colon after the name\nVia\n   ^"
    );
    for (text, lines, content) in [
        ("", 0, None),
        ("\r\n", 0, None),
        ("\nabc: d\n\n", 1, Some("")),
        ("a: b", 1, None),
        ("a: b\n\r\n\r\n", 1, Some("\r\n")),
    ] {
        let head = Head::parse(parser(), text).unwrap();
        let seen = (head.lines().len(), head.content());
        assert_eq!(seen, (lines, content.map(str::as_bytes)));
        assert_eq!(head.is_incomplete(), content.is_none());
    }
}

#[test]
fn fields_of_a_head() {
    let text = "Priority: u=5\r\npriority: i=,\r\nExample:\ta=1;b=?2\r\n\
                Cache-Status: origin; fwd=miss\r\ncache-status: edge; hit, 7\r\nName: Value\r\n\r\n";
    let mut head = Head::parse(parser(), text).unwrap();
    assert_eq!(head.priority().unwrap(), Priority::default());
    assert_eq!(
        head.response_priority().unwrap(),
        ResponsePriority::default()
    );
    assert_eq!(head.field::<Dictionary>("Example").unwrap(), None);
    assert_eq!(head.field::<List>("Absent").unwrap(), None);
    assert_eq!(head.field::<Item>("Absent").unwrap(), None);
    assert_eq!(head.path().unwrap().hops().len(), 0);
    let item: Item = head.field("name").unwrap().unwrap();
    assert_eq!(item.bare_item.as_token(), Some("Value"));
    let found: Vec<_> = head
        .malformed()
        .iter()
        .map(|one| (one.field.as_str(), one.number, one.offset))
        .collect();
    assert_eq!(
        found,
        [
            ("Priority", 2, 12),
            ("Example", 3, 16),
            ("Cache-Status", 5, 25)
        ]
    );
    for one in &head.malformed()[..2] {
        assert!(
            matches!(one.fault, Fault::Refused(refusal) if refusal.offset == one.offset as u64)
        );
    }
    assert_eq!(
        messages(&head, 26)[2],
        "line 5, place 25: Cache-Status: the member does not name a cache, \
         expected a Token or a String\n\
         cache-status: edge; hit, 7\n                         ^"
    );
    head.path().unwrap();
    // A member that names no cache stays where it is.
    let hop = Hop::new(TokenRef::constant("edge")).with_outcome(Outcome::Hit);
    let sent = head.append_or_replace(&hop).unwrap();
    assert_eq!(sent.as_str(), "origin;fwd=miss, edge;hit, 7, edge;hit");
    assert_eq!(head.malformed().len(), 3);

    let mut head = Head::parse(parser(), "Cache-Status: a; hit,\r\n\r\n").unwrap();
    assert_eq!(head.append_or_replace(&hop).unwrap().as_str(), "edge;hit");
    let conflict = Hop {
        outcome: Outcome::Conflict(sf::Forwarded::new(sf::Forward::Miss)),
        ..hop
    };
    assert_eq!(head.append_or_replace(&conflict), Err(sf::Error::Invalid));
    assert_eq!(
        (head.malformed().len(), head.malformed()[0].offset),
        (1, 21)
    );
}

/// What a decision finds malformed (RFC 9111 sections 4.2.1, 5.1 and 5.2; RFC 9213 section 2.1).
#[test]
fn faults_of_decisions() {
    let rows: &[(&str, &[&str])] = &[
        (
            "Age: 5\nCache-Control: max-age=60, a=\"b\\\"c\" , ,d\t,\n\
             Date: Sun, 06 Nov 1994 08:49:37 GMT\n",
            &[],
        ),
        (
            "T: max-age=60,\nAge: \t90x \n",
            &[
                "line 1, place 14: T: the text ended, expected a lower-case letter, `*`, a tab or \
                 a space\nT: max-age=60,\n              ^",
                "line 2, place 8: Age: expected a number of seconds\nAge: ?90x \n        ^",
            ],
        ),
        (
            "Age:\nAge: 5\n",
            &[
                "line 1, place 4: Age: expected a number of seconds\nAge:\n    ^",
                "line 2, place 5: Age: there are several values\nAge: 5\n     ^",
            ],
        ),
        // "a cache encountering a message with a list-based Age field value SHOULD use the first
        // member of the field value, discarding subsequent ones" (RFC 9111 section 5.1)
        (
            "Age: 20\t, x\n",
            &["line 1, place 10: Age: there are several values\nAge: 20?, x\n          ^"],
        ),
        (
            "Age: 5\nAge: x\n",
            &["line 2, place 5: Age: there are several values\nAge: x\n     ^"],
        ),
        (
            "Age: 5, 6\nAge: 7\n",
            &["line 1, place 8: Age: there are several values\nAge: 5, 6\n        ^"],
        ),
        ("Age: 5 ,\t,\n", &[]), // empty members are none (RFC 9110 section 5.6.1.2)
        (
            "Age: 5,,\nVia: a\nage:\n",
            &["line 3, place 4: Age: there are several values\nage:\n    ^"],
        ),
        (
            "Age: , 20,30\n",
            &[
                "line 1, place 5: Age: expected a number of seconds\nAge: , 20,30\n     ^",
                "line 1, place 10: Age: there are several values\nAge: , 20,30\n          ^",
            ],
        ),
        (
            "Age: 5 days\n",
            &["line 1, place 6: Age: expected a number of seconds\nAge: 5 days\n      ^"],
        ),
        (
            "Age: -5, 20\n",
            &[
                "line 1, place 5: Age: expected a number of seconds\nAge: -5, 20\n     ^",
                "line 1, place 9: Age: there are several values\nAge: -5, 20\n         ^",
            ],
        ),
        (
            "Age: \t , 20\n",
            &["line 1, place 7: Age: expected a number of seconds\nAge: ? , 20\n       ^"],
        ),
        (
            "Age: \t \n",
            &["line 1, place 7: Age: expected a number of seconds\nAge: ? \n       ^"],
        ),
        (
            "Age: 20\u{e9}\n",
            &["line 1, place 7: Age: expected a number of seconds\nAge: 20??\n       ^"],
        ),
        ("T: max-age=1\nCache-Control: a b\nExpires: 0\nDate: x\n", &[]), // they are not read
        ("Date: x\nDate: x\n", &[]), // without Expires
        (
            "Expires:  0 \nDate: Sun\n",
            &[
                "line 1, place 10: Expires: expected an HTTP-date, such as Sun, 06 Nov 1994 \
                 08:49:37 GMT\nExpires:  0 \n          ^",
                "line 2, place 9: Date: expected a comma in an HTTP-date, such as Sun, 06 Nov 1994 \
                 08:49:37 GMT\nDate: Sun\n         ^",
            ],
        ),
        (
            "Expires: Sun, 06 Nov 1994 08:49:37 GMT\nExpires: Sun, 06 Nov 1994 08:49:37 GMT\n\
             expires: x\n",
            &["line 2, place 9: Expires: there are several lines\n\
               Expires: Sun, 06 Nov 1994 ...\n         ^"],
        ),
        (
            "Date: x\nExpires: Sun, 06 Nov 1994 08:49:37 GMT\n\
             Date: Sun, 06 Nov 1994 08:49:37 GMT\nDate: x\n",
            &[
                "line 1, place 6: Date: expected an HTTP-date, such as Sun, 06 Nov 1994 08:49:37 \
                 GMT\nDate: x\n      ^",
                "line 3, place 6: Date: there are several lines\n\
                 Date: Sun, 06 Nov 1994 08:...\n      ^",
            ],
        ),
        (
            "Cache-Control: a b\nCache-Control: c d\n",
            &["line 1, place 17: Cache-Control: byte 0x62 'b', expected `,` or the end\n\
               Cache-Control: a b\n                 ^"],
        ),
    ];
    let exchange = Exchange::at(Cache::Shared, 784_111_777).with_status(200);
    for (text, expected) in rows {
        let text = format!("{text}\n");
        let mut head = Head::parse(parser(), &text).unwrap();
        let verdict = head.decide(&exchange, &["T"]).unwrap();
        assert_eq!(head.decide(&exchange, &["T"]).unwrap(), verdict); // the faults are there once
        assert_eq!(messages(&head, 26), *expected, "{text}");
        assert_eq!(
            verdict,
            parser().decide(&exchange, &["T"], head.lines()).unwrap()
        );
    }
}

/// What `Head::check` finds, before and after the other calls, whose results it does not change.
/// `c/tests/few_arguments.c` has the same rows.
#[test]
fn checked_heads() {
    let rows: &[(&str, &[&str])] = &[
        (
            "HTTP/1.1 200 OK\nPriority: u=1\nCache-Status: a;hit\nT: max-age=1\n\
                 U: max-age=1\nCache-Control: max-age=1, s-maxage=2\n\
                 Expires: Sun, 06 Nov 1994 08:49:37 GMT\n\
                 Date: Sun, 06 Nov 1994 08:49:37 GMT\nAge: 1\n\n",
            &[],
        ),
        ("HTTP/1.1 200 OK\n\n", &[]),
        // a target decides, and all else is malformed
        (
            "HTTP/1.1 200 OK\nPriority: u=\nCache-Status: a, 7\nT: max-age=60\n\
                 U: a,\nCache-Control: a b\nExpires: 0\nDate: x\n\
                 Date: Sun, 06 Nov 1994 08:49:37 GMT\nAge: x, 5\nAge: 6\n\n",
            &[
                "line 2, place 12: Priority: the text ended, expected a letter, a \
                 digit, a quote, `(`, `*`, `-`, `:` or `?`\n\
                 Priority: u=\n\
                 \x20           ^",
                "line 3, place 17: Cache-Status: the member does not name a cache, \
                 expected a Token or a String\n\
                 Cache-Status: a, 7\n\
                 \x20                ^",
                "line 5, place 5: U: the text ended, expected a lower-case letter, \
                 `*`, a tab or a space\n\
                 U: a,\n\
                 \x20    ^",
                "line 6, place 17: Cache-Control: byte 0x62 'b', expected `,` or the \
                 end\n\
                 Cache-Control: a b\n\
                 \x20                ^",
                "line 7, place 9: Expires: expected an HTTP-date, such as Sun, 06 \
                 Nov 1994 08:49:37 GMT\n\
                 Expires: 0\n\
                 \x20        ^",
                "line 8, place 6: Date: expected an HTTP-date, such as Sun, 06 Nov \
                 1994 08:49:37 GMT\n\
                 Date: x\n\
                 \x20     ^",
                "line 9, place 6: Date: there are several lines\n\
                 Date: Sun, 06 Nov 1994 08:49:37 GMT\n\
                 \x20     ^",
                "line 10, place 5: Age: expected a number of seconds\n\
                 Age: x, 5\n\
                 \x20    ^",
                "line 10, place 8: Age: there are several values\n\
                 Age: x, 5\n\
                 \x20       ^",
            ],
        ),
        // each max-age and s-maxage, also of a target after the one that decides
        (
            "HTTP/1.1 200 OK\nT: s-maxage=1, max-age=x\nU: max-age=-1, s-maxage\n\
                 Cache-Control: max-age=1.5\nCache-Control: a b, max-age=c\n\
                 Cache-Control: S-Maxage=1, max-age=2, s-maxage=3\n\n",
            &[
                "line 2, place 23: T: expected a number of seconds\n\
                 T: s-maxage=1, max-age=x\n\
                 \x20                      ^",
                "line 3, place 11: U: expected a number of seconds\n\
                 U: max-age=-1, s-maxage\n\
                 \x20          ^",
                "line 3, place 23: U: expected a number of seconds\n\
                 U: max-age=-1, s-maxage\n\
                 \x20                      ^",
                "line 4, place 23: Cache-Control: expected a number of seconds\n\
                 Cache-Control: max-age=1.5\n\
                 \x20                      ^",
                "line 5, place 17: Cache-Control: byte 0x62 'b', expected `,` or the \
                 end\n\
                 Cache-Control: a b, max-age=c\n\
                 \x20                ^",
                "line 6, place 47: Cache-Control: s-maxage had another value before\n\
                 Cache-Control: S-Maxage=1, max-age=2, s-maxage=3\n\
                 \x20                                              ^",
            ],
        ),
        // what does not count beside no-store and no-cache
        (
            "HTTP/1.1 200 OK\nCache-Control: no-store, max-age=x\nExpires: 0\n\
                 Date: x\n\n",
            &[
                "line 2, place 33: Cache-Control: expected a number of seconds\n\
                 Cache-Control: no-store, max-age=x\n\
                 \x20                                ^",
                "line 3, place 9: Expires: expected an HTTP-date, such as Sun, 06 \
                 Nov 1994 08:49:37 GMT\n\
                 Expires: 0\n\
                 \x20        ^",
                "line 4, place 6: Date: expected an HTTP-date, such as Sun, 06 Nov \
                 1994 08:49:37 GMT\n\
                 Date: x\n\
                 \x20     ^",
            ],
        ),
        (
            "HTTP/1.1 200 OK\nU: no-cache, s-maxage=()\nDate: x\n\n",
            &[
                "line 2, place 22: U: expected a number of seconds\n\
                 U: no-cache, s-maxage=()\n\
                 \x20                     ^",
                "line 3, place 6: Date: expected an HTTP-date, such as Sun, 06 Nov \
                 1994 08:49:37 GMT\n\
                 Date: x\n\
                 \x20     ^",
            ],
        ),
        // a List that is malformed has one fault; a Dictionary that is empty has none
        (
            "HTTP/1.1 200 OK\nCache-Status: 7,\nT:\nU:\nPriority:\nAge: 5\n\n",
            &[
                "line 2, place 16: Cache-Status: the text ended, expected a letter, \
                 a digit, a quote, `(`, `*`, `-`, `:`, `?`, a tab or a space\n\
                 Cache-Status: 7,\n\
                 \x20               ^",
            ],
        ),
        // several lines of a field
        (
            "HTTP/1.1 200 OK\nCache-Status: 1\nU: max-age=1\nU: max-age=x\n\
                 cache-status: 2\n\n",
            &[
                "line 2, place 14: Cache-Status: the member does not name a cache, \
                 expected a Token or a String\n\
                 Cache-Status: 1\n\
                 \x20             ^",
                "line 4, place 11: U: expected a number of seconds\n\
                 U: max-age=x\n\
                 \x20          ^",
                "line 5, place 14: Cache-Status: the member does not name a cache, \
                 expected a Token or a String\n\
                 cache-status: 2\n\
                 \x20             ^",
            ],
        ),
        // of a request, Priority and Cache-Control
        (
            "GET / HTTP/1.1\nPriority: u=\nCache-Status: 7\nT: ,\n\
                 Cache-Control: max-age=x\nCache-Control: a=\nExpires: 0\nDate: x\n\
                 Age: x\n\n",
            &[
                "line 2, place 12: Priority: the text ended, expected a letter, a \
                 digit, a quote, `(`, `*`, `-`, `:` or `?`\n\
                 Priority: u=\n\
                 \x20           ^",
                "line 6, place 17: Cache-Control: the text ended, expected a token \
                 or a quoted-string\n\
                 Cache-Control: a=\n\
                 \x20                ^",
            ],
        ),
    ];
    type Said = (Verdict<'static>, Exchange, sf::Path, Priority);
    fn said(head: &mut Head<'_>) -> Said {
        let private = Exchange::at(Cache::Private, 784_111_777);
        head.decide(&private, &["T", "U"]).unwrap();
        let exchange = Exchange::at(Cache::Shared, 784_111_777);
        let exchange = exchange.with_request(head).unwrap();
        let verdict = head.decide(&exchange, &["T", "U"]).unwrap();
        (
            verdict,
            exchange,
            head.path().unwrap(),
            head.priority().unwrap(),
        )
    }
    for (text, expected) in rows {
        let alone = said(&mut Head::parse(parser(), text).unwrap());
        let mut head = Head::parse(parser(), text).unwrap();
        for _ in 0..2 {
            head.check(&["T", "U"]).unwrap();
            assert_eq!(messages(&head, 80), *expected, "{text}");
        }
        assert_eq!(said(&mut head), alone);
        let mut after = Head::parse(parser(), text).unwrap();
        assert_eq!(said(&mut after), alone);
        after.check(&["T", "U"]).unwrap();
        assert_eq!(said(&mut after), alone);
        // A request was decided as a response.
        if !head.is_request() {
            assert_eq!(messages(&head, 80), *expected, "{text}");
            assert_eq!(messages(&after, 80), *expected, "{text}");
        }
    }
}

/// What forbids to store a response beside its directives.
#[test]
fn obstacles() {
    let rows = [
        ("HTTP/1.1 200 OK\n\n", None, None),
        (
            "HTTP/1.1 200 OK\nAge: 1\n",
            None,
            Some(Obstacle::Incomplete),
        ),
        (
            "HTTP/1.1 200 OK\nAge 1\n\n",
            None,
            Some(Obstacle::Incomplete),
        ),
        (
            "HTTP/1.1 200 OK\nCache-Control: no-store\n",
            None,
            Some(Obstacle::Directive),
        ),
        ("HTTP/1.1 500 No\n\n", None, Some(Obstacle::Unpermitted)),
        (
            "HTTP/1.1 103 Early\nCache-Control: max-age=1\n\n",
            None,
            Some(Obstacle::Status),
        ),
        ("HTTP/1.1 500 No\n\n", Some(200), None),
        ("HTTP/1.1 2x0 OK\n\n", Some(200), Some(Obstacle::Incomplete)),
    ];
    for (text, status, obstacle) in rows {
        let exchange = Exchange {
            status,
            ..Exchange::at(Cache::Shared, 784_111_777)
        };
        let mut head = Head::parse(parser(), text).unwrap();
        assert_eq!(
            head.decide(&exchange, &[]).unwrap().obstacle,
            obstacle,
            "{text}"
        );
    }
    let mut head = Head::parse(parser(), "Cache-Control: max-age=60\n\n").unwrap();
    let exchange = Exchange::at(Cache::Shared, 784_111_777);
    let verdict = head.decide(&exchange.with_incomplete(true), &[]).unwrap();
    assert_eq!(
        verdict.to_string(),
        "Cache-Control: fresh for 60 s (max-age); not stored: the head is incomplete"
    );
    // Without a field, and with a malformed one, of which the directives count as `no-store`.
    for (text, shown) in [
        ("HTTP/1.1 200\n\n", "no lifetime set; may be stored"),
        (
            "HTTP/1.1 500\n\n",
            "no lifetime set; not stored: nothing permits it",
        ),
        (
            "HTTP/1.1 200\nCache-Control:\n\n",
            "Cache-Control: no lifetime set; may be stored",
        ),
        (
            "HTTP/1.1 200\nCache-Control: a b\n\n",
            "Cache-Control: not stored (malformed)",
        ),
        (
            "HTTP/1.1 200\nExpires: 0\n\n",
            "Expires: stale; may be stored",
        ),
    ] {
        let mut head = Head::parse(parser(), text).unwrap();
        assert_eq!(head.decide(&exchange, &[]).unwrap().to_string(), shown);
    }
    assert!(head.decide(&exchange, &[]).unwrap().may_store());
    let head = Head::parse(parser(), "GET / HTTP/1.1\nAge : 1\n").unwrap();
    assert_eq!(
        messages(&head, 9),
        [
            "line 2, place 3: not a field line: white space after the name\nAge : 1\n   ^",
            "line 3, place 0: the head does not end with an empty line"
        ]
    );
    let text = "GET / HTTP/1.1\nCache-Control: max-age=60\n\n";
    let mut head = Head::parse(parser(), text).unwrap();
    // The head of a request is none of a response.
    let verdict = head.decide(&exchange, &[]).unwrap();
    assert_eq!(verdict.obstacle, Some(Obstacle::NotAResponse));
    assert!(verdict
        .to_string()
        .ends_with("; not stored: the head is that of a request"));
}

/// What the head of the request says, and a malformed `Cache-Control`.
#[test]
fn obstacles_of_requests_and_directives() {
    let decide = |cache, request, response: &str| {
        let mut request = Head::parse(parser(), request).unwrap();
        let exchange = Exchange::at(cache, 784_111_777);
        let exchange = exchange.with_request(&mut request).unwrap();
        let response = format!("HTTP/1.1 200 OK\n{response}\n");
        let mut response = Head::parse(parser(), &response).unwrap();
        response.decide(&exchange, &["T"]).unwrap().to_string()
    };
    let complete = "GET / HTTP/1.1\n\n";
    let cut_off = "GET / HTTP/1.1\nAge: 1\n";
    let not_a_line = "GET / HTTP/1.1\nAuthorization : a\n\n";
    let authorized = "GET / HTTP/1.1\nAge 1\nauthorization: a\n";
    let had = "; not stored: the request had Authorization";
    let barred = "; not stored: the head of the request is incomplete";
    let fresh = "Cache-Control: fresh for 60 s (max-age)";
    let unset = "no lifetime set";
    let may = "; may be stored";
    let malformed = "Cache-Control: not stored (malformed)";
    for (request, response, shared, private) in [
        (
            complete,
            "Cache-Control: max-age=60\n",
            [fresh, may],
            [fresh, may],
        ),
        (
            cut_off,
            "Cache-Control: max-age=60\n",
            [fresh, barred],
            [fresh, barred],
        ),
        (
            not_a_line,
            "Cache-Control: max-age=60\n",
            [fresh, barred],
            [fresh, barred],
        ),
        (
            "GET / HTTP/1.1\nAge: 1\nauthorization: a\n\n",
            "Cache-Control: max-age=60\n",
            [fresh, had],
            [fresh, may],
        ),
        (
            authorized,
            "Cache-Control: max-age=60\n",
            [fresh, barred],
            [fresh, barred],
        ),
        (
            cut_off,
            "Cache-Control: max-age=60, public\n",
            [fresh, barred],
            [fresh, barred],
        ),
        (cut_off, "", [unset, barred], [unset, barred]),
        (
            cut_off,
            "Cache-Control: a b\n",
            [malformed, ""],
            [malformed, ""],
        ),
        (
            cut_off,
            "Age 1\n",
            [unset, "; not stored: the head is incomplete"],
            [unset, "; not stored: the head is incomplete"],
        ),
    ] {
        assert_eq!(decide(Cache::Shared, request, response), shared.concat());
        assert_eq!(decide(Cache::Private, request, response), private.concat());
    }

    let exchange = Exchange::at(Cache::Shared, 784_111_777).with_status(200);
    let mut request = Head::parse(parser(), cut_off).unwrap();
    let seen = exchange.with_authorization(true);
    let seen = seen.with_request(&mut request).unwrap();
    assert_eq!(
        (seen.is_authorized, seen.is_request_incomplete),
        (false, true)
    );
    let mut request = Head::parse(parser(), authorized).unwrap();
    let seen = exchange.with_request(&mut request).unwrap();
    assert_eq!(
        (seen.is_authorized, seen.is_request_incomplete),
        (true, true)
    );
    let mut request = Head::parse(parser(), complete).unwrap();
    let seen = seen.with_request(&mut request).unwrap();
    assert_eq!(
        (seen.is_authorized, seen.is_request_incomplete),
        (false, false)
    );

    for (head, obstacle) in [
        (&[("Cache-Control", "a b")][..], Obstacle::Malformed),
        (
            &[("Cache-Control", "no-store"), ("Cache-Control", "=")],
            Obstacle::Malformed,
        ),
        (&[("Cache-Control", "no-store")], Obstacle::Directive),
        // Another field decides, and so Cache-Control is not read.
        (
            &[("T", "no-store"), ("Cache-Control", "a b")],
            Obstacle::Directive,
        ),
        // Only as a target it is malformed.
        (&[("Cache-Control", "No-Store")], Obstacle::Directive),
    ] {
        let verdict = exchange.decide(&["T", "Cache-Control"], head).unwrap();
        assert_eq!(verdict.obstacle, Some(obstacle), "{head:?}");
        assert_eq!(verdict.is_refused, obstacle == Obstacle::Malformed);
    }
    assert_eq!(
        Obstacle::Malformed.to_string(),
        "Cache-Control is malformed"
    );
    assert_eq!(
        Obstacle::RequestHead.to_string(),
        "the head of the request is incomplete"
    );
}

/// A verdict borrows the names of its targets alone, and a fault the text of the head alone.
#[test]
fn what_outlives_a_head() {
    fn verdict_of<'t>(head: &mut Head<'_>, targets: &[&'t str]) -> Verdict<'t> {
        let exchange = Exchange::at(Cache::Shared, 784_111_777).with_status(200);
        head.decide(&exchange, targets).unwrap()
    }
    fn faults_of<'a>(head: &mut Head<'a>, name: String) -> Vec<HeadFault<'a>> {
        assert_eq!(head.field::<Dictionary>(&name).unwrap(), None);
        drop(name);
        head.malformed().to_vec()
    }
    let targets = [String::from("T"), String::from("U")];
    let verdict = {
        let received = String::from("T: a,\nU: max-age=60\nCache-Status: a,\n\n");
        let mut head = Head::parse(parser(), &received).unwrap();
        let verdict = verdict_of(&mut head, &[&targets[0], &targets[1]]);
        head.add_line("T: max-age=1").unwrap();
        verdict
    };
    assert_eq!((verdict.field, verdict.target), (Some("U"), Some(1)));
    assert_eq!(
        (verdict.malformed.len(), verdict.malformed[0].field),
        (1, "T")
    );
    let hop = verdict.hop(TokenRef::constant("edge"), Forward::Miss);
    drop(targets);
    assert_eq!(hop.to_string(), "edge;fwd=miss;ttl=60;stored");

    // The names may live shorter than the text of the head, and the head shorter than its faults.
    let received = String::from("T: a,\nX: b=\n\n");
    let faults = {
        let mut head = Head::parse(parser(), &received).unwrap();
        let names = [String::from("T")];
        let of_targets = [names[0].as_str()];
        assert!(verdict_of(&mut head, &of_targets).may_store());
        drop(names);
        faults_of(&mut head, String::from("X"))
    };
    let shown: Vec<_> = faults
        .iter()
        .map(|one| (one.field.as_str(), one.offset))
        .collect();
    assert_eq!(shown, [("T", 5), ("X", 5)]);
}

/// Messages with the name of a file.
#[test]
fn files_are_named() {
    let mut head = Head::parse(parser(), "a: b\nT: \u{e9}\nAge 1\n").unwrap();
    head.field::<List>("T").unwrap();
    let shown = |file: &str, most| -> Vec<_> {
        let faults = head.malformed().iter();
        faults
            .map(|one| one.excerpt_in(file, most).to_string())
            .collect()
    };
    let expected = "expected a letter, a digit, a quote, `(`, `*`, `-`, `:`, `?`, a space or the \
                    end";
    assert_eq!(
        shown("r.txt", 40),
        [
            format!("r.txt, line 2, place 3: T: byte 0xc3, {expected}\nT: ??\n   ^"),
            String::from(
                "r.txt, line 3, place 4: not a field line: no colon after the name\nAge 1\n    ^"
            ),
            String::from("r.txt, line 4, place 0: the head does not end with an empty line"),
        ]
    );
    assert!(shown("", 40)[1].starts_with(", line 3, place 4: not a field line: "));
    assert!(shown("\u{e9}\0", 0)[1].ends_with("after the name\n......\n   ^"));
    // Any name that can be written, and the same message without one.
    let fault = &head.malformed()[1];
    let path = std::path::Path::new("a").join("b c");
    let message = fault.excerpt(3).to_string();
    assert_eq!(
        message,
        "line 3, place 4: not a field line: no colon after the name\n...e 1\n     ^"
    );
    assert_eq!(
        fault.excerpt_in(path.display(), 3).to_string(),
        format!("a/b c, {message}")
    );
    let name = String::from("n");
    assert_eq!(
        fault.excerpt_in(&name, 3).to_string(),
        format!("n, {message}")
    );
    assert_eq!(
        format!("n, {fault}"),
        shown("n", 3)[1].lines().next().unwrap()
    );
}

/// A fault that holds nonsense is shown all the same.
#[test]
fn faults_that_were_changed() {
    let head = Head::parse(parser(), "a: b\n\0\n\n").unwrap();
    let mut fault = head.malformed()[0].clone();
    fault.offset = usize::MAX;
    fault.number = usize::MAX;
    fault.field = String::from("x\0\u{e9}");
    let shown = fault.excerpt(usize::MAX).to_string();
    let most = usize::MAX;
    assert_eq!(
        shown,
        format!("line {most}, place {most}: x\0\u{e9}: not a field line: no name\n?\n ^")
    );
    if let Fault::NotALine(refusal) = &mut fault.fault {
        refusal.offset = u64::MAX;
        refusal.found = None;
        refusal.may_end = true;
        fault.fault = Fault::Refused(*refusal);
    }
    fault.line = b"";
    let shown = fault.excerpt(0).to_string();
    assert!(
        shown.contains(": x\0\u{e9}: the text ended, expected "),
        "{shown}"
    );
    assert!(shown.ends_with("\n\n^"));
}
