//! Failed allocations of the crate's own vectors: an error, and no abort.

use sf::{
    field_text, join, normalise, Cache, Dictionary, Error, Exchange, Head, Hop, Kind, List, Name,
    Parser,
};
use sf::{Path, Priority, StringRef};
use std::alloc::{GlobalAlloc, Layout, System};
use std::cell::Cell;
use std::ptr::null_mut;

// Refuses one allocation of a thread.
struct Scarce;

thread_local! {
    // How many are given before the one that is refused; -1: none is.
    static LEFT: Cell<i64> = const { Cell::new(-1) };
}

fn refuses() -> bool {
    LEFT.with(|left| {
        let count = left.get();
        if count >= 0 {
            left.set(count - 1);
        }
        count == 0
    })
}

// SAFETY: what is given is the system's.
unsafe impl GlobalAlloc for Scarce {
    unsafe fn alloc(&self, layout: Layout) -> *mut u8 {
        if refuses() {
            return null_mut();
        }
        System.alloc(layout)
    }

    unsafe fn dealloc(&self, block: *mut u8, layout: Layout) {
        System.dealloc(block, layout);
    }

    unsafe fn realloc(&self, block: *mut u8, layout: Layout, size: usize) -> *mut u8 {
        if refuses() {
            return null_mut();
        }
        System.realloc(block, layout, size)
    }
}

#[global_allocator]
static SCARCE: Scarce = Scarce;

// The call with each of its allocations refused in turn, until none is.
fn each_refused<T>(call: impl Fn() -> Result<T, Error>) {
    drop(call()); // what the standard library allocates once for a thread
    for count in 0..100 {
        LEFT.with(|left| left.set(count));
        let result = call();
        let is_refused = LEFT.with(|left| left.replace(-1)) < 0;
        match result {
            Ok(_) => {
                assert!(!is_refused);
                assert!(count > 0, "it does not allocate");
                return;
            }
            Err(error) => {
                assert!(is_refused);
                assert_eq!(error, Error::OutOfMemory);
            }
        }
    }
    panic!("no result");
}

#[test]
fn a_failed_allocation_is_an_error() {
    each_refused(|| join(["a", "b, c"]));
    each_refused(|| normalise(Kind::List, ":YQ:,:YQ:"));
    each_refused(|| Parser::new().tree(Kind::Dict, "a=(1 2);x=:YQ:, b"));
    each_refused(|| Dictionary::parse("a=(1 \"c\");x=:YQ:, b;y=t, c=%\"d\""));
    each_refused(|| List::parse("1,2,3,4,5,6,7,8"));
    each_refused(|| Parser::new().parse_lines::<List>(["a", "(b c);d"]));
    let list = List::parse("a ,b").unwrap();
    each_refused(|| list.serialize());
    let parts = List::parse("(b c);d;e").unwrap();
    each_refused(|| parts[0].serialize());
    let inner_list = parts[0].as_inner_list().unwrap();
    each_refused(|| inner_list.serialize());
    each_refused(|| inner_list.params.serialize());
    each_refused(|| Name::token("a").unwrap().serialize());
    let tree = Parser::new().tree(Kind::List, "a ,(b)").unwrap();
    each_refused(|| tree.serialize());
    let dict = Dictionary::parse("a=(1 \"c\");x=:YQ:, b;y=t, c=%\"d\"").unwrap();
    each_refused(|| dict.serialize());
    let priority = Priority::default();
    each_refused(|| priority.change("u=1, x=(a b)"));
    each_refused(|| Path::parse("a;fwd=miss, \"b\";hit"));
    let hop = Hop::new(StringRef::constant("edge"));
    each_refused(|| hop.serialize());
    each_refused(|| hop.append_or_replace(["a", "b"]));
    each_refused(|| hop.append_or_replace(["a", "b,"]));
    let priority = Priority::parse("u=1").unwrap();
    each_refused(|| priority.serialize());
    let head = [
        ("CDN-Cache-Control", "max-age=60"),
        ("CDN-Cache-Control", "no-store,"),
        ("Cache-Control", "a b"),
        ("Expires", "0"),
        ("Date", "0"),
        ("Age", "x"),
    ];
    each_refused(|| field_text(head, "CDN-Cache-Control"));
    let exchange = Exchange::at(Cache::Shared, 784_111_777);
    each_refused(|| exchange.decide(&["CDN-Cache-Control"], &head));
    let received = "HTTP/1.1 200 OK\nAge 1\nCDN-Cache-Control: a,\nAge: x\nExpires: 0\nPriority: \
                    u=\nCache-Status: a,\nX: b=\nX: c";
    each_refused(|| Head::parse(Parser::new(), received));
    each_refused(|| Head::parse_request(Parser::new(), received));
    each_refused(|| Head::parse_response(Parser::new(), "Age: 1\n\n"));
    let refused = "GET / HTTP/1.1\nCache-Control: a b\n\n";
    each_refused(|| {
        let mut head = Head::parse_request(Parser::new(), refused)?;
        let exchange = exchange.with_request(&mut head)?;
        assert!(exchange.is_request_no_store && head.malformed().len() == 1);
        Ok(())
    });
    // The error of `std::io` for it has nothing that would be allocated.
    LEFT.with(|left| left.set(0));
    let error = std::io::Error::from(Error::OutOfMemory);
    assert_eq!(LEFT.with(|left| left.replace(-1)), 0);
    assert_eq!(error.kind(), std::io::ErrorKind::OutOfMemory);
    each_refused(|| {
        let mut head = Head::parse(Parser::new(), received)?;
        head.decide(&exchange, &["CDN-Cache-Control"])?;
        head.response_priority()?;
        head.field::<Dictionary>("X")?;
        head.append_or_replace(&hop)?;
        assert_eq!(head.malformed().len(), 8);
        Ok(())
    });
    each_refused(|| {
        let mut head = Head::parse(Parser::new(), received)?;
        head.check(&["CDN-Cache-Control"])?;
        assert_eq!(head.malformed().len(), 7);
        Ok(())
    });
    each_refused(|| {
        let mut head = Head::parse(
            Parser::new(),
            "Cache-Status: 1\nT: max-age=x\nAge: 1, 2\n\n",
        )?;
        head.check(&["T"])?;
        assert_eq!(head.malformed().len(), 3);
        Ok(())
    });
    each_refused(|| {
        let mut head = Head::parse(Parser::new(), refused)?;
        head.check(&[])?;
        assert_eq!(head.malformed().len(), 1);
        Ok(())
    });
}
