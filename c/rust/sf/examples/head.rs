//! What a proxy concludes from the heads of a request and its response, which are in two files as
//! they were received: `head REQUEST RESPONSE`. Standard error shows what is malformed in them.

use sf::{Cache, Dialect, Dictionary, Exchange, Forward, Head, InnerList, Key, Parser, TokenRef};
use std::error::Error;
use std::io::{self, Write};
use std::path::{Path, PathBuf};

/// The targeted fields that this cache obeys, in order (RFC 9213 section 2.2).
const TARGETS: [&str; 2] = ["ExampleCDN-Cache-Control", "CDN-Cache-Control"];

/// The contents of a file.
fn read(name: &Path) -> Result<Vec<u8>, String> {
    std::fs::read(name).map_err(|error| format!("{}: {error}", name.display()))
}

/// Writes what a signature covers, and its parameters (RFC 9421 sections 2 and 2.3).
fn write_signature(out: &mut impl Write, label: &Key, covered: &InnerList) -> io::Result<()> {
    write!(out, "{label} covers")?;
    for component in &covered.items {
        write!(out, " {}", component.serialize()?)?;
    }
    for (name, value) in &covered.params {
        write!(out, ", {name} {}", value.serialize()?)?;
    }
    writeln!(out)
}

fn main() -> Result<(), Box<dyn Error>> {
    let names: Vec<PathBuf> = std::env::args_os().skip(1).map(PathBuf::from).collect();
    let (request_name, response_name) = match &names[..] {
        [request, response] => (request, response),
        _ => return Err("usage: head REQUEST RESPONSE".into()),
    };
    let (request, response) = (read(request_name)?, read(response_name)?);
    // The RFCs of the fields cite RFC 8941, and RFC 9651 adds no types to them.
    let parser = Parser::new().with_dialect(Dialect::Rfc8941);
    let mut request = Head::parse_request(parser, &request)?;
    let mut response = Head::parse_response(parser, &response)?;
    let mut out = io::stdout().lock();
    let client = request.priority()?;
    let both = client.merged_with(response.response_priority()?);
    let how = ["", ", incremental"][usize::from(both.incremental())];
    writeln!(out, "urgency {}{how}", both.urgency())?;

    // The caches that it came through, the one nearest the origin first. `serialize` leaves out
    // what RFC 9211 does not define: entry i of `field::<List>("Cache-Status")` is hop i with it.
    let path = response.path()?;
    for hop in path.hops() {
        writeln!(out, "came through {}", hop.serialize()?)?;
    }
    if let Some(hop) = path.served_hop() {
        writeln!(out, "served by {}", hop.name)?;
    }

    // What a shared cache does with the response (RFC 9213 and RFC 9111). `with_understood(true)`
    // is right if it does what each final status code requires, also 206 and 304.
    let exchange = Exchange::now(Cache::Shared).with_understood(true);
    let exchange = exchange.with_request(&mut request)?;
    let verdict = response.decide(&exchange, &TARGETS)?;
    writeln!(out, "{verdict}")?;

    let signatures: Dictionary = request.field("Signature-Input")?.unwrap_or_default();
    for (label, member) in &signatures {
        match member.as_inner_list() {
            Some(covered) => write_signature(&mut out, label, covered)?,
            None => {
                request.add_fault("Signature-Input", label, "not an Inner List")?;
                break; // what comes after it does not count
            }
        }
    }

    // The field that it sends on, in the place of the lines that were received.
    let hop = verdict.hop(TokenRef::constant("ExampleCDN"), Forward::UriMiss);
    writeln!(out, "Cache-Status: {}", response.append_or_replace(&hop)?)?;

    for (name, head) in [(request_name, &mut request), (response_name, &mut response)] {
        head.check(&TARGETS)?; // what is malformed and did not count above
        for malformed in head.malformed() {
            writeln!(io::stderr(), "{}", malformed.excerpt_in(name.display(), 60))?;
        }
    }
    Ok(())
}
