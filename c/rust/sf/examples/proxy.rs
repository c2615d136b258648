//! A caching proxy's decisions on a request that it forwards, and on the response, by their heads on
//! standard input: a line `> Name: value` is of the request, and `< Name: value` of the response.
//! Standard error shows what is malformed. The words of the command line are `private` for a private
//! cache, the status code, and `understood` if the cache understands it. Left out: method,
//! `Authorization`, `Vary`, the time since the request.

use sf::{Cache, Dialect, Exchange, Forward, Head, Parser};
use std::io::{self, Read};

/// This cache.
const NAME: &sf::TokenRef = sf::TokenRef::constant("ExampleCDN");
/// This cache's own field, and the one of all caches of its kind (RFC 9213 section 2.2).
const TARGETS: [&str; 2] = ["ExampleCDN-Cache-Control", "CDN-Cache-Control"];

fn main() -> Result<(), Box<dyn std::error::Error>> {
    let words: Vec<String> = std::env::args().skip(1).collect();
    let has_word = |word: &str| words.iter().any(|said| said == word);
    let mut input = Vec::new();
    io::stdin().read_to_end(&mut input)?;
    // The RFCs of these fields cite RFC 8941, and have no field of a newer type.
    let parser = Parser::new().with_dialect(Dialect::Rfc8941);
    let (mut request, mut response) = (Head::new(parser), Head::new(parser));
    for (index, line) in input.split(|byte| *byte == b'\n').enumerate() {
        let (head, line) = match line {
            [b'>', line @ ..] => (&mut request, line),
            [b'<', line @ ..] => (&mut response, line),
            _ => continue,
        };
        head.set_number(index + 1);
        head.add_line(sf::trim(line))?;
    }

    // A field that is malformed or absent sets nothing (RFC 9218 section 5).
    let asked = request.priority()?;
    let both = asked.merged_with(response.response_priority()?);
    let how = ["", ", incremental"][usize::from(both.incremental())];
    println!("urgency {}{how}", both.urgency());

    let cache = [Cache::Shared, Cache::Private][usize::from(has_word("private"))];
    let mut exchange = Exchange::now(cache).with_understood(has_word("understood"));
    exchange.status = words.iter().find_map(|word| word.parse().ok());
    let verdict = response.decide(&exchange, &TARGETS)?;
    println!("{verdict}");

    let hop = verdict.hop(NAME, Forward::UriMiss);
    println!("Cache-Status: {}", response.append_or_replace(&hop)?);

    for malformed in request.malformed().iter().chain(response.malformed()) {
        eprintln!("{}", malformed.excerpt(60));
    }
    Ok(())
}
