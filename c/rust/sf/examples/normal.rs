//! The canonical text of a Priority field, and the priority of a response with it.

use sf::{Dictionary, Priority, ResponsePriority};

fn main() -> Result<(), sf::Error> {
    println!("{}", Dictionary::parse("u=1,  i=?1")?);

    let both = Priority::parse("u=5, i")?.merged_with(ResponsePriority::parse("u=1")?);
    println!(
        "urgency {} incremental {}",
        both.urgency(),
        both.incremental()
    );
    Ok(())
}
