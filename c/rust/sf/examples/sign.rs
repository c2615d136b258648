//! Adds a signature's parameters to a Signature-Input field (RFC 9421 section 4.1), and prints the
//! field: what it had, but for a member of the same label, then the new member.
//!
//! ```text
//! sign 'old=();created=1' sig1 @method @path
//! ```

use sf::{Dictionary, InnerList, StringRef};

fn main() -> Result<(), Box<dyn std::error::Error>> {
    let words: Vec<String> = std::env::args().skip(1).collect();
    let (text, label, components) = match &words[..] {
        [text, label, components @ ..] => (text, label, components),
        _ => return Err("usage: sign SIGNATURE-INPUT LABEL [COMPONENT ..]".into()),
    };
    let components: Vec<&StringRef> = components
        .iter()
        .map(|component| StringRef::new(component))
        .collect::<Result<_, _>>()?;
    let member = InnerList::new(components)
        .with_param("created", 1_618_884_473)?
        .with_param("keyid", StringRef::constant("test-key"))?;

    // By RFC 9651: what RFC 8941 accepts, which RFC 9421 cites, has the same value.
    let mut field = Dictionary::parse(text)?;
    field.remove(label);
    field.insert(label, member)?;
    println!("{field}");
    Ok(())
}
