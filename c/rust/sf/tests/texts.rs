//! Texts put together at random, which no call may panic on, and on which the calls must agree.

use sf::{
    check, equal, normalise, Dictionary, Error, FieldType, Item, Kind, List, ListEntry, Parser,
    Path, Priority, ResponsePriority, Urgency,
};

const PARTS: [&[u8]; 40] = [
    b"a",
    b"*b",
    b"u",
    b"=",
    b"1",
    b"-0",
    b"12.5",
    b"1.",
    b"999999999999999",
    b";",
    b",",
    b" ",
    b"  ",
    b"\t",
    b"(",
    b")",
    b"\"",
    b"\"s\"",
    b"\"\\\"\"",
    b"\\",
    b"tok/en",
    b":",
    b":YQ==:",
    b":YQ:",
    b"?",
    b"?0",
    b"?1",
    b"@7",
    b"@-1",
    b"%\"%c3%bc\"",
    b"%\"",
    b"%\"%ff\"",
    b"hit",
    b"fwd=miss",
    b"\0",
    b"\x7f",
    b"\xff",
    b"max-age=60",
    b"i",
    b"",
];

// Numbers that look random and are the same in each run, by the multiplier of Knuth's MMIX.
struct Numbers(u64);

impl Numbers {
    fn below(&mut self, bound: usize) -> usize {
        self.0 = self
            .0
            .wrapping_mul(6_364_136_223_846_793_005)
            .wrapping_add(1_442_695_040_888_963_407);
        usize::try_from(self.0 >> 33).unwrap_or(0) % bound
    }
}

fn agree<T>(kind: Kind, text: &[u8])
where
    T: FieldType + PartialEq + std::fmt::Debug,
{
    let parsed: Result<T, Error> = Parser::new().parse(text);
    let checked = check(kind, text);
    let tree = Parser::new().tree(kind, text);
    let canonical = normalise(kind, text);
    match parsed {
        Ok(field) => {
            assert!(checked.is_ok() && tree.is_ok());
            let again = Parser::new().serialize(&field).unwrap();
            assert_eq!(Ok(&again), canonical.as_ref());
            assert_eq!(field, Parser::new().parse(&again).unwrap());
            assert_eq!(tree, Parser::new().tree(kind, &again));
            assert_eq!(tree.unwrap().serialize().as_ref(), Ok(&again));
            assert_eq!(normalise(kind, &again).as_ref(), Ok(&again));
            assert_eq!(equal(kind, text, &again), Ok(true));
        }
        Err(error) => {
            assert_eq!(checked, Err(error));
            assert_eq!(tree.unwrap_err(), error);
            assert_eq!(canonical, Err(error));
            let refusal = error.refusal().unwrap();
            let offset = usize::try_from(refusal.offset).unwrap();
            assert_eq!(refusal.found, text.get(offset).copied());
            assert!(refusal.found.map_or(true, |byte| !refusal.expects(byte)));
            let shown = refusal.in_text(text).to_string();
            assert!(shown.starts_with(&refusal.to_string()) && shown.ends_with('^'));
        }
    }
}

// A part is what a field has that has nothing else; and a refusal of one is where the longest
// prefix ends that some part begins with, and has the bytes by which it can be continued.
fn part_agrees<T: PartialEq + std::fmt::Debug>(
    text: &[u8],
    read: impl Fn(&[u8]) -> Result<T, Error>,
    expected: Option<&T>,
) -> bool {
    let found = read(text);
    let is_part = found.is_ok();
    match found {
        Ok(part) => assert_eq!(Some(&part), expected, "{text:?}"),
        Err(Error::Refused(refusal)) => {
            assert_eq!(None, expected, "{text:?}");
            let offset = usize::try_from(refusal.offset).unwrap();
            assert_eq!(refusal.found, text.get(offset).copied());
            let prefix = &text[..offset];
            let ends = read(prefix);
            assert_eq!(
                ends.is_ok(),
                refusal.found.is_some() && refusal.may_end,
                "{text:?}"
            );
            for byte in 0..=255 {
                let longer = [prefix, &[byte]].concat();
                let place = read(&longer).err().and_then(|error| error.refusal());
                let is_viable = place.map_or(true, |refusal| refusal.offset > offset as u64);
                assert_eq!(is_viable, refusal.expects(byte), "{text:?} with {byte}");
            }
        }
        Err(error) => panic!("{error}"),
    }
    is_part
}

#[test]
fn parts_agree_with_fields() {
    let mut numbers = Numbers(2);
    let mut counts = [0; 4];
    for number in 0..2000 {
        let mut text = Vec::new();
        for _ in 0..numbers.below(7) {
            text.extend_from_slice(PARTS[numbers.below(PARTS.len())]);
        }
        if number % 4 == 0 {
            text = [b"(", &text[..], b")"].concat();
        }
        let parser = Parser::new();
        let item = Item::parse(&text)
            .ok()
            .filter(|item| item.params.is_empty());
        let mut list = List::parse(&text).unwrap_or_default();
        let only = if list.len() == 1 { list.pop() } else { None };
        let inner = only.as_ref().and_then(ListEntry::as_inner_list).cloned();
        let params = Item::parse([b"?1", &text[..]].concat()).map(|item| item.params);
        let bare_item = item.map(|item| item.bare_item);
        let params = params.ok();
        let parts = [
            part_agrees(&text, |text| parser.bare_item(text), bare_item.as_ref()),
            part_agrees(&text, |text| parser.list_entry(text), only.as_ref()),
            part_agrees(&text, |text| parser.inner_list(text), inner.as_ref()),
            part_agrees(&text, |text| parser.parameters(text), params.as_ref()),
        ];
        for (count, is_part) in counts.iter_mut().zip(parts) {
            *count += u32::from(is_part);
        }
    }
    assert!(counts.iter().all(|count| *count > 20), "{counts:?}");
}

#[test]
fn any_text_is_parsed_or_refused() {
    let mut numbers = Numbers(1);
    let mut accepted = 0;
    for _ in 0..4000 {
        let mut text = Vec::new();
        for _ in 0..numbers.below(9) {
            text.extend_from_slice(PARTS[numbers.below(PARTS.len())]);
        }
        agree::<Item>(Kind::Item, &text);
        agree::<List>(Kind::List, &text);
        agree::<Dictionary>(Kind::Dict, &text);
        if check(Kind::Dict, &text).is_ok() {
            let sets = Priority {
                urgency: Some(Urgency::MOST),
                incremental: None,
            };
            let changed = sets.change(&text).unwrap();
            let before = Priority::parse(&text).unwrap();
            let response = ResponsePriority {
                urgency: sets.urgency,
                incremental: sets.incremental,
            };
            assert_eq!(Priority::parse(changed), Ok(before.merged_with(response)));
        }
        accepted += usize::from(check(Kind::List, &text).is_ok());
        match Path::parse(&text) {
            Ok(path) => {
                let lines: Vec<_> = path.hops().map(|hop| hop.serialize().unwrap()).collect();
                assert_eq!(Path::parse(sf::join(&lines).unwrap()), Ok(path));
            }
            Err(error) => assert_eq!(
                check(Kind::List, &text).is_ok(),
                matches!(error, Error::NotACache { .. })
            ),
        }
    }
    assert!(accepted > 100, "{accepted}");
}
