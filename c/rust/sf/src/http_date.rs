//! Where a value is no HTTP-date (RFC 9110 section 5.6.7). The library decides whether it is one.

/// The formats of an HTTP-date: that of RFC 9110, and the obsolete ones of RFC 850 and of asctime. A
/// letter is a part, and other bytes are themselves.
const FIXED: &[u8] = b"w, d m Y t z";
const RFC850: &[u8] = b"W, d-m-y t z";
const ASCTIME: &[u8] = b"w m D t Y";

const DAYS: [&str; 7] = [
    "Monday",
    "Tuesday",
    "Wednesday",
    "Thursday",
    "Friday",
    "Saturday",
    "Sunday",
];
const MONTHS: [&str; 12] = [
    "Jan", "Feb", "Mar", "Apr", "May", "Jun", "Jul", "Aug", "Sep", "Oct", "Nov", "Dec",
];

/// The place at which a value that is no HTTP-date can't go on as one, in the format that it is most
/// like, and which part of the date is expected there, in words that go on with a date.
pub(crate) fn fault(value: &[u8]) -> (usize, &'static str) {
    let format = if part_length(value, b'W').is_some() {
        RFC850
    } else if matches!(value, [_, _, _, b' ', b':'..=b'\xff', ..]) {
        ASCTIME
    } else {
        FIXED
    };
    let mut at = 0;
    let (mut day, mut month, mut year) = (0, 0, 0);
    for part in format {
        match part {
            b'd' | b'D' => day = at,
            b'm' => month = at,
            b'y' | b'Y' => year = at,
            _ => {}
        }
        match part_length(&value[at..], *part) {
            Some(length) => at += length,
            None => return (at, words(*part)),
        }
    }
    if at < value.len() {
        return (at, "the end of ");
    }
    let count = match format {
        RFC850 => 1970 + (number(&value[year..year + 2]) + 30) % 100,
        _ => number(&value[year..year + 4]),
    };
    if number(&value[day..day + 2]) > days_in(&value[month..month + 3], count) {
        (day, "a day of that month in ")
    } else if count < 1970 {
        (year, "a year from 1970 on in ")
    } else {
        (0, "the weekday of that day in ")
    }
}

/// The number of some digits, of which the first may be a space.
fn number(digits: &[u8]) -> u32 {
    let values = digits
        .iter()
        .map(|byte| u32::from(byte.saturating_sub(b'0')));
    values.fold(0, |number, digit| number * 10 + digit)
}

/// How many days a month of a year has.
fn days_in(month: &[u8], year: u32) -> u32 {
    match month {
        b"Feb" if year % 4 == 0 && (year % 100 != 0 || year % 400 == 0) => 29,
        b"Feb" => 28,
        b"Apr" | b"Jun" | b"Sep" | b"Nov" => 30,
        _ => 31,
    }
}

fn words(part: u8) -> &'static str {
    match part {
        b'd' | b'D' => "the day in ",
        b'm' => "the month in ",
        b'y' | b'Y' => "the year in ",
        b't' => "the time in ",
        b'z' => "GMT in ",
        b' ' => "a space in ",
        b',' => "a comma in ",
        b'-' => "a hyphen in ",
        _ => "", // the weekday, with which it begins
    }
}

/// The length of a part that a text begins with.
fn part_length(text: &[u8], part: u8) -> Option<usize> {
    match part {
        b'w' => name_length(text, &DAYS.map(|day| &day[..3])),
        b'W' => name_length(text, &DAYS),
        b'm' => name_length(text, &MONTHS),
        b'D' if matches!(text, [b' ', b'1'..=b'9', ..]) => Some(2),
        b'd' | b'D' => pair(text, 1, 31),
        b'y' => pair(text, 0, 99),
        b'Y' => pair(text, 0, 99).and_then(|at| Some(at + pair(&text[at..], 0, 99)?)),
        b't' => time(text),
        b'z' => text.starts_with(b"GMT").then_some(3),
        byte => text.starts_with(&[byte]).then_some(1),
    }
}

fn name_length(text: &[u8], names: &[&str]) -> Option<usize> {
    let mut of_text = names
        .iter()
        .filter(|name| text.starts_with(name.as_bytes()));
    of_text.next().map(|name| name.len())
}

/// Two digits that are a number in this range.
fn pair(text: &[u8], from: u8, to: u8) -> Option<usize> {
    match *text {
        [a @ b'0'..=b'9', b @ b'0'..=b'9', ..] => {
            let number = (a - b'0') * 10 + (b - b'0');
            (from..=to).contains(&number).then_some(2)
        }
        _ => None,
    }
}

fn time(text: &[u8]) -> Option<usize> {
    let _ = pair(text, 0, 23)?;
    let _ = pair(text.get(2..)?.strip_prefix(b":")?, 0, 59)?;
    let _ = pair(text.get(5..)?.strip_prefix(b":")?, 0, 59)?;
    Some(8)
}
