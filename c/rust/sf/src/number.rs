//! Integers and Decimals.

use crate::short::Short;
use crate::Error;
use core::fmt;
use sf_sys as raw;

/// The largest Integer, thousandths of a Decimal, or seconds of a Date.
const NUMBER_MAX: i64 = 999_999_999_999_999;

const fn is_in_range(number: i64) -> bool {
    -NUMBER_MAX <= number && number <= NUMBER_MAX
}

/// The number, if it has at most 15 digits.
pub(crate) fn in_range(number: i64) -> Result<i64, Error> {
    is_in_range(number).then_some(number).ok_or(Error::Invalid)
}

/// An Integer (RFC 9651 section 3.3.1), from -999,999,999,999,999 to 999,999,999,999,999. Numbers
/// of at most 32 bits are Integers; others are checked.
///
/// ```
/// assert_eq!(sf::Integer::from(7).get(), 7);
/// assert_eq!(sf::Integer::try_from(1_000_000_000_000_000_u64), Err(sf::Error::Invalid));
/// ```
#[derive(Clone, Copy, Debug, Default, PartialEq, Eq, PartialOrd, Ord, Hash)]
pub struct Integer(i64);

impl Integer {
    /// The smallest.
    pub const MIN: Integer = Integer(-NUMBER_MAX);
    /// The largest.
    pub const MAX: Integer = Integer(NUMBER_MAX);

    /// The Integer of this number.
    ///
    /// # Errors
    ///
    /// [`Error::Invalid`] if it is out of range.
    ///
    /// ```
    /// assert!(sf::Integer::new(999_999_999_999_999).is_ok());
    /// assert!(sf::Integer::new(1_000_000_000_000_000).is_err());
    /// ```
    pub fn new(number: i64) -> Result<Integer, Error> {
        in_range(number).map(Integer)
    }

    /// The Integer of a number that is part of the program: checked when it is compiled, if the
    /// result is a constant.
    ///
    /// # Panics
    ///
    /// If it is out of range.
    ///
    /// ```
    /// const CREATED: sf::Integer = sf::Integer::constant(1_618_884_473);
    /// assert_eq!(CREATED.get(), 1_618_884_473);
    /// ```
    #[must_use]
    pub const fn constant(number: i64) -> Integer {
        assert!(is_in_range(number), "out of range of an Integer");
        Integer(number)
    }

    /// What is known to be in range.
    pub(crate) const fn known(number: i64) -> Integer {
        Integer(number)
    }

    /// Its number.
    ///
    /// ```
    /// assert_eq!(sf::Integer::from(-7).get(), -7);
    /// ```
    #[must_use]
    pub const fn get(self) -> i64 {
        self.0
    }
}

macro_rules! numbers {
    ($($small:ident)* | $($large:ident)*) => {
        $(
            impl From<$small> for Integer {
                fn from(number: $small) -> Integer {
                    Integer(i64::from(number))
                }
            }

            impl From<$small> for Decimal {
                fn from(number: $small) -> Decimal {
                    Decimal(i64::from(number) * 1000)
                }
            }
        )*
        $(
            impl TryFrom<$large> for Integer {
                type Error = Error;

                fn try_from(number: $large) -> Result<Integer, Error> {
                    Integer::new(i64::try_from(number).map_err(|_| Error::Invalid)?)
                }
            }
        )*
    };
}

numbers!(i8 i16 i32 u8 u16 u32 | i64 isize i128 u64 usize u128);

impl From<Integer> for i64 {
    fn from(number: Integer) -> i64 {
        number.0
    }
}

impl fmt::Display for Integer {
    fn fmt(&self, f: &mut fmt::Formatter<'_>) -> fmt::Result {
        self.0.fmt(f)
    }
}

/// A Decimal (RFC 9651 section 3.3.2), which is a whole number of thousandths. Its `Display` is its
/// canonical text (section 4.1.5).
///
/// ```
/// let item = sf::Item::parse("1.50").unwrap();
/// let decimal = item.bare_item.as_decimal().unwrap();
/// assert_eq!(decimal.thousandths(), 1500);
/// assert_eq!(decimal.to_string(), "1.5");
/// ```
#[derive(Clone, Copy, Debug, Default, PartialEq, Eq, PartialOrd, Ord, Hash)]
pub struct Decimal(i64);

impl Decimal {
    /// The smallest, -999999999999.999.
    pub const MIN: Decimal = Decimal(-NUMBER_MAX);
    /// The largest, 999999999999.999.
    pub const MAX: Decimal = Decimal(NUMBER_MAX);

    /// The Decimal of so many thousandths, from -999,999,999,999,999 to 999,999,999,999,999.
    ///
    /// # Errors
    ///
    /// [`Error::Invalid`] if they are out of range.
    ///
    /// ```
    /// let half = sf::Decimal::from_thousandths(500).unwrap();
    /// assert_eq!(sf::Item::new(half).to_string(), "0.5");
    /// ```
    pub fn from_thousandths(thousandths: i64) -> Result<Decimal, Error> {
        in_range(thousandths).map(Decimal)
    }

    /// The Decimal that is nearest to a number; of two that are equally near, the one whose last
    /// digit is even, as RFC 9651 section 4.1.5 rounds. The exact value of the `f64` is rounded:
    /// `0.0005` is a little more than half a thousandth, and becomes 0.001.
    ///
    /// # Errors
    ///
    /// [`Error::Invalid`] if the number is infinite, none, or out of range when it is rounded.
    ///
    /// ```
    /// use sf::Decimal;
    /// assert_eq!(Decimal::round_half_even(0.1).unwrap().to_string(), "0.1");
    /// assert_eq!(Decimal::round_half_even(0.0625).unwrap().to_string(), "0.062");
    /// assert_eq!(Decimal::round_half_even(0.1875).unwrap().to_string(), "0.188");
    /// assert_eq!(Decimal::round_half_even(1e12), Err(sf::Error::Invalid));
    /// ```
    pub fn round_half_even(number: f64) -> Result<Decimal, Error> {
        const FRACTION_BITS: u32 = 52;
        let bits = number.to_bits();
        let fraction = bits & ((1 << FRACTION_BITS) - 1);
        // The number is significand / 2^shift, but for its sign.
        let (significand, shift) = match bits >> FRACTION_BITS & 0x7ff {
            0 => (fraction, 1074),
            // With these the number is at least 2^52 (or infinite, or none), which is out of range.
            1075.. => return Err(Error::Invalid),
            exponent => (fraction | 1 << FRACTION_BITS, 1075 - exponent),
        };
        let scaled = significand * 1000; // less than 2^63
        let thousandths = match u32::try_from(shift) {
            Ok(shift @ 1..=63) => {
                let (whole, rest, half) = (
                    scaled >> shift,
                    scaled & ((1 << shift) - 1),
                    1 << (shift - 1),
                );
                whole + u64::from(rest > half || rest == half && whole % 2 == 1)
            }
            _ => 0, // less than half a thousandth
        };
        let thousandths = i64::try_from(thousandths).map_err(|_| Error::Invalid)?;
        let sign = if number.is_sign_negative() { -1 } else { 1 };
        Decimal::from_thousandths(sign * thousandths)
    }

    /// What is known to be in range.
    pub(crate) const fn known(thousandths: i64) -> Decimal {
        Decimal(thousandths)
    }

    /// Its thousandths.
    ///
    /// ```
    /// let item = sf::Item::parse("-0.5").unwrap();
    /// assert_eq!(item.bare_item.as_decimal().map(|it| it.thousandths()), Some(-500));
    /// ```
    #[must_use]
    pub const fn thousandths(self) -> i64 {
        self.0
    }

    /// The nearest `f64`. [`round_half_even`](Decimal::round_half_even) makes the same Decimal of
    /// it.
    ///
    /// ```
    /// let item = sf::Item::parse("0.5").unwrap();
    /// assert_eq!(item.bare_item.as_decimal().map(|it| it.as_f64()), Some(0.5));
    /// ```
    #[must_use]
    #[allow(clippy::cast_precision_loss)] // a field's thousandths are below 2^53
    pub fn as_f64(self) -> f64 {
        self.0 as f64 / 1000.0
    }
}

impl From<Decimal> for f64 {
    fn from(number: Decimal) -> f64 {
        number.as_f64()
    }
}

impl fmt::Display for Decimal {
    fn fmt(&self, f: &mut fmt::Formatter<'_>) -> fmt::Result {
        let text = Short::of_number(raw::DECIMAL, self.0);
        f.pad(text.map_err(|_| fmt::Error)?.as_str())
    }
}
