use crate::number::in_range;
use crate::short::Short;
use crate::Error;
use core::fmt;
use sf_sys as raw;
#[cfg(feature = "std")]
use std::time::{Duration, SystemTime};

/// A Date (RFC 9651 section 3.3.7), in seconds since 1970-01-01T00:00:00Z. Its `Display` is its
/// canonical text (section 4.1.10).
///
/// ```
/// let item = sf::Item::parse("@1659578233").unwrap();
/// let date = item.bare_item.as_date().unwrap();
/// assert_eq!(date.unix_seconds(), 1_659_578_233);
/// assert_eq!(date.to_string(), "@1659578233");
/// ```
#[derive(Clone, Copy, Debug, PartialEq, Eq, PartialOrd, Ord, Hash)]
pub struct Date(i64);

impl Date {
    /// 1970-01-01T00:00:00Z.
    pub const UNIX_EPOCH: Date = Date(0);

    /// The Date of so many seconds, from -999,999,999,999,999 to 999,999,999,999,999.
    ///
    /// # Errors
    ///
    /// [`Error::Invalid`] if they are out of range.
    ///
    /// ```
    /// let date = sf::Date::from_unix_seconds(1_659_578_233).unwrap();
    /// assert_eq!(sf::Item::new(date).to_string(), "@1659578233");
    /// ```
    pub fn from_unix_seconds(seconds: i64) -> Result<Date, Error> {
        in_range(seconds).map(Date)
    }

    /// What is known to be in range.
    pub(crate) const fn known(seconds: i64) -> Date {
        Date(seconds)
    }

    /// Its seconds; negative before 1970.
    ///
    /// ```
    /// let item = sf::Item::parse("@-1").unwrap();
    /// assert_eq!(item.bare_item.as_date().map(|date| date.unix_seconds()), Some(-1));
    /// ```
    #[must_use]
    pub const fn unix_seconds(self) -> i64 {
        self.0
    }

    /// The same time for the standard library, or `None` if it has no such time.
    ///
    /// ```
    /// let item = sf::Item::parse("@0").unwrap();
    /// let time = item.bare_item.as_date().and_then(|date| date.system_time());
    /// assert_eq!(time, Some(std::time::UNIX_EPOCH));
    /// ```
    #[cfg(feature = "std")]
    #[must_use]
    pub fn system_time(self) -> Option<SystemTime> {
        let distance = Duration::from_secs(self.0.unsigned_abs());
        if self.0 < 0 {
            SystemTime::UNIX_EPOCH.checked_sub(distance)
        } else {
            SystemTime::UNIX_EPOCH.checked_add(distance)
        }
    }
}

impl fmt::Display for Date {
    fn fmt(&self, f: &mut fmt::Formatter<'_>) -> fmt::Result {
        let text = Short::of_number(raw::DATE, self.0);
        f.pad(text.map_err(|_| fmt::Error)?.as_str())
    }
}

/// The second in which the time is: what is left of a second is dropped.
///
/// ```
/// use std::time::{Duration, UNIX_EPOCH};
/// let time = UNIX_EPOCH + Duration::from_millis(1_659_578_233_900);
/// assert_eq!(sf::Date::try_from(time).unwrap().to_string(), "@1659578233");
/// let before = UNIX_EPOCH - Duration::from_millis(1);
/// assert_eq!(sf::Date::try_from(before).unwrap().to_string(), "@-1");
/// ```
#[cfg(feature = "std")]
impl TryFrom<SystemTime> for Date {
    type Error = Error;

    fn try_from(time: SystemTime) -> Result<Date, Error> {
        let seconds = match time.duration_since(SystemTime::UNIX_EPOCH) {
            Ok(after) => i64::try_from(after.as_secs()),
            Err(error) => {
                let before = error.duration();
                let is_within = before.subsec_nanos() > 0;
                i64::try_from(before.as_secs()).map(|seconds| -seconds - i64::from(is_within))
            }
        };
        Date::from_unix_seconds(seconds.map_err(|_| Error::Invalid)?)
    }
}

/// ```
/// use std::time::{Duration, SystemTime, UNIX_EPOCH};
/// let date = sf::Date::from_unix_seconds(7).unwrap();
/// assert_eq!(SystemTime::try_from(date), Ok(UNIX_EPOCH + Duration::from_secs(7)));
/// ```
#[cfg(feature = "std")]
impl TryFrom<Date> for SystemTime {
    type Error = Error;

    fn try_from(date: Date) -> Result<SystemTime, Error> {
        date.system_time().ok_or(Error::Invalid)
    }
}
