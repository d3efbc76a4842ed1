use crate::builder::answer;
use crate::{sys, Refusal};

/// A date of the Gregorian calendar, the rule of leap years holding from year 1 on. Any three numbers; the calls say whether they are a
/// date of the years 1 to 9999.
///
/// ```
/// use variant_writer::{Date, Refusal};
///
/// let date = Date { year: 1969, month: 12, day: 31 };
/// assert_eq!(date.days(), Ok(-1));
/// assert_eq!(Date::from_days(-1), Ok(date));
/// assert_eq!(Date { year: 1900, month: 2, day: 29 }.days(), Err(Refusal::OutOfCalendar));
/// ```
#[derive(Clone, Copy, Debug, PartialEq, Eq, PartialOrd, Ord, Hash)]
pub struct Date {
    pub year: i64,
    pub month: i64,
    pub day: i64,
}

impl Date {
    /// Its day number, 1970-01-01 being 0: from -719,162 to 2,932,896. What is no date is refused with 17.
    pub fn days(self) -> Result<i32, Refusal> {
        let mut days = 0;
        // SAFETY: the pointer is a mutable borrow's
        answer(unsafe { sys::variant_days_of(self.year, self.month, self.day, &mut days) })?;
        Ok(days)
    }

    /// The date of a day number. One that no date of the years 1 to 9999 has is refused with 17.
    pub fn from_days(days: i64) -> Result<Date, Refusal> {
        let (mut year, mut month, mut day) = (0, 0, 0);
        // SAFETY: the pointers are mutable borrows', of three numbers
        answer(unsafe { sys::variant_date_of(days, &mut year, &mut month, &mut day) })?;
        Ok(Date { year, month, day })
    }
}

/// A date, or one and a time of day in microseconds since midnight, 0 to 86,399,999,999, as `append_civil` takes it.
#[derive(Clone, Copy, Debug, PartialEq, Eq, Hash)]
pub enum Civil {
    Date(Date),
    /// in UTC
    TimestampMicros(Date, i64),
    /// without time zone
    TimestampNtzMicros(Date, i64),
}

impl Civil {
    /// The code of the type that is stored, the date, and the time.
    pub(crate) fn numbers(self) -> (u8, Date, i64) {
        match self {
            Civil::Date(date) => (11, date, 0),
            Civil::TimestampMicros(date, time) => (12, date, time),
            Civil::TimestampNtzMicros(date, time) => (13, date, time),
        }
    }
}

impl From<Date> for Civil {
    fn from(date: Date) -> Self {
        Civil::Date(date)
    }
}
