//! Dates by year, month and day: to day numbers and back, and appended; what is not in the calendar is refused with 17.
mod common;

use common::{call_unnamed, Lent, LENT};
use variant_writer::{sys, Civil, Date, Refusal, Variant, VariantBuilder};

const FIRST: i32 = -719_162;
const LAST: i32 = 2_932_896;
const DAY: i64 = 86_400_000_000;
const EXTREMES: [i64; 6] = [i64::MIN, i64::MIN + 1, -1, (1 << 40) + 1, i64::MAX - 1, i64::MAX];

fn date(year: i64, month: i64, day: i64) -> Date {
    Date { year, month, day }
}

/// The days of each month, January first.
fn months(year: i64) -> [i64; 12] {
    let leap = year % 4 == 0 && (year % 100 != 0 || year % 400 == 0);
    [31, if leap { 29 } else { 28 }, 31, 30, 31, 30, 31, 31, 30, 31, 30, 31]
}

/// Every day of the span, counted one by one.
#[test]
fn every_day_both_ways() {
    let mut n = FIRST;
    for year in 1..=9999 {
        for (month, length) in (1..).zip(months(year)) {
            for day in 1..=length {
                let date = date(year, month, day);
                assert_eq!((date.days(), Date::from_days(n.into())), (Ok(n), Ok(date)));
                n += 1;
            }
        }
    }
    assert_eq!(n, LAST + 1);
}

#[test]
fn named_days() {
    for (date, days) in [
        (date(1, 1, 1), FIRST),
        (date(1582, 10, 10), -141_432),
        (date(1969, 12, 31), -1),
        (date(1970, 1, 1), 0),
        (date(2000, 2, 29), 11_016),
        (date(9999, 12, 31), LAST),
    ] {
        assert_eq!((date.days(), Date::from_days(days.into())), (Ok(days), Ok(date)));
    }
}

/// The day before and the day after each month, months 0 and 13, years outside the span, and numbers of any size.
#[test]
fn no_dates() {
    let refused = |year, month, day| {
        let date = date(year, month, day);
        assert_eq!(date.days(), Err(Refusal::OutOfCalendar), "{date:?}");
    };
    for year in 1..=9999 {
        for (month, length) in (1..).zip(months(year)) {
            refused(year, month, 0);
            refused(year, month, length + 1);
        }
        refused(year, 0, 1);
        refused(year, 13, 1);
    }
    for year in [0, 10_000, -1, -4, 12_000].into_iter().chain(EXTREMES) {
        refused(year, 1, 1);
        refused(year, 2, 29);
        refused(year, 12, 31);
    }
    for n in EXTREMES {
        refused(2024, n, 1);
        refused(2024, 2, n);
        refused(n, n, n);
    }
    assert_eq!(Refusal::OutOfCalendar.number(), 17);
}

#[test]
fn no_day_numbers() {
    for days in
        [i64::from(FIRST) - 1, i64::from(LAST) + 1, i32::MIN.into(), i32::MAX.into()].into_iter().chain(EXTREMES).filter(|n| *n != -1)
    {
        assert_eq!(Date::from_days(days), Err(Refusal::OutOfCalendar), "{days}");
    }
}

/// A refused call writes no number.
#[test]
fn refused_ways_write_nothing() {
    let (mut days, mut year, mut month, mut day) = (7, 7, 8, 9);
    // SAFETY: each pointer is a mutable borrow's
    let numbers = unsafe {
        [sys::variant_days_of(1900, 2, 29, &mut days), sys::variant_date_of(i64::from(LAST) + 1, &mut year, &mut month, &mut day)]
    };
    assert_eq!((numbers, days, year, month, day), ([17, 17], 7, 7, 8, 9));
}

fn stored(civil: impl Into<Civil>) -> Result<Vec<u8>, Refusal> {
    let mut b = VariantBuilder::new();
    b.append_civil(None, civil)?;
    Ok(b.value().to_vec())
}

fn plain(x: Variant) -> Result<Vec<u8>, Refusal> {
    let mut b = VariantBuilder::new();
    b.append_value(None, x)?;
    Ok(b.value().to_vec())
}

/// The bytes are those of the plain date and the plain timestamps.
#[test]
fn stored_as_plain_scalars() {
    for days in (FIRST..=LAST).step_by(997).chain([FIRST, -1, 0, 1, LAST]) {
        let date = Date::from_days(days.into()).unwrap();
        assert_eq!(stored(date), plain(Variant::Date(days)));
        for time in [0, 1, 999_999, DAY / 2, DAY - 1] {
            let micros = i64::from(days) * DAY + time;
            assert_eq!(stored(Civil::TimestampMicros(date, time)), plain(Variant::TimestampMicros(micros)));
            assert_eq!(stored(Civil::TimestampNtzMicros(date, time)), plain(Variant::TimestampNtzMicros(micros)));
        }
    }
    let before_1970 = Civil::TimestampMicros(date(1969, 12, 31), DAY - 1);
    assert_eq!(stored(before_1970), plain(Variant::TimestampMicros(-1)));
    let minus_one = [&[12 * 4][..], &[255; 8]].concat();
    assert_eq!(stored(before_1970), Ok(minus_one));
    assert_eq!(stored(date(1970, 1, 1)), Ok(vec![11 * 4, 0, 0, 0, 0]));
    let last = 253_402_300_799_999_999i64;
    assert_eq!(stored(Civil::TimestampNtzMicros(date(9999, 12, 31), DAY - 1)), Ok([&[13 * 4][..], &last.to_le_bytes()].concat()));
}

/// A time outside the day is 17 here, and 7 of a plain time; so is a bad date, with a good time or a bad one.
#[test]
fn times() {
    let (good, bad) = (date(2024, 2, 29), date(2023, 2, 29));
    for time in [-1, DAY, DAY + 1].into_iter().chain(EXTREMES) {
        for civil in [Civil::TimestampMicros(good, time), Civil::TimestampNtzMicros(good, time), Civil::TimestampMicros(bad, time)] {
            assert_eq!(stored(civil), Err(Refusal::OutOfCalendar), "{civil:?}");
        }
        assert_eq!(plain(Variant::Time(time)), Err(Refusal::OutOfRange));
    }
    for civil in [Civil::Date(bad), Civil::TimestampMicros(bad, 0), Civil::TimestampNtzMicros(bad, 0)] {
        assert_eq!(stored(civil), Err(Refusal::OutOfCalendar), "{civil:?}");
    }
}

#[test]
fn named_in_an_object() {
    let mut b = VariantBuilder::new();
    b.new_object(None).unwrap();
    b.append_civil(Some(b"born"), date(2024, 2, 29)).unwrap();
    b.append_civil(Some(b"seen"), Civil::TimestampMicros(date(2026, 3, 5), 27_738_250_000)).unwrap();
    b.append_civil(Some(b"born"), date(2024, 3, 1)).unwrap();
    b.close().unwrap();
    let mut names = [0; 32];
    let n = b.finish(&mut names).unwrap();
    let listed = variant_writer::listing(b.value(), &names[..n]).unwrap();
    assert!(listed.contains("\n  born: date 2024-03-01\n  seen: timestamp 2026-03-05 07:42:18.250000 UTC\n"), "{listed}");
}

/// 17 comes after 1, 2, 5 and 6, and before 9, 10, 12, 13 and 14; where it does not hold they come as for any scalar.
#[test]
fn place_among_the_rows() {
    let (good, bad) = (date(2024, 2, 29), date(2023, 2, 29));
    let number = |b: &mut VariantBuilder, name: Option<&[u8]>, date: Date| {
        let (before, value) = (b.words(), b.storage_mut().value.to_vec());
        let number = b.append_civil(name, date).map_or_else(Refusal::number, |()| 0);
        assert!(number == 0 || b.words() == before && b.storage_mut().value == value);
        number
    };
    let both = |b: &mut VariantBuilder, name: Option<&[u8]>| [number(b, name, bad), number(b, name, good)];

    let mut b = VariantBuilder::with_capacity(5, 1, 1, 1);
    assert_eq!(both(&mut b, Some(b"a")), [5, 5]);
    assert_eq!(both(&mut b, None), [17, 0]);
    assert_eq!(both(&mut b, None), [6, 6]);
    b.finish(&mut [0; 3]).unwrap();
    assert_eq!(both(&mut b, None), [2, 2]);
    b.words_mut()[7] = 5;
    assert_eq!(both(&mut b, None), [1, 1]);

    let mut b = VariantBuilder::with_capacity(10, 1, 1, 1);
    b.reset(true);
    b.new_object(None).unwrap();
    assert_eq!(both(&mut b, None), [5, 5]);
    assert_eq!(both(&mut b, Some(b"\xff")), [17, 9]);
    assert_eq!(both(&mut b, Some(b"ab")), [17, 12]);
    assert_eq!(both(&mut b, Some(b"a")), [17, 0]);
    assert_eq!(both(&mut b, Some(b"a")), [17, 10]);
    assert_eq!(both(&mut b, Some(b"b")), [17, 12]);
    b.grow(0, 9, 9, 0);
    assert_eq!(both(&mut b, Some(b"b")), [17, 13]);
    b.grow(0, 0, 0, 9);
    assert_eq!(both(&mut b, Some(b"b")), [17, 0]);
    assert_eq!(both(&mut b, Some(b"c")), [17, 14]);
}

/// The word call's codes: any but 11, 12 and 13 is refused with 7, whatever the date, where no earlier row holds, and changes nothing.
#[test]
fn codes() {
    let mut lent = LENT;
    let append = |lent: &mut Lent, code, day, time| call_unnamed!(lent.variant_append_civil(code, 2023, 2, day, time));
    for (code, day) in (0..=u8::MAX).flat_map(|code| [(code, 28), (code, 29)]) {
        assert_eq!(unsafe { sys::variant_new(&mut lent.words, false, 1) }, 0);
        let before = lent.words;
        let number = append(&mut lent, code, day, 0);
        assert_eq!(
            number,
            if !(11..=13).contains(&code) {
                7
            } else if day == 28 {
                0
            } else {
                17
            },
            "code {code}"
        );
        assert!(number == 0 || lent.words == before);
    }
    // a date has no time of day: none is looked at
    assert_eq!(unsafe { sys::variant_new(&mut lent.words, false, 1) }, 0);
    assert_eq!(append(&mut lent, 11, 28, -1), 0);
    assert_eq!(append(&mut lent, 14, 28, 0), 6);
}
