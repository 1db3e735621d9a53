//! The calendar writers: the paper's cases, what is refused, and that what is written reads back.

mod common;

use common::*;
use drumcallisto::DayString::{Full, Short};
use drumcallisto::{read, Calendar, Date, NeitherForm, Refusal};

fn selected(days: &[usize]) -> Calendar {
    let mut calendar = Calendar::new();
    assert!(days.iter().all(|&k| calendar.select(k)));
    calendar
}

/// All characters, the short form and the weekdays.
fn written(calendar: Calendar, first: Date, last: Date) -> [Result<String, Refusal>; 3] {
    [calendar.write_day_string(first, last, Full), calendar.write_day_string(first, last, Short), calendar.write_weekdays(first, last)]
}

fn august(days: &[usize]) -> [Result<String, Refusal>; 3] {
    written(selected(days), FIRST, Date::new(2000, 8, 13))
}

#[test]
fn p2_a_day_string() {
    let [string, short, weekdays] = august(&[0, 3, 4, 5, 6, 12]);
    assert_eq!(string.unwrap(), "POP+273:2000-08-01/2000-08-13::1001111000001'");
    assert_eq!(short.unwrap(), "POP+273:2000-08-01/2000-08-13::1001111000001'"); // the last day runs
    assert_eq!(weekdays.unwrap_err(), refused(20, 0));
}

#[test]
fn p3_weekdays() {
    let [string, _, weekdays] = august(&[4, 5, 11, 12]);
    assert_eq!(string.unwrap(), "POP+273:2000-08-01/2000-08-13::0000110000011'");
    assert_eq!(weekdays.unwrap(), "POP+273:2000-08-01/2000-08-13+67'");
}

#[test]
fn p8_a_short_day_string() {
    let short = |days: &[usize]| august(days)[1].clone().unwrap();
    assert_eq!(short(&[0, 3, 4, 5, 6]), "POP+273:2000-08-01/2000-08-13::1001111'");
    assert_eq!(short(&[0]), "POP+273:2000-08-01/2000-08-13::1'");
    assert_eq!(short(&[11]), "POP+273:2000-08-01/2000-08-13::000000000001'");
    assert_eq!(short(&[12]), "POP+273:2000-08-01/2000-08-13::0000000000001'");
}

#[test]
fn no_day_and_every_day() {
    let [string, short, weekdays] = august(&[]);
    assert_eq!(string.unwrap(), "POP+273:2000-08-01/2000-08-13::0000000000000'");
    assert_eq!(short.unwrap(), "POP+273:2000-08-01/2000-08-13::0'");
    assert_eq!(weekdays.unwrap_err(), refused(20, 0));
    let [_, _, weekdays] = august(&(0..13).collect::<Vec<_>>());
    assert_eq!(weekdays.unwrap(), "POP+273:2000-08-01/2000-08-13+1234567'");
    let one = selected(&[0]);
    assert_eq!(one.write_weekdays(FIRST, FIRST).unwrap(), "POP+273:2000-08-01/2000-08-01+2'");
}

#[test]
fn bad_calendars() {
    let all = |calendar: Calendar, first: Date, last: Date| {
        let [a, b, c] = written(calendar, first, last);
        assert!(a == b && b == c);
        a
    };
    let bad = Err(refused(19, 0));
    let one = selected(&[0]);
    assert_eq!(all(selected(&[0, 13]), FIRST, Date::new(2000, 8, 13)), bad); // a day past the last
    assert_eq!(all(one, FIRST, Date::new(2000, 7, 31)), bad);
    assert_eq!(all(one, Date::new(2001, 2, 29), Date::new(2001, 3, 1)), bad);
    assert_eq!(all(one, Date::new(1989, 12, 31), Date::new(1990, 1, 1)), bad);
    assert_eq!(all(one, Date::new(2099, 12, 31), Date::new(2100, 1, 1)), bad);
    assert_eq!(all(one, FIRST, Date::new(u32::MAX, 1, 1)), bad);
    assert_eq!(all(one, Date::new(2000, 1, 1), Date::new(2001, 5, 27)), bad); // 513 days
    let string = one.write_day_string(Date::new(2000, 1, 1), Date::new(2001, 5, 26), Full).unwrap();
    assert_eq!(string, format!("POP+273:2000-01-01/2001-05-26::{}'", characters(&[0])));
    // 512 days, the longest
}

/// The days of a service with this one period.
fn read_back(period: &str) -> Calendar {
    let bytes = skdupd(&[format!("PRD+1'{period}")]);
    let reading = read(&bytes, NeitherForm::Refused).expect("accepted");
    let service = reading.services().next().expect("a service");
    service.days(FIRST).expect("in the window")
}

#[test]
fn what_is_written_reads_back() {
    let mut chance = Chance(2_000);
    let mut forms = 0;
    for _ in 0..300 {
        let length = 1 + chance.below(31);
        let last = Date::new(2000, 8, length as u32);
        let days: Vec<_> = match chance.below(2) {
            0 => (0..length).filter(|_| chance.below(2) == 0).collect(),
            _ => {
                let weekdays = chance.below(128);
                (0..length).filter(|k| weekdays >> (k % 7) & 1 == 1).collect()
            }
        };
        let calendar = selected(&days);
        assert_eq!(read_back(&calendar.write_day_string(FIRST, last, Full).unwrap()), calendar);
        let short = calendar.write_day_string(FIRST, last, Short).unwrap();
        assert_eq!(short.len(), 32 + days.last().map_or(1, |k| k + 1));
        assert_eq!(read_back(&short), calendar);
        let whole = days.iter().all(|d| (d % 7..length).step_by(7).all(|k| days.contains(&k)));
        match calendar.write_weekdays(FIRST, last) {
            Ok(period) => {
                assert!(whole && !days.is_empty());
                assert_eq!(read_back(&period), calendar);
                forms += 1;
            }
            Err(refusal) => {
                assert!(!whole || days.is_empty());
                assert_eq!(refusal, refused(20, 0));
            }
        }
    }
    assert!(forms > 100, "{forms}");
}

#[test]
fn days_as_bits() {
    let mut calendar = selected(&[0, 9, 511]);
    assert!(!calendar.select(512) && !calendar.select(usize::MAX));
    let mut bytes = [0; 64];
    (bytes[0], bytes[1], bytes[63]) = (1, 2, 128);
    assert_eq!(calendar.as_bytes(), &bytes);
    assert_eq!(calendar, Calendar::from_bytes(bytes));
    assert_eq!(calendar.days().collect::<Vec<_>>(), [0, 9, 511]);
    assert!(calendar.has(511) && !calendar.has(510) && !calendar.has(512));
    assert_eq!(calendar.to_string(), characters(&[0, 9, 511]));
}
