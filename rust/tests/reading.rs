//! The reader: the paper's interchange, the samples, each refusal, and the services.

mod common;

use common::*;
use drumcallisto::NeitherForm::{EveryDay, Refused};
use drumcallisto::{read, Change, Date};

const PAPER: &str = "UIB+UNOB:4+7'UIH+TSDUPD:D:04A::UN+1'MSD+AAR:61'UIT+1+3'UIZ+7+1'";

fn rows(interchange: &[u8]) -> Vec<(usize, u32, String)> {
    let reading = read(interchange, Refused).expect("accepted");
    assert_eq!(reading.interchange(), interchange);
    reading.rows().map(|row| (row.offset, row.group, String::from_utf8(row.tag.to_vec()).unwrap())).collect()
}

#[test]
fn the_paper_printed_whole() {
    assert_eq!(PAPER.len(), 63);
    assert_eq!(sample("paper.edi"), PAPER.as_bytes());
    let expected = [(0, "UIB"), (13, "UIH"), (36, "MSD"), (47, "UIT"), (55, "UIZ")];
    assert_eq!(rows(PAPER.as_bytes()), expected.map(|(offset, tag)| (offset, 0, tag.to_string())));
    assert_eq!(read(PAPER.replace("UIT+1+3", "UIT+1+4").as_bytes(), Refused).unwrap_err(), refused(7, 47));
    assert_eq!(read(format!("{PAPER}\n").as_bytes(), Refused).unwrap_err(), refused(7, 63));
    assert_eq!(read(PAPER.as_bytes(), Refused).unwrap().services().count(), 0);
}

#[test]
fn each_refusal() {
    for (text, refusal) in each_refused() {
        assert_eq!(read(text.as_bytes(), Refused).unwrap_err(), refusal, "{text}");
        assert_eq!(read(text.as_bytes(), EveryDay).unwrap_err(), refusal, "{text}");
    }
}

#[test]
fn lengths() {
    let full = |fill: usize| format!("UIB+UNOB:4+7'UIH+TSDUPD:D:04A::UN+1'MSD+AAR:61{}'UIT+1+3'UIZ+7+1'", "+".repeat(fill));
    assert!(read(full(63).as_bytes(), Refused).is_ok());
    assert_eq!(read(full(64).as_bytes(), Refused).unwrap_err(), refused(6, 36));
    assert_eq!(read(&[b'A'; 60_000], Refused).unwrap_err(), refused(5, 0));
    assert_eq!(read(&[b'A'; 60_001], Refused).unwrap_err(), refused(3, 0));
}

#[test]
fn samples() {
    for (name, refusal) in [
        ("refused-3.edi", refused(3, 0)),
        ("refused-4.edi", refused(4, 45)),
        ("refused-5.edi", refused(5, 47)),
        ("refused-6.edi", refused(6, 0)),
        ("refused-7.edi", refused(7, 47)),
        ("refused-8.edi", refused(8, 13)),
        ("refused-9.edi", refused(9, 47)),
        ("refused-10.edi", refused_part(2, 150)), // a character more than there are days
    ] {
        assert_eq!(read(&sample(name), Refused).unwrap_err(), refusal, "{name}");
        assert_eq!(read(&sample(name), EveryDay).unwrap_err(), refusal, "{name}");
    }
    for (name, count) in [("paper.edi", 5), ("skdupd.edi", 34), ("tsdupd.edi", 16), ("tsdupd-12b.edi", 22), ("both.edi", 19), ("directories.edi", 26)] {
        let bytes = sample(name);
        let rows = rows(&bytes);
        assert_eq!(rows.len(), count, "{name}");
        for (offset, _, tag) in rows {
            assert!(bytes[offset..].starts_with(tag.as_bytes()), "{name}, {tag} at {offset}");
        }
    }
    let groups: Vec<_> = rows(&sample("both.edi")).into_iter().map(|row| row.1).collect();
    assert_eq!(groups, [0, 0, 0, 0, 0, 2, 2, 4, 7, 7, 7, 7, 9, 10, 0, 0, 0, 0, 0]);
}

/// A SKDUPD, a TSDUPD of D.04A and one of D.12B in one file: each is placed by its own table, and the service is the SKDUPD's.
#[test]
fn each_header_decides() {
    let bytes = sample("directories.edi");
    let groups: Vec<_> = rows(&bytes).into_iter().map(|row| row.1).collect();
    assert_eq!(groups, [0, 0, 0, 0, 0, 2, 4, 7, 7, 0, 0, 0, 2, 5, 5, 5, 0, 0, 0, 2, 4, 5, 5, 5, 0, 0]);
    assert_eq!(read(&bytes, Refused).unwrap().services().count(), 1);
    let text = String::from_utf8(bytes).unwrap();
    let skdupd = text.find("UIH+SKDUPD").unwrap();
    assert_eq!(read(text.replacen("04A", "12B", 1).as_bytes(), Refused).unwrap_err(), refused(8, skdupd));
    let last = text.rfind("UIH").unwrap();
    assert_eq!(read(text.replace("12B::", "12B:X:").as_bytes(), Refused).unwrap_err(), refused(8, last));
}

/// Whether day k of the window from a Tuesday is one of these weekdays, Monday 1 to Sunday 7.
fn weekday(k: usize, days: &[usize]) -> bool {
    days.contains(&((k + 1) % 7 + 1))
}

#[test]
fn services_of_a_sample() {
    let bytes = sample("skdupd.edi");
    let reading = read(&bytes, Refused).unwrap();
    let services: Vec<_> = reading.services().collect();
    let list: Vec<_> = services.iter().map(|s| (s.number(), s.change())).collect();
    let expected = [("4711", Change::Put), ("4712", Change::Put), ("4713", Change::Removal)];
    assert_eq!(list, expected.map(|(number, change)| (number.to_string(), change)));
    for service in &services {
        assert!(bytes[service.position()..].starts_with(format!("PRD+{}", service.number()).as_bytes()));
    }
    // P2's days, and Monday to Friday from 2000-09-01, day 31, to 2000-12-31, day 152.
    let first = services[0].days(FIRST).unwrap();
    let named = [0, 3, 4, 5, 6, 12];
    let runs = |k: usize| named.contains(&k) || (31..=152).contains(&k) && weekday(k, &[1, 2, 3, 4, 5]);
    assert_eq!(first.days().collect::<Vec<_>>(), (0..512).filter(|&k| runs(k)).collect::<Vec<_>>());
    // Saturday and Sunday from 2000-08-01 to 2001-05-26, day 298.
    let second = services[1].days(FIRST).unwrap();
    assert_eq!(second.to_string(), characters(&(0..=298).filter(|&k| weekday(k, &[6, 7])).collect::<Vec<_>>()));
    assert_eq!(second.count(), 85);
    assert_eq!(services[2].days(FIRST).unwrap().count(), 0);
}

#[test]
fn days_over_another_window() {
    let bytes = skdupd(&[put("1", "2000-08-01/2000-08-13+67")]);
    let reading = read(&bytes, Refused).unwrap();
    let service = reading.services().next().unwrap();
    let pop = HEAD.len() + "PRD+1'".len();
    assert_eq!(service.days(Date::new(2000, 7, 31)).unwrap().days().collect::<Vec<_>>(), [5, 6, 12, 13]);
    assert_eq!(service.days(Date::new(2000, 8, 2)).unwrap_err(), refused(13, pop));
    assert_eq!(service.days(Date::new(1999, 3, 20)).unwrap_err(), refused(13, pop)); // its last day would be day 512
    assert_eq!(service.days(Date::new(1999, 3, 21)).unwrap().days().last(), Some(511));
    for none in [Date::new(2001, 2, 29), Date::new(1989, 12, 31), Date::new(2000, 0, 1), Date::new(u32::MAX, u32::MAX, u32::MAX)] {
        assert_eq!(service.days(none).unwrap_err(), refused(19, 0), "{none}");
    }
}

#[test]
fn numbers_after_release() {
    let long = "L".repeat(512);
    let bytes = skdupd(&[put("a?+b?:??", "2000-08-01/2000-08-01"), removal("4 5"), removal(&long), removal("")]);
    let reading = read(&bytes, EveryDay).unwrap();
    let numbers: Vec<_> = reading.services().map(|s| (s.number(), s.change() == Change::Removal)).collect();
    assert_eq!(numbers, [("a+b:?".to_string(), false), ("4 5".to_string(), true), (long, true), (String::new(), true)]);
}

#[test]
fn dates_as_text() {
    assert_eq!("2000-08-01".parse(), Ok(FIRST));
    assert_eq!(Date::new(1990, 1, 2).to_string(), "1990-01-02");
    for text in ["", "2000-8-1", "2000-08-011", "2000/08-01", "2000-08/01", "2000-08-0a", "+200-08-01", "20000-8-01"] {
        assert!(text.parse::<Date>().is_err(), "{text}");
    }
}
