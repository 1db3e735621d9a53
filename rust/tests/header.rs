//! The names, numbers and limits are those of include/drumcallisto.h.

use drumcallisto::{Number, Part};

/// The name and value of each constant that the header defines, in its order.
fn constants() -> Vec<(String, usize)> {
    let path = concat!(env!("CARGO_MANIFEST_DIR"), "/../include/drumcallisto.h");
    let header = std::fs::read_to_string(path).unwrap_or_else(|error| panic!("{path}: {error}"));
    let line = |line: &str| {
        let (name, rest) = line.trim().strip_prefix("DRUMCALLISTO_")?.split_once(" = ")?;
        let value = rest.split(|c: char| !c.is_ascii_digit()).next()?.parse().ok()?;
        Some((name.to_string(), value))
    };
    header.lines().filter_map(line).collect()
}

/// `NOT_A_REGISTER` of `NotARegister`.
fn as_in_c(name: &str) -> String {
    let mut text = String::new();
    for (k, c) in name.chars().enumerate() {
        if k > 0 && c.is_ascii_uppercase() {
            text.push('_');
        }
        text.push(c.to_ascii_uppercase());
    }
    text
}

#[test]
fn numbers_by_name() {
    let ours: Vec<_> = Number::ALL.iter().map(|&n| (as_in_c(&format!("{n:?}")), n as usize)).collect();
    assert_eq!(ours.len(), 21);
    assert_eq!(constants()[0], ("DONE".to_string(), 0));
    assert_eq!(constants()[1..22], ours[..]);
    for n in 0..=255 {
        assert_eq!(Number::of(n).map(|number| number as u8), if (1..=21).contains(&n) { Some(n) } else { None });
    }
}

/// The header says `WRONG_DATES` where the part is the dates.
#[test]
fn parts_by_name() {
    let ours: Vec<_> = Part::ALL.iter().map(|&p| (as_in_c(&format!("{p:?}")), p as usize)).collect();
    assert_eq!(ours.len(), 6);
    let plain = |(name, value): &(String, usize)| (name.strip_prefix("WRONG_").unwrap_or(name).to_string(), *value);
    assert_eq!(constants()[22..28].iter().map(plain).collect::<Vec<_>>(), ours);
    for n in 0..=255 {
        assert_eq!(Part::of(n).map(|part| part as u8), if (1..=6).contains(&n) { Some(n) } else { None });
    }
}

#[test]
fn limits() {
    let named = |name: &str| constants().iter().find(|c| c.0 == name).map(|c| c.1);
    assert_eq!(named("REGISTER_LENGTH"), Some(drumcallisto::REGISTER_LENGTH));
    assert_eq!(named("CALENDAR_LENGTH"), Some(drumcallisto::CALENDAR_LENGTH));
    assert_eq!(named("WINDOW_DAYS"), Some(drumcallisto::WINDOW_DAYS));
    assert_eq!(named("ACCOUNTS"), Some(drumcallisto::ACCOUNTS));
    assert_eq!(named("QUOTA_SUM"), Some(drumcallisto::QUOTA_SUM as usize));
    assert_eq!(named("NUMBER_LENGTH"), Some(drumcallisto::NUMBER_LENGTH));
    assert_eq!(named("INTERCHANGE_LENGTH"), Some(drumcallisto::INTERCHANGE_LENGTH));
    assert_eq!(named("STORE_LENGTH"), Some(drumcallisto::STORE_LENGTH));
}

#[test]
fn a_refusal_in_words() {
    let refusal = drumcallisto::read(b"ABC'", drumcallisto::NeitherForm::Refused).unwrap_err();
    assert_eq!(refusal.to_string(), "refused, number 7 at 0: the envelope is wrong: its order, contents or counts, or bytes after UIZ");
    let period = drumcallisto::Refusal { number: Number::WrongPeriod, position: 62, part: Some(Part::Dates) };
    assert_eq!(period.to_string(), "refused, number 10 at 62: the contents of this POP are wrong: the dates are wrong");
    let error: Box<dyn std::error::Error> = refusal.into();
    assert!(error.downcast_ref::<drumcallisto::Refusal>().is_some());
}
