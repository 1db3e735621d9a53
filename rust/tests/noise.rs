//! Bytes by chance: every call answers, a refusal changes nothing, and a register stays one.

mod common;

use common::*;
use drumcallisto::NeitherForm::{EveryDay, Refused};
use drumcallisto::{is_register, read, Calendar, Date, DayString, Part, Reading, Refusal, Register, REGISTER_LENGTH};

/// What must hold of any bytes; says whether they were accepted.
fn answers(register: &Register, bytes: &[u8]) -> bool {
    let mut after = register.clone();
    let staged = after.stage(3, bytes, EveryDay);
    let answer = read(bytes, EveryDay);
    differs_in_neither_form(bytes, &answer);
    match answer {
        Err(refusal) => {
            assert!((3..=10).contains(&(refusal.number as u8)), "{refusal}");
            assert_eq!(refusal.part.is_some(), refusal.number as u8 == 10, "{refusal}");
            assert!(refusal.part != Some(Part::NeitherForm), "{refusal}");
            assert!(refusal.position <= bytes.len(), "{refusal}");
            assert_eq!(staged, Err(refusal));
            assert!(after == *register);
            false
        }
        Ok(reading) => {
            let rows: Vec<_> = reading.rows().collect();
            assert!(rows.windows(2).all(|pair| pair[0].offset < pair[1].offset));
            assert!(rows.iter().all(|row| bytes[row.offset..].starts_with(&row.tag)));
            let triggers: Vec<_> = rows.iter().filter(|row| row.tag == *b"PRD" && row.group == 2).map(|row| row.offset).collect();
            assert_eq!(reading.services().map(|s| s.position()).collect::<Vec<_>>(), triggers);
            for service in reading.services() {
                assert!(service.number().len() <= 512);
                let answer = service.days(FIRST);
                assert!(answer.map_or_else(|r| r.number as u8 == 13, |days| days.count() <= 512));
            }
            same_or_staged(register, &after, staged, triggers.len(), bytes.len());
            true
        }
    }
}

/// Without the old reading a POP with neither form is refused; all else is the same.
fn differs_in_neither_form(bytes: &[u8], old: &Result<Reading<'_>, Refusal>) {
    let rows = |reading: &Reading<'_>| reading.rows().collect::<Vec<_>>();
    match read(bytes, Refused) {
        Err(refusal) if refusal.part == Some(Part::NeitherForm) => {
            assert!(bytes[refusal.position..].starts_with(b"POP"), "{refusal}");
            assert!(old.as_ref().map_or_else(|other| other.position >= refusal.position, |_| true), "{refusal}");
        }
        answer => assert_eq!(answer.as_ref().map(rows), old.as_ref().map(rows)),
    }
}

fn same_or_staged(before: &Register, after: &Register, staged: Result<usize, Refusal>, services: usize, length: usize) {
    match staged {
        Ok(count) => {
            assert_eq!(count, services);
            assert!(is_register(after.as_bytes()));
        }
        Err(refusal) => {
            assert!((11..=15).contains(&(refusal.number as u8)) && refusal.part.is_none(), "{refusal}");
            assert!(refusal.position <= length, "{refusal}");
            assert!(after == before);
        }
    }
}

fn opened() -> Register {
    let mut register = Register::open(FIRST, [32; 8]).unwrap();
    assert_eq!(register.stage(3, &skdupd(&[put("4713", "2000-08-01/2000-08-13")]), EveryDay), Ok(1));
    assert_eq!(register.release(3), Ok(1));
    register
}

#[test]
fn bytes() {
    let register = opened();
    let mut chance = Chance(1);
    let any: Vec<u8> = (0..=255).collect();
    for round in 0..2_000 {
        let length = chance.below(200);
        let alphabet: &[u8] = if round % 2 == 0 { &any } else { b"UIBHTZ+:'?*4" };
        let noise = chance.bytes(length, alphabet);
        answers(&register, &noise);
        answers(&register, &[b"UIB+UNOB:4+7'".as_slice(), &noise].concat());
    }
}

#[test]
fn damaged_samples() {
    let register = opened();
    let mut chance = Chance(2);
    let mut accepted = 0;
    let samples = ["paper.edi", "skdupd.edi", "tsdupd.edi", "directories.edi"].map(|name| (name, sample(name)));
    let neither = skdupd(&[put("17", "2000-08-01/2000-08-13")]);
    for (name, whole) in samples.into_iter().chain([("a POP with neither form", neither)]) {
        assert!(answers(&register, &whole), "{name}");
        for at in 0..whole.len() {
            assert!(!answers(&register, &whole[..at]), "{name} cut at {at}");
            let mut other = whole.clone();
            other[at] = chance.bytes(1, b"+:*?'0123456789ABPRD56 \n#")[0];
            accepted += usize::from(answers(&register, &other));
            other.remove(at);
            accepted += usize::from(answers(&register, &other));
        }
    }
    assert!(accepted > 100, "{accepted}");
}

#[test]
fn damaged_registers() {
    let register = opened();
    let mut chance = Chance(3);
    for _ in 0..200 {
        let mut bytes = register.as_bytes().to_vec();
        let at = if chance.below(2) == 0 { chance.below(200) } else { chance.below(REGISTER_LENGTH) };
        bytes[at] ^= 1 << chance.below(8);
        match Register::from_bytes(&bytes) {
            Err(refusal) => assert!(refusal == refused(1, 0) && !is_register(&bytes)),
            Ok(mut other) => {
                assert!(is_register(&bytes) && other.as_bytes()[..] == bytes && other != register);
                assert!(other.release(3).is_ok() && is_register(other.as_bytes()));
            }
        }
    }
    let any: Vec<u8> = (0..=255).collect();
    for length in [0, 1, 100, REGISTER_LENGTH, REGISTER_LENGTH + 1] {
        assert!(!is_register(&chance.bytes(length, &any)));
    }
}

#[test]
fn calendars() {
    let mut chance = Chance(4);
    let any: Vec<u8> = (0..=255).collect();
    let date = |chance: &mut Chance| match chance.below(4) {
        0 => Date::new(chance.below(1 << 31) as u32, chance.below(14) as u32, chance.below(33) as u32),
        _ => Date::new(2000 + chance.below(2) as u32, 1 + chance.below(12) as u32, 1 + chance.below(28) as u32),
    };
    let mut written = 0;
    for _ in 0..3_000 {
        let mut days = [0; 64];
        let front = chance.below(3);
        days[..front].copy_from_slice(&chance.bytes(front, &any));
        let (calendar, first, last) = (Calendar::from_bytes(days), date(&mut chance), date(&mut chance));
        let form = if chance.below(2) == 0 { DayString::Full } else { DayString::Short };
        match (calendar.write_day_string(first, last, form), calendar.write_weekdays(first, last)) {
            (Err(a), Err(b)) => assert!(a == refused(19, 0) && b == a),
            (Ok(string), weekdays) => {
                written += 1;
                assert!(string.starts_with(&format!("POP+273:{first}/{last}::")) && string.ends_with('\''));
                let ones = string.rsplit("::").next().unwrap().matches('1').count();
                assert_eq!(ones, calendar.count());
                assert!(weekdays.map_or_else(|r| r == refused(20, 0), |text| text.starts_with(&format!("POP+273:{first}/{last}+"))));
            }
            (Err(_), Ok(text)) => panic!("only weekdays: {text}"),
        }
    }
    assert!(written > 500, "{written}");
}
