//! A register's life, call by call, and what each call refuses.

mod common;

use common::*;
use drumcallisto::NeitherForm::{EveryDay, Refused};
use drumcallisto::{is_register, read, Date, Number, Refusal, Register, REGISTER_LENGTH};

const QUOTAS: [u32; 8] = [1, 2, 32, 0, 0, 0, 0, 221];
const AUGUST: &str = "2000-08-01/2000-08-13";

fn open() -> Register {
    Register::open(FIRST, QUOTAS).expect("opened")
}

/// A register in which account 3 has these puts staged and released.
fn released(puts: &[String]) -> Register {
    let mut register = open();
    assert_eq!(register.stage(3, &skdupd(puts), EveryDay), Ok(puts.len()));
    assert_eq!(register.release(3), Ok(puts.len()));
    register
}

/// Sees that a call is refused so and has changed no byte.
fn refuses<T: std::fmt::Debug>(register: &mut Register, refusal: Refusal, call: impl FnOnce(&mut Register) -> Result<T, Refusal>) {
    let before = register.clone();
    assert_eq!(call(register).unwrap_err(), refusal);
    assert!(*register == before, "a refusal has changed the register");
}

/// Every record of an account, as it is shown.
fn shown(register: &Register, account: usize) -> Vec<String> {
    let records: Vec<_> = (0..).map_while(|k| register.show(account, k).ok()).collect();
    assert_eq!(register.show(account, records.len()), Err(refused(16, 0)));
    assert_eq!(register.show(account, usize::MAX), Err(refused(16, 0)));
    records
}

#[test]
fn a_life() {
    let weekend = characters(&[4, 5, 11, 12]);
    let string = characters(&[0, 3, 4, 5, 6, 12]);
    let mut register = open();
    assert!(shown(&register, 3).is_empty());

    // The second service comes before the first in the order of numbers, a shorter number before its extensions.
    let first = [put("18", &format!("{AUGUST}+67")), put("1", &format!("{AUGUST}::1001111000001"))];
    assert_eq!(register.stage(3, &skdupd(&first), Refused), Ok(2));
    assert_eq!(shown(&register, 3), [format!("1\tput\t{string}\n"), format!("18\tput\t{weekend}\n")]);
    assert_eq!(register.release(3), Ok(2));
    assert_eq!(register.release(3), Ok(0));
    assert_eq!(shown(&register, 3), [format!("1\tlive\t{string}\n"), format!("18\tlive\t{weekend}\n")]);

    // A put and a removal beside what is live, and the put withdrawn.
    let second = [put("1", &format!("{AUGUST}+67")), removal("18")];
    assert_eq!(register.stage(3, &skdupd(&second), Refused), Ok(2));
    let one = format!("1\tlive\t{string}\n1\tput\t{weekend}\n");
    let other = format!("18\tlive\t{weekend}\n18\tdel\t\n");
    assert_eq!(shown(&register, 3), [one, other.clone()]);
    assert_eq!(register.withdraw(3, b"1"), Ok(()));
    assert_eq!(shown(&register, 3), [format!("1\tlive\t{string}\n"), other]);
    assert_eq!(register.release(3), Ok(1));
    assert_eq!(shown(&register, 3), [format!("1\tlive\t{string}\n")]);
    for account in [1, 2, 4, 8] {
        assert!(shown(&register, account).is_empty());
    }

    // Equal contents are equal bytes, however they came about; and they are kept as bytes.
    assert!(register == released(&[put("1", &format!("{AUGUST}::1001111000001"))]));
    let kept = register.as_bytes().to_vec();
    assert_eq!(kept.len(), REGISTER_LENGTH);
    assert!(is_register(&kept));
    assert!(Register::from_bytes(&kept).unwrap() == register);
}

#[test]
fn a_removal_of_what_is_only_pending_drops_the_record() {
    let mut register = open();
    assert_eq!(register.stage(3, &skdupd(&[put("17", AUGUST)]), EveryDay), Ok(1));
    assert_eq!(register.stage(3, &skdupd(&[removal("17")]), EveryDay), Ok(1));
    assert!(register == open());
    assert_eq!(register.stage(3, &sample("paper.edi"), Refused), Ok(0)); // no service
    assert!(register == open());
}

#[test]
fn samples_staged() {
    let mut register = open();
    let bytes = sample("skdupd.edi");
    let reading = read(&bytes, Refused).unwrap();
    let unknown = reading.services().last().unwrap().position();
    refuses(&mut register, refused(14, unknown), |r| r.stage(3, &bytes, Refused));
    assert_eq!(register.stage(3, &skdupd(&[put("4713", AUGUST)]), EveryDay), Ok(1));
    assert_eq!(register.release(3), Ok(1));
    assert_eq!(register.stage(3, &bytes, Refused), Ok(3));
    for (k, service) in reading.services().take(2).enumerate() {
        let line = format!("{}\tput\t{}\n", service.number(), service.days(FIRST).unwrap());
        assert_eq!(register.show(3, k), Ok(line));
    }
    for number in 3..=10 {
        let bytes = sample(&format!("refused-{number}.edi"));
        let refusal = read(&bytes, Refused).unwrap_err();
        assert_eq!(refusal.number as u8, number);
        refuses(&mut register, refusal, |r| r.stage(3, &bytes, Refused));
    }
}

#[test]
fn p9_another_account_has_it() {
    let mut register = open();
    assert_eq!(register.stage(1, &skdupd(&[put("17", AUGUST)]), EveryDay), Ok(1));
    refuses(&mut register, refused(16, 0), |r| r.withdraw(2, b"17"));
    refuses(&mut register, refused(14, HEAD.len()), |r| r.stage(2, &skdupd(&[removal("17")]), EveryDay));
    assert_eq!(register.withdraw(1, b"17"), Ok(()));
    assert!(register == open());
}

#[test]
fn p10_a_quota_of_one() {
    let mut register = open();
    assert_eq!(register.stage(1, &skdupd(&[put("17", AUGUST)]), EveryDay), Ok(1));
    assert_eq!(register.release(1), Ok(1));
    let another = skdupd(&[put("18", AUGUST)]);
    refuses(&mut register, refused(15, another.len()), |r| r.stage(1, &another, EveryDay));
    assert_eq!(register.stage(1, &skdupd(&[put("17", &format!("{AUGUST}+67"))]), EveryDay), Ok(1));
    // A quota of 0.
    refuses(&mut register, refused(15, another.len()), |r| r.stage(4, &another, EveryDay));
}

#[test]
fn the_quota_is_tested_at_the_end() {
    let mut register = open();
    assert_eq!(register.stage(1, &skdupd(&[put("17", AUGUST)]), EveryDay), Ok(1));
    assert_eq!(register.stage(1, &skdupd(&[put("18", AUGUST), removal("17")]), EveryDay), Ok(2));
    assert_eq!(shown(&register, 1).len(), 1);
}

#[test]
fn refused_services() {
    let mut register = released(&[put("17", AUGUST)]);
    let at = HEAD.len();
    let good = put("1", AUGUST);
    let second = at + good.len();
    let mut stage = |service: &str, number: u8, position: usize| {
        let bytes = skdupd(&[good.clone(), service.to_string()]);
        refuses(&mut register, refused(number, position), |r| r.stage(3, &bytes, EveryDay));
    };
    stage("PRD+2'", 11, second); // no POP
    stage(&put("", AUGUST), 11, second);
    stage(&put("12345678901", AUGUST), 11, second);
    stage("PRD+17'MSD+AAR:56'POP+273:2000-08-01/2000-08-13'", 11, second);
    stage(&put("?1", AUGUST), 12, second);
    stage(&put("2", "2000-07-31/2000-08-13"), 13, second + "PRD+2'".len());
    stage(&put("2", &format!("{LAST}/2001-12-26")), 13, second + "PRD+2'".len());
    stage(&removal("2"), 14, second);
    let last = skdupd(&[good, put("1234567890", &format!("{LAST}/{LAST}")), removal("17")]);
    assert_eq!(register.stage(3, &last, EveryDay), Ok(3));
    assert_eq!(register.show(3, 1), Ok(format!("1234567890\tput\t{}\n", characters(&[511]))));
    // Already a pending removal.
    refuses(&mut register, refused(14, at), |r| r.stage(3, &skdupd(&[removal("17")]), EveryDay));
}

#[test]
fn withdrawals() {
    let mut register = released(&[put("17", AUGUST)]);
    let live = register.clone();
    assert_eq!(register.stage(3, &skdupd(&[put("a?+b", AUGUST), put("1234567890", AUGUST)]), EveryDay), Ok(2));
    for number in ["17", "18", "", "a?+b", "a", "a+b\0", "12345678901", "1234567890\0", "a+b "] {
        refuses(&mut register, refused(16, 0), |r| r.withdraw(3, number.as_bytes()));
    }
    assert_eq!(register.withdraw(3, b"a+b"), Ok(()));
    assert_eq!(register.withdraw(3, b"1234567890"), Ok(()));
    assert!(register == live);
}

#[test]
fn accounts() {
    let mut register = released(&[put("17", AUGUST)]);
    for account in [0, 9, 256 + 3, usize::MAX] {
        refuses(&mut register, refused(2, 0), |r| r.stage(account, b"", Refused));
        refuses(&mut register, refused(2, 0), |r| r.release(account));
        refuses(&mut register, refused(2, 0), |r| r.withdraw(account, b"17"));
        refuses(&mut register, refused(2, 0), |r| r.show(account, 0));
    }
    for account in 1..=8 {
        refuses(&mut register, refused(3, 0), |r| r.stage(account, b"", Refused));
    }
}

#[test]
fn openings() {
    let opened = |first: Date, quotas: [u32; 8]| Register::open(first, quotas).map(|r| is_register(r.as_bytes()));
    let bad = Err(refused(18, 0));
    assert_eq!(opened(FIRST, QUOTAS), Ok(true));
    assert_eq!(opened(FIRST, [0; 8]), Ok(true));
    assert_eq!(opened(FIRST, [32; 8]), Ok(true));
    assert_eq!(opened(FIRST, [33, 32, 32, 32, 32, 32, 32, 32]), bad);
    assert_eq!(opened(FIRST, [u32::MAX, 1, 0, 0, 0, 0, 0, 0]), bad); // the sum is not taken modulo anything
    assert_eq!(opened(FIRST, [1 << 31, 1 << 31, 0, 0, 0, 0, 0, 0]), bad);
    assert_eq!(opened(Date::new(1990, 1, 1), QUOTAS), Ok(true));
    assert_eq!(opened(Date::new(1989, 12, 31), QUOTAS), bad);
    assert_eq!(opened(Date::new(2098, 8, 7), QUOTAS), Ok(true));
    assert_eq!(opened(Date::new(2098, 8, 8), QUOTAS), bad);
    assert_eq!(opened(Date::new(2000, 2, 29), QUOTAS), Ok(true));
    assert_eq!(opened(Date::new(2001, 2, 29), QUOTAS), bad);
    assert_eq!(opened(Date::new(2000 + (1 << 16), 8, 1), QUOTAS), bad);
    assert_eq!(opened(Date::new(2000, 8 + 256, 1), QUOTAS), bad);
    assert!(Register::open(FIRST, QUOTAS) != Register::open(FIRST, [0; 8]));
}

#[test]
fn what_is_no_register() {
    let register = released(&[put("17", AUGUST)]);
    let bytes = register.as_bytes();
    let none = |bytes: &[u8]| {
        assert!(!is_register(bytes));
        assert_eq!(Register::from_bytes(bytes).unwrap_err(), refused(Number::NotARegister as u8, 0));
    };
    none(b"");
    none(&bytes[1..]);
    none(&bytes[..REGISTER_LENGTH - 1]);
    none(&[bytes.as_slice(), &[0]].concat());
    none(&[255; REGISTER_LENGTH]);
    // "unused room is zero": that of an account, and that of no account.
    for quotas in [QUOTAS, [0, 1, 2, 3, 4, 5, 6, 7]] {
        let mut used = *Register::open(FIRST, quotas).unwrap().as_bytes();
        used[REGISTER_LENGTH - 1] = 1;
        none(&used);
    }
}
