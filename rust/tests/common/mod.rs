//! What the tests share: interchanges made from services, refusals by their numbers, chance from a seed.
#![allow(dead_code)] // each test file uses its own part of it

use drumcallisto::{Date, Number, Part, Refusal};

pub const FIRST: Date = Date::new(2000, 8, 1); // a Tuesday
pub const LAST: &str = "2001-12-25"; // the window's day 511

pub fn refused(number: u8, position: usize) -> Refusal {
    Refusal { number: Number::of(number).expect("a number of the table"), position, part: None }
}

/// 10, with the part of the POP that is wrong.
pub fn refused_part(part: u8, position: usize) -> Refusal {
    Refusal { part: Some(Part::of(part).expect("a part of a POP")), ..refused(10, position) }
}

/// A short interchange for each number that reading gives, whole or in parcels.
pub fn each_refused() -> [(&'static str, Refusal); 12] {
    [
        ("", refused(3, 0)),
        ("#", refused(4, 0)),
        ("UIB+UNOB:4+7'zz\n", refused(4, 15)),
        ("A", refused(5, 0)),
        ("UIB+UNOB:4+7?", refused(5, 0)),
        ("'", refused(6, 0)),
        ("ABC'", refused(7, 0)),
        ("UIB+UNOB:4+7'", refused(7, 13)),
        ("UIB+UNOB:4+7'UIH+A:A:A::A+1'", refused(8, 13)),
        ("UIB+UNOB:4+7'UIH+SKDUPD:D:04A::UN+1'ABC'", refused(9, 36)),
        ("UIB+UNOB:4+7'UIH+SKDUPD:D:04A::UN+1'MSD'ORG'HDR'PRD'POP'", refused_part(1, 52)),
        ("UIB+UNOB:4+7'UIH+TSDUPD:D:04A::UN+1'MSD'UIT+1+3'UIZ+7+1'\n", refused(7, 56)),
    ]
}

pub fn sample(name: &str) -> Vec<u8> {
    let path = format!("{}/../samples/{name}", env!("CARGO_MANIFEST_DIR"));
    std::fs::read(&path).unwrap_or_else(|error| panic!("{path}: {error}"))
}

/// The first 55 bytes of an interchange that `skdupd` makes; the services follow.
pub const HEAD: &str = "UIB+UNOB:4+7'UIH+SKDUPD:D:04A::UN+1'MSD+AAR:61'ORG'HDR'";

/// An interchange of one SKDUPD message with these services. No text in them may have a released terminator.
pub fn skdupd(services: &[String]) -> Vec<u8> {
    let body = services.concat();
    let segments = 5 + body.matches('\'').count();
    format!("{HEAD}{body}UIT+1+{segments}'UIZ+7+1'").into_bytes()
}

/// A put with one period, whose parts follow the qualifier.
pub fn put(number: &str, period: &str) -> String {
    format!("PRD+{number}'POP+273:{period}'")
}

pub fn removal(number: &str) -> String {
    format!("PRD+{number}'MSD+AAR:56'")
}

/// 512 characters, 1 for each of these days.
pub fn characters(days: &[usize]) -> String {
    (0..512).map(|k| if days.contains(&k) { '1' } else { '0' }).collect()
}

/// Numbers by chance, the same ones for the same seed.
pub struct Chance(pub u64);

impl Chance {
    pub fn below(&mut self, n: usize) -> usize {
        self.0 ^= self.0 << 13;
        self.0 ^= self.0 >> 7;
        self.0 ^= self.0 << 17;
        (self.0.wrapping_mul(0x2545_F491_4F6C_DD1D) >> 33) as usize % n
    }

    pub fn bytes(&mut self, length: usize, from: &[u8]) -> Vec<u8> {
        (0..length).map(|_| from[self.below(from.len())]).collect()
    }
}
