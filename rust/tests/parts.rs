//! A POP that is wrong: its refusal names the lowest part that applies, and the caller says what a POP with neither form means.

mod common;

use common::*;
use drumcallisto::NeitherForm::{EveryDay, Refused};
use drumcallisto::{read, room_for, NeitherForm, Parcels, Refusal, Register};

/// An interchange of one put whose POP says this.
fn with_pop(says: &str) -> Vec<u8> {
    skdupd(&[format!("PRD+17'POP+{says}'")])
}

/// Where the POP stands in it, and its rows.
const POP: usize = 62;
const ROWS: usize = 9;

/// What a POP says, and the part that is named where one with neither form is refused, and in the old reading; 0 where none is.
const CASES: [(&str, u8, u8); 27] = [
    ("273:2000-08-01/2000-08-02::10", 0, 0),
    ("273:2000-08-01/2000-08-02+67", 0, 0),
    // One part.
    ("273:2000-08-02/2000-08-01+67", 1, 1),
    ("273:2000-08-01/2000-08-02::2", 2, 2),
    ("273:2000-08-01/2000-08-02::101", 2, 2),
    ("273:2000-08-01/2000-08-02+76", 3, 3),
    ("273:2000-08-01/2000-08-02::10+67", 4, 4),
    ("273:2000-08-01/2000-08-02", 5, 0),
    ("273:2000-08-01/2000-08-02::+", 5, 0),
    ("274:2000-08-01/2000-08-02+67", 6, 6),
    ("273:2000-08-01/2000-08-02+6*7", 6, 6),
    ("273:2000-08-01/2000-08-02::10*273", 6, 6),
    // The dates and another.
    ("273:2000-08-02/2000-08-01::2", 1, 1),
    ("273:2000-08-02/2000-08-01+76", 1, 1),
    ("273:2000-08-02/2000-08-01::10+67", 1, 1),
    ("273:2000-08-02/2000-08-01", 1, 1),
    ("274:2000-08-02/2000-08-01+67", 1, 1),
    // The day string and another; it is given, so that neither form is not among them, nor for the two that follow.
    ("273:2000-08-01/2000-08-02::2+76", 2, 2),
    ("273:2000-08-01/2000-08-02::2+67", 2, 2),
    ("274:2000-08-01/2000-08-02::2", 2, 2),
    // The weekdays and another.
    ("273:2000-08-01/2000-08-02::10+76", 3, 3),
    ("274:2000-08-01/2000-08-02+76", 3, 3),
    // Both forms and what is wrong otherwise.
    ("274:2000-08-01/2000-08-02::10+67", 4, 4),
    // Neither form and what is wrong otherwise, which the old reading leaves.
    ("274:2000-08-01/2000-08-02", 5, 6),
    ("273:2000-08-01/2000-08-02+*67", 5, 6),
    ("273:2000-08-01/2000-08-02*273", 5, 6),
    // All of it.
    ("274:2000-08-02/2000-08-01::2+76*7", 1, 1),
];

/// Tries a call on each case under each meaning: it is done with this value, or refused at the POP with the part.
fn each(done: usize, call: impl Fn(&[u8], NeitherForm) -> Result<usize, Refusal>) {
    for (says, part, old_part) in CASES {
        for (neither, part) in [(Refused, part), (EveryDay, old_part)] {
            let expected = if part == 0 { Ok(done) } else { Err(refused_part(part, POP)) };
            assert_eq!(call(&with_pop(says), neither), expected, "{says}, {neither:?}");
        }
    }
}

#[test]
fn as_a_whole() {
    each(ROWS, |bytes, neither| read(bytes, neither).map(|reading| reading.rows().count()));
}

/// The answer at the end, where each parcel is taken by a reading from its bytes, which keep the meaning and a refusal's part.
fn arrived<'a>(parcels: impl Iterator<Item = &'a [u8]>, neither: NeitherForm) -> Result<usize, Refusal> {
    let mut reading = Parcels::new(neither);
    for parcel in parcels {
        reading = Parcels::from_bytes(reading.as_bytes());
        let answer = reading.take(parcel, &mut vec![0; room_for(parcel.len())]).answer();
        assert!(answer.is_ok() || reading.finish() == answer.map(|()| 0));
    }
    Parcels::from_bytes(reading.as_bytes()).finish()
}

#[test]
fn in_parcels() {
    each(ROWS, |bytes, neither| {
        let answer = arrived([bytes].into_iter(), neither);
        assert_eq!(arrived(bytes.chunks(1), neither), answer);
        for at in 0..bytes.len() {
            let (first, second) = bytes.split_at(at);
            assert_eq!(arrived([first, second].into_iter(), neither), answer, "cut at {at}");
        }
        answer
    });
}

#[test]
fn staged() {
    let opened = Register::open(FIRST, [32; 8]).unwrap();
    each(1, |bytes, neither| {
        let mut register = opened.clone();
        let answer = register.stage(3, bytes, neither);
        assert!(answer.is_ok() || register == opened);
        answer
    });
}

/// A reading keeps what it was made with: its days are those that are staged.
#[test]
fn days() {
    let days = |says: &str, neither: NeitherForm| {
        let bytes = with_pop(says);
        let reading = read(&bytes, neither).expect("accepted");
        let days = reading.services().next().expect("a service").days(FIRST).expect("in the window");
        let mut register = Register::open(FIRST, [32; 8]).unwrap();
        assert_eq!(register.stage(3, &bytes, neither), Ok(1));
        assert_eq!(register.show(3, 0), Ok(format!("17\tput\t{days}\n")));
        days.days().collect::<Vec<_>>()
    };
    assert_eq!(days("273:2000-08-01/2000-08-03", EveryDay), [0, 1, 2]);
    assert_eq!(days("273:2000-08-01/2000-08-03::+", EveryDay), [0, 1, 2]);
    for neither in [Refused, EveryDay] {
        assert_eq!(days("273:2000-08-01/2000-08-03::01", neither), [1]);
        assert_eq!(days("273:2000-08-01/2000-08-03::0", neither), []);
        assert_eq!(days("273:2000-08-01/2000-08-03+24", neither), [0, 2]);
    }
}

/// Of two POPs the first that is wrong is named; one that is only of neither form is passed over in the old reading.
#[test]
fn the_first_of_two() {
    let first = "PRD+17'POP+273:2000-08-01/2000-08-02'";
    let bytes = skdupd(&[first.to_string(), "POP+273:2000-08-01/2000-08-02+76'".to_string()]);
    assert_eq!(read(&bytes, Refused).unwrap_err(), refused_part(5, POP));
    assert_eq!(read(&bytes, EveryDay).unwrap_err(), refused_part(3, HEAD.len() + first.len()));
}

/// Only the POPs that tell a service's days are asked for a form.
#[test]
fn another_pop() {
    let bytes = sample("tsdupd.edi");
    let text = String::from_utf8(bytes.clone()).unwrap();
    assert!(text.contains("'POP+273:2000-08-01/2001-05-26++"), "{text}");
    assert!(read(&bytes, Refused).is_ok());
}
