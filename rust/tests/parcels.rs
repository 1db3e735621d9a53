//! Reading in parcels: under every cut the rows and the answer of the whole reader, and each refusal at its edges.

mod common;

use common::*;
use drumcallisto::NeitherForm::{EveryDay, Refused};
use drumcallisto::{read, room_for, Parcels, Refusal, Row, STORE_LENGTH};

const PAPER: &[u8] = b"UIB+UNOB:4+7'UIH+TSDUPD:D:04A::UN+1'MSD+AAR:61'UIT+1+3'UIZ+7+1'";

type Outcome = (Vec<Row>, Result<usize, Refusal>);

/// What comes of these parcels, with room for each: all rows, and the answer at the end. A final answer is repeated on the way.
fn outcome<'a>(parcels: impl Iterator<Item = &'a [u8]>) -> Outcome {
    let (mut reading, mut rows, mut fault) = (Parcels::new(EveryDay), Vec::new(), None);
    for parcel in parcels {
        let mut room = vec![0; room_for(parcel.len())];
        let taken = reading.take(parcel, &mut room);
        assert!(fault.is_none() || fault == taken.answer().err() && taken.rows().count() == 0, "a final answer is repeated");
        rows.extend(taken.rows());
        fault = taken.answer().err();
    }
    let answer = reading.finish();
    assert!(fault.is_none() || fault == answer.err());
    assert_eq!(reading.finish(), answer);
    let mut room = [7; 30];
    let after = reading.take(PAPER, &mut room);
    assert_eq!(after.answer().err(), answer.err());
    assert_eq!(after.rows().count(), 0);
    assert_eq!(room, [7; 30]);
    (rows, answer)
}

/// Parcels by chance: some empty, some of one byte, some long.
fn cut<'a>(bytes: &'a [u8], chance: &mut Chance) -> Vec<&'a [u8]> {
    let (mut parcels, mut left) = (Vec::new(), bytes);
    while !left.is_empty() || chance.below(3) == 0 {
        let most = [0, 1, 5, 40, 1_460, left.len()][chance.below(6)];
        let (parcel, rest) = left.split_at(chance.below(most + 1).min(left.len()));
        parcels.push(parcel);
        left = rest;
    }
    parcels
}

/// The outcome, which is the same in one parcel, byte by byte and under a hundred cuts by chance.
fn any_cut(bytes: &[u8]) -> Outcome {
    let whole = outcome([bytes].into_iter());
    assert_eq!(outcome(bytes.chunks(1)), whole);
    let mut chance = Chance(1 + bytes.len() as u64);
    for _ in 0..if bytes.len() > 1_000 { 5 } else { 100 } {
        assert_eq!(outcome(cut(bytes, &mut chance).into_iter()), whole);
    }
    whole
}

/// The same answer as the whole reader; its rows, or where it refuses those of the segments that end before the fault.
fn agrees(bytes: &[u8]) {
    let (rows, answer) = any_cut(bytes);
    match read(bytes, EveryDay) {
        Ok(reading) => {
            assert_eq!(rows, reading.rows().collect::<Vec<_>>());
            assert_eq!(answer, Ok(rows.len()));
        }
        Err(refusal) => {
            assert_eq!(answer, Err(refusal));
            assert_eq!(rows.iter().map(|row| (row.offset, row.tag)).collect::<Vec<_>>(), segments(&bytes[..refusal.position]));
        }
    }
}

/// Offset and tag of each segment that ends in these bytes.
fn segments(bytes: &[u8]) -> Vec<(usize, [u8; 3])> {
    let (mut found, mut from, mut at) = (Vec::new(), 0, 0);
    while at < bytes.len() {
        if bytes[at] == b'\'' {
            found.push((from, [bytes[from], bytes[from + 1], bytes[from + 2]]));
            from = at + 1;
        }
        at += if bytes[at] == b'?' { 2 } else { 1 };
    }
    found
}

#[test]
fn samples() {
    for name in ["paper", "skdupd", "tsdupd", "tsdupd-12b", "both", "directories", "timetable"] {
        agrees(&sample(&format!("{name}.edi")));
    }
    for number in [3, 4, 5, 6, 7, 8, 9, 10] {
        agrees(&sample(&format!("refused-{number}.edi")));
    }
    assert_eq!(any_cut(PAPER).1, Ok(5));
}

#[test]
fn each_refusal() {
    for (text, refusal) in each_refused() {
        assert_eq!(any_cut(text.as_bytes()).1, Err(refusal), "{text}");
        agrees(text.as_bytes());
    }
}

/// A trailer is held to references whose bytes are long gone: the longest there are, released in one place and plain in the other.
#[test]
fn references_are_kept() {
    let (released, plain, other) = ("?A".repeat(512), "A".repeat(512), format!("{}B", "A".repeat(511)));
    for (dialogue, reference, answer) in [(&plain, &plain, Ok(5)), (&plain, &other, Err(7)), (&other, &plain, Err(7))] {
        let head = format!("UIB+UNOB:4+{released}'UIH+TSDUPD:D:04A::UN+{released}'MSD'");
        let text = format!("{head}UIT+{reference}+3'UIZ+{dialogue}+1'");
        agrees(text.as_bytes());
        assert_eq!(any_cut(text.as_bytes()).1.map_err(|refusal| refusal.number as u8), answer);
    }
}

/// An interchange whose MSD has so many bytes, its terminator with them, and begins at 36.
fn with_segment(length: usize) -> Vec<u8> {
    let body: String = (4..length).map(|k| if k % 500 == 0 { '+' } else { 'A' }).collect();
    format!("UIB+UNOB:4+7'UIH+TSDUPD:D:04A::UN+1'MSD+{}'UIT+1+3'UIZ+7+1'", &body[1..]).into_bytes()
}

#[test]
fn long_segments() {
    agrees(&with_segment(4_095));
    agrees(&with_segment(4_096));
    let over = with_segment(4_097);
    assert_eq!(read(&over, Refused).unwrap().rows().count(), 5);
    assert_eq!(any_cut(&over).1, Err(refused(21, 36)));
    // It is named when byte 4,097 arrives, and not before.
    let (mut reading, mut room) = (Parcels::new(Refused), vec![0; room_for(5_000)]);
    assert_eq!(reading.take(&over[..36 + 4_096], &mut room).answer(), Ok(()));
    assert_eq!(reading.take(&over[36 + 4_096..36 + 4_097], &mut room).answer(), Err(refused(21, 36)));
    // At the end 4,096 bytes are 4 or 5.
    assert_eq!(any_cut(&[b'A'; 4_096]).1, Err(refused(5, 0)));
    assert_eq!(any_cut(&[b'A'; 4_097]).1, Err(refused(21, 0)));
    // "tested directly before 4 and 5": a byte that is not permitted waits for the terminator.
    let byte = [b"UIB\n".as_slice(), &[b'A'; 4_092], b"A"].concat();
    assert_eq!(any_cut(&byte[..4_096]).1, Err(refused(4, 3)));
    assert_eq!(any_cut(&byte).1, Err(refused(21, 0)));
}

#[test]
fn long_interchanges() {
    let stations = |length: usize| {
        let mut text = b"UIB+UNOB:4+7'UIH+TSDUPD:D:04A::UN+1'MSD'".to_vec();
        text.extend(b"ALS'".iter().cycle().take(length - text.len()));
        text
    };
    let (rows, answer) = any_cut(&stations(60_000));
    assert_eq!((rows.len(), answer), (14_993, Err(refused(7, 60_000))));
    agrees(&stations(60_000));
    // 3 when byte 60,001 arrives, after the rows that ended before, and before any fault that it shows.
    assert_eq!(any_cut(&stations(60_001)), (rows, Err(refused(3, 0))));
    let whole = |length: usize| {
        let tail = "UIT+1+14987'UIZ+7+1'";
        let mut text = stations(40 + 4 * 14_984);
        text.extend(tail.bytes());
        text.resize(length, b'\n');
        text
    };
    let length = 40 + 4 * 14_984 + 20;
    assert_eq!(any_cut(&whole(length)).1, Ok(14_989));
    // 7 is named when the first byte after a good UIZ arrives.
    assert_eq!(any_cut(&whole(60_020)).1, Err(refused(7, length)));
}

#[test]
fn no_room_and_again() {
    let fault: Vec<u8> = String::from_utf8(PAPER.to_vec()).unwrap().replace("UIT+1+3", "UIT+1+4").into_bytes();
    for (bytes, rows, answer) in [(PAPER, 5, Ok(())), (fault.as_slice(), 3, Err(refused(7, 47)))] {
        let mut reading = Parcels::new(Refused);
        assert_eq!(reading.take(&bytes[..10], &mut []).answer(), Ok(()));
        for short in 0..3 * rows {
            let mut room = vec![9; short];
            let taken = reading.take(&bytes[10..], &mut room);
            assert_eq!((taken.answer(), taken.rows().count()), (Err(refused(17, 0)), 0));
            assert_eq!(room, vec![9; short]);
        }
        let mut room = vec![9; 3 * rows + 4];
        let taken = reading.take(&bytes[10..], &mut room);
        assert_eq!((taken.answer(), taken.rows().count()), (answer, rows));
        assert_eq!(room[3 * rows..], [9; 4]);
        assert_eq!(reading.finish().err(), answer.err());
    }
}

#[test]
fn kept_as_bytes() {
    let bytes = sample("skdupd.edi");
    let (mut reading, mut rows, mut room) = (Parcels::new(Refused), Vec::new(), [0; room_for(7)]);
    for parcel in bytes.chunks(7) {
        let mut other = Parcels::from_bytes(reading.as_bytes());
        rows.extend(other.take(parcel, &mut room).rows());
        let _ = reading.clone().take(b"#'", &mut room); // of no account
        reading = other;
    }
    assert_eq!(rows, read(&bytes, Refused).unwrap().rows().collect::<Vec<_>>());
    assert_eq!(reading.finish(), Ok(rows.len()));
}

/// Any store is some reading: each call answers and writes no more than its rows.
#[test]
fn any_store() {
    let mut chance = Chance(5);
    let any: Vec<u8> = (0..=255).collect();
    let bytes = sample("skdupd.edi");
    let mut accepted = 0;
    for round in 0..3_000 {
        let mut store = *Parcels::new(Refused).as_bytes();
        if round % 3 == 0 {
            store.copy_from_slice(&chance.bytes(STORE_LENGTH, &any));
        } else {
            let mut reading = Parcels::new(Refused);
            let _ = reading.take(&bytes[..chance.below(bytes.len())], &mut [0; 400]);
            store = *reading.as_bytes();
            for _ in 0..1 + chance.below(4) {
                store[if chance.below(4) > 0 { chance.below(40) } else { chance.below(STORE_LENGTH) }] = chance.bytes(1, &any)[0];
            }
        }
        let mut reading = Parcels::from_bytes(&store);
        let from = chance.below(bytes.len());
        for parcel in cut(&bytes[from..], &mut chance) {
            let mut room = vec![0; room_for(parcel.len()) + 2];
            let taken = reading.take(parcel, &mut room);
            assert!(taken.rows().count() <= parcel.len() / 4 + 1);
            if let Err(refusal) = taken.answer() {
                assert_eq!(refusal.part.is_some(), refusal.number as u8 == 10, "{refusal}");
                assert_eq!(reading.finish(), Err(refusal));
                break;
            }
        }
        accepted += usize::from(reading.finish().is_ok());
        let _ = (reading.finish(), reading.take(b"UIB'", &mut [0; 3]));
    }
    assert!(accepted > 5, "{accepted}");
}
