//! Reads an interchange and lists its services: number, put or del, and the days over 512 days from a first date. A POP that gives no
//! days is refused: this program does not ask for the old reading.
//!   services FILE 2000-08-01

use drumcallisto::{read, Change, Date, NeitherForm, Refusal};
use std::io::{self, Read};
use std::process::ExitCode;
use std::{env, fs};

fn list(file: &[u8], first: Date) -> Result<(), Refusal> {
    for service in read(file, NeitherForm::Refused)?.services() {
        match service.change() {
            Change::Put => println!("{}\tput\t{}", service.number(), service.days(first)?),
            Change::Removal => println!("{}\tdel\t", service.number()),
        }
    }
    Ok(())
}

/// The file, or as much of it as shows that it is too long.
fn bytes(path: &str) -> io::Result<Vec<u8>> {
    let mut file = Vec::new();
    fs::File::open(path)?.take(drumcallisto::INTERCHANGE_LENGTH as u64 + 1).read_to_end(&mut file)?;
    Ok(file)
}

fn main() -> ExitCode {
    let words: Vec<_> = env::args().skip(1).collect();
    let (path, first) = match words.as_slice() {
        [path, first] if first.parse::<Date>().is_ok() => (path, first.parse().unwrap()),
        _ => {
            eprintln!("services FILE yyyy-mm-dd");
            return ExitCode::from(2);
        }
    };
    let file = match bytes(path) {
        Ok(file) => file,
        Err(error) => {
            eprintln!("{path}: {error}");
            return ExitCode::from(2);
        }
    };
    if let Err(refusal) = list(&file, first) {
        println!("refused\t{}\t{}\t{}", refusal.number as u8, refusal.position, refusal.part.map_or(0, |part| part as u8));
        eprintln!("{path}: {refusal}");
        return ExitCode::from(1);
    }
    ExitCode::SUCCESS
}
