//! Lives of a register by chance, held to a plain account of the paper's rules: every answer, and the account's
//! records after each call.

mod common;

use common::*;
use drumcallisto::{is_register, NeitherForm, Refusal, Register};
use std::collections::BTreeMap;

/// A pending entry: a put with its days, or a removal.
#[derive(Clone, PartialEq)]
enum Pending {
    Put(String),
    Removal,
}

#[derive(Clone, Default)]
struct Record {
    live: Option<String>,
    pending: Option<Pending>,
}

/// The records of an account, in the order of their numbers.
#[derive(Clone, Default)]
struct Account(BTreeMap<String, Record>);

type Service = (String, Option<String>); // its number, and its days if it is a put

impl Account {
    /// What staging services whose PRDs are at these offsets answers.
    fn stage(&mut self, services: &[(usize, Service)], quota: usize, length: usize) -> Result<usize, Refusal> {
        let mut after = self.clone();
        for (k, (prd, (number, days))) in services.iter().enumerate() {
            if services[..k].iter().any(|(_, (other, _))| other == number) {
                return Err(refused(12, *prd));
            }
            match days {
                Some(days) => after.0.entry(number.clone()).or_default().pending = Some(Pending::Put(days.clone())),
                None => after.remove(number).ok_or_else(|| refused(14, *prd))?,
            }
        }
        if after.0.len() > quota {
            return Err(refused(15, length));
        }
        *self = after;
        Ok(services.len())
    }

    /// "A removal sets pending to removal where a live calendar exists, and drops the record where only a put was pending."
    fn remove(&mut self, number: &str) -> Option<()> {
        let record = self.0.get_mut(number).filter(|record| record.pending != Some(Pending::Removal))?;
        if record.live.is_some() {
            record.pending = Some(Pending::Removal);
        } else {
            self.0.remove(number);
        }
        Some(())
    }

    fn release(&mut self) -> usize {
        let mut count = 0;
        self.0.retain(|_, record| {
            count += usize::from(record.pending.is_some());
            match record.pending.take() {
                Some(Pending::Put(days)) => record.live = Some(days),
                Some(Pending::Removal) => record.live = None,
                None => (),
            }
            record.live.is_some()
        });
        count
    }

    fn withdraw(&mut self, number: &str) -> Result<(), Refusal> {
        let record = self.0.get_mut(number).ok_or_else(|| refused(16, 0))?;
        record.pending.take().ok_or_else(|| refused(16, 0))?;
        if record.live.is_none() {
            self.0.remove(number);
        }
        Ok(())
    }

    fn lines(&self) -> Vec<String> {
        let line = |(number, record): (&String, &Record)| {
            let live = record.live.iter().map(|days| format!("{number}\tlive\t{days}\n"));
            let pending = record.pending.iter().map(|pending| match pending {
                Pending::Put(days) => format!("{number}\tput\t{days}\n"),
                Pending::Removal => format!("{number}\tdel\t\n"),
            });
            live.chain(pending).collect()
        };
        self.0.iter().map(line).collect()
    }
}

/// A service by chance, as it is written and as it is meant.
fn service(chance: &mut Chance) -> (String, Service) {
    let number = ["1", "10", "2", "A", "A B", "0123456789", "1-"][chance.below(7)].to_string();
    if chance.below(3) == 0 {
        return (removal(&number), (number, None));
    }
    let days: Vec<_> = (0..31).filter(|_| chance.below(2) == 0).collect();
    let text = characters(&days);
    (put(&number, &format!("2000-08-01/2000-08-31::{}", &text[..31])), (number, Some(text)))
}

fn stage(chance: &mut Chance, register: &mut Register, account: usize, model: &mut Account, quota: usize) -> Option<u8> {
    let mut offset = HEAD.len();
    let (mut texts, mut services) = (Vec::new(), Vec::new());
    for _ in 0..chance.below(4) {
        let (text, meant) = service(chance);
        services.push((offset, meant));
        offset += text.len();
        texts.push(text);
    }
    let bytes = skdupd(&texts);
    let answer = model.stage(&services, quota, bytes.len());
    // A message has at least one service.
    if texts.is_empty() {
        assert_eq!(register.stage(account, &bytes, NeitherForm::Refused), Err(refused(9, HEAD.len())));
        return None;
    }
    assert_eq!(register.stage(account, &bytes, NeitherForm::Refused), answer);
    answer.err().map(|refusal| refusal.number as u8)
}

/// The account's records are those of the model.
fn shows(register: &Register, account: usize, model: &Account) {
    let lines: Vec<_> = (0..).map_while(|k| register.show(account, k).ok()).collect();
    assert_eq!(lines, model.lines(), "account {account}");
}

#[test]
fn lives() {
    let quotas = [3, 0, 5, 1, 7, 2, 4, 200];
    let mut met = [0; 21];
    for seed in 1..=40 {
        let mut chance = Chance(seed);
        let mut register = Register::open(FIRST, quotas).unwrap();
        let mut accounts = vec![Account::default(); 8];
        for _ in 0..60 {
            let before = register.clone();
            let account = 1 + chance.below(8);
            let (model, quota) = (&mut accounts[account - 1], quotas[account - 1] as usize);
            let refusal = match chance.below(5) {
                0 => {
                    assert_eq!(register.release(account), Ok(model.release()));
                    None
                }
                1 => {
                    let (_, (number, _)) = service(&mut chance);
                    let answer = model.withdraw(&number);
                    assert_eq!(register.withdraw(account, number.as_bytes()), answer);
                    answer.err().map(|refusal| refusal.number as u8)
                }
                _ => stage(&mut chance, &mut register, account, model, quota),
            };
            assert!(refusal.is_none() || register == before);
            shows(&register, account, model);
            met[usize::from(refusal.unwrap_or(0))] += 1;
        }
        assert!(is_register(register.as_bytes()));
        for (k, model) in accounts.iter().enumerate() {
            shows(&register, k + 1, model);
        }
    }
    assert!([0, 12, 14, 15, 16].iter().all(|&n| met[n] > 20), "{met:?}");
}
