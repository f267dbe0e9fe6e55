//! All verifiers together: refusals, the sums of each epoch, what is certified, what is answered.

use crate::records::{Path, Pointer, Record};
use crate::sha256::{Hash, sha256};
use crate::verifier::{Element, ToSums, Verifier};
use crate::wire::{Entry, Event, Malformed, Timestamp};
use std::collections::BTreeMap;
use std::fmt;

const MAX_KEY: usize = 64;
const MAX_VALUE: usize = 1024;
const KEY_PATH: usize = 256;
const MAX_NUMBER: u64 = u32::MAX as u64;

#[derive(Clone, Copy, Debug, PartialEq)]
pub struct Limits {
    pub verifiers: u64,
    /// How many records each verifier's store may have.
    pub places: usize,
    /// How many epochs may be under way.
    pub epochs: u64,
}

/// The codes of the entries that are done; the others are out of range.
#[derive(Clone, Debug, PartialEq)]
pub struct Stage(pub Vec<u8>);

impl Stage {
    pub fn all() -> Stage {
        Stage((0..9).collect())
    }
}

/// Why an event isn't looked at; nothing changes.
#[derive(Clone, Copy, Debug, PartialEq)]
pub enum Refusal {
    Malformed(usize),
    OutOfRange,
    WrongBefore,
    NoRoom,
    TooFarAhead,
}

#[derive(Clone, Copy, Debug, PartialEq)]
pub enum Answer {
    Refused(Refusal),
    Wrong,
    Right,
    Certified(u64),
}

impl fmt::Display for Answer {
    fn fmt(&self, f: &mut fmt::Formatter<'_>) -> fmt::Result {
        match self {
            Answer::Refused(Refusal::Malformed(place)) => write!(f, "refused 1 {place}"),
            Answer::Refused(Refusal::OutOfRange) => f.write_str("refused 2 0"),
            Answer::Refused(Refusal::WrongBefore) => f.write_str("refused 3 0"),
            Answer::Refused(Refusal::NoRoom) => f.write_str("refused 4 0"),
            Answer::Refused(Refusal::TooFarAhead) => f.write_str("refused 5 0"),
            Answer::Wrong => f.write_str("wrong"),
            Answer::Right => f.write_str("right"),
            Answer::Certified(epochs) => write!(f, "certified {epochs}"),
        }
    }
}

/// A number below 2^256, its low byte first. Sums are modulo 2^256.
#[derive(Clone, Copy, Default, PartialEq)]
struct Sum(Hash);

impl Sum {
    fn add(&mut self, weight: Hash) {
        let mut carry = 0;
        for (byte, add) in self.0.iter_mut().zip(weight) {
            let total = u16::from(*byte) + u16::from(add) + carry;
            *byte = total as u8;
            carry = total >> 8;
        }
    }
}

/// What was added and what was evicted by Blum in an epoch.
#[derive(Clone, Copy, Default)]
struct Sums {
    added: Sum,
    evicted: Sum,
}

pub struct Monitor {
    limits: Limits,
    stage: Stage,
    secret: [u8; 32],
    verifiers: Vec<Verifier>,
    /// Of each epoch in which something was added or evicted.
    sums: BTreeMap<u64, Sums>,
    /// How many epochs are certified.
    certified: u64,
    /// The log was wrong.
    stopped: bool,
}

impl Monitor {
    pub fn new(limits: Limits, stage: Stage, secret: [u8; 32]) -> Monitor {
        let verifiers = (0..limits.verifiers).map(Verifier::new).collect();
        Monitor { limits, stage, secret, verifiers, sums: BTreeMap::new(), certified: 0, stopped: false }
    }

    pub fn answer(&mut self, event: Result<Event, Malformed>) -> Answer {
        let event = match event.map_err(|malformed| Refusal::Malformed(malformed.place)) {
            Ok(event) => event,
            Err(refusal) => return Answer::Refused(refusal),
        };
        match self.refusal(&event) {
            Some(refusal) => Answer::Refused(refusal),
            None => self.perform(event),
        }
    }

    /// The first that applies.
    fn refusal(&self, event: &Event) -> Option<Refusal> {
        let Some(verifier) = self.verifiers.get(event.verifier as usize) else {
            return Some(Refusal::OutOfRange);
        };
        let epoch = epoch_named(verifier, &event.entry);
        if !self.in_range(&event.entry) || epoch.is_some_and(|epoch| epoch > MAX_NUMBER) {
            return Some(Refusal::OutOfRange);
        }
        if self.stopped {
            return Some(Refusal::WrongBefore);
        }
        let adds = matches!(event.entry, Entry::AddMerkle { .. } | Entry::AddBlum { .. });
        if adds && verifier.stored() >= self.limits.places {
            return Some(Refusal::NoRoom);
        }
        if epoch.is_some_and(|epoch| epoch >= self.certified + self.limits.epochs) {
            return Some(Refusal::TooFarAhead);
        }
        None
    }

    fn in_range(&self, entry: &Entry) -> bool {
        if !self.stage.0.contains(&entry.code()) {
            return false;
        }
        match entry {
            Entry::AddMerkle { record, above } => good_record(record) && good_node_path(above),
            Entry::AddBlum { record, at, by } => good_record(record) && good_counter(at) && *by < self.limits.verifiers,
            Entry::EvictMerkle { path, above } => good_path(path) && good_node_path(above),
            Entry::EvictBlum { path, at } => good_path(path) && good_counter(at),
            Entry::EvictBlumMerkle { path, above, at } => good_path(path) && good_node_path(above) && good_counter(at),
            Entry::NextEpoch | Entry::VerifyEpoch => true,
            Entry::Get { key, value } => good_key(key) && good_value(value.as_deref()),
            Entry::Set { key, value } => good_key(key) && good_value(Some(value)),
        }
    }

    /// What breaks a rule, and sums that differ when all are done, stop everything.
    fn perform(&mut self, event: Event) -> Answer {
        let says_done = event.entry == Entry::VerifyEpoch;
        let verifier = &mut self.verifiers[event.verifier as usize];
        match verifier.step(event.verifier, event.entry) {
            Ok(to_sums) => self.add_to_sums(to_sums),
            Err(_) => self.stopped = true,
        }
        self.certify();
        match (self.stopped, says_done) {
            (true, _) => Answer::Wrong,
            (false, true) => Answer::Certified(self.certified),
            (false, false) => Answer::Right,
        }
    }

    fn add_to_sums(&mut self, to_sums: ToSums) {
        match to_sums {
            ToSums::Nothing => {}
            ToSums::Added(element) => {
                let weight = self.weight(&element);
                self.sums.entry(element.at.epoch).or_default().added.add(weight);
            }
            ToSums::Evicted(element) => {
                let weight = self.weight(&element);
                self.sums.entry(element.at.epoch).or_default().evicted.add(weight);
            }
        }
    }

    /// The hash of the secret key and the element's bytes: the record, epoch and counter, the verifier in one byte.
    fn weight(&self, element: &Element) -> Hash {
        let mut bytes = self.secret.to_vec();
        bytes.extend(element.record.bytes());
        bytes.extend(element.at.epoch.to_le_bytes());
        bytes.extend(element.at.counter.to_le_bytes());
        bytes.push(element.verifier as u8);
        sha256(&bytes)
    }

    /// The first epoch that isn't certified is, when all verifiers are done with it and its sums are equal;
    /// and so on. If they differ, the log is wrong.
    fn certify(&mut self) {
        while !self.stopped && self.verifiers.iter().all(|verifier| verifier.done > self.certified) {
            let sums = self.sums.get(&self.certified).copied().unwrap_or_default();
            match sums.added == sums.evicted {
                true => self.certified += 1,
                false => self.stopped = true,
            }
        }
    }
}

/// The epoch that an entry names or begins.
fn epoch_named(verifier: &Verifier, entry: &Entry) -> Option<u64> {
    match entry {
        Entry::AddBlum { at, .. } | Entry::EvictBlum { at, .. } | Entry::EvictBlumMerkle { at, .. } => Some(at.epoch),
        Entry::NextEpoch => Some(verifier.clock.epoch + 1),
        _ => None,
    }
}

fn good_counter(at: &Timestamp) -> bool {
    at.counter < MAX_NUMBER
}

fn are_bits(path: &Path) -> bool {
    path.0.iter().all(|bit| *bit < 2)
}

fn good_path(path: &Path) -> bool {
    path.0.len() <= KEY_PATH && are_bits(path)
}

fn good_node_path(path: &Path) -> bool {
    path.0.len() < KEY_PATH && are_bits(path)
}

fn good_key(key: &[u8]) -> bool {
    key.len() <= MAX_KEY
}

fn good_value(value: Option<&[u8]>) -> bool {
    value.is_none_or(|value| value.len() <= MAX_VALUE)
}

fn good_pointer(pointer: &Pointer) -> bool {
    match pointer {
        Pointer::Absent => true,
        Pointer::Present { path, .. } => good_path(path),
    }
}

fn good_record(record: &Record) -> bool {
    match record {
        Record::Data { key, value } => good_key(key) && good_value(value.as_deref()),
        Record::Node { path, children } => good_node_path(path) && children.iter().all(good_pointer),
    }
}

#[cfg(test)]
mod tests;
