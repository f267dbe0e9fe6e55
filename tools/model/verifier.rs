//! What one verifier does with each entry.

use crate::records::{Path, Pointer, Record};
use crate::wire::{Entry, Timestamp};
use std::collections::HashMap;

/// How a record came into the store.
#[derive(Clone, Copy, Debug, PartialEq)]
pub enum Added {
    ByMerkle,
    ByBlum,
}

struct Stored {
    record: Record,
    added: Added,
}

/// What goes into the sums: a record, with when and by whom it was evicted.
#[derive(Clone, Debug, PartialEq)]
pub struct Element {
    pub record: Record,
    pub at: Timestamp,
    pub verifier: u64,
}

/// What a right entry brings to the sums of the element's epoch.
#[derive(Clone, Debug, PartialEq)]
pub enum ToSums {
    Nothing,
    Added(Element),
    Evicted(Element),
}

/// An entry breaks a rule.
#[derive(Clone, Copy, Debug, PartialEq)]
pub struct Wrong;

fn ensure(holds: bool) -> Result<(), Wrong> {
    if holds { Ok(()) } else { Err(Wrong) }
}

pub struct Verifier {
    pub clock: Timestamp,
    /// What was evicted by Blum last, since the clock last moved for another reason.
    last_evicted: Path,
    /// Each path at most once.
    store: HashMap<Path, Stored>,
    /// How many epochs it is done with.
    pub done: u64,
}

impl Verifier {
    /// Verifier 0 has the root in its store, by Merkle; the others have nothing.
    pub fn new(number: u64) -> Verifier {
        let mut store = HashMap::new();
        if number == 0 {
            let children = [Pointer::Absent, Pointer::Absent];
            let record = Record::Node { path: Path::root(), children };
            store.insert(Path::root(), Stored { record, added: Added::ByMerkle });
        }
        let clock = Timestamp { epoch: 0, counter: 0 };
        Verifier { clock, last_evicted: Path::root(), store, done: 0 }
    }

    pub fn stored(&self) -> usize {
        self.store.len()
    }

    /// Does what the entry says, if that is right. What is wrong changes nothing.
    pub fn step(&mut self, number: u64, entry: Entry) -> Result<ToSums, Wrong> {
        match entry {
            Entry::AddMerkle { record, above } => self.add_merkle(record, &above)?,
            Entry::AddBlum { record, at, by } => return self.add_blum(record, at, by),
            Entry::EvictMerkle { path, above } => self.evict_merkle(&path, &above)?,
            Entry::EvictBlum { path, at } => {
                self.may_evict_blum(&path, at, Added::ByBlum)?;
                return self.evict_blum(number, path, at);
            }
            Entry::EvictBlumMerkle { path, above, at } => {
                self.may_evict_blum(&path, at, Added::ByMerkle)?;
                self.mark_in_blum(&path, &above)?;
                return self.evict_blum(number, path, at);
            }
            Entry::NextEpoch => self.next_epoch(),
            Entry::VerifyEpoch => self.verify_epoch()?,
            Entry::Get { key, value } => self.get(key, value)?,
            Entry::Set { key, value } => self.set(key, value)?,
        }
        Ok(ToSums::Nothing)
    }

    /// What the node `above`, which is in the store, knows on the side of a path below it.
    fn pointer_at(&mut self, path: &Path, above: &Path) -> Result<&mut Pointer, Wrong> {
        ensure(path.is_below(above))?;
        match self.store.get_mut(above).map(|stored| &mut stored.record) {
            Some(Record::Node { children, .. }) => Ok(&mut children[path.side_of(above)]),
            _ => Err(Wrong),
        }
    }

    /// 0: the record is below a node in the store, and isn't in the store itself. That node knows on this side
    /// (a) nothing, and the record is initial;
    /// (b) this path, with the record's hash, and not by Blum;
    /// (c) a path below, and the record is an initial node: it then knows that path, as the node above did.
    /// By (a) and (c) the node above knows this path, with hash 0, and not by Blum.
    fn add_merkle(&mut self, record: Record, above: &Path) -> Result<(), Wrong> {
        let path = record.path();
        ensure(!self.store.contains_key(&path))?;
        let pointer = self.pointer_at(&path, above)?;
        let mut record = record;
        match pointer {
            Pointer::Absent => ensure(record.is_initial())?,
            Pointer::Present { path: known, hash, in_blum } if *known == path => {
                ensure(*hash == record.merkle_hash() && !*in_blum)?;
                self.store.insert(path, Stored { record, added: Added::ByMerkle });
                return Ok(());
            }
            Pointer::Present { path: known, .. } => {
                ensure(record.is_initial() && known.is_below(&path))?;
                let side = known.side_of(&path);
                let Record::Node { children, .. } = &mut record else {
                    return Err(Wrong);
                };
                children[side] = pointer.clone();
            }
        }
        *pointer = Pointer::Present { path: path.clone(), hash: [0; 32], in_blum: false };
        self.store.insert(path, Stored { record, added: Added::ByMerkle });
        Ok(())
    }

    /// 1: the record isn't the root's, nor in the store, and its epoch isn't one that this verifier is done with.
    /// The clock moves past the timestamp.
    fn add_blum(&mut self, record: Record, at: Timestamp, by: u64) -> Result<ToSums, Wrong> {
        let path = record.path();
        ensure(!path.is_root() && !self.store.contains_key(&path))?;
        ensure(at.epoch >= self.done)?;
        let after = Timestamp { epoch: at.epoch, counter: at.counter + 1 };
        if self.clock < after {
            self.clock = after;
            self.last_evicted = Path::root();
        }
        self.store.insert(path, Stored { record: record.clone(), added: Added::ByBlum });
        Ok(ToSums::Added(Element { record, at, verifier: by }))
    }

    /// 2: both paths are in the store, the first below the second, which knows it on this side; nothing that
    /// it knows of is in the store by Merkle. The node above knows then the hash of its record.
    fn evict_merkle(&mut self, path: &Path, above: &Path) -> Result<(), Wrong> {
        let evicted = self.store.get(path).ok_or(Wrong)?;
        ensure(!self.points_at_merkle(&evicted.record))?;
        let hash = evicted.record.merkle_hash();
        match self.pointer_at(path, above)? {
            Pointer::Present { path: known, hash: known_hash, in_blum } if known == path => {
                *known_hash = hash;
                *in_blum = false;
            }
            _ => return Err(Wrong),
        }
        self.store.remove(path);
        Ok(())
    }

    /// Something that the record points at is in the store, added by Merkle.
    fn points_at_merkle(&self, record: &Record) -> bool {
        let Record::Node { children, .. } = record else {
            return false;
        };
        children.iter().any(|pointer| match pointer {
            Pointer::Absent => false,
            Pointer::Present { path, .. } => self.store.get(path).is_some_and(|child| child.added == Added::ByMerkle),
        })
    }

    /// 3 and 4: it is in the store, added as the entry says, and isn't the root; the clock with the path that
    /// was evicted last is before the timestamp with this path; nothing that it knows of is in the store by Merkle.
    fn may_evict_blum(&self, path: &Path, at: Timestamp, added: Added) -> Result<(), Wrong> {
        let evicted = self.store.get(path).ok_or(Wrong)?;
        ensure(evicted.added == added && !path.is_root())?;
        ensure((self.clock, &self.last_evicted) < (at, path))?;
        ensure(!self.points_at_merkle(&evicted.record))
    }

    /// 4: the node above is in the store and knows the path, not by Blum. It knows then that it's by Blum, with
    /// the hash that it knew.
    fn mark_in_blum(&mut self, path: &Path, above: &Path) -> Result<(), Wrong> {
        match self.pointer_at(path, above)? {
            Pointer::Present { path: known, in_blum, .. } if known == path && !*in_blum => {
                *in_blum = true;
                Ok(())
            }
            _ => Err(Wrong),
        }
    }

    /// 3 and 4: the clock becomes the timestamp, and the path is the last evicted.
    fn evict_blum(&mut self, number: u64, path: Path, at: Timestamp) -> Result<ToSums, Wrong> {
        let evicted = self.store.remove(&path).ok_or(Wrong)?;
        self.clock = at;
        self.last_evicted = path;
        Ok(ToSums::Evicted(Element { record: evicted.record, at, verifier: number }))
    }

    /// 5: the clock is the next epoch's first timestamp.
    fn next_epoch(&mut self) {
        self.clock = Timestamp { epoch: self.clock.epoch + 1, counter: 0 };
        self.last_evicted = Path::root();
    }

    /// 6: the clock is past the first epoch that this verifier isn't done with.
    fn verify_epoch(&mut self) -> Result<(), Wrong> {
        ensure(self.clock.epoch > self.done)?;
        self.done += 1;
        Ok(())
    }

    /// 7: the key is in the store, with just that value or none.
    fn get(&self, key: Vec<u8>, value: Option<Vec<u8>>) -> Result<(), Wrong> {
        let stored = self.store.get(&Path::of_key(&key)).ok_or(Wrong)?;
        ensure(stored.record == Record::Data { key, value })
    }

    /// 8: the key is in the store, and has then the value.
    fn set(&mut self, key: Vec<u8>, value: Vec<u8>) -> Result<(), Wrong> {
        match self.store.get_mut(&Path::of_key(&key)).map(|stored| &mut stored.record) {
            Some(Record::Data { key: known, value: old }) if *known == key => {
                *old = Some(value);
                Ok(())
            }
            _ => Err(Wrong),
        }
    }
}
