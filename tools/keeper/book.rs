//! The book: all records with where they are, the verifiers' clocks, and the moves between them. Each move writes its
//! event and does to the book what the event does to the verifiers.

use crate::path::Path;
use crate::sha256::{Hash, sha256};
use crate::writer::{Bytes, Timestamp, Writer};
use std::collections::{BTreeMap, BTreeSet};

/// A record's number in the book.
pub type Id = usize;

pub const ROOT: Id = 0;

#[derive(Clone, Copy, Debug, PartialEq)]
pub enum Added {
    ByMerkle,
    ByBlum,
}

#[derive(Clone, Copy, Debug, PartialEq)]
pub enum Place {
    Store { verifier: usize, added: Added },
    AwayByMerkle,
    AwayByBlum { at: Timestamp, by: usize },
}

#[derive(Clone, Copy)]
pub struct Pointer {
    pub child: Id,
    hash: Hash,
    in_blum: bool,
}

#[derive(Clone)]
pub enum Body {
    Data { key: Vec<u8>, value: Option<Vec<u8>> },
    Node { children: [Option<Pointer>; 2] },
}

impl Body {
    pub const NEW_NODE: Body = Body::Node { children: [None, None] };
}

#[derive(Clone)]
pub struct Item {
    pub path: Path,
    pub body: Body,
    /// The node that points at it.
    pub above: Id,
    pub place: Place,
    last_use: u64,
    /// How many records that it points at are in the store by Merkle: it stays there as long.
    merkle_children: u8,
}

/// What the keeper knows of a verifier.
pub struct Desk {
    pub clock: Timestamp,
    last_evicted: Path,
    pub done: u64,
    pub stored: usize,
    /// What can be evicted, by its last use.
    pub idle: BTreeSet<(u64, Id)>,
}

pub struct Book {
    pub items: Vec<Item>,
    pub desks: Vec<Desk>,
    pub writer: Writer,
    /// What was evicted by Blum in an epoch. Some of it may be in a store again.
    pub evicted: BTreeMap<u64, Vec<Id>>,
    uses: u64,
}

impl Book {
    pub fn new(verifiers: usize) -> Book {
        let desk = |_| Desk {
            clock: Timestamp { epoch: 0, counter: 0 },
            last_evicted: Path::ROOT,
            done: 0,
            stored: 0,
            idle: BTreeSet::new(),
        };
        let mut desks: Vec<Desk> = (0..verifiers).map(desk).collect();
        desks[0].stored = 1;
        let place = Place::Store { verifier: 0, added: Added::ByMerkle };
        let mut root = new_item(Path::ROOT, Body::NEW_NODE, ROOT);
        root.place = place;
        Book { items: vec![root], desks, writer: Writer::default(), evicted: BTreeMap::new(), uses: 0 }
    }

    pub fn store_of(&self, id: Id) -> Option<usize> {
        match self.items[id].place {
            Place::Store { verifier, .. } => Some(verifier),
            _ => None,
        }
    }

    fn set_idle(&mut self, id: Id, idle: bool) {
        let Some(verifier) = self.store_of(id) else {
            return;
        };
        let item = &self.items[id];
        match idle && id != ROOT && item.merkle_children == 0 {
            true => self.desks[verifier].idle.insert((item.last_use, id)),
            false => self.desks[verifier].idle.remove(&(item.last_use, id)),
        };
    }

    /// It was used just now.
    pub fn touch(&mut self, id: Id) {
        self.set_idle(id, false);
        self.uses += 1;
        self.items[id].last_use = self.uses;
        self.set_idle(id, true);
    }

    fn enter(&mut self, verifier: usize, id: Id, added: Added) {
        self.items[id].place = Place::Store { verifier, added };
        self.desks[verifier].stored += 1;
        if added == Added::ByMerkle {
            let above = self.items[id].above;
            self.set_idle(above, false);
            self.items[above].merkle_children += 1;
        }
        self.touch(id);
    }

    fn leave(&mut self, verifier: usize, id: Id, place: Place) {
        self.set_idle(id, false);
        let was = std::mem::replace(&mut self.items[id].place, place);
        self.desks[verifier].stored -= 1;
        if was == (Place::Store { verifier, added: Added::ByMerkle }) {
            let above = self.items[id].above;
            self.items[above].merkle_children -= 1;
            self.set_idle(above, true);
        }
    }

    /// What the node above knows of it.
    pub fn pointer(&mut self, id: Id) -> &mut Option<Pointer> {
        let (path, above) = (self.items[id].path, self.items[id].above);
        let Item { path: above, body: Body::Node { children }, .. } = &mut self.items[above] else {
            unreachable!("only nodes point at records");
        };
        &mut children[path.side_of(above)]
    }

    fn merkle_bytes(&self, body: &Body) -> Vec<u8> {
        let mut bytes = Bytes::default();
        match body {
            Body::Data { value, .. } => {
                bytes.byte(0).value(value.as_deref());
            }
            Body::Node { children } => {
                bytes.byte(1);
                for pointer in children {
                    self.pointer_bytes(&mut bytes, pointer);
                }
            }
        }
        bytes.0
    }

    fn pointer_bytes(&self, bytes: &mut Bytes, pointer: &Option<Pointer>) {
        match pointer {
            None => bytes.byte(0),
            Some(Pointer { child, hash, in_blum }) => {
                bytes.byte(1).byte(u8::from(*in_blum)).path(&self.items[*child].path).raw(hash)
            }
        };
    }

    pub fn record_bytes(&self, id: Id) -> Vec<u8> {
        let Item { path, body, .. } = &self.items[id];
        let mut bytes = Bytes::default();
        match body {
            Body::Data { key, .. } => bytes.byte(0).text(key),
            Body::Node { .. } => bytes.byte(1).path(path),
        };
        bytes.raw(&self.merkle_bytes(body));
        bytes.0
    }

    /// A new record comes into the store, below a node that is there. If that node knows something on this side, the
    /// record is a node and what was known is below it.
    pub fn add_new(&mut self, verifier: usize, path: Path, body: Body, above: Id) -> Id {
        let id = self.items.len();
        self.items.push(new_item(path, body, above));
        self.writer.add_merkle(verifier, &self.record_bytes(id), &self.items[above].path);
        let new = Pointer { child: id, hash: [0; 32], in_blum: false };
        if let Some(moved) = self.pointer(id).replace(new) {
            self.move_below(id, moved);
        }
        self.enter(verifier, id, Added::ByMerkle);
        id
    }

    fn move_below(&mut self, id: Id, moved: Pointer) {
        let child = moved.child;
        let above = std::mem::replace(&mut self.items[child].above, id);
        *self.pointer(child) = Some(moved);
        if matches!(self.items[child].place, Place::Store { added: Added::ByMerkle, .. }) {
            self.items[above].merkle_children -= 1;
            self.items[id].merkle_children += 1;
        }
    }

    pub fn add_merkle(&mut self, verifier: usize, id: Id) {
        let above = self.items[id].above;
        self.writer.add_merkle(verifier, &self.record_bytes(id), &self.items[above].path);
        self.touch(above);
        self.enter(verifier, id, Added::ByMerkle);
    }

    /// Of a record that is away by Blum.
    pub fn add_blum(&mut self, verifier: usize, id: Id) {
        let Place::AwayByBlum { at, by } = self.items[id].place else {
            unreachable!("only what is away by Blum is added so");
        };
        self.writer.add_blum(verifier, &self.record_bytes(id), at, by);
        let desk = &mut self.desks[verifier];
        let after = Timestamp { epoch: at.epoch, counter: at.counter + 1 };
        if desk.clock < after {
            desk.clock = after;
            desk.last_evicted = Path::ROOT;
        }
        self.enter(verifier, id, Added::ByBlum);
    }

    /// Below a node that is in the same store.
    pub fn evict_merkle(&mut self, verifier: usize, id: Id) {
        let Item { path, above, ref body, .. } = self.items[id];
        let hash = sha256(&self.merkle_bytes(body));
        self.writer.evict_merkle(verifier, &path, &self.items[above].path);
        *self.pointer(id) = Some(Pointer { child: id, hash, in_blum: false });
        self.leave(verifier, id, Place::AwayByMerkle);
    }

    /// By EvictBlum or EvictBlumMerkle, as it was added.
    pub fn evict_blum(&mut self, verifier: usize, id: Id) {
        let Item { path, above, place, .. } = self.items[id];
        let at = self.next_eviction(verifier, &path);
        if place == (Place::Store { verifier, added: Added::ByMerkle }) {
            self.writer.evict_blum_merkle(verifier, &path, &self.items[above].path, at);
            if let Some(pointer) = self.pointer(id) {
                pointer.in_blum = true;
            }
        } else {
            self.writer.evict_blum(verifier, &path, at);
        }
        let desk = &mut self.desks[verifier];
        (desk.clock, desk.last_evicted) = (at, path);
        self.evicted.entry(at.epoch).or_default().push(id);
        self.leave(verifier, id, Place::AwayByBlum { at, by: verifier });
    }

    /// The first timestamp at which the verifier can evict the path by Blum.
    pub fn next_eviction(&self, verifier: usize, path: &Path) -> Timestamp {
        let Desk { clock, last_evicted, .. } = &self.desks[verifier];
        let wait = u64::from(last_evicted >= path);
        Timestamp { epoch: clock.epoch, counter: clock.counter + wait }
    }

    pub fn next_epoch(&mut self, verifier: usize) {
        self.writer.next_epoch(verifier);
        let desk = &mut self.desks[verifier];
        desk.clock = Timestamp { epoch: desk.clock.epoch + 1, counter: 0 };
        desk.last_evicted = Path::ROOT;
    }

    pub fn verify_epoch(&mut self, verifier: usize) {
        self.writer.verify_epoch(verifier);
        self.desks[verifier].done += 1;
    }

    pub fn get(&mut self, verifier: usize, id: Id) {
        self.touch(id);
        if let Body::Data { key, value } = &self.items[id].body {
            self.writer.get(verifier, key, value.as_deref());
        }
    }

    pub fn set(&mut self, verifier: usize, id: Id, new: Vec<u8>) {
        self.touch(id);
        if let Body::Data { key, value } = &mut self.items[id].body {
            self.writer.set(verifier, key, &new);
            *value = Some(new);
        }
    }
}

fn new_item(path: Path, body: Body, above: Id) -> Item {
    Item { path, body, above, place: Place::AwayByMerkle, last_use: 0, merkle_children: 0 }
}
