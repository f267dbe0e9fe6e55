//! Lies that a log may have, each with the event by which it must be found.

use crate::book::{Added, Body, Id, Place, ROOT};
use crate::keeper::Keeper;
use crate::writer::Timestamp;

#[derive(Clone, Copy, Debug, PartialEq)]
pub enum Cheat {
    StaleValue,
    LostNight,
    ReplayedElement,
    NodeUnderChild,
    DoneEpoch,
    TwoCopies,
    LyingGet,
    EarlyDone,
}

const NAMES: [(&str, Cheat); 8] = [
    ("stale-value", Cheat::StaleValue),
    ("lost-night", Cheat::LostNight),
    ("replayed-element", Cheat::ReplayedElement),
    ("node-under-child", Cheat::NodeUnderChild),
    ("done-epoch", Cheat::DoneEpoch),
    ("two-copies", Cheat::TwoCopies),
    ("lying-get", Cheat::LyingGet),
    ("early-done", Cheat::EarlyDone),
];

impl Cheat {
    pub fn named(name: &str) -> Option<Cheat> {
        NAMES.iter().find(|(known, _)| *known == name).map(|(_, cheat)| *cheat)
    }

    /// It can be told with the tree alone.
    pub fn is_by_merkle(self) -> bool {
        matches!(self, Cheat::LostNight | Cheat::NodeUnderChild | Cheat::LyingGet)
    }
}

#[derive(Clone, Copy, Debug, PartialEq)]
pub enum Deadline {
    /// Found at this event.
    Event(u64),
    /// Found when all verifiers are done with this epoch.
    EndOf(u64),
}

/// An element that was added already.
pub struct Noted {
    id: Id,
    record: Vec<u8>,
    at: Timestamp,
    by: usize,
}

const OLD: &[u8] = b"old";
const NEW: &[u8] = b"new";

impl Keeper {
    /// Tells the lie, if there is an occasion now.
    pub fn lie(&mut self, cheat: Cheat) -> Option<Deadline> {
        match cheat {
            Cheat::StaleValue => Some(self.stale_value()),
            Cheat::LostNight => Some(self.lost_night()),
            Cheat::ReplayedElement => Some(self.replayed_element()),
            Cheat::NodeUnderChild => self.node_under_child(),
            Cheat::DoneEpoch => self.done_epoch(),
            Cheat::TwoCopies => self.two_copies(),
            Cheat::LyingGet => Some(self.lying_get()),
            Cheat::EarlyDone => Some(self.early_done()),
        }
    }

    fn now(&self) -> Deadline {
        Deadline::Event(self.book.writer.events)
    }

    /// An account in some store, and in whose.
    fn some_account(&mut self) -> (usize, Id) {
        let (verifier, account) = (self.any_verifier(), self.any_account());
        let id = self.account(verifier, account);
        (self.book.store_of(id).expect("it was just brought in"), id)
    }

    /// An account in the store that has the node above it, and in whose.
    fn some_account_with_above(&mut self) -> (usize, Id) {
        let (verifier, id) = self.some_account();
        let above = self.book.items[id].above;
        let owner = self.have_somewhere(verifier, above);
        if let Some(other) = self.book.store_of(id).filter(|other| *other != owner) {
            self.book.evict_blum(other, id);
        }
        if self.book.store_of(id).is_none() {
            self.make_room(owner, above);
        }
        match self.book.items[id].place {
            Place::Store { .. } => {}
            Place::AwayByMerkle => self.book.add_merkle(owner, id),
            Place::AwayByBlum { .. } => self.book.add_blum(owner, id),
        }
        (owner, id)
    }

    /// The record is evicted by Blum; tells where it is then, and its epoch.
    fn send_away(&mut self, owner: usize, id: Id) -> (Place, u64) {
        self.book.evict_blum(owner, id);
        let away = self.book.items[id].place;
        (away, self.book.desks[owner].clock.epoch)
    }

    /// The record comes by Blum to any verifier.
    fn take_in(&mut self, id: Id) -> usize {
        let verifier = self.any_verifier();
        self.make_room(verifier, ROOT);
        self.book.add_blum(verifier, id);
        verifier
    }

    /// The book has again what it had before.
    fn restore_old(&mut self, id: Id) {
        if let Body::Data { value, .. } = &mut self.book.items[id].body {
            *value = Some(OLD.to_vec());
        }
    }

    /// A value from before comes in by Blum.
    fn stale_value(&mut self) -> Deadline {
        let (owner, id) = self.some_account();
        self.book.set(owner, id, OLD.to_vec());
        self.book.set(owner, id, NEW.to_vec());
        let (_, epoch) = self.send_away(owner, id);
        self.restore_old(id);
        let verifier = self.take_in(id);
        self.book.get(verifier, id);
        Deadline::EndOf(epoch)
    }

    /// A value from before comes in by Merkle.
    fn lost_night(&mut self) -> Deadline {
        let (owner, id) = self.some_account_with_above();
        self.book.set(owner, id, OLD.to_vec());
        self.book.evict_merkle(owner, id);
        self.book.add_merkle(owner, id);
        self.book.set(owner, id, NEW.to_vec());
        self.book.evict_merkle(owner, id);
        self.restore_old(id);
        self.book.add_merkle(owner, id);
        self.now()
    }

    /// What was added comes in again, in place of what was evicted since.
    fn replayed_element(&mut self) -> Deadline {
        let (owner, id) = self.some_account();
        self.book.set(owner, id, OLD.to_vec());
        let (away, epoch) = self.send_away(owner, id);
        let verifier = self.take_in(id);
        self.book.set(verifier, id, NEW.to_vec());
        self.book.evict_blum(verifier, id);
        self.restore_old(id);
        self.book.items[id].place = away;
        self.book.add_blum(verifier, id);
        self.book.get(verifier, id);
        Deadline::EndOf(epoch)
    }

    /// A node other than the root is evicted while a record below it is in the store by Merkle.
    fn node_under_child(&mut self) -> Option<Deadline> {
        let (owner, id) = self.some_account_with_above();
        self.book.evict_merkle(owner, id);
        self.book.add_merkle(owner, id);
        let node = self.book.items[id].above;
        if node == ROOT {
            return None;
        }
        let path = self.book.items[node].path;
        match self.book.items[node].place {
            Place::Store { added: Added::ByMerkle, .. } => {
                let above = self.book.items[self.book.items[node].above].path;
                self.book.writer.evict_merkle(owner, &path, &above);
            }
            _ => {
                let at = self.book.next_eviction(owner, &path);
                self.book.writer.evict_blum(owner, &path, at);
            }
        }
        Some(self.now())
    }

    /// An element is noted, and comes in again at a verifier that is done with its epoch.
    fn done_epoch(&mut self) -> Option<Deadline> {
        let Some(noted) = self.noted.take() else {
            self.noted = Some(self.note_element());
            return None;
        };
        let late = |verifier: &usize| {
            let done = self.book.desks[*verifier].done > noted.at.epoch;
            done && self.book.store_of(noted.id) != Some(*verifier)
        };
        let Some(verifier) = (0..self.book.desks.len()).find(late) else {
            self.noted = Some(noted);
            return None;
        };
        self.make_room(verifier, ROOT);
        self.book.writer.add_blum(verifier, &noted.record, noted.at, noted.by);
        Some(self.now())
    }

    fn note_element(&mut self) -> Noted {
        let (owner, id) = self.some_account();
        self.book.set(owner, id, OLD.to_vec());
        self.book.evict_blum(owner, id);
        let (record, at) = (self.book.record_bytes(id), self.book.desks[owner].clock);
        let verifier = self.take_in(id);
        self.book.set(verifier, id, NEW.to_vec());
        Noted { id, record, at, by: owner }
    }

    /// One element comes in at two verifiers.
    fn two_copies(&mut self) -> Option<Deadline> {
        if self.book.desks.len() < 2 {
            return None;
        }
        let (owner, id) = self.some_account();
        let (away, epoch) = self.send_away(owner, id);
        let copy = self.book.items.len();
        self.book.items.push(self.book.items[id].clone());
        let verifier = self.take_in(id);
        let other = (verifier + 1) % self.book.desks.len();
        self.make_room(other, ROOT);
        self.book.items[copy].place = away;
        self.book.add_blum(other, copy);
        self.book.set(verifier, id, NEW.to_vec());
        self.book.get(other, copy);
        self.book.evict_blum(other, copy);
        // The copy isn't part of the tree: the epoch's end must pass it over.
        self.book.items[copy].place = Place::AwayByMerkle;
        Some(Deadline::EndOf(epoch))
    }

    fn lying_get(&mut self) -> Deadline {
        let (owner, id) = self.some_account();
        if let Body::Data { key, .. } = &self.book.items[id].body {
            self.book.writer.get(owner, key, Some(b"a lie"));
        }
        self.now()
    }

    /// A verifier is done with the epoch that its clock is in.
    fn early_done(&mut self) -> Deadline {
        let verifier = self.any_verifier();
        self.be_done(verifier, self.book.desks[verifier].clock.epoch);
        self.book.writer.verify_epoch(verifier);
        self.now()
    }
}
