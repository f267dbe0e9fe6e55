//! What the keeper does for each get and set, and at the end of each epoch.

use crate::book::{Added, Body, Book, Id, Place, ROOT};
use crate::cheat::{Deadline, Noted};
use crate::options::Options;
use crate::path::{Path, deepest};
use crate::random::Random;

pub struct Keeper {
    pub options: Options,
    pub random: Random,
    pub book: Book,
    /// The record of each account that is in use.
    accounts: Vec<Option<Id>>,
    /// The epoch that all verifiers are in, or are leaving.
    epoch: u64,
    /// Those that still have to leave the epoch.
    leaving: Vec<usize>,
    /// When the lie, if one was told, is found at the latest.
    pub deadline: Option<Deadline>,
    /// What a lie will need later.
    pub noted: Option<Noted>,
    /// The get or set before which a lie is told, or the first after it that gives an occasion.
    lie_at: u64,
}

pub fn key_of(account: u64) -> Vec<u8> {
    format!("account {account}").into_bytes()
}

impl Keeper {
    pub fn new(options: Options) -> Result<Keeper, String> {
        let depth = deepest((0..options.keys).map(|account| Path::of_key(&key_of(account))).collect());
        // One place more than a way from the root needs, and one for the root beside it.
        if options.places < depth as u64 + 2 {
            return Err(format!("the tree of these accounts needs {} places", depth + 2));
        }
        let mut random = Random::new(options.seed);
        let lie_at = options.ops / 4 + random.below(options.ops / 2 + 1);
        let book = Book::new(options.verifiers as usize);
        let accounts = vec![None; options.keys as usize];
        Ok(Keeper {
            options,
            random,
            book,
            accounts,
            epoch: 0,
            leaving: Vec::new(),
            deadline: None,
            noted: None,
            lie_at,
        })
    }

    /// The next get or set, with what is due before it.
    pub fn op(&mut self, op: u64) {
        if !self.options.merkle_only {
            self.pass_time(op);
        }
        if op >= self.lie_at && self.deadline.is_none() {
            self.deadline = self.options.cheat.and_then(|cheat| self.lie(cheat));
        }
        let verifier = self.any_verifier();
        let account = self.any_account();
        let id = self.account(verifier, account);
        self.hand_over(verifier, id);
        match self.random.percent(self.options.sets) {
            true => {
                let value = self.any_value();
                self.book.set(verifier, id, value);
            }
            false => self.book.get(verifier, id),
        }
    }

    pub fn any_verifier(&mut self) -> usize {
        match self.options.merkle_only {
            true => 0,
            false => self.random.below(self.options.verifiers) as usize,
        }
    }

    pub fn any_account(&mut self) -> u64 {
        let hot = self.random.percent(self.options.skew);
        let among = if hot { self.options.keys.div_ceil(16) } else { self.options.keys };
        self.random.below(among)
    }

    pub fn any_value(&mut self) -> Vec<u8> {
        (0..self.options.values).map(|_| b'0' + self.random.below(10) as u8).collect()
    }

    /// The account's record, in some store, if need be in this verifier's.
    pub fn account(&mut self, verifier: usize, account: u64) -> Id {
        match self.accounts[account as usize] {
            Some(id) => {
                self.have_somewhere(verifier, id);
                id
            }
            None => {
                let id = self.open(verifier, key_of(account));
                self.accounts[account as usize] = Some(id);
                id
            }
        }
    }

    /// A new account comes in below the last node on its way, with a node between if another path is in use there.
    fn open(&mut self, verifier: usize, key: Vec<u8>) -> Id {
        let path = Path::of_key(&key);
        let (above, parting) = self.last_node(&path);
        let verifier = self.have_somewhere(verifier, above);
        let above = match parting {
            None => above,
            Some(parting) => {
                self.make_room(verifier, above);
                self.book.add_new(verifier, parting, Body::NEW_NODE, above)
            }
        };
        self.make_room(verifier, above);
        self.book.add_new(verifier, path, Body::Data { key, value: None }, above)
    }

    /// The lowest node above a path, and where the path parts from what that node knows on its side.
    fn last_node(&self, path: &Path) -> (Id, Option<Path>) {
        let mut above = ROOT;
        while let Body::Node { children } = &self.book.items[above].body {
            let side = path.side_of(&self.book.items[above].path);
            let Some(pointer) = children[side] else {
                return (above, None);
            };
            let known = self.book.items[pointer.child].path;
            if !path.begins_with(&known) {
                return (above, Some(path.common(&known)));
            }
            above = pointer.child;
        }
        unreachable!("a new key's path is no other key's");
    }

    /// Has a record in some store, if need be in this verifier's, and tells in whose. By Merkle it needs the node above.
    pub fn have_somewhere(&mut self, verifier: usize, id: Id) -> usize {
        match self.book.items[id].place {
            Place::Store { verifier: owner, .. } => {
                self.book.touch(id);
                owner
            }
            Place::AwayByBlum { .. } => {
                self.make_room(verifier, ROOT);
                self.book.add_blum(verifier, id);
                verifier
            }
            Place::AwayByMerkle => {
                let above = self.book.items[id].above;
                let owner = self.have_somewhere(verifier, above);
                self.make_room(owner, above);
                self.book.add_merkle(owner, id);
                self.share_node(owner, verifier, id)
            }
        }
    }

    /// Now and then a node that has just come goes to another verifier, so that not all of the tree is with one.
    fn share_node(&mut self, owner: usize, verifier: usize, id: Id) -> usize {
        let is_node = matches!(self.book.items[id].body, Body::Node { .. });
        if !is_node || owner == verifier || !self.random.one_in(16) {
            return owner;
        }
        self.hand_over(verifier, id);
        verifier
    }

    /// From whichever store it is in, by Blum.
    pub fn hand_over(&mut self, verifier: usize, id: Id) {
        match self.book.store_of(id) {
            Some(owner) if owner != verifier => {
                self.book.evict_blum(owner, id);
                self.make_room(verifier, ROOT);
                self.book.add_blum(verifier, id);
            }
            _ => {}
        }
    }

    /// Evicts what wasn't used for longest, until there's a place. Not what is needed next; the root never is evicted.
    pub fn make_room(&mut self, verifier: usize, needed: Id) {
        while self.book.desks[verifier].stored >= self.options.places as usize {
            let mut idle = self.book.desks[verifier].idle.iter().map(|(_, id)| *id);
            let id = idle.find(|id| *id != needed).expect("there are places for the tree's depth and two");
            self.put_away(verifier, id);
        }
    }

    pub fn put_away(&mut self, verifier: usize, id: Id) {
        let place = self.book.items[id].place;
        let by_merkle = place == Place::Store { verifier, added: Added::ByMerkle };
        let with_above = by_merkle || self.book.store_of(self.book.items[id].above) == Some(verifier);
        match with_above && (self.options.merkle_only || self.random.percent(60)) {
            true => self.book.evict_merkle(verifier, id),
            false => self.book.evict_blum(verifier, id),
        }
    }

    /// When an epoch is over the verifiers leave it one by one, while gets and sets go on.
    fn pass_time(&mut self, op: u64) {
        if op > 0 && op.is_multiple_of(self.options.epoch_length) {
            self.leave_epoch();
            self.leaving = (0..self.book.desks.len()).collect();
        }
        if !self.leaving.is_empty() && self.random.percent(50) {
            self.leave_next();
        }
    }

    fn leave_next(&mut self) {
        let next = self.random.below(self.leaving.len() as u64) as usize;
        let verifier = self.leaving.swap_remove(next);
        // By what it added it may be past the epoch already.
        if self.book.desks[verifier].clock.epoch == self.epoch {
            self.book.next_epoch(verifier);
        }
        if self.leaving.is_empty() {
            self.close_epoch();
        }
    }

    fn leave_epoch(&mut self) {
        while !self.leaving.is_empty() {
            self.leave_next();
        }
    }

    /// Everything that is still away since this epoch comes in, and the verifiers are done with it, now or later.
    fn close_epoch(&mut self) {
        for id in self.book.evicted.remove(&self.epoch).unwrap_or_default() {
            if matches!(self.book.items[id].place, Place::AwayByBlum { at, .. } if at.epoch == self.epoch) {
                self.settle(id);
            }
        }
        self.epoch += 1;
        // The next epoch can begin only if it isn't too far ahead.
        let least = (self.epoch + 2).saturating_sub(self.options.epochs);
        for verifier in 0..self.book.desks.len() {
            let slack = self.random.below(self.epoch + 1 - least);
            self.be_done(verifier, self.epoch - slack);
        }
    }

    /// It goes back below the node above it, or is evicted again in the new epoch, or stays.
    fn settle(&mut self, id: Id) {
        let verifier = self.any_verifier();
        if self.random.percent(60) {
            let above = self.book.items[id].above;
            let owner = self.have_somewhere(verifier, above);
            self.make_room(owner, above);
            self.book.add_blum(owner, id);
            self.book.evict_merkle(owner, id);
            return;
        }
        self.make_room(verifier, ROOT);
        self.book.add_blum(verifier, id);
        if self.random.percent(50) {
            self.book.evict_blum(verifier, id);
        }
    }

    /// The verifier says so of each epoch before this one.
    pub fn be_done(&mut self, verifier: usize, epoch: u64) {
        while self.book.desks[verifier].done < epoch {
            self.book.verify_epoch(verifier);
            self.meet_deadline();
        }
    }

    /// All are done with the epoch in which the sums differ: this event is the latest.
    fn meet_deadline(&mut self) {
        if let Some(Deadline::EndOf(epoch)) = self.deadline
            && self.book.desks.iter().all(|desk| desk.done > epoch)
        {
            self.deadline = Some(Deadline::Event(self.book.writer.events));
        }
    }

    /// All leave the last epoch and are done with it, so that what is answered is certified.
    pub fn finish(&mut self) {
        if self.options.merkle_only {
            return;
        }
        self.leave_epoch();
        self.leaving = (0..self.book.desks.len()).collect();
        self.leave_epoch();
        for verifier in 0..self.book.desks.len() {
            self.be_done(verifier, self.epoch);
        }
    }
}
