//! Two verifiers at work. The key d has a path that begins 000, and b one that begins 001.

use super::*;

const X: &[u8] = b"x";
const Y: &[u8] = b"y";

fn monitor() -> Monitor {
    Monitor::new(Limits { verifiers: 2, places: 4, epochs: 2 }, Stage::all(), [7; 32])
}

fn data(key: &[u8], value: Option<&[u8]>) -> Record {
    Record::Data { key: key.to_vec(), value: value.map(<[u8]>::to_vec) }
}

fn at(epoch: u64, counter: u64) -> Timestamp {
    Timestamp { epoch, counter }
}

fn above_both() -> Path {
    Path(vec![0, 0])
}

fn set(key: &[u8], value: &[u8]) -> Entry {
    Entry::Set { key: key.to_vec(), value: value.to_vec() }
}

fn add_merkle(record: Record, above: Path) -> Entry {
    Entry::AddMerkle { record, above }
}

fn new_node(path: Path) -> Record {
    Record::Node { path, children: [Pointer::Absent, Pointer::Absent] }
}

fn add_d(value: &[u8], at: Timestamp, by: u64) -> Entry {
    Entry::AddBlum { record: data(b"d", Some(value)), at, by }
}

/// Verifier 0 adds d and sets it.
fn one_key() -> Vec<(u64, Entry)> {
    vec![(0, add_merkle(data(b"d", None), Path::root())), (0, set(b"d", X))]
}

/// It adds a node over d, and b below that.
fn two_keys() -> Vec<(u64, Entry)> {
    let node = (0, add_merkle(new_node(above_both()), Path::root()));
    let b = (0, add_merkle(data(b"b", None), above_both()));
    [one_key(), vec![node, b]].concat()
}

/// d goes by Blum to verifier 1.
fn handed_over() -> Vec<(u64, Entry)> {
    let path = Path::of_key(b"d");
    let evict = Entry::EvictBlumMerkle { path, above: above_both(), at: at(0, 1) };
    [two_keys(), vec![(0, evict), (1, add_d(X, at(0, 1), 0))]].concat()
}

/// Verifier 1 gets it, sets it and evicts it; both are then in epoch 1.
fn given_back() -> Vec<(u64, Entry)> {
    let get = Entry::Get { key: b"d".to_vec(), value: Some(X.to_vec()) };
    let evict = Entry::EvictBlum { path: Path::of_key(b"d"), at: at(0, 2) };
    let more = vec![(1, get), (1, set(b"d", Y)), (1, evict), (0, Entry::NextEpoch), (1, Entry::NextEpoch)];
    [handed_over(), more].concat()
}

/// Verifier 0 adds it again, with the value that it is told, and is done with epoch 0.
fn one_done(value: &[u8]) -> Vec<(u64, Entry)> {
    [given_back(), vec![(0, add_d(value, at(0, 2), 1)), (0, Entry::VerifyEpoch)]].concat()
}

fn tell(monitor: &mut Monitor, (verifier, entry): (u64, Entry)) -> Answer {
    monitor.answer(Ok(Event { verifier, entry }))
}

/// The monitor after a log that isn't wrong.
fn after(log: Vec<(u64, Entry)>) -> Monitor {
    let mut monitor = monitor();
    for event in log {
        let answer = tell(&mut monitor, event.clone());
        assert!(matches!(answer, Answer::Right | Answer::Certified(0)), "{event:?}: {answer}");
    }
    monitor
}

#[test]
fn paths_of_the_two_keys() {
    assert_eq!(Path::of_key(b"d").0[..3], [0, 0, 0]);
    assert_eq!(Path::of_key(b"b").0[..3], [0, 0, 1]);
}

#[test]
fn the_root_knows_a_path_that_is_not_below() {
    let mut monitor = after(one_key());
    assert_eq!(tell(&mut monitor, (0, add_merkle(data(b"b", None), Path::root()))), Answer::Wrong);
    assert_eq!(tell(&mut monitor, (0, set(b"d", Y))), Answer::Refused(Refusal::WrongBefore));
}

#[test]
fn a_node_is_not_evicted_under_its_children() {
    let evict = Entry::EvictMerkle { path: above_both(), above: Path::root() };
    assert_eq!(tell(&mut after(two_keys()), (0, evict)), Answer::Wrong);
}

#[test]
fn adding_by_blum_moves_the_clock() {
    assert_eq!(after(handed_over()).verifiers[1].clock, at(0, 2));
}

#[test]
fn an_honest_epoch_is_certified_when_all_are_done() {
    let mut monitor = after(one_done(Y));
    assert_eq!(monitor.certified, 0);
    assert_eq!(tell(&mut monitor, (1, Entry::VerifyEpoch)), Answer::Certified(1));
}

#[test]
fn a_stale_value_is_found_when_all_are_done() {
    assert_eq!(tell(&mut after(one_done(X)), (1, Entry::VerifyEpoch)), Answer::Wrong);
}

#[test]
fn nothing_is_added_into_an_epoch_that_is_done() {
    let log = [given_back(), vec![(0, Entry::VerifyEpoch)]].concat();
    assert_eq!(tell(&mut after(log), (0, add_d(Y, at(0, 2), 1))), Answer::Wrong);
}

#[test]
fn an_epoch_is_not_done_before_the_clock_is_past_it() {
    assert_eq!(tell(&mut monitor(), (0, Entry::VerifyEpoch)), Answer::Wrong);
}

#[test]
fn refusals_by_the_first_that_applies() {
    let refused = |monitor: &mut Monitor, event| match tell(monitor, event) {
        Answer::Refused(refusal) => refusal,
        answer => panic!("{answer}"),
    };
    let mut full = after(two_keys());
    assert_eq!(refused(&mut full, (2, Entry::NextEpoch)), Refusal::OutOfRange);
    assert_eq!(refused(&mut full, (0, add_d(X, at(0, 1), 2))), Refusal::OutOfRange);
    assert_eq!(refused(&mut full, (0, add_d(X, at(0, MAX_NUMBER), 0))), Refusal::OutOfRange);
    assert_eq!(refused(&mut full, (0, add_d(X, at(MAX_NUMBER + 1, 0), 0))), Refusal::OutOfRange);
    assert_eq!(refused(&mut full, (0, set(&[0; 65], X))), Refusal::OutOfRange);
    assert_eq!(refused(&mut full, (0, set(b"d", &[0; 1025]))), Refusal::OutOfRange);
    let bad_bit = add_merkle(new_node(Path(vec![2])), Path::root());
    assert_eq!(refused(&mut full, (0, bad_bit)), Refusal::OutOfRange);
    let key_long = add_merkle(new_node(Path(vec![1; 256])), Path::root());
    assert_eq!(refused(&mut full, (0, key_long)), Refusal::OutOfRange);
    assert_eq!(refused(&mut full, (0, add_d(X, at(9, 1), 0))), Refusal::NoRoom);
    assert_eq!(refused(&mut full, (1, add_d(X, at(2, 1), 0))), Refusal::TooFarAhead);
    assert_eq!(tell(&mut full, (0, Entry::NextEpoch)), Answer::Right);
    assert_eq!(refused(&mut full, (0, Entry::NextEpoch)), Refusal::TooFarAhead);
}
