// The asks and replies of machines for given words of tables. These are worked values, for errors
// that specs and code might share.
use crate::expect::is;
use papaya_call::ask::{Answer, Ask, At, OpKind, StepKind};
use papaya_call::call::{Reply, Task};
use papaya_call::machine::Machine;
use papaya_words::refused::Refused;
use papaya_words::resize_mode::ResizeMode;
use papaya_words::word::SHUT;
use std::process::Abort;

/// A key whose hash byte is 5 and whose places in 8 slots are 2, 3, 5, 0, 4, 1, 7, 6.
const HASH: u64 = 0x0a00_0000_0000_0002;

/// Its hint.
const HINT: u8 = 6;

/// The hint of a key with another byte.
const HINT_OF_ANOTHER: u64 = 7;

/// The pair 3.
const LIVE: u64 = 3073;

const TOMBSTONE: u64 = 3076;

const COPIED_3: u64 = 3075;
/// The pair 4.
const COPIED: u64 = 4099;
/// The pair 7.
const MARKED: u64 = 7170;

const CLOSED: u64 = 5;

const EMPTY: u64 = 0;
/// The word that an insertion writes for the pair of number 12.
const LIVE_12: u64 = 12_289;

/// The word for the pair of number 13.
const LIVE_13: u64 = 13_313;

/// Checks that the machine asks this, and answers it.
fn told(rt: &impl Abort, machine: &mut Machine, ask: Ask, answer: Answer) {
    is(rt, machine.ask() == ask, true);
    machine.answer(answer);
}

/// Lets the machine load the root, and enter that table, which has 8 slots.
fn enters_root(rt: &impl Abort, machine: &mut Machine, table: u64) {
    told(rt, machine, Ask::Load(At::Root), Answer::Word(table));
    enters(rt, machine, table);
}

fn enters(rt: &impl Abort, machine: &mut Machine, table: u64) {
    let size = Answer::Size { len: 8, limit: 7 };
    told(rt, machine, Ask::SizeOf(table), size);
}

/// Lets the machine load a hint.
fn hints(rt: &impl Abort, machine: &mut Machine, table: u64, slot: usize, hint: u64) {
    told(rt, machine, Ask::LoadHint(table, slot), Answer::Word(hint));
}

/// Lets the machine load a slot. The slot's hint is the key's, or 0 if it has no pair.
fn loads(rt: &impl Abort, machine: &mut Machine, table: u64, slot: usize, word: u64) {
    hints(
        rt,
        machine,
        table,
        slot,
        if word < 8 { 0 } else { HINT as u64 },
    );
    let ask = Ask::Load(At::Slot(table, slot));
    told(rt, machine, ask, Answer::Word(word));
}

/// Lets the machine compare its key with a pair's.
fn compares(rt: &impl Abort, machine: &mut Machine, pair: u64, same: bool) {
    told(rt, machine, Ask::SameKey(pair), Answer::Yes(same));
}

/// Checks the machine's reply.
fn replies(rt: &impl Abort, machine: &Machine, reply: Reply) {
    is(rt, machine.ask() == Ask::Done(reply), true);
}

#[test]
fn lookup_passes_each_kind_of_word(rt: HostRuntime) {
    let mut lookup = Machine::new(Task::Get, HASH, ResizeMode::Incremental(64), 1, None);
    enters_root(&rt, &mut lookup, 1);
    hints(&rt, &mut lookup, 1, 2, HINT_OF_ANOTHER);
    hints(&rt, &mut lookup, 1, 3, SHUT as u64);
    loads(&rt, &mut lookup, 1, 5, CLOSED);
    loads(&rt, &mut lookup, 1, 0, TOMBSTONE);
    // The caller that placed this pair has not written its hint yet.
    hints(&rt, &mut lookup, 1, 4, 0);
    let ask = Ask::Load(At::Slot(1, 4));
    told(&rt, &mut lookup, ask, Answer::Word(COPIED));
    compares(&rt, &mut lookup, 4, false);
    loads(&rt, &mut lookup, 1, 1, LIVE);
    compares(&rt, &mut lookup, 3, false);
    loads(&rt, &mut lookup, 1, 7, MARKED);
    compares(&rt, &mut lookup, 7, true);
    replies(&rt, &lookup, Reply::Found(7));
}

#[test]
fn lookup_follows_a_copied_pair(rt: HostRuntime) {
    let mut lookup = Machine::new(Task::Get, HASH, ResizeMode::Incremental(64), 1, None);
    enters_root(&rt, &mut lookup, 1);
    loads(&rt, &mut lookup, 1, 2, COPIED);
    compares(&rt, &mut lookup, 4, true);
    told(&rt, &mut lookup, Ask::Load(At::Next(1)), Answer::Word(2));
    enters(&rt, &mut lookup, 2);
    loads(&rt, &mut lookup, 2, 2, LIVE);
    compares(&rt, &mut lookup, 3, true);
    replies(&rt, &lookup, Reply::Found(3));
}

/// Lets the machine try to delete the pair at the first place of table 1.
fn buries(rt: &impl Abort, machine: &mut Machine, old: u64, new: u64, answer: Answer) {
    is(rt, machine.kind() == Some(StepKind::Bury), true);
    told(rt, machine, Ask::Exchange(At::Slot(1, 2), old, new), answer);
}

/// Lets the machine call its closure without a pair, because the key is absent.
fn shows_none(rt: &impl Abort, machine: &mut Machine, kind: OpKind) {
    is(rt, machine.kind().is_none(), true);
    told(rt, machine, Ask::ShowNone, Answer::Op(kind));
}

/// Lets the machine call its closure with a pair.
fn decides(rt: &impl Abort, machine: &mut Machine, pair: u64, kind: OpKind) {
    is(rt, machine.kind().is_none(), true);
    told(rt, machine, Ask::ShowPair(pair), Answer::Op(kind));
}

/// Lets the machine make the pair 12 of its key and the value that its closure returned.
fn makes_12(rt: &impl Abort, machine: &mut Machine) {
    is(rt, machine.kind().is_none(), true);
    told(rt, machine, Ask::MakeKey, Answer::Made(0));
    told(rt, machine, Ask::MakeValue, Answer::Made(0));
    told(rt, machine, Ask::MakePair, Answer::Made(12));
}

/// Lets the machine make a pair of the key of the pair 3 and the value that it has stored.
fn makes_of_3(rt: &impl Abort, machine: &mut Machine, pair: u64) {
    is(rt, machine.kind().is_none(), true);
    told(rt, machine, Ask::MakePairOf(3), Answer::Made(pair));
}

/// Lets the machine try to put a pair into an empty slot of table 1.
fn claims(rt: &impl Abort, machine: &mut Machine, slot: usize, new: u64, answer: Answer) {
    is(rt, machine.kind() == Some(StepKind::Claim), true);
    let ask = Ask::Exchange(At::Slot(1, slot), EMPTY, new);
    told(rt, machine, ask, answer);
}

/// Lets the machine try to replace the pair at the first place of table 1.
fn replaces(rt: &impl Abort, machine: &mut Machine, old: u64, new: u64, answer: Answer) {
    is(rt, machine.kind() == Some(StepKind::Replace), true);
    told(rt, machine, Ask::Exchange(At::Slot(1, 2), old, new), answer);
}

/// The claim is lost to another pair, which another call then removes. The closure has returned an
/// insertion, and is not called without a pair again.
#[test]
fn compute_remembers_what_it_inserts(rt: HostRuntime) {
    let mut compute = Machine::new(Task::Compute, HASH, ResizeMode::Blocking, 1, None);
    enters_root(&rt, &mut compute, 1);
    loads(&rt, &mut compute, 1, 2, EMPTY);
    shows_none(&rt, &mut compute, OpKind::Insert);
    makes_12(&rt, &mut compute);
    claims(&rt, &mut compute, 2, LIVE_12, Answer::Found(LIVE));
    compares(&rt, &mut compute, 3, true);
    decides(&rt, &mut compute, 3, OpKind::Remove);
    buries(&rt, &mut compute, LIVE, TOMBSTONE, Answer::Found(TOMBSTONE));
    loads(&rt, &mut compute, 1, 3, EMPTY);
    claims(&rt, &mut compute, 3, LIVE_12, Answer::Exchanged);
    told(&rt, &mut compute, Ask::AddToShard(1), Answer::Ok);
    told(&rt, &mut compute, Ask::WriteHint(1, 3, HINT), Answer::Ok);
    replies(&rt, &compute, Reply::Inserted(12));
}

/// The pair 3 was copied meanwhile: in the next table the closure is not called with it again. The
/// pair 12 has the key from the first table, so the next slot gets another pair with its value.
#[test]
fn compute_remembers_what_it_answered_to_a_pair(rt: HostRuntime) {
    let mut compute = Machine::new(Task::Compute, HASH, ResizeMode::Incremental(64), 1, None);
    enters_root(&rt, &mut compute, 1);
    loads(&rt, &mut compute, 1, 2, LIVE);
    compares(&rt, &mut compute, 3, true);
    decides(&rt, &mut compute, 3, OpKind::Insert);
    told(&rt, &mut compute, Ask::MakeValue, Answer::Made(0));
    makes_of_3(&rt, &mut compute, 12);
    replaces(&rt, &mut compute, LIVE, LIVE_12, Answer::Found(COPIED_3));
    compares(&rt, &mut compute, 3, true);
    told(&rt, &mut compute, Ask::Load(At::Next(1)), Answer::Word(2));
    enters(&rt, &mut compute, 2);
    loads(&rt, &mut compute, 2, 2, LIVE);
    compares(&rt, &mut compute, 3, true);
    makes_of_3(&rt, &mut compute, 13);
    is(&rt, compute.kind() == Some(StepKind::Replace), true);
    let ask = Ask::Exchange(At::Slot(2, 2), LIVE, LIVE_13);
    told(&rt, &mut compute, ask, Answer::Exchanged);
    replies(&rt, &compute, Reply::Replaced { old: 3, new: 13 });
}

/// Lets the machine load how many numbers were taken for pairs.
fn counts(rt: &impl Abort, machine: &mut Machine, made: u64) {
    is(rt, machine.kind().is_none(), true);
    told(rt, machine, Ask::Load(At::Made), Answer::Word(made));
}

/// Lets the machine try to take the next number.
fn takes(rt: &impl Abort, machine: &mut Machine, made: u64, next: u64, answer: Answer) {
    is(rt, machine.kind() == Some(StepKind::Take), true);
    told(rt, machine, Ask::Exchange(At::Made, made, next), answer);
}

/// Lets an insertion, into a map of at most three pairs, find an empty place.
fn finds_a_place(rt: &impl Abort) -> Machine {
    let task = Task::Insert { replace: true };
    let mut insertion = Machine::new(task, HASH, ResizeMode::Blocking, 1, Some(3));
    enters_root(rt, &mut insertion, 1);
    loads(rt, &mut insertion, 1, 2, EMPTY);
    insertion
}

/// Nothing is made then, and so no memory is requested.
#[test]
fn insertion_is_refused_at_the_limit(rt: HostRuntime) {
    let mut insertion = finds_a_place(&rt);
    counts(&rt, &mut insertion, 3);
    replies(&rt, &insertion, Reply::Refused(Refused::Limit));
}

/// Other calls take the last numbers.
#[test]
fn insertion_loses_the_last_number(rt: HostRuntime) {
    let mut insertion = finds_a_place(&rt);
    counts(&rt, &mut insertion, 1);
    takes(&rt, &mut insertion, 1, 2, Answer::Found(2));
    takes(&rt, &mut insertion, 2, 3, Answer::Found(3));
    replies(&rt, &insertion, Reply::Refused(Refused::Limit));
}

/// One below the limit, the number is taken, and the pair is made and claims its place.
#[test]
fn insertion_takes_the_last_number(rt: HostRuntime) {
    let mut insertion = finds_a_place(&rt);
    counts(&rt, &mut insertion, 2);
    takes(&rt, &mut insertion, 2, 3, Answer::Exchanged);
    makes_12(&rt, &mut insertion);
    claims(&rt, &mut insertion, 2, LIVE_12, Answer::Exchanged);
    told(&rt, &mut insertion, Ask::AddToShard(1), Answer::Ok);
    told(&rt, &mut insertion, Ask::WriteHint(1, 2, HINT), Answer::Ok);
    replies(&rt, &insertion, Reply::Inserted(12));
}

/// The second pair of a call needs a number of its own, and there is none.
#[test]
fn each_pair_takes_a_number(rt: HostRuntime) {
    let mode = ResizeMode::Incremental(64);
    let mut compute = Machine::new(Task::Compute, HASH, mode, 1, Some(3));
    enters_root(&rt, &mut compute, 1);
    loads(&rt, &mut compute, 1, 2, LIVE);
    compares(&rt, &mut compute, 3, true);
    decides(&rt, &mut compute, 3, OpKind::Insert);
    counts(&rt, &mut compute, 2);
    takes(&rt, &mut compute, 2, 3, Answer::Exchanged);
    told(&rt, &mut compute, Ask::MakeValue, Answer::Made(0));
    makes_of_3(&rt, &mut compute, 12);
    replaces(&rt, &mut compute, LIVE, LIVE_12, Answer::Found(COPIED_3));
    compares(&rt, &mut compute, 3, true);
    told(&rt, &mut compute, Ask::Load(At::Next(1)), Answer::Word(2));
    enters(&rt, &mut compute, 2);
    loads(&rt, &mut compute, 2, 2, LIVE);
    compares(&rt, &mut compute, 3, true);
    counts(&rt, &mut compute, 3);
    replies(&rt, &compute, Reply::Refused(Refused::Limit));
}
