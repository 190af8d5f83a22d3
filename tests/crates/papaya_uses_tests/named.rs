// Each enum and each law that the facade exports, by the facade's names alone.
use crate::expect::is;
use papaya::laws::{
    changes_are_found, clones_are_equal, one_call, one_call_ends, pairs_enter_once, places_differ,
    words_read_back,
};
use papaya::observed::{Observed, Saying};
use papaya::raw::chain::{CopyAsk, Phase, Resize, ResizerState, Scan, ScanAsk, ScannerState};
use papaya::raw::{
    Answer, Ask, At, Kind, OpKind, ProbeStep, Search, State, StepKind, Task, Word, chain,
};
use papaya::schedule::{Call, Event, Reply, Turn};
use papaya::seq::{Computed, Outcome};
use papaya::{
    Collector, Compute, HashMap, NotInserted, Operation, Refused, ResizeMode, Session, seq,
};
use papaya_uses::reached::{dozen, is_absent, same_keys, value_back};
use std::alloc::Global;
use std::hash::{BuildHasherDefault, FoldHasher};
use std::test::Fail;

/// Returns the code of a word's kind.
fn code_of(kind: Kind) -> u64 {
    match kind {
        Kind::Empty => 0,
        Kind::Live => 1,
        Kind::Marked => 2,
        Kind::Copied => 3,
        Kind::Buried => 4,
        Kind::Closed => 5,
    }
}

/// Returns the table that a place is of, or 0 for a place of the map.
fn table_of(at: At) -> u64 {
    match at {
        At::Root | At::Made => 0,
        At::Next(table) | At::Aborted(table) | At::Done(table, _) | At::Slot(table, _) => table,
    }
}

/// Returns whether an exchange of this kind changes the map.
fn changes_map(kind: StepKind) -> bool {
    match kind {
        StepKind::Claim | StepKind::Replace | StepKind::Bury => true,
        StepKind::Open
        | StepKind::Link
        | StepKind::Mark
        | StepKind::Close
        | StepKind::Place
        | StepKind::Finish
        | StepKind::Advance
        | StepKind::Promote
        | StepKind::Abort
        | StepKind::Take => false,
    }
}

/// Returns a closure's operation, as it is passed on to the machine of its call.
fn kind_of(operation: &Operation<u64, u64>) -> OpKind {
    match operation {
        Operation::Insert(_) => OpKind::Insert,
        Operation::Remove => OpKind::Remove,
        Operation::Abort(with) => OpKind::Abort(*with),
    }
}

/// Returns what a closure ends its call with, if it ends without a change.
fn aborted_with(kind: OpKind) -> Option<u64> {
    match kind {
        OpKind::Insert | OpKind::Remove => None,
        OpKind::Abort(with) => Some(with),
    }
}

/// Returns whether a call on a table requests memory.
fn makes(ask: Ask) -> bool {
    match ask {
        Ask::MakeKey | Ask::MakeValue | Ask::MakePair | Ask::MakePairOf(_) => true,
        Ask::MakeTable { len, .. } => len > 0,
        Ask::Load(_) | Ask::Exchange(_, _, _) | Ask::LoadHint(_, _) | Ask::WriteHint(_, _, _) => {
            false
        }
        Ask::SameKey(_) | Ask::ShowNone | Ask::ShowPair(_) | Ask::SizeOf(_) => false,
        Ask::AddToShard(_) | Ask::Done(_) => false,
    }
}

/// Returns whether a copier requests memory.
fn copier_makes(ask: CopyAsk) -> bool {
    match ask {
        CopyAsk::MakeTable { len, .. } => len > 0,
        CopyAsk::Load(_) | CopyAsk::Exchange(_, _, _) => false,
        CopyAsk::LoadHint(_, _) | CopyAsk::WriteHint(_, _, _) => false,
        CopyAsk::SizeOf(_) | CopyAsk::HashOf(_) | CopyAsk::SamePair(_, _) | CopyAsk::Count => false,
    }
}

/// Returns whether a call over any number of tables requests memory.
fn chain_makes(ask: chain::Ask) -> bool {
    match ask {
        chain::Ask::Call(ask) => makes(ask),
        chain::Ask::Copy(ask) => copier_makes(ask),
    }
}

/// Returns the pair that a scan shows or gives.
fn scanned(ask: ScanAsk) -> Option<u64> {
    match ask {
        ScanAsk::Show(pair) | ScanAsk::Given(pair) => Some(pair),
        ScanAsk::Copy(_) | ScanAsk::AddToShard(_) => None,
    }
}

/// Returns why a request was refused.
fn refused_by(answer: Answer) -> Option<Refused> {
    match answer {
        Answer::Refused(refused) => Some(refused),
        Answer::Word(_) | Answer::Exchanged | Answer::Found(_) | Answer::Yes(_) => None,
        Answer::Op(_) | Answer::Size { .. } | Answer::Made(_) | Answer::Ok => None,
    }
}

/// Returns the same over any number of tables.
fn chain_refused_by(answer: chain::Answer) -> Option<Refused> {
    match answer {
        chain::Answer::Call(answer) => refused_by(answer),
        chain::Answer::Hash(_) | chain::Answer::Count(_) => None,
    }
}

/// Returns the task of a machine on one table.
fn task_of<K, V, A>(call: &Call<K, V, A>) -> Option<Task> {
    match call {
        Call::Get(_) => Some(Task::Get),
        Call::Insert(_, _) => Some(Task::Insert { replace: true }),
        Call::TryInsert(_, _) => Some(Task::Insert { replace: false }),
        Call::RemoveIf(_, _) => Some(Task::RemoveIf),
        Call::Compute(_, _) => Some(Task::Compute),
        Call::Reserve(_) | Call::CopyAll | Call::Clear | Call::Retain(_) | Call::Walk => None,
    }
}

/// Returns whether a task may change the map.
fn is_change(task: Task) -> bool {
    match task {
        Task::Get => false,
        Task::Insert { replace } => replace,
        Task::RemoveIf | Task::Compute => true,
    }
}

/// Returns the pair that a reply names first.
fn first_pair(reply: Reply) -> Option<u64> {
    match reply {
        Reply::Found(pair) | Reply::Inserted(pair) | Reply::Occupied(pair) => Some(pair),
        Reply::Removed(pair) | Reply::Kept(pair) => Some(pair),
        Reply::Replaced { old, .. } => Some(old),
        Reply::Absent | Reply::Aborted(_) | Reply::Done | Reply::Refused(_) => None,
    }
}

/// Returns whether an event changed the map.
fn is_changed(event: Event) -> bool {
    match event {
        Event::Changed(kind, _, _) | Event::Moved(kind) => changes_map(kind),
        Event::Shown(_, kind) => aborted_with(kind).is_some(),
        Event::Asked(_, agrees) => agrees,
        Event::Replied(reply) => first_pair(reply).is_none(),
        Event::Begun | Event::Gave(_) | Event::Other => false,
    }
}

/// Returns the caller of a turn.
fn caller_of<K, V, A>(turn: &Turn<K, V, A>) -> usize {
    match turn {
        Turn::Begin(caller, _) | Turn::Step(caller, _) | Turn::Finish(caller, _) => *caller,
    }
}

/// Returns how many pairs the outcome of a call names.
fn told(outcome: &Outcome) -> usize {
    match outcome {
        Outcome::Replied(reply) => usize::from(first_pair(*reply).is_some()),
        Outcome::Walked(pairs) => pairs.len(),
    }
}

/// Returns the new value that a compute stored.
fn stored(computed: &Compute<'_, u64, u64, u64>) -> Option<u64> {
    match computed {
        Compute::Inserted(_, value)
        | Compute::Updated {
            new: (_, value),
            ..
        } => Some(**value),
        Compute::Removed(_, _) | Compute::Aborted(_) => None,
    }
}

/// Returns the number of the pair that a compute stored.
fn stored_pair(computed: Computed<u64, u64>) -> Option<u64> {
    match computed {
        Computed::Inserted(pair) | Computed::Updated { new: pair, .. } => Some(pair),
        Computed::Removed(_) | Computed::Aborted(_) => None,
    }
}

/// Returns how many slots a changing call copies.
fn chunk(mode: ResizeMode) -> Option<usize> {
    match mode {
        ResizeMode::Incremental(chunk) => Some(chunk),
        ResizeMode::Blocking => None,
    }
}

/// Returns why a call on one table has not replied yet, or `None` if it has.
fn waits_for(state: State) -> Option<&'static str> {
    match state {
        State::Searching(search) => Some(search_waits_for(search)),
        State::Ended(_) => None,
        _ => Some("a step"),
    }
}

/// Returns what a search waits for.
fn search_waits_for(search: Search) -> &'static str {
    match search {
        Search::Sizing(_) => "a size",
        Search::Looking(_) => "a hint",
        Search::Reading(_) => "a word",
        Search::Comparing(_, _) => "whether keys are equal",
    }
}

/// Returns whether a search is over.
fn is_over(probed: ProbeStep) -> bool {
    match probed {
        ProbeStep::On(_) => false,
        ProbeStep::Empty(_) | ProbeStep::Here(_, _) | ProbeStep::Over(_) => true,
    }
}

/// Returns whether a call makes or copies tables.
fn resizes(phase: Phase) -> bool {
    match phase {
        Phase::Calling => false,
        Phase::Linking(_) | Phase::Copying(_) => true,
    }
}

/// Returns for how many more pairs room is reserved.
fn more(resize: Resize) -> usize {
    match resize {
        Resize::Chunk | Resize::CopyAll => 0,
        Resize::Reserve(more) => more,
    }
}

/// Returns whether a scan may remove pairs.
fn takes_out(scan: Scan) -> bool {
    match scan {
        Scan::Clear | Scan::Retain => true,
        Scan::Walk => false,
    }
}

/// Returns whether a resize begins.
fn begins(state: ResizerState) -> bool {
    match state {
        ResizerState::AtRoot => true,
        _ => false,
    }
}

/// Returns whether a scan is done.
fn is_done(state: ScannerState) -> bool {
    match state {
        ScannerState::Done => true,
        _ => false,
    }
}

#[test]
fn enums_of_words_and_calls_are_matched_by_name(rt: HostRuntime) -> Result<(), Fail> {
    is(&rt, code_of(Word::live(3).kind()), 1);
    is(&rt, table_of(At::Slot(2, 5)), 2);
    is(&rt, aborted_with(kind_of(&Operation::Abort(7))), Some(7));
    is(&rt, chunk(ResizeMode::default()), Some(64));
    is(&rt, stored(&Compute::Inserted(&1, &2)), Some(2));
    is(&rt, stored_pair(Computed::Removed(1)), None);
    is(&rt, told(&Outcome::Replied(Reply::Found(3))), 1);
    is(&rt, caller_of::<u64, u64, u64>(&Turn::Step(4, false)), 4);
    is(
        &rt,
        is_changed(Event::Changed(StepKind::Claim, None, Some(0))),
        true,
    );
    let task = task_of::<u64, u64, u64>(&Call::Get(1));
    is(&rt, task.map(is_change), Some(false));
    Ok(())
}

/// A table that a copier makes.
const TABLE: CopyAsk = CopyAsk::MakeTable {
    len: 8,
    limit: 3,
    chunks: 1,
};

#[test]
fn enums_of_machines_are_matched_by_name(rt: HostRuntime) -> Result<(), Fail> {
    is(&rt, chain_makes(chain::Ask::Copy(TABLE)), true);
    is(&rt, makes(Ask::MakePair), true);
    is(&rt, scanned(ScanAsk::Show(6)), Some(6));
    is(&rt, chain_refused_by(chain::Answer::Count(2)), None);
    let refused = refused_by(Answer::Refused(Refused::Memory));
    is(&rt, refused, Some(Refused::Memory));
    let waits = waits_for(State::Searching(Search::Sizing(1)));
    is(&rt, waits, Some("a size"));
    is(
        &rt,
        (is_over(ProbeStep::Over(1)), resizes(Phase::Calling)),
        (true, false),
    );
    is(&rt, more(Resize::Reserve(9)), 9);
    is(
        &rt,
        (takes_out(Scan::Retain), begins(ResizerState::AtRoot)),
        (true, true),
    );
    is(&rt, is_done(ScannerState::Done), true);
    Ok(())
}

/// The hasher of a map that is made without one.
type Hasher = BuildHasherDefault<FoldHasher>;

#[test]
fn laws_are_called_by_name() {
    places_differ();
    words_read_back();
    pairs_enter_once::<u64, u64, u64>();
    one_call::<u64, u64, Hasher, u64, u64>();
    one_call_ends::<u64, u64, Hasher, u64>();
    changes_are_found::<u64, u64, Hasher>();
    clones_are_equal::<u64, u64, Hasher>();
}

#[test]
fn results_are_named(rt: HostRuntime) -> Result<(), Fail> {
    is(&rt, value_back(NotInserted::Value(5)), Some(5));
    is(&rt, value_back(NotInserted::Logged(&5)), None);
    is(&rt, is_absent(Reply::Absent), true);
    is(&rt, is_absent(Reply::Done), false);
    is(&rt, dozen(rt.alloc())?.slots(), 16);
    let set: seq::HashSet<u64> = seq::HashSet::new(rt.alloc())?;
    is(&rt, same_keys(&set, &set), true);
    let map: HashMap<u64, u64> = HashMap::new(&rt, rt.alloc())?;
    let saying: Saying<u64, u64, u64, Hasher> = Session::new(&map).tell(7);
    let Observed { answer, marker: _ } = saying;
    is(&rt, answer, 7);
    Ok(())
}

/// Copies a text, which fails only for want of memory.
fn copy(alloc: Global, text: &str) -> Result<String, Refused> {
    Ok(text.to_string(alloc)?)
}

#[test]
fn asks_and_collectors_are_printed(rt: HostRuntime) -> Result<(), Fail> {
    let ask = format!(in rt.alloc(); "{:?}", chain::Ask::Copy(CopyAsk::HashOf(3)))?;
    is(&rt, ask.as_str(), "Copy(HashOf(3))");
    let answer = format!(in rt.alloc(); "{:?}", chain::Answer::Count(2))?;
    is(&rt, answer.as_str(), "Count(2)");
    let scan = format!(in rt.alloc(); "{:?}", ScanAsk::Given(6))?;
    is(&rt, scan.as_str(), "Given(6)");
    let collector = format!(in rt.alloc(); "{:?}", Collector::new(3))?;
    is(&rt, collector.as_str(), "Collector { number: 3, .. }");
    is(&rt, copy(rt.alloc(), "a")?.as_str(), "a");
    Ok(())
}
