// The second program: the source's reader-writer lock on Rust's own atomics, resumed one access at a time in the order of a written
// schedule, with the rules' additions around it. It shares no text with the proved code, and its answers are compared with that code's.
//
//     mkdir -p target && rustc -O --edition 2021 oracle/lock.rs -o target/lock_oracle
//     target/lock_oracle run < scenario.csv        the trace of a scenario, as the rules' runner prints it
//     target/lock_oracle drain < scenario.csv      the same, then the rows of the drain order and how many they are and may be
//     target/lock_oracle why < scenario.csv        where the scenario leads: why each thread waits, or how its next entry is refused
//     target/lock_oracle direct FILE               writes the list of direct calls, described below, to FILE
//
// The loops of acquire_read, acquire_write, release_read, release_write and into_inner stand here as the source has them, each as an
// `async fn` that waits before every access; an entry of the schedule resumes it once. So what a thread does next is where the source's
// text is, and no table of places is followed. The line of the source stands above each access, and what the source has no words for is
// marked `added:`.
//
// # The list of direct calls
//
// Text, a line a call, ended by LF; the first line is the header. All fields are decimal numbers below 2^64 with commas between them. A
// LIST is the number of its elements and then the elements.
//
//   what      what the line is there for (see below); a replay needs it for its messages only
//   call      1 setup, 2 run, 3 drain, 4 the entries of the drain order, 5 why a thread waits
//   LOCK      before the call
//   RECORDS   before the call
//   LIST      the lengths of the scripts
//   LIST      the operations
//   LIST      the values
//   LIST      the schedule (for 5 the one thread that is asked for; empty but for these two)
//   budget    (0 but for run)
//   LIST      the trace list before the call, or the list that the entries are written into (empty for setup, drain and 5)
//   number    the refusal's, 0 for none; for 5 also 11 to 16, of the thread's next entry
//   thread    beside it
//   place     beside it, a script place
//   n         entries handled by run, entries used by drain, entries written by 4, the reason for 5, 0 for setup
//   done      rows with answer 0 for run, the bound of drain for 4 (0 where it is refused), the record for 5, 0 for setup and drain
//   LOCK      after the call, all 0 where a setup is refused
//   RECORDS   after the call
//   LIST      that list after the call
//
// LOCK is thirteen numbers: exc (1 up), rc, full (1 full), kept (the value in the cell, or what an empty cell keeps), kind, a and b of the
// predicate, M, dropped reads, dropped writes, moved (1 if there is a mover), mover, finished (1 finished). A setup is given kept as its
// first value, the predicate and M; the other numbers before it are 0. Kinds are 0 to 2.
// RECORDS is the number of records and four numbers for each: script place, place (0 Idle, 1 ReadTry, 2 ReadCheck, 3 ReadBack, 4 Reading,
// 5 WriteWait, 6 WriteTake, 7 Writing, 8 WritePut), value seen, value taken.
//
// Reasons: 0 not waiting, 1 count full, 2 count changed since it looked, 3 flag up and a record holds it, 4 flag up by a dropped handle, 5
// counted readers, 6 dropped read handles only. The record is the holder's number for 3, the lowest reader's for 5, else 0; both are 0
// where the call or the next entry is refused. `why` on a scenario prints `thread,answer,reason,who` and a line for each thread in the
// state at its end, answer being 0 or 12 to 16; of a scenario that is refused, that refusal alone. Lines end with CR LF.
//
// what: 1 setup's numbers in their order, 2 run's, 3 drain's, 4 n by each of the three lengths, 5 setups with good and bad input, 6
// reached states, 7 sound states that no schedule need reach, 8 drain of case L, 9 neighbours where no clause fails, 10 states where more
// than one clause fails, 11 sums that would wrap, 12 the most threads and the longest scripts (with the longest line, below 5,200 bytes),
// 13 what stands beside 5 and 7, 14 the entries of the drain order, 15 why a thread waits, 100 + i only clause i of `SOUND` fails, 200 + i
// only clause i of `TIDY` fails, both counted from 0. The last lines, 999, are wrong on purpose, one in each thing that is compared, one
// that lacks a field, one in each code and each got of an exchange, and those of `WRONG_WHYS`: a replay that found them equal would show
// it.
use std::cell::Cell;
use std::env;
use std::fs::File;
use std::future::Future;
use std::io::{self, BufWriter, Read, Write};
use std::pin::Pin;
use std::process::ExitCode;
use std::sync::atomic::Ordering::SeqCst;
use std::sync::atomic::{AtomicBool, AtomicU64};
use std::task::{Context, Poll, Waker};

// ---------------------------------------------------------------------------------------------------------------------------------------
// The source's lock.

#[derive(Clone, Copy, PartialEq, Eq, PartialOrd, Ord, Debug)]
enum Place {
    Idle,
    ReadTry,
    ReadCheck,
    ReadBack,
    Reading,
    WriteWait,
    WriteTake,
    Writing,
    WritePut,
}

const PLACES: [Place; 9] = [
    Place::Idle,
    Place::ReadTry,
    Place::ReadCheck,
    Place::ReadBack,
    Place::Reading,
    Place::WriteWait,
    Place::WriteTake,
    Place::Writing,
    Place::WritePut,
];

// Where a record holds the flag, and where it is a counted reader.
const HOLDERS: [Place; 4] = [
    Place::WriteWait,
    Place::WriteTake,
    Place::Writing,
    Place::WritePut,
];
const COUNTED: [Place; 3] = [Place::ReadCheck, Place::ReadBack, Place::Reading];

// A point at which a call waits for its thread's next entry: before one access of the source's text. The rules name the places and
// number the accesses; these two are all that a point adds. C is u64, or Arms for an exchange.
#[derive(Clone, Copy)]
struct Point<C> {
    place: Place,
    code: C,
}

// An exchange has a code for each arm of the Result that it answers.
#[derive(Clone, Copy)]
struct Arms {
    done: u64,
    failed: u64,
}

const fn point(place: Place, code: u64) -> Point<u64> {
    Point { place, code }
}

const fn exchange(place: Place, done: u64, failed: u64) -> Point<Arms> {
    let code = Arms { done, failed };
    Point { place, code }
}

// Named function, field, access.
const ACQUIRE_READ_RC_LOAD: Point<u64> = point(Place::Idle, 1);
const ACQUIRE_READ_RC_COMPARE_EXCHANGE: Point<Arms> = exchange(Place::ReadTry, 2, 13);
const ACQUIRE_READ_EXC_LOAD: Point<u64> = point(Place::ReadCheck, 3);
const ACQUIRE_READ_RC_FETCH_SUB: Point<u64> = point(Place::ReadBack, 4);
const BORROW_CELL_BORROW: Point<u64> = point(Place::Reading, 5);
const RELEASE_READ_RC_FETCH_SUB: Point<u64> = point(Place::Reading, 6);
const ACQUIRE_WRITE_EXC_COMPARE_EXCHANGE: Point<Arms> = exchange(Place::Idle, 7, 14);
const ACQUIRE_WRITE_RC_LOAD: Point<u64> = point(Place::WriteWait, 8);
const ACQUIRE_WRITE_CELL_TAKE: Point<u64> = point(Place::WriteTake, 9);
const RELEASE_WRITE_CELL_PUT: Point<u64> = point(Place::Writing, 10);
const RELEASE_WRITE_EXC_STORE: Point<u64> = point(Place::WritePut, 11);

// added: the drop of a handle is an entry of its own, and makes no access.
const DROPPED: u64 = 12;

// added: the predicate is there at run time; the source has it in proofs only.
#[derive(Clone, Copy, PartialEq, Eq, Debug)]
struct Pred {
    kind: u64,
    a: u64,
    b: u64,
}

impl Pred {
    fn permits(self, v: u64) -> bool {
        match self.kind {
            0 => true,
            1 => v == self.a || v == self.b,
            2 => v % 2 == self.a,
            _ => false,
        }
    }

    fn is_good(self) -> bool {
        self.kind < 2 || self.kind == 2 && self.a < 2
    }
}

// pub struct RwLock<V, Pred: RwLockPredicate<V>> {
struct RwLock {
    // cell: un::PCell<V>,
    cell: Cell<Option<u64>>,
    // exc: AtomicBool<_, ..>,
    exc: AtomicBool,
    // rc: AtomicUsize<_, ..>,        usize read as 64 bits
    rc: AtomicU64,
    // added: M, in the place of usize::MAX.
    top: u64,
    // added: where the call that was resumed last waits, what it saw, and the row's code and got of the access that it made.
    waits: Cell<Place>,
    saw: Cell<u64>,
    told: Cell<(u64, u64)>,
}

// added: what a row tells of an access by its answer: the code, of those that its point has, and got.
trait Answer {
    type Code;

    fn row(&self, code: Self::Code) -> (u64, u64);
}

impl Answer for u64 {
    type Code = u64;

    fn row(&self, code: u64) -> (u64, u64) {
        (code, *self)
    }
}

impl Answer for bool {
    type Code = u64;

    fn row(&self, code: u64) -> (u64, u64) {
        (code, u64::from(*self))
    }
}

impl Answer for () {
    type Code = u64;

    fn row(&self, code: u64) -> (u64, u64) {
        (code, 0)
    }
}

// The source returns the value found in both arms.
impl<T: Answer<Code = u64>> Answer for Result<T, T> {
    type Code = Arms;

    fn row(&self, code: Arms) -> (u64, u64) {
        match self {
            Result::Ok(found) => found.row(code.done),
            Result::Err(found) => found.row(code.failed),
        }
    }
}

// Waits until its thread is resumed.
struct Pause<'a> {
    lock: &'a RwLock,
    place: Place,
    waited: bool,
}

impl Future for Pause<'_> {
    type Output = ();

    fn poll(mut self: Pin<&mut Self>, _: &mut Context<'_>) -> Poll<()> {
        if self.waited {
            return Poll::Ready(());
        }
        self.waited = true;
        self.lock.waits.set(self.place);
        Poll::Pending
    }
}

// pub struct ReadHandle<'a, V, Pred: RwLockPredicate<V>> {
struct ReadHandle<'a> {
    rwlock: &'a RwLock,
}

// pub struct WriteHandle<'a, V, Pred: RwLockPredicate<V>> {
struct WriteHandle<'a> {
    rwlock: &'a RwLock,
}

impl RwLock {
    // pub fn new(val: V, Ghost(pred): Ghost<Pred>) -> (s: Self)
    fn new(val: u64, top: u64) -> RwLock {
        RwLock {
            cell: Cell::new(Some(val)),
            exc: AtomicBool::new(false),
            rc: AtomicU64::new(0),
            top,
            waits: Cell::new(Place::Idle),
            saw: Cell::new(0),
            told: Cell::new((0, 0)),
        }
    }

    // One access: waits for an entry, makes it, and keeps what the row is to tell.
    async fn access<T: Answer>(&self, point: Point<T::Code>, make: impl FnOnce() -> T) -> T {
        let pause = Pause {
            lock: self,
            place: point.place,
            waited: false,
        };
        pause.await;
        let answer = make();
        self.told.set(answer.row(point.code));
        answer
    }

    // pub fn acquire_write(&self) -> (ret: (V, WriteHandle<'_, V, Pred>))
    async fn acquire_write(&self) -> (u64, WriteHandle<'_>) {
        // let mut done = false;
        let mut done = false;
        // while !done
        while !done {
            // let result = atomic_with_ghost!( &self.exc => compare_exchange(false, true);
            let result = self
                .access(ACQUIRE_WRITE_EXC_COMPARE_EXCHANGE, || {
                    self.exc.compare_exchange(false, true, SeqCst, SeqCst)
                })
                .await;
            // done = match result { Result::Ok(_) => true, _ => false, };
            done = match result {
                Result::Ok(_) => true,
                _ => false,
            };
        }
        // loop
        loop {
            // let result = atomic_with_ghost!( &self.rc => load();
            let result = self
                .access(ACQUIRE_WRITE_RC_LOAD, || self.rc.load(SeqCst))
                .await;
            // if result == 0 {
            if result == 0 {
                // let t = self.cell.take(Tracked(&mut perm));
                let t = self
                    .access(ACQUIRE_WRITE_CELL_TAKE, || {
                        self.cell.take().expect("a full cell")
                    })
                    .await;
                // let write_handle = WriteHandle { .., rwlock: self, };
                let write_handle = WriteHandle { rwlock: self };
                // return (t, write_handle);
                return (t, write_handle);
            }
        }
    }

    // pub fn acquire_read(&self) -> (read_handle: ReadHandle<'_, V, Pred>)
    async fn acquire_read(&self) -> ReadHandle<'_> {
        // loop
        loop {
            // let val = atomic_with_ghost!(&self.rc => load(); ghost g => { });
            let val = self
                .access(ACQUIRE_READ_RC_LOAD, || self.rc.load(SeqCst))
                .await;
            // if val < usize::MAX {
            // added: M in the place of usize::MAX.
            if val < self.top {
                // added: the record keeps the value seen.
                self.saw.set(val);
                // let result = atomic_with_ghost!( &self.rc => compare_exchange(val, val + 1);
                let result = self
                    .access(ACQUIRE_READ_RC_COMPARE_EXCHANGE, || {
                        self.rc.compare_exchange(val, val + 1, SeqCst, SeqCst)
                    })
                    .await;
                // match result {
                match result {
                    // Result::Ok(_) => {
                    Result::Ok(_) => {
                        // let result = atomic_with_ghost!( &self.exc => load();
                        let result = self
                            .access(ACQUIRE_READ_EXC_LOAD, || self.exc.load(SeqCst))
                            .await;
                        // if result == false {
                        if result == false {
                            // let read_handle = ReadHandle { handle: Tracked(handle), rwlock: self };
                            let read_handle = ReadHandle { rwlock: self };
                            // return read_handle;
                            return read_handle;
                        } else {
                            // let _ = atomic_with_ghost!( &self.rc => fetch_sub(1);
                            let _ = self
                                .access(ACQUIRE_READ_RC_FETCH_SUB, || self.rc.fetch_sub(1, SeqCst))
                                .await;
                        }
                    }
                    // _ => {},
                    _ => {}
                }
            }
        }
    }

    // pub fn into_inner(self) -> (v: V)
    // added: by reference. That nobody else uses the lock meanwhile is refusal 13 and 15, not a move.
    async fn into_inner(&self) -> u64 {
        // let (v, _write_handle) = self.acquire_write();
        let (v, _write_handle) = self.acquire_write().await;
        // v
        v
    }
}

impl ReadHandle<'_> {
    // pub fn borrow<'b>(&'b self) -> (val: &'b V)
    async fn borrow(&self) -> u64 {
        // self.rwlock.cell.borrow(Tracked(&perm))
        self.rwlock
            .access(BORROW_CELL_BORROW, || {
                self.rwlock.cell.get().expect("a full cell")
            })
            .await
    }

    // pub fn release_read(self) {
    async fn release_read(self) {
        // let ReadHandle { handle: Tracked(handle), rwlock } = self;
        let ReadHandle { rwlock } = self;
        // let _ = atomic_with_ghost!( &rwlock.rc => fetch_sub(1);
        let _ = rwlock
            .access(RELEASE_READ_RC_FETCH_SUB, || rwlock.rc.fetch_sub(1, SeqCst))
            .await;
    }
}

impl WriteHandle<'_> {
    // pub fn release_write(self, new_val: V)
    async fn release_write(self, new_val: u64) {
        // let WriteHandle { handle: Tracked(handle), perm: Tracked(mut perm), rwlock } = self;
        let WriteHandle { rwlock } = self;
        // self.rwlock.cell.put(Tracked(&mut perm), new_val);
        rwlock
            .access(RELEASE_WRITE_CELL_PUT, || {
                assert!(
                    rwlock.cell.replace(Some(new_val)).is_none(),
                    "an empty cell"
                );
                new_val
            })
            .await;
        // atomic_with_ghost!( &rwlock.exc => store(false);
        rwlock
            .access(RELEASE_WRITE_EXC_STORE, || rwlock.exc.store(false, SeqCst))
            .await;
    }
}

// ---------------------------------------------------------------------------------------------------------------------------------------
// A thread: what it has in hand between calls, and the call under way.

enum Hand<'a> {
    Empty,
    Read(ReadHandle<'a>),
    // The value taken goes with the handle, as acquire_write returns both.
    Write(u64, WriteHandle<'a>),
}

type Call<'a> = Pin<Box<dyn Future<Output = Hand<'a>> + 'a>>;

struct Thread<'a> {
    at: u64,
    hand: Hand<'a>,
    call: Option<Call<'a>>,
    waits: Place,
    saw: u64,
}

impl<'a> Thread<'a> {
    fn idle(at: u64) -> Thread<'a> {
        Thread {
            at,
            hand: Hand::Empty,
            call: None,
            waits: Place::Idle,
            saw: 0,
        }
    }

    fn place(&self) -> Place {
        match (&self.call, &self.hand) {
            (Some(_), _) => self.waits,
            (None, Hand::Empty) => Place::Idle,
            (None, Hand::Read(_)) => Place::Reading,
            (None, Hand::Write(..)) => Place::Writing,
        }
    }

    fn record(&self) -> Record {
        let place = self.place();
        Record {
            at: self.at,
            place,
            seen: if place == Place::ReadTry { self.saw } else { 0 },
            taken: match self.hand {
                Hand::Write(t, _) => t,
                _ => 0,
            },
        }
    }

    // added: whether the operation can be called with what is in hand; by types in the source. A call under way is always the script's
    // operation, since a state in which it is not is unsound.
    fn fits(&self, op: u64) -> bool {
        match (&self.call, &self.hand) {
            (Some(_), _) => true,
            (None, Hand::Empty) => op == 1 || op == 4 || op == 7,
            (None, Hand::Read(_)) => op == 2 || op == 3 || op == 6,
            (None, Hand::Write(..)) => op == 5 || op == 6,
        }
    }

    // Calls an operation that fits, up to its first access.
    fn start(&mut self, lock: &'a RwLock, op: u64, v: u64) {
        let hand = std::mem::replace(&mut self.hand, Hand::Empty);
        self.call = Some(match (op, hand) {
            (1, Hand::Empty) => Box::pin(async move { Hand::Read(lock.acquire_read().await) }),
            (2, Hand::Read(h)) => Box::pin(async move {
                h.borrow().await;
                Hand::Read(h)
            }),
            (3, Hand::Read(h)) => Box::pin(async move {
                h.release_read().await;
                Hand::Empty
            }),
            (4, Hand::Empty) => Box::pin(async move {
                let (t, h) = lock.acquire_write().await;
                Hand::Write(t, h)
            }),
            (5, Hand::Write(_, h)) => Box::pin(async move {
                h.release_write(v).await;
                Hand::Empty
            }),
            (7, Hand::Empty) => Box::pin(async move {
                lock.into_inner().await;
                Hand::Empty
            }),
            _ => unreachable!("an operation that does not fit"),
        });
        assert!(!self.resume(lock), "a call waits before its first access");
    }

    // Resumes the call, and tells whether it has returned.
    fn resume(&mut self, lock: &'a RwLock) -> bool {
        let call = self.call.as_mut().expect("a call under way");
        match call.as_mut().poll(&mut Context::from_waker(Waker::noop())) {
            Poll::Pending => {
                self.waits = lock.waits.get();
                self.saw = lock.saw.get();
                false
            }
            Poll::Ready(hand) => {
                self.hand = hand;
                self.call = None;
                self.at += 1;
                true
            }
        }
    }

    // added: a thread at a place that was written down. The source's call is led there over a memory that lets it through; the lock's
    // own memory is written afterwards.
    fn led(lock: &'a RwLock, record: &Record, op: u64, v: u64) -> Thread<'a> {
        let mut thread = Thread::idle(0);
        let (op, goal) = match record.place {
            Place::Idle => (0, Place::Idle),
            Place::ReadTry | Place::ReadCheck | Place::ReadBack | Place::Reading => {
                (1, record.place)
            }
            Place::WriteWait | Place::WriteTake => (op, record.place),
            Place::Writing | Place::WritePut => (4, Place::Writing),
        };
        lock.exc.store(false, SeqCst);
        lock.rc.store(record.seen, SeqCst);
        lock.cell.set(Some(record.taken));
        if op != 0 {
            thread.start(lock, op, 0);
        }
        while thread.place() != goal {
            if thread.place() == Place::ReadCheck {
                lock.exc.store(goal == Place::ReadBack, SeqCst);
            }
            thread.resume(lock);
        }
        if record.place == Place::WritePut {
            thread.start(lock, 5, v);
            thread.resume(lock);
        }
        thread.at = record.at;
        thread
    }
}

// ---------------------------------------------------------------------------------------------------------------------------------------
// The rules around it. All of this part is added: scripts, records and locks as numbers, the refusals, run and drain.

#[derive(Clone, Debug, PartialEq, Eq)]
struct Record {
    at: u64,
    place: Place,
    seen: u64,
    taken: u64,
}

const FRESH: Record = Record {
    at: 0,
    place: Place::Idle,
    seen: 0,
    taken: 0,
};

#[derive(Clone, Debug, PartialEq, Eq)]
struct State {
    exc: bool,
    rc: u64,
    full: bool,
    kept: u64,
    pred: Pred,
    top: u64,
    reads: u64,
    writes: u64,
    mover: Option<u64>,
    finished: bool,
    records: Vec<Record>,
}

#[derive(Clone, Debug, Default)]
struct Scripts {
    lengths: Vec<u64>,
    ops: Vec<u64>,
    values: Vec<u64>,
}

impl Scripts {
    fn of(scripts: &[Vec<(u64, u64)>]) -> Scripts {
        let all = || scripts.iter().flatten();
        Scripts {
            lengths: scripts.iter().map(|s| s.len() as u64).collect(),
            ops: all().map(|x| x.0).collect(),
            values: all().map(|x| x.1).collect(),
        }
    }

    fn count(&self) -> u64 {
        self.lengths.len() as u64
    }

    fn start(&self, thread: usize) -> usize {
        self.lengths[..thread].iter().sum::<u64>() as usize
    }

    // The operation and its value, where the script has one there.
    fn op(&self, thread: usize, at: u64) -> Option<(u64, u64)> {
        let place = self.start(thread)
            + usize::try_from(at)
                .ok()
                .filter(|_| at < self.lengths[thread])?;
        Some((self.ops[place], self.values[place]))
    }

    // The operations from a script place on.
    fn rest(&self, thread: usize, at: u64) -> Vec<(u64, u64)> {
        (at..self.lengths[thread])
            .filter_map(|k| self.op(thread, k))
            .collect()
    }

    // Refusal 5, 6 or 7 with the values beside it.
    fn refusal(&self, records: usize) -> Option<Refusal> {
        if let Some(thread) = self.lengths.iter().position(|l| *l > 64) {
            return Some((5, thread as u64, 0));
        }
        let sum: u128 = self.lengths.iter().map(|l| u128::from(*l)).sum();
        if sum != self.ops.len() as u128
            || sum != self.values.len() as u128
            || records != self.lengths.len()
        {
            return Some((6, 0, 0));
        }
        (0..self.lengths.len()).find_map(|thread| {
            let bad = |x: &(u64, u64)| x.0 < 1 || x.0 > 7 || x.0 != 5 && x.1 != 0;
            let place = self.rest(thread, 0).iter().position(bad)?;
            Some((7, thread as u64, place as u64))
        })
    }
}

// A number, and the thread and the script place beside it.
type Refusal = (u64, u64, u64);

// Refusals 1 to 4, as a setup and the pred line of a file have them.
fn first_refusals(threads: u64, top: u64, pred: Pred, first: u64) -> Option<u64> {
    let checks = [
        (1, threads == 0 || threads > 16),
        (2, top == 0),
        (3, !pred.is_good()),
        (4, !pred.permits(first)),
    ];
    checks.iter().find(|c| c.1).map(|c| c.0)
}

// thread, access, answer, got, exc after, rc after
type Row = [u64; 6];

struct Machine<'a> {
    lock: &'a RwLock,
    threads: Vec<Thread<'a>>,
    scripts: &'a Scripts,
    pred: Pred,
    reads: u64,
    writes: u64,
    mover: Option<u64>,
    finished: bool,
}

impl<'a> Machine<'a> {
    // The machine in a sound state. The lock is any lock with that state's M.
    fn at(lock: &'a RwLock, state: &State, scripts: &'a Scripts) -> Machine<'a> {
        let lead = |(i, r): (usize, &Record)| {
            let (op, v) = scripts.op(i, r.at).unwrap_or((0, 0));
            Thread::led(lock, r, op, v)
        };
        let threads = state.records.iter().enumerate().map(lead).collect();
        lock.exc.store(state.exc, SeqCst);
        lock.rc.store(state.rc, SeqCst);
        lock.cell.set(state.full.then_some(state.kept));
        Machine {
            lock,
            threads,
            scripts,
            pred: state.pred,
            reads: state.reads,
            writes: state.writes,
            mover: state.mover,
            finished: state.finished,
        }
    }

    fn state(&self) -> State {
        let cell = self.lock.cell.get();
        State {
            exc: self.lock.exc.load(SeqCst),
            rc: self.lock.rc.load(SeqCst),
            full: cell.is_some(),
            kept: cell.unwrap_or(0),
            pred: self.pred,
            top: self.lock.top,
            reads: self.reads,
            writes: self.writes,
            mover: self.mover,
            finished: self.finished,
            records: self.threads.iter().map(Thread::record).collect(),
        }
    }

    // The lowest of 11 to 16 that applies, or the operation.
    fn refusal(&self, number: u64) -> Result<(u64, u64), u64> {
        let thread = usize::try_from(number)
            .ok()
            .and_then(|i| self.threads.get(i))
            .ok_or(11u64)?;
        let (op, v) = self.scripts.op(number as usize, thread.at).ok_or(12u64)?;
        let moving = self.mover == Some(number);
        let others_idle = || {
            let idle = |(i, t): (usize, &Thread)| i as u64 == number || t.place() == Place::Idle;
            self.threads.iter().enumerate().all(idle)
        };
        if self.finished || self.mover.is_some() && !moving {
            Err(13)
        } else if !thread.fits(op) {
            Err(14)
        } else if op == 7 && !moving && !others_idle() {
            Err(15)
        } else if op == 5 && thread.place() == Place::Writing && !self.pred.permits(v) {
            Err(16)
        } else {
            Ok((op, v))
        }
    }

    fn drop_handle(&mut self, number: usize) {
        let thread = &mut self.threads[number];
        // The source's handles do nothing when they are dropped.
        match std::mem::replace(&mut thread.hand, Hand::Empty) {
            Hand::Read(_) => self.reads += 1,
            _ => self.writes += 1,
        }
        thread.at += 1;
        self.lock.told.set((DROPPED, 0));
    }

    fn step(&mut self, number: u64, op: u64, v: u64) {
        let i = number as usize;
        if op == 6 {
            return self.drop_handle(i);
        }
        if op == 7 {
            self.mover = Some(number);
        }
        let thread = &mut self.threads[i];
        if thread.call.is_none() {
            thread.start(self.lock, op, v);
        }
        let returned = thread.resume(self.lock);
        if op == 7 && returned {
            self.mover = None;
            self.finished = true;
        }
    }

    // Where a thread stands, and the operation that it is at, 0 at its script's end.
    fn stands(&self, number: u64) -> Option<(Place, u64)> {
        let i = usize::try_from(number).ok()?;
        let thread = self.threads.get(i)?;
        let op = self.scripts.op(i, thread.at).map_or(0, |x| x.0);
        Some((thread.place(), op))
    }

    fn entry(&mut self, number: u64) -> Row {
        let (code, answer, got) = match self.refusal(number) {
            Ok((op, v)) => {
                self.step(number, op, v);
                let (code, got) = self.lock.told.get();
                (code, 0, got)
            }
            Err(refused) => (0, refused, 0),
        };
        let exc = u64::from(self.lock.exc.load(SeqCst));
        [number, code, answer, got, exc, self.lock.rc.load(SeqCst)]
    }

    // Steps of one thread while something holds, none refused: so many entries of its number.
    fn steps_while(&mut self, i: usize, goes_on: impl Fn(&Thread) -> bool) -> Vec<u64> {
        let mut used = Vec::new();
        while goes_on(&self.threads[i]) {
            assert_eq!(self.entry(i as u64)[2], 0, "drain has no refused entry");
            used.push(i as u64);
        }
        used
    }

    // The drain order, and the entries that it takes.
    fn drain(&mut self) -> Vec<u64> {
        let not_idle = |t: &Thread| t.place() != Place::Idle;
        let waiting = |m: &Machine, i: usize| m.threads[i].place() == Place::WriteWait;
        let all = 0..self.threads.len();
        let mut used = Vec::new();
        for i in all.clone() {
            if !waiting(self, i) {
                used.extend(self.steps_while(i, not_idle));
            }
        }
        if let Some(i) = all.clone().find(|i| waiting(self, *i)) {
            used.extend(self.steps_while(i, not_idle));
        }
        for i in all {
            let length = self.scripts.lengths[i];
            used.extend(self.steps_while(i, |t| t.at < length));
        }
        used
    }
}

// ---------------------------------------------------------------------------------------------------------------------------------------
// The tests of sound and tidy states: the rules' clauses, each by itself.

const SOUND: [&str; 27] = [
    "M is at least 1",
    "the predicate's parameter is good",
    "rc is at most M",
    "rc equals the counted records and the dropped reads",
    "the writers are at most 1",
    "exc is up exactly if the writers are 1",
    "no Reading record beside a writer that has seen 0",
    "no dropped read beside a writer that has seen 0",
    "an empty cell has a cause",
    "a cause empties the cell",
    "the cell's value is permitted",
    "a taken value is permitted",
    "seen is 0 except at ReadTry",
    "taken is 0 except at Writing",
    "an empty cell keeps 0",
    "seen is below M",
    "script places are at most the length",
    "inside an operation the script place is below the length",
    "ReadTry, ReadCheck and ReadBack have operation 1",
    "WriteWait and WriteTake have operation 4 or 7",
    "WritePut has operation 5",
    "a mover is a thread",
    "a mover is at operation 7",
    "beside a mover all are Idle",
    "nobody else is inside operation 7",
    "a finished lock has no mover",
    "in a finished lock all are Idle",
];

// What the clauses look at. Sums are wide, so that none wraps.
struct View<'a> {
    s: &'a State,
    x: &'a Scripts,
}

impl View<'_> {
    fn count(&self, places: &[Place]) -> u128 {
        u128::from(self.s.count(places))
    }

    fn all(&self, clause: impl Fn(&Record) -> bool) -> bool {
        self.s.records.iter().all(clause)
    }

    // The clause for every record at one of the places and inside its script, given its operation.
    fn ops(&self, places: &[Place], clause: impl Fn(usize, u64) -> bool) -> bool {
        self.s
            .records
            .iter()
            .enumerate()
            .all(|(i, r)| match self.x.op(i, r.at) {
                Some((op, _)) if places.contains(&r.place) => clause(i, op),
                _ => true,
            })
    }

    fn of_the_numbers(&self) -> [bool; 10] {
        let s = self.s;
        let finished = u128::from(s.finished);
        let counted = self.count(&COUNTED);
        let seen_zero = self.count(&[Place::WriteTake, Place::Writing, Place::WritePut]);
        let gone = u128::from(s.writes) + finished;
        let writers = self.count(&[Place::WriteWait]) + seen_zero + gone;
        let emptied = self.count(&[Place::Writing]) + gone > 0;
        [
            s.top >= 1,
            s.pred.is_good(),
            s.rc <= s.top,
            u128::from(s.rc) == counted + u128::from(s.reads),
            writers <= 1,
            s.exc == (writers == 1),
            seen_zero + gone == 0 || self.count(&[Place::Reading]) == 0,
            seen_zero + gone == 0 || s.reads == 0,
            s.full || emptied,
            !s.full || !emptied,
        ]
    }

    fn of_the_values(&self) -> [bool; 6] {
        let s = self.s;
        [
            !s.full || s.pred.permits(s.kept),
            self.all(|r| r.place != Place::Writing || s.pred.permits(r.taken)),
            self.all(|r| r.place == Place::ReadTry || r.seen == 0),
            self.all(|r| r.place == Place::Writing || r.taken == 0),
            s.full || s.kept == 0,
            self.all(|r| r.place != Place::ReadTry || r.seen < s.top),
        ]
    }

    fn of_the_scripts(&self) -> [bool; 5] {
        let inside = |p: Place| !matches!(p, Place::Idle | Place::Reading | Place::Writing);
        let records = || self.s.records.iter().zip(&self.x.lengths);
        [
            records().all(|(r, l)| r.at <= *l),
            records().all(|(r, l)| !inside(r.place) || r.at != *l),
            self.ops(
                &[Place::ReadTry, Place::ReadCheck, Place::ReadBack],
                |_, op| op == 1,
            ),
            self.ops(&[Place::WriteWait, Place::WriteTake], |_, op| {
                op == 4 || op == 7
            }),
            self.ops(&[Place::WritePut], |_, op| op == 5),
        ]
    }

    fn of_the_mover(&self) -> [bool; 6] {
        let s = self.s;
        let valid = s.mover.filter(|m| *m < self.x.count());
        let at_seven = |m: u64| {
            let op = self.x.op(m as usize, s.records[m as usize].at);
            op.is_some_and(|x| x.0 == 7)
        };
        let others_idle = |m: u64| {
            let idle = |(i, r): (usize, &Record)| i as u64 == m || r.place == Place::Idle;
            s.records.iter().enumerate().all(idle)
        };
        let all_idle = self.all(|r| r.place == Place::Idle);
        [
            s.mover == valid,
            valid.is_none_or(at_seven),
            valid.is_none_or(others_idle),
            self.ops(&[Place::WriteWait, Place::WriteTake], |i, op| {
                op != 7 || s.mover == Some(i as u64)
            }),
            !s.finished || s.mover.is_none(),
            !s.finished || all_idle,
        ]
    }
}

// The clauses of SOUND that fail, by their place in it. The scripts are lent as they should be, and the threads are 1 to 16.
fn unsound(s: &State, x: &Scripts) -> Vec<usize> {
    let v = View { s, x };
    let mut holds = v.of_the_numbers().to_vec();
    holds.extend(v.of_the_values());
    holds.extend(v.of_the_scripts());
    holds.extend(v.of_the_mover());
    assert_eq!(holds.len(), SOUND.len());
    (0..holds.len()).filter(|i| !holds[*i]).collect()
}

const TIDY: [&str; 9] = [
    "no dropped read",
    "no dropped write",
    "no mover",
    "not finished",
    "every operation fits the place that it meets",
    "the end is at Idle",
    "no operation 6",
    "no operation 7",
    "values of operation 5 are permitted",
];

const NO_MOVER: usize = 2;
const NO_OPERATION_7: usize = 7;

// Where the rest of a script leads from a place, Idle, Reading or Writing; none where an operation does not fit.
fn leads(place: Place, rest: &[(u64, u64)]) -> Option<Place> {
    rest.iter().try_fold(place, |p, x| match (p, x.0) {
        (Place::Idle, 1) | (Place::Reading, 2) => Some(Place::Reading),
        (Place::Idle, 4) => Some(Place::Writing),
        (Place::Reading, 3 | 6) | (Place::Writing, 5 | 6) | (Place::Idle, 7) => Some(Place::Idle),
        _ => None,
    })
}

// The place at which the operation under way began; the place itself where none is.
fn began(place: Place) -> Place {
    match place {
        Place::Reading => Place::Reading,
        Place::Writing | Place::WritePut => Place::Writing,
        _ => Place::Idle,
    }
}

fn rests(s: &State, x: &Scripts) -> Vec<(Place, Vec<(u64, u64)>)> {
    let rest = |(i, r): (usize, &Record)| (began(r.place), x.rest(i, r.at));
    s.records.iter().enumerate().map(rest).collect()
}

// The clauses of TIDY that fail in a sound state, by their place in it.
fn untidy(s: &State, x: &Scripts) -> Vec<usize> {
    let rests = rests(s, x);
    let ends: Vec<Option<Place>> = rests.iter().map(|(p, rest)| leads(*p, rest)).collect();
    let every = |clause: &dyn Fn(&(u64, u64)) -> bool| {
        rests.iter().all(|(_, rest)| rest.iter().all(clause))
    };
    let holds = [
        s.reads == 0,
        s.writes == 0,
        s.mover.is_none(),
        !s.finished,
        ends.iter().all(|e| e.is_some()),
        ends.iter().all(|e| e.is_none_or(|p| p == Place::Idle)),
        every(&|o| o.0 != 6),
        every(&|o| o.0 != 7),
        every(&|o| o.0 != 5 || s.pred.permits(o.1)),
    ];
    (0..holds.len()).filter(|i| !holds[*i]).collect()
}

fn plain_cost(s: &State, x: &Scripts) -> u64 {
    let cost = |o: &(u64, u64)| match o.0 {
        1 | 4 => 3,
        5 => 2,
        _ => 1,
    };
    rests(s, x)
        .iter()
        .flat_map(|(_, rest)| rest)
        .map(cost)
        .sum()
}

// ---------------------------------------------------------------------------------------------------------------------------------------
// Why a thread waits. Its next access is made as the source makes it, on a copy; where that access failed, the records tell who is to
// blame for it.

#[derive(Clone, Copy, PartialEq, Eq, Debug)]
enum Why {
    NotWaiting,
    CountFull,
    CountChanged,
    // The record that holds the flag.
    FlagHeld(u64),
    FlagDropped,
    // The lowest-numbered counted reader.
    Counted(u64),
    OnlyDropped,
}

impl Why {
    // The reason's number, and the record's beside it.
    fn numbers(self) -> (u64, u64) {
        match self {
            Why::NotWaiting => (0, 0),
            Why::CountFull => (1, 0),
            Why::CountChanged => (2, 0),
            Why::FlagHeld(i) => (3, i),
            Why::FlagDropped => (4, 0),
            Why::Counted(i) => (5, i),
            Why::OnlyDropped => (6, 0),
        }
    }
}

impl State {
    fn count(&self, places: &[Place]) -> u64 {
        let there = |r: &&Record| places.contains(&r.place);
        self.records.iter().filter(there).count() as u64
    }

    fn first_at(&self, places: &[Place]) -> Option<u64> {
        let there = |r: &Record| places.contains(&r.place);
        self.records.iter().position(there).map(|i| i as u64)
    }

    // In a sound state: why a thread waits, or the number with which its next entry is refused. A machine of its own makes the entry.
    fn why(&self, scripts: &Scripts, number: u64) -> Result<Why, u64> {
        let lock = RwLock::new(0, self.top);
        let mut copy = Machine::at(&lock, self, scripts);
        assert_eq!(copy.state(), *self, "threads are led to where they stand");
        let [_, code, answer, got, ..] = copy.entry(number);
        if answer != 0 {
            return Err(answer);
        }
        let why = self.reason(code, got);
        assert!(self.bears_out(why, number), "a reason is true of the state");
        Ok(why)
    }

    // The failed looks and exchanges, as the row of the access tells them: 1 at M, 13, 3 seeing true, 14, 8 seeing non-zero.
    fn reason(&self, code: u64, got: u64) -> Why {
        match (code, got) {
            (1, _) if got == self.top => Why::CountFull,
            (13, _) => Why::CountChanged,
            (3, 1) | (14, _) => self
                .first_at(&HOLDERS)
                .map_or(Why::FlagDropped, Why::FlagHeld),
            (8, 1..) => self
                .first_at(&COUNTED)
                .map_or(Why::OnlyDropped, Why::Counted),
            _ => Why::NotWaiting,
        }
    }

    // Whether what a reason says is so, by the numbers of the state alone: no access is made for it.
    fn bears_out(&self, why: Why, number: u64) -> bool {
        let lone_holder = self.count(&HOLDERS) == 1 && self.writes == 0;
        let place = |i: u64| self.records[i as usize].place;
        match why {
            Why::NotWaiting => true,
            Why::CountFull => self.rc == self.top,
            Why::CountChanged => self.records[number as usize].seen != self.rc,
            Why::FlagHeld(i) => self.exc && lone_holder && HOLDERS.contains(&place(i)),
            Why::FlagDropped => self.exc && self.count(&HOLDERS) == 0 && self.writes == 1,
            Why::Counted(i) => {
                let lower = |k: u64| COUNTED.contains(&place(k));
                self.rc > 0 && COUNTED.contains(&place(i)) && !(0..i).any(lower)
            }
            Why::OnlyDropped => self.rc > 0 && self.rc == self.reads && self.count(&COUNTED) == 0,
        }
    }
}

// ---------------------------------------------------------------------------------------------------------------------------------------
// Scenario files.

const HEADER: &[u8] = b"kind,a,b,c";
const TRACE_HEADER: &str = "n,thread,access,answer,got,exc,rc";
const WHY_HEADER: &str = "thread,answer,reason,who";
const BROKEN: u64 = 31;
const WRONG_LINE: u64 = 32;

#[derive(Clone, Copy, PartialEq, Eq)]
enum Stage {
    Header,
    Lock,
    Pred,
    Ops,
    Runs,
}

struct Scenario {
    stage: Stage,
    top: u64,
    first: u64,
    threads: u64,
    pred: Pred,
    scripts: Vec<Vec<(u64, u64)>>,
    last_thread: u64,
    runs: Vec<(u64, u64)>,
}

// The fields of a line, where its form is right.
fn fields(line: &[u8]) -> Result<[&[u8]; 4], u64> {
    let has = |b: u8| line.contains(&b);
    if line.len() > 80 || has(b'"') || has(b'\r') || has(b'\n') {
        return Err(BROKEN);
    }
    let fields: Vec<&[u8]> = line.split(|b| *b == b',').collect();
    fields.try_into().map_err(|_| BROKEN)
}

fn number(field: &[u8]) -> Result<u64, u64> {
    let plain =
        field.iter().all(u8::is_ascii_digit) && (field.len() == 1 || field.first() != Some(&b'0'));
    let text = std::str::from_utf8(field).ok().filter(|_| plain);
    text.and_then(|t| t.parse().ok()).ok_or(BROKEN)
}

impl Scenario {
    fn new() -> Scenario {
        Scenario {
            stage: Stage::Header,
            top: 0,
            first: 0,
            threads: 0,
            pred: Pred {
                kind: 0,
                a: 0,
                b: 0,
            },
            scripts: Vec::new(),
            last_thread: 0,
            runs: Vec::new(),
        }
    }

    // Takes a line, or gives the number with which it is refused.
    fn take(&mut self, line: &[u8]) -> Result<(), u64> {
        let [kind, a, b, c] = fields(line)?;
        if self.stage == Stage::Header {
            self.stage = Stage::Lock;
            return if line == HEADER {
                Ok(())
            } else {
                Err(WRONG_LINE)
            };
        }
        let (a, b, c) = (number(a)?, number(b)?, number(c)?);
        if kind == b"run" && !(a < 256 && (1..=65535).contains(&b) && c == 0) {
            return Err(BROKEN);
        }
        match (self.stage, kind) {
            (Stage::Lock, b"lock") => {
                (self.top, self.first, self.threads) = (a, b, c);
                self.stage = Stage::Pred;
                Ok(())
            }
            (Stage::Pred, b"pred") => self.take_pred(Pred {
                kind: a,
                a: b,
                b: c,
            }),
            (Stage::Ops, b"op") => self.take_op(a, b, c),
            (Stage::Ops | Stage::Runs, b"run") => {
                self.stage = Stage::Runs;
                self.runs.push((a, b));
                Ok(())
            }
            _ => Err(WRONG_LINE),
        }
    }

    fn take_pred(&mut self, pred: Pred) -> Result<(), u64> {
        self.pred = pred;
        self.stage = Stage::Ops;
        match first_refusals(self.threads, self.top, pred, self.first) {
            Some(number) => Err(number),
            None => {
                self.scripts = vec![Vec::new(); self.threads as usize];
                Ok(())
            }
        }
    }

    fn take_op(&mut self, thread: u64, op: u64, v: u64) -> Result<(), u64> {
        if thread >= self.threads || thread < self.last_thread {
            return Err(WRONG_LINE);
        }
        self.last_thread = thread;
        let script = &mut self.scripts[thread as usize];
        script.push((op, v));
        if script.len() > 64 {
            Err(5)
        } else if !(1..=7).contains(&op) || op != 5 && v != 0 {
            Err(7)
        } else {
            Ok(())
        }
    }

    // A machine of its own each time, and the entries of the run lines made by it.
    fn led<'a>(
        &self,
        lock: &'a RwLock,
        scripts: &'a Scripts,
        mut each: impl FnMut(Row) -> io::Result<()>,
    ) -> io::Result<Machine<'a>> {
        let state = fresh_state(self.top, self.pred, self.first, self.scripts.len());
        let mut machine = Machine::at(lock, &state, scripts);
        for (thread, times) in &self.runs {
            for _ in 0..*times {
                each(machine.entry(*thread))?;
            }
        }
        Ok(machine)
    }

    // The rows, and where it drains and is not refused, those of the drain order behind them: its entries are found by a second machine.
    fn print_rows(&self, drains: bool, out: &mut impl Write) -> io::Result<()> {
        let scripts = Scripts::of(&self.scripts);
        let lock = RwLock::new(self.first, self.top);
        let mut n = 0u64;
        let mut print = |row: Row, out: &mut dyn Write| {
            let [t, access, answer, got, exc, rc] = row;
            write!(out, "{n},{t},{access},{answer},{got},{exc},{rc}\r\n")?;
            n += 1;
            Ok(())
        };
        let mut machine = self.led(&lock, &scripts, |row| print(row, out))?;
        if !drains {
            return Ok(());
        }
        let state = machine.state();
        if !untidy(&state, &scripts).is_empty() {
            return write!(out, "refused,17,0\r\n");
        }
        let other = RwLock::new(self.first, self.top);
        let entries = self.led(&other, &scripts, |_| Ok(()))?.drain();
        for thread in &entries {
            print(machine.entry(*thread), out)?;
        }
        let bound = plain_cost(&state, &scripts) + 3 * scripts.count();
        write!(out, "drained,{},{bound}\r\n", entries.len())
    }

    // Where the run lines lead, why each thread waits.
    fn print_whys(&self, out: &mut impl Write) -> io::Result<()> {
        let scripts = Scripts::of(&self.scripts);
        let lock = RwLock::new(self.first, self.top);
        let state = self.led(&lock, &scripts, |_| Ok(()))?.state();
        write!(out, "{WHY_HEADER}\r\n")?;
        for thread in 0..self.threads {
            let (answer, why) = match state.why(&scripts, thread) {
                Ok(why) => (0, why),
                Err(refused) => (refused, Why::NotWaiting),
            };
            let (reason, who) = why.numbers();
            write!(out, "{thread},{answer},{reason},{who}\r\n")?;
        }
        Ok(())
    }
}

// The lines of a file: each ends at CR LF and nowhere else, and the last break is optional.
fn lines(file: &[u8]) -> Vec<&[u8]> {
    let mut lines = Vec::new();
    let mut rest = file;
    while let Some(i) = rest.windows(2).position(|w| w == b"\r\n") {
        lines.push(&rest[..i]);
        rest = &rest[i + 2..];
    }
    if !rest.is_empty() {
        lines.push(rest);
    }
    lines
}

// A file up to the line that is refused, if there is one, and that line's refusal and number.
fn scenario_of(file: &[u8]) -> (Scenario, Option<(u64, u64)>) {
    let lines = lines(file);
    let mut scenario = Scenario::new();
    let refused = (1u64..).zip(&lines).find_map(|(i, line)| {
        let number = scenario.take(line).err()?;
        Some((number, i))
    });
    let cut_short = scenario.stage != Stage::Ops && scenario.stage != Stage::Runs;
    let refused = refused.or(cut_short.then_some((WRONG_LINE, lines.len() as u64 + 1)));
    (scenario, refused)
}

fn run_file(file: &[u8], drains: bool, out: &mut impl Write) -> io::Result<()> {
    let (scenario, refused) = scenario_of(file);
    write!(out, "{TRACE_HEADER}\r\n")?;
    let drains = drains && refused.is_none();
    if drains || !scenario.runs.is_empty() {
        scenario.print_rows(drains, out)?;
    }
    if let Some((number, line)) = refused {
        write!(out, "refused,{number},{line}\r\n")?;
    }
    out.flush()
}

// Of a file that is refused nothing is asked: its refusal stands alone, without a header.
fn why_file(file: &[u8], out: &mut impl Write) -> io::Result<()> {
    match scenario_of(file) {
        (_, Some((number, line))) => write!(out, "refused,{number},{line}\r\n")?,
        (scenario, None) => scenario.print_whys(out)?,
    }
    out.flush()
}

// ---------------------------------------------------------------------------------------------------------------------------------------
// Direct calls.

fn fresh_state(top: u64, pred: Pred, first: u64, threads: usize) -> State {
    State {
        exc: false,
        rc: 0,
        full: true,
        kept: first,
        pred,
        top,
        reads: 0,
        writes: 0,
        mover: None,
        finished: false,
        records: vec![FRESH; threads],
    }
}

const SETUP: u64 = 1;
const RUN: u64 = 2;
const DRAIN: u64 = 3;
const ORDER: u64 = 4;
const WHY: u64 = 5;

// What the lines that ask why are there for.
const ASKED: u64 = 15;

// What a line that is wrong on purpose is there for.
const WRONG: u64 = 999;

#[derive(Clone)]
struct Direct {
    what: u64,
    call: u64,
    state: State,
    scripts: Scripts,
    schedule: Vec<u64>,
    budget: u64,
    trace: Vec<u64>,
}

struct Told {
    refused: Refusal,
    n: u64,
    done: u64,
    // None: a setup that made no lock.
    lock: Option<State>,
    records: Vec<Record>,
    trace: Vec<u64>,
    // What the list touches with it, for the report alone.
    ways: Vec<Way>,
}

// The way of an accepted entry: from which place, by which operation, with which access, and to which place.
type Way = (Place, u64, u64, Place);

impl Direct {
    // A call with no schedule, no budget and no list to write into.
    fn of(what: u64, call: u64, state: &State, scripts: &Scripts) -> Direct {
        Direct {
            what,
            call,
            state: state.clone(),
            scripts: scripts.clone(),
            schedule: Vec::new(),
            budget: 0,
            trace: Vec::new(),
        }
    }

    // Why a thread waits: its number is the schedule.
    fn asking(what: u64, state: &State, scripts: &Scripts, thread: u64) -> Direct {
        let mut asking = Direct::of(what, WHY, state, scripts);
        asking.schedule.push(thread);
        asking
    }

    fn refusal(&self) -> Option<Refusal> {
        let (s, x) = (&self.state, &self.scripts);
        let scripts = x.refusal(s.records.len());
        if self.call == SETUP {
            let first = first_refusals(x.count(), s.top, s.pred, s.kept);
            return first.map(|number| (number, 0, 0)).or(scripts);
        }
        scripts.or_else(|| {
            if x.count() == 0 || x.count() > 16 || !unsound(s, x).is_empty() {
                Some((10, 0, 0))
            } else if matches!(self.call, DRAIN | ORDER) && !untidy(s, x).is_empty() {
                Some((17, 0, 0))
            } else {
                None
            }
        })
    }

    // The fields of its line, and where its answer starts in them.
    fn line(&self) -> (Vec<u64>, usize) {
        let mut line = Line::default();
        line.before(self);
        let from = line.0.len();
        line.after(&self.answer());
        (line.0, from)
    }

    // All that is lent, as it is; a setup that changes nothing has made no lock.
    fn unchanged(&self) -> Told {
        Told {
            refused: (0, 0, 0),
            n: 0,
            done: 0,
            lock: (self.call != SETUP).then(|| self.state.clone()),
            records: self.state.records.clone(),
            trace: self.trace.clone(),
            ways: Vec::new(),
        }
    }

    fn answer(&self) -> Told {
        let mut told = self.unchanged();
        if let Some(refused) = self.refusal() {
            told.refused = refused;
            return told;
        }
        if self.call == WHY {
            self.why(&mut told);
            return told;
        }
        let s = &self.state;
        let fresh = fresh_state(s.top, s.pred, s.kept, s.records.len());
        let lock = RwLock::new(0, s.top);
        let from = if self.call == SETUP { &fresh } else { s };
        let mut machine = Machine::at(&lock, from, &self.scripts);
        match self.call {
            RUN => self.run(&mut machine, &mut told),
            DRAIN => told.n = self.drain(&mut machine).len() as u64,
            ORDER => {
                self.order(&self.drain(&mut machine), &mut told);
                return told;
            }
            _ => {}
        }
        let after = machine.state();
        assert!(
            unsound(&after, &self.scripts).is_empty(),
            "every step keeps soundness"
        );
        told.records = after.records.clone();
        told.lock = Some(after);
        told
    }

    fn run(&self, machine: &mut Machine, told: &mut Told) {
        let room = self.trace.len() as u64 / 6;
        told.n = self.budget.min(self.schedule.len() as u64).min(room);
        for (k, thread) in self.schedule.iter().take(told.n as usize).enumerate() {
            let before = machine.stands(*thread);
            let row = machine.entry(*thread);
            told.trace[6 * k..6 * k + 6].copy_from_slice(&row);
            told.done += u64::from(row[2] == 0);
            if let (0, Some((from, op)), Some((to, _))) = (row[2], before, machine.stands(*thread))
            {
                told.ways.push((from, op, row[1], to));
            }
        }
    }

    // The reason stands where a run has n, the record where it has the rows with answer 0. Lock and records stay as they were.
    fn why(&self, told: &mut Told) {
        match self.state.why(&self.scripts, self.schedule[0]) {
            Ok(why) => (told.n, told.done) = why.numbers(),
            Err(number) => told.refused = (number, 0, 0),
        }
    }

    // The entries of the drain order.
    fn drain(&self, machine: &mut Machine) -> Vec<u64> {
        let before = machine.state();
        assert_eq!(before, self.state, "threads are led to where they stand");
        let used = machine.drain();
        let after = machine.state();
        assert!(used.len() as u64 <= self.bound(), "the bound of demand 3");
        assert!(
            !after.exc && after.rc == 0 && after.full,
            "what drain leaves"
        );
        used
    }

    // The plain cost of the state given, and three entries for each thread.
    fn bound(&self) -> u64 {
        plain_cost(&self.state, &self.scripts) + 3 * self.scripts.count()
    }

    // These entries, written down: 41 where they have no room. Lock and records stay as they were.
    fn order(&self, entries: &[u64], told: &mut Told) {
        if entries.len() > self.trace.len() {
            told.refused = (41, 0, 0);
            return;
        }
        told.trace[..entries.len()].copy_from_slice(entries);
        (told.n, told.done) = (entries.len() as u64, self.bound());
    }
}

// A line of the list, field by field.
#[derive(Default)]
struct Line(Vec<u64>);

impl Line {
    fn list(&mut self, list: &[u64]) {
        self.0.push(list.len() as u64);
        self.0.extend(list);
    }

    fn lock(&mut self, lock: Option<&State>) {
        let Some(s) = lock else {
            self.0.extend([0; 13]);
            return;
        };
        self.0
            .extend([u64::from(s.exc), s.rc, u64::from(s.full), s.kept]);
        self.0
            .extend([s.pred.kind, s.pred.a, s.pred.b, s.top, s.reads, s.writes]);
        self.0.extend([
            u64::from(s.mover.is_some()),
            s.mover.unwrap_or(0),
            u64::from(s.finished),
        ]);
    }

    fn records(&mut self, records: &[Record]) {
        self.0.push(records.len() as u64);
        for r in records {
            self.0.extend([r.at, r.place as u64, r.seen, r.taken]);
        }
    }

    fn before(&mut self, d: &Direct) {
        self.0.extend([d.what, d.call]);
        if d.call == SETUP {
            let mut given = fresh_state(d.state.top, d.state.pred, d.state.kept, 0);
            given.full = false;
            self.lock(Some(&given));
        } else {
            self.lock(Some(&d.state));
        }
        self.records(&d.state.records);
        self.list(&d.scripts.lengths);
        self.list(&d.scripts.ops);
        self.list(&d.scripts.values);
        self.list(&d.schedule);
        self.0.push(d.budget);
        self.list(&d.trace);
    }

    fn after(&mut self, t: &Told) {
        let (number, thread, place) = t.refused;
        self.0.extend([number, thread, place, t.n, t.done]);
        self.lock(t.lock.as_ref());
        self.records(&t.records);
        self.list(&t.trace);
    }
}

// ---------------------------------------------------------------------------------------------------------------------------------------
// Which direct calls are made.

// Numbers that look random and are the same in each run: splitmix64.
struct Random(u64);

impl Random {
    fn next(&mut self) -> u64 {
        self.0 = self.0.wrapping_add(0x9e37_79b9_7f4a_7c15);
        let mut z = self.0;
        z = (z ^ (z >> 30)).wrapping_mul(0xbf58_476d_1ce4_e5b9);
        z = (z ^ (z >> 27)).wrapping_mul(0x94d0_49bb_1331_11eb);
        z ^ (z >> 31)
    }

    fn below(&mut self, n: usize) -> usize {
        (self.next() % n as u64) as usize
    }

    fn of<T: Copy>(&mut self, values: &[T]) -> T {
        values[self.below(values.len())]
    }

    // A script that fits from a place on, or nearly so, with values of a predicate.
    fn script(&mut self, from: Place, length: usize, wild: bool, v: &[u64]) -> Vec<(u64, u64)> {
        let mut place = from;
        let mut script = Vec::new();
        while script.len() < length || !wild && place != Place::Idle {
            let op = match place {
                _ if wild && self.below(12) == 0 => 1 + self.below(7) as u64,
                Place::Idle => self.of(&[1, 1, 1, 4, 4, if wild { 7 } else { 1 }]),
                Place::Reading => self.of(&[2, 3, 3, if wild { 6 } else { 3 }]),
                _ => self.of(&[5, 5, 5, if wild { 6 } else { 5 }]),
            };
            script.push((op, if op == 5 { self.of(v) } else { 0 }));
            place = leads(place, &script[script.len() - 1..]).unwrap_or(place);
        }
        script
    }

    fn schedule(&mut self, length: usize, threads: usize) -> Vec<u64> {
        let mut schedule = Vec::new();
        while schedule.len() < length {
            let strange = self.below(40) == 0;
            let thread = if strange {
                self.of(&[threads as u64, 16, 255, u64::MAX])
            } else {
                self.below(threads) as u64
            };
            for _ in 0..1 + self.below(3) {
                schedule.push(thread);
            }
        }
        schedule.truncate(length);
        schedule
    }
}

// Predicates, each with values that it permits and one more that it may not.
const PREDS: [(Pred, [u64; 3]); 4] = [
    (
        Pred {
            kind: 0,
            a: 9,
            b: 9,
        },
        [5, u64::MAX, 0],
    ),
    (
        Pred {
            kind: 1,
            a: 5,
            b: 13,
        },
        [5, 13, 7],
    ),
    (
        Pred {
            kind: 2,
            a: 0,
            b: 7,
        },
        [20, 0, 23],
    ),
    (
        Pred {
            kind: 2,
            a: 1,
            b: 0,
        },
        [23, u64::MAX, 20],
    ),
];

fn marks(length: usize) -> Vec<u64> {
    (0..length as u64).map(|i| 100 + i).collect()
}

struct List<W: Write> {
    out: W,
    random: Random,
    lines: Vec<(u64, u64)>,
    refused: Vec<(u64, u64)>,
    // Of the entries of runs: the numbers of the refused ones, and the ways of the others.
    entries: Vec<(u64, u64)>,
    ways: Vec<(Way, u64)>,
    // Of the lines that ask why: all that is told of them, number and reason, and reason and record.
    touches: Vec<(Touch, u64)>,
    reasons: Vec<((u64, u64, Source), u64)>,
    blamed: Vec<((u64, u64), u64)>,
}

fn count_up<K: PartialEq>(counts: &mut Vec<(K, u64)>, key: K) {
    match counts.iter_mut().find(|c| c.0 == key) {
        Some(c) => c.1 += 1,
        None => counts.push((key, 1)),
    }
}

fn join(numbers: &[u64]) -> String {
    let texts: Vec<String> = numbers.iter().map(u64::to_string).collect();
    texts.join(",")
}

impl<W: Write> List<W> {
    fn put(&mut self, d: &Direct) -> io::Result<Told> {
        let told = d.answer();
        let mut line = Line::default();
        line.before(d);
        line.after(&told);
        count_up(&mut self.lines, d.what);
        count_up(&mut self.refused, told.refused.0);
        for row in told.trace.chunks_exact(6).take(told.n as usize) {
            if d.call == RUN && row[2] != 0 {
                count_up(&mut self.entries, row[2]);
            }
        }
        for way in &told.ways {
            count_up(&mut self.ways, *way);
        }
        writeln!(self.out, "{}", join(&line.0))?;
        Ok(told)
    }

    fn setup(&mut self, what: u64, state: &State, scripts: &Scripts) -> io::Result<Told> {
        self.put(&Direct::of(what, SETUP, state, scripts))
    }

    fn drain(&mut self, what: u64, state: &State, scripts: &Scripts) -> io::Result<Told> {
        self.put(&Direct::of(what, DRAIN, state, scripts))
    }

    // A run of so many entries with room and budget for all of them, and some words of trace behind.
    fn run(
        &mut self,
        what: u64,
        state: &State,
        scripts: &Scripts,
        length: usize,
    ) -> io::Result<Told> {
        let threads = scripts.lengths.len().max(1);
        let schedule = self.random.schedule(length, threads);
        let (spare, more) = (
            self.random.below(9),
            self.random.next() >> self.random.below(64),
        );
        self.put(&Direct {
            what,
            call: RUN,
            state: state.clone(),
            scripts: scripts.clone(),
            schedule,
            budget: (length as u64).saturating_add(more),
            trace: marks(6 * length + spare),
        })
    }

    // A state that a schedule reaches, with its scripts.
    fn reached(&mut self, wild: bool) -> (State, Scripts) {
        self.reached_by(4, wild)
    }

    // With up to so many threads.
    fn reached_by(&mut self, most: usize, wild: bool) -> (State, Scripts) {
        let threads = 1 + self.random.below(most);
        let (pred, values) = self.random.of(&PREDS);
        let top = self.random.of(&[1, 2, 3, 4, u64::MAX]);
        let values = if wild { &values[..] } else { &values[..2] };
        let scripts: Vec<_> = (0..threads)
            .map(|_| {
                let length = self.random.below(6);
                self.random.script(Place::Idle, length, wild, values)
            })
            .collect();
        let scripts = Scripts::of(&scripts);
        let state = fresh_state(top, pred, values[0], threads);
        let length = self.random.below(15 * most / 2);
        let direct = Direct {
            what: 0,
            call: RUN,
            state,
            scripts: scripts.clone(),
            schedule: self.random.schedule(length, threads),
            budget: u64::MAX,
            trace: vec![0; 6 * length],
        };
        (direct.answer().lock.expect("a lock"), scripts)
    }
}

const READERS: [Place; 4] = [
    Place::ReadTry,
    Place::ReadCheck,
    Place::ReadBack,
    Place::Reading,
];

// How a state or its scripts can be bent: one thing at a time.
impl Random {
    fn bend(&mut self, s: &mut State, x: &mut Scripts) {
        let i = self.below(s.records.len());
        match self.below(5) {
            0 => self.bend_numbers(s),
            1 => self.bend_lock(s),
            2 => {
                let op = x.start(i) + s.records[i].at.min(64) as usize;
                if op < x.ops.len() {
                    x.ops[op] = 1 + self.below(7) as u64;
                    x.values[op] = if x.ops[op] == 5 {
                        self.of(&[s.kept, 5, 13, 20])
                    } else {
                        0
                    };
                }
            }
            _ => self.bend_record(s, i, x.lengths[i]),
        }
    }

    fn near(&mut self, n: u64) -> u64 {
        self.of(&[
            n.wrapping_add(1),
            n.wrapping_sub(1),
            n.wrapping_add(1),
            0,
            1,
            u64::MAX,
        ])
    }

    fn bend_numbers(&mut self, s: &mut State) {
        match self.below(6) {
            0 => s.rc = self.near(s.rc),
            1 => s.reads = self.near(s.reads),
            2 => s.writes = self.near(s.writes),
            3 => s.top = self.of(&[0, 1, s.rc, s.rc.saturating_sub(1)]),
            4 => {
                let more = self.of(&[1, 2, u64::MAX - s.rc.max(s.reads)]);
                s.rc = s.rc.wrapping_add(more);
                s.reads = s.reads.wrapping_add(more);
            }
            _ => s.kept = self.near(s.kept),
        }
    }

    fn bend_lock(&mut self, s: &mut State) {
        let (pred, values) = self.of(&PREDS);
        let strange = self.of(&[s.records.len() as u64, 16, u64::MAX]);
        match self.below(8) {
            0 | 1 => s.exc = !s.exc,
            2 => (s.full, s.kept) = (!s.full, if s.full { 0 } else { values[0] }),
            3 => s.full = !s.full,
            4 => s.finished = !s.finished,
            5 => s.mover = self.of(&[None, Some(strange)]),
            6 => s.mover = Some(self.below(s.records.len()) as u64),
            _ => {
                s.pred = self.of(&[
                    Pred {
                        kind: 2,
                        a: 2,
                        b: 0,
                    },
                    pred,
                ])
            }
        }
    }

    fn bend_record(&mut self, s: &mut State, i: usize, length: u64) {
        let top = s.top;
        let r = &mut s.records[i];
        match self.below(8) {
            0..=3 => r.place = self.of(&PLACES),
            4 => {
                r.at = self.of(&[
                    length,
                    length.wrapping_add(1),
                    r.at.wrapping_sub(1),
                    r.at + 1,
                    u64::MAX,
                ])
            }
            5 => r.seen = self.of(&[1, top, top.saturating_sub(1), u64::MAX]),
            6 => r.taken = self.of(&[1, 7, 5, 20]),
            _ => (r.seen, r.taken) = (0, 0),
        }
    }

    // A sound state that need not be one that a schedule reaches: a writer of each kind or none, and readers beside it.
    fn foreign(&mut self) -> (State, Scripts) {
        self.foreign_of(4)
    }

    // With up to so many threads.
    fn foreign_of(&mut self, most: usize) -> (State, Scripts) {
        loop {
            let (pred, values) = self.of(&PREDS);
            let threads = 1 + self.below(most);
            let top = self.of(&[1, 2, 3, 5, u64::MAX - 1, u64::MAX]);
            let mut s = fresh_state(top, pred, values[0], threads);
            let mut scripts = Vec::new();
            for i in 0..threads {
                let (reader, any) = (self.of(&READERS), self.of(&PLACES));
                let place = self.of(&[Place::Idle, reader, any]);
                let (record, script) = self.stands(place, top, &values);
                s.records[i] = record;
                scripts.push(script);
            }
            s.writes = u64::from(self.below(8) == 0);
            s.finished = self.below(8) == 0;
            s.mover = (self.below(4) == 0).then_some(0);
            self.completed(&mut s);
            let x = Scripts::of(&scripts);
            if unsound(&s, &x).is_empty() {
                return (s, x);
            }
        }
    }

    // A record at a place, in a script that fits it.
    fn stands(&mut self, place: Place, top: u64, values: &[u64]) -> (Record, Vec<(u64, u64)>) {
        let length = self.below(3);
        let mut script = self.script(Place::Idle, length, true, values);
        let at = script.len() as u64;
        let from = match place {
            Place::ReadTry | Place::ReadCheck | Place::ReadBack => Some((1, 0)),
            Place::WriteWait | Place::WriteTake => Some((self.of(&[4, 4, 7]), 0)),
            Place::WritePut => Some((5, self.of(values))),
            Place::Idle => Some((self.of(&[1, 4, 7]), 0)),
            Place::Reading | Place::Writing => None,
        };
        script.extend(from);
        let then = leads(began(place), &script[at as usize..]).unwrap_or(Place::Idle);
        let (more, wild) = (self.below(4), self.below(3) == 0);
        script.extend(self.script(then, more, wild, &values[..2]));
        let seen = if place == Place::ReadTry {
            self.of(&[0, 1, top - 1]).min(top - 1)
        } else {
            0
        };
        let taken = if place == Place::Writing {
            self.of(&values[..2])
        } else {
            0
        };
        (
            Record {
                at,
                place,
                seen,
                taken,
            },
            script,
        )
    }

    // The numbers that go with the records: as sound states have them, dropped reads at will.
    fn completed(&mut self, s: &mut State) {
        let seen_zero = s.count(&[Place::WriteTake, Place::Writing, Place::WritePut]);
        let gone = s.writes + u64::from(s.finished);
        let room = s.top.saturating_sub(s.count(&COUNTED));
        if seen_zero + gone == 0 {
            s.reads = self.of(&[0, 0, 0, room.min(1), room, room.saturating_sub(1)]);
        }
        settle(s);
    }
}

// The flag, the count and the cell as the records and what was dropped make them.
fn settle(s: &mut State) {
    let gone = s.writes + u64::from(s.finished);
    s.rc = s.count(&COUNTED) + s.reads;
    s.exc = s.count(&HOLDERS) + gone == 1;
    if s.count(&[Place::Writing]) + gone > 0 {
        (s.full, s.kept) = (false, 0);
    }
}

// Scripts in which just these numbers apply, each by one of its causes. Where `many`, the threads are not 1 to 16.
fn broken_scripts(has: impl Fn(u64) -> bool, many: bool, variant: usize) -> Vec<Vec<(u64, u64)>> {
    let (read, write) = ([(1, 0), (2, 0), (3, 0)], [(4, 0), (5, 13), (1, 0), (3, 0)]);
    let mut threads = vec![read.to_vec(), write.to_vec()];
    if has(17) {
        let untidy: [&[(u64, u64)]; 5] = [
            &[(1, 0), (6, 0)],
            &[(7, 0)],
            &[(4, 0), (5, 7)],
            &[(1, 0)],
            &[(2, 0)],
        ];
        threads[variant % 2].extend(untidy[variant % 5]);
    }
    if has(7) {
        let bad = [(0, 0), (8, 0), (u64::MAX, 0), (3, 1), (6, u64::MAX)];
        threads[1 - variant % 2][variant % 3] = bad[variant % 5];
        threads[1][3] = bad[(variant + 1) % 5];
    }
    if has(5) {
        threads[variant % 2].resize(65 + variant % 3, (2, 0));
    }
    match variant % 3 {
        1 if many => threads.resize(17, Vec::new()),
        2 if many => threads.clear(),
        0 if many => threads.extend(vec![vec![(1, 0), (3, 0)]; 15 + variant % 2]),
        _ => {}
    }
    threads
}

// A call in which just these numbers apply; 4 goes with 3, since a bad parity permits nothing, and without threads there is no 5 and no 7.
fn broken(numbers: &[u64], variant: usize) -> (State, Scripts) {
    let has = |n: u64| numbers.contains(&n);
    let many = has(1) || has(10) && variant % 3 != 0;
    let threads = broken_scripts(has, many, variant);
    let bad = Pred {
        kind: 2,
        a: 2,
        b: 5,
    };
    let pred = if has(3) { bad } else { PREDS[1].0 };
    let (top, first) = (if has(2) { 0 } else { 3 }, if has(4) { 7 } else { 5 });
    let mut s = fresh_state(top, pred, first, threads.len());
    if has(10) && !many {
        (s.rc, s.reads) = [(1, 0), (0, 1), (4, 4)][variant / 3 % 3];
    }
    let mut x = Scripts::of(&threads);
    if has(6) {
        unmatched(&mut s, &mut x, variant);
    }
    (s, x)
}

// Lists that do not match the lengths, in one way or another.
fn unmatched(s: &mut State, x: &mut Scripts, variant: usize) {
    match variant % 6 {
        0 => x.ops.push(1),
        1 => x.values.push(0),
        2 => s.records.push(FRESH),
        3 => {
            x.ops.pop();
            x.values.push(0);
        }
        4 if s.records.is_empty() => s.records.push(FRESH),
        4 => s.records.truncate(s.records.len() - 1),
        _ => {
            x.ops.push(1);
            x.values.push(0);
        }
    }
}

// The numbers whose bits are in the set.
fn chosen(numbers: &[u64], set: usize) -> Vec<u64> {
    let in_set = (0..numbers.len()).filter(|i| set >> i & 1 == 1);
    in_set.map(|i| numbers[i]).collect()
}

const VARIANTS: usize = 6;
const ALONE: usize = 16;

impl<W: Write> List<W> {
    // Every set of numbers that can apply together.
    fn orders(&mut self) -> io::Result<()> {
        let calls: [(u64, &[u64]); 3] = [
            (SETUP, &[1, 2, 3, 4, 5, 6, 7]),
            (RUN, &[5, 6, 7, 10]),
            (DRAIN, &[5, 6, 7, 10, 17]),
        ];
        for (call, numbers) in calls {
            for set in 0..1usize << numbers.len() {
                let chosen = chosen(numbers, set);
                for variant in 0..if call == SETUP { 3 } else { VARIANTS } {
                    self.order(call, &chosen, variant + set)?;
                }
            }
        }
        Ok(())
    }

    fn order(&mut self, call: u64, chosen: &[u64], variant: usize) -> io::Result<()> {
        let (s, x) = broken(chosen, variant);
        match call {
            SETUP => self.setup(call, &s, &x)?,
            RUN => self.run(call, &s, &x, 3)?,
            _ => self.drain(call, &s, &x)?,
        };
        Ok(())
    }

    // Budget, schedule and room, each the least in its turn.
    fn lengths(&mut self) -> io::Result<()> {
        for length in [0u64, 1, 7] {
            for budget in [0, 1, 6, 7, 8, u64::MAX] {
                for words in [0, 5, 6, 11, 12, 41, 42, 47, 48] {
                    let (state, scripts) = self.reached(true);
                    let threads = scripts.lengths.len();
                    let schedule = self.random.schedule(length as usize, threads);
                    self.put(&Direct {
                        what: 4,
                        call: RUN,
                        state,
                        scripts,
                        schedule,
                        budget,
                        trace: marks(words),
                    })?;
                }
            }
        }
        Ok(())
    }

    fn setups(&mut self) -> io::Result<()> {
        for _ in 0..300 {
            let (pred, values) = self.random.of(&PREDS);
            let threads = self.random.of(&[0, 1, 2, 3, 16, 17]);
            let length = self.random.of(&[0, 1, 3]);
            let scripts: Vec<_> = (0..threads)
                .map(|_| self.random.script(Place::Idle, length, true, &values))
                .collect();
            let mut x = Scripts::of(&scripts);
            let top = self.random.of(&[0, 1, 2, u64::MAX]);
            let mut s = fresh_state(top, pred, self.random.of(&values), threads);
            for r in &mut s.records {
                (*r, _) = self.random.stands(Place::Reading, 3, &values);
            }
            let variant = self.random.below(6 * 6);
            if variant < 6 {
                unmatched(&mut s, &mut x, variant);
            } else if variant < 12 && !x.ops.is_empty() {
                let at = self.random.below(x.ops.len());
                x.ops[at] = self.random.of(&[0, 8, u64::MAX, 1]);
                x.values[at] = self.random.of(&[0, 1, u64::MAX]);
            }
            self.setup(5, &s, &x)?;
        }
        Ok(())
    }

    // Lists with number 5 or 7: some threads too long, some operations bad, elsewhere each time.
    fn long_or_bad(&mut self, k: usize) -> (State, Scripts) {
        let threads = 2 + self.random.below(3);
        let mut scripts: Vec<_> = (0..threads)
            .map(|_| self.random.script(Place::Idle, k % 5, false, &[5]))
            .collect();
        for _ in 0..1 + self.random.below(3) {
            let t = self.random.below(threads);
            if k % 8 == 0 {
                scripts[t].resize(65, (1, 0));
            } else {
                let at = self.random.below(scripts[t].len() + 1);
                let bad = self
                    .random
                    .of(&[(0, 0), (8, 0), (9, 1), (1, 1), (7, 5), (u64::MAX, 0)]);
                scripts[t].insert(at, bad);
            }
        }
        let state = fresh_state(3, PREDS[1].0, 5, threads);
        (state, Scripts::of(&scripts))
    }

    // What stands beside 5 and 7.
    fn beside(&mut self) -> io::Result<()> {
        for k in 0..40 {
            let (state, x) = self.long_or_bad(k);
            self.setup(13, &state, &x)?;
            self.run(13, &state, &x, 1)?;
            self.drain(13, &state, &x)?;
        }
        Ok(())
    }

    // Setup, two runs, one on the other, and a drain of where they lead.
    fn reached_states(&mut self) -> io::Result<()> {
        for k in 0..150 {
            let (_, x) = self.reached(k % 3 == 0);
            let (pred, values) = self.random.of(&PREDS);
            let top = self.random.of(&[1, 2, u64::MAX]);
            let state = fresh_state(top, pred, values[0], x.lengths.len());
            let made = self.setup(6, &state, &x)?.lock.expect("a lock");
            let then = self.run(6, &made, &x, 1 + k % 9)?.lock.expect("a lock");
            let then = self.run(6, &then, &x, 1 + k % 5)?.lock.expect("a lock");
            self.drain(6, &then, &x)?;
        }
        Ok(())
    }

    fn foreign_states(&mut self) -> io::Result<()> {
        for _ in 0..400 {
            let (state, scripts) = self.random.foreign();
            self.run(7, &state, &scripts, 10)?;
            self.drain(7, &state, &scripts)?;
        }
        Ok(())
    }

    // Case L: after 0,0,2 and the cycle of ten, the same state; drain takes 14 from there.
    fn case_l(&mut self) -> io::Result<()> {
        let read = vec![(1, 0), (3, 0)];
        let x = Scripts::of(&[read.clone(), read, vec![(4, 0), (5, 13)]]);
        let mut run = Direct {
            what: 8,
            call: RUN,
            state: fresh_state(2, PREDS[1].0, 5, 3),
            scripts: x.clone(),
            schedule: vec![0, 0, 2],
            budget: 99,
            trace: marks(66),
        };
        let before = self.put(&run)?.lock.expect("a lock");
        run.state = before.clone();
        run.schedule = vec![1, 1, 0, 0, 2, 0, 0, 1, 1, 2];
        let after = self.put(&run)?.lock.expect("a lock");
        assert_eq!(before, after, "the cycle of case L");
        let told = self.drain(8, &after, &x)?;
        assert_eq!(told.n, 14, "drain of case L");
        assert_eq!(plain_cost(&after, &x) + 9, 22, "the bound of case L");
        Ok(())
    }

    // The entries of the drain order: drain's numbers, and the first that is not refused, without room and with some.
    fn drain_orders(&mut self) -> io::Result<()> {
        let numbers = [5, 6, 7, 10, 17];
        for set in 0..1usize << numbers.len() {
            let (s, x) = broken(&chosen(&numbers, set), set);
            self.order_of(&s, &x, |_| 0)?;
            self.order_of(&s, &x, |n| n + 4)?;
        }
        self.orders_of_states()?;
        self.orders_of_cases()
    }

    // States that schedules reach and states from outside, with room for one entry fewer than there are, for all of them, and for more.
    fn orders_of_states(&mut self) -> io::Result<()> {
        for k in 0..90 {
            let (reached, foreign) = (self.reached(k % 9 == 0), self.random.foreign());
            for (s, x) in [reached, foreign] {
                self.order_of(&s, &x, |n| (n + [0, 1, 6][k % 3]).saturating_sub(1))?;
            }
        }
        Ok(())
    }

    // Case L, and the most threads with the longest scripts, which have too little room.
    fn orders_of_cases(&mut self) -> io::Result<()> {
        let (read, write) = (vec![(1, 0), (3, 0)], vec![(4, 0), (5, 13)]);
        let x = Scripts::of(&[read.clone(), read, write.clone()]);
        let mut s = fresh_state(2, PREDS[1].0, 5, 3);
        (s.exc, s.rc) = (true, 1);
        s.records[0].place = Place::ReadCheck;
        s.records[2].place = Place::WriteWait;
        for room in [13, 14, 20] {
            let told = self.order_of(&s, &x, |_| room)?;
            let expected = if room < 14 { (0, 0) } else { (14, 22) };
            assert_eq!((told.n, told.done), expected, "the entries of case L");
        }
        let x = Scripts::of(&vec![write.repeat(32); 16]);
        self.order_of(&fresh_state(1, PREDS[1].0, 5, 16), &x, |_| 5)?;
        Ok(())
    }

    // The room is chosen by the number of entries, which is 0 where drain is refused.
    fn order_of(
        &mut self,
        state: &State,
        scripts: &Scripts,
        room: impl Fn(usize) -> usize,
    ) -> io::Result<Told> {
        let mut d = Direct::of(14, DRAIN, state, scripts);
        (d.call, d.trace) = (ORDER, marks(room(d.answer().n as usize)));
        self.put(&d)
    }

    // Dropped numbers that make a sum wrap to what it should be.
    fn wraps(&mut self) -> io::Result<()> {
        let x = Scripts::of(&[vec![(1, 0), (3, 0)], vec![(4, 0), (5, 13)]]);
        let fresh = fresh_state(3, PREDS[1].0, 5, 2);
        let mut reading = fresh.clone();
        (reading.records[0].at, reading.records[0].place) = (1, Place::Reading);
        reading.reads = u64::MAX;
        let mut waiting = fresh.clone();
        waiting.records[1].place = Place::WriteWait;
        waiting.writes = u64::MAX;
        (waiting.full, waiting.kept) = (false, 0);
        let mut finished = fresh.clone();
        (finished.writes, finished.finished) = (u64::MAX, true);
        (finished.full, finished.kept) = (false, 0);
        let mut both = waiting.clone();
        (both.finished, both.exc) = (true, true);
        for s in [reading, waiting, finished, both] {
            self.run(11, &s, &x, 2)?;
            self.drain(11, &s, &x)?;
        }
        Ok(())
    }

    // Sixteen threads with scripts of sixty-four operations: readers, writers, and both in turn.
    fn largest(&mut self) -> io::Result<()> {
        let (read, write) = ([(1, 0), (3, 0)].repeat(32), [(4, 0), (5, 13)].repeat(32));
        let both = [&read[..32], &write[..32]].concat();
        for script in [read, write, both] {
            let x = Scripts::of(&vec![script; 16]);
            let state = fresh_state(u64::MAX, PREDS[1].0, 5, 16);
            let made = self.setup(12, &state, &x)?.lock.expect("a lock");
            self.drain(12, &made, &x)?;
        }
        Ok(())
    }

    // A sound state, and the same bent in up to three things.
    fn bent_one(&mut self, tried: usize) -> ((State, Scripts), (State, Scripts)) {
        let (from, from_x) = if tried % 2 == 0 {
            self.reached(tried % 4 == 0)
        } else {
            self.random.foreign()
        };
        let (mut s, mut x) = (from.clone(), from_x.clone());
        for _ in 0..1 + self.random.below(3) {
            self.random.bend(&mut s, &mut x);
        }
        ((from, from_x), (s, x))
    }

    // Bent states: for each clause some in which it alone fails, with the state that was bent; and some in which more than one fails.
    fn clauses(&mut self) -> io::Result<()> {
        let mut alone = vec![Vec::new(); SOUND.len() + TIDY.len()];
        let (mut neighbours, mut several) = (0, 0);
        for tried in 0..400_000 {
            if alone.iter().all(|shapes| shapes.len() >= ALONE) {
                break;
            }
            let ((from, from_x), (s, x)) = self.bent_one(tried);
            let fails = failing(&s, &x);
            if let [clause] = fails[..] {
                if alone[clause].len() < ALONE && !alone[clause].contains(&shape(&s)) {
                    alone[clause].push(shape(&s));
                    self.bent(clause, &s, &x)?;
                    self.drain(9, &from, &from_x)?;
                }
            } else if fails.is_empty() && neighbours < 150 {
                neighbours += 1;
                self.run(9, &s, &x, 6)?;
                self.drain(9, &s, &x)?;
            } else if fails.len() > 1 && several < 150 {
                several += 1;
                self.run(10, &s, &x, 2)?;
                self.drain(10, &s, &x)?;
            }
        }
        let names = SOUND.iter().chain(&TIDY);
        for (name, shapes) in names.zip(alone) {
            eprintln!("only this fails: {name}: {} states", shapes.len());
        }
        Ok(())
    }

    // A state where one clause alone fails: run and drain tell 10 for one of SOUND; drain tells 17, and run runs, for one of TIDY.
    fn bent(&mut self, clause: usize, s: &State, x: &Scripts) -> io::Result<()> {
        let of_sound = clause < SOUND.len();
        let what = if of_sound {
            100 + clause
        } else {
            200 + clause - SOUND.len()
        } as u64;
        let (run, drain) = (self.run(what, s, x, 2)?, self.drain(what, s, x)?);
        let expected = if of_sound { (10, 10) } else { (0, 17) };
        assert_eq!((run.refused.0, drain.refused.0), expected);
        Ok(())
    }

    // What the list touches. It has to be every number of a call and of an entry, every code, and every way of an entry: the table has 13
    // rows, three of them for two operations or two places, which makes 16, and seven of these have two outcomes. A load has one code for
    // both, an exchange one for each.
    fn touched(&mut self) {
        self.lines.sort_unstable();
        self.refused.sort_unstable();
        self.entries.sort_unstable();
        self.ways
            .sort_unstable_by_key(|(way, _)| (way.2, way.1, way.0 as u64, way.3 as u64));
        for (what, n) in &self.lines {
            eprintln!("what {what}: {n} lines");
        }
        for (number, n) in &self.refused {
            eprintln!("number {number}: {n} answers");
        }
        for (number, n) in &self.entries {
            eprintln!("number {number}: {n} entries");
        }
        for ((from, op, code, to), n) in &self.ways {
            eprintln!("access {code}: operation {op} from {from:?} to {to:?}: {n} entries");
        }
        let numbers = |counts: &[(u64, u64)]| counts.iter().map(|c| c.0).collect::<Vec<u64>>();
        let of_calls = (0..=7).chain(10..=17).chain([41]);
        assert!(numbers(&self.refused).into_iter().eq(of_calls));
        assert_eq!(numbers(&self.entries), [11, 12, 13, 14, 15, 16]);
        assert_eq!(self.ways.len(), 23, "the ways of an entry");
        let mut codes: Vec<u64> = self.ways.iter().map(|(way, _)| way.2).collect();
        codes.dedup();
        assert!(codes.into_iter().eq(1..=14), "the codes of an access");
        eprintln!("{} lines", self.lines.iter().map(|c| c.1).sum::<u64>());
    }

    // Lines that are wrong in one field each, made from good ones.
    fn wrong(&mut self) -> io::Result<()> {
        let run = self.wrong_runs()?;
        // A setup that is refused, and yet a lock; a drain that counts one more.
        let mut setup = Direct {
            call: SETUP,
            state: fresh_state(3, PREDS[1].0, 7, 2),
            schedule: Vec::new(),
            budget: 0,
            trace: Vec::new(),
            ..run
        };
        let (line, from) = setup.line();
        self.wrong_in(&line, from + 12, 3)?;
        (setup.call, setup.state.kept) = (DRAIN, 5);
        setup.scripts = Scripts::of(&[vec![(1, 0), (3, 0)], vec![(4, 0), (5, 13)]]);
        let (line, from) = setup.line();
        self.wrong_in(&line, from + 3, line[from + 3] + 1)?;
        self.wrong_orders(setup)?;
        self.wrong_exchanges()?;
        self.wrong_whys()
    }

    // An exchange of rc and one of exc, done and failed: with the code of the other arm, and with the other got, by which a done one
    // tells what it left and a failed one what it expected, or both of them only whether they were done.
    fn wrong_exchanges(&mut self) -> io::Result<()> {
        let (read, write) = (vec![(1, 0), (3, 0)], vec![(4, 0), (5, 13)]);
        let d = Direct {
            what: WRONG,
            call: RUN,
            state: fresh_state(3, PREDS[1].0, 5, 4),
            scripts: Scripts::of(&[read.clone(), read, write.clone(), write]),
            schedule: vec![0, 1, 0, 1, 2, 3],
            budget: 6,
            trace: marks(36),
        };
        let (line, from) = d.line();
        let trace = from + 5 + 13 + 17 + 1;
        for (row, told, code) in [
            (2, [2, 0], 13),
            (3, [13, 1], 2),
            (4, [7, 0], 14),
            (5, [14, 1], 7),
        ] {
            let (access, got) = (trace + 6 * row + 1, trace + 6 * row + 3);
            assert_eq!([line[access], line[got]], told, "an exchange");
            self.wrong_in(&line, access, code)?;
            self.wrong_in(&line, got, line[got] ^ 1)?;
        }
        Ok(())
    }

    // The entries of that drain: the number, n, the bound, an entry, the word behind the last; and where they have no room, a word written.
    fn wrong_orders(&mut self, mut d: Direct) -> io::Result<()> {
        let n = d.answer().n as usize;
        (d.call, d.trace) = (ORDER, marks(n + 1));
        let (line, from) = d.line();
        let list = from + 5 + 13 + 9 + 1;
        for field in [from, from + 3, from + 4, list + n - 1, list + n] {
            self.wrong_in(&line, field, line[field] ^ 1)?;
        }
        d.trace = marks(n - 1);
        let (line, from) = d.line();
        self.wrong_in(&line, from + 5 + 13 + 9 + 1, 0)
    }

    // From a run with a mover that waits, and another thread that is refused: each thing that is compared, and a field that lacks.
    fn wrong_runs(&mut self) -> io::Result<Direct> {
        let x = Scripts::of(&[vec![(1, 0), (6, 0), (7, 0)], vec![(4, 0), (5, 13)]]);
        let mut d = Direct {
            what: WRONG,
            call: RUN,
            state: fresh_state(3, PREDS[0].0, 5, 2),
            scripts: x,
            schedule: vec![0, 0, 0, 0],
            budget: 4,
            trace: marks(24),
        };
        d.state = d.answer().lock.expect("a lock");
        d.schedule = vec![0, 0, 1];
        let (line, from) = d.line();
        // The numbers before the lock, the lock, the first record, and the first, the last row's and the last word of the trace.
        let trace = from + 5 + 13 + 9 + 1;
        let fields =
            (from..from + 18)
                .chain(from + 19..from + 23)
                .chain([trace, trace + 17, trace + 23]);
        for field in fields {
            self.wrong_in(&line, field, line[field] ^ 1)?;
        }
        // The second record, which is Idle, at a place that there is none.
        self.wrong_in(&line, from + 24, 9)?;
        self.wrong_in(&line[..line.len() - 1], 0, WRONG)?;
        Ok(d)
    }

    fn wrong_in(&mut self, line: &[u64], field: usize, to: u64) -> io::Result<()> {
        let mut wrong = line.to_vec();
        wrong[field] = to;
        count_up(&mut self.lines, WRONG);
        writeln!(self.out, "{}", join(&wrong))
    }
}

// The clauses that fail: of SOUND, and where none of these does of TIDY, counted on. A mover is at operation 7, so that in a sound state
// 'no mover' never fails without 'no operation 7': these two count as the first.
fn failing(s: &State, x: &Scripts) -> Vec<usize> {
    let fails = unsound(s, x);
    if !fails.is_empty() {
        return fails;
    }
    match untidy(s, x)[..] {
        [NO_MOVER, NO_OPERATION_7] => vec![SOUND.len() + NO_MOVER],
        ref fails => fails.iter().map(|i| SOUND.len() + i).collect(),
    }
}

// Which things stand in a state, so that the states of one clause differ.
fn shape(s: &State) -> u64 {
    let places = s
        .records
        .iter()
        .fold(0, |bits, r| bits | 1 << r.place as u64);
    let others = [
        s.reads > 0,
        s.writes > 0,
        s.finished,
        s.mover.is_some(),
        s.full,
    ];
    let bits = others
        .iter()
        .fold(places, |bits, b| bits << 1 | u64::from(*b));
    bits << 8 | s.records.len() as u64
}

// ---------------------------------------------------------------------------------------------------------------------------------------
// The lines that ask why.

// A state in words: what the lock has, where that is not 0, and a record each. A record is its place, the operation that it is at, 0 for
// the script's end, and where it is not 0 the value that it saw, at ReadTry, or that the operation puts, for 5. The flag, the count and
// the cell follow.
fn posed(text: &str) -> (State, Scripts) {
    let (lock, records) = text.split_once(": ").expect("a lock and its records");
    let (records, scripts): (Vec<_>, Vec<_>) = records.split(", ").map(posed_record).unzip();
    let mut s = fresh_state(0, PREDS[1].0, 5, 0);
    s.records = records;
    for pair in lock.split(' ').collect::<Vec<&str>>().chunks_exact(2) {
        let n = pair[1].parse().expect("a number");
        match pair[0] {
            "top" => s.top = n,
            "reads" => s.reads = n,
            "writes" => s.writes = n,
            "mover" => s.mover = Some(n),
            "finished" => s.finished = n == 1,
            word => unreachable!("{word}"),
        }
    }
    settle(&mut s);
    (s, Scripts::of(&scripts))
}

fn posed_record(text: &str) -> (Record, Vec<(u64, u64)>) {
    let words: Vec<&str> = text.split(' ').collect();
    let named = |p: &Place| format!("{p:?}") == words[0];
    let place = PLACES.into_iter().find(named).expect("a place");
    let number = |i: usize| words.get(i).map_or(0, |w| w.parse().expect("a number"));
    let (op, last) = (number(1), number(2));
    let record = Record {
        at: 0,
        place,
        seen: if place == Place::ReadTry { last } else { 0 },
        taken: if place == Place::Writing { 5 } else { 0 },
    };
    let script = (op, if op == 5 { last } else { 0 });
    (record, (op > 0).then_some(script).into_iter().collect())
}

// States that differ in one thing, and what goes with it, from the one before or from another of their block; the thread asked for; and
// number, reason and record as the rules give them, written down by hand.
type Posed = (&'static str, u64, [u64; 3]);

#[rustfmt::skip]
const COUNTS: [Posed; 26] = [
    ("top 2: Idle 1, Reading 3, Reading 3", 0, [0, 1, 0]),
    ("top 3: Idle 1, Reading 3, Reading 3", 0, [0, 0, 0]),
    ("top 2: Idle 1, Reading 3, ReadBack 1", 0, [0, 1, 0]),
    ("top 2: Idle 1, Reading 3, ReadTry 1 1", 0, [0, 0, 0]),
    ("top 2: Idle 1, Reading 3, Idle 1", 0, [0, 0, 0]),
    ("top 2 reads 1: Idle 1, Reading 3, Idle 1", 0, [0, 1, 0]),
    ("top 2 reads 2: Idle 1", 0, [0, 1, 0]),
    ("top 2 reads 1: Idle 1", 0, [0, 0, 0]),
    ("top 3 reads 2: Idle 1", 0, [0, 0, 0]),
    ("top 1 reads 1: Idle 1", 0, [0, 1, 0]),
    ("top 1: Idle 1", 0, [0, 0, 0]),
    // Another operation does not look at the count.
    ("top 1 reads 1: Idle 4", 0, [0, 0, 0]),
    ("top 1 reads 1: Idle 7", 0, [0, 0, 0]),
    // A reader that sets out does not look at the flag.
    ("top 2: Idle 1, ReadCheck 1, ReadBack 1, WriteWait 4", 0, [0, 1, 0]),
    ("top 3: Idle 1, ReadCheck 1, ReadBack 1, WriteWait 4", 0, [0, 0, 0]),
    ("top 3: ReadTry 1 0, Reading 3", 0, [0, 2, 0]),
    ("top 3: ReadTry 1 1, Reading 3", 0, [0, 0, 0]),
    ("top 3: ReadTry 1 2, Reading 3", 0, [0, 2, 0]),
    ("top 3: ReadTry 1 1, Idle 1", 0, [0, 2, 0]),
    ("top 3: ReadTry 1 0, Idle 1", 0, [0, 0, 0]),
    ("top 3 reads 1: ReadTry 1 0, Idle 1", 0, [0, 2, 0]),
    ("top 3 reads 1: ReadTry 1 1, Idle 1", 0, [0, 0, 0]),
    ("top 3: ReadTry 1 0, WriteWait 4", 0, [0, 0, 0]),
    ("top 3: ReadTry 1 1, WriteWait 4", 0, [0, 2, 0]),
    // The count has come to M since it looked: the exchange tells that it changed.
    ("top 1: ReadTry 1 0, Reading 3", 0, [0, 2, 0]),
    ("top 1: ReadTry 1 0, ReadTry 1 0", 0, [0, 0, 0]),
];

#[rustfmt::skip]
const FLAGS: [Posed; 31] = [
    ("top 3: Idle 4, WriteWait 4", 0, [0, 3, 1]),
    ("top 3: Idle 4, WriteTake 4", 0, [0, 3, 1]),
    ("top 3: Idle 4, Writing 5 13", 0, [0, 3, 1]),
    ("top 3: Idle 4, WritePut 5 13", 0, [0, 3, 1]),
    ("top 3 writes 1: Idle 4, Idle 4", 0, [0, 4, 0]),
    ("top 3: Idle 4, Idle 4", 0, [0, 0, 0]),
    ("top 3 finished 1: Idle 4, Idle 4", 0, [13, 0, 0]),
    ("top 3: WriteWait 4, Idle 4", 1, [0, 3, 0]),
    ("top 3 writes 1: Idle 4, Idle 4", 1, [0, 4, 0]),
    ("top 3: Idle 1, Writing 6, Idle 4", 2, [0, 3, 1]),
    ("top 3 writes 1: Idle 1, Idle 6, Idle 4", 2, [0, 4, 0]),
    ("top 3: ReadCheck 1, WriteWait 4", 0, [0, 3, 1]),
    ("top 3: ReadCheck 1, WriteTake 4", 0, [0, 3, 1]),
    ("top 3: ReadCheck 1, Writing 6", 0, [0, 3, 1]),
    ("top 3: ReadCheck 1, WritePut 5 5", 0, [0, 3, 1]),
    ("top 3 writes 1: ReadCheck 1, Idle 4", 0, [0, 4, 0]),
    ("top 3: ReadCheck 1, Idle 4", 0, [0, 0, 0]),
    ("top 3: WriteWait 4, ReadCheck 1", 1, [0, 3, 0]),
    ("top 3: WriteWait 4, ReadBack 1", 1, [0, 0, 0]),
    ("top 3: WriteWait 4, Reading 2", 1, [0, 0, 0]),
    // Where another operation stands no flag is waited for.
    ("top 3: WriteWait 4, Idle 1", 1, [0, 0, 0]),
    ("top 3: WriteTake 4, Idle 4", 0, [0, 0, 0]),
    ("top 3: Writing 5 13, Idle 4", 0, [0, 0, 0]),
    ("top 3: WritePut 5 7, Idle 4", 0, [0, 0, 0]),
    // into_inner beside a record that holds the flag is refused; beside a dropped handle it waits, begun or not.
    ("top 3: Idle 7, WriteWait 4", 0, [15, 0, 0]),
    ("top 3 writes 1: Idle 7, Idle 4", 0, [0, 4, 0]),
    ("top 3 writes 1 mover 0: Idle 7, Idle 4", 0, [0, 4, 0]),
    ("top 3 writes 1 mover 0: Idle 7, Idle 4", 1, [13, 0, 0]),
    ("top 3 writes 1: Idle 7, Idle 7", 1, [0, 4, 0]),
    ("top 3 mover 0: Idle 7, Idle 4", 0, [0, 0, 0]),
    ("top 3: Idle 7, Idle 4", 0, [0, 0, 0]),
];

#[rustfmt::skip]
const READERS_COUNTED: [Posed; 21] = [
    ("top 3: WriteWait 4, Reading 3, Reading 3", 0, [0, 5, 1]),
    ("top 3: WriteWait 4, Idle 3, Reading 3", 0, [0, 5, 2]),
    ("top 3: WriteWait 4, ReadTry 1, Reading 3", 0, [0, 5, 2]),
    ("top 3: WriteWait 4, ReadCheck 1, Reading 3", 0, [0, 5, 1]),
    ("top 3: WriteWait 4, ReadBack 1, Reading 3", 0, [0, 5, 1]),
    ("top 3: WriteWait 4, Idle 3, ReadBack 1", 0, [0, 5, 2]),
    ("top 3: WriteWait 4, Idle 3, ReadCheck 1", 0, [0, 5, 2]),
    ("top 3: WriteWait 4, Idle 3, Idle 3", 0, [0, 0, 0]),
    ("top 3 reads 1: WriteWait 4, Idle 3, Idle 3", 0, [0, 6, 0]),
    ("top 3 reads 2: WriteWait 4, Idle 3, Idle 3", 0, [0, 6, 0]),
    ("top 3 reads 1: WriteWait 4, Idle 3, Reading 3", 0, [0, 5, 2]),
    ("top 3 reads 1: WriteWait 4, Idle 3, ReadTry 1 1", 0, [0, 6, 0]),
    ("top 3: WriteWait 4, Idle 3, ReadTry 1 1", 0, [0, 0, 0]),
    ("top 3: Reading 3, WriteWait 4, ReadBack 1", 1, [0, 5, 0]),
    ("top 3: Idle 1, WriteWait 4, ReadBack 1", 1, [0, 5, 2]),
    ("top 3 reads 1: Idle 1, WriteWait 4, Idle 1", 1, [0, 6, 0]),
    ("top 3: Idle 1, WriteTake 4, ReadCheck 1", 1, [0, 0, 0]),
    ("top 3: Idle 4, Idle 4, Reading 3", 1, [0, 0, 0]),
    ("top 3 reads 1 mover 1: Idle 1, WriteWait 7", 1, [0, 6, 0]),
    ("top 3 mover 1: Idle 1, WriteWait 7", 1, [0, 0, 0]),
    ("top 3 reads 1 mover 1: Idle 1, WriteWait 7", 0, [13, 0, 0]),
];

#[rustfmt::skip]
const NEXT_REFUSED: [Posed; 36] = [
    ("top 3: Idle 4", 1, [11, 0, 0]),
    ("top 3: Idle 4", 16, [11, 0, 0]),
    ("top 3: Idle 4", u64::MAX, [11, 0, 0]),
    ("top 3 writes 1: Idle 4", 256, [11, 0, 0]),
    ("top 3 writes 1: Idle 4", 4_294_967_296, [11, 0, 0]),
    ("top 3 finished 1: Idle 4", u64::MAX, [11, 0, 0]),
    ("top 3: Idle 4, Idle 0", 1, [12, 0, 0]),
    ("top 3 writes 1: Idle 4, Idle 0", 1, [12, 0, 0]),
    ("top 3 finished 1: Idle 4, Idle 0", 1, [12, 0, 0]),
    ("top 3: Idle 4, Reading 0", 1, [12, 0, 0]),
    ("top 3: Idle 4, Writing 0", 1, [12, 0, 0]),
    ("top 3 mover 0: Idle 7, Idle 0", 1, [12, 0, 0]),
    ("top 3 finished 1: Idle 1", 0, [13, 0, 0]),
    ("top 3 finished 1: Idle 7", 0, [13, 0, 0]),
    ("top 3 finished 1: Idle 2", 0, [13, 0, 0]),
    ("top 3 mover 1: Idle 7, Idle 7", 0, [13, 0, 0]),
    ("top 3 mover 1: Idle 3, WriteTake 7", 0, [13, 0, 0]),
    ("top 3 mover 1: Idle 3, WriteTake 7", 1, [0, 0, 0]),
    ("top 3 writes 1: Idle 2", 0, [14, 0, 0]),
    ("top 1 reads 1: Idle 3", 0, [14, 0, 0]),
    ("top 3 writes 1: Idle 5 13", 0, [14, 0, 0]),
    ("top 3 writes 1: Idle 5 7", 0, [14, 0, 0]),
    ("top 3: Idle 6, WriteWait 4", 0, [14, 0, 0]),
    ("top 3: Reading 1, WriteWait 4", 0, [14, 0, 0]),
    ("top 3: Reading 4, WriteWait 4", 0, [14, 0, 0]),
    ("top 3: Reading 7, WriteWait 4", 0, [14, 0, 0]),
    ("top 3: Writing 4", 0, [14, 0, 0]),
    ("top 3: Writing 7, Idle 1", 0, [14, 0, 0]),
    ("top 3: Idle 7, ReadTry 1", 0, [15, 0, 0]),
    ("top 3: Idle 7, ReadBack 1", 0, [15, 0, 0]),
    ("top 3: Idle 7, Idle 7, WriteWait 4", 1, [15, 0, 0]),
    ("top 3 reads 1: Idle 7, Idle 1", 0, [0, 0, 0]),
    ("top 3: Writing 5 7", 0, [16, 0, 0]),
    ("top 3: Writing 5 13", 0, [0, 0, 0]),
    ("top 3: Writing 6", 0, [0, 0, 0]),
    ("top 3: Idle 1, ReadCheck 1, Writing 5 7", 2, [16, 0, 0]),
];

// The largest M, and dropped reads that bring the count up to it; then counts that are alike in their lower half alone.
#[rustfmt::skip]
const LARGEST: [Posed; 16] = [
    ("top 18446744073709551615 reads 18446744073709551615: Idle 1", 0, [0, 1, 0]),
    ("top 18446744073709551615 reads 18446744073709551614: Idle 1", 0, [0, 0, 0]),
    ("top 18446744073709551614 reads 18446744073709551614: Idle 1", 0, [0, 1, 0]),
    ("top 18446744073709551615 reads 18446744073709551614: Idle 1, Reading 3", 0, [0, 1, 0]),
    ("top 18446744073709551615 reads 18446744073709551615: ReadTry 1 18446744073709551614", 0, [0, 2, 0]),
    ("top 18446744073709551615 reads 18446744073709551614: ReadTry 1 18446744073709551614", 0, [0, 0, 0]),
    ("top 18446744073709551615 reads 18446744073709551615: ReadTry 1", 0, [0, 2, 0]),
    ("top 18446744073709551615 reads 18446744073709551615: WriteWait 4, Idle 1", 0, [0, 6, 0]),
    ("top 18446744073709551615 reads 18446744073709551614: WriteWait 4, ReadBack 1", 0, [0, 5, 1]),
    ("top 18446744073709551615 reads 18446744073709551614: WriteWait 4, ReadCheck 1", 1, [0, 3, 0]),
    ("top 18446744073709551615 reads 18446744073709551615 mover 0: WriteWait 7", 0, [0, 6, 0]),
    ("top 4294967297 reads 1: Idle 1", 0, [0, 0, 0]),
    ("top 4294967297 reads 4294967297: Idle 1", 0, [0, 1, 0]),
    ("top 4294967298 reads 1: ReadTry 1 4294967297", 0, [0, 2, 0]),
    ("top 4294967298 reads 4294967297: ReadTry 1 4294967297", 0, [0, 0, 0]),
    ("top 4294967298 reads 4294967296: WriteWait 4", 0, [0, 6, 0]),
];

// The fields of an answer from its start: the number and what stands beside it, the reason, the record; of the lock the flag, the count and
// whether there is a mover; of the first record its script place, its place and the value seen.
const NUMBER: usize = 0;
const BESIDE_THREAD: usize = 1;
const BESIDE_PLACE: usize = 2;
const REASON: usize = 3;
const WHO: usize = 4;
const EXC_AFTER: usize = 5;
const RC_AFTER: usize = 6;
const MOVED_AFTER: usize = 15;
const AT_AFTER: usize = 19;
const PLACE_AFTER: usize = 20;
const SEEN_AFTER: usize = 21;

// A state, the thread asked for, a field of the answer, and what is wrong in it.
#[rustfmt::skip]
const WRONG_WHYS: [(&str, u64, usize, u64); 34] = [
    // Count full at M - 1; not waiting where it waits.
    ("top 3: Idle 1, Reading 3, Reading 3", 0, REASON, 1),
    ("top 2: Idle 1, Reading 3, Reading 3", 0, REASON, 0),
    ("top 3: ReadTry 1, Reading 3", 0, REASON, 0),
    ("top 3: WriteWait 4, Idle 4", 1, REASON, 0),
    ("top 3 writes 1: ReadCheck 1", 0, REASON, 0),
    ("top 3: Reading 3, WriteWait 4", 1, REASON, 0),
    ("top 3 reads 1: WriteWait 4", 0, REASON, 0),
    // Count full where it changed and came to M; changed where it is full.
    ("top 1: ReadTry 1, Reading 3", 0, REASON, 1),
    ("top 1 reads 1: Idle 1", 0, REASON, 2),
    // A dropped handle where a record holds the flag or is counted, a record where only dropped ones are, and the flag for the readers.
    ("top 3: WriteWait 4, Idle 4", 1, REASON, 4),
    ("top 3: Writing 5 13, ReadCheck 1", 1, REASON, 4),
    ("top 3 writes 1: Idle 4", 0, REASON, 3),
    ("top 3: ReadBack 1, WriteWait 4", 1, REASON, 6),
    ("top 3 reads 1: Idle 1, WriteWait 4", 1, REASON, 5),
    ("top 3: Reading 3, WriteWait 4", 1, REASON, 3),
    // The highest reader in the place of the lowest, a record that does not hold the flag, and one where none is named.
    ("top 3: WriteWait 4, ReadBack 1, Reading 3", 0, WHO, 2),
    ("top 3: Idle 4, Idle 4, Writing 5 13", 0, WHO, 1),
    ("top 3: Idle 4, WriteWait 4", 0, WHO, 0),
    ("top 2: Idle 1, Reading 3, Reading 3", 0, WHO, 1),
    ("top 3 writes 1: Idle 4, Idle 4", 0, WHO, 1),
    // A reason for a refused step, a refused step that is told as accepted, an accepted one as refused, and other numbers.
    ("top 3 finished 1: Idle 4", 0, REASON, 4),
    ("top 3: WriteWait 4, Idle 7", 1, REASON, 3),
    ("top 3: WriteWait 4, Idle 7", 1, NUMBER, 0),
    ("top 3: Idle 4, WriteWait 4", 0, NUMBER, 15),
    ("top 3 finished 1: Idle 0", 0, NUMBER, 13),
    ("top 0: Idle 1", 1, NUMBER, 11),
    ("top 3: Idle 4", 1, BESIDE_THREAD, 1),
    ("top 3: Reading 1", 0, BESIDE_PLACE, 1),
    // What the next step would do, done: into_inner begun, the flag taken, a reader counted, a record led on in one thing or another.
    ("top 3 writes 1: Idle 7", 0, MOVED_AFTER, 1),
    ("top 3: Idle 4", 0, EXC_AFTER, 1),
    ("top 3: ReadTry 1", 0, RC_AFTER, 1),
    ("top 3: ReadCheck 1, WriteWait 4", 0, PLACE_AFTER, 3),
    ("top 3: ReadTry 1 2, Reading 3", 0, SEEN_AFTER, 0),
    ("top 3: Reading 2", 0, AT_AFTER, 1),
];

fn report<K>(counts: &[(K, u64)], text: impl Fn(&K) -> String) {
    for (key, n) in counts {
        eprintln!("why: {}: {n} lines", text(key));
    }
}

// Sixteen records at operation 4, but for these.
fn sixteen(others: &[(usize, &str)]) -> (State, Scripts) {
    let mut records = vec!["Idle 4"; 16];
    for (i, record) in others {
        records[*i] = record;
    }
    posed(&format!("top 16: {}", records.join(", ")))
}

// What a line that asks why touches. The order is that of the report.
#[derive(Clone, Copy, PartialEq, Eq, PartialOrd, Ord)]
struct Touch {
    number: u64,
    reason: u64,
    // Where the thread stands, and its operation; none where there is no such thread, or the call is refused.
    stands: Option<(Place, u64)>,
    // Where the record beside the reason stands.
    blamed: Option<Place>,
    source: Source,
}

// Where the state of such a line is from: written down by hand, made to be refused, led to by a schedule from setup, or sound and drawn
// without one.
#[derive(Clone, Copy, PartialEq, Eq, PartialOrd, Ord, Debug)]
enum Source {
    Posed,
    Broken,
    Reached,
    Foreign,
}

impl Touch {
    fn of(d: &Direct, told: &Told, source: Source) -> Touch {
        let place = |i: u64| {
            let i = usize::try_from(i).ok()?;
            d.state.records.get(i).map(|r| (i, r.place, r.at))
        };
        let (number, reason) = (told.refused.0, told.n);
        let names_one = reason == 3 || reason == 5;
        let thread = place(d.schedule[0]).filter(|_| number == 0 || number > 10);
        let op = |i: usize, at: u64| d.scripts.op(i, at).map_or(0, |x| x.0);
        Touch {
            number,
            reason,
            stands: thread.map(|(i, p, at)| (p, op(i, at))),
            blamed: place(told.done).filter(|_| names_one).map(|x| x.1),
            source,
        }
    }

    // How many lines there are to be of its kind: the more the fewer kinds its number or reason has.
    fn enough(&self) -> u64 {
        match (self.number, self.reason) {
            (0, 1 | 2) => 30,
            (0, 5 | 6) => 12,
            (0, 3 | 4) | (11 | 15 | 16, _) => 8,
            _ => 4,
        }
    }

    fn text(&self) -> String {
        let stands = self.stands.map_or(String::new(), |(place, op)| {
            format!(", {place:?} at operation {op}")
        });
        let blamed = self
            .blamed
            .map_or(String::new(), |p| format!(", for one at {p:?}"));
        let (number, reason) = (self.number, self.reason);
        format!(
            "number {number}, reason {reason}{stands}{blamed}, {:?}",
            self.source
        )
    }
}

impl<W: Write> List<W> {
    fn whys(&mut self) -> io::Result<()> {
        self.whys_of_posed()?;
        self.whys_of_sixteen()?;
        self.whys_refused()?;
        self.whys_of_lists()?;
        self.whys_of_counts()?;
        self.whys_of_unsound()?;
        self.whys_of_states(Source::Reached)?;
        self.whys_of_states(Source::Foreign)
    }

    fn why(&mut self, s: &State, x: &Scripts, thread: u64, from: Source) -> io::Result<[u64; 3]> {
        let d = Direct::asking(ASKED, s, x, thread);
        let told = self.put(&d)?;
        let touch = Touch::of(&d, &told, from);
        count_up(&mut self.touches, touch);
        count_up(&mut self.reasons, (touch.number, touch.reason, from));
        if touch.blamed.is_some() {
            count_up(&mut self.blamed, (told.n, told.done));
        }
        Ok([told.refused.0, told.n, told.done])
    }

    fn whys_of_posed(&mut self) -> io::Result<()> {
        let blocks: [&[Posed]; 5] = [&COUNTS, &FLAGS, &READERS_COUNTED, &NEXT_REFUSED, &LARGEST];
        for (text, thread, expected) in blocks.concat() {
            let (s, x) = posed(text);
            let told = self.why(&s, &x, thread, Source::Posed)?;
            assert_eq!(told, expected, "{text}, thread {thread}");
        }
        Ok(())
    }

    // The most threads, with the record beside the reason at each end of them and within.
    fn whys_of_sixteen(&mut self) -> io::Result<()> {
        for (i, k) in [(0, 15), (15, 0), (7, 8), (8, 7)] {
            let (asked, other) = (k as u64, i as u64);
            let (s, x) = sixteen(&[(i, "WriteWait 4")]);
            assert_eq!(self.why(&s, &x, asked, Source::Posed)?, [0, 3, other]);
            assert_eq!(self.why(&s, &x, 16, Source::Posed)?, [11, 0, 0]);
            let (s, x) = sixteen(&[(i, "Reading 3"), (k, "WriteWait 4")]);
            assert_eq!(self.why(&s, &x, asked, Source::Posed)?, [0, 5, other]);
            assert_eq!(self.why(&s, &x, other, Source::Posed)?, [0, 0, 0]);
            let (s, x) = sixteen(&[(i, "ReadBack 1"), (3, "WriteWait 4"), (k, "ReadCheck 1")]);
            assert_eq!(
                self.why(&s, &x, 3, Source::Posed)?,
                [0, 5, other.min(asked)]
            );
        }
        Ok(())
    }

    // Run's numbers in their order. Where one applies, it makes no difference which thread is asked for.
    fn whys_refused(&mut self) -> io::Result<()> {
        let numbers = [5, 6, 7, 10];
        for k in 0..VARIANTS << numbers.len() {
            let set = k / VARIANTS;
            let (s, x) = broken(&chosen(&numbers, set), k % VARIANTS + set);
            let thread = [0, 1, x.count(), u64::MAX][k % 4];
            self.why(&s, &x, thread, Source::Broken)?;
        }
        Ok(())
    }

    // What stands beside 5 and 7.
    fn whys_of_lists(&mut self) -> io::Result<()> {
        for k in 0..24 {
            let (s, x) = self.long_or_bad(k);
            self.why(&s, &x, k as u64 % 5, Source::Broken)?;
        }
        Ok(())
    }

    // So many records for so many scripts.
    fn whys_of_counts(&mut self) -> io::Result<()> {
        for (records, scripts) in [
            (0, 0),
            (1, 0),
            (0, 1),
            (1, 1),
            (2, 1),
            (1, 2),
            (15, 16),
            (16, 16),
            (17, 16),
            (16, 17),
            (17, 17),
            (20, 20),
            (20, 2),
        ] {
            let s = fresh_state(3, PREDS[1].0, 5, records);
            let x = Scripts::of(&vec![vec![(1, 0)]; scripts]);
            self.why(&s, &x, scripts.max(1) as u64 - 1, Source::Broken)?;
        }
        Ok(())
    }

    // States in which one clause of SOUND alone fails, some for each.
    fn whys_of_unsound(&mut self) -> io::Result<()> {
        let (mut times, enough) = ([0; SOUND.len()], [3; SOUND.len()]);
        for tried in 0..100_000 {
            if times == enough {
                break;
            }
            let (_, (s, x)) = self.bent_one(tried);
            if let [clause] = unsound(&s, &x)[..] {
                if times[clause] < enough[clause] {
                    times[clause] += 1;
                    let thread = self.random.below(s.records.len() + 1) as u64;
                    let told = self.why(&s, &x, thread, Source::Broken)?;
                    assert_eq!(told, [10, 0, 0], "{}", SOUND[clause]);
                }
            }
        }
        assert_eq!(times, enough, "each clause by itself");
        Ok(())
    }

    // One thread of each state, as long as there are not enough lines of its kind.
    fn whys_of_states(&mut self, source: Source) -> io::Result<()> {
        for _ in 0..30_000 {
            let most = self.random.of(&[2, 3, 4, 16]);
            let (s, x) = match source {
                Source::Reached => self.reached_by(most, true),
                _ => self.random.foreign_of(most),
            };
            if let Some(thread) = self.wanted(&s, &x, source) {
                self.why(&s, &x, thread, source)?;
            }
        }
        Ok(())
    }

    // Any thread of a kind that is wanted, one past the last and the largest number too.
    fn wanted(&mut self, s: &State, x: &Scripts, source: Source) -> Option<u64> {
        let mut threads: Vec<u64> = (0..x.count()).chain([x.count(), u64::MAX]).collect();
        let first = self.random.below(threads.len());
        threads.rotate_left(first);
        threads.into_iter().find(|thread| {
            let d = Direct::asking(ASKED, s, x, *thread);
            let touch = Touch::of(&d, &d.answer(), source);
            let times = self.touches.iter().find(|t| t.0 == touch);
            times.map_or(0, |t| t.1) < touch.enough()
        })
    }

    // The lines of WRONG_WHYS, and one with a word in the list that stays empty.
    fn wrong_whys(&mut self) -> io::Result<()> {
        let line_of = |text: &str, thread: u64| {
            let (s, x) = posed(text);
            Direct::asking(WRONG, &s, &x, thread).line()
        };
        for (text, thread, field, to) in WRONG_WHYS {
            let (line, from) = line_of(text, thread);
            assert_ne!(line[from + field], to, "{text}");
            self.wrong_in(&line, from + field, to)?;
        }
        let (mut line, _) = line_of("top 3: Idle 4, WriteWait 4", 0);
        line.push(0);
        let words = line.len() - 2;
        self.wrong_in(&line, words, 1)
    }

    // What those lines touch. It has to be, from states of both kinds, every way to wait and not to wait: the 16 next steps of the table,
    // done; 1 and 13, failed; the flag held at four places, for 3 and for 14 of operation 4; the flag of a dropped handle, for these and
    // for 14 of operation 7; readers at three places, for 8 of operation 4; and dropped reads, for 8 of operations 4 and 7.
    fn touched_by_whys(&mut self) {
        self.touches.sort_unstable();
        self.reasons.sort_unstable();
        self.blamed.sort_unstable();
        report(&self.touches, Touch::text);
        report(&self.blamed, |(reason, who)| {
            format!("reason {reason} with record {who}")
        });
        report(&self.reasons, |(number, reason, source)| {
            format!("in all number {number}, reason {reason}, {source:?}")
        });
        for source in [Source::Reached, Source::Foreign] {
            let ways = self.touches.iter().map(|t| t.0);
            let ways = ways.filter(|t| t.number == 0 && t.source == source);
            assert_eq!(ways.count(), 16 + 2 + 8 + 3 + 3 + 2, "the ways");
        }
    }
}

// ---------------------------------------------------------------------------------------------------------------------------------------
// The list as a whole, and the words that the program is started with.

const DIRECT_HEADER: &str = "what,call,lock,records,lengths,operations,values,schedule,budget,trace,number,thread,place,n,done,lock,records,trace";

fn direct(out: impl Write) -> io::Result<()> {
    let mut list = List {
        out,
        random: Random(20_261_115),
        lines: Vec::new(),
        refused: Vec::new(),
        entries: Vec::new(),
        ways: Vec::new(),
        touches: Vec::new(),
        reasons: Vec::new(),
        blamed: Vec::new(),
    };
    writeln!(list.out, "{DIRECT_HEADER}")?;
    list.orders()?;
    list.lengths()?;
    list.setups()?;
    list.reached_states()?;
    list.foreign_states()?;
    list.case_l()?;
    list.clauses()?;
    list.wraps()?;
    list.largest()?;
    list.beside()?;
    list.drain_orders()?;
    list.whys()?;
    list.wrong()?;
    list.touched();
    list.touched_by_whys();
    list.out.flush()
}

fn main() -> ExitCode {
    let args: Vec<String> = env::args().skip(1).collect();
    let words: Vec<&str> = args.iter().map(String::as_str).collect();
    let ended = match words[..] {
        [word @ ("run" | "drain" | "why")] => {
            let mut file = Vec::new();
            let read = io::stdin().lock().read_to_end(&mut file);
            let mut out = BufWriter::new(io::stdout().lock());
            read.and_then(|_| match word {
                "why" => why_file(&file, &mut out),
                _ => run_file(&file, word == "drain", &mut out),
            })
        }
        ["direct", file] => File::create(file).and_then(|f| direct(BufWriter::new(f))),
        _ => {
            eprintln!("usage: lock_oracle run|drain|why < SCENARIO, or lock_oracle direct FILE");
            return ExitCode::from(2);
        }
    };
    match ended {
        Ok(()) => ExitCode::SUCCESS,
        Err(e) => {
            eprintln!("lock_oracle: {e}");
            ExitCode::from(2)
        }
    }
}
