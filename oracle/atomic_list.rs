// Writes the list that the crate atomic_list replays: inputs, and what std::sync::atomic made of them. Make it again, in the repository's root:
//
//     mkdir -p target && rustc -O oracle/atomic_list.rs -o target/atomic_list_oracle && target/atomic_list_oracle > crates/atomic_list/stdin
//
// Every answer comes from an operation of AtomicU64, AtomicU8 or AtomicBool that is run here, with
// Ordering::SeqCst. Two things are additions around std, which has neither: the identities of atomic
// and permission, with refusal 21 where they differ, and refusal 22 of the forms of fetch_add and
// fetch_sub that do not wrap. A refused access is not made.
//
// A row: width (64, 8, or 1 for bool), operation, identity of the atomic, identity of the permission,
// value before, operands a and b (0 where unused; an exchange goes from a to b), number (0, or the
// refusal's), arm (0 nothing returned, 1 the old value returned or the exchange done, 2 the exchange
// failed), got (the value returned, 0 where none), left (the value after).
//
// How many rows each operation has goes to standard error.
use std::io::{self, BufWriter, Write};
use std::sync::atomic::Ordering::SeqCst;
use std::sync::atomic::{AtomicBool, AtomicU64, AtomicU8};

const HEADER: &str = "width,operation,atomic,permission,value,a,b,number,arm,got,left";

// The last rows are wrong on purpose: one in its number, arm, value returned and value left each, and one that lacks a field. A replay
// that found them equal would show it.
const WRONG: [&str; 5] = [
    "64,fetch_add,1,1,7,1,0,22,1,7,8",
    "64,fetch_add,1,1,7,1,0,0,2,7,8",
    "64,fetch_add,1,1,7,1,0,0,1,8,8",
    "64,fetch_add,1,1,7,1,0,0,1,7,7",
    "64,fetch_add,1,1,7,1,0,0,1,7",
];

const FOREIGN: u64 = 21;
const OUTSIDE: u64 = 22;

#[derive(Clone, Copy)]
enum Op {
    Load,
    Store,
    Swap,
    CompareExchange,
    CompareExchangeWeak,
    FetchAdd,
    FetchSub,
    FetchAddWrapping,
    FetchSubWrapping,
    FetchAnd,
    FetchOr,
    FetchXor,
    FetchNand,
    FetchMax,
}

// What an operation is called in the list, and how many operands it has. std's fetch_add and
// fetch_sub wrap, so they are our wrapping forms.
const OPS: [(Op, &str, usize); 14] = [
    (Op::Load, "load", 0),
    (Op::Store, "store", 1),
    (Op::Swap, "swap", 1),
    (Op::CompareExchange, "compare_exchange", 2),
    (Op::CompareExchangeWeak, "compare_exchange_weak", 2),
    (Op::FetchAdd, "fetch_add", 1),
    (Op::FetchSub, "fetch_sub", 1),
    (Op::FetchAddWrapping, "fetch_add_wrapping", 1),
    (Op::FetchSubWrapping, "fetch_sub_wrapping", 1),
    (Op::FetchAnd, "fetch_and", 1),
    (Op::FetchOr, "fetch_or", 1),
    (Op::FetchXor, "fetch_xor", 1),
    (Op::FetchNand, "fetch_nand", 1),
    (Op::FetchMax, "fetch_max", 1),
];

// The operations that the list has at bool: the rows of OPS.
const BOOL_OPS: [usize; 8] = [0, 1, 2, 3, 4, 9, 10, 11];

#[derive(Clone, Copy)]
enum Answer {
    Nothing,
    Old(u64),
    Failed(u64),
    Refused(u64),
}

impl Answer {
    // The fields number, arm and got of a row.
    fn fields(self) -> (u64, u64, u64) {
        match self {
            Answer::Nothing => (0, 0, 0),
            Answer::Old(got) => (0, 1, got),
            Answer::Failed(got) => (0, 2, got),
            Answer::Refused(number) => (number, 0, 0),
        }
    }
}

// The operations that each kind of atomic has. compare_exchange_weak may fail without cause on some
// processors, which shows as a failure that found the very value it looked for. Ours answers as the
// strong form, so std's is tried again until it fails for a cause or is done.
macro_rules! common {
    ($cell:expr, $op:expr, $a:expr, $b:expr) => {
        match $op {
            Op::Load => Some(Ok($cell.load(SeqCst))),
            Op::Swap => Some(Ok($cell.swap($a, SeqCst))),
            Op::CompareExchange => Some($cell.compare_exchange($a, $b, SeqCst, SeqCst)),
            Op::CompareExchangeWeak => loop {
                let tried = $cell.compare_exchange_weak($a, $b, SeqCst, SeqCst);
                if tried != Err($a) {
                    break Some(tried);
                }
            },
            Op::FetchAnd => Some(Ok($cell.fetch_and($a, SeqCst))),
            Op::FetchOr => Some(Ok($cell.fetch_or($a, SeqCst))),
            Op::FetchXor => Some(Ok($cell.fetch_xor($a, SeqCst))),
            Op::Store => {
                $cell.store($a, SeqCst);
                None
            }
            _ => unreachable!("an operation on numbers"),
        }
    };
}

// An unsigned atomic: the answer, and the value that is left.
macro_rules! run_number {
    ($name:ident, $number:ty, $atomic:ty) => {
        fn $name(op: Op, value: u64, a: u64, b: u64) -> (Answer, u64) {
            let narrow = |x: u64| {
                assert!(x <= <$number>::MAX as u64, "a number wider than its atomic");
                x as $number
            };
            let (cell, a, b) = (<$atomic>::new(narrow(value)), narrow(a), narrow(b));
            let was = cell.load(SeqCst);
            let result = match op {
                Op::FetchAdd if was.checked_add(a).is_none() => Answer::Refused(OUTSIDE),
                Op::FetchSub if was.checked_sub(a).is_none() => Answer::Refused(OUTSIDE),
                Op::FetchAdd | Op::FetchAddWrapping => {
                    Answer::Old(cell.fetch_add(a, SeqCst).into())
                }
                Op::FetchSub | Op::FetchSubWrapping => {
                    Answer::Old(cell.fetch_sub(a, SeqCst).into())
                }
                Op::FetchNand => Answer::Old(cell.fetch_nand(a, SeqCst).into()),
                Op::FetchMax => Answer::Old(cell.fetch_max(a, SeqCst).into()),
                other => match common!(cell, other, a, b) {
                    None => Answer::Nothing,
                    Some(Ok(old)) => Answer::Old(old.into()),
                    Some(Err(found)) => Answer::Failed(found.into()),
                },
            };
            (result, cell.load(SeqCst).into())
        }
    };
}

run_number!(run_word, u64, AtomicU64);
run_number!(run_byte, u8, AtomicU8);

fn run_flag(op: Op, value: u64, a: u64, b: u64) -> (Answer, u64) {
    let (cell, a, b) = (AtomicBool::new(value == 1), a == 1, b == 1);
    let result = match common!(cell, op, a, b) {
        None => Answer::Nothing,
        Some(Ok(old)) => Answer::Old(old.into()),
        Some(Err(found)) => Answer::Failed(found.into()),
    };
    (result, cell.load(SeqCst).into())
}

// Numbers that look random and are the same in each run: splitmix64.
struct Random(u64);

impl Random {
    fn next(&mut self) -> u64 {
        self.0 = self.0.wrapping_add(0x9e37_79b9_7f4a_7c15);
        let mut z = self.0;
        z = (z ^ (z >> 30)).wrapping_mul(0xbf58_476d_1ce4_e5b9);
        z = (z ^ (z >> 27)).wrapping_mul(0x94d0_49bb_1331_11eb);
        z ^ (z >> 31)
    }

    // A number of some length in bits, up to the width, so that short ones are not rare.
    fn number(&mut self, width: u64) -> u64 {
        let bits = 1 + self.next() % width;
        self.next() >> (64 - bits)
    }
}

// Adds `count` that the list does not have yet.
fn add_new<T: PartialEq>(list: &mut Vec<T>, count: usize, mut make: impl FnMut() -> T) {
    let full = list.len() + count;
    while list.len() < full {
        let next = make();
        if !list.contains(&next) {
            list.push(next);
        }
    }
}

// One of the widths: how its operations are run, and the inputs.
struct Width {
    bits: u64,
    run: fn(Op, u64, u64, u64) -> (Answer, u64),
    edges: Vec<u64>,
    random: usize,
}

impl Width {
    // Every pair of edges, then the random pairs.
    fn pairs(&self, random: &mut Random) -> Vec<(u64, u64)> {
        let mut pairs = Vec::new();
        for &value in &self.edges {
            for &operand in &self.edges {
                pairs.push((value, operand));
            }
        }
        add_new(&mut pairs, self.random, || {
            (random.number(self.bits), random.number(self.bits))
        });
        pairs
    }

    // Value and operands of each row with equal identities.
    fn inputs(&self, operands: usize, random: &mut Random) -> Vec<(u64, u64, u64)> {
        if operands == 2 {
            return self.exchanges(random);
        }
        if operands == 1 {
            let pairs = self.pairs(random);
            return pairs.iter().map(|&(value, a)| (value, a, 0)).collect();
        }
        let mut values = self.edges.clone();
        add_new(&mut values, self.random, || random.number(self.bits));
        values.iter().map(|&value| (value, 0, 0)).collect()
    }

    // An exchange has two rows for each pair: one from the value itself, which is done, and one from
    // another, which fails. Where the pair has no other, and at every second random pair, the miss is
    // by one bit. At bool this makes all combinations.
    fn exchanges(&self, random: &mut Random) -> Vec<(u64, u64, u64)> {
        let mut inputs = Vec::new();
        let count = self.edges.len();
        for (i, (value, other)) in self.pairs(random).into_iter().enumerate() {
            let is_edge = i < count * count;
            let near = value ^ (1 << (random.next() % self.bits));
            let is_near = other == value || (!is_edge && i % 2 == 0);
            let to = if is_edge {
                self.edges[(i + 1) % count]
            } else {
                random.number(self.bits)
            };
            inputs.push((value, value, other));
            inputs.push((value, if is_near { near } else { other }, to));
        }
        inputs
    }

    // Value and operands of the rows with different identities. An exchange would be done at some
    // and fail at others; a sum or a difference would leave the width at some, where 21 wins over 22.
    fn foreign(&self, operands: usize) -> Vec<(u64, u64, u64)> {
        let top = u64::MAX >> (64 - self.bits);
        let mut inputs = Vec::new();
        for (value, a) in [
            (top, 1),
            (0, 1),
            (1, 0),
            (top, top),
            (1, top),
            (1, 1),
            (0, 0),
        ] {
            let input = match operands {
                0 => (value, 0, 0),
                1 => (value, a, 0),
                _ => (value, a, top - value),
            };
            if !inputs.contains(&input) {
                inputs.push(input);
            }
        }
        inputs
    }
}

// The identities of a row where both are equal: its number picks one.
const SAME: [u64; 8] = [1, 0, 7, 256, 3, 1 << 32, 2, u64::MAX];

// Different ones: neighbours, far apart, and some that agree in their low or their high half.
const DIFFERENT: [(u64, u64); 6] = [
    (1, 2),
    (2, 1),
    (0, u64::MAX),
    (1 << 63, 0),
    (7, 7 + (1 << 32)),
    (256, 0),
];

struct List<W: Write> {
    out: W,
    rows: usize,
}

impl<W: Write> List<W> {
    fn row(
        &mut self,
        width: &Width,
        op: usize,
        ids: (u64, u64),
        input: (u64, u64, u64),
    ) -> io::Result<()> {
        let (kind, name, _) = OPS[op];
        let (value, a, b) = input;
        let (answer, left) = if ids.0 == ids.1 {
            (width.run)(kind, value, a, b)
        } else {
            (Answer::Refused(FOREIGN), value)
        };
        let (number, arm, got) = answer.fields();
        self.rows += 1;
        writeln!(
            self.out,
            "{},{name},{},{},{value},{a},{b},{number},{arm},{got},{left}",
            width.bits, ids.0, ids.1
        )
    }

    // All rows of one operation at one width.
    fn operation(&mut self, width: &Width, op: usize, random: &mut Random) -> io::Result<()> {
        let (_, name, operands) = OPS[op];
        let before = self.rows;
        for input in width.inputs(operands, random) {
            let id = SAME[self.rows % SAME.len()];
            self.row(width, op, (id, id), input)?;
        }
        let equal = self.rows - before;
        for input in width.foreign(operands) {
            for ids in DIFFERENT {
                self.row(width, op, ids, input)?;
            }
        }
        let different = self.rows - before - equal;
        eprintln!(
            "{} {name}: {equal} rows with equal identities, {different} with different",
            width.bits
        );
        Ok(())
    }
}

fn edges(bits: u64, more: &[u64]) -> Vec<u64> {
    let half = 1u64 << (bits - 1);
    let top = u64::MAX >> (64 - bits);
    let mut edges = vec![0, 1, 2, 3, half - 1, half, half + 1, top - 2, top - 1, top];
    edges.extend([top / 3, top / 3 * 2]);
    edges.extend(more);
    edges
}

fn main() -> io::Result<()> {
    let words = Width {
        bits: 64,
        run: run_word,
        edges: edges(64, &[1 << 31, (1 << 32) - 1, 1 << 32]),
        random: 120,
    };
    let bytes = Width {
        bits: 8,
        run: run_byte,
        edges: edges(8, &[4, 8, 15, 16, 32, 64, 240]),
        random: 120,
    };
    let flags = Width {
        bits: 1,
        run: run_flag,
        edges: vec![0, 1],
        random: 0,
    };
    let mut list = List {
        out: BufWriter::new(io::stdout().lock()),
        rows: 0,
    };
    let mut random = Random(20_240_501);
    writeln!(list.out, "{HEADER}")?;
    for width in [&words, &bytes] {
        for op in 0..OPS.len() {
            list.operation(width, op, &mut random)?;
        }
    }
    for op in BOOL_OPS {
        list.operation(&flags, op, &mut random)?;
    }
    for row in WRONG {
        writeln!(list.out, "{row}")?;
    }
    eprintln!("{} rows, and {} wrong ones", list.rows, WRONG.len());
    list.out.flush()
}
