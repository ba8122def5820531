// Writes the list that the crate cell_list replays: calls of one value cell and of one InvCell after another, and what Option<u64> and
// std::cell::Cell<u64> made of them. Make it again, in the repository's root:
//
//     mkdir -p target && rustc -O oracle/cell_list.rs -o target/cell_list_oracle && target/cell_list_oracle > crates/cell_list/stdin
//
// The value cell's content is an Option<u64>, and an InvCell is a Cell<u64> with a closure for its predicate: what they hold and give
// back comes from std's own take, set, replace, get and into_inner. Additions around std, which has neither, are the identities of cell
// and permission with refusal 21, and the tests before the refusals 23, 24 and 25.
//
// A row: call, operands a to d (0 where unused), number (0, or the refusal's), got (the value given back, 0 where none), full and kept.
//   1 put     a cell's identity, b permission's identity, c value
//   2 take    a cell's identity, b permission's identity
//   3 borrow  a cell's identity, b permission's identity
//   4 new     a kind of the predicate, b and c its parameters, d value
//   5 set     a value
//   6 replace a value
//   7 get
//   8 into_inner
//   9 predicate  a kind, b and c its parameters, d value: got tells whether d is permitted, full whether the kind is known, and kept
//     whether the parameters are good
// Of the calls 1 to 3 full and kept are the cell's content afterwards, 0 and 0 where it is empty; of 4 to 8 whether there is an InvCell
// afterwards, and the value in it. A refused new and an into_inner leave none.
//
// How many rows each call has, and how many of them are refused, goes to standard error.
use std::cell::Cell;
use std::io::{self, BufWriter, Write};

const HEADER: &str = "call,a,b,c,d,number,got,full,kept";

// The last rows are wrong on purpose, after an InvCell that holds 5: one in its number, the value given back, full and kept each, and one
// that lacks a field. A replay that found them equal would show it.
const WRONG: [&str; 6] = [
    "4,0,0,0,5,0,0,1,5",
    "7,0,0,0,0,25,5,1,5",
    "7,0,0,0,0,0,6,1,5",
    "7,0,0,0,0,0,5,0,5",
    "7,0,0,0,0,0,5,1,6",
    "7,0,0,0,0,0,5,1",
];

const FOREIGN: u64 = 21;
const IS_FULL: u64 = 23;
const IS_EMPTY: u64 = 24;
const NOT_PERMITTED: u64 = 25;

const NAMES: [&str; 9] = [
    "put",
    "take",
    "borrow",
    "new",
    "set",
    "replace",
    "get",
    "into_inner",
    "predicate",
];

type Allows = Box<dyn Fn(u64) -> bool>;

#[derive(Clone, Copy)]
struct Predicate {
    kind: u64,
    a: u64,
    b: u64,
}

impl Predicate {
    fn allows(self) -> Option<Allows> {
        let Predicate { kind, a, b } = self;
        match kind {
            0 => Some(Box::new(|_| true)),
            1 => Some(Box::new(move |v| v == a || v == b)),
            2 => Some(Box::new(move |v| v % 2 == a)),
            _ => None,
        }
    }

    // No value has a rest by 2 above 1.
    fn is_good(self) -> bool {
        self.kind != 2 || self.a < 2
    }
}

struct InvCell {
    allows: Allows,
    cell: Cell<u64>,
}

// What a row tells of a call.
struct Told {
    number: u64,
    got: u64,
    held: Option<u64>,
}

// Numbers that look random and are the same in each run: splitmix64.
struct Random(u64);

impl Random {
    fn next(&mut self) -> u64 {
        self.0 = self.0.wrapping_add(0x9e37_79b9_7f4a_7c15);
        let mut z = self.0;
        z = (z ^ (z >> 30)).wrapping_mul(0xbf58_476d_1ce4_e5b9);
        z = (z ^ (z >> 27)).wrapping_mul(0x94d0_49bb_1331_11eb);
        z ^ (z >> 31)
    }

    fn of(&mut self, values: &[u64]) -> u64 {
        values[(self.next() % values.len() as u64) as usize]
    }

    // A value at the edges, or one of some length in bits.
    fn value(&mut self) -> u64 {
        if self.next() % 2 == 0 {
            self.of(&EDGES)
        } else {
            self.next() >> (self.next() % 64)
        }
    }
}

const EDGES: [u64; 12] = [
    0,
    1,
    2,
    3,
    5,
    13,
    20,
    23,
    (1 << 32) - 1,
    1 << 63,
    u64::MAX - 1,
    u64::MAX,
];

// Identities: neighbours, far apart, and some that agree in their low half.
const IDENTITIES: [u64; 6] = [1, 2, 0, 7, 7 + (1 << 32), u64::MAX];

struct List<W: Write> {
    out: W,
    content: Option<u64>,
    inv: Option<InvCell>,
    random: Random,
    rows: [u64; 9],
    refused: [u64; 9],
}

impl<W: Write> List<W> {
    fn row(&mut self, call: usize, operands: [u64; 4], told: Told) -> io::Result<()> {
        self.rows[call - 1] += 1;
        self.refused[call - 1] += u64::from(told.number != 0);
        let [a, b, c, d] = operands;
        let (full, kept) = match told.held {
            Some(v) => (1, v),
            None => (0, 0),
        };
        writeln!(
            self.out,
            "{call},{a},{b},{c},{d},{},{},{full},{kept}",
            told.number, told.got
        )
    }

    fn on_cell(&mut self, call: usize, cell: u64, permission: u64, v: u64) -> io::Result<()> {
        let (number, got) = if cell != permission {
            (FOREIGN, 0)
        } else {
            match call {
                1 if self.content.is_some() => (IS_FULL, 0),
                1 => {
                    self.content = Some(v);
                    (0, 0)
                }
                2 => self.content.take().map_or((IS_EMPTY, 0), |v| (0, v)),
                _ => self.content.as_ref().map_or((IS_EMPTY, 0), |v| (0, *v)),
            }
        };
        let held = self.content;
        self.row(call, [cell, permission, v, 0], Told { number, got, held })
    }

    fn new_inv(&mut self, p: Predicate, v: u64) -> io::Result<()> {
        let allows = p.allows().expect("a known kind");
        self.inv = if allows(v) {
            Some(InvCell {
                allows,
                cell: Cell::new(v),
            })
        } else {
            None
        };
        let number = if self.inv.is_some() { 0 } else { NOT_PERMITTED };
        let held = self.held();
        self.row(
            4,
            [p.kind, p.a, p.b, v],
            Told {
                number,
                got: 0,
                held,
            },
        )
    }

    fn held(&self) -> Option<u64> {
        self.inv.as_ref().map(|c| c.cell.get())
    }

    // A call on the InvCell that there is.
    fn on_inv(&mut self, call: usize, v: u64) -> io::Result<()> {
        let c = self.inv.as_ref().expect("an InvCell");
        let (number, got) = match call {
            5 | 6 if !(c.allows)(v) => (NOT_PERMITTED, 0),
            5 => {
                c.cell.set(v);
                (0, 0)
            }
            6 => (0, c.cell.replace(v)),
            7 => (0, c.cell.get()),
            _ => (0, self.inv.take().expect("an InvCell").cell.into_inner()),
        };
        let held = self.held();
        self.row(call, [v, 0, 0, 0], Told { number, got, held })
    }

    fn predicate(&mut self, p: Predicate, v: u64) -> io::Result<()> {
        let told = match p.allows() {
            Some(allows) => Told {
                number: 0,
                got: u64::from(allows(v)),
                held: Some(u64::from(p.is_good())),
            },
            None => Told {
                number: 0,
                got: 0,
                held: None,
            },
        };
        self.row(9, [p.kind, p.a, p.b, v], told)
    }

    // A random call of the value cell, one in eight with another's permission.
    fn some_cell_call(&mut self) -> io::Result<()> {
        let call = 1 + (self.random.next() % 3) as usize;
        let cell = self.random.of(&IDENTITIES);
        let permission = if self.random.next() % 8 == 0 {
            self.random.of(&IDENTITIES)
        } else {
            cell
        };
        let v = if call == 1 { self.random.value() } else { 0 };
        self.on_cell(call, cell, permission, v)
    }

    fn some_predicate(&mut self) -> Predicate {
        let kind = self.random.next() % 3;
        let a = if kind == 2 {
            self.random.of(&[0, 1, 0, 1, 2])
        } else {
            self.random.value()
        };
        let b = self.random.value();
        Predicate { kind, a, b }
    }

    // A value for a predicate: often one of its own.
    fn some_value(&mut self, p: Predicate) -> u64 {
        let other = self.random.value();
        self.random.of(&[p.a, p.b, other, other ^ 1])
    }

    // One InvCell from new to into_inner, where new makes one.
    fn some_inv(&mut self) -> io::Result<()> {
        let p = self.some_predicate();
        let first = self.some_value(p);
        self.new_inv(p, first)?;
        if self.inv.is_none() {
            return Ok(());
        }
        for _ in 0..self.random.next() % 32 {
            let call = 5 + (self.random.next() % 3) as usize;
            let v = if call == 7 { 0 } else { self.some_value(p) };
            self.on_inv(call, v)?;
        }
        self.on_inv(8, 0)
    }

    // The examples that the source gives, with the values that it does not allow.
    fn source_examples(&mut self) -> io::Result<()> {
        let five_or_thirteen = Predicate {
            kind: 1,
            a: 5,
            b: 13,
        };
        self.new_inv(five_or_thirteen, 5)?;
        for (call, v) in [(7, 0), (5, 13), (7, 0), (5, 7), (6, 7), (6, 5), (8, 0)] {
            self.on_inv(call, v)?;
        }
        for (a, v) in [(0, 20), (1, 23)] {
            self.new_inv(Predicate { kind: 2, a, b: 0 }, v)?;
            for (call, w) in [(7, 0), (5, v ^ 1), (6, v + 2), (8, 0)] {
                self.on_inv(call, w)?;
            }
            self.new_inv(Predicate { kind: 2, a, b: 0 }, v ^ 1)?;
        }
        self.new_inv(
            Predicate {
                kind: 2,
                a: 2,
                b: 0,
            },
            20,
        )
    }

    // Every kind, two unknown ones too, at edges.
    fn predicates(&mut self) -> io::Result<()> {
        for kind in [0, 1, 2, 3, u64::MAX] {
            for a in [0, 1, 2, 5, u64::MAX] {
                for b in [0, 13] {
                    for v in EDGES {
                        self.predicate(Predicate { kind, a, b }, v)?;
                    }
                }
            }
        }
        Ok(())
    }
}

fn main() -> io::Result<()> {
    let mut list = List {
        out: BufWriter::new(io::stdout().lock()),
        content: None,
        inv: None,
        random: Random(20_240_502),
        rows: [0; 9],
        refused: [0; 9],
    };
    writeln!(list.out, "{HEADER}")?;
    list.source_examples()?;
    list.predicates()?;
    for _ in 0..1500 {
        list.some_cell_call()?;
    }
    for _ in 0..200 {
        list.some_inv()?;
    }
    for (i, name) in NAMES.iter().enumerate() {
        eprintln!("{name}: {} rows, {} refused", list.rows[i], list.refused[i]);
    }
    for row in WRONG {
        writeln!(list.out, "{row}")?;
    }
    eprintln!("{} rows, and the last {}", list.rows.iter().sum::<u64>(), WRONG.len());
    list.out.flush()
}
