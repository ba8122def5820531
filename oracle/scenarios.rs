// Makes scenario files, runs a program and the second program on each of them, compares every byte that they print, and prints counts.
// `tests/compare.sh` builds and starts it.
//
//     scenarios count                                          how many files each family has
//     scenarios print FAMILY N                                 the N-th file of a family, from 0
//     scenarios compare WORKERS EVERY FAMILY FOLDER SECOND COMMAND..
//         compares on every EVERY-th file of a family, or of all, so many at a time; files on which the two differ are kept in FOLDER
//     scenarios list FOLDER SECOND
//         the list that crates/scenario_list replays: files chosen by family, each with what the second program prints
//
// The list is text, a line a file, ended by LF: the file's bytes, `|`, the bytes that it prints. A byte that is no printable ASCII, a `|`
// and a `\` stand as `\` with two digits of base 16. Its last lines are wrong on purpose, so that a replay which finds everything equal
// shows it.
//
// A file is one input, so each costs two processes. What fits in one file is packed into it where that is the same: when all the threads
// of a play are at their script's end and nothing is held, flag and count stand as after setup, so the next play can follow in the same
// file, by the same threads or by others. Families:
//
//   marked    the marked cases that a file can show
//   edges     each refusal number of a file at its line, and each rule of lines at its edge
//   damaged   every rule of a line broken in every line, truncations, bytes flipped, put in, taken out and exchanged, breaks, setup's
//             numbers against each other, scripts of 64 and 65 operations
//   pairs     two threads with every script of up to three operations, M 1 to 3: every entry in every state that a schedule of any length
//             reaches. Scripts are taken whole, as long as they can be: an operation that can never be passed ends a script, and a shorter
//             script is one whose last operations have not come yet
//   plays     two threads that read and write, scripts of up to four operations, M 1 and 2: every schedule of so many entries, packed
//   triples   three threads that read or write, M 1 to 3: every schedule of so many entries, packed
//   short     random scripts of any operations, random schedules
//   long      sixteen threads, scripts up to 64 operations, thousands of entries
use std::collections::{HashMap, HashSet, VecDeque};
use std::env;
use std::fs::{self, File};
use std::io::{self, Write};
use std::path::{Path, PathBuf};
use std::process::{self, Command, ExitCode, Stdio};
use std::sync::mpsc::{sync_channel, Receiver};
use std::sync::Mutex;
use std::thread;

// Numbers that look random and are the same in each run: splitmix64.
struct Random(u64);

impl Random {
    fn next(&mut self) -> u64 {
        self.0 = self.0.wrapping_add(0x9e37_79b9_7f4a_7c15);
        let mut z = self.0;
        z = (z ^ (z >> 30)).wrapping_mul(0xbf58_476d_1ce4_e5b9);
        z = (z ^ (z >> 27)).wrapping_mul(0x94d0_49bb_1331_11eb);
        z ^ (z >> 31)
    }

    fn below(&mut self, n: usize) -> usize {
        (self.next() % n as u64) as usize
    }

    fn of<T: Copy>(&mut self, values: &[T]) -> T {
        values[self.below(values.len())]
    }
}

// ---------------------------------------------------------------------------------------------------------------------------------------
// A scenario and its text.

type Op = (u64, u64);

#[derive(Clone)]
struct Scenario {
    lock: [u64; 3],
    pred: [u64; 3],
    scripts: Vec<Vec<Op>>,
    schedule: Vec<u64>,
}

const EITHER: [u64; 3] = [1, 5, 13];
const ANY: [u64; 3] = [0, 0, 0];

impl Scenario {
    fn new(top: u64, pred: [u64; 3], scripts: Vec<Vec<Op>>, schedule: Vec<u64>) -> Scenario {
        Scenario {
            lock: [top, 5, scripts.len() as u64],
            pred,
            scripts,
            schedule,
        }
    }

    fn lines(&self) -> Vec<String> {
        let [top, first, threads] = self.lock;
        let [kind, a, b] = self.pred;
        let mut lines = vec![
            "kind,a,b,c".to_string(),
            format!("lock,{top},{first},{threads}"),
            format!("pred,{kind},{a},{b}"),
        ];
        for (i, script) in self.scripts.iter().enumerate() {
            lines.extend(script.iter().map(|(op, v)| format!("op,{i},{op},{v}")));
        }
        for same in self.schedule.chunk_by(|a, b| a == b) {
            lines.extend(
                same.chunks(65535)
                    .map(|c| format!("run,{},{},0", c[0], c.len())),
            );
        }
        lines
    }

    fn text(&self) -> Vec<u8> {
        text(&self.lines())
    }
}

fn text<T: AsRef<str>>(lines: &[T]) -> Vec<u8> {
    lines
        .iter()
        .flat_map(|l| [l.as_ref().as_bytes(), b"\r\n"].concat())
        .collect()
}

fn plain(ops: &[u64]) -> Vec<Op> {
    ops.iter()
        .map(|op| (*op, if *op == 5 { 13 } else { 0 }))
        .collect()
}

// ---------------------------------------------------------------------------------------------------------------------------------------
// Where schedules lead, so that the maker knows which states there are. No answer is taken from here.

#[derive(Clone, Copy, PartialEq, Eq, Hash)]
enum At {
    Idle,
    Try(u64),
    Check,
    Back,
    Reading,
    Wait,
    Take,
    Writing,
    Put,
}

#[derive(Clone, PartialEq, Eq, Hash)]
struct Model {
    exc: bool,
    rc: u64,
    mover: Option<usize>,
    finished: bool,
    threads: Vec<(usize, At)>,
}

impl Model {
    fn new(threads: usize) -> Model {
        Model {
            exc: false,
            rc: 0,
            mover: None,
            finished: false,
            threads: vec![(0, At::Idle); threads],
        }
    }

    // Whether an entry is refused, values other than 5 and 13 not being permitted.
    fn refused(&self, scripts: &[Vec<Op>], t: usize) -> bool {
        let (at, place) = self.threads[t];
        let Some((op, v)) = scripts[t].get(at).copied() else {
            return true;
        };
        let others_idle = self
            .threads
            .iter()
            .enumerate()
            .all(|(i, x)| i == t || x.1 == At::Idle);
        let fits = match place {
            At::Idle => [1, 4, 7].contains(&op),
            At::Reading => [2, 3, 6].contains(&op),
            At::Writing => op == 6 || op == 5 && (v == 5 || v == 13),
            _ => true,
        };
        let begins = op == 7 && self.mover != Some(t);
        self.finished || self.mover.is_some_and(|m| m != t) || !fits || begins && !others_idle
    }

    fn entry(&mut self, scripts: &[Vec<Op>], top: u64, t: usize) {
        if self.refused(scripts, t) {
            return;
        }
        let (at, place) = self.threads[t];
        let op = scripts[t][at].0;
        if op == 7 {
            self.mover = Some(t);
        }
        let (next, to) = self.access(top, place, op);
        if op == 7 && next {
            self.mover = None;
            self.finished = true;
        }
        self.threads[t] = (at + usize::from(next), to);
    }

    fn access(&mut self, top: u64, place: At, op: u64) -> (bool, At) {
        match (place, op) {
            (At::Idle, 1) if self.rc < top => (false, At::Try(self.rc)),
            (At::Try(seen), _) if seen == self.rc => {
                self.rc += 1;
                (false, At::Check)
            }
            (At::Idle, 1) | (At::Try(_), _) => (false, At::Idle),
            (At::Check, _) => {
                if self.exc {
                    (false, At::Back)
                } else {
                    (true, At::Reading)
                }
            }
            (At::Back, _) | (At::Reading, 3) => {
                self.rc -= 1;
                (place == At::Reading, At::Idle)
            }
            (At::Reading, 2) => (true, At::Reading),
            (At::Idle, _) if self.exc => (false, At::Idle),
            (At::Idle, _) => {
                self.exc = true;
                (false, At::Wait)
            }
            (At::Wait, _) => (false, if self.rc == 0 { At::Take } else { At::Wait }),
            (At::Take, 4) => (true, At::Writing),
            (At::Writing, 5) => (false, At::Put),
            (At::Put, _) => {
                self.exc = false;
                (true, At::Idle)
            }
            // take of into_inner, and drops
            _ => (true, At::Idle),
        }
    }
}

// ---------------------------------------------------------------------------------------------------------------------------------------
// marked

fn marked() -> Vec<Scenario> {
    let r = || plain(&[1, 3]);
    let w = || plain(&[4, 5]);
    let s = |top: u64, scripts: Vec<Vec<Op>>, schedule: &[u64]| {
        Scenario::new(top, EITHER, scripts, schedule.to_vec())
    };
    let cycle = [1, 1, 0, 0, 2, 0, 0, 1, 1, 2];
    let again = [&[0, 0, 2][..], &cycle, &cycle].concat();
    let to_the_end = [&again[..], &[0; 9], &[1; 9], &[2; 9], &[0; 9], &[1; 9]].concat();
    vec![
        s(3, vec![plain(&[1, 2, 3])], &[0; 6]),
        s(1, vec![r(), r()], &[0, 0, 0, 1, 1, 0, 1]),
        s(2, vec![r(), r()], &[0, 0, 0, 1, 1, 1]),
        s(3, vec![r(), r()], &[0, 1, 1, 1, 1, 0, 0, 0]),
        s(3, vec![r(), r()], &[0, 1, 1, 1, 0, 0, 0]),
        s(3, vec![r(), w()], &[0, 0, 1, 0, 0, 1, 1]),
        s(
            3,
            vec![plain(&[1, 2, 3]), w()],
            &[1, 1, 1, 1, 0, 0, 0, 1, 0, 0, 0, 0, 0, 0],
        ),
        s(
            3,
            vec![plain(&[1, 6]), plain(&[7])],
            &[0, 0, 0, 0, 1, 1, 1, 1, 1],
        ),
        s(3, vec![plain(&[7, 1]), r()], &[0, 0, 0, 0, 1]),
        s(3, vec![vec![(4, 0), (5, 7)]], &[0; 6]),
        s(2, vec![r(), r(), w()], &again),
        s(2, vec![r(), r(), w()], &to_the_end),
        s(
            u64::MAX,
            vec![plain(&[4, 6]), plain(&[7]), r()],
            &[0, 0, 0, 0, 1, 1, 1, 2, 0, 3, 255],
        ),
        s(1, vec![Vec::new()], &[]),
    ]
}

// ---------------------------------------------------------------------------------------------------------------------------------------
// damaged

// What may stand where a number should.
const ODD_NUMBERS: [&str; 24] = [
    "",
    "00",
    "01",
    "-1",
    "+1",
    " 1",
    "1 ",
    "1.0",
    "1e3",
    "0x1",
    "a",
    "\u{e9}",
    "255",
    "256",
    "65535",
    "65536",
    "18446744073709551615",
    "18446744073709551616",
    "18446744073709551620",
    "28446744073709551615",
    "99999999999999999999",
    "100000000000000000000",
    "000000000000000000001",
    "1\0",
];

const ODD_LINES: [&str; 58] = [
    "",
    ",",
    ",,,",
    ",,,,",
    "kind,a,b,c",
    "kind,a,b,d",
    "Kind,a,b,c",
    "kind,a,b",
    "kind,a,b,c,",
    " kind,a,b,c",
    "lock",
    "lock,3,5",
    "lock,3,5,2,",
    "lock,3,5,2",
    "lock,0,5,2",
    "lock,3,7,2",
    "lock,3,5,0",
    "lock,3,5,16",
    "lock,3,5,17",
    "Lock,3,5,2",
    "pred,1,5,13",
    "pred,3,5,13",
    "pred,2,2,0",
    "pred,2,1,9",
    "pred,0,9,9",
    "preds,0,0,0",
    "op,0,0,0",
    "op,0,8,0",
    "op,0,1,1",
    "op,0,5,7",
    "op,1,7,0",
    "op,2,1,0",
    "op,255,1,0",
    "run,0,0,0",
    "run,0,1,1",
    "run,2,3,0",
    "run,15,1,0",
    "run,16,1,0",
    "run,255,2,0",
    "RUN,0,1,0",
    "run ,0,1,0",
    ",0,1,0",
    "\"run\",0,1,0",
    "run,\"0\",1,0",
    "run,0,1,0\"",
    "r\run,0,1,0",
    "run,0\n,1,0",
    "run,0,1,0\r",
    "\rrun,0,1,0",
    "\nrun,0,1,0",
    "run,0,1,0\n",
    "run,0,1,0\r\r",
    "foo,x,2,3",
    "foo,1,2,3",
    "run,x,0,0",
    "\u{feff}kind,a,b,c",
    "run;0;1;0",
    "run\t0\t1\t0",
];

// Lines in the place of line k of the good file, from 1, or after its last one: each refusal number, each rule at its edge.
const EDGES: [(usize, &str); 44] = [
    (1, "kind,a,b,d"),
    (1, "kind,a,b"),
    (1, "kind,a,b,\"c\""),
    (1, "lock,3,5,2"),
    (2, "lock,x,5,2"),
    (2, "lock,03,5,2"),
    (2, "lock,18446744073709551615,5,2"),
    (2, "lock,18446744073709551616,5,2"),
    (2, "lock,0,5,2"),
    (2, "lock,3,7,2"),
    (2, "lock,3,5,0"),
    (2, "lock,3,5,16"),
    (2, "lock,3,5,17"),
    (2, "pred,1,5,13"),
    (3, "lock,3,5,2"),
    (3, "pred,3,5,13"),
    (3, "pred,2,2,0"),
    (3, "pred,2,1,0"),
    (3, "pred,2,0,0"),
    (3, "run,0,1,0"),
    (4, "op,0,0,0"),
    (4, "op,0,8,0"),
    (4, "op,0,1,1"),
    (4, "op,2,1,0"),
    (4, "op,1,1,0"),
    (4, "foo,0,1,0"),
    (4, "foo,x,1,0"),
    (4, "pred,1,5,13"),
    (4, ""),
    (4, "op,0,1"),
    (4, "op,0,1,0,"),
    (4, "op,0,1,0\r"),
    (4, "op,0,1,0\n"),
    (4, "op,\r0,1,0"),
    (9, "run,255,1,0"),
    (9, "run,256,1,0"),
    (9, "run,0,65535,0"),
    (9, "run,0,65536,0"),
    (9, "run,0,0,0"),
    (9, "run,0,1,1"),
    (9, "op,1,5,13"),
    (9, "lock,3,5,2"),
    (99, "run,0,1,0"),
    (99, ""),
];

fn edges(put: &mut dyn FnMut(Vec<u8>)) {
    let lines = good().lines();
    for (place, line) in EDGES {
        let mut other = lines.clone();
        other.truncate(place - 1);
        other.push(line.to_string());
        other.extend(lines.iter().skip(place).cloned());
        put(text(&other));
        // the same as the last line, without its break
        put(other.join("\r\n").into_bytes());
    }
    for length in [79, 80, 81] {
        put(text(&["x".repeat(length)]));
        put("y".repeat(length).into_bytes());
        put(("y".repeat(length) + "\r").into_bytes());
        let mut other = lines.clone();
        other[3] = format!("op,0,1,{}", "0".repeat(length - 7));
        put(text(&other));
    }
    for whole in [
        "",
        "\r",
        "\n",
        "\r\n",
        "\r\n\r\n",
        "\"",
        "kind,a,b,c",
        "kind,a,b,c\r",
        "kind,a,b,c\n",
        "kind,a,b,c\r\n",
    ] {
        put(whole.as_bytes().to_vec());
    }
    for lines in [&lines[..2], &lines[..3], &lines[..8]] {
        put(text(lines));
        put(lines.join("\r\n").into_bytes());
    }
    let long = |last| [plain(&[1, 3]).repeat(32), vec![last]].concat();
    for last in [(1, 0), (8, 0), (3, 1)] {
        put(Scenario::new(3, EITHER, vec![long(last)], vec![0; 3]).text());
    }
    put(Scenario::new(3, EITHER, vec![plain(&[1, 3]).repeat(32)], vec![0; 70]).text());
}

// Lines to put in the place of a good one, or beside it.
fn odd_lines() -> Vec<String> {
    let mut lines: Vec<String> = ODD_LINES.iter().map(|l| l.to_string()).collect();
    for number in ODD_NUMBERS {
        for kind in ["lock", "pred", "op", "run", "foo"] {
            lines.push(format!("{kind},{number},1,0"));
            lines.push(format!("{kind},0,{number},0"));
            lines.push(format!("{kind},0,1,{number}"));
        }
    }
    for length in [79, 80, 81, 82] {
        lines.push(format!("op,0,1,{}", "0".repeat(length - 7)));
        lines.push("x".repeat(length));
        lines.push(format!("run,0,1,{}", "\"".repeat(length - 8)));
        lines.push(format!("{},1,2,3", "y".repeat(length - 6)));
        lines.push(format!("lock,3,5,{}", "9".repeat(length - 9)));
    }
    lines
}

fn good() -> Scenario {
    Scenario::new(
        3,
        EITHER,
        vec![plain(&[1, 2, 3]), plain(&[4, 5])],
        vec![0, 0, 1, 1, 0, 0, 0, 1, 1, 1, 2, 1, 1],
    )
}

// Every odd line at every place, in the place of the line there and before it; every line taken out, and done twice.
fn wrong_lines(put: &mut dyn FnMut(Vec<u8>)) {
    let lines = good().lines();
    let odd = odd_lines();
    for i in 0..=lines.len() {
        for line in &odd {
            let mut more = lines.clone();
            more.insert(i, line.clone());
            put(text(&more));
            if i < lines.len() {
                more.remove(i + 1);
                put(text(&more));
            }
        }
        for j in 0..lines.len() {
            let mut moved = lines.clone();
            let line = moved.remove(j);
            put(text(&moved));
            moved.insert(i.min(moved.len()), line);
            put(text(&moved));
        }
    }
}

// Every byte flipped in each bit, exchanged for, preceded by and followed by the bytes that matter; taken out; the file cut there.
fn wrong_bytes(put: &mut dyn FnMut(Vec<u8>)) {
    let bytes = good().text();
    let odd = *b"\r\n,\"0159 x-\0\xff";
    for i in 0..=bytes.len() {
        put(bytes[..i].to_vec());
        put(bytes[i..].to_vec());
        for b in odd {
            let mut more = bytes.clone();
            more.insert(i, b);
            put(more.clone());
            if i < bytes.len() {
                more.remove(i + 1);
                put(more);
            }
        }
        if i == bytes.len() {
            continue;
        }
        let mut less = bytes.clone();
        less.remove(i);
        put(less);
        for bit in 0..8 {
            let mut flipped = bytes.clone();
            flipped[i] ^= 1 << bit;
            put(flipped);
        }
    }
}

fn wrong_breaks(put: &mut dyn FnMut(Vec<u8>)) {
    let lines = good().lines();
    for brk in ["\n", "\r", "\n\r", "\r\r\n", "\r\n\n", "\r\n\r\n", ""] {
        put(lines.join(brk).into_bytes());
        put((lines.join(brk) + brk).into_bytes());
        for i in 0..lines.len() {
            let (before, after) = (lines[..=i].join("\r\n"), lines[i + 1..].join("\r\n"));
            put(format!("{before}{brk}{after}").into_bytes());
        }
        put(format!("{}{brk}", lines.join("\r\n")).into_bytes());
        put(brk.as_bytes().to_vec());
    }
}

// Setup's numbers against each other at the pred line.
fn wrong_setups(put: &mut dyn FnMut(Vec<u8>)) {
    for threads in [0, 1, 2, 16, 17, u64::MAX] {
        for top in [0, 1, u64::MAX] {
            for pred in [
                ANY,
                EITHER,
                [1, 13, 5],
                [2, 0, 9],
                [2, 1, 0],
                [2, 2, 0],
                [2, u64::MAX, 0],
                [3, 5, 5],
                [u64::MAX, 0, 0],
            ] {
                for first in [0, 5, 13, 7, u64::MAX] {
                    let mut s = good();
                    s.lock = [top, first, threads];
                    s.pred = pred;
                    put(s.text());
                }
            }
        }
    }
}

// Scripts at and above the most operations, with and without a bad code on that line, in each of sixteen threads.
fn long_scripts(put: &mut dyn FnMut(Vec<u8>)) {
    for t in 0..16 {
        for length in [63, 64, 65, 66] {
            for last in [(1, 0), (0, 0), (8, 0), (3, 1)] {
                let mut scripts = vec![plain(&[4, 5]); 16];
                scripts[t] =
                    [plain(&[1, 3]).repeat(40)[..length - 1].to_vec(), vec![last]].concat();
                put(Scenario::new(3, EITHER, scripts, vec![t as u64; 140]).text());
            }
        }
    }
}

// ---------------------------------------------------------------------------------------------------------------------------------------
// pairs

// Every script of three operations, or fewer where the last can never be passed.
fn scripts_of_three() -> Vec<Vec<Op>> {
    let letters: [Op; 8] = [
        (1, 0),
        (2, 0),
        (3, 0),
        (4, 0),
        (5, 13),
        (5, 7),
        (6, 0),
        (7, 0),
    ];
    let mut done = Vec::new();
    let mut open = vec![(Vec::new(), At::Idle)];
    while let Some((script, place)) = open.pop() {
        for op in letters {
            let mut more: Vec<Op> = script.clone();
            more.push(op);
            let to = match (place, op) {
                (At::Idle, (1, _)) | (At::Reading, (2, _)) => Some(At::Reading),
                (At::Idle, (4, _)) => Some(At::Writing),
                (At::Reading, (3 | 6, _)) | (At::Writing, (5, 13) | (6, _)) => Some(At::Idle),
                _ => None,
            };
            match to {
                Some(p) if more.len() < 3 => open.push((more, p)),
                _ => done.push(more),
            }
        }
    }
    // After into_inner every operation is refused alike.
    done.extend([plain(&[7, 1]), plain(&[1, 3]), plain(&[4, 5]), Vec::new()]);
    done
}

// The states that schedules reach, and where each entry leads.
struct Graph {
    next: Vec<Vec<usize>>,
}

impl Graph {
    fn of(scripts: &[Vec<Op>], top: u64) -> Graph {
        let start = Model::new(scripts.len());
        let mut number = HashMap::from([(start.clone(), 0)]);
        let mut states = vec![start];
        let mut next = Vec::new();
        while next.len() < states.len() {
            let from = states[next.len()].clone();
            let mut edges = Vec::new();
            for t in 0..scripts.len() {
                let mut to = from.clone();
                to.entry(scripts, top, t);
                let fresh = states.len();
                let n = *number.entry(to.clone()).or_insert(fresh);
                if n == fresh {
                    states.push(to);
                }
                edges.push(n);
            }
            next.push(edges);
        }
        Graph { next }
    }

    // The shortest way from a state to an entry not yet made, that entry included.
    fn way(&self, from: usize, made: &HashSet<(usize, usize)>) -> Option<Vec<usize>> {
        let mut open = VecDeque::from([(from, Vec::new())]);
        let mut seen = HashSet::from([from]);
        while let Some((n, way)) = open.pop_front() {
            for (t, to) in self.next[n].iter().enumerate() {
                let mut longer = way.clone();
                longer.push(t);
                if !made.contains(&(n, t)) {
                    return Some(longer);
                }
                if seen.insert(*to) {
                    open.push_back((*to, longer));
                }
            }
        }
        None
    }

    // Schedules that make every entry in every state.
    fn walks(&self) -> Vec<Vec<u64>> {
        let mut made = HashSet::new();
        let mut walks = Vec::new();
        while self.way(0, &made).is_some() {
            let mut at = 0;
            let mut walk = Vec::new();
            while let Some(way) = self.way(at, &made) {
                for t in way {
                    made.insert((at, t));
                    walk.push(t as u64);
                    at = self.next[at][t];
                }
            }
            walks.push(walk);
        }
        walks
    }
}

const TAIL: [u64; 20] = [0, 0, 0, 0, 0, 1, 1, 1, 1, 1, 0, 1, 0, 0, 0, 0, 1, 1, 1, 1];

fn pairs(put: &mut dyn FnMut(Vec<u8>)) {
    let scripts = scripts_of_three();
    for i in 0..scripts.len() {
        for j in i..scripts.len() {
            for top in 1..=3 {
                let (a, b) = if (i + j) % 2 == 0 { (i, j) } else { (j, i) };
                let both = vec![scripts[a].clone(), scripts[b].clone()];
                for mut walk in Graph::of(&both, top).walks() {
                    // What the last entry left is seen in what follows.
                    walk.extend(TAIL);
                    put(Scenario::new(top, EITHER, both.clone(), walk).text());
                }
            }
        }
    }
}

// ---------------------------------------------------------------------------------------------------------------------------------------
// plays and triples

// Plays of one kind one after the other, until a file is full: each by the next threads that have room in their scripts.
struct Pack<'a> {
    top: u64,
    width: usize,
    file: Scenario,
    group: usize,
    value: u64,
    put: &'a mut dyn FnMut(Vec<u8>),
}

const FULL: usize = 64;

impl<'a> Pack<'a> {
    fn new(top: u64, width: usize, put: &'a mut dyn FnMut(Vec<u8>)) -> Pack<'a> {
        Pack {
            top,
            width,
            file: Scenario::new(top, ANY, vec![Vec::new(); 16 / width * width], Vec::new()),
            group: 0,
            value: 1000,
            put,
        }
    }

    fn play(&mut self, scripts: &[Vec<Op>], schedule: &[usize]) {
        let from = self.group * self.width;
        let room =
            (0..self.width).all(|i| self.file.scripts[from + i].len() + scripts[i].len() <= FULL);
        if !room {
            self.group += 1;
            if (self.group + 1) * self.width > self.file.scripts.len() {
                self.flush();
            }
        }
        let from = self.group * self.width;
        for (i, script) in scripts.iter().enumerate() {
            for (op, _) in script {
                // Each release puts another value, so that a stale one is seen.
                self.value += u64::from(*op == 5);
                let v = if *op == 5 { self.value } else { 0 };
                self.file.scripts[from + i].push((*op, v));
            }
        }
        self.file
            .schedule
            .extend(schedule.iter().map(|t| (from + t) as u64));
    }

    fn flush(&mut self) {
        if !self.file.schedule.is_empty() {
            (self.put)(self.file.text());
        }
        let threads = self.file.scripts.len();
        self.file = Scenario::new(self.top, ANY, vec![Vec::new(); threads], Vec::new());
        self.group = 0;
    }
}

// Brings every script to its end, in the drain order of the rules.
fn close(model: &mut Model, scripts: &[Vec<Op>], top: u64, schedule: &mut Vec<usize>) {
    let threads = scripts.len();
    let mut go = |model: &mut Model, t: usize, goes_on: &dyn Fn((usize, At)) -> bool| {
        while goes_on(model.threads[t]) {
            model.entry(scripts, top, t);
            schedule.push(t);
        }
    };
    let waits = (0..threads).find(|t| model.threads[*t].1 == At::Wait);
    for t in (0..threads).filter(|t| Some(*t) != waits).chain(waits) {
        go(model, t, &|x| x.1 != At::Idle);
    }
    for t in 0..threads {
        let length = scripts[t].len();
        go(model, t, &|x| x.0 < length);
    }
}

// Every schedule of so many entries, threads at their script's end left out, each brought to its end.
fn every_schedule(pack: &mut Pack, scripts: &[Vec<Op>], depth: usize) {
    let mut open = vec![(Model::new(scripts.len()), Vec::new())];
    while let Some((mut model, mut schedule)) = open.pop() {
        let live: Vec<usize> = (0..scripts.len())
            .filter(|t| model.threads[*t].0 < scripts[*t].len())
            .collect();
        if schedule.len() == depth || live.len() < 2 {
            close(&mut model, scripts, pack.top, &mut schedule);
            pack.play(scripts, &schedule);
            continue;
        }
        for t in live {
            let (mut to, mut longer) = (model.clone(), schedule.clone());
            to.entry(scripts, pack.top, t);
            longer.push(t);
            open.push((to, longer));
        }
    }
}

const PLAY_ENTRIES: usize = 14;
const TRIPLE_ENTRIES: usize = 9;

fn plays(put: &mut dyn FnMut(Vec<u8>)) {
    let scripts: Vec<Vec<Op>> = [
        &[1, 3][..],
        &[4, 5],
        &[1, 2, 3],
        &[1, 3, 4, 5],
        &[4, 5, 1, 3],
        &[4, 5, 4, 5],
    ]
    .iter()
    .map(|s| plain(s))
    .collect();
    for top in [1, 2] {
        let mut pack = Pack::new(top, 2, put);
        for i in 0..scripts.len() {
            for j in i..scripts.len() {
                every_schedule(
                    &mut pack,
                    &[scripts[i].clone(), scripts[j].clone()],
                    PLAY_ENTRIES,
                );
            }
        }
        pack.flush();
    }
}

fn triples(put: &mut dyn FnMut(Vec<u8>)) {
    let scripts: Vec<Vec<Op>> = [&[1, 3][..], &[4, 5], &[1, 2, 3]]
        .iter()
        .map(|s| plain(s))
        .collect();
    for top in 1..=3 {
        let mut pack = Pack::new(top, 3, put);
        for (i, j, k) in [
            (0, 0, 0),
            (0, 0, 1),
            (0, 1, 0),
            (1, 0, 0),
            (0, 1, 1),
            (1, 0, 1),
            (1, 1, 0),
            (1, 1, 1),
            (2, 1, 2),
            (0, 1, 2),
        ] {
            let three = [scripts[i].clone(), scripts[j].clone(), scripts[k].clone()];
            every_schedule(&mut pack, &three, TRIPLE_ENTRIES);
        }
        pack.flush();
    }
}

// ---------------------------------------------------------------------------------------------------------------------------------------
// short and long

impl Random {
    // A script that fits, but for one operation in `strange`; with drops and into_inner where `ends`.
    fn script(&mut self, length: usize, strange: usize, ends: bool, pred: [u64; 3]) -> Vec<Op> {
        let mut place = At::Idle;
        let mut script = Vec::new();
        for _ in 0..length {
            let op = match place {
                _ if self.below(strange) == 0 => 1 + self.below(7) as u64,
                At::Idle => self.of(&[1, 1, 1, 4, 4, if ends { 7 } else { 1 }]),
                At::Reading => self.of(&[2, 3, 3, if ends { 6 } else { 2 }]),
                _ => self.of(&[5, 5, 5, if ends { 6 } else { 5 }]),
            };
            place = match (place, op) {
                (At::Idle, 1) => At::Reading,
                (At::Idle, 4) => At::Writing,
                (At::Reading, 3 | 6) | (At::Writing, 5 | 6) => At::Idle,
                _ => place,
            };
            script.push((
                op,
                if op == 5 {
                    self.value(pred, strange)
                } else {
                    0
                },
            ));
        }
        script
    }

    fn value(&mut self, pred: [u64; 3], strange: usize) -> u64 {
        let other = self.next() >> self.below(64);
        match pred {
            _ if self.below(strange) == 0 => other,
            [1, a, b] => self.of(&[a, b]),
            [2, a, _] => other / 2 * 2 + a,
            _ => other,
        }
    }

    fn pred(&mut self) -> ([u64; 3], u64) {
        self.of(&[
            (ANY, 5),
            (EITHER, 5),
            ([2, 1, 7], u64::MAX),
            ([2, 0, 0], 0),
            ([0, 9, 9], u64::MAX),
        ])
    }

    fn schedule(&mut self, threads: usize, length: usize, most: usize) -> Vec<u64> {
        let mut schedule = Vec::new();
        while schedule.len() < length {
            let thread = if self.below(60) == 0 {
                self.of(&[threads as u64, 16, 255])
            } else {
                self.below(threads) as u64
            };
            let times = 1 + self.below(most);
            schedule.extend(vec![thread; times]);
        }
        schedule
    }

    fn scenario(
        &mut self,
        threads: usize,
        length: usize,
        strange: usize,
        entries: usize,
    ) -> Scenario {
        let (pred, first) = self.pred();
        let ends = self.below(3) == 0;
        let top = self.of(&[1, 2, 3, 5, u64::MAX]);
        let scripts = (0..threads).map(|_| {
            let length = self.below(length + 1);
            self.script(length, strange, ends, pred)
        });
        let scripts = scripts.collect();
        let most = self.of(&[1, 2, 4, 9]);
        let schedule = self.schedule(threads, entries, most);
        let mut s = Scenario::new(top, pred, scripts, schedule);
        s.lock[1] = first;
        s
    }
}

fn short(put: &mut dyn FnMut(Vec<u8>)) {
    let mut random = Random(20_261_101);
    for _ in 0..31_500 {
        let (threads, length, entries) = (1 + random.below(5), random.below(9), random.below(90));
        put(random.scenario(threads, length, 12, entries).text());
    }
}

fn long(put: &mut dyn FnMut(Vec<u8>)) {
    let mut random = Random(20_261_102);
    for k in 0..1_500 {
        let entries = if k % 50 == 7 {
            100_000
        } else {
            1_000 + random.below(4_000)
        };
        put(random.scenario(16, FULL, 2_000, entries).text());
    }
}

// ---------------------------------------------------------------------------------------------------------------------------------------
// tidy

impl Random {
    // Whole sections: reads with up to three borrows, and releases of values that are permitted.
    fn sections(&mut self, most: usize, pred: [u64; 3]) -> Vec<Op> {
        let mut script = Vec::new();
        for _ in 0..self.below(most + 1) {
            if self.below(3) == 0 {
                let value = self.value(pred, usize::MAX);
                script.extend([(4, 0), (5, value)]);
            } else {
                script.push((1, 0));
                script.extend(vec![(2, 0); self.below(4)]);
                script.push((3, 0));
            }
        }
        script.truncate(FULL);
        let unfinished = script.iter().rposition(|o| o.0 == 1 || o.0 == 4);
        match (script.last(), unfinished) {
            (Some((3 | 5, _)), _) | (None, _) => script,
            (_, at) => script[..at.unwrap_or(0)].to_vec(),
        }
    }
}

// Scripts that a drain can end, with a schedule that stops anywhere, before its first entry too.
fn tidy(put: &mut dyn FnMut(Vec<u8>)) {
    let mut random = Random(20_261_116);
    for k in 0..6_000 {
        let (threads, most) = if k % 40 == 0 {
            (16, 20)
        } else {
            (1 + random.below(5), 1 + random.below(4))
        };
        let (pred, first) = random.pred();
        let scripts = (0..threads).map(|_| random.sections(most, pred)).collect();
        let top = random.of(&[1, 2, 3, 5, u64::MAX]);
        let (entries, times) = (random.below(20 * threads), random.of(&[1, 2, 4, 9]));
        let schedule = random.schedule(threads, entries, times);
        let mut s = Scenario::new(top, pred, scripts, schedule);
        s.lock[1] = first;
        put(s.text());
    }
}

// ---------------------------------------------------------------------------------------------------------------------------------------
// The families, and the comparison.

type Put<'a> = &'a mut dyn FnMut(Vec<u8>);

fn damaged(put: Put) {
    let mut seen = HashSet::new();
    let mut once = |text: Vec<u8>| {
        if seen.insert(text.clone()) {
            put(text);
        }
    };
    wrong_lines(&mut once);
    wrong_bytes(&mut once);
    wrong_breaks(&mut once);
    wrong_setups(&mut once);
    long_scripts(&mut once);
}

fn all_marked(put: Put) {
    marked().iter().for_each(|s| put(s.text()));
}

const FAMILIES: [(&str, fn(Put)); 9] = [
    ("marked", all_marked),
    ("edges", edges),
    ("damaged", damaged),
    ("pairs", pairs),
    ("plays", plays),
    ("triples", triples),
    ("short", short),
    ("long", long),
    ("tidy", tidy),
];

#[derive(Clone, Copy, Default)]
struct Counts {
    files: u64,
    in_bytes: u64,
    out_bytes: u64,
    rows: u64,
    refused: u64,
    different: u64,
}

struct Compare {
    family: String,
    folder: PathBuf,
    second: Vec<String>,
    command: Vec<String>,
    counts: Mutex<Vec<Counts>>,
}

// What a command prints on a file; none where it was ended by a signal.
fn prints(command: &[String], input: &Path) -> io::Result<Option<Vec<u8>>> {
    let output = Command::new(&command[0])
        .args(&command[1..])
        .stdin(File::open(input)?)
        .stderr(Stdio::null())
        .output()?;
    Ok(output.status.code().map(|_| output.stdout))
}

impl Compare {
    fn one(&self, family: usize, text: &[u8], input: &Path) -> io::Result<()> {
        fs::write(input, text)?;
        let (theirs, ours) = (prints(&self.command, input)?, prints(&self.second, input)?);
        let same = ours.is_some() && ours == theirs;
        let printed = ours.unwrap_or_default();
        let lines = printed.iter().filter(|b| **b == b'\n').count() as u64;
        let has = |word: &[u8]| u64::from(printed.windows(8).any(|w| w == word));
        let (refused, drained) = (has(b"refused,"), has(b"drained,"));
        let mut counts = self.counts.lock().expect("no worker fails");
        let c = &mut counts[family];
        c.files += 1;
        c.in_bytes += text.len() as u64;
        c.out_bytes += printed.len() as u64;
        c.rows += lines.saturating_sub(1 + refused + drained);
        c.refused += refused;
        if !same {
            c.different += 1;
            if c.different <= 20 {
                let name = format!("{}-{}", FAMILIES[family].0, c.different);
                fs::copy(input, self.folder.join(name + ".csv"))?;
            }
        }
        Ok(())
    }

    // Takes one file after the other until there are no more. Where a program cannot be started, all ends.
    fn work(&self, worker: usize, jobs: &Mutex<Receiver<(usize, Vec<u8>)>>) {
        let input = self.folder.join(format!("input-{worker}"));
        loop {
            let job = jobs.lock().expect("no worker fails").recv();
            let Ok((family, text)) = job else {
                break;
            };
            if let Err(e) = self.one(family, &text, &input) {
                eprintln!("scenarios: {}: {e}", self.command.join(" "));
                process::exit(2);
            }
        }
        let _ = fs::remove_file(&input);
    }

    fn report(&self) -> bool {
        println!(
            "{:8} {:>8} {:>10} {:>8} {:>12} {:>12} {:>9}",
            "family", "files", "rows", "refused", "bytes in", "bytes out", "different"
        );
        let counts = self.counts.lock().expect("no worker fails");
        let mut all = Counts::default();
        let print = |name: &str, c: &Counts| {
            println!(
                "{name:8} {:>8} {:>10} {:>8} {:>12} {:>12} {:>9}",
                c.files, c.rows, c.refused, c.in_bytes, c.out_bytes, c.different
            );
        };
        for ((name, _), c) in FAMILIES.iter().zip(counts.iter()) {
            print(name, c);
            all.files += c.files;
            all.rows += c.rows;
            all.refused += c.refused;
            all.in_bytes += c.in_bytes;
            all.out_bytes += c.out_bytes;
            all.different += c.different;
        }
        print("all", &all);
        all.files > 0 && all.different == 0
    }
}

fn compare(workers: usize, every: u64, compare: &Compare) -> io::Result<bool> {
    fs::create_dir_all(&compare.folder)?;
    let (send, receive) = sync_channel(64);
    let jobs = Mutex::new(receive);
    thread::scope(|scope| {
        for worker in 0..workers {
            let jobs = &jobs;
            scope.spawn(move || compare.work(worker, jobs));
        }
        let wanted = |name: &str| compare.family == "all" || compare.family == name;
        for (family, (_, make)) in FAMILIES.iter().enumerate().filter(|f| wanted(f.1 .0)) {
            let mut n = 0;
            make(&mut |text| {
                if n % every == 0 {
                    let _ = send.send((family, text));
                }
                n += 1;
            });
        }
        drop(send);
    });
    Ok(compare.report())
}

fn count() {
    for (name, make) in FAMILIES {
        let (mut files, mut bytes) = (0u64, 0);
        make(&mut |text| {
            files += 1;
            bytes += text.len();
        });
        println!("{name:8} {files:>8} files {bytes:>12} bytes");
    }
}

fn print_one(name: &str, wanted: u64) {
    for (_, make) in FAMILIES.iter().filter(|f| f.0 == name) {
        let mut n = 0;
        make(&mut |text| {
            if n == wanted {
                let _ = io::stdout().write_all(&text);
            }
            n += 1;
        });
    }
}

// ---------------------------------------------------------------------------------------------------------------------------------------
// The list that is replayed.

// Of each family every so many-th file, as far as it is no longer than `LISTED`, and what it prints no longer than `PRINTED`.
const CHOSEN: [u64; 8] = [1, 1, 13, 997, 0, 0, 199, 0];

const LISTED: usize = 2_000;

const PRINTED: usize = 4_000;

fn escaped(bytes: &[u8]) -> String {
    let mut s = String::new();
    for &b in bytes {
        match b {
            b'|' | b'\\' => s += &format!("\\{b:02x}"),
            b' '..=b'~' => s.push(char::from(b)),
            _ => s += &format!("\\{b:02x}"),
        }
    }
    s
}

// Wrong on purpose: a byte of a row, a row too few, a byte too many, another refusal, no bar.
fn wrong_ones(text: &[u8], printed: &[u8]) {
    let (file, rows) = (escaped(text), escaped(printed));
    let mut other = printed.to_vec();
    other[40] ^= 1;
    println!("{file}|{}", escaped(&other));
    println!("{file}|{}", &rows[..rows.len() - 19]);
    println!("{file}|{rows} ");
    println!("{file}|{rows}refused,32,9\\0d\\0a");
    println!("{file}{rows}");
}

fn list(folder: &Path, second: &str) -> io::Result<()> {
    fs::create_dir_all(folder)?;
    let input = folder.join("input");
    let command = [second.to_string(), "run".to_string()];
    let mut first = None;
    for ((_, make), every) in FAMILIES.iter().zip(CHOSEN).filter(|f| f.1 > 0) {
        let mut chosen = Vec::new();
        let mut n = 0;
        make(&mut |text| {
            if n % every == 0 && text.len() <= LISTED {
                chosen.push(text);
            }
            n += 1;
        });
        for text in chosen {
            fs::write(&input, &text)?;
            let printed = prints(&command, &input)?.unwrap_or_default();
            if printed.len() <= PRINTED {
                println!("{}|{}", escaped(&text), escaped(&printed));
                first.get_or_insert((text, printed));
            }
        }
    }
    fs::remove_file(&input)?;
    if let Some((text, printed)) = first {
        wrong_ones(&text, &printed);
    }
    Ok(())
}

fn usage() -> ExitCode {
    eprintln!(
        "usage: scenarios count, scenarios print FAMILY N, scenarios list FOLDER SECOND, \
         or scenarios compare WORKERS EVERY FAMILY FOLDER SECOND COMMAND.."
    );
    ExitCode::from(2)
}

fn main() -> ExitCode {
    let args: Vec<String> = env::args().skip(1).collect();
    let words: Vec<&str> = args.iter().map(String::as_str).collect();
    match words[..] {
        ["count"] => count(),
        ["print", name, n] => match n.parse() {
            Ok(n) => print_one(name, n),
            Err(_) => return usage(),
        },
        ["list", folder, second] => {
            if let Err(e) = list(Path::new(folder), second) {
                eprintln!("scenarios: {second}: {e}");
                return ExitCode::from(2);
            }
        }
        ["compare", workers, every, family, folder, second, _, ..] => {
            let (Ok(workers), Ok(every @ 1..)) = (workers.parse(), every.parse()) else {
                return usage();
            };
            let all = Compare {
                family: family.to_string(),
                folder: PathBuf::from(folder),
                second: vec![second.to_string(), "run".to_string()],
                command: args[6..].to_vec(),
                counts: Mutex::new(vec![Counts::default(); FAMILIES.len()]),
            };
            match compare(workers, every, &all) {
                Ok(true) => {}
                Ok(false) => return ExitCode::from(1),
                Err(e) => {
                    eprintln!("scenarios: {e}");
                    return ExitCode::from(2);
                }
            }
        }
        _ => return usage(),
    }
    ExitCode::SUCCESS
}
