// A second program for waveforms, written from the rules' words alone: it shares no text and no definition with the proved code.
//
//     mkdir -p target && rustc -O --edition 2021 oracle/vcd.rs -o target/vcd_oracle
//     target/vcd_oracle wave < trace.csv            the waveform of a trace as the runner prints it
//     target/vcd_oracle unwave < wave.vcd           both signals at every time, or `refused,NUMBER,0`
//     target/vcd_oracle list                        the list that crates/vcd_list replays, described below
//     target/vcd_oracle damage SEED N               the N-th of the damaged waveforms that a seed gives
//     target/vcd_oracle compare WORKERS SEED N FOLDER COMMAND..
//         runs a command on the first N of them and compares what it prints with `unwave`; files on which the two differ, up to twenty, are
//         kept in FOLDER
//
// The writer goes through the rows and asks of each what changed. The reader splits a file into lines, says of each line what it is, and
// judges their order; it never writes a file again in order to compare.
//
// # The list
//
// Text, a line a call, ended by LF; the first line is the header. Numbers, decimal below 2^64, with commas between them, then `|`, then
// bytes. A byte that is no printable ASCII, a `|` and a `\` stand as `\` with three decimal digits.
//
//   what      what the line is there for (see below); a replay needs it for its messages only
//   call      1 write, 2 read
//   room      the length of the lent list: bytes for write, words for read
//   number    the refusal's, 0 for none
//   n         the answer: the bytes of the text for write, rows for read; 0 where it is refused
//   exc, rc   the starting signals for write; 0 and 0 for read
//   words     all that follow: the trace for write; for read what is written
//   bytes     behind the bar: for write what is written; the file for read
//
// What is written stands at the start of the lent list, and behind it the list is as it was. In a refusal that is the whole list.
//
// what: 1 traces of some lengths, 2 which signals change, 3 values, 4 still rows, 5 lengths that are no multiple of six, 6 exc above 1, 7
// both refusals of write at once, 8 rooms, 9 times with more digits; 20 files as write writes them, 21 with other rooms, 30 to 32 a byte
// changed, 33 left out, 34 doubled, 35 a file cut, 40 forms, 41 bytes at the end, 42 times at their limit, 43 values at their limit. The
// last lines, 999, are wrong on purpose, one in each thing that is compared and some that cannot be read: a replay that found them equal
// would show it.
use std::collections::BTreeMap;
use std::env;
use std::fs::{self, File};
use std::io::{self, Read, Write};
use std::iter::Peekable;
use std::path::{Path, PathBuf};
use std::process::{self, Command, ExitCode, Stdio};
use std::sync::atomic::{AtomicU64, Ordering};
use std::sync::Mutex;
use std::thread;

// ---------------------------------------------------------------------------------------------------------------------------------------
// The rules.

const NO_ROOM: u64 = 41;
const NO_WAVE: u64 = 42;
const NO_TRACE: u64 = 43;

// A trace that can be lent has at most 2^64 - 1 words, six a row.
const MOST_ROWS: u64 = u64::MAX / 6;

const DECLARATIONS: [&str; 6] = [
    "$timescale 1 ns $end",
    "$scope module lock $end",
    "$var wire 1 e exc $end",
    "$var wire 64 r rc $end",
    "$upscope $end",
    "$enddefinitions $end",
];

#[derive(Clone, Copy, PartialEq, Eq)]
struct Signals {
    exc: u64,
    rc: u64,
}

const fn signals(exc: u64, rc: u64) -> Signals {
    Signals { exc, rc }
}

fn write(trace: &[u64], start: Signals, room: usize) -> Result<String, u64> {
    let rows: Vec<Signals> = trace
        .chunks_exact(6)
        .map(|row| signals(row[4], row[5]))
        .collect();
    if trace.len() % 6 != 0 || start.exc > 1 || rows.iter().any(|s| s.exc > 1) {
        return Err(NO_TRACE);
    }
    let text = text_of(start, &rows);
    if text.len() > room {
        Err(NO_ROOM)
    } else {
        Ok(text)
    }
}

fn text_of(start: Signals, rows: &[Signals]) -> String {
    let mut text = DECLARATIONS.join("\n");
    text += &format!("\n#0\n$dumpvars\n{}e\nb{:b} r\n$end\n", start.exc, start.rc);
    let mut before = start;
    for (n, now) in rows.iter().enumerate() {
        let mut changed = String::new();
        if now.exc != before.exc {
            changed += &format!("{}e\n", now.exc);
        }
        if now.rc != before.rc {
            changed += &format!("b{:b} r\n", now.rc);
        }
        let time = n + 1;
        if !changed.is_empty() || time == rows.len() {
            text += &format!("#{time}\n{changed}");
        }
        before = *now;
    }
    text
}

// What a line of a file is.
#[derive(PartialEq, Eq)]
enum Line<'a> {
    Time(u64),
    Exc(u64),
    Rc(u64),
    Other(&'a [u8]),
}

// A number without a sign or a needless zero, below 2^64.
fn number(digits: &[u8], base: u64) -> Option<u64> {
    let value = |b: &u8| {
        let d = u64::from(b.checked_sub(b'0')?);
        (d < base).then_some(d)
    };
    match digits {
        [] | [b'0', _, ..] => None,
        _ => digits
            .iter()
            .try_fold(0u64, |n, b| n.checked_mul(base)?.checked_add(value(b)?)),
    }
}

fn line_of(line: &[u8]) -> Line<'_> {
    let known = match line {
        [b'#', digits @ ..] => number(digits, 10).map(Line::Time),
        [digit, b'e'] => number(&[*digit], 2).map(Line::Exc),
        [b'b', digits @ .., b' ', b'r'] => number(digits, 2).map(Line::Rc),
        _ => None,
    };
    known.unwrap_or(Line::Other(line))
}

// A file's times, each with the signals from then on, and how many rows it has.
struct Wave {
    times: Vec<(u64, Signals)>,
    rows: u64,
}

fn read(file: &[u8]) -> Option<Wave> {
    let lines = file.strip_suffix(b"\n")?.split(|b| *b == b'\n');
    let mut lines = lines.map(line_of).peekable();
    let start = read_start(&mut lines)?;
    let mut wave = Wave {
        times: vec![(0, start)],
        rows: 0,
    };
    let mut now = start;
    while let Some(line) = lines.next() {
        let Line::Time(time) = line else {
            return None;
        };
        if time <= wave.rows || time > MOST_ROWS {
            return None;
        }
        let before = now;
        now = read_changes(&mut lines, now)?;
        if now == before && lines.peek().is_some() {
            return None;
        }
        wave.times.push((time, now));
        wave.rows = time;
    }
    Some(wave)
}

fn read_start<'a>(lines: &mut impl Iterator<Item = Line<'a>>) -> Option<Signals> {
    let mut is = |line| (lines.next()? == line).then_some(());
    for words in DECLARATIONS {
        is(Line::Other(words.as_bytes()))?;
    }
    is(Line::Time(0))?;
    is(Line::Other(b"$dumpvars"))?;
    let (Line::Exc(exc), Line::Rc(rc)) = (lines.next()?, lines.next()?) else {
        return None;
    };
    (lines.next()? == Line::Other(b"$end")).then_some(signals(exc, rc))
}

// The lines below a time. A signal that is written has to be another than before.
fn read_changes<'a>(
    lines: &mut Peekable<impl Iterator<Item = Line<'a>>>,
    before: Signals,
) -> Option<Signals> {
    let mut now = before;
    if let Some(Line::Exc(exc)) = lines.peek() {
        now.exc = *exc;
        lines.next();
        if now.exc == before.exc {
            return None;
        }
    }
    if let Some(Line::Rc(rc)) = lines.peek() {
        now.rc = *rc;
        lines.next();
        if now.rc == before.rc {
            return None;
        }
    }
    Some(now)
}

impl Wave {
    // The signals at time 0 and after every row.
    fn each(&self) -> impl Iterator<Item = Signals> + '_ {
        let ends = self.times[1..].iter().map(|t| t.0).chain([self.rows + 1]);
        let spans = self.times.iter().zip(ends);
        spans.flat_map(|((from, now), to)| (*from..to).map(|_| *now))
    }

    fn words(&self) -> u128 {
        2 * (u128::from(self.rows) + 1)
    }
}

// The rows and the words that are written, or the refusal's number.
fn read_into(file: &[u8], room: usize) -> Result<(u64, Vec<u64>), u64> {
    let wave = read(file).ok_or(NO_WAVE)?;
    if wave.words() > room as u128 {
        return Err(NO_ROOM);
    }
    Ok((wave.rows, wave.each().flat_map(|s| [s.exc, s.rc]).collect()))
}

// ---------------------------------------------------------------------------------------------------------------------------------------
// The commands on standard input.

// The limits of the program unwave.
const MOST_BYTES: usize = 1 << 18;
const MOST_WORDS: usize = 1 << 15;

// The signals of a trace's rows. A refused scenario's last line is no row.
fn rows_of(trace: &str) -> Option<Vec<Signals>> {
    let rows = trace.lines().skip(1);
    let rows = rows.filter(|line| !line.starts_with("refused,"));
    rows.map(|line| {
        let fields: Vec<&str> = line.split(',').collect();
        let [_, _, _, _, _, exc, rc] = fields[..] else {
            return None;
        };
        Some(signals(exc.parse().ok()?, rc.parse().ok()?))
    })
    .collect()
}

fn wave(trace: &[u8]) -> Option<Vec<u8>> {
    let rows = rows_of(std::str::from_utf8(trace).ok()?)?;
    let text = write(&trace_of(&rows), signals(0, 0), usize::MAX);
    text.ok().map(String::into_bytes)
}

fn unwave(file: &[u8]) -> Vec<u8> {
    let answer = if file.len() > MOST_BYTES {
        Err(NO_ROOM)
    } else {
        read_into(file, MOST_WORDS)
    };
    let lines = match answer {
        Err(number) => format!("refused,{number},0\r\n"),
        Ok((_, words)) => {
            let times = words.chunks(2).enumerate();
            let lines = times.map(|(t, w)| format!("{t},{},{}\r\n", w[0], w[1]));
            "time,exc,rc\r\n".to_string() + &lines.collect::<String>()
        }
    };
    lines.into_bytes()
}

fn input() -> io::Result<Vec<u8>> {
    let mut bytes = Vec::new();
    io::stdin().lock().read_to_end(&mut bytes)?;
    Ok(bytes)
}

// ---------------------------------------------------------------------------------------------------------------------------------------
// Traces and damaged files.

// Numbers that look random and are the same in each run: xorshift64.
struct Random(u64);

impl Random {
    fn new(seed: u64, n: u64) -> Random {
        let mut random = Random(seed.wrapping_mul(1_000_003).wrapping_add(n) | 1 << 63);
        for _ in 0..20 {
            random.next();
        }
        random
    }

    fn next(&mut self) -> u64 {
        self.0 ^= self.0 << 13;
        self.0 ^= self.0 >> 7;
        self.0 ^= self.0 << 17;
        self.0
    }

    fn below(&mut self, n: usize) -> usize {
        ((self.next() >> 20) % n as u64) as usize
    }

    // Near the value before, as a count moves, or far from it.
    fn rc(&mut self, before: u64) -> u64 {
        match self.below(8) {
            0 => self.next() >> self.below(64),
            1 => EDGES[self.below(EDGES.len())],
            k if k < 5 => before.wrapping_add(1),
            _ => before.wrapping_sub(1),
        }
    }

    // Each signal stays more often than not.
    fn rows(&mut self, start: Signals, rows: usize) -> Vec<Signals> {
        let mut now = start;
        let mut made = Vec::new();
        for _ in 0..rows {
            if self.below(3) == 0 {
                now.exc = 1 - now.exc;
            }
            if self.below(3) == 0 {
                now.rc = self.rc(now.rc);
            }
            made.push(now);
        }
        made
    }
}

const EDGES: [u64; 7] = [0, 1, 2, 3, (1 << 63) - 1, 1 << 63, u64::MAX];

// A trace with these signals. The other four words of a row are no signals: they have numbers of all sizes.
fn trace_of(rows: &[Signals]) -> Vec<u64> {
    let rows = rows.iter().zip(0u64..);
    rows.flat_map(|(s, n)| [n % 3, n, 12 * (n % 2), u64::MAX - n, s.exc, s.rc])
        .collect()
}

fn with_byte(file: &[u8], at: usize, b: u8) -> Vec<u8> {
    let mut file = file.to_vec();
    file[at] = b;
    file
}

fn without_byte(file: &[u8], at: usize) -> Vec<u8> {
    [&file[..at], &file[at + 1..]].concat()
}

fn doubled_byte(file: &[u8], at: usize) -> Vec<u8> {
    [&file[..=at], &file[at..]].concat()
}

fn joined<T: AsRef<str>>(lines: &[T]) -> Vec<u8> {
    let ended = lines.iter().map(|l| format!("{}\n", l.as_ref()));
    ended.collect::<String>().into_bytes()
}

// A file of so many bytes: every row changes rc, and the last rows have as many digits as are left.
fn long_file(bytes: usize) -> Vec<u8> {
    let mut text = text_of(signals(0, 0), &[]);
    for time in 1.. {
        let left = bytes - text.len() - format!("#{time}\nb r\n").len();
        let rc = match left {
            0..=64 => 1 << (left - 1),
            65..=128 => (u64::MAX >> 32) - time % 2,
            _ => u64::MAX - time % 2,
        };
        text += &format!("#{time}\nb{rc:b} r\n");
        if left <= 64 {
            break;
        }
    }
    text.into_bytes()
}

// Files at the limits of the program unwave, which come before the damaged ones.
const AT_LIMITS: u64 = 8;

fn at_limits(n: u64) -> Vec<u8> {
    let rows = MOST_WORDS as u64 / 2 - 1;
    match n {
        0 => behind_front(&format!("#{rows}")),
        1 => behind_front(&format!("#{}", rows + 1)),
        2 => behind_front(&format!("#{rows};b101 r")),
        3 => behind_front(&format!("#5;1e;#{};b101 r", rows + 1)),
        4 => long_file(MOST_BYTES),
        5 => long_file(MOST_BYTES + 1),
        6 => with_byte(&long_file(MOST_BYTES), MOST_BYTES - 1, b'0'),
        _ => with_byte(&long_file(MOST_BYTES + 1), 0, b'0'),
    }
}

// A waveform of some rows, damaged once or twice, or not at all.
fn damage(seed: u64, n: u64) -> Vec<u8> {
    if n < AT_LIMITS {
        return at_limits(n);
    }
    let mut random = Random::new(seed, n);
    let rows = [0, 1, 2, 5, 12, 101][random.below(6)];
    let start = signals(random.below(2) as u64, EDGES[random.below(4)]);
    let made = random.rows(start, rows);
    let mut file = text_of(start, &made).into_bytes();
    for _ in 0..[0, 1, 1, 1, 2][random.below(5)] {
        file = if random.below(2) == 0 {
            damage_bytes(&mut random, file)
        } else {
            damage_lines(&mut random, &file)
        };
    }
    file
}

// Behind the declarations more often than in them.
fn place_in(random: &mut Random, length: usize, declared: usize) -> usize {
    if length > declared && random.below(4) > 0 {
        declared + random.below(length - declared)
    } else {
        random.below(length)
    }
}

fn damage_bytes(random: &mut Random, file: Vec<u8>) -> Vec<u8> {
    if file.is_empty() {
        return b"\n".to_vec();
    }
    let at = place_in(random, file.len(), joined(&DECLARATIONS).len());
    let likely = b"0123456789#be r\n\r$xzBXZ \t";
    let b = likely[random.below(likely.len())];
    match random.below(7) {
        0 => with_byte(&file, at, b),
        1 => with_byte(&file, at, file[at] ^ 1 << random.below(8)),
        2 => without_byte(&file, at),
        3 => doubled_byte(&file, at),
        4 => [&file[..at], &[b], &file[at..]].concat(),
        5 => file[..at].to_vec(),
        _ => [&file[..], &[b]].concat(),
    }
}

fn damage_lines(random: &mut Random, file: &[u8]) -> Vec<u8> {
    let text = String::from_utf8_lossy(file);
    let mut lines: Vec<String> = text.lines().map(String::from).collect();
    if lines.is_empty() {
        return b"\n".to_vec();
    }
    let at = place_in(random, lines.len(), DECLARATIONS.len());
    let other = place_in(random, lines.len(), DECLARATIONS.len());
    match random.below(9) {
        0 => drop(lines.remove(at)),
        1 => lines.insert(at, lines[at].clone()),
        2 => lines.swap(at, other),
        3 => lines[at] = lines[other].clone(),
        4 => lines.insert(at, lines[other].clone()),
        5 => lines.truncate(at + 1),
        6 => lines.push(format!("#{}", random.next() >> random.below(64))),
        7 => lines[at].push('\r'),
        _ => lines[at] = moved(random, &lines[at]),
    }
    joined(&lines)
}

// A line with another number where it has one.
fn moved(random: &mut Random, line: &str) -> String {
    let by = [1, 2, 9, 90, 70_000][random.below(5)];
    match line_of(line.as_bytes()) {
        Line::Time(t) if random.below(2) == 0 => format!("#{}", t.saturating_add(by)),
        Line::Time(t) => format!("#{}", t.saturating_sub(by)),
        Line::Exc(exc) => format!("{}e", 1 - exc),
        Line::Rc(rc) => format!("b{:b} r", random.rc(rc)),
        Line::Other(_) => "b1 r".to_string(),
    }
}

// ---------------------------------------------------------------------------------------------------------------------------------------
// Comparing a program with `unwave`.

struct Compare {
    seed: u64,
    files: u64,
    folder: PathBuf,
    command: Vec<String>,
    next: AtomicU64,
    // How often each first line was the answer, and how often the two differed.
    answers: Mutex<(BTreeMap<String, u64>, u64)>,
}

impl Compare {
    fn one(&self, n: u64, input: &Path) -> io::Result<()> {
        let file = damage(self.seed, n);
        fs::write(input, &file)?;
        let output = Command::new(&self.command[0])
            .args(&self.command[1..])
            .stdin(File::open(input)?)
            .stderr(Stdio::null())
            .output()?;
        let ours = unwave(&file);
        let first = String::from_utf8_lossy(&ours);
        let first = first.lines().next().unwrap_or_default().to_string();
        let mut answers = self.answers.lock().expect("no worker fails");
        *answers.0.entry(first).or_default() += 1;
        if output.stdout != ours {
            answers.1 += 1;
            if answers.1 <= 20 {
                fs::copy(input, self.folder.join(format!("damaged-{n}.vcd")))?;
            }
        }
        Ok(())
    }

    // Where a program cannot be started, all ends.
    fn work(&self, worker: u64) {
        let input = self.folder.join(format!("damaged-input-{worker}"));
        loop {
            let n = self.next.fetch_add(1, Ordering::SeqCst);
            if n >= self.files {
                break;
            }
            if let Err(e) = self.one(n, &input) {
                eprintln!("vcd: {}: {e}", self.command.join(" "));
                process::exit(2);
            }
        }
        let _ = fs::remove_file(&input);
    }

    fn run(&self, workers: u64) -> bool {
        thread::scope(|scope| {
            for worker in 0..workers {
                scope.spawn(move || self.work(worker));
            }
        });
        let answers = self.answers.lock().expect("no worker fails");
        for (first, files) in &answers.0 {
            println!("damaged waveforms, answer {first}: {files}");
        }
        println!("damaged waveforms: {}", self.files);
        println!("different: {}", answers.1);
        self.files > 0 && answers.1 == 0
    }
}

// ---------------------------------------------------------------------------------------------------------------------------------------
// The list.

const HEADER: &str = "what,call,room,number,n,exc,rc,words|bytes";
const WRITE: u64 = 1;
const READ: u64 = 2;
const WRONG: u64 = 999;

struct Call {
    what: u64,
    call: u64,
    room: u64,
    number: u64,
    n: u64,
    start: Signals,
    words: Vec<u64>,
    bytes: Vec<u8>,
}

fn escaped(bytes: &[u8]) -> String {
    let one = |b: &u8| match b {
        b'|' | b'\\' => format!("\\{b:03}"),
        b' '..=b'~' => char::from(*b).to_string(),
        _ => format!("\\{b:03}"),
    };
    bytes.iter().map(one).collect()
}

impl Call {
    fn write(what: u64, trace: &[u64], start: Signals, room: usize) -> Call {
        let answer = write(trace, start, room);
        let text = answer.clone().unwrap_or_default();
        Call {
            what,
            call: WRITE,
            room: room as u64,
            number: answer.err().unwrap_or(0),
            n: text.len() as u64,
            start,
            words: trace.to_vec(),
            bytes: text.into_bytes(),
        }
    }

    fn read(what: u64, file: &[u8], room: usize) -> Call {
        let answer = read_into(file, room);
        let number = *answer.as_ref().err().unwrap_or(&0);
        let (n, words) = answer.unwrap_or_default();
        if number == 0 {
            let each: Vec<_> = words.chunks(2).map(|w| signals(w[0], w[1])).collect();
            assert_eq!(text_of(each[0], &each[1..]).as_bytes(), file, "read back");
        }
        Call {
            what,
            call: READ,
            room: room as u64,
            number,
            n,
            start: signals(0, 0),
            words,
            bytes: file.to_vec(),
        }
    }

    fn line(&self) -> String {
        let Signals { exc, rc } = self.start;
        let numbers = [
            self.what,
            self.call,
            self.room,
            self.number,
            self.n,
            exc,
            rc,
        ];
        let numbers = numbers.iter().chain(&self.words).map(u64::to_string);
        let numbers = numbers.collect::<Vec<_>>().join(",");
        format!("{numbers}|{}", escaped(&self.bytes))
    }
}

// The lines, and how many of them there are of each kind: what, call, number.
#[derive(Default)]
struct List {
    lines: Vec<String>,
    kinds: BTreeMap<(u64, u64, u64), u64>,
    // Every file that write writes in the list, with the rows it has.
    files: Vec<(Vec<u8>, usize)>,
    longest: [usize; 2],
}

impl List {
    fn put(&mut self, call: &Call) {
        *self
            .kinds
            .entry((call.what, call.call, call.number))
            .or_default() += 1;
        self.longest[0] = self.longest[0].max(call.words.len());
        self.longest[1] = self.longest[1].max(call.bytes.len());
        self.lines.push(call.line());
    }

    fn write(&mut self, what: u64, trace: &[u64], start: Signals, room: usize) {
        let call = Call::write(what, trace, start, room);
        self.put(&call);
        if call.number == 0 && !self.files.iter().any(|f| f.0 == call.bytes) {
            assert!(
                read(&call.bytes).is_some(),
                "a file of write is one of read"
            );
            self.files.push((call.bytes, trace.len() / 6));
        }
    }

    fn read(&mut self, what: u64, file: &[u8], room: usize) {
        self.put(&Call::read(what, file, room));
    }

    // A trace that is written where there is room, with three bytes to spare.
    fn good(&mut self, what: u64, start: Signals, rows: &[Signals]) {
        let length = text_of(start, rows).len();
        self.write(what, &trace_of(rows), start, length + 3);
    }

    fn lengths(&mut self) {
        let mut random = Random::new(20_261_115, 0);
        for rows in [0, 1, 2, 3, 5, 7, 8, 20, 70, 70] {
            let start = signals(random.below(2) as u64, random.rc(0));
            let made = random.rows(start, rows);
            self.good(1, start, &made);
        }
    }

    fn changes(&mut self) {
        let four = [(0, 0), (0, 1), (1, 0), (1, 1)].map(|(exc, rc)| signals(exc, rc));
        for start in four {
            self.good(2, start, &[]);
            for one in four {
                self.good(2, start, &[one]);
                for two in four {
                    self.good(2, start, &[one, two]);
                }
            }
        }
    }

    fn values(&mut self) {
        for from in EDGES {
            for to in EDGES {
                self.good(3, signals(0, from), &[signals(1, to)]);
            }
        }
        let powers: Vec<_> = (0..64).map(|k| signals(0, 1 << k)).collect();
        self.good(3, signals(1, u64::MAX), &powers);
        let below: Vec<_> = (0..64).map(|k| signals(k % 2, u64::MAX >> k)).collect();
        self.good(3, signals(0, 0), &below);
    }

    fn still_rows(&mut self) {
        let (start, other) = (signals(0, 5), signals(1, 6));
        for before in [0, 1, 2, 9] {
            for behind in [0, 1, 2, 9] {
                let still = vec![start; before];
                self.good(
                    4,
                    start,
                    &[still, vec![other], vec![other; behind]].concat(),
                );
            }
            self.good(4, start, &vec![start; before]);
            let middle = vec![other; before + 1];
            self.good(4, start, &[vec![start; 2], middle, vec![start]].concat());
        }
    }

    // Refused with much room, with none, and with room for the declarations alone.
    fn no_traces(&mut self) {
        let start = signals(0, 1);
        let rows = [signals(0, 1), signals(1, 2), signals(1, 2)];
        let good = trace_of(&rows);
        for length in [1, 2, 3, 4, 5, 7, 11, 13, 17] {
            self.write(5, &good[..length], start, 400);
            self.write(7, &good[..length], start, 0);
        }
        for exc in [2, 3, 1 << 32, 1 << 63, u64::MAX] {
            for at in 0..3 {
                let mut rows = rows;
                rows[at].exc = exc;
                self.write(6, &trace_of(&rows), start, 400);
                self.write(7, &trace_of(&rows), start, 126);
                self.write(7, &trace_of(&rows), signals(exc, 1), 0);
            }
            self.write(6, &good, signals(exc, 0), 400);
            self.write(6, &[], signals(exc, 0), 400);
            self.write(7, &[], signals(exc, 0), 0);
            self.write(7, &good[..5], signals(exc, 0), 151);
        }
    }

    fn rooms(&mut self) {
        let mut random = Random::new(41, 41);
        for rows in [0, 1, 3, 12] {
            let start = signals(1, 1 << rows);
            let made = random.rows(start, rows);
            let length = text_of(start, &made).len();
            let near = [length - 1, length, length + 1, length + 500];
            for room in (0..4).chain([126, 127, 129, 139, 151, 152]).chain(near) {
                self.write(8, &trace_of(&made), start, room);
            }
        }
        // Every room below what a short file takes.
        let made = [signals(0, 3), signals(0, 3)];
        for room in 0..=text_of(signals(0, 2), &made).len() {
            self.write(8, &trace_of(&made), signals(0, 2), room);
        }
    }

    fn digits(&mut self) {
        for rows in [9, 10, 11, 99, 100, 101] {
            let still = vec![signals(0, 0); rows];
            self.good(9, signals(0, 0), &still);
            self.good(9, signals(1, 0), &still);
            let each: Vec<_> = (1..=rows as u64).map(|n| signals(n % 2, n)).collect();
            self.good(9, signals(0, 0), &each);
            let last = [&still[1..], &[signals(1, 7)]].concat();
            self.good(9, signals(0, 0), &last);
        }
    }

    fn good_files(&mut self) {
        for (file, rows) in self.files.clone() {
            let words = 2 * (rows + 1);
            self.read(20, &file, words);
            self.read(21, &file, words - 1);
        }
        for (file, rows) in self.files.clone().into_iter().step_by(9) {
            let words = 2 * (rows + 1);
            for room in [0, 1, 2, words - 2, words + 1, words + 7] {
                self.read(21, &file, room);
            }
        }
    }

    // Room for eleven rows, so that some of these are 41.
    fn damaged(&mut self, start: Signals, rows: &[Signals]) {
        let file = text_of(start, rows).into_bytes();
        for at in 0..file.len() {
            let b = file[at];
            let one = if b == b'1' { b'2' } else { b'1' };
            self.read(30, &with_byte(&file, at, b ^ 1), 24);
            self.read(31, &with_byte(&file, at, one), 24);
            self.read(32, &with_byte(&file, at, b ^ 128), 24);
            self.read(33, &without_byte(&file, at), 24);
            self.read(34, &doubled_byte(&file, at), 24);
            self.read(35, &file[..at], 24);
        }
    }

    fn all_damaged(&mut self) {
        let (still, last) = (signals(1, 3), signals(0, 0));
        self.damaged(still, &[vec![still; 9], vec![last]].concat());
        let rows = [signals(1, 0), signals(1, 2), signals(1, 2)];
        self.damaged(signals(0, 0), &rows);
    }
}

// The declarations and the dump of 0 and 0, each line.
fn front() -> Vec<&'static str> {
    [
        &DECLARATIONS[..],
        &["#0", "$dumpvars", "0e", "b0 r", "$end"],
    ]
    .concat()
}

// Lines behind the front, with ; between them. Most are wrong.
const FORMS: [&str; 72] = [
    "#1",
    "#1;1e",
    "#1;1e;b1 r",
    // times
    "#1;1e;#1;0e",
    "#1;1e;#1",
    "#2;1e;#1;0e",
    "#2;1e;#1",
    "#2;1e;#0",
    "#0",
    "#0;1e",
    "#1;#2",
    "#1;#2;1e",
    "#1;1e;#2;#3",
    "#1;1e;#2;#3;0e",
    "#3;#3",
    "#1;1e;#3;#3",
    "1e",
    "b1 r",
    "1e;#1",
    "#1;1e;#2;0e;1e",
    "#01;1e",
    "#00",
    "#1;1e;#02",
    "#+1;1e",
    "#-1;1e",
    "# 1;1e",
    "#1 ;1e",
    " #1;1e",
    "#;1e",
    "#1a;1e",
    "#a",
    "#1 1e",
    "#1.0",
    "1",
    "##1",
    // exc
    "#1;0e",
    "#1;1e;0e",
    "#1;1e;1e",
    "#1;xe",
    "#1;ze",
    "#1;Xe",
    "#1;2e",
    "#1;1E",
    "#1;1 e",
    "#1;1e ",
    "#1;11e",
    "#1;e",
    "#1;1r",
    "#1;b1 e",
    "#1;b0 e;b1 r",
    // rc
    "#1;b0 r",
    "#1;1e;b0 r",
    "#1;b1 r;b1 r",
    "#1;b1 r;b10 r",
    "#1;b1 r;1e",
    "#1;b01 r",
    "#1;1e;b01 r",
    "#1;b00 r",
    "#1;bx r",
    "#1;bz r",
    "#1;b1x r",
    "#1;B1 r",
    "#1;b2 r",
    "#1;b+1 r",
    "#1;b r",
    "#1;b1  r",
    "#1;b1r",
    "#1;b 1 r",
    "#1;b1 r ",
    "#1;b1\tr",
    "#1;b1 R",
    "#1;r1 r",
];

// Lines that a file may have by the standard and the rules do not write, behind the front.
const STANDARD: [&str; 9] = [
    "#1;$dumpall;1e;b1 r;$end",
    "#1;$dumpoff;xe;bx r;$end",
    "#1;$comment all is well $end",
    "$comment all is well $end",
    "#1;1e;$end",
    "$dumpvars;0e;b0 r;$end",
    "#0;$dumpvars;0e;b0 r;$end",
    "#1;$dumpvars;1e;b1 r;$end",
    "#1;1e;;#2;0e",
];

// A line of the front, counted from 0, and what stands in its place, with ; between lines; a lone - for none.
const FRONTS: [(usize, &str); 46] = [
    (0, "$timescale 1 us $end"),
    (0, "$timescale 10 ns $end"),
    (0, "$timescale 1ns $end"),
    (0, "$timescale  1 ns $end"),
    (0, "$timescale 1 ns $end "),
    (0, "$timescale;1 ns;$end"),
    (0, "-"),
    (0, ";$timescale 1 ns $end"),
    (0, "$date today $end;$timescale 1 ns $end"),
    (0, "$TIMESCALE 1 ns $end"),
    (1, "$scope module Lock $end"),
    (1, "$scope task lock $end"),
    (1, "-"),
    (2, "$var wire 2 e exc $end"),
    (2, "$var reg 1 e exc $end"),
    (2, "$var wire 1 f exc $end"),
    (2, "$var wire 64 r rc $end;$var wire 1 e exc $end"),
    (2, "-"),
    (3, "$var wire 64 r rc [63:0] $end"),
    (3, "$var wire 32 r rc $end"),
    (3, "$var wire 64 r rc $end;$var wire 64 r rc $end"),
    (3, "-"),
    (4, "-"),
    (4, "$upscope $end;$upscope $end"),
    (5, "-"),
    (5, "$enddefinitions $end;"),
    (6, "-"),
    (6, "#1"),
    (6, "#00"),
    (6, "#0;#0"),
    (7, "-"),
    (7, "$dumpall"),
    (8, "-"),
    (8, "1e"),
    (8, "2e"),
    (8, "xe"),
    (8, "ze"),
    (8, "0e;0e"),
    (9, "-"),
    (9, "b1 r"),
    (9, "b00 r"),
    (9, "bx r"),
    (9, "bz r"),
    (9, "B0 r"),
    (9, "b0 r;b0 r"),
    (10, "-"),
];

fn behind_front(lines: &str) -> Vec<u8> {
    [joined(&front()), joined(&split(lines))].concat()
}

fn split(lines: &str) -> Vec<&str> {
    lines.split(';').collect()
}

fn with_front(at: usize, lines: &str) -> Vec<u8> {
    let mut all = front();
    let new = if lines == "-" { vec![] } else { split(lines) };
    all.splice(at..=at, new);
    all.extend(["#1", "b101 r"]);
    joined(&all)
}

impl List {
    fn forms(&mut self) {
        for lines in FORMS.iter().chain(&STANDARD) {
            self.read(40, &behind_front(lines), 24);
        }
        for (at, lines) in FRONTS {
            self.read(40, &with_front(at, lines), 24);
        }
        let good = behind_front("#1;1e;b1 r;#5");
        let text = String::from_utf8_lossy(&good).into_owned();
        let parts = text.split_once("$dumpvars\n").expect("a dump");
        let swapped = text.replace("0e\nb0 r\n", "b0 r\n0e\n");
        let changed = [
            text.replace('\n', "\r\n"),
            text.replace('\n', "\r"),
            text.replacen('\n', "\r\n", 1),
            text.replace('\n', " "),
            text.replace(' ', "  "),
            text.to_uppercase(),
            format!("\u{feff}{text}"),
            format!("{text}{text}"),
            swapped,
            parts.0.to_string(),
            parts.1.to_string(),
            format!("{}#1\n1e\n", parts.0),
            joined_text(&DECLARATIONS),
            joined_text(&front()),
            String::new(),
        ];
        for file in changed {
            self.read(40, file.as_bytes(), 24);
        }
    }

    fn ends(&mut self) {
        let whole = [
            joined(&front()),
            behind_front("#1;b1 r"),
            behind_front("#9"),
        ];
        for file in whole {
            for end in ["", "\n", "\n\n", " ", " \n", "\0", "\r", "\r\n", "#", "x"] {
                self.read(41, &[&file[..], end.as_bytes()].concat(), 24);
            }
            let bare = &file[..file.len() - 1];
            for end in ["", "\r\n", " \n", "\0\n", "0", "1"] {
                self.read(41, &[bare, end.as_bytes()].concat(), 24);
            }
        }
        for file in ["\n", "\n\n", "#0\n", "#1\n", "$", "\0"] {
            self.read(41, file.as_bytes(), 24);
        }
    }

    fn big_times(&mut self) {
        let most = u128::from(MOST_ROWS);
        let word = 1u128 << 64;
        let near = [most - 1, most, most + 1, most + 2, word / 2, word - 1];
        // Times that would be small if they wrapped, also to two words of room.
        let past = [word, word + 1, word + 2, 10 * word, 10 * word + 1];
        let longer = [10u128.pow(20), 10u128.pow(30), u128::MAX];
        for time in near.into_iter().chain(past).chain(longer) {
            for room in [0, 2, 24] {
                self.read(42, &behind_front(&format!("#{time}")), room);
            }
            self.read(42, &behind_front(&format!("#{time};1e")), 24);
            self.read(42, &behind_front(&format!("#1;1e;#{time};b1 r")), 24);
            self.read(
                42,
                &behind_front(&format!("#{time};1e;#{}", time.saturating_add(1))),
                24,
            );
            self.read(42, &behind_front(&format!("#{time};1e;#2;0e")), 24);
            self.read(42, &behind_front(&format!("#{time};1e;x")), 24);
        }
        // 2 (rows + 1) is past 2^64 for these, if it were a sum that wraps.
        for time in [(1u64 << 63) - 1, 1 << 63, u64::MAX / 2 - 1, 7 << 61] {
            self.read(42, &behind_front(&format!("#{time}")), 24);
        }
        self.read(42, &behind_front(&format!("#1{}", "0".repeat(200))), 24);
        for time in [11u64, 12, 500, 1 << 32, 1 << 60] {
            self.read(42, &behind_front(&format!("#2;1e;#{time};0e")), 24);
        }
    }

    fn big_values(&mut self) {
        let bits = |n: usize, last: &str| format!("b1{}{last} r", "0".repeat(n - 1 - last.len()));
        let ones = |n: usize| format!("b{} r", "1".repeat(n));
        let mut values = vec![
            format!("b{} r", "0".repeat(64)),
            format!("b0{} r", "1".repeat(64)),
        ];
        for n in [63, 64, 65, 66, 128, 129, 200] {
            values.extend([bits(n, ""), bits(n, "1"), ones(n)]);
        }
        for value in values {
            self.read(43, &behind_front(&format!("#1;{value}")), 24);
            self.read(43, &behind_front(&format!("#2;1e;{value};#4;b1 r")), 24);
            self.read(43, &with_front(9, &value), 24);
        }
    }

    // Lines that are wrong in one thing each, made from good ones.
    fn wrong(&mut self) {
        let rows = [signals(1, 0), signals(1, 6), signals(1, 6)];
        let start = signals(0, 0);
        let length = text_of(start, &rows).len();
        let written = || Call::write(WRONG, &trace_of(&rows), start, length + 2);
        let file = text_of(start, &rows).into_bytes();
        let found = || Call::read(WRONG, &file, 10);
        let refused = || Call::read(WRONG, &file[1..], 10);
        let full = || Call::write(WRONG, &trace_of(&rows), start, length - 1);
        let lines: [(fn(&mut Call), Call); 19] = [
            (|c| c.number = 41, written()),
            (|c| c.n += 1, written()),
            (|c| c.start.rc = 1, written()),
            (|c| c.words[17] = 7, written()),
            (|c| c.room -= 3, written()),
            (|c| c.bytes[170] ^= 1, written()),
            (|c| c.bytes.truncate(0), written()),
            (|c| c.bytes.truncate(c.bytes.len() - 1), written()),
            (|c| c.bytes.push(b'\n'), written()),
            (|c| c.number = 43, full()),
            (|c| c.bytes.push(b'$'), full()),
            (|c| c.number = 42, found()),
            (|c| c.n = 4, found()),
            (|c| c.words[7] = 5, found()),
            (|c| c.words.truncate(7), found()),
            (|c| c.words.extend([0, 0]), found()),
            (|c| c.bytes[0] = b'#', found()),
            (|c| c.number = 0, refused()),
            (|c| c.words.push(0), refused()),
        ];
        for (bend, mut call) in lines {
            bend(&mut call);
            self.put(&call);
        }
        self.unreadable(&written().line());
    }

    // A line without its bar, with too few numbers, with more bytes than there is room for, with a call that there is none.
    fn unreadable(&mut self, good: &str) {
        let (numbers, bytes) = good.split_once('|').expect("a bar");
        let other_call = format!("{WRONG},3,{}", &numbers[6..]);
        let lines = [
            format!("{numbers}{bytes}"),
            format!("{WRONG},{WRITE},9,0,0,0|"),
            format!("{numbers}|{}", "0".repeat(1 << 14)),
            format!("{other_call}|{bytes}"),
            format!("{numbers}|\\256"),
            format!("{numbers},x|{bytes}"),
        ];
        *self.kinds.entry((WRONG, 0, 0)).or_default() += lines.len() as u64;
        self.lines.extend(lines);
    }

    fn touched(&self) {
        for ((what, call, number), n) in &self.kinds {
            eprintln!("what {what}, call {call}, number {number}: {n} lines");
        }
        let [words, bytes] = self.longest;
        eprintln!("at most {words} words and {bytes} bytes a line");
        eprintln!("{} lines", self.lines.len());
    }
}

fn joined_text<T: AsRef<str>>(lines: &[T]) -> String {
    String::from_utf8_lossy(&joined(lines)).into_owned()
}

fn list() -> Vec<u8> {
    let mut list = List::default();
    list.lengths();
    list.changes();
    list.values();
    list.still_rows();
    list.no_traces();
    list.rooms();
    list.digits();
    list.good_files();
    list.all_damaged();
    list.forms();
    list.ends();
    list.big_times();
    list.big_values();
    list.wrong();
    list.touched();
    let lines = [vec![HEADER.to_string()], list.lines].concat();
    joined(&lines)
}

// ---------------------------------------------------------------------------------------------------------------------------------------

fn compare(words: &[&str]) -> Option<bool> {
    let [workers, seed, files, folder, command @ ..] = words else {
        return None;
    };
    let compare = Compare {
        seed: seed.parse().ok()?,
        files: files.parse().ok()?,
        folder: PathBuf::from(folder),
        command: command.iter().map(|w| w.to_string()).collect(),
        next: AtomicU64::new(0),
        answers: Mutex::default(),
    };
    if compare.command.is_empty() || fs::create_dir_all(&compare.folder).is_err() {
        return None;
    }
    Some(compare.run(workers.parse().ok()?))
}

// What a command prints; none where the command or its input cannot be understood.
fn printed(words: &[&str]) -> Option<Vec<u8>> {
    match words {
        ["wave"] => wave(&input().ok()?),
        ["unwave"] => Some(unwave(&input().ok()?)),
        ["list"] => Some(list()),
        ["damage", seed, n] => Some(damage(seed.parse().ok()?, n.parse().ok()?)),
        _ => None,
    }
}

fn main() -> ExitCode {
    let args: Vec<String> = env::args().skip(1).collect();
    let words: Vec<&str> = args.iter().map(String::as_str).collect();
    if let ["compare", rest @ ..] = &words[..] {
        if let Some(same) = compare(rest) {
            return ExitCode::from(u8::from(!same));
        }
    } else if let Some(bytes) = printed(&words) {
        let ended = io::stdout().lock().write_all(&bytes);
        return ExitCode::from(if ended.is_ok() { 0 } else { 2 });
    }
    eprintln!(
        "usage: vcd wave < TRACE, vcd unwave < WAVEFORM, vcd list, vcd damage SEED N, \
         or vcd compare WORKERS SEED N FOLDER COMMAND.."
    );
    ExitCode::from(2)
}
