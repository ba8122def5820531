// Hands standard input to a command through a pipe, cut in small pieces. `tests/pipe.sh` builds and starts it.
//
//     cut COMMAND..
//
// A piece has 1 to 9 bytes, and a CR and the LF behind it never come in one piece. A piece is written when the command has read the one
// before, so that each is a read of its own. The sizes look random and are the same in each run for the same bytes.
use std::env;
use std::io::{self, ErrorKind, Read, Write};
use std::os::fd::AsRawFd;
use std::os::raw::{c_int, c_ulong};
use std::process::{self, Child, ChildStdin, Command, ExitCode, Stdio};
use std::thread;
use std::time::Duration;

const MOST: usize = 9;

// Asks how many bytes of a pipe are not read yet. The number is that of Linux, on x86-64 and on Arm.
const FIONREAD: c_ulong = 0x541b;

// Turns given away before the wait becomes a pause: most pieces are read in that time.
const TURNS: u32 = 50;

extern "C" {
    fn ioctl(fd: c_int, request: c_ulong, ...) -> c_int;
}

// Numbers that look random and are the same in each run: splitmix64.
fn next(state: &mut u64) -> u64 {
    *state = state.wrapping_add(0x9e37_79b9_7f4a_7c15);
    let mut z = *state;
    z = (z ^ (z >> 30)).wrapping_mul(0xbf58_476d_1ce4_e5b9);
    z = (z ^ (z >> 27)).wrapping_mul(0x94d0_49bb_1331_11eb);
    z ^ (z >> 31)
}

// How long the next piece of these bytes is.
fn size(bytes: &[u8], random: &mut u64) -> usize {
    let n = bytes.len().min(1 + next(random) as usize % MOST);
    match bytes[..n].windows(2).position(|two| two == b"\r\n") {
        Some(at) => at + 1,
        None => n,
    }
}

fn unread(pipe: &ChildStdin) -> io::Result<c_int> {
    let mut n: c_int = 0;
    // SAFETY: the descriptor is open as long as the pipe is borrowed, and this request writes one c_int to the place it is given
    match unsafe { ioctl(pipe.as_raw_fd(), FIONREAD, &mut n as *mut c_int) } {
        0 => Ok(n),
        _ => Err(io::Error::last_os_error()),
    }
}

// Waits until all is read. Returns whether the command can read on.
fn is_read(pipe: &ChildStdin, child: &mut Child) -> io::Result<bool> {
    let mut turns = 0;
    while unread(pipe)? > 0 {
        if turns < TURNS {
            thread::yield_now();
        } else if child.try_wait()?.is_some() {
            return Ok(false);
        } else {
            thread::sleep(Duration::from_micros(50));
        }
        turns += 1;
    }
    Ok(true)
}

fn hand(bytes: &[u8], mut pipe: ChildStdin, child: &mut Child) -> io::Result<()> {
    let mut random = bytes.iter().fold(0, |s: u64, b| s.wrapping_mul(31).wrapping_add(u64::from(*b)));
    let mut left = bytes;
    while !left.is_empty() {
        let (piece, more) = left.split_at(size(left, &mut random));
        match pipe.write_all(piece) {
            // a command that was refused something need not read to the end
            Err(e) if e.kind() == ErrorKind::BrokenPipe => return Ok(()),
            other => other?,
        }
        if !is_read(&pipe, child)? {
            return Ok(());
        }
        left = more;
    }
    Ok(())
}

fn run(command: &[String]) -> io::Result<process::ExitStatus> {
    let mut bytes = Vec::new();
    io::stdin().read_to_end(&mut bytes)?;
    let mut child = Command::new(&command[0])
        .args(&command[1..])
        .stdin(Stdio::piped())
        .spawn()?;
    let pipe = child.stdin.take().expect("it was asked for");
    hand(&bytes, pipe, &mut child)?;
    child.wait()
}

fn main() -> ExitCode {
    let command: Vec<String> = env::args().skip(1).collect();
    if command.is_empty() {
        eprintln!("usage: cut COMMAND..");
        return ExitCode::from(2);
    }
    match run(&command) {
        Ok(status) => match status.code() {
            Some(code) => ExitCode::from(code as u8),
            // the command was ended by a signal, and so is this: whoever compares sees it
            None => process::abort(),
        },
        Err(e) => {
            eprintln!("cut: {}: {e}", command[0]);
            process::abort()
        }
    }
}
