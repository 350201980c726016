//! Prints the distinct ids of a file, rising: a plain program over std's hash set, to compare `dedup` with.
//!
//! A line is an id in decimal digits, or empty. It reads the whole file, and prints through one buffer.

use std::collections::HashSet;
use std::error::Error;
use std::io::{self, BufWriter, Write};
use std::{env, fs};

/// Room for the digits of any id and its LF.
const LINE: usize = 21;

/// The digits of all numbers below 100, two each.
const PAIRS: &[u8; 200] = b"\
    0001020304050607080910111213141516171819\
    2021222324252627282930313233343536373839\
    4041424344454647484950515253545556575859\
    6061626364656667686970717273747576777879\
    8081828384858687888990919293949596979899";

/// The id of a line; `None` where it has another byte than digits, or is 2^64 or more.
fn id_of(line: &[u8]) -> Option<u64> {
    line.iter().try_fold(0_u64, |id, byte| {
        let digit = byte.wrapping_sub(b'0');
        if digit > 9 {
            return None;
        }
        id.checked_mul(10)?.checked_add(u64::from(digit))
    })
}

/// The distinct ids of a file, in no order; the number of its first bad line where it has one.
fn distinct_ids(bytes: &[u8]) -> Result<HashSet<u64>, usize> {
    let lines = bytes.split(|&byte| byte == b'\n').enumerate();
    lines
        .filter(|(_, line)| !line.is_empty())
        .map(|(at, line)| id_of(line).ok_or(at + 1))
        .collect()
}

/// The line of an id, at the end of `room`.
fn line_of(mut id: u64, room: &mut [u8; LINE]) -> &[u8] {
    let mut start = LINE - 1;
    room[start] = b'\n';
    while id >= 10 {
        let pair = (id % 100) as usize * 2;
        id /= 100;
        start -= 2;
        room[start..start + 2].copy_from_slice(&PAIRS[pair..pair + 2]);
    }
    if id > 0 || start == LINE - 1 {
        start -= 1;
        room[start] = b'0' + id as u8;
    }
    &room[start..]
}

fn print(ids: &[u64]) -> io::Result<()> {
    let mut out = BufWriter::with_capacity(1 << 20, io::stdout().lock());
    let mut room = [0; LINE];
    for &id in ids {
        out.write_all(line_of(id, &mut room))?;
    }
    out.flush()
}

fn main() -> Result<(), Box<dyn Error>> {
    let file = env::args_os().nth(1).ok_or("name a file")?;
    let bytes = fs::read(file)?;
    let distinct = distinct_ids(&bytes).map_err(|line| format!("bad line {line}"))?;
    drop(bytes);
    let mut ids: Vec<u64> = distinct.into_iter().collect();
    ids.sort_unstable();
    print(&ids)?;
    Ok(())
}
