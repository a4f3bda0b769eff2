// A plain line loop, to count instructions against: each line `frame` is a tick, answered by its number and `ok`; any other
// line is answered by its number, `no` and 0.
// An emulator that bench/lines_speed.sh may use does not survive the start of Rust's own runtime, so C's `main` is named here: the
// loop is the same.
#![no_main]
use std::io::{self, BufRead, BufReader, BufWriter, Write};

fn answer_lines() -> io::Result<u64> {
    let mut input = BufReader::with_capacity(65536, io::stdin().lock());
    let mut out = BufWriter::with_capacity(65536, io::stdout().lock());
    let mut line = Vec::new();
    let mut number = 0u64;
    let mut ticks = 0u64;
    while input.read_until(b'\n', &mut line)? > 0 {
        number += 1;
        if line.last() == Some(&b'\n') {
            line.pop();
        }
        match line.as_slice() {
            b"frame" => {
                ticks += 1;
                writeln!(out, "{}\tok", number)?;
            }
            _ => writeln!(out, "{}\tno\t0", number)?,
        }
        line.clear();
    }
    out.flush()?;
    Ok(ticks)
}

#[no_mangle]
pub extern "C" fn main() -> i32 {
    match answer_lines() {
        Ok(ticks) => (ticks == 0) as i32,
        Err(_) => 2,
    }
}
