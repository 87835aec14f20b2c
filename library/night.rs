//! A night at the lock desk, in Rust: reads request lines on standard input, and prints what the program
//! `answers` prints for them.
//!
//!     rustc -O --edition 2021 -L target/staticlib -o target/night library/night.rs
//!     target/night < examples/night.requests
mod tuyenlomac;

use std::io::{self, BufRead, BufReader, BufWriter, Write};
use tuyenlomac::{read_request, write_answer, Field, Locks, Refusal, Wakes, Word, RECORD};

/// The first so many lines are answered, the rest is ignored.
const LINES: u64 = 1_000_000;

/// Writes one answer record. It fits, since no line has a number above LINES.
fn put(out: &mut impl Write, line: u64, word: Word, number: u32, field: Option<Field>) -> io::Result<()> {
    let mut record = [0; RECORD];
    let end = write_answer(&mut record, 0, line, word, u64::from(number), field).expect("the record fits");
    out.write_all(&record[..end])
}

/// Answers one line. It ends in its newline; if the last line lacks it, the reader reports a fault.
fn answer(desk: &mut Locks, line: u64, text: &[u8], out: &mut impl Write) -> io::Result<()> {
    let asked = match read_request(text) {
        Ok(asked) => asked,
        // a bad line; the desk does not see it
        Err(field) => return put(out, line, Word::No, Refusal::BadLine.number(), Some(field)),
    };
    let mut wakes = Wakes::new();
    let said = desk.step(asked.kind, asked.job, asked.cell, &mut wakes);
    put(out, line, said.word(), said.number(), None)?;
    // The order matters to a program that keeps what the cells hold. After Back the job's locks are free
    // already: take back here what it did; then tell the jobs that go on, as below; then, in a program with
    // threads, free the mutex. For a give-up, take back before the step. library/count.rs is such a program.
    for wake in &wakes {
        put(out, line, Word::Wake, wake.job, None)?; // a job that waited and goes on now
    }
    Ok(())
}

fn main() -> io::Result<()> {
    let mut desk = Locks::start(1).expect("only 0 is refused"); // one desk for the whole night
    let mut input = BufReader::new(io::stdin().lock());
    let mut out = BufWriter::new(io::stdout().lock());
    let mut text = Vec::new(); // as long as the line
    for line in 1..=LINES {
        text.clear();
        if input.read_until(b'\n', &mut text)? == 0 {
            break;
        }
        answer(&mut desk, line, &text, &mut out)?;
        if !input.buffer().contains(&b'\n') {
            out.flush()?; // so each answer is written at once, through a pipe too
        }
    }
    out.flush()
}
