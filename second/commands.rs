//! The commands that read standard input, and the steps drawn for the bench.

use crate::chain::{put_chains, put_question, QUESTION};
use crate::desk::{history_of, Answer, AnyDesk, Desk, Outcome};
use crate::judge::{judge, Verdict};
use crate::lines::{put_bad, put_event, put_field, put_outcome, put_record, words_of, Reader};
use crate::stamps::Stamps;
use crate::words::*;
use std::io::{self, ErrorKind, Read, Write};

/// Bytes that are kept of a line of steps. No step is as long, so a longer line is none.
pub const KEPT: usize = 64;
pub const READ_AT_ONCE: usize = 1 << 17;
pub const WRITE_AT_ONCE: usize = 1 << 16;

/// docs/DECISIONS.md, "A read or a write that fails": a failed read ends the input, and the records so
/// far stand.
pub fn read_some(input: &mut impl Read, buffer: &mut [u8]) -> usize {
    loop {
        match input.read(buffer) {
            Ok(count) => return count,
            Err(error) if error.kind() == ErrorKind::Interrupted => {}
            Err(_) => return 0,
        }
    }
}

pub fn keep(kept: &mut Vec<u8>, bytes: &[u8]) {
    let room = (KEPT - kept.len()).min(bytes.len());
    kept.extend_from_slice(&bytes[..room]);
}

pub fn write_out(output: &mut impl Write, out: &mut Vec<u8>) -> io::Result<()> {
    output.write_all(out)?;
    output.flush()?;
    out.clear();
    Ok(())
}

/// Reads the input by lines. `take` takes in the bytes of a line, which may come in parts, but never its
/// newline, from `fresh` on; then `work` puts the line's records, told whether it had a newline, until it
/// says false. All records of complete lines are written before more input is awaited.
/// docs/DECISIONS.md, "What a line is": bytes after the last newline are one more line.
pub fn each_line<T: Clone>(
    mut input: impl Read,
    output: &mut impl Write,
    fresh: T,
    take: impl Fn(&mut T, &[u8]),
    mut work: impl FnMut(T, bool, &mut Vec<u8>) -> bool,
) -> io::Result<()> {
    let mut buffer = vec![0; READ_AT_ONCE];
    let (mut taken, mut begun) = (fresh.clone(), false);
    let mut out = Vec::new();
    loop {
        write_out(output, &mut out)?;
        let count = read_some(&mut input, &mut buffer);
        if count == 0 {
            break;
        }
        for part in buffer[..count].split_inclusive(|&byte| byte == b'\n') {
            let bytes = part.strip_suffix(b"\n").unwrap_or(part);
            take(&mut taken, bytes);
            begun = bytes.len() == part.len();
            if !begun && !work(std::mem::replace(&mut taken, fresh.clone()), true, &mut out) {
                return write_out(output, &mut out);
            }
            if out.len() >= WRITE_AT_ONCE {
                write_out(output, &mut out)?;
            }
        }
    }
    if begun {
        work(taken, false, &mut out);
    }
    write_out(output, &mut out)
}

/// What comes of a request line: the request with its outcome, or the field at fault.
pub type Done = Result<(Line, Outcome), u8>;

/// 01, What is delivered: the desk programs, started at 1, which read 1,000,000 lines and
/// stop, for either desk (02, No. 6). `put` puts the records of one line; handed back is the desk as it
/// is at the end.
pub fn desk_program<D: AnyDesk>(
    input: impl Read,
    output: &mut impl Write,
    put: impl Fn(&mut Vec<u8>, u64, &Done),
) -> io::Result<D> {
    let mut desk = D::start(1).expect("1 is a number to start at");
    let mut number = 0;
    each_line(input, output, Reader::of(REQUEST_LETTERS), Reader::take, |read, newline, out| {
        number += 1;
        put(out, number, &read.end(newline).map(|asked| (asked, desk.step(asked))));
        number < DESK_LINES
    })?;
    Ok(desk)
}

/// The program that prints a desk's answers.
pub fn answers<D: AnyDesk>(input: impl Read, output: &mut impl Write) -> io::Result<()> {
    desk_program::<D>(input, output, |out, number, done| match done {
        Ok((_, outcome)) => put_outcome(out, number, outcome),
        Err(field) => put_bad(out, number, "no", *field),
    })
    .map(drop)
}

/// The program that prints a desk's history.
pub fn history<D: AnyDesk>(input: impl Read, output: &mut impl Write) -> io::Result<()> {
    desk_program::<D>(input, output, |out, _, done| {
        if let Ok((asked, outcome)) = done {
            history_of(*asked, outcome).into_iter().for_each(|event| put_event(out, event));
        }
    })
    .map(drop)
}

/// A reader that remembers the failure which ended it.
pub struct Remember<R> {
    pub input: R,
    pub failed: Option<String>,
}

impl<R: Read> Read for Remember<R> {
    fn read(&mut self, buffer: &mut [u8]) -> io::Result<usize> {
        let read = self.input.read(buffer);
        if let Err(error) = &read {
            if error.kind() != ErrorKind::Interrupted {
                self.failed = Some(error.to_string());
            }
        }
        read
    }
}

/// 02, No. 3: the program that prints the chains of the jobs that wait when its input is at an end, or
/// its 1,000,000 lines are; and nothing before. After a read that failed it prints nothing at all.
pub fn chain(input: impl Read, output: &mut impl Write) -> io::Result<()> {
    let mut input = Remember { input, failed: None };
    let desk = desk_program::<Desk>(&mut input, output, |_, _, _| {})?;
    if let Some(failure) = input.failed {
        eprintln!("second: the input could not be read to its end: {failure}");
        return Ok(());
    }
    let mut out = Vec::new();
    put_chains(&mut out, &desk);
    write_out(output, &mut out)
}

/// 01, The judge's rules, last paragraph: the verdict program. docs/DECISIONS.md, "A read or
/// a write that fails": there is no verdict on a history that could not be read whole.
pub fn verdict(input: impl Read, output: &mut impl Write) -> io::Result<()> {
    let mut text = Vec::new();
    if input.take(HISTORY_BYTES as u64 + 1).read_to_end(&mut text).is_ok() {
        output.write_all(&verdict_line(&text))?;
    }
    output.flush()
}

/// 01, The judge's rules, last paragraph: 16 is tested before anything else.
pub fn judge_within<'a>(text: &'a [u8], order: &mut [u8]) -> Verdict<'a> {
    if text.len() > HISTORY_BYTES {
        Verdict::No { line: 0, refusal: TEXT_LONG, field: None, text: b"" }
    } else {
        judge(text, order)
    }
}

pub fn verdict_line(text: &[u8]) -> Vec<u8> {
    let mut order = [0; HISTORY_JOBS];
    let verdict = judge_within(text, &mut order);
    let mut out = Vec::new();
    put_verdict(&mut out, &verdict, &order);
    out
}

pub fn put_verdict(out: &mut Vec<u8>, verdict: &Verdict, order: &[u8]) {
    let (word, numbers): (&str, Vec<u64>) = match *verdict {
        Verdict::Orderly(count) => ("orderly", order[..count].iter().map(|&job| u64::from(job)).collect()),
        Verdict::Knot(count) => ("knot", order[..count].iter().map(|&job| u64::from(job)).collect()),
        Verdict::Dirty { reader, writer } => ("dirty", vec![u64::from(reader), u64::from(writer)]),
        Verdict::No { line, refusal, field, .. } => {
            ("no", [line as u64, u64::from(refusal)].into_iter().chain(field.map(u64::from)).collect())
        }
    };
    out.extend_from_slice(word.as_bytes());
    for number in numbers {
        put_field(out, number);
    }
    out.push(b'\n');
}

/// The most places that a case lends, and what its header begins with.
pub const CASE_PLACES: usize = 300;
pub const CASE_MARK: u8 = b'=';

/// The judge by cases. A line that begins with `=` is a header: its digits tell how many
/// places are lent, 300 at most, and the lines up to the next header are the history. What
/// stands before the first header, and a header without its newline, is no case. A read that fails
/// leaves the case under way without a verdict.
pub fn cases(mut input: impl Read, output: &mut impl Write) -> io::Result<()> {
    let mut all = Vec::new();
    let whole = input.read_to_end(&mut all).is_ok();
    let mut case: Option<(usize, Vec<u8>)> = None;
    let mut out = Vec::new();
    for line in all.split_inclusive(|&byte| byte == b'\n') {
        if line[0] == CASE_MARK {
            put_case(&mut out, case.take());
            if line.ends_with(b"\n") {
                case = Some((places_of(line), Vec::new()));
            }
        } else if let Some((_, text)) = &mut case {
            text.extend_from_slice(line);
        }
    }
    if whole {
        put_case(&mut out, case);
    }
    write_out(output, &mut out)
}

pub fn places_of(header: &[u8]) -> usize {
    let digits = header.iter().filter(|byte| byte.is_ascii_digit());
    digits.fold(0, |places, &digit| (10 * places + usize::from(digit - b'0')).min(CASE_PLACES))
}

/// The verdict's line, and the line handed back where there is one.
pub fn put_case(out: &mut Vec<u8>, case: Option<(usize, Vec<u8>)>) {
    let Some((places, text)) = case else {
        return;
    };
    let mut order = vec![0; places];
    let verdict = judge_within(&text, &mut order);
    put_verdict(out, &verdict, &order);
    if let Verdict::No { line: 1.., text, .. } = verdict {
        out.extend_from_slice(b"line\t");
        out.extend_from_slice(text);
        out.push(b'\n');
    }
}

/// For tests of the text layer: what the two line readers say of each line.
pub fn lines(input: impl Read, output: &mut impl Write) -> io::Result<()> {
    let mut number = 0;
    let readers = [REQUEST_LETTERS, HISTORY_LETTERS].map(Reader::of);
    let take = |readers: &mut [Reader; 2], part: &[u8]| readers.iter_mut().for_each(|read| read.take(part));
    each_line(input, output, readers, take, |[request, event], newline, out| {
        number += 1;
        put_request_reading(out, number, request.end(newline));
        put_history_reading(out, number, event.end(newline));
        true
    })
}

pub fn put_request_reading(out: &mut Vec<u8>, number: u64, read: Result<Line, u8>) {
    let read = match read {
        Ok(read) => read,
        Err(field) => return put_bad(out, number, "no", field),
    };
    put_record(out, number, "go", u64::from(read.letter));
    if has_job(read.letter) {
        put_record(out, number, "wait", u64::from(read.job));
    }
    if has_cell(read.letter) {
        put_record(out, number, "back", u64::from(read.cell));
    }
}

pub fn put_history_reading(out: &mut Vec<u8>, number: u64, read: Result<Line, u8>) {
    match read {
        Ok(event) => put_event(out, event),
        Err(field) => put_bad(out, number, "wake", field),
    }
}

/// For tests of the lock desk by numbers: steps, and questions after chains, `256 job places`.
pub fn steps(first: u32, input: impl Read, output: &mut impl Write) -> io::Result<bool> {
    by_numbers(first, input, output, |desk: &Desk, line, out| {
        let question = read_question(line);
        if let Some((job, places)) = question {
            put_question(out, desk, job, places);
        }
        question.is_some()
    })
}

/// For tests of the timestamp desk by numbers (02, No. 6): steps alone.
pub fn stamp_steps(first: u32, input: impl Read, output: &mut impl Write) -> io::Result<bool> {
    by_numbers(first, input, output, |_: &Stamps, _, _| false)
}

/// One step a line, `kind job cell`, or a line that `other` knows and answers. True if every line was one
/// of these; the first that was not ends it.
pub fn by_numbers<D: AnyDesk>(
    first: u32,
    input: impl Read,
    output: &mut impl Write,
    other: impl Fn(&D, &[u8], &mut Vec<u8>) -> bool,
) -> io::Result<bool> {
    let mut desk = match D::start(first) {
        Ok(desk) => desk,
        Err(refusal) => {
            let mut out = b"no".to_vec();
            put_field(&mut out, u64::from(refusal));
            out.push(b'\n');
            write_out(output, &mut out)?;
            return Ok(true);
        }
    };
    let mut all_steps = true;
    each_line(input, output, Vec::new(), keep, |line, _, out| {
        if let Some(asked) = read_step(&line) {
            put_step(out, &desk.step(asked));
        } else {
            all_steps = other(&desk, &line, out);
        }
        all_steps
    })?;
    Ok(all_steps)
}

/// Three numbers parted by one blank.
pub fn read_three(line: &[u8]) -> Option<(u16, u32, u32)> {
    if line.len() >= KEPT {
        return None;
    }
    let line = std::str::from_utf8(line.strip_suffix(b"\n").unwrap_or(line)).ok()?;
    let mut numbers = line.split(' ');
    let kind = numbers.next()?.parse().ok()?;
    let job = numbers.next()?.parse().ok()?;
    let third = numbers.next()?.parse().ok()?;
    match numbers.next() {
        Some(_) => None,
        None => Some((kind, job, third)),
    }
}

/// A step: its kind is a byte.
pub fn read_step(line: &[u8]) -> Option<Line> {
    let (kind, job, cell) = read_three(line)?;
    Some(Line { letter: u8::try_from(kind).ok()?, job, cell })
}

/// A question after a chain: its job, and the places lent for the list.
pub fn read_question(line: &[u8]) -> Option<(u32, u32)> {
    let (kind, job, places) = read_three(line)?;
    (kind == QUESTION).then_some((job, places))
}

pub fn put_step(out: &mut Vec<u8>, outcome: &Outcome) {
    let (word, number) = words_of(outcome.answer);
    out.extend_from_slice(word.as_bytes());
    put_field(out, number);
    for wake in &outcome.wakes {
        out.extend_from_slice(b"\twake");
        put_field(out, u64::from(wake.job));
        put_field(out, u64::from(wake.cell));
        put_field(out, u64::from(recorded(wake.letter)));
    }
    out.push(b'\n');
}

/// Of 32 draws 15 read, 6 write, 4 increment, 5 commit, 1 gives up and 1 retries.
pub fn drawn_letter(drawn: u32) -> u8 {
    match drawn {
        0..=14 => READ,
        15..=20 => WRITE,
        21..=24 => INCREMENT,
        25..=29 => COMMIT,
        30 => GIVE_UP,
        _ => RETRY,
    }
}

/// For the bench: 24 hands, each with a job of its own, and a mix of steps drawn from a fixed
/// sequence (x becomes 1,103,515,245 x + 12,345 modulo 2^32, and a draw is its upper half modulo a
/// limit): hand, kind, cell. A hand without a job begins one, a hand whose job was sent back retries, or
/// on the timestamp desk has no job any more. Tells how many went, waited, went back and were refused, and
/// how many woke.
pub fn mix<D: AnyDesk>(count: u32) -> [usize; 5] {
    let mut x: u32 = 1;
    let mut draw = |limit: u32| {
        let drawn = (x >> 16) % limit;
        x = x.wrapping_mul(1_103_515_245).wrapping_add(12_345);
        drawn
    };
    let mut desk = D::start(1).expect("1 is a first number");
    let mut jobs = [0; 24];
    let mut backs = [false; 24];
    let mut tally = [0; 5];
    for _ in 0..count {
        let hand = draw(24) as usize;
        let letter = match draw(32) {
            _ if jobs[hand] == 0 => BEGIN,
            _ if backs[hand] => RETRY,
            drawn => drawn_letter(drawn),
        };
        let outcome = desk.step(Line { letter, job: jobs[hand], cell: draw(64) });
        let place = match outcome.answer {
            Answer::Go(job) => {
                jobs[hand] = if letter == COMMIT || letter == GIVE_UP { 0 } else { job };
                0
            }
            Answer::Wait(_) => 1,
            Answer::Back(_) => 2,
            Answer::No(_) => 3,
        };
        backs[hand] = place == 2;
        if backs[hand] && !D::KEEPS_SENT_BACK {
            jobs[hand] = 0;
        }
        tally[place] += 1;
        tally[4] += outcome.wakes.len();
    }
    tally
}
