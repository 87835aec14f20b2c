//! Lines read, and records put.

use crate::desk::{Answer, Outcome};
use crate::words::*;

/// 01, Lines, and 02, No. 5: reads a line that comes in parts, byte by byte, and tells at its end what it
/// says or the field at fault. Of the line nothing is kept but what has been read out of it.
#[derive(Clone, Copy)]
pub struct Reader {
    pub letters: &'static [u8],
    /// the field that the next byte belongs to, and whether it has a byte yet
    pub field: u8,
    pub begun: bool,
    pub fault: Option<u8>,
    pub line: Line,
}

impl Reader {
    pub fn of(letters: &'static [u8]) -> Reader {
        let line = Line { letter: 0, job: 0, cell: 0 };
        Reader { letters, field: LETTER, begun: false, fault: None, line }
    }

    /// A further part of the line. Fields come in their order, so the first fault is in the lowest faulty
    /// field, and what follows it changes nothing.
    pub fn take(&mut self, part: &[u8]) {
        for &byte in part {
            if self.fault.is_some() {
                return;
            }
            let good = if byte == b'\t' { self.next_field() } else { self.one_more(byte) };
            if !good {
                self.fault = Some(self.field);
            }
        }
    }

    /// The next field that the letter has, or END.
    pub fn following(&self) -> u8 {
        match self.field {
            LETTER if has_job(self.line.letter) => JOB,
            JOB if has_cell(self.line.letter) => CELL,
            _ => END,
        }
    }

    /// A tab: false if the field before it is empty, or has no other after it.
    pub fn next_field(&mut self) -> bool {
        if !self.begun {
            return false;
        }
        self.field = self.following();
        self.begun = false;
        self.field != END
    }

    /// A byte of the field: false if it may not stand there.
    pub fn one_more(&mut self, byte: u8) -> bool {
        let first = !self.begun;
        self.begun = true;
        match self.field {
            LETTER => {
                self.line.letter = byte;
                first && self.letters.contains(&byte)
            }
            JOB => add_digit(&mut self.line.job, first, byte, LAST_NUMBER),
            _ => add_digit(&mut self.line.cell, first, byte, LAST_CELL),
        }
    }

    /// The line's end: what it says, or the field at fault. 02, No. 5: "a field that should be there and is
    /// not is faulty", and a missing newline is in what comes after the last field.
    pub fn end(&self, newline: bool) -> Result<Line, u8> {
        match (self.fault, self.following()) {
            (Some(field), _) => Err(field),
            (None, _) if !self.begun => Err(self.field),
            (None, END) if newline => Ok(self.line),
            (None, missing) => Err(missing),
        }
    }
}

/// 01, Lines: decimal, at most `last`; "No sign, no blank, no leading zero except the single `0`." False if
/// the byte may not stand there.
pub fn add_digit(number: &mut u32, first: bool, byte: u8, last: u32) -> bool {
    let leading_zero = !first && *number == 0;
    if leading_zero || !byte.is_ascii_digit() {
        return false;
    }
    let longer = 10 * u64::from(*number) + u64::from(byte - b'0');
    *number = longer.min(u64::from(last)) as u32;
    longer <= u64::from(last)
}

/// 01, Lines: a request line with its newline, or the field at fault (refusal 9).
pub fn read_request(line: &[u8]) -> Result<Line, u8> {
    read_line(line, REQUEST_LETTERS)
}

/// 01, Lines: a history line with its newline, or the field at fault (refusal 9).
pub fn read_history(line: &[u8]) -> Result<Line, u8> {
    read_line(line, HISTORY_LETTERS)
}

/// A whole line, with its newline if it has one.
pub fn read_line(line: &[u8], letters: &'static [u8]) -> Result<Line, u8> {
    let bytes = line.strip_suffix(b"\n").unwrap_or(line);
    let mut reader = Reader::of(letters);
    reader.take(bytes);
    reader.end(bytes.len() < line.len())
}

/// 01, Lines, "The record writer": a number in shortest decimal.
pub fn put_number(out: &mut Vec<u8>, mut number: u64) {
    let mut digits = [0u8; 20];
    let mut at = digits.len();
    loop {
        at -= 1;
        digits[at] = b'0' + (number % 10) as u8;
        number /= 10;
        if number == 0 {
            break;
        }
    }
    out.extend_from_slice(&digits[at..]);
}

pub fn put_field(out: &mut Vec<u8>, number: u64) {
    out.push(b'\t');
    put_number(out, number);
}

/// 01, Lines, "Answer record": request line number, word, number.
pub fn put_record(out: &mut Vec<u8>, line: u64, word: &str, number: u64) {
    put_number(out, line);
    out.push(b'\t');
    out.extend_from_slice(word.as_bytes());
    put_field(out, number);
    out.push(b'\n');
}

/// 02, No. 5: the record of a bad line, with the field at fault.
pub fn put_bad(out: &mut Vec<u8>, line: u64, word: &str, field: u8) {
    put_record(out, line, word, u64::from(BAD_LINE));
    out.pop();
    put_field(out, u64::from(field));
    out.push(b'\n');
}

/// The word and the number of an answer.
pub fn words_of(answer: Answer) -> (&'static str, u64) {
    match answer {
        Answer::Go(job) => ("go", u64::from(job)),
        Answer::Wait(job) => ("wait", u64::from(job)),
        Answer::Back(job) => ("back", u64::from(job)),
        Answer::No(refusal) => ("no", u64::from(refusal)),
    }
}

/// 01, Lines, "Answer record": the answer, then one `wake` record for each wake.
pub fn put_outcome(out: &mut Vec<u8>, line: u64, outcome: &Outcome) {
    let (word, number) = words_of(outcome.answer);
    put_record(out, line, word, number);
    for wake in &outcome.wakes {
        put_record(out, line, "wake", u64::from(wake.job));
    }
}

/// 01, Lines: a request or a history record, without its newline.
pub fn put_fields(out: &mut Vec<u8>, line: Line) {
    out.push(line.letter);
    if has_job(line.letter) {
        put_field(out, u64::from(line.job));
    }
    if has_cell(line.letter) {
        put_field(out, u64::from(line.cell));
    }
}

/// 01, Lines, "History records".
pub fn put_event(out: &mut Vec<u8>, event: Line) {
    put_fields(out, event);
    out.push(b'\n');
}
