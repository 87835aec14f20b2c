//! The timestamp desk (02, No. 6): open jobs by number, and for each cell the largest numbers that read
//! and wrote it. Nobody waits, and who is sent back is closed.

use crate::desk::{first_number, refusal_of_begin, Answer, AnyDesk, Outcome};
use crate::words::*;

/// 02, No. 6: "the largest job number that read it and the largest that wrote it, 0 at first".
#[derive(Clone, Copy, PartialEq, Debug, Default)]
pub struct Marks {
    pub reader: u32,
    pub writer: u32,
}

/// 02, No. 6: "An increment counts as a read and a write, `u` as a read."
pub fn reads(letter: u8) -> bool {
    matches!(letter, READ | UPDATE | INCREMENT)
}

pub fn writes(letter: u8) -> bool {
    matches!(letter, WRITE | INCREMENT)
}

impl Marks {
    /// 02, No. 6: a read is held against the writer number, a write against both; "Equal numbers go".
    pub fn let_go(&self, letter: u8, job: u32) -> bool {
        job >= self.writer && (!writes(letter) || job >= self.reader)
    }

    /// docs/DECISIONS.md, No. 6: what an action that goes sets. Nothing else sets a number, or lowers one.
    pub fn set(&mut self, letter: u8, job: u32) {
        if reads(letter) {
            self.reader = self.reader.max(job);
        }
        if writes(letter) {
            self.writer = job;
        }
    }
}

/// The next number to give, the open jobs (in order of number) and the 64 cells' numbers.
#[derive(Clone, PartialEq, Debug)]
pub struct Stamps {
    pub next: u64,
    pub jobs: Vec<u32>,
    pub cells: Vec<Marks>,
}

impl AnyDesk for Stamps {
    const KEEPS_SENT_BACK: bool = false;

    fn start(first: u32) -> Result<Stamps, u8> {
        Stamps::start(first)
    }

    fn step(&mut self, asked: Line) -> Outcome {
        Stamps::step(self, asked)
    }
}

impl Stamps {
    /// A fresh desk, as the lock desk; refusal 10.
    pub fn start(first: u32) -> Result<Stamps, u8> {
        Ok(Stamps { next: first_number(first)?, jobs: Vec::new(), cells: vec![Marks::default(); CELLS] })
    }

    /// One request, one answer, and never a wake. Fields a kind does not use are not read.
    pub fn step(&mut self, asked: Line) -> Outcome {
        Outcome::alone(match (self.refusal(asked), asked.letter) {
            (Some(number), _) => Answer::No(number),
            (None, BEGIN) => self.begin(),
            (None, COMMIT | GIVE_UP) => {
                self.close(asked.job);
                Answer::Go(asked.job)
            }
            (None, _) => self.ask(asked),
        })
    }

    /// docs/DECISIONS.md, No. 6: 1; for begin 7, 6; else 3, then 19 for retry, 2 for what has a cell.
    pub fn refusal(&self, asked: Line) -> Option<u8> {
        let Line { letter, job, cell } = asked;
        if !REQUEST_LETTERS.contains(&letter) {
            Some(NO_SUCH_KIND)
        } else if letter == BEGIN {
            self.refusal_of_begin()
        } else if !self.jobs.contains(&job) {
            Some(JOB_NOT_OPEN)
        } else if letter == RETRY {
            Some(NO_RETRY)
        } else if has_cell(letter) && cell as usize >= CELLS {
            Some(NO_SUCH_CELL)
        } else {
            None
        }
    }

    pub fn refusal_of_begin(&self) -> Option<u8> {
        refusal_of_begin(self.next, self.jobs.len())
    }

    pub fn begin(&mut self) -> Answer {
        let number = self.next as u32;
        self.next += 1;
        self.jobs.push(number);
        Answer::Go(number)
    }

    /// Commit, give-up and back: the job's place is free, and the cells' numbers stay.
    pub fn close(&mut self, job: u32) {
        self.jobs.retain(|&open| open != job);
    }

    /// Read, write, increment and `u` by an open job. "Sent back closes the job".
    pub fn ask(&mut self, asked: Line) -> Answer {
        let Line { letter, job, cell } = asked;
        let marks = &mut self.cells[cell as usize];
        if marks.let_go(letter, job) {
            marks.set(letter, job);
            Answer::Go(job)
        } else {
            self.close(job);
            Answer::Back(job)
        }
    }
}
